/* Reads a record from standard input and prints length and radius of its three
 * trees and how many paths were laid, or the refusal. */
#include "droverboot.h"
#include <inttypes.h>
#include <stdio.h>

int main(void) {
    uint8_t record[DROVER_ENOUGH_BYTES];
    uint16_t trees[3][DROVER_MOST_POSTS];
    uint32_t s[DROVER_SUMMARY];
    size_t length = fread(record, 1, sizeof record, stdin);
    uint64_t answer = drover_plan(record, length, trees[0], DROVER_MOST_POSTS, trees[1], DROVER_MOST_POSTS,
                                  trees[2], DROVER_MOST_POSTS, s, DROVER_SUMMARY);
    if (answer != 0)
        return printf("refused %" PRIu32 " %" PRIu32 "\n", drover_number(answer), drover_place(answer)) < 0;
    printf("lightest %" PRIu32 " %" PRIu32 "\n", s[DROVER_LIGHTEST_LENGTH], s[DROVER_LIGHTEST_RADIUS]);
    printf("shortest %" PRIu32 " %" PRIu32 "\n", s[DROVER_SHORTEST_LENGTH], s[DROVER_SHORTEST_RADIUS]);
    printf("between %" PRIu32 " %" PRIu32 "\n", s[DROVER_BETWEEN_LENGTH], s[DROVER_BETWEEN_RADIUS]);
    printf("laid %" PRIu32 "\n", s[DROVER_LAID]);
    return 0;
}
