/* Header and library agree: every function of the header is found by linking,
 * and answers document 01's worked examples. Prints what isn't as worked; the
 * exit status is then 1, as it is where an argument is given. */
#include "droverboot.h"
#include <stdio.h>
#include <string.h>

static int failed = 0;

static void expect(int as_worked, const char *what) {
    if (!as_worked) {
        printf("not as worked: %s\n", what);
        failed = 1;
    }
}

static uint64_t refusal(enum drover_refusal number, uint32_t place) {
    return (uint64_t)number << 32 | place;
}

static uint64_t bits(double length) {
    uint64_t answer;
    memcpy(&answer, &length, sizeof answer);
    return answer;
}

static const uint8_t net_a[] = {4, 0, 1, 1, 5, 0, 1, 4, 1, 2, 4, 2, 3, 4, 0, 3, 5, 0, 2, 6};
static const uint8_t apart[] = {2, 0, 1, 1, 0};
/* Net A in the second form: house ratio 1/1, and the own ratios 1/1, 0/1 and 9/1 of posts 1, 2 and 3. */
static const uint8_t own[] = {0, 4, 0, 1, 1, 5, 1, 1, 0, 1, 9, 1, 0, 1, 4, 1, 2, 4, 2, 3, 4, 0, 3, 5, 0, 2, 6};
static const uint8_t own_refused[] = {0, 3, 0, 1, 1, 0, 1, 1, 1, 0};
/* Net A in the second form, where each post has the house ratio 1/1. */
static const uint8_t house[] = {0, 4, 0, 1, 1, 5, 1, 1, 1, 1, 1, 1, 0, 1, 4, 1, 2, 4, 2, 3, 4, 0, 3, 5, 0, 2, 6};
/* Two posts, whose ratio 2/2 isn't the house ratio 1/1 as numbers. */
static const uint8_t other[] = {0, 2, 0, 1, 1, 1, 2, 2, 0, 1, 4};

static void check(void) {
    expect(drover_check(net_a, sizeof net_a) == 0, "check of net A");
    expect(drover_check(net_a, 19) == refusal(DROVER_CUT_RECORD, 19), "check of a cut record");
    expect(drover_check(NULL, 0) == refusal(DROVER_CUT_RECORD, 0), "check of no byte");
    expect(drover_check(apart, sizeof apart) == 0, "check of two posts apart");
    expect(drover_check(own, sizeof own) == 0, "check of own ratios");
    expect(drover_check(own_refused, sizeof own_refused) == refusal(DROVER_RATIO, 2), "check of a post's ratio");
}

static void plan(void) {
    static const uint16_t worked[3][5] = {
        {DROVER_SOURCE_ENTRY, 0, 1, 2, 99},
        {DROVER_SOURCE_ENTRY, 0, 4, 3, 99},
        {DROVER_SOURCE_ENTRY, 0, 1, 3, 99}};
    static const uint32_t numbers[DROVER_SUMMARY] = {4, 5, 0, 1, 1, 12, 12, 15, 6, 13, 8, 1};
    uint16_t trees[3][5] = {{99, 99, 99, 99, 99}, {99, 99, 99, 99, 99}, {99, 99, 99, 99, 99}};
    uint32_t summary[DROVER_SUMMARY] = {0};
    expect(drover_plan(net_a, sizeof net_a, trees[0], 5, trees[1], 3, trees[2], 5, summary, DROVER_SUMMARY) ==
               refusal(DROVER_SHORT_LIST, 0), "plan with a short list");
    expect(trees[0][0] == 99 && trees[2][0] == 99 && summary[0] == 0, "lists after a refusal");
    expect(drover_plan(net_a, sizeof net_a, trees[0], 5, trees[1], 5, NULL, 0, NULL, 0) ==
               refusal(DROVER_SHORT_LIST, 0), "plan with no list");
    expect(drover_plan(apart, sizeof apart, trees[0], 5, trees[1], 5, trees[2], 5, summary, DROVER_SUMMARY) ==
               refusal(DROVER_NOT_JOINED, 1), "plan of two posts apart");
    expect(drover_plan(net_a, sizeof net_a, trees[0], 5, trees[1], 5, trees[2], 5, summary, DROVER_SUMMARY) == 0,
           "plan of net A");
    expect(memcmp(trees, worked, sizeof trees) == 0, "trees of net A");
    expect(memcmp(summary, numbers, sizeof summary) == 0, "summary of net A");
}

static void plan_own(void) {
    static const uint16_t between[4] = {DROVER_SOURCE_ENTRY, 0, 4, 2};
    static const uint32_t numbers[DROVER_SUMMARY] = {4, 5, 0, 1, 1, 12, 12, 15, 6, 14, 10, 1};
    uint16_t trees[3][4];
    uint32_t summary[DROVER_SUMMARY];
    expect(drover_plan(own, sizeof own, trees[0], 4, trees[1], 4, trees[2], 4, summary, DROVER_SUMMARY) == 0,
           "plan of own ratios");
    expect(memcmp(trees[2], between, sizeof between) == 0, "the third tree of own ratios");
    expect(memcmp(summary, numbers, sizeof summary) == 0, "summary of own ratios");
}

static void rewrite(void) {
    uint8_t room[sizeof net_a + 1];
    memset(room, 99, sizeof room);
    expect(drover_rewrite(net_a, sizeof net_a, room, sizeof net_a - 1) ==
               (DROVER_REFUSED | refusal(DROVER_SHORT_ROOM, 0)), "rewrite into short room");
    expect(drover_rewrite(net_a, sizeof net_a, room, sizeof room) == sizeof net_a, "rewrite of net A");
    expect(memcmp(room, net_a, sizeof net_a) == 0 && room[sizeof net_a] == 99, "room after rewriting");
    uint8_t again[sizeof own];
    expect(drover_rewrite(own, sizeof own, again, sizeof again) == sizeof own &&
               memcmp(again, own, sizeof own) == 0, "rewrite of own ratios");
}

static void to_second(void) {
    uint8_t room[sizeof house + 3];
    memset(room, 99, sizeof room);
    expect(drover_to_second(net_a, sizeof net_a, room, sizeof house - 1) ==
               (DROVER_REFUSED | refusal(DROVER_SHORT_ROOM, 0)), "net A to the second form in short room");
    expect(room[0] == 99, "room after a move that is refused");
    expect(drover_to_second(net_a, sizeof net_a, room, sizeof room) == sizeof house, "net A to the second form");
    expect(memcmp(room, house, sizeof house) == 0 && room[sizeof house] == 99, "net A in the second form");
    expect(drover_to_second(house, sizeof house, NULL, 0) == (DROVER_REFUSED | refusal(DROVER_SAME_FORM, 0)),
           "to the second form from the second");
    expect(drover_to_second(NULL, 0, NULL, 0) == (DROVER_REFUSED | refusal(DROVER_CUT_RECORD, 0)),
           "no byte to the second form");
    expect(drover_to_second(apart, sizeof apart, room, sizeof room) == 8, "two posts apart to the second form");
}

static void to_first(void) {
    uint8_t room[sizeof net_a + 2];
    memset(room, 99, sizeof room);
    expect(drover_to_first(house, sizeof house, room, sizeof net_a - 1) ==
               (DROVER_REFUSED | refusal(DROVER_SHORT_ROOM, 0)), "net A to the first form in short room");
    expect(room[0] == 99, "room after a move back that is refused");
    expect(drover_to_first(house, sizeof house, room, sizeof room) == sizeof net_a, "net A to the first form");
    expect(memcmp(room, net_a, sizeof net_a) == 0 && room[sizeof net_a] == 99, "net A home again");
    expect(drover_to_first(net_a, sizeof net_a, NULL, 0) == (DROVER_REFUSED | refusal(DROVER_SAME_FORM, 0)),
           "to the first form from the first");
    expect(drover_to_first(other, sizeof other, NULL, 0) == (DROVER_REFUSED | refusal(DROVER_OTHER_RATIO, 1)),
           "another ratio to the first form");
    expect(drover_to_first(own, sizeof own, room, sizeof room) == (DROVER_REFUSED | refusal(DROVER_OTHER_RATIO, 2)),
           "the lowest post with another ratio");
}

static void margin(void) {
    int64_t out[2] = {99, 99};
    expect(drover_margin(net_a, sizeof net_a, DROVER_LIGHTEST, 3, out, 2) == 0, "margin of post 3");
    expect(out[0] == -2 && out[1] == 99, "margin in the lightest tree");
    expect(drover_margin(net_a, sizeof net_a, DROVER_BETWEEN, 3, out, 2) == 0 && out[0] == 5,
           "margin in the between tree");
    expect(drover_margin(net_a, sizeof net_a, DROVER_BETWEEN, 3, NULL, 0) == 0, "margin without a place for it");
    expect(drover_margin(net_a, sizeof net_a, DROVER_SHORTEST, 4, out, 2) == refusal(DROVER_NO_SUCH_POST, 0),
           "margin of no post");
    expect(drover_margin(own, sizeof own, DROVER_LIGHTEST, 2, out, 2) == 0 && out[0] == -2,
           "margin by a post's own ratio");
}

static void drawn(void) {
    uint64_t nothing = bits(0.0);
    expect(drover_drawn(0, bits(12.5), nothing) == 200, "12.5 drawn");
    expect(drover_drawn(0, bits(0.1), nothing) == 2, "0.1 drawn");
    expect(drover_drawn(1, bits(0.1), bits(0.1)) == 4, "a corner of 0.1 and 0.1 drawn");
    expect(drover_drawn(1, bits(10.0), bits(2.5)) == 200, "a corner drawn");
    expect(drover_drawn(1, bits(65535.9375), bits(0.0625)) == (DROVER_REFUSED | refusal(DROVER_TOO_LONG, 2)),
           "too long a corner drawn");
    expect(drover_number(drover_drawn(0, nothing, nothing)) == DROVER_ZERO, "the number of a refusal");
    expect(drover_place(drover_drawn(1, bits(1.0), bits(-1.0))) == 1, "the place of a refusal");
}

int main(int arguments, char **names) {
    (void)names;
    expect(arguments == 1, "an argument");
    check();
    plan();
    plan_own();
    rewrite();
    to_second();
    to_first();
    margin();
    drawn();
    return failed;
}
