/* The static library's functions over standard input and output, for a processor on which the library can't be linked into the comparison. A request is nine
 * numbers of 64 bits, lowest byte first: the function, three numbers for it and the lengths of five lists in bytes; then the lists. The answer is the function's
 * answer, whether all that isn't lent is as it was, and the lists but the record, which is the first. */
#include "../../bindings/c/droverboot.h"
#include <stdio.h>
#include <stdlib.h>
#include <string.h>

enum { RECORD, LIGHTEST, SHORTEST, BETWEEN, SUMMARY, LISTS, GUARD = 16, CANARY = 0xa5 };

enum { CHECK, PLAN, REWRITE, MARGIN, DRAWN, TO_SECOND, TO_FIRST };

struct request {
    uint64_t function, numbers[3], lengths[LISTS];
};

/* A list that is lent, between guards. */
struct list {
    uint8_t *all, *lent;
    size_t length;
};

static void ended(const char *why) {
    fprintf(stderr, "serve: %s\n", why);
    exit(1);
}

static struct list list_read(uint64_t length) {
    struct list list = {malloc(length + 2 * GUARD), NULL, length};
    if (list.all == NULL) {
        ended("no memory");
    }
    memset(list.all, CANARY, length + 2 * GUARD);
    list.lent = list.all + GUARD;
    if (fread(list.lent, 1, length, stdin) != length) {
        ended("a request is cut off");
    }
    return list;
}

static int guards_stand(const struct list *list) {
    for (size_t i = 0; i < GUARD; i++) {
        if (list->all[i] != CANARY || list->lent[list->length + i] != CANARY) {
            return 0;
        }
    }
    return 1;
}

static uint64_t answer_to(const struct request *asked, struct list *lists) {
    const uint8_t *record = lists[RECORD].lent;
    const size_t length = lists[RECORD].length;
    const uint64_t *numbers = asked->numbers;
    switch (asked->function) {
    case CHECK:
        return drover_check(record, length);
    case PLAN:
        return drover_plan(record, length, (uint16_t *)lists[LIGHTEST].lent, lists[LIGHTEST].length / 2,
                           (uint16_t *)lists[SHORTEST].lent, lists[SHORTEST].length / 2,
                           (uint16_t *)lists[BETWEEN].lent, lists[BETWEEN].length / 2,
                           (uint32_t *)lists[SUMMARY].lent, lists[SUMMARY].length / 4);
    case REWRITE:
        return drover_rewrite(record, length, lists[1].lent, lists[1].length);
    case MARGIN:
        return drover_margin(record, length, (uint32_t)numbers[0], (uint32_t)numbers[1],
                             (int64_t *)lists[1].lent, lists[1].length / 8);
    case DRAWN:
        return drover_drawn((uint32_t)numbers[0], numbers[1], numbers[2]);
    case TO_SECOND:
        return drover_to_second(record, length, lists[1].lent, lists[1].length);
    case TO_FIRST:
        return drover_to_first(record, length, lists[1].lent, lists[1].length);
    }
    ended("no such function");
    return 0;
}

static void serve(const struct request *asked) {
    struct list lists[LISTS];
    uint64_t answer[2];
    for (int i = 0; i < LISTS; i++) {
        lists[i] = list_read(asked->lengths[i]);
    }
    uint8_t *before = malloc(lists[RECORD].length + 1);
    if (before == NULL) {
        ended("no memory");
    }
    memcpy(before, lists[RECORD].lent, lists[RECORD].length);
    answer[0] = answer_to(asked, lists);
    answer[1] = memcmp(before, lists[RECORD].lent, lists[RECORD].length) == 0;
    free(before);
    for (int i = 0; i < LISTS; i++) {
        answer[1] = answer[1] && guards_stand(&lists[i]);
    }
    fwrite(answer, sizeof answer, 1, stdout);
    for (int i = 0; i < LISTS; i++) {
        if (i != RECORD) {
            fwrite(lists[i].lent, 1, lists[i].length, stdout);
        }
        free(lists[i].all);
    }
    if (fflush(stdout) != 0) {
        ended("nobody listens");
    }
}

int main(void) {
    struct request asked;
    while (fread(&asked, sizeof asked, 1, stdin) == 1) {
        serve(&asked);
    }
    return 0;
}
