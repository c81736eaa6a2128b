/* Droverboot: plans wire looms. The functions of the proved static library.
 *
 * A net is a number of posts, a source post, a house ratio p/q and a list of
 * segments; a segment joins two posts and has a length in sixteenths of a
 * millimetre. In a net of the first form the house ratio rules every post; in
 * one of the second form every post but the source has a ratio of its own, and
 * the house ratio rules nothing. A net comes as a record, a row of bytes; that
 * of the second form begins with 0.
 *
 * Every pointer is followed by the number of entries that it points to; no two
 * of the lists that a call may write into overlap each other or the record.
 * Where the number is 0 the pointer isn't followed. Nothing is kept between
 * calls, and no memory is asked for: a call takes less than 512 KiB of stack
 * (seen by tests, not proved).
 *
 * Whatever can't be done is refused: the answer then holds a number of
 * enum drover_refusal and a place, see drover_number and drover_place, and all
 * that was lent is as it was. No record makes a function fail otherwise.
 */
#ifndef DROVERBOOT_H
#define DROVERBOOT_H

#include <stddef.h>
#include <stdint.h>

#ifdef __cplusplus
extern "C" {
#endif

/* The most posts and segments that a net may have. */
#define DROVER_MOST_POSTS 256
#define DROVER_MOST_SEGMENTS 2048

/* The length of the longest good record. The answer for a longer row of bytes
 * depends on its first DROVER_ENOUGH_BYTES only. */
#define DROVER_LONGEST_RECORD 15367
#define DROVER_ENOUGH_BYTES 15372

/* A tree's entry for the source, which hangs on nothing. */
#define DROVER_SOURCE_ENTRY 65535

/* Why something was refused, and what its place is. docs/RULES.md has the same
 * table, and says which refusal comes first. */
enum drover_refusal {
    /* the post count is 0 or above 256; place: 0 */
    DROVER_POST_COUNT = 1,
    /* the source isn't below the post count; place: 0 */
    DROVER_SOURCE = 2,
    /* q is 0, or p or q is above 10,000; place: 0, or the post whose own ratio
     * it is */
    DROVER_RATIO = 3,
    /* there are more than 2,048 segments; place: 0 */
    DROVER_SEGMENT_COUNT = 4,
    /* a segment's end isn't below the post count; place: the segment */
    DROVER_SEGMENT_END = 5,
    /* both ends of a segment are the same; place: the segment */
    DROVER_SAME_ENDS = 6,
    /* a segment's length is 0 or above 1,048,575; place: the segment */
    DROVER_SEGMENT_LENGTH = 7,
    /* a list lent with one entry for each post has fewer entries than posts, or
     * a lent segment list fewer than the record's segments; place: 0 */
    DROVER_SHORT_LIST = 8,
    /* a post isn't joined to the source; place: the lowest such post */
    DROVER_NOT_JOINED = 9,
    /* the record ends before a number, or inside one after at most three of its
     * bytes; place: the offset of that number */
    DROVER_CUT_RECORD = 10,
    /* a number isn't in its shortest form, or its fourth group says that more
     * follow; place: the offset of that number */
    DROVER_NUMBER_FORM = 11,
    /* bytes follow after the last segment; place: the offset of the first */
    DROVER_EXTRA_BYTES = 12,
    /* a drawn length isn't finite; place: 0, the second leg 1 */
    DROVER_NOT_FINITE = 13,
    /* a drawn length is below zero; place: 0, the second leg 1 */
    DROVER_BELOW_ZERO = 14,
    /* a drawn length is zero, of either sign; place: 0, the second leg 1 */
    DROVER_ZERO = 15,
    /* no longer given: a drawn length is rounded up to a whole sixteenth;
     * place: 0, the second leg 1 */
    DROVER_NOT_SIXTEENTHS = 16,
    /* a drawn length rounded up, or both legs together, is above 65,535.9375 mm;
     * place: 0, the second leg 1, both together 2 */
    DROVER_TOO_LONG = 17,
    /* the room for the written record is too short; place: 0 */
    DROVER_SHORT_ROOM = 18,
    /* the post asked about isn't below the post count; place: 0 */
    DROVER_NO_SUCH_POST = 19,
    /* a post's own p or q isn't the house p or q; place: the lowest such post */
    DROVER_OTHER_RATIO = 20,
    /* the record is already of the form wanted; place: 0 */
    DROVER_SAME_FORM = 30
};

/* The three trees. */
enum drover_tree {
    DROVER_LIGHTEST = 0,
    DROVER_SHORTEST = 1,
    DROVER_BETWEEN = 2
};

/* The places of a summary. P and Q are the house ratio's, in either form. */
enum drover_summary {
    DROVER_POSTS = 0,
    DROVER_SEGMENTS = 1,
    DROVER_SOURCE_POST = 2,
    DROVER_P = 3,
    DROVER_Q = 4,
    DROVER_LIGHTEST_LENGTH = 5,
    DROVER_LIGHTEST_RADIUS = 6,
    DROVER_SHORTEST_LENGTH = 7,
    DROVER_SHORTEST_RADIUS = 8,
    DROVER_BETWEEN_LENGTH = 9,
    DROVER_BETWEEN_RADIUS = 10,
    DROVER_LAID = 11,
    DROVER_SUMMARY = 12 /* how many places there are */
};

/* In the answers of drover_rewrite, drover_to_second, drover_to_first and
 * drover_drawn this bit marks a refusal. */
#define DROVER_REFUSED ((uint64_t)1 << 63)

/* The number of the refusal in an answer. */
static inline uint32_t drover_number(uint64_t answer) {
    return (uint32_t)((answer & ~DROVER_REFUSED) >> 32);
}

/* The place of the refusal in an answer. */
static inline uint32_t drover_place(uint64_t answer) {
    return (uint32_t)answer;
}

/* Reads a record. Answers 0 if it is good, or the refusal (1 to 7, 10 to 12). */
uint64_t drover_check(const uint8_t *record, size_t record_length);

/* Reads a record and builds its three trees. Each list needs an entry for each
 * post; its entry for a post becomes the number of the segment by which the
 * post hangs on its parent, or DROVER_SOURCE_ENTRY. Entries beyond the post
 * count stay as they were. The summary takes as many of its numbers as it has
 * places. Answers 0, or the refusal (1 to 12). */
uint64_t drover_plan(const uint8_t *record, size_t record_length,
                     uint16_t *lightest, size_t lightest_length,
                     uint16_t *shortest, size_t shortest_length,
                     uint16_t *between, size_t between_length,
                     uint32_t *summary, size_t summary_length);

/* Reads a record and writes it into the room. Answers the length written, or
 * DROVER_REFUSED and the refusal (the reader's, or 18). Bytes beyond the length
 * written stay as they were. */
uint64_t drover_rewrite(const uint8_t *record, size_t record_length,
                        uint8_t *room, size_t room_length);

/* Reads a record of the first form and writes it in the second into the room:
 * every post but the source has the house ratio as its own. The net needn't be
 * joined. Answers the length written, or DROVER_REFUSED and the refusal (the
 * reader's, 30 for a record of the second form, or 18). Bytes beyond the length
 * written stay as they were. */
uint64_t drover_to_second(const uint8_t *record, size_t record_length,
                          uint8_t *room, size_t room_length);

/* Reads a record of the second form and writes it in the first into the room,
 * which gives the bytes that drover_to_second was given. Every post's own p and
 * q must be the house p and q, as numbers: 2/2 isn't 1/1. Answers the length
 * written, or DROVER_REFUSED and the refusal (the reader's, 30 for a record of
 * the first form, 20, or 18). Bytes beyond the length written stay as they
 * were. */
uint64_t drover_to_first(const uint8_t *record, size_t record_length,
                         uint8_t *room, size_t room_length);

/* Reads a record and works out the margin of a post in one of its trees (enum
 * drover_tree; any larger number is DROVER_BETWEEN): (p + q) times the post's
 * least length from the source minus q times its path in the tree, p/q being
 * the ratio that rules the post. It is below zero exactly when the post breaks
 * the limit, and goes to the first entry of `out`, if there is one. Answers 0,
 * or the refusal (as drover_plan, or 19). */
uint64_t drover_margin(const uint8_t *record, size_t record_length,
                       uint32_t tree, uint32_t post,
                       int64_t *out, size_t out_length);

/* Turns a drawn run into sixteenths of a millimetre, each length rounded up to
 * the next whole one. The run is straight if `corner` is 0, and its second
 * length is then not looked at; else it is a corner with two legs. Lengths are
 * given by the bits of a double, millimetres. Answers the length, at least 16
 * times the exact one and less than 1 above it, of a corner less than 2; or
 * DROVER_REFUSED and the refusal (13, 14, 15 or 17). */
uint64_t drover_drawn(uint32_t corner, uint64_t first_bits, uint64_t second_bits);

#ifdef __cplusplus
}
#endif

#endif
