/* W-203: a book of edition 1 and the book of edition 2 with the same lists get the same answers from every call,
 * byte for byte. */
#include "books.h"
#include "check.h"

#include <string.h>

/* What the calls are asked with. */
struct question {
    struct book book;
    const uint8_t *matching, *weights, *set;
    size_t matching_length, set_length, student;
};

#define CALLS 19
#define ROOM PLACEMENT_LARGEST_ROTATION_LIST

/* The calls that take a book, with room for every result. */
static struct placement_reply ask(int call, const struct question *q, uint8_t *out, int8_t *gains)
{
    const uint8_t *book = q->book.bytes, *matching = q->matching, *weights = q->weights;
    const uint8_t request[2] = {(uint8_t)q->student, matching[q->student]};
    const size_t length = q->book.length, n = q->book.n, entries = q->matching_length;
    const struct book plain = followed(q->book, matching, entries), weighted = followed(plain, weights, n);
    switch (call) {
    case 0: return placement_check_book(book, length);
    case 1: return placement_student_list(book, length, q->student);
    case 2: return placement_mentor_list(book, length, q->student);
    case 3: return placement_check_matching(book, length, matching, entries);
    case 4: return placement_student_best(book, length, out, ROOM);
    case 5: return placement_mentor_best(book, length, out, ROOM);
    case 6: return placement_repair(book, length, matching, entries, request, 2, out, ROOM, gains, ROOM);
    case 7: return placement_grade(book, length, matching, entries);
    case 8: return placement_rotation_count(book, length);
    case 9: return placement_rotations(book, length, out, ROOM);
    case 10: return placement_precedes(book, length, q->student / 2, q->student);
    case 11: return placement_set_to_matching(book, length, q->set, q->set_length, out, ROOM);
    case 12: return placement_matching_to_set(book, length, matching, entries, out, ROOM);
    case 13: return placement_sheet(plain.bytes, plain.length, out, ROOM);
    case 14:
        return placement_weighted_repair(book, length, matching, entries, weights, n, request, 2, out, ROOM, gains, ROOM);
    case 15: return placement_weighted_grade(book, length, matching, entries, weights, n);
    case 16: return placement_repair_mentor(book, length, matching, entries, request[1], out, ROOM, gains, ROOM);
    case 17:
        return placement_weighted_repair_mentor(book, length, matching, entries, weights, n, request[1], out, ROOM,
                                                gains, ROOM);
    default: return placement_weighted_sheet(weighted.bytes, weighted.length, out, ROOM);
    }
}

/* Both editions give the same reply and write the same bytes, whatever they are asked. */
static void same(struct question question)
{
    static struct lent out[2], gains[2];
    struct question full = question;
    full.book = with(question.book, 0, 2);
    for (int call = 0; call < CALLS; call++) {
        struct placement_reply first = ask(call, &question, lend(&out[0], ROOM), (int8_t *)lend(&gains[0], ROOM));
        EXPECT(ask(call, &full, lend(&out[1], ROOM), (int8_t *)lend(&gains[1], ROOM)), first);
        HOLDS(memcmp(out[0].bytes, out[1].bytes, sizeof out[0].bytes) == 0);
        HOLDS(memcmp(gains[0].bytes, gains[1].bytes, sizeof gains[0].bytes) == 0);
    }
}

/* Table 1 with the matchings and sets of Table 2, one that a pair blocks, one that clashes and one that is too short;
 * a list that has a fault. */
static void table_1(void)
{
    static const uint8_t weights[7] = {1, 1, 9, 1, 1, 3, 1}, open[6] = {0, 0, 1, 0, 0, 0};
    static const uint8_t exchanged[8] = {5, 4, 6, 1, 3, 0, 2}, clash[8] = {4, 5, 6, 3, 1, 2, 4};
    struct book book = book_of(7, table_1_lists);
    for (size_t student = 0; student < 7; student++) {
        for (size_t k = 0; k < 8; k++) {
            const struct table_1_set *row = &table_1_sets[k];
            same((struct question){book, row->matching, weights, row->set, 7, 6, student});
        }
    }
    same((struct question){book, exchanged, weights, open, 7, 6, 0});
    same((struct question){book, exchanged, weights, open, 7, 6, 7});
    same((struct question){book, clash, weights, open, 7, 5, 6});
    same((struct question){book, clash, weights, open, 6, 6, 6});
    same((struct question){with(book, 155, 7), clash, weights, open, 7, 6, 6});
    same((struct question){with(book, 100, book.bytes[101]), clash, weights, open, 7, 6, 6});
    same((struct question){with(book, 54, 0), clash, weights, open, 7, 6, 6});
    same((struct question){with(book, 1, 65), clash, weights, open, 7, 6, 6});
}

/* The largest n, all at place 1 of cyclic lists and all but two at place 0 of xor lists. */
static void large(void)
{
    uint8_t shifted[64], exchanged[64], weights[64], set[63] = {1};
    for (size_t i = 0; i < 64; i++) {
        shifted[i] = (uint8_t)((i + 1) % 64);
        exchanged[i] = (uint8_t)(i < 62 ? i : i ^ 1);
        weights[i] = (uint8_t)(255 - 37 * i);
    }
    same((struct question){cyclic_64(), shifted, weights, set, 64, 63, 5});
    same((struct question){xor_64(), exchanged, weights, set, 64, 63, 63});
    same((struct question){xor_64(), exchanged, weights, set, 64, 63, 0});
}

/* n = 0, 1 and 2, with every matching of mentors. */
static void small(void)
{
    static const char *const lists[16] = {"01010101", "01010110", "01011001", "01011010", "01100101", "01100110",
                                          "01101001", "01101010", "10010101", "10010110", "10011001", "10011010",
                                          "10100101", "10100110", "10101001", "10101010"};
    static const uint8_t weights[2] = {3, 200}, mentors[4][2] = {{0, 0}, {0, 1}, {1, 0}, {1, 1}}, marks[2] = {1, 1};
    for (size_t k = 0; k < 64; k++) {
        same((struct question){book_of(2, lists[k / 4]), mentors[k % 4], weights, marks, 2, k % 3, k % 2});
    }
    same((struct question){book_of(1, "00"), mentors[0], weights, marks, 1, 0, 0});
    same((struct question){book_of(0, ""), mentors[0], weights, marks, 0, 0, 0});
}

void test_editions(void)
{
    table_1();
    large();
    small();
}
