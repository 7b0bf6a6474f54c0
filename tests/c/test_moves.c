/* The sheet with moves, byte for byte, as it is worked out by hand; `refused N`; buffers of each length.
 *
 * Table 1 with M5, 4 5 6 3 1 2 0: Table 3 of document 000 gives the nearer repair of each pair, up where both are as
 * near, and Table 2 its closed set, whose matching is in table_1_stable. A place is that on the student's list. */
#include "printed.h"

#include <stdio.h>
#include <string.h>

static struct lent out;

/* The moves from M5 to each matching that is a nearest repair: {0,1}, {0}, {0,1,2,4}, {0,1,2,4,5} and {0,1,2,3}. */
#define TO_01 " 0 4 2 +1\n 5 2 4 +1\n"                            /* places 4 to 3, 6 to 5 */
#define TO_0 " 0 4 2 +1\n 1 5 4 +1\n 5 2 0 +4\n 6 0 5 +1\n"       /* 4 to 3, 3 to 2, 6 to 2, 2 to 1 */
#define TO_0124 " 2 6 0 -1\n 6 0 6 -1\n"                          /* 0 to 1, 2 to 3 */
#define TO_01245 " 1 5 3 -3\n 2 6 0 -1\n 3 3 5 -6\n 6 0 6 -1\n"   /* 3 to 6, 0 to 1, 0 to 6, 2 to 3 */
#define TO_0123 " 0 4 1 -1\n 4 1 4 -4\n"                          /* 4 to 5, 0 to 4 */
#define TABLE_1                                                                                                        \
    "7 6 0 3\n0 4 U 2\n" TO_01 "1 5 U 4\n" TO_0 "2 6 D 2\n" TO_0124 "3 3 D 4\n" TO_01245 "4 1 D 2\n" TO_0123          \
    "5 2 U 2\n" TO_01 "6 0 D 2\n" TO_0124

/* The same of the shortened Table 1, with its places: student 5 goes from 3 to 0 of 0542, student 3 from 0 to 3 of
 * 32457, student 4 from 0 to 3 of 1204; all others have as many places between their mentors as in Table 1. */
#define SHORT_TO_0 " 0 4 2 +1\n 1 5 4 +1\n 5 2 0 +3\n 6 0 5 +1\n"
#define SHORT_TO_01245 " 1 5 3 -3\n 2 6 0 -1\n 3 3 5 -3\n 6 0 6 -1\n"
#define SHORT_TO_0123 " 0 4 1 -1\n 4 1 4 -3\n"

static void prints(struct book input, const char *due)
{
    prints_sheet(placement_moves, input, due);
}

static void table_1(void)
{
    static const uint8_t m5[8] = {4, 5, 6, 3, 1, 2, 0, 255};
    prints(followed(book_of(7, table_1_lists), table_1_m5, 7), TABLE_1);
    prints(with(followed(book_of(7, table_1_lists), table_1_m5, 7), 0, 2), TABLE_1);
    prints(followed(short_book(8, short_table_1_lists), m5, 8),
           "8 6 0 3\n0 4 U 2\n" TO_01 "1 5 U 4\n" SHORT_TO_0 "2 6 D 2\n" TO_0124 "3 3 D 4\n" SHORT_TO_01245
           "4 1 D 2\n" SHORT_TO_0123 "5 2 U 2\n" TO_01 "6 0 D 2\n" TO_0124 "7 - N 0\n");
}

/* Nobody, one, and two and three of whom some exchange their mentors. Between two rotations student 0 goes up with
 * student 2, from place 2 to 1 and from 1 to 0, and student 1 down with him, from 0 to 1 and from 1 to 2. */
static void small(void)
{
    static const uint8_t straight[3] = {0, 1, 2}, crossed[2] = {1, 0}, between[3] = {2, 0, 1};
    struct book two = book_of(2, "01101001");
    prints(book_of(0, ""), "0 0 0 -\n");
    prints(followed(book_of(1, "00"), straight, 1), "1 0 1 -\n0 0 F 0\n");
    prints(followed(two, straight, 2), "2 1 0 1\n0 0 D 2\n 0 0 1 -1\n 1 1 0 -1\n1 1 D 2\n 0 0 1 -1\n 1 1 0 -1\n");
    prints(followed(two, crossed, 2), "2 1 0 1\n0 1 U 2\n 0 1 0 +1\n 1 0 1 +1\n1 0 U 2\n 0 1 0 +1\n 1 0 1 +1\n");
    prints(followed(book_of(2, "01010101"), straight, 2), "2 0 2 -\n0 0 F 0\n1 1 F 0\n");
    prints(followed(book_of(3, one_fixed_lists), straight, 3),
           "3 1 1 1\n0 0 D 2\n 0 0 1 -1\n 1 1 0 -1\n1 1 D 2\n 0 0 1 -1\n 1 1 0 -1\n2 2 F 0\n");
    prints(followed(book_of(3, two_rotations_lists), between, 3),
           "3 2 0 1\n0 2 U 2\n 0 2 1 +1\n 2 1 2 +1\n1 0 D 2\n 1 0 1 -1\n 2 1 0 -1\n2 1 U 2\n 0 2 1 +1\n 2 1 2 +1\n");
}

/* Short lists with people alone. */
static void alone(void)
{
    static const uint8_t nobody[2] = {255, 255}, one[2] = {0, 255};
    struct book six = short_book(6, six_lists);
    prints(followed(six, six_best, 6), "6 1 2 1\n0 0 D 2\n 0 0 1 -1\n 1 1 0 -1\n1 1 D 2\n 0 0 1 -1\n 1 1 0 -1\n"
                                       "2 2 F 0\n3 3 F 0\n4 - N 0\n5 - N 0\n");
    prints(followed(six, six_worst, 6), "6 1 2 1\n0 1 U 2\n 0 1 0 +1\n 1 0 1 +1\n1 0 U 2\n 0 1 0 +1\n 1 0 1 +1\n"
                                        "2 2 F 0\n3 3 F 0\n4 - N 0\n5 - N 0\n");
    prints(short_book(0, ""), "0 0 0 -\n");
    prints(followed(short_book(1, "0 0"), one, 1), "1 0 1 -\n0 0 F 0\n");
    prints(followed(short_book(1, "- -"), nobody, 1), "1 0 0 -\n0 - N 0\n");
    prints(followed(short_book(2, "0 - 0 -"), one, 2), "2 0 1 -\n0 0 F 0\n1 - N 0\n");
}

/* Writes a list of 64 that begins and ends so, with all others in between. */
static void put_list(uint8_t *list, size_t first, size_t last)
{
    size_t at = 1;
    list[0] = (uint8_t)first;
    list[63] = (uint8_t)last;
    for (size_t k = 0; k < 64; k++) {
        if (k != first && k != last) {
            list[at++] = (uint8_t)k;
        }
    }
}

/* n = 64: the most places that a move can have. Students 2k and 2k + 1 rank mentors 2k and 2k + 1 first and last, each
 * the one of his own number first, and so do the mentors, but that mentors 0 and 1 rank the student of their own number
 * last. So all pairs are fixed but those of students 0 and 1, who can exchange their mentors. */
static void far_apart(void)
{
    static const char *const heads[2] = {
        "64 1 62 1\n0 0 D 2\n 0 0 1 -63\n 1 1 0 -63\n1 1 D 2\n 0 0 1 -63\n 1 1 0 -63\n",
        "64 1 62 1\n0 1 U 2\n 0 1 0 +63\n 1 0 1 +63\n1 0 U 2\n 0 1 0 +63\n 1 0 1 +63\n",
    };
    static char due[1024];
    struct book book = cyclic_64();
    uint8_t matching[64];
    for (size_t k = 0; k < 64; k++) {
        uint8_t *lists = book.bytes + 2 + 8 * 64, *mentor = lists + 64 * (64 + k);
        put_list(lists + 64 * k, k, k ^ 1);
        put_list(mentor, k < 2 ? k ^ 1 : k, k < 2 ? k : k ^ 1);
    }
    for (size_t crossed = 0; crossed < 2; crossed++) {
        size_t length = (size_t)snprintf(due, sizeof due, "%s", heads[crossed]);
        for (size_t k = 0; k < 64; k++) {
            matching[k] = (uint8_t)(k < 2 ? k ^ crossed : k);
            length += k < 2 ? 0 : (size_t)snprintf(due + length, sizeof due - length, "%zu %zu F 0\n", k, k);
        }
        prints(followed(book, matching, 64), due);
    }
}

/* Refusals are lines, as in the sheet. */
static void refusals(void)
{
    static const uint8_t zero[1] = {0}, clash[7] = {4, 5, 6, 3, 1, 2, 4}, exchanged[7] = {5, 4, 6, 1, 3, 0, 2};
    struct book book = book_of(7, table_1_lists), good = followed(book, table_1_m5, 7), cut = good;
    struct book six = followed(short_book(6, six_lists), six_best, 6);
    EXPECT(placement_moves(NULL, 0, lend(&out, 10), 10), value(10));
    WROTE(&out, "refused 1\n", 10);
    EXPECT(placement_moves(NULL, 0, NULL, 0), refused(14, 0));
    for (cut.length = 1; cut.length < good.length; cut.length++) {
        prints(cut, cut.length < 156 ? "refused 1\n" : "refused 8\n");
    }
    prints(with(good, 0, 0), "refused 2\n");
    prints(with(good, 1, 65), "refused 3\n");
    prints(with(good, 30, 0), "refused 5\n");
    prints(with(good, 58, 7), "refused 6\n");
    prints(with(good, 155, 4), "refused 7\n");
    prints(followed(good, zero, 1), "refused 8\n");
    prints(followed(book, clash, 7), "refused 9\n");
    prints(with(good, 156, 255), "refused 9\n");
    prints(followed(book, exchanged, 7), "refused 10\n");
    prints(with(six, 46, 0), "refused 5\n");
    prints(with(six, 74, 4), "refused 19\n");
    prints(followed(six, zero, 1), "refused 8\n");
    prints(followed(short_book(1, "0 -"), six_best, 1), "refused 18\n");
}

/* With Table 1 in a buffer of each length up to two bytes more than the text: what is too short is refused by 14, and
 * nothing is written, nor past the text where it is taken. Table 1's input ends at a page that may not be read. */
static void rooms(void)
{
    struct book good = followed(book_of(7, table_1_lists), table_1_m5, 7);
    const size_t length = strlen(TABLE_1);
    for (size_t room = 0; room <= length + 2; room++) {
        struct placement_reply reply =
            placement_moves(fenced(0, good.bytes, good.length), good.length, lend(&out, room), room);
        EXPECT(reply, room < length ? refused(14, 0) : value(length));
        WROTE(&out, TABLE_1, room < length ? 0 : length);
    }
    HOLDS(length == 64 + 18 * 10);
}

void test_moves(void)
{
    table_1();
    small();
    alone();
    far_apart();
    refusals();
    rooms();
}
