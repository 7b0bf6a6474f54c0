/* The weighted sheet (W-201), byte for byte, and `refused N`. Table 1's totals are worked out in test_weights.c. */
#include "printed.h"

#include <stdio.h>
#include <string.h>

static struct lent out;

static void prints(struct book input, const char *due)
{
    prints_sheet(placement_weighted_sheet, input, due);
}

/* The book with a matching and weights after it, n bytes each. */
static struct book input_of(struct book book, const uint8_t *matching, const uint8_t *weights)
{
    return followed(followed(book, matching, book.n), weights, book.n);
}

static void table_1(void)
{
    struct book book = book_of(7, table_1_lists);
    prints(input_of(book, table_1_m5, (const uint8_t[7]){1, 1, 1, 1, 1, 1, 1}),
           "7 6 0 3\n0 4 U 2\n1 5 U 4\n2 6 D 2\n3 3 D 4\n4 1 D 2\n5 2 U 2\n6 0 D 2\n");
    prints(input_of(book, table_1_m5, (const uint8_t[7]){1, 1, 9, 1, 1, 3, 1}),
           "7 6 0 11\n0 4 D 2\n1 5 U 6\n2 6 D 10\n3 3 D 12\n4 1 D 2\n5 2 U 4\n6 0 U 6\n");
    prints(input_of(book, table_1_m5, (const uint8_t[7]){1, 2, 4, 8, 16, 32, 64}),
           "7 6 0 76\n0 4 D 17\n1 5 D 78\n2 6 D 68\n3 3 D 78\n4 1 D 17\n5 2 U 33\n6 0 D 68\n");
    prints(input_of(book, table_1_m5, (const uint8_t[7]){0, 0, 0, 0, 0, 0, 0}),
           "7 6 0 0\n0 4 U 0\n1 5 U 0\n2 6 D 0\n3 3 D 0\n4 1 D 0\n5 2 U 0\n6 0 U 0\n");
    prints(input_of(book, table_1_m5, (const uint8_t[7]){255, 255, 255, 255, 255, 255, 255}),
           "7 6 0 765\n0 4 U 510\n1 5 U 1020\n2 6 D 510\n3 3 D 1020\n4 1 D 510\n5 2 U 510\n6 0 D 510\n");
}

static void small(void)
{
    static const uint8_t straight[2] = {0, 1}, crossed[2] = {1, 0}, weights[2] = {7, 30};
    struct book two = book_of(2, "01101001");
    prints(book_of(0, ""), "0 0 0 -\n");
    prints(input_of(book_of(1, "00"), straight, weights), "1 0 1 -\n0 0 F 0\n");
    prints(input_of(two, straight, weights), "2 1 0 30\n0 0 D 37\n1 1 D 37\n");
    prints(input_of(two, crossed, weights), "2 1 0 30\n0 1 U 37\n1 0 U 37\n");
    prints(input_of(book_of(2, "01010101"), straight, weights), "2 0 2 -\n0 0 F 0\n1 1 F 0\n");
}

/* W-204: a grade of 0 where a pair has a repair of weight 1, as in test_weights.c, and one beside a fixed pair; `-`
 * where all are fixed and weigh nothing. */
static void zero_and_none(void)
{
    static const uint8_t between[3] = {2, 0, 1}, same[3] = {0, 1, 2}, own[3] = {1, 0, 0}, zeros[3] = {0};
    prints(input_of(book_of(3, two_rotations_lists), between, own), "3 2 0 0\n0 2 U 1\n1 0 D 0\n2 1 D 0\n");
    prints(input_of(book_of(3, one_fixed_lists), same, zeros), "3 1 1 0\n0 0 D 0\n1 1 D 0\n2 2 F 0\n");
    prints(input_of(book_of(2, "01010101"), same, zeros), "2 0 2 -\n0 0 F 0\n1 1 F 0\n");
}

/* What follows the book: fewer than n bytes break 8, n bytes and then fewer or more than n weights 17. The book, 9 and
 * 10 are tried before 17. */
static void refusals(void)
{
    static const uint8_t clash[7] = {4, 5, 6, 3, 1, 2, 4}, exchanged[7] = {5, 4, 6, 1, 3, 0, 2}, weights[8] = {1, 2, 3};
    struct book book = book_of(7, table_1_lists), good = input_of(book, table_1_m5, weights), cut = good;
    EXPECT(placement_weighted_sheet(NULL, 0, lend(&out, 10), 10), value(10));
    WROTE(&out, "refused 1\n", 10);
    EXPECT(placement_weighted_sheet(NULL, 0, NULL, 0), refused(14, 0));
    for (cut.length = 1; cut.length < good.length; cut.length++) {
        prints(cut, cut.length < 156 ? "refused 1\n" : cut.length < 163 ? "refused 8\n" : "refused 17\n");
    }
    for (size_t more = 1; more <= 8; more++) {
        prints(followed(good, weights, more), "refused 17\n");
        prints(followed(with(good, 155, 7), weights, more), "refused 6\n");
        prints(followed(book_of(0, ""), weights, more), "refused 17\n");
    }
    for (size_t length = 0; length <= 8; length++) {
        prints(followed(followed(book, clash, 7), weights, length), "refused 9\n");
        prints(followed(followed(book, exchanged, 7), weights, length), "refused 10\n");
    }
    prints(with(good, 0, 0), "refused 2\n");
    prints(with(good, 1, 65), "refused 3\n");
    prints(with(good, 1, 8), "refused 1\n");
    prints(with(good, 30, 0), "refused 5\n");
    prints(with(good, 58, 7), "refused 6\n");
    prints(with(good, 155, 4), "refused 7\n");
}

/* A sheet of 64 lines in which each student has the mentor of the same number, and all weigh the same. */
static void prints_64(struct book book, uint8_t weight, const char *head, const char *tail)
{
    static char due[1024];
    uint8_t same[64], weights[65];
    memset(weights, weight, 65);
    int length = snprintf(due, sizeof due, "%s\n", head);
    for (int i = 0; i < 64; i++) {
        same[i] = (uint8_t)i;
        length += snprintf(due + length, sizeof due - (size_t)length, "%d %d %s\n", i, i, tail);
    }
    prints(input_of(book, same, weights), due);
    prints(followed(followed(book, same, 64), weights, 63), "refused 17\n");
    prints(followed(followed(book, same, 64), weights, 65), "refused 17\n");
    prints(followed(book, same, 63), "refused 8\n");
}

void test_weighted_sheet(void)
{
    table_1();
    small();
    zero_and_none();
    refusals();
    prints_64(xor_64(), 1, "64 2016 0 1", "D 2");
    prints_64(xor_64(), 255, "64 2016 0 255", "D 510");
    prints_64(cyclic_64(), 255, "64 63 0 16065", "D 16320");
    prints_64(cyclic_64(), 0, "64 63 0 0", "D 0");
    prints_64(short_xor_64(8), 255, "64 224 0 255", "D 510");
    prints_64(short_cyclic_64(8), 255, "64 7 0 16065", "D 16320");
    prints_64(short_cyclic_64(1), 255, "64 0 64 -", "F 0");
}
