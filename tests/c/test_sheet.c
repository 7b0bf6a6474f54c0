/* The sheet, byte for byte, and `refused N`. */
#include "printed.h"

#include <stdio.h>

static struct lent out;

static void prints(struct book input, const char *due)
{
    prints_sheet(placement_sheet, input, due);
}

static void worked(void)
{
    static const uint8_t straight[2] = {0, 1}, crossed[2] = {1, 0};
    struct book two = book_of(2, "01101001");
    prints(book_of(0, ""), "0 0 0 -\n");
    prints(followed(book_of(1, "00"), straight, 1), "1 0 1 -\n0 0 F 0\n");
    prints(followed(two, straight, 2), "2 1 0 1\n0 0 D 2\n1 1 D 2\n");
    prints(followed(two, crossed, 2), "2 1 0 1\n0 1 U 2\n1 0 U 2\n");
    prints(followed(book_of(2, "01010101"), crossed, 2), "refused 10\n");
    prints(followed(book_of(7, table_1_lists), table_1_m5, 7),
           "7 6 0 3\n0 4 U 2\n1 5 U 4\n2 6 D 2\n3 3 D 4\n4 1 D 2\n5 2 U 2\n6 0 D 2\n");
}

/* Line one (W-204): one pair of three is fixed, and both of two; none of three with two rotations. */
static void fixed_pairs(void)
{
    static const uint8_t same[3] = {0, 1, 2}, between[3] = {2, 0, 1};
    prints(followed(book_of(2, "01010101"), same, 2), "2 0 2 -\n0 0 F 0\n1 1 F 0\n");
    prints(followed(book_of(3, one_fixed_lists), same, 3), "3 1 1 1\n0 0 D 2\n1 1 D 2\n2 2 F 0\n");
    prints(followed(book_of(3, two_rotations_lists), between, 3), "3 2 0 1\n0 2 U 2\n1 0 D 2\n2 1 U 2\n");
}

static void refusals(void)
{
    static const uint8_t zero[1] = {0}, clash[7] = {4, 5, 6, 3, 1, 2, 4};
    struct book table_1 = book_of(7, table_1_lists), good = followed(table_1, table_1_m5, 7), cut = table_1;
    EXPECT(placement_sheet(NULL, 0, lend(&out, 10), 10), value(10));
    WROTE(&out, "refused 1\n", 10);
    EXPECT(placement_sheet(NULL, 0, NULL, 0), refused(14, 0));
    cut.length = 155;
    prints(cut, "refused 1\n");
    cut.length = 1;
    prints(cut, "refused 1\n");
    prints(with(good, 0, 0), "refused 2\n");
    prints(with(good, 1, 65), "refused 3\n");
    prints(with(good, 1, 8), "refused 1\n");
    prints(with(good, 30, 0), "refused 5\n");
    prints(with(good, 58, 7), "refused 6\n");
    prints(with(good, 155, 4), "refused 7\n");
    prints(table_1, "refused 8\n");
    prints(followed(good, zero, 1), "refused 8\n");
    prints(followed(with(good, 58, 7), zero, 1), "refused 6\n");
    prints(followed(table_1, clash, 7), "refused 9\n");
    prints(with(good, 156, 200), "refused 9\n");
    prints(followed(table_1, table_1_worst, 6), "refused 8\n");
    prints(followed(xor_64(), clash, 7), "refused 8\n");
}

/* A sheet of 64 lines in which each student has the mentor of the same number. */
static void prints_64(struct book book, const char *head, const char *tail)
{
    static char due[1024];
    uint8_t same[65];
    int length = snprintf(due, sizeof due, "%s\n", head);
    for (int i = 0; i < 64; i++) {
        same[i] = (uint8_t)i;
        length += snprintf(due + length, sizeof due - (size_t)length, "%d %d %s\n", i, i, tail);
    }
    prints(followed(book, same, 64), due);
    same[64] = 0;
    prints(followed(book, same, 65), "refused 8\n");
    same[0] = 1;
    prints(followed(book, same, 64), "refused 9\n");
}

void test_sheet(void)
{
    worked();
    fixed_pairs();
    refusals();
    prints_64(xor_64(), "64 2016 0 1", "D 2");
    prints_64(cyclic_64(), "64 63 0 63", "D 64");
    prints_64(short_xor_64(8), "64 224 0 1", "D 2");
    prints_64(short_cyclic_64(8), "64 7 0 63", "D 64");
    prints_64(short_cyclic_64(1), "64 0 64 -", "F 0");
}
