/* The check of a matching (8, 9, 10), and the two extreme matchings. */
#include "books.h"
#include "check.h"

#include <string.h>

static struct lent out;

static struct placement_reply check(struct book book, const uint8_t *matching, size_t length)
{
    return placement_check_matching(fenced(0, book.bytes, book.length), book.length, fenced(1, matching, length), length);
}

static void stable(void)
{
    static const uint8_t none[2] = {1, 0}, zero[1] = {0};
    struct book table_1 = book_of(7, table_1_lists);
    EXPECT(check(table_1, table_1_best, 7), value(0));
    EXPECT(check(table_1, table_1_m5, 7), value(0));
    EXPECT(check(table_1, table_1_worst, 7), value(0));
    EXPECT(placement_check_matching(none, 2, NULL, 0), value(0));
    EXPECT(check(book_of(1, "00"), zero, 1), value(0));
}

static void not_matchings(void)
{
    static const uint8_t long_one[8] = {4, 5, 6, 3, 1, 2, 0, 0}, none[2] = {1, 0};
    struct book table_1 = book_of(7, table_1_lists);
    EXPECT(check(table_1, long_one, 6), refused(8, 0));
    EXPECT(check(table_1, long_one, 8), refused(8, 0));
    EXPECT(check(table_1, long_one, 0), refused(8, 0));
    EXPECT(placement_check_matching(none, 2, long_one, 1), refused(8, 0));
    for (size_t at = 0; at < 7; at++) {
        uint8_t matching[7];
        memcpy(matching, table_1_m5, 7);
        matching[at] = 7;
        EXPECT(check(table_1, matching, 7), refused(9, (size_t)at));
        matching[at] = 255;
        EXPECT(check(table_1, matching, 7), refused(9, (size_t)at));
        if (at > 0) {
            matching[at] = table_1_m5[0];
            EXPECT(check(table_1, matching, 7), refused(9, (size_t)at));
        }
    }
    static const uint8_t twice[7] = {4, 5, 5, 9, 4, 2, 0}, longer[8] = {9, 9, 9, 9, 9, 9, 9, 9};
    EXPECT(check(table_1, twice, 7), refused(9, 2));
    EXPECT(check(table_1, longer, 8), refused(8, 0));
    EXPECT(check(with(table_1, 60, 7), longer, 8), refused(6, 60));
    EXPECT(placement_check_matching(NULL, 0, NULL, 0), refused(1, 0));
}

static void unstable(void)
{
    static const uint8_t crossed[2] = {1, 0}, same[3] = {0, 1, 2};
    EXPECT(check(book_of(2, "01010101"), crossed, 2), blocked(0, 0));
    /* Student 0 prefers 2 and 1 to 0, and both prefer him: the mentor he ranks best is given. */
    EXPECT(check(book_of(3, "210" "012" "012" "012" "012" "012"), same, 3), blocked(0, 2));
    /* Table 1, student-best with 3 and 4 exchanged: 0, 1 and 2 block with nobody, 3 and 4 do. */
    static const uint8_t exchanged[7] = {5, 4, 6, 1, 3, 0, 2};
    EXPECT(check(book_of(7, table_1_lists), exchanged, 7), blocked(3, 3));
    /* Cyclic lists, everybody with the next but the last two exchanged: nobody below 62 blocks. */
    uint8_t shifted[64];
    for (size_t i = 0; i < 64; i++) {
        shifted[i] = (uint8_t)((i + 1) % 64);
    }
    EXPECT(check(cyclic_64(), shifted, 64), value(0));
    shifted[62] = 0;
    shifted[63] = 63;
    EXPECT(check(cyclic_64(), shifted, 64), blocked(62, 63));
}

typedef struct placement_reply (*extreme)(const uint8_t *, size_t, uint8_t *, size_t);

static void extremes(extreme call, const uint8_t *table_1_due, const uint8_t *largest_due)
{
    static const uint8_t none[2] = {1, 0}, zero[1] = {0};
    struct book table_1 = book_of(7, table_1_lists), bad = with(table_1, 60, 7), one = book_of(1, "00"), large = xor_64();
    EXPECT(call(fenced(0, table_1.bytes, 156), 156, lend(&out, 7), 7), value(7));
    WROTE(&out, table_1_due, 7);
    EXPECT(call(table_1.bytes, 156, lend(&out, 20), 20), value(7));
    WROTE(&out, table_1_due, 7);
    EXPECT(call(table_1.bytes, 156, lend(&out, 6), 6), refused(14, 0));
    EXPECT(call(table_1.bytes, 156, NULL, 0), refused(14, 0));
    EXPECT(call(table_1.bytes, 155, lend(&out, 6), 6), refused(1, 155));
    EXPECT(call(bad.bytes, 156, lend(&out, 7), 7), refused(6, 60));
    EXPECT(call(NULL, 0, lend(&out, 7), 7), refused(1, 0));
    WROTE_NOTHING(&out);
    EXPECT(call(none, 2, NULL, 0), value(0));
    EXPECT(call(one.bytes, 12, lend(&out, 1), 1), value(1));
    WROTE(&out, zero, 1);
    EXPECT(call(fenced(0, large.bytes, 8706), 8706, lend(&out, 64), 64), value(64));
    WROTE(&out, largest_due, 64);
    EXPECT(call(large.bytes, 8706, lend(&out, 63), 63), refused(14, 0));
    WROTE_NOTHING(&out);
}

void test_matching(void)
{
    stable();
    not_matchings();
    unstable();
    uint8_t first[64], last[64];
    for (size_t i = 0; i < 64; i++) {
        first[i] = (uint8_t)i;
        last[i] = (uint8_t)(63 - i);
    }
    extremes(placement_student_best, table_1_best, first);
    extremes(placement_mentor_best, table_1_worst, last);
}
