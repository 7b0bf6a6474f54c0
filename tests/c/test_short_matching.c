/* Edition 2 (W-203): the check of a matching (8, 9, 19, 10) and the two extreme matchings, with people who are
 * alone. */
#include "books.h"
#include "check.h"

static struct lent out;

static struct placement_reply check(struct book book, const uint8_t *matching, size_t length)
{
    const uint8_t *bytes = fenced(0, book.bytes, book.length), *mentors = fenced(1, matching, length);
    return placement_check_matching(bytes, book.length, mentors, length);
}

/* The check of six mentors. */
static struct placement_reply check_six(uint8_t a, uint8_t b, uint8_t c, uint8_t d, uint8_t e, uint8_t f)
{
    const uint8_t matching[6] = {a, b, c, d, e, f};
    return check(short_book(6, six_lists), matching, 6);
}

/* Nobody blocks: student 4 is listed by mentor 1 alone, who has one whom she prefers; mentor 4 lists student 2, who
 * prefers his own; student 5 and mentor 5 list nobody. 255 stands twice and is no clash. */
static void stable(void)
{
    EXPECT(check(short_book(6, six_lists), six_best, 6), value(0));
    EXPECT(check(short_book(6, six_lists), six_worst, 6), value(0));
    EXPECT(check(short_book(0, ""), NULL, 0), value(0));
    EXPECT(check(short_book(2, "- - - -"), (const uint8_t[2]){255, 255}, 2), value(0));
    EXPECT(check(short_book(1, "0 0"), (const uint8_t[1]){0}, 1), value(0));
    for (size_t k = 0; k < 8; k++) {
        const uint8_t *m = table_1_sets[k].matching;
        const uint8_t matching[8] = {m[0], m[1], m[2], m[3], m[4], m[5], m[6], 255};
        EXPECT(check(short_book(8, short_table_1_lists), matching, 8), value(0));
    }
}

/* Rules 8 and 9, in edition 2 and with 255 in edition 1. */
static void not_matchings(void)
{
    struct book six = short_book(6, six_lists);
    EXPECT(check(six, six_best, 5), refused(8, 0));
    EXPECT(check(six, (const uint8_t[7]){0, 1, 2, 3, 255, 255, 255}, 7), refused(8, 0));
    EXPECT(check(short_book(0, ""), (const uint8_t[1]){255}, 1), refused(8, 0));
    EXPECT(check_six(0, 1, 2, 3, 6, 255), refused(9, 4));
    EXPECT(check_six(0, 1, 2, 3, 254, 255), refused(9, 4));
    EXPECT(check_six(0, 0, 2, 3, 255, 255), refused(9, 1));
    EXPECT(check_six(0, 1, 2, 3, 255, 3), refused(9, 5));
    EXPECT(check_six(255, 6, 255, 6, 255, 255), refused(9, 1));
    EXPECT(check(book_of(1, "00"), (const uint8_t[1]){255}, 1), refused(9, 0));
    EXPECT(check(book_of(2, "01101001"), (const uint8_t[2]){0, 255}, 2), refused(9, 1));
    EXPECT(check(book_of(2, "01101001"), (const uint8_t[2]){255, 255}, 2), refused(9, 0));
}

/* Rule 19: a pair does not list each other. After 8 and 9, before 10. */
static void unlisted(void)
{
    struct book six = short_book(6, six_lists);
    EXPECT(check_six(0, 1, 2, 3, 4, 255), refused(19, 0));
    EXPECT(check_six(0, 1, 2, 3, 255, 5), refused(19, 0));
    EXPECT(check_six(0, 1, 2, 3, 5, 4), refused(19, 0));
    EXPECT(check_six(2, 1, 0, 3, 255, 255), refused(19, 0));
    EXPECT(check(short_book(1, "- -"), (const uint8_t[1]){0}, 1), refused(19, 0));
    /* Student 0 and mentor 5 do not list each other; a later byte is a mentor's again, or nobody's number. */
    EXPECT(check_six(5, 1, 2, 3, 255, 5), refused(9, 5));
    EXPECT(check_six(5, 1, 2, 3, 255, 6), refused(9, 5));
    EXPECT(check(six, (const uint8_t[5]){5, 1, 2, 3, 255}, 5), refused(8, 0));
    /* Students 0 and 1, alone, would block with both mentors; student 5 has a mentor who does not list him. */
    EXPECT(check_six(255, 255, 2, 3, 255, 4), refused(19, 0));
}

/* Rule 10: each lists the other, and each is alone or prefers the other. */
static void unstable(void)
{
    static const uint8_t nobody[2] = {255, 255}, other[2] = {255, 0}, own[2] = {0, 255};
    struct book two = short_book(2, "0 0 01 -");
    /* Both are alone; of the mentors who are, the one whom he ranks best is given. */
    EXPECT(check_six(255, 255, 2, 3, 255, 255), blocked(0, 0));
    EXPECT(check_six(0, 255, 2, 3, 255, 255), blocked(1, 1));
    EXPECT(check_six(255, 1, 2, 3, 255, 255), blocked(0, 0));
    /* The student is alone, and the mentor prefers him to her own. */
    EXPECT(check_six(0, 255, 2, 3, 1, 255), blocked(1, 1));
    EXPECT(check(two, other, 2), blocked(0, 0));
    EXPECT(check(two, own, 2), value(0));
    EXPECT(check(two, nobody, 2), blocked(0, 0));
    /* The mentor is alone, and the student prefers her to his own: mentor 4 to mentor 3, mentor 2 to mentor 4. */
    EXPECT(check_six(0, 1, 3, 2, 255, 255), blocked(2, 4));
    EXPECT(check_six(0, 1, 4, 3, 255, 255), blocked(2, 2));
    /* Students 2 and 3 both block, then student 3 alone. */
    EXPECT(check_six(0, 1, 4, 255, 255, 255), blocked(2, 2));
    EXPECT(check_six(1, 0, 2, 255, 255, 255), blocked(3, 3));
    EXPECT(check(short_book(1, "0 0"), nobody, 1), blocked(0, 0));
    /* A student who is alone, with a mentor on his list who prefers her own, and one below whom he may have. */
    EXPECT(check(short_book(2, "01 0 10 0"), other, 2), blocked(0, 1));
    EXPECT(check(short_book(2, "01 0 10 0"), (const uint8_t[2]){1, 0}, 2), value(0));
}

typedef struct placement_reply (*extreme)(const uint8_t *, size_t, uint8_t *, size_t);

static struct placement_reply best(extreme call, struct book book, size_t room)
{
    return after_call(call(fenced(0, book.bytes, book.length), book.length, lend(&out, room), room), &out);
}

/* The extremes of the six, of Table 1 shortened, of cyclic and xor lists of 8, and of those whom nobody lists. */
static void extremes(extreme call, const uint8_t *six_due, const uint8_t *table_1_due, size_t level)
{
    static const uint8_t nobody[3] = {255, 255, 255};
    struct book six = short_book(6, six_lists), one_sided = short_book(2, "0 - - -");
    uint8_t table_1[8], cyclic[64], xor[64];
    for (size_t i = 0; i < 64; i++) {
        table_1[i % 8] = i % 8 < 7 ? table_1_due[i % 8] : 255;
        cyclic[i] = (uint8_t)((i + level) % 64);
        xor[i] = (uint8_t)(i ^ level);
    }
    EXPECT(best(call, six, 6), value(6));
    WROTE(&out, six_due, 6);
    EXPECT(best(call, six, 9), value(6));
    WROTE(&out, six_due, 6);
    EXPECT(best(call, short_book(8, short_table_1_lists), 8), value(8));
    WROTE(&out, table_1, 8);
    EXPECT(best(call, short_cyclic_64(8), 64), value(64));
    WROTE(&out, cyclic, 64);
    EXPECT(best(call, short_xor_64(8), 64), value(64));
    WROTE(&out, xor, 64);
    EXPECT(best(call, short_book(3, "- - - - - -"), 4), value(3));
    WROTE(&out, nobody, 3);
    EXPECT(best(call, six, 5), refused(14, 0));
    EXPECT(best(call, one_sided, 2), refused(18, 0));
    EXPECT(best(call, one_sided, 1), refused(18, 0));
    EXPECT(best(call, with(six, 46, 0), 6), refused(5, 46));
    EXPECT(best(call, short_book(0, ""), 3), value(0));
    WROTE_NOTHING(&out);
}

void test_short_matching(void)
{
    stable();
    not_matchings();
    unlisted();
    unstable();
    extremes(placement_student_best, six_best, table_1_best, 0);
    extremes(placement_mentor_best, six_worst, table_1_worst, 7);
}
