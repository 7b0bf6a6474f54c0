/* The repair of one pair (8, 9, 10, 13, 11, 12, 14), and the grade. */
#include "books.h"
#include "check.h"

static struct lent out, gains;

/* W-202: a repair up or down reports how many of the n gains that it wrote are not 0. */
static void recount(struct placement_reply reply, size_t n)
{
    size_t moved = 0;
    if (reply.letter == 'U' || reply.letter == 'D') {
        for (size_t i = 0; i < n; i++) {
            moved += gains.bytes[GUARD + i] != 0;
        }
        EXPECT(reply, answer(reply.letter, moved));
    }
}

/* The repair with buffers of these lengths. What it reports is recounted. */
static struct placement_reply repair_in(struct book book, const uint8_t *matching, size_t length, const uint8_t *request,
                                        size_t request_length, size_t room, size_t gains_room)
{
    const uint8_t *bytes = fenced(0, book.bytes, book.length);
    struct placement_reply reply =
        placement_repair(bytes, book.length, fenced(1, matching, length), length, fenced(2, request, request_length),
                         request_length, lend(&out, room), room, (int8_t *)lend(&gains, gains_room), gains_room);
    recount(reply, book.n);
    return after_call(after_call(reply, &out), &gains);
}

/* The repair of a student's pair with buffers of n entries. */
static struct placement_reply repair(struct book book, const uint8_t *matching, uint8_t student)
{
    uint8_t request[2] = {student, matching[student]};
    return repair_in(book, matching, book.n, request, 2, book.n, book.n);
}

static void wrote_neither(void)
{
    WROTE_NOTHING(&out);
    WROTE_NOTHING(&gains);
}

/* Table 3 of document 000 by document 01's sheet, with the matchings of Table 2's sets and the places gained. */
static void table_1_repairs(void)
{
    static const struct {
        char letter;
        size_t distance;
        uint8_t matching[7];
        int8_t gains[7];
    } due[7] = {
        {'U', 2, {2, 5, 6, 3, 1, 4, 0}, {1, 0, 0, 0, 0, 1, 0}},    {'U', 4, {2, 4, 6, 3, 1, 0, 5}, {1, 1, 0, 0, 0, 4, 1}},
        {'D', 2, {4, 5, 0, 3, 1, 2, 6}, {0, 0, -1, 0, 0, 0, -1}},  {'D', 4, {4, 3, 0, 5, 1, 2, 6}, {0, -3, -1, -6, 0, 0, -1}},
        {'D', 2, {1, 5, 6, 3, 4, 2, 0}, {-1, 0, 0, 0, -4, 0, 0}},  {'U', 2, {2, 5, 6, 3, 1, 4, 0}, {1, 0, 0, 0, 0, 1, 0}},
        {'D', 2, {4, 5, 0, 3, 1, 2, 6}, {0, 0, -1, 0, 0, 0, -1}},
    };
    struct book table_1 = book_of(7, table_1_lists);
    for (uint8_t student = 0; student < 7; student++) {
        uint8_t request[2] = {student, table_1_m5[student]};
        EXPECT(repair(table_1, table_1_m5, student), answer(due[student].letter, due[student].distance));
        WROTE(&out, due[student].matching, 7);
        WROTE(&gains, due[student].gains, 7);
        EXPECT(repair_in(table_1, table_1_m5, 7, request, 2, 9, 12), answer(due[student].letter, due[student].distance));
        WROTE(&out, due[student].matching, 7);
        WROTE(&gains, due[student].gains, 7);
    }
}

/* Two by two, both ways. */
static void small(void)
{
    static const uint8_t straight[2] = {0, 1}, crossed[2] = {1, 0};
    static const int8_t better[2] = {1, 1}, worse[2] = {-1, -1};
    struct book two = book_of(2, "01101001");
    for (uint8_t student = 0; student < 2; student++) {
        EXPECT(repair(two, straight, student), answer('D', 2));
        WROTE(&out, crossed, 2);
        WROTE(&gains, worse, 2);
        EXPECT(repair(two, crossed, student), answer('U', 2));
        WROTE(&out, straight, 2);
        WROTE(&gains, better, 2);
    }
    EXPECT(repair_in(book_of(1, "00"), straight, 1, straight, 2, 1, 1), refused(11, 0));
}

/* "Fixed writes neither matching nor gains, yet both buffers must hold n entries or 14 is given": the pair of a student
 * with the mentor of the same number, with buffers of each length up to two more than n. */
static void is_fixed(struct book book, uint8_t student)
{
    static const uint8_t same[3] = {0, 1, 2};
    const uint8_t request[2] = {student, student};
    for (size_t room = 0; room <= book.n + 2; room++) {
        for (size_t gains_room = 0; gains_room <= book.n + 2; gains_room++) {
            int held = room >= book.n && gains_room >= book.n;
            EXPECT(repair_in(book, same, book.n, request, 2, room, gains_room), held ? answer('F', 0) : refused(14, 0));
            wrote_neither();
        }
    }
}

/* One pair; two, both fixed; three, of which students 0 and 1 can exchange their mentors and student 2 keeps his. */
static void fixed_pairs(void)
{
    static const uint8_t same[3] = {0, 1, 2}, exchanged[3] = {1, 0, 2};
    struct book three = book_of(3, one_fixed_lists);
    is_fixed(book_of(1, "00"), 0);
    is_fixed(book_of(2, "01010101"), 0);
    is_fixed(book_of(2, "01010101"), 1);
    is_fixed(three, 2);
    EXPECT(repair(three, same, 0), answer('D', 2));
    WROTE(&out, exchanged, 3);
    WROTE(&gains, ((const int8_t[3]){-1, -1, 0}), 3);
}

/* Requests that are refused, in the order 13, 11, 12, 14. */
static void bad_requests(void)
{
    static const uint8_t none[2] = {1, 0};
    static const uint8_t good[5] = {0, 4, 0, 4}, no_student[3] = {7, 4, 0}, no_mentor[2] = {0, 7}, nobody[2] = {255, 255};
    static const uint8_t apart[2] = {0, 5}, apart_too[2] = {6, 4};
    struct book table_1 = book_of(7, table_1_lists);
    for (size_t room = 6; room <= 7; room++) {
        for (size_t length = 0; length <= 5; length += length == 0 ? 1 : 2) {
            EXPECT(repair_in(table_1, table_1_m5, 7, good, length, room, 7), refused(13, 0));
        }
        EXPECT(repair_in(table_1, table_1_m5, 7, no_student, 3, 7, room), refused(13, 0));
        EXPECT(repair_in(table_1, table_1_m5, 7, no_student, 2, 7, room), refused(11, 0));
        EXPECT(repair_in(table_1, table_1_m5, 7, no_mentor, 2, room, 7), refused(11, 0));
        EXPECT(repair_in(table_1, table_1_m5, 7, nobody, 2, room, room), refused(11, 0));
        EXPECT(repair_in(table_1, table_1_m5, 7, apart, 2, room, 7), refused(12, 0));
        EXPECT(repair_in(table_1, table_1_m5, 7, apart_too, 2, 7, room), refused(12, 0));
        wrote_neither();
    }
    EXPECT(repair_in(table_1, table_1_m5, 7, good, 2, 6, 7), refused(14, 0));
    EXPECT(repair_in(table_1, table_1_m5, 7, good, 2, 7, 6), refused(14, 0));
    wrote_neither();
    EXPECT(placement_repair(table_1.bytes, 156, table_1_m5, 7, good, 2, NULL, 0, NULL, 0), refused(14, 0));
    EXPECT(placement_repair(none, 2, NULL, 0, NULL, 0, NULL, 0, NULL, 0), refused(13, 0));
    EXPECT(placement_repair(none, 2, NULL, 0, good, 2, NULL, 0, NULL, 0), refused(11, 0));
    EXPECT(placement_repair(NULL, 0, NULL, 0, NULL, 0, NULL, 0, NULL, 0), refused(1, 0));
}

/* Books and matchings that are refused come before the request. */
static void bad_matchings(void)
{
    static const uint8_t long_one[8] = {4, 5, 6, 3, 1, 2, 0, 0}, clash[7] = {4, 5, 6, 3, 1, 2, 4};
    static const uint8_t exchanged[7] = {5, 4, 6, 1, 3, 0, 2};
    struct book table_1 = book_of(7, table_1_lists);
    struct placement_reply unstable = {10, 3, 3, 0, 0};
    for (size_t length = 0; length <= 3; length++) {
        static const uint8_t request[3] = {0, 4, 9};
        EXPECT(repair_in(with(table_1, 2, 0), long_one, 8, request, length, length, 7), refused(5, 2));
        EXPECT(repair_in(table_1, long_one, 8, request, length, length, 7), refused(8, 0));
        EXPECT(repair_in(table_1, long_one, 6, request, length, 7, length), refused(8, 0));
        EXPECT(repair_in(table_1, clash, 7, request, length, length, 7), refused(9, 6));
        EXPECT(repair_in(table_1, exchanged, 7, request, length, length, length), unstable);
        wrote_neither();
    }
}

static struct placement_reply grade(struct book book, const uint8_t *matching, size_t length)
{
    return placement_grade(fenced(0, book.bytes, book.length), book.length, fenced(1, matching, length), length);
}

static void grades(void)
{
    static const uint8_t straight[2] = {0, 1}, crossed[2] = {1, 0}, exchanged[8] = {5, 4, 6, 1, 3, 0, 2};
    struct book table_1 = book_of(7, table_1_lists), two = book_of(2, "01101001");
    struct placement_reply unstable = {10, 3, 3, 0, 0};
    EXPECT(grade(table_1, table_1_m5, 7), value(3));
    EXPECT(grade(two, straight, 2), value(1));
    EXPECT(grade(two, crossed, 2), value(1));
    EXPECT(grade(with(table_1, 155, 9), exchanged, 8), refused(6, 155));
    EXPECT(grade(table_1, exchanged, 8), refused(8, 0));
    EXPECT(grade(table_1, crossed, 2), refused(8, 0));
    EXPECT(grade(table_1, (const uint8_t[7]){4, 5, 6, 3, 1, 7, 4}, 7), refused(9, 5));
    EXPECT(grade(table_1, exchanged, 7), unstable);
    EXPECT(placement_grade(NULL, 0, NULL, 0), refused(1, 0));
}

/* W-204: where no pair can be repaired there is no grade: one stable matching alone, or nobody. Where three students
 * rank 0 1 2 and all mentors 2 1 0, mentor 0 has student 2, and of the others mentor 1 has student 1. A fixed pair
 * beside two students who can exchange their mentors leaves a number. */
static void no_grade(void)
{
    static const uint8_t same[3] = {0, 1, 2}, exchanged[3] = {1, 0, 2}, crossed[3] = {2, 1, 0}, none[2] = {1, 0};
    EXPECT(grade(book_of(3, "012012012210210210"), crossed, 3), value(PLACEMENT_NO_GRADE));
    EXPECT(grade(book_of(2, "01010101"), same, 2), value(PLACEMENT_NO_GRADE));
    EXPECT(grade(book_of(1, "00"), same, 1), value(PLACEMENT_NO_GRADE));
    EXPECT(placement_grade(none, 2, NULL, 0), value(PLACEMENT_NO_GRADE));
    EXPECT(grade(book_of(3, one_fixed_lists), same, 3), value(1));
    EXPECT(grade(book_of(3, one_fixed_lists), exchanged, 3), value(1));
}

/* n = 64. Cyclic lists: everybody moves by one place. Xor lists: two students change. Ends and a middle. */
static void large(void)
{
    uint8_t at_0[64], at_1[64], at_63[64];
    int8_t up[64], down[64];
    struct book cyclic = cyclic_64();
    for (size_t i = 0; i < 64; i++) {
        at_0[i] = (uint8_t)i;
        at_1[i] = (uint8_t)((i + 1) % 64);
        at_63[i] = (uint8_t)((i + 63) % 64);
        up[i] = 1;
        down[i] = -1;
    }
    EXPECT(repair(cyclic, at_0, 63), answer('D', 64));
    WROTE(&out, at_1, 64);
    WROTE(&gains, down, 64);
    EXPECT(repair(cyclic, at_1, 0), answer('U', 64));
    WROTE(&out, at_0, 64);
    WROTE(&gains, up, 64);
    EXPECT(repair(cyclic, at_63, 1), answer('U', 64));
    EXPECT(grade(cyclic, at_0, 64), value(63));
    EXPECT(repair(xor_64(), at_0, 63), answer('D', 2));
    at_0[62] = 63;
    at_0[63] = 62;
    WROTE(&out, at_0, 64);
    EXPECT(repair(xor_64(), at_0, 0), answer('D', 2));
    EXPECT(repair(xor_64(), at_0, 63), answer('U', 2));
    EXPECT(grade(xor_64(), at_0, 64), value(1));
}

void test_repair(void)
{
    table_1_repairs();
    small();
    fixed_pairs();
    bad_requests();
    bad_matchings();
    grades();
    no_grade();
    large();
}
