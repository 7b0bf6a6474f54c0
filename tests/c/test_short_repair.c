/* Edition 2 (W-203): the repair of a pair and the grade, plain and with weights, beside people who are alone. */
#include "asked.h"

#include <string.h>

static struct lent out, gains;

/* A repair and what it writes. */
struct repaired {
    char letter;
    size_t distance;
    uint8_t matching[8];
    int8_t gains[8];
};

/* Both calls give this repair, with weights of 1 and into buffers with one entry more than n; `F` writes nothing. */
static void repairs(struct book book, const uint8_t *matching, uint8_t student, const struct repaired *due)
{
    static const uint8_t ones[8] = {1, 1, 1, 1, 1, 1, 1, 1};
    const uint8_t request[2] = {student, matching[student]};
    struct asked asked = asked_of(book, matching, ones, request);
    size_t written = due->letter == 'F' ? 0 : book.n;
    asked.room = asked.gains_room = book.n + 1;
    EXPECT(plain_repair(&asked, &out, &gains), answer(due->letter, due->distance));
    WROTE(&out, due->matching, written);
    WROTE(&gains, due->gains, written);
    EXPECT(weighted_repair(&asked, &out, &gains), answer(due->letter, due->distance));
    WROTE(&out, due->matching, written);
    WROTE(&gains, due->gains, written);
}

/* Students 0 and 1 exchange; the pairs of 2 and 3 are fixed; 4 and 5 are alone and gain nothing. */
static void six_repairs(void)
{
    static const struct repaired down = {'D', 2, {1, 0, 2, 3, 255, 255}, {-1, -1, 0, 0, 0, 0}};
    static const struct repaired up = {'U', 2, {0, 1, 2, 3, 255, 255}, {1, 1, 0, 0, 0, 0}};
    static const struct repaired fixed = {'F', 0, {0}, {0}};
    struct book six = short_book(6, six_lists);
    for (uint8_t student = 0; student < 4; student++) {
        repairs(six, six_best, student, student < 2 ? &down : &fixed);
        repairs(six, six_worst, student, student < 2 ? &up : &fixed);
    }
}

/* Table 3 of document 000, as in test_repair.c, on the shorter lists: the places between two mentors are fewer, and so
 * are some gains. Student 7 is alone before and after. */
static void table_1_repairs(void)
{
    static const uint8_t m5[8] = {4, 5, 6, 3, 1, 2, 0, 255};
    static const struct repaired due[7] = {
        {'U', 2, {2, 5, 6, 3, 1, 4, 0, 255}, {1, 0, 0, 0, 0, 1, 0, 0}},
        {'U', 4, {2, 4, 6, 3, 1, 0, 5, 255}, {1, 1, 0, 0, 0, 3, 1, 0}},
        {'D', 2, {4, 5, 0, 3, 1, 2, 6, 255}, {0, 0, -1, 0, 0, 0, -1, 0}},
        {'D', 4, {4, 3, 0, 5, 1, 2, 6, 255}, {0, -3, -1, -3, 0, 0, -1, 0}},
        {'D', 2, {1, 5, 6, 3, 4, 2, 0, 255}, {-1, 0, 0, 0, -3, 0, 0, 0}},
        {'U', 2, {2, 5, 6, 3, 1, 4, 0, 255}, {1, 0, 0, 0, 0, 1, 0, 0}},
        {'D', 2, {4, 5, 0, 3, 1, 2, 6, 255}, {0, 0, -1, 0, 0, 0, -1, 0}},
    };
    for (uint8_t student = 0; student < 7; student++) {
        repairs(short_book(8, short_table_1_lists), m5, student, &due[student]);
    }
}

/* Requests for people who are alone: 12 for a student without a mentor, whichever mentor is named, and 11 for the byte
 * 255, which is nobody's. 13 comes before both and 14 after. */
static void alone(void)
{
    static const uint8_t ones[6] = {1, 1, 1, 1, 1, 1};
    static const struct {
        size_t number;
        uint8_t request[2];
    } due[] = {
        {12, {4, 1}},   {12, {4, 4}},   {12, {5, 5}}, {12, {5, 0}},     {12, {0, 4}},   {12, {0, 1}},   {11, {4, 255}},
        {11, {5, 255}}, {11, {0, 255}}, {11, {4, 6}}, {11, {255, 255}}, {11, {6, 255}}, {11, {255, 0}},
    };
    for (size_t k = 0; k < sizeof due / sizeof due[0]; k++) {
        struct asked asked = asked_of(short_book(6, six_lists), six_best, ones, due[k].request);
        for (asked.room = 5; asked.room <= 6; asked.room++) {
            EXPECT(plain_repair(&asked, &out, &gains), refused(due[k].number, 0));
            EXPECT(weighted_repair(&asked, &out, &gains), refused(due[k].number, 0));
        }
        asked.request_length = 1;
        EXPECT(plain_repair(&asked, &out, &gains), refused(13, 0));
        EXPECT(weighted_repair(&asked, &out, &gains), refused(13, 0));
    }
}

/* Both buffers hold n entries, whoever is alone, or 14 is given; for fixed pairs too. */
static void rooms(void)
{
    static const uint8_t ones[6] = {1, 1, 1, 1, 1, 1};
    struct book six = short_book(6, six_lists);
    for (uint8_t student = 0; student < 4; student += 2) {
        for (size_t room = 4; room <= 7; room++) {
            for (size_t gains_room = 4; gains_room <= 7; gains_room++) {
                struct asked asked = asked_of(six, six_best, ones, (const uint8_t[2]){student, student});
                struct placement_reply fine = student == 0 ? answer('D', 2) : answer('F', 0);
                asked.room = room;
                asked.gains_room = gains_room;
                EXPECT(plain_repair(&asked, &out, &gains), room < 6 || gains_room < 6 ? refused(14, 0) : fine);
                EXPECT(weighted_repair(&asked, &out, &gains), room < 6 || gains_room < 6 ? refused(14, 0) : fine);
            }
        }
    }
}

static struct placement_reply grade(struct book book, const uint8_t *matching)
{
    return placement_grade(fenced(0, book.bytes, book.length), book.length, fenced(1, matching, book.n), book.n);
}

/* Whoever is alone is no pair: he counts neither in the grade nor as fixed. */
static void grades(void)
{
    static const uint8_t m5[8] = {4, 5, 6, 3, 1, 2, 0, 255};
    uint8_t first[64];
    for (size_t i = 0; i < 64; i++) {
        first[i] = (uint8_t)i;
    }
    EXPECT(grade(short_book(6, six_lists), six_best), value(1));
    EXPECT(grade(short_book(6, six_lists), six_worst), value(1));
    EXPECT(grade(short_book(8, short_table_1_lists), m5), value(3));
    EXPECT(grade(short_cyclic_64(8), first), value(63));
    EXPECT(grade(short_xor_64(8), first), value(1));
}

/* W-204: no pair can be repaired, plainly or with weights of 0, 1 and 255. */
static void has_no_grade(struct book book, const uint8_t *matching)
{
    uint8_t weights[64];
    EXPECT(grade(book, matching), value(PLACEMENT_NO_GRADE));
    for (size_t k = 0; k < 3; k++) {
        memset(weights, k == 2 ? 255 : (int)k, 64);
        struct asked asked = asked_of(book, matching, weights, NULL);
        EXPECT(weighted_grade(&asked), value(PLACEMENT_NO_GRADE));
    }
}

/* Nobody; one and two students without a mentor; one beside a fixed pair, and the pair alone; 64, of whom half have no
 * mentor, and 64 pairs. */
static void no_grade(void)
{
    static const uint8_t nobody[2] = {255, 255}, one[2] = {0, 255};
    uint8_t half[64], first[64];
    for (size_t i = 0; i < 64; i++) {
        half[i] = (uint8_t)(i % 2 == 0 ? i : 255);
        first[i] = (uint8_t)i;
    }
    has_no_grade(short_book(0, ""), nobody);
    has_no_grade(short_book(1, "- -"), nobody);
    has_no_grade(short_book(2, "- - - -"), nobody);
    has_no_grade(short_book(2, "0 - 0 -"), one);
    has_no_grade(short_book(1, "0 0"), one);
    has_no_grade(half_64(), half);
    has_no_grade(short_cyclic_64(1), first);
}

/* Weights: students 4 and 5 weigh most and are never moved. Student 0's total is 37 and his own weight 7. */
static void weights(void)
{
    static const uint8_t given[6] = {7, 30, 1, 1, 255, 255}, zeros[6] = {0}, pair[2] = {0, 0}, fixed[2] = {2, 2};
    struct asked asked = asked_of(short_book(6, six_lists), six_best, given, pair);
    EXPECT(weighted_repair(&asked, &out, &gains), answer('D', 37));
    WROTE(&out, six_worst, 6);
    WROTE(&gains, ((const int8_t[6]){-1, -1, 0, 0, 0, 0}), 6);
    EXPECT(weighted_grade(&asked), value(30));
    asked.request = fixed;
    EXPECT(weighted_repair(&asked, &out, &gains), answer('F', 0));
    asked.weights = zeros;
    asked.request = pair;
    EXPECT(weighted_repair(&asked, &out, &gains), answer('D', 0));
    WROTE(&out, six_worst, 6);
    EXPECT(weighted_grade(&asked), value(0));
}

/* Table 1 shortened with the weights of tests/c/test_weights.c and a heavy student 7: its totals stay. Student 6
 * has a repair up of 1 + 1 + 3 + 1 and one down of 9 + 1; the largest total less the own weight is that of student
 * 3, 12 - 1. */
static void table_1_weights(void)
{
    static const uint8_t m5[8] = {4, 5, 6, 3, 1, 2, 0, 255}, given[8] = {1, 1, 9, 1, 1, 3, 1, 255}, pair[2] = {6, 0};
    struct asked asked = asked_of(short_book(8, short_table_1_lists), m5, given, pair);
    EXPECT(weighted_repair(&asked, &out, &gains), answer('U', 6));
    WROTE(&out, ((const uint8_t[8]){2, 4, 6, 3, 1, 0, 5, 255}), 8);
    WROTE(&gains, ((const int8_t[8]){1, 1, 0, 0, 0, 3, 1, 0}), 8);
    EXPECT(weighted_grade(&asked), value(11));
}

void test_short_repair(void)
{
    six_repairs();
    table_1_repairs();
    alone();
    rooms();
    grades();
    no_grade();
    weights();
    table_1_weights();
}
