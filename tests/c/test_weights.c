/* Repairs and grades where each student has a weight (W-201).
 *
 * Table 1 of document 000 with M5, whose set is {0, 1, 2}. Its Table 2 gives the set of each repair, Table 3 its name.
 * Rotation 1 moves students 1 6 5 (document 01); by the pairs that they produce or eliminate in Table 2, rotation 2
 * moves 0 5, rotation 3 0 4, rotation 4 2 6 and rotation 5 1 3. A repair moves the students of the rotations that it
 * takes out of M5's set or into it, as many as Table 3 says:
 *
 *     pair     up: takes out   moves       down: takes in   moves      with weights w0 to w6
 *     (0,4)    M2: 2           0 5         M8: 3            0 4        D where w5 > w4, else U
 *     (1,5)    M1: 1 2         0 1 5 6     M7: 4 5          1 2 3 6    D where w0 + w5 > w2 + w3, else U
 *     (2,6)    -                           M6: 4            2 6        D
 *     (3,3)    -                           M7: 4 5          1 2 3 6    D
 *     (4,1)    -                           M8: 3            0 4        D
 *     (5,2)    M2: 2           0 5         -                           U
 *     (6,0)    M1: 1 2         0 1 5 6     M6: 4            2 6        U where w0 + w1 + w5 <= w2, else D
 *
 * Plainly, all weights being 1, the letters are U U D D D U D. */
#include "asked.h"

#include <string.h>

static struct lent out, gains;

static struct placement_reply repair(struct book book, const uint8_t *matching, const uint8_t *weights, uint8_t student)
{
    uint8_t request[2] = {student, matching[student]};
    struct asked asked = asked_of(book, matching, weights, request);
    return weighted_repair(&asked, &out, &gains);
}

static struct placement_reply grade(struct book book, const uint8_t *matching, const uint8_t *weights)
{
    struct asked asked = asked_of(book, matching, weights, NULL);
    return weighted_grade(&asked);
}

/* A repair of M5: the matching of its set, and the places gained. */
struct repaired {
    uint8_t matching[7];
    int8_t gains[7];
};
static const struct repaired m1 = {{2, 4, 6, 3, 1, 0, 5}, {1, 1, 0, 0, 0, 4, 1}};
static const struct repaired m2 = {{2, 5, 6, 3, 1, 4, 0}, {1, 0, 0, 0, 0, 1, 0}};
static const struct repaired m6 = {{4, 5, 0, 3, 1, 2, 6}, {0, 0, -1, 0, 0, 0, -1}};
static const struct repaired m7 = {{4, 3, 0, 5, 1, 2, 6}, {0, -3, -1, -6, 0, 0, -1}};
static const struct repaired m8 = {{1, 5, 6, 3, 4, 2, 0}, {-1, 0, 0, 0, -4, 0, 0}};

/* Weights, then by the table above the letter and the total of each pair, and the largest total less the own weight. */
static const struct {
    uint8_t weights[7];
    const char *letters;
    size_t totals[7], grade;
} rows[] = {
    {{1, 1, 1, 1, 1, 1, 1}, "UUDDDUD", {2, 4, 2, 4, 2, 2, 2}, 3},
    {{1, 1, 1, 1, 1, 3, 1}, "DDDDDUD", {2, 4, 2, 4, 2, 4, 2}, 3},            /* (0,4) and (1,5) U to D */
    {{1, 1, 4, 1, 1, 1, 1}, "UUDDDUU", {2, 4, 5, 7, 2, 2, 4}, 6},            /* (6,0) D to U; 7 - 1 of (3,3) */
    {{1, 1, 3, 1, 1, 1, 1}, "UUDDDUU", {2, 4, 4, 6, 2, 2, 4}, 5},            /* (6,0) 4 up and 4 down: up */
    {{1, 1, 2, 1, 1, 1, 1}, "UUDDDUD", {2, 4, 3, 5, 2, 2, 3}, 4},            /* (6,0) 4 up and 3 down */
    {{1, 1, 9, 1, 1, 3, 1}, "DUDDDUU", {2, 6, 10, 12, 2, 4, 6}, 11},         /* (0,4) U to D, (6,0) D to U */
    {{1, 2, 4, 8, 16, 32, 64}, "DDDDDUD", {17, 78, 68, 78, 17, 33, 68}, 76}, /* 78 - 2 of (1,5) */
    {{64, 32, 16, 8, 4, 2, 1}, "UDDDDUD", {66, 57, 17, 57, 68, 66, 17}, 64}, /* 68 - 4 of (4,1), 66 - 2 of (5,2) */
    {{0, 0, 0, 0, 0, 0, 0}, "UUDDDUU", {0, 0, 0, 0, 0, 0, 0}, 0},            /* of weight 0, and yet not fixed */
    {{0, 0, 0, 0, 0, 0, 1}, "UUDDDUU", {0, 1, 1, 1, 0, 0, 1}, 1},            /* (6,0) 1 and 1; 1 - 0 of (1,5) */
    {{0, 0, 0, 0, 255, 0, 0}, "UUDDDUU", {0, 0, 0, 0, 255, 0, 0}, 0},        /* (4,1) 255, less his own 255 */
    {{255, 255, 255, 255, 255, 255, 255}, "UUDDDUD", {510, 1020, 510, 1020, 510, 510, 510}, 765},
};

/* Each row, with buffers of n entries and of more. */
static void table_1(void)
{
    static const struct repaired *const up[7] = {&m2, &m1, NULL, NULL, NULL, &m2, &m1};
    static const struct repaired *const down[7] = {&m8, &m7, &m6, &m7, &m8, NULL, &m6};
    struct book book = book_of(7, table_1_lists);
    for (size_t k = 0; k < sizeof rows / sizeof rows[0]; k++) {
        for (uint8_t student = 0; student < 7; student++) {
            const char letter = rows[k].letters[student];
            const struct repaired *to = (letter == 'U' ? up : down)[student];
            uint8_t request[2] = {student, table_1_m5[student]};
            struct asked asked = asked_of(book, table_1_m5, rows[k].weights, request);
            for (size_t more = 0; more < 3; more++, asked.room += 2, asked.gains_room++) {
                EXPECT(weighted_repair(&asked, &out, &gains), answer(letter, rows[k].totals[student]));
                WROTE(&out, to->matching, 7);
                WROTE(&gains, to->gains, 7);
            }
        }
        EXPECT(grade(book, table_1_m5, rows[k].weights), value(rows[k].grade));
    }
}

/* Two by two, and a fixed pair, whatever it weighs. */
static void small(void)
{
    static const uint8_t straight[2] = {0, 1}, crossed[2] = {1, 0}, weights[2] = {7, 30};
    struct book two = book_of(2, "01101001"), fixed = book_of(2, "01010101");
    for (uint8_t student = 0; student < 2; student++) {
        EXPECT(repair(two, straight, weights, student), answer('D', 37));
        WROTE(&out, crossed, 2);
        EXPECT(repair(two, crossed, weights, student), answer('U', 37));
        WROTE(&out, straight, 2);
        EXPECT(repair(fixed, straight, weights, student), answer('F', 0));
        WROTE_NOTHING(&out);
        WROTE_NOTHING(&gains);
    }
    EXPECT(grade(two, straight, weights), value(30));
    EXPECT(grade(two, crossed, weights), value(30));
    EXPECT(repair(book_of(1, "00"), straight, weights, 0), answer('F', 0));
}

/* W-204: a grade of 0 is a number, and where no pair can be repaired there is none, whatever the students weigh. Of
 * three with two rotations student 0 alone weighs something: his pair is parted by the repair up, which moves 0 and 2,
 * those of the others by the repair down, which moves 1 and 2. */
static void zero_and_none(void)
{
    static const uint8_t between[3] = {2, 0, 1}, up[3] = {1, 0, 2}, down[3] = {2, 1, 0}, own[3] = {1, 0, 0};
    static const uint8_t straight[2] = {0, 1}, weights[2] = {7, 30}, zeros[2] = {0};
    struct book three = book_of(3, two_rotations_lists), fixed = book_of(2, "01010101");
    EXPECT(repair(three, between, own, 0), answer('U', 1));
    WROTE(&out, up, 3);
    for (uint8_t student = 1; student < 3; student++) {
        EXPECT(repair(three, between, own, student), answer('D', 0));
        WROTE(&out, down, 3);
    }
    EXPECT(grade(three, between, own), value(0));
    EXPECT(grade(book_of(2, "01101001"), straight, zeros), value(0));
    EXPECT(grade(fixed, straight, weights), value(PLACEMENT_NO_GRADE));
    EXPECT(grade(fixed, straight, zeros), value(PLACEMENT_NO_GRADE));
    EXPECT(grade(book_of(1, "00"), straight, weights), value(PLACEMENT_NO_GRADE));
    EXPECT(grade(book_of(0, ""), straight, weights), value(PLACEMENT_NO_GRADE));
}

/* n = 64. Cyclic lists: every stable matching moves all 64, which weigh 64 * 255, and the others 63 * 255.
 * Xor lists with everybody at place 1: up moves students i and i xor 1, down i and i xor 3. Student 0 heavy: his pair
 * weighs 256 both ways, that of 1 256 up and 2 down, that of 3 2 up and 256 down. At place 0 students 0 and 1 move. */
static void large(void)
{
    uint8_t heaviest[64], last[64] = {0}, heavy_0[64], at_0[64], next[64], xor_1[64];
    memset(heaviest, 255, 64);
    memset(heavy_0, 1, 64);
    last[63] = heavy_0[0] = 255;
    for (size_t i = 0; i < 64; i++) {
        at_0[i] = (uint8_t)i;
        next[i] = (uint8_t)((i + 1) % 64);
        xor_1[i] = (uint8_t)(i ^ 1);
    }
    for (uint8_t student = 0; student < 64; student += 21) {
        EXPECT(repair(cyclic_64(), at_0, heaviest, student), answer('D', 16320));
        WROTE(&out, next, 64);
        EXPECT(repair(cyclic_64(), next, heaviest, student), answer('U', 16320));
        WROTE(&out, at_0, 64);
        EXPECT(repair(cyclic_64(), next, last, student), answer('U', 255));
    }
    EXPECT(grade(cyclic_64(), at_0, heaviest), value(16065));
    EXPECT(grade(cyclic_64(), next, heaviest), value(16065));
    EXPECT(grade(cyclic_64(), next, last), value(255));
    EXPECT(repair(xor_64(), xor_1, heavy_0, 0), answer('U', 256));
    EXPECT(repair(xor_64(), xor_1, heavy_0, 1), answer('D', 2));
    EXPECT(repair(xor_64(), xor_1, heavy_0, 2), answer('U', 2));
    EXPECT(repair(xor_64(), xor_1, heavy_0, 3), answer('U', 2));
    EXPECT(grade(xor_64(), xor_1, heavy_0), value(1));
    EXPECT(repair(xor_64(), at_0, heavy_0, 1), answer('D', 256));
    EXPECT(grade(xor_64(), at_0, heavy_0), value(255));
}

/* Weights of 1: the replies and the result buffers of the plain calls. */
static void same_as_plain(struct book book, const uint8_t *matching)
{
    uint8_t ones[64];
    memset(ones, 1, 64);
    for (uint8_t student = 0; student < book.n; student++) {
        uint8_t request[2] = {student, matching[student]}, plain_out[64] = {0};
        int8_t plain_gains[64] = {0};
        struct placement_reply plain = placement_repair(book.bytes, book.length, matching, book.n, request, 2,
                                                        plain_out, book.n, plain_gains, book.n);
        size_t written = plain.letter == 'F' ? 0 : book.n;
        EXPECT(repair(book, matching, ones, student), plain);
        WROTE(&out, plain_out, written);
        WROTE(&gains, plain_gains, written);
    }
    EXPECT(grade(book, matching, ones), placement_grade(book.bytes, book.length, matching, book.n));
}

void test_weights(void)
{
    static const uint8_t straight[3] = {0, 1, 2};
    uint8_t at_0[64];
    for (size_t i = 0; i < 64; i++) {
        at_0[i] = (uint8_t)i;
    }
    table_1();
    small();
    zero_and_none();
    large();
    same_as_plain(book_of(7, table_1_lists), table_1_m5);
    same_as_plain(book_of(7, table_1_lists), table_1_best);
    same_as_plain(book_of(7, table_1_lists), table_1_worst);
    same_as_plain(book_of(3, one_fixed_lists), straight);
    same_as_plain(book_of(2, "01010101"), straight);
    same_as_plain(xor_64(), at_0);
    same_as_plain(cyclic_64(), at_0);
}
