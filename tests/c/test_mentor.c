/* W-205: the repair by a mentor's number. What is due is a literal, from Table 3 of document 000 and from short lists
 * worked out by hand, or what the request of two bytes for her pair gets, which other tests hold against the papers.
 * test_short_rules.c has every two rules in their order. */
#include "asked.h"

#include <string.h>

static struct lent out, gains, pair_out, pair_gains;

/* A repair by request and the same by mentor: without weights and with them. */
static const repair_call by_request[2] = {plain_repair, weighted_repair};
static const repair_call by_mentor[2] = {plain_by_mentor, weighted_by_mentor};

/* Both calls refuse and write nothing. */
static void are_refused(const struct asked *asked, struct placement_reply due)
{
    for (size_t k = 0; k < 2; k++) {
        EXPECT(by_mentor[k](asked, &out, &gains), due);
        WROTE_NOTHING(&out);
        WROTE_NOTHING(&gains);
    }
}

/* The student who has a mentor, n where she is alone. */
static size_t student_of(const uint8_t *matching, size_t n, uint8_t mentor)
{
    size_t student = 0;
    while (student < n && matching[student] != mentor) {
        student++;
    }
    return student;
}

/* Both calls of one mentor, with buffers of n entries and of more: reply and every byte of both buffers and around them
 * are those of the request for her and her student. One who is alone gets 12, with short buffers too. */
static void same_mentor(struct asked asked)
{
    const size_t n = asked.book.n, student = student_of(asked.matching, n, asked.mentor);
    const uint8_t request[2] = {(uint8_t)student, asked.mentor};
    asked.request = request;
    for (size_t more = 0; more < 3; more++) {
        asked.room = n + 2 * more;
        asked.gains_room = n + more;
        for (size_t k = 0; k < 2 && student < n; k++) {
            EXPECT(by_mentor[k](&asked, &out, &gains), by_request[k](&asked, &pair_out, &pair_gains));
            HOLDS(memcmp(out.bytes, pair_out.bytes, sizeof out.bytes) == 0);
            HOLDS(memcmp(gains.bytes, pair_gains.bytes, sizeof gains.bytes) == 0);
        }
        if (student == n) {
            are_refused(&asked, refused(12, 0));
            asked.room = n - 1;
            are_refused(&asked, refused(12, 0));
        }
    }
}

/* Every mentor, and 11 for the first number of nobody and the last. Gives how many mentors are alone. */
static size_t every_mentor(struct book book, const uint8_t *matching, const uint8_t *weights)
{
    struct asked asked = asked_of(book, matching, weights, NULL);
    size_t alone = 0;
    for (; asked.mentor < book.n; asked.mentor++) {
        same_mentor(asked);
        alone += student_of(matching, book.n, asked.mentor) == book.n;
    }
    are_refused(&asked, refused(11, 0));
    asked.mentor = 255;
    are_refused(&asked, refused(11, 0));
    return alone;
}

/* Table 3 of document 000 read by mentor: she has student 6 4 5 3 0 1 2. Her repair is up or down, moves so many, and
 * is the matching of that one of Table 2's sets, {0,1,2,4}, {0,1,2,3}, {0,1}, {0,1,2,4,5}, {0,1}, {0}, {0,1,2,4}. With
 * weights the letters and totals are those of the row 1 1 9 1 1 3 1 in test_weights.c. */
static void table_3(void)
{
    static const uint8_t ones[7] = {1, 1, 1, 1, 1, 1, 1}, weights[7] = {1, 1, 9, 1, 1, 3, 1};
    static const size_t moved[7] = {2, 2, 2, 4, 2, 4, 2}, sets[7] = {5, 4, 2, 6, 2, 1, 5};
    static const size_t totals[7] = {6, 2, 4, 12, 2, 6, 10}, weighted_sets[7] = {1, 4, 2, 6, 4, 1, 5};
    struct asked asked = asked_of(book_of(7, table_1_lists), table_1_m5, ones, NULL);
    for (asked.mentor = 0; asked.mentor < 7; asked.mentor++) {
        const size_t m = asked.mentor;
        asked.weights = ones;
        for (size_t k = 0; k < 2; k++) {
            EXPECT(by_mentor[k](&asked, &out, &gains), answer("DDUDUUD"[m], moved[m]));
            WROTE(&out, table_1_sets[sets[m]].matching, 7);
        }
        asked.weights = weights;
        EXPECT(weighted_by_mentor(&asked, &out, &gains), answer("UDUDDUD"[m], totals[m]));
        WROTE(&out, table_1_sets[weighted_sets[m]].matching, 7);
    }
}

/* Table 1 with the matchings of Table 2, and with a book of edition 2 that says the same; no mentor is alone. */
static void table_1(void)
{
    static const uint8_t weights[4][7] = {
        {1, 1, 9, 1, 1, 3, 1}, {64, 32, 16, 8, 4, 2, 1}, {0, 0, 0, 0, 255, 0, 0}, {255, 255, 255, 255, 255, 255, 255}};
    struct book book = book_of(7, table_1_lists);
    for (size_t k = 0; k < 8; k++) {
        for (size_t row = 0; row < 4; row++) {
            HOLDS(every_mentor(book, table_1_sets[k].matching, weights[row]) == 0);
        }
        HOLDS(every_mentor(with(book, 0, 2), table_1_sets[k].matching, weights[0]) == 0);
    }
}

/* The six of books.h: students 0 and 1 exchange mentors 0 and 1, the pairs of mentors 2 and 3 are fixed, and mentors 4
 * and 5 are alone, the one on a list and the other on none. Past them numbers are nobody's. */
static void six(void)
{
    static const uint8_t weights[6] = {7, 30, 1, 1, 255, 255};
    static const int8_t worse[6] = {-1, -1}, better[6] = {1, 1};
    for (size_t best = 0; best < 2; best++) {
        struct asked asked = asked_of(short_book(6, six_lists), best ? six_best : six_worst, weights, NULL);
        for (asked.mentor = 0; asked.mentor < 4; asked.mentor++) {
            const size_t written = asked.mentor < 2 ? 6 : 0;
            for (size_t k = 0; k < 2; k++) {
                EXPECT(by_mentor[k](&asked, &out, &gains),
                       written == 0 ? answer('F', 0) : answer(best ? 'D' : 'U', k == 0 ? 2 : 37));
                WROTE(&out, best ? six_worst : six_best, written);
                WROTE(&gains, best ? worse : better, written);
            }
        }
        for (; asked.mentor != 0; asked.mentor++) {
            are_refused(&asked, refused(asked.mentor < 6 ? 12 : 11, 0));
        }
    }
}

/* Other books: one mentor alone beside Table 1, fixed pairs, nobody in a pair, and n = 64, with half of them alone. */
static void other_books(void)
{
    static const uint8_t short_m5[8] = {4, 5, 6, 3, 1, 2, 0, 255}, same[3] = {0, 1, 2}, between[3] = {2, 0, 1};
    static const uint8_t heavy[8] = {1, 1, 9, 1, 1, 3, 1, 255}, nobody[2] = {255, 255};
    uint8_t shifted[64], crossed[64], half[64], weights[64];
    for (size_t i = 0; i < 64; i++) {
        shifted[i] = (uint8_t)((i + 1) % 64);
        crossed[i] = (uint8_t)(i ^ 1);
        half[i] = (uint8_t)(i % 2 == 0 ? i : 255);
        weights[i] = (uint8_t)(255 - 37 * i);
    }
    HOLDS(every_mentor(short_book(8, short_table_1_lists), short_m5, heavy) == 1);
    HOLDS(every_mentor(book_of(3, one_fixed_lists), same, heavy) == 0);
    HOLDS(every_mentor(book_of(3, two_rotations_lists), between, heavy) == 0);
    HOLDS(every_mentor(book_of(1, "00"), same, heavy) == 0);
    HOLDS(every_mentor(short_book(1, "- -"), nobody, heavy) == 1);
    HOLDS(every_mentor(short_book(2, "- - - -"), nobody, heavy) == 2);
    HOLDS(every_mentor(short_book(2, "0 - 0 -"), (const uint8_t[2]){0, 255}, heavy) == 1);
    HOLDS(every_mentor(cyclic_64(), shifted, weights) == 0);
    HOLDS(every_mentor(xor_64(), crossed, weights) == 0);
    HOLDS(every_mentor(short_xor_64(8), crossed, weights) == 0);
    HOLDS(every_mentor(half_64(), half, weights) == 32);
}

/* The rules of the book and of the matching, each with its place, before a number of nobody and before 14. */
static void earlier_rules(void)
{
    static const uint8_t m5[8] = {4, 5, 6, 3, 1, 2, 0}, ones[8] = {1, 1, 1, 1, 1, 1, 1, 1};
    static const uint8_t clash[8] = {4, 5, 6, 3, 1, 2, 4}, exchanged[8] = {5, 4, 6, 1, 3, 0, 2};
    const struct book book = book_of(7, table_1_lists);
    const struct book one_sided = short_book(7, "0 - - - - - - - - - - - - -");
    const struct book nobody_listed = short_book(7, "- - - - - - - - - - - - - -");
    struct book shorter = book;
    shorter.length = 155;
    const struct asked bad[11] = {
        asked_of(shorter, m5, ones, NULL),           asked_of(with(book, 0, 3), m5, ones, NULL),
        asked_of(with(book, 1, 65), m5, ones, NULL), asked_of(followed(book, ones, 1), m5, ones, NULL),
        asked_of(with(book, 2, 0), m5, ones, NULL),  asked_of(with(book, 58, 7), m5, ones, NULL),
        asked_of(with(book, 59, 0), m5, ones, NULL), asked_of(one_sided, m5, ones, NULL),
        asked_of(book, clash, ones, NULL),           asked_of(nobody_listed, m5, ones, NULL),
        asked_of(book, exchanged, ones, NULL),
    };
    const struct placement_reply due[11] = {refused(1, 155), refused(2, 0),  refused(3, 1),  refused(4, 156),
                                            refused(5, 2),   refused(6, 58), refused(7, 59), refused(18, 0),
                                            refused(9, 6),   refused(19, 0), blocked(3, 3)};
    for (size_t k = 0; k < 4 * 11; k++) {
        struct asked asked = bad[k % 11];
        asked.mentor = k < 22 ? 4 : 255;
        asked.room = k / 11 % 2 == 0 ? 6 : 7;
        are_refused(&asked, due[k % 11]);
    }
    for (size_t length = 0; length <= 8; length++) {
        struct asked asked = asked_of(book, m5, ones, NULL);
        asked.matching_length = length;
        asked.mentor = 7;
        are_refused(&asked, length == 7 ? refused(11, 0) : refused(8, 0));
    }
}

/* The six: mentor 0 has a repair, the pair of mentor 2 is fixed, mentor 4 is alone, and 6 is nobody. 17 comes before 11
 * and 12, these before 14, which a fixed pair gets too. The plain call takes no weights. */
static void later_rules(uint8_t mentor, size_t weights_length, size_t room, size_t gains_room)
{
    static const uint8_t weights[7] = {1, 1, 1, 1, 1, 1, 1};
    const size_t number = mentor == 6 ? 11 : mentor == 4 ? 12 : room < 6 || gains_room < 6 ? 14 : 0;
    const struct placement_reply fine = mentor == 0 ? answer('D', 2) : answer('F', 0);
    const struct placement_reply due = number == 0 ? fine : refused(number, 0);
    struct asked asked = asked_of(short_book(6, six_lists), six_best, weights, NULL);
    asked.mentor = mentor;
    asked.weights_length = weights_length;
    asked.room = room;
    asked.gains_room = gains_room;
    EXPECT(plain_by_mentor(&asked, &out, &gains), due);
    WROTE(&out, six_worst, due.letter == 'D' ? 6 : 0);
    EXPECT(weighted_by_mentor(&asked, &out, &gains), weights_length == 6 ? due : refused(17, 0));
    WROTE(&out, six_worst, due.letter == 'D' && weights_length == 6 ? 6 : 0);
}

static void rooms_and_weights(void)
{
    for (uint8_t mentor = 0; mentor <= 6; mentor += 2) {
        for (size_t room = 4; room <= 7; room++) {
            for (size_t gains_room = 4; gains_room <= 7; gains_room++) {
                for (size_t weights_length = 5; weights_length <= 7; weights_length++) {
                    later_rules(mentor, weights_length, room, gains_room);
                }
            }
        }
    }
}

/* Nobody: every number is 11, in both editions, and null pointers go with length 0. */
static void nobody(void)
{
    static const uint8_t weight[1] = {1};
    for (uint8_t edition = 1; edition <= 2; edition++) {
        const uint8_t none[2] = {edition, 0};
        for (size_t number = 0; number < 256; number++) {
            const uint8_t m = (uint8_t)number;
            EXPECT(placement_repair_mentor(none, 2, NULL, 0, m, NULL, 0, NULL, 0), refused(11, 0));
            EXPECT(placement_weighted_repair_mentor(none, 2, NULL, 0, NULL, 0, m, NULL, 0, NULL, 0), refused(11, 0));
        }
        EXPECT(placement_weighted_repair_mentor(none, 2, NULL, 0, weight, 1, 0, NULL, 0, NULL, 0), refused(17, 0));
    }
    EXPECT(placement_repair_mentor(NULL, 0, NULL, 0, 0, NULL, 0, NULL, 0), refused(1, 0));
    EXPECT(placement_weighted_repair_mentor(NULL, 0, NULL, 0, NULL, 0, 0, NULL, 0, NULL, 0), refused(1, 0));
}

void test_mentor(void)
{
    table_3();
    table_1();
    six();
    other_books();
    earlier_rules();
    rooms_and_weights();
    nobody();
}
