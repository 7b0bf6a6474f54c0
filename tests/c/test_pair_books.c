/* W-207, two pairs at one go, on small books with all their stable matchings, and for n = 64. */
#include "sorts.h"

#include <string.h>

/* A book of an edition, a word for each list and for each stable matching, best first and `-` for nobody, and of the
 * stable matching at `given` the repair of two students' pairs. */
struct small {
    uint8_t edition;
    size_t n;
    const char *lists, *stable;
    size_t given;
    uint8_t students[2];
    size_t letter, moved;
};

/* In the order of the books:
 *
 * - Repair up of the first pair, 102, and repair down of the second, 021, move student 1 both: there is no UD, but UU.
 *   Of the pairs of students 0 and 2 the one has a repair up alone and the other one down alone: both have none.
 * - Repair up of the first pair, 0321, and repair down of the second, 2103, move different students, but both together,
 *   0123, are not stable: there is no UD. The same in edition 2 with 3120, 0213 and 0123.
 * - UD alone, DU alone; UD alone with short lists.
 * - Each pair has a repair, in edition 2, and both together have none.
 * - A student and a mentor are alone; UD alone, DU alone.
 * - Students 0 and 1 of the six exchange their mentors, both ways; the pairs of students 2 and 3 are fixed. */
static const struct small books[] = {
    {1, 3, "102 012 201 021 210 120", "012 021 102", 0, {0, 1}, PLACEMENT_UP_UP, 2},
    {1, 3, "102 012 201 021 210 120", "012 021 102", 0, {0, 2}, 'F', 0},
    {1, 4, "0213 3210 3201 1032 2130 0213 3021 3012", "0321 2103 2301", 2, {0, 1}, 'F', 0},
    {2, 4, "3021 1203 2031 023 0321 021 1032 3102", "0213 3120 3210", 2, {1, 0}, 'F', 0},
    {1, 4, "0123 1023 2103 3210 3102 0312 0321 2301", "0123 0132 1023 1032", 1, {2, 0}, PLACEMENT_UP_DOWN, 4},
    {1, 4, "0123 1023 2103 3210 3102 0312 0321 2301", "0123 0132 1023 1032", 1, {0, 2}, PLACEMENT_DOWN_UP, 4},
    {2, 4, "130 230 02 231 012 30 213 031", "1023 1203 3021 3201", 0, {1, 0}, PLACEMENT_UP_DOWN, 4},
    {2, 3, "021 201 12 10 012 201", "021 102 201", 2, {1, 2}, 'F', 0},
    {2, 5, "143 14203 3201 23140 3421 321 42130 2341 32401 1340", "-1234 -1324 -4231 -4321", 0, {2, 1},
     PLACEMENT_UP_DOWN, 4},
    {2, 5, "143 14203 3201 23140 3421 321 42130 2341 32401 1340", "-1234 -1324 -4231 -4321", 0, {1, 2},
     PLACEMENT_DOWN_UP, 4},
    {2, 6, six_lists, "0123-- 1023--", 0, {0, 1}, PLACEMENT_DOWN_DOWN, 2},
    {2, 6, six_lists, "0123-- 1023--", 1, {1, 0}, PLACEMENT_UP_UP, 2},
    {2, 6, six_lists, "0123-- 1023--", 0, {0, 2}, 'F', 0},
    {2, 6, six_lists, "0123-- 1023--", 1, {3, 1}, 'F', 0},
};

/* Reads matchings into rows; gives how many. */
static size_t read_rows(uint8_t (*rows)[8], const char *words)
{
    size_t row = 0, at = 0;
    for (; *words != 0; words++) {
        if (*words == ' ') {
            row++;
            at = 0;
        } else {
            rows[row][at++] = *words == '-' ? 255 : (uint8_t)(*words - '0');
        }
    }
    return row + 1;
}

/* Each row, as said, as defined and as answered; then every two pairs of each book, plainly and with weights. */
static void small_books(void)
{
    static const uint8_t weights[8] = {7, 30, 1, 200, 0, 3};
    for (size_t k = 0; k < sizeof books / sizeof books[0]; k++) {
        const struct small *small = &books[k];
        uint8_t rows[16][8] = {{0}};
        const struct listed listed = {with(short_book(small->n, small->lists), 0, small->edition),
                                      (const uint8_t(*)[8])rows, read_rows(rows, small->stable)};
        const struct due due =
            ask_pairs(&listed, rows[small->given], small->students[0], small->students[1], NULL);
        HOLDS(due.letter == small->letter && due.total == small->moved);
        ask_all_pairs(&listed, NULL);
        ask_all_pairs(&listed, weights);
    }
}

/* The two of the books above whose repairs move different students: both together are blocked. */
static void blocked_together(void)
{
    static const uint8_t together[4] = {0, 1, 2, 3};
    for (size_t k = 2; k < 4; k++) {
        const struct book book = with(short_book(4, books[k].lists), 0, books[k].edition);
        EXPECT(placement_check_matching(book.bytes, book.length, together, 4), blocked(3, k == 2 ? 0 : 2));
    }
}

/* Two_rotations_lists of books.h twice, side by side. In 2 0 1 students 0 and 2 can exchange up and students 1 and 2
 * down, and in 5 3 4 students 3 and 5, and 4 and 5. So the pairs of students 2 and 5 have repairs of all four sorts:
 * UU moves 0 2 3 5, UD 0 2 4 5, DU 1 2 3 5 and DD 1 2 4 5. */
static void side_by_side(void)
{
    static const char *const lists[2] = {
        "012345 012345 210345 345012 345012 543012 210345 120345 012345 543012 453012 345012",
        "012 012 210 345 345 543 210 120 012 543 453 345",
    };
    static const struct {
        uint8_t weights[8];
        size_t letter, total;
    } due[] = {
        {{1, 1, 1, 1, 1, 1}, PLACEMENT_UP_UP, 4},     {{2, 1, 1, 1, 1, 1}, PLACEMENT_DOWN_UP, 4},
        {{1, 1, 1, 2, 1, 1}, PLACEMENT_UP_DOWN, 4},   {{2, 1, 1, 2, 1, 1}, PLACEMENT_DOWN_DOWN, 4},
        {{9, 8, 255, 0, 0, 255}, PLACEMENT_DOWN_UP, 518}, {{0, 0, 1, 255, 254, 1}, PLACEMENT_UP_DOWN, 256},
        {{0, 0, 0, 0, 0, 0}, PLACEMENT_UP_UP, 0},     {{3, 4, 0, 4, 3, 0}, PLACEMENT_UP_DOWN, 6},
    };
    uint8_t rows[16][8] = {{0}};
    const size_t count = read_rows(rows, "102435 102534 102543 201435 201534 201543 210435 210534 210543");
    for (size_t edition = 1; edition <= 2; edition++) {
        const struct book book = with(short_book(6, lists[edition - 1]), 0, (uint8_t)edition);
        const struct listed listed = {book, (const uint8_t(*)[8])rows, count};
        for (size_t k = 0; k < sizeof due / sizeof due[0]; k++) {
            const struct due got = ask_pairs(&listed, rows[4], 2, 5, due[k].weights);
            HOLDS(got.letter == due[k].letter && got.total == due[k].total);
            ask_all_pairs(&listed, due[k].weights);
        }
        ask_all_pairs(&listed, NULL);
    }
}

/* n = 64: the pairs of two students, plainly, or with weights; the repaired matching and the places gained. */
static void large(struct book book, const uint8_t *given, const uint8_t *weights, const uint8_t *students,
                  struct placement_reply due, const uint8_t *matching, const int8_t *gained)
{
    static struct lent out, gains;
    const uint8_t request[4] = {students[0], given[students[0]], students[1], given[students[1]]};
    struct asked asked = asked_of(book, given, weights, request);
    asked.request_length = 4;
    asked.room = 65;
    EXPECT((weights == NULL ? plain_repair : weighted_repair)(&asked, &out, &gains), due);
    WROTE(&out, matching, due.letter == 'F' ? 0 : 64);
    WROTE(&gains, gained, due.letter == 'F' ? 0 : 64);
}

/* Cyclic lists: all move by one place, up where that is possible. Half of 64: all pairs are fixed. */
static void all_or_none(void)
{
    static const uint8_t students[2] = {62, 4};
    uint8_t level[3][64], half[64], heaviest[64];
    int8_t up[64], down[64];
    memset(heaviest, 255, 64);
    memset(up, 1, 64);
    memset(down, -1, 64);
    for (size_t i = 0; i < 64; i++) {
        for (size_t t = 0; t < 3; t++) {
            level[t][i] = (uint8_t)((i + t) % 64);
        }
        half[i] = (uint8_t)(i % 2 == 0 ? i : 255);
    }
    large(cyclic_64(), level[0], NULL, students, answer(PLACEMENT_DOWN_DOWN, 64), level[1], down);
    large(cyclic_64(), level[2], NULL, students, answer(PLACEMENT_UP_UP, 64), level[1], up);
    large(cyclic_64(), level[2], heaviest, students, answer(PLACEMENT_UP_UP, 16320), level[1], up);
    large(short_cyclic_64(3), level[2], NULL, students, answer(PLACEMENT_UP_UP, 64), level[1], up);
    large(half_64(), half, NULL, students, answer('F', 0), NULL, NULL);
}

/* Xor lists with everybody at place 1: up students i and i xor 1 exchange, down i and i xor 3. The pairs of students 0
 * and 60 are parted by each sort, and what students 1, 3, 61 and 63 weigh says by which. */
static void xor_sorts(struct book book)
{
    static const uint8_t students[2] = {0, 60};
    static const size_t letters[4] = {PLACEMENT_UP_UP, PLACEMENT_UP_DOWN, PLACEMENT_DOWN_UP, PLACEMENT_DOWN_DOWN};
    for (size_t k = 0; k < 4; k++) {
        const size_t with_0 = k < 2 ? 1 : 3, with_60 = k % 2 == 0 ? 61 : 63;
        uint8_t given[64], matching[64], weights[64];
        int8_t gained[64] = {0};
        memset(weights, 200, 64);
        for (size_t i = 0; i < 64; i++) {
            given[i] = matching[i] = (uint8_t)(i ^ 1);
        }
        matching[0] = given[with_0];
        matching[with_0] = given[0];
        matching[60] = given[with_60];
        matching[with_60] = given[60];
        gained[0] = gained[with_0] = k < 2 ? 1 : -1;
        gained[60] = gained[with_60] = k % 2 == 0 ? 1 : -1;
        weights[with_0] = weights[with_60] = 199;
        large(book, given, weights, students, answer(letters[k], 798), matching, gained);
        if (k == 0) {
            large(book, given, NULL, students, answer(letters[0], 4), matching, gained);
        }
    }
}

void test_pair_books(void)
{
    small_books();
    blocked_together();
    side_by_side();
    all_or_none();
    xor_sorts(xor_64());
    xor_sorts(short_xor_64(4));
}
