/* W-207, two pairs at one go, on Table 1 of document 000 with M5, 4 5 6 3 1 2 0, and with its other stable matchings.
 *
 * As test_weights.c has it from Tables 2 and 3, the repairs of one pair take these rotations out of M5's set {0, 1, 2},
 * or into it, and move so many students:
 *
 *     pair     up: out   moves       down: in   moves
 *     (0,4)    2         0 5         3          0 4
 *     (1,5)    1 2       0 1 5 6     4 5        1 2 3 6
 *     (2,6)    -                     4          2 6
 *     (3,3)    -                     4 5        1 2 3 6
 *     (4,1)    -                     3          0 4
 *     (5,2)    2         0 5         -
 *     (6,0)    1 2       0 1 5 6     4          2 6
 *
 * The candidate of a sort of two pairs takes out and in what those two take. UU and DD exist where both have such a
 * repair; UD and DU where, beyond that, no rotation that is taken out precedes one that is taken in: 1 precedes 2, 3, 4
 * and 5, 2 precedes 3, 4 precedes 5. */
#include "sorts.h"

#include <string.h>

static struct lent out, gains;

/* Table 1 in edition 1, in edition 2, and shortened with one student and one mentor more, who are alone. */
static struct listed table_1(size_t form)
{
    const struct book book = book_of(7, table_1_lists);
    struct listed listed = {form == 1 ? with(book, 0, 2) : book, table_1_stable, TABLE_1_STABLE};
    if (form == 2) {
        listed.book = short_book(8, short_table_1_lists);
    }
    return listed;
}

/* The letters and the number of the moved for the pairs of every two students of M5, by the table above; on the
 * diagonal those of one pair, from Table 3. Ties: UU and UD and DD for 0 and 6, UU and DD for 1 and 6, UD and DD for 0
 * and 2 and for 0 and 3. */
static const char *const m5_due[7][7] = {
    {"U2", "UU4", "UD4", "UD6", "DD2", "UU2", "UU4"}, {"UU4", "U4", "DD4", "DD4", "DD6", "UU4", "UU4"},
    {"DU4", "DD4", "D2", "DD4", "DD4", "DU4", "DD2"}, {"DU6", "DD4", "DD4", "D4", "DD6", "DU6", "DD4"},
    {"DD2", "DD6", "DD4", "DD6", "D2", "F0", "DD4"},  {"UU2", "UU4", "UD4", "UD6", "F0", "U2", "UU4"},
    {"UU4", "UU4", "DD2", "DD4", "DD4", "UU4", "D2"},
};

/* All 49 of M5, in each form: as in the table, as defined over the eleven stable matchings, and as answered. */
static void forty_nine(void)
{
    for (size_t form = 0; form < 3; form++) {
        const struct listed listed = table_1(form);
        for (size_t first = 0; first < 7; first++) {
            for (size_t second = 0; second < 7; second++) {
                const char *text = m5_due[first][second];
                const size_t letters = strlen(text) - 1, above = letters == 2 ? (size_t)text[1] : 0;
                const struct due due = ask_pairs(&listed, table_1_stable[3], first, second, NULL);
                HOLDS(due.letter == (size_t)text[0] + 256 * above);
                HOLDS(due.total == (size_t)(text[letters] - '0'));
            }
        }
    }
}

/* A repair of two pairs of M5 by literals: the request, the reply, the matching and the gains. */
struct literal {
    uint8_t request[4];
    size_t letter, moved;
    uint8_t matching[7];
    int8_t gains[7];
};

/* One of each letter, of the sets {0}, {0,1,4}, {0,1,4}, {0,1,2,3} and, for 0 and 3, {0,1,4,5}; gains by the lists. */
static const struct literal literals[] = {
    {{0, 4, 1, 5}, PLACEMENT_UP_UP, 4, {2, 4, 6, 3, 1, 0, 5}, {1, 1, 0, 0, 0, 4, 1}},
    {{0, 4, 2, 6}, PLACEMENT_UP_DOWN, 4, {2, 5, 0, 3, 1, 4, 6}, {1, 0, -1, 0, 0, 1, -1}},
    {{2, 6, 5, 2}, PLACEMENT_DOWN_UP, 4, {2, 5, 0, 3, 1, 4, 6}, {1, 0, -1, 0, 0, 1, -1}},
    {{0, 4, 4, 1}, PLACEMENT_DOWN_DOWN, 2, {1, 5, 6, 3, 4, 2, 0}, {-1, 0, 0, 0, -4, 0, 0}},
    {{0, 4, 3, 3}, PLACEMENT_UP_DOWN, 6, {2, 3, 0, 5, 1, 4, 6}, {1, -3, -1, -6, 0, 1, -1}},
};

static void by_literals(void)
{
    static const uint8_t ones[7] = {1, 1, 1, 1, 1, 1, 1};
    static const repair_call calls[2] = {plain_repair, weighted_repair};
    for (size_t k = 0; k < sizeof literals / sizeof literals[0]; k++) {
        struct asked asked = asked_of(book_of(7, table_1_lists), table_1_m5, ones, literals[k].request);
        asked.request_length = 4;
        for (size_t call = 0; call < 2; call++) {
            EXPECT(calls[call](&asked, &out, &gains), answer(literals[k].letter, literals[k].moved));
            WROTE(&out, literals[k].matching, 7);
            WROTE(&gains, literals[k].gains, 7);
        }
    }
}

/* The repair of one pair, or of two, of a matching of Table 1: the mentors come to stand in `after`. */
static struct placement_reply repaired(const uint8_t *matching, const uint8_t *request, size_t length, uint8_t *after)
{
    struct asked asked = asked_of(book_of(7, table_1_lists), matching, NULL, request);
    asked.request_length = length;
    const struct placement_reply reply = plain_repair(&asked, &out, &gains);
    memcpy(after, out.bytes + GUARD, 7);
    return reply;
}

/* Two repairs in a row are another matter. (1,5), by a repair up, and then (3,3) moves six; both at one go, down, four.
 * (1,5) and then (2,6), which takes rotations 1 and 4 in, brings (1,5) back. (4,1) and then (5,2) brings (4,1) back,
 * and no stable matching holds neither. */
static void in_a_row(void)
{
    static const uint8_t requests[3][4] = {{1, 5, 3, 3}, {1, 5, 2, 6}, {4, 1, 5, 2}};
    static const size_t letters[3][2] = {{'U', 'D'}, {'U', 'D'}, {'D', 'U'}}, moves[3][2] = {{4, 5}, {4, 4}, {2, 3}};
    static const size_t row[3] = {8, 5, 2}, both[3] = {9, 9, 0};
    for (size_t k = 0; k < 3; k++) {
        uint8_t first[7], last[7];
        EXPECT(repaired(table_1_m5, requests[k], 2, first), answer(letters[k][0], moves[k][0]));
        EXPECT(repaired(first, requests[k] + 2, 2, last), answer(letters[k][1], moves[k][1]));
        HOLDS(memcmp(last, table_1_stable[row[k]], 7) == 0);
        HOLDS((last[requests[k][0]] == requests[k][1]) == (k != 0));
        EXPECT(repaired(table_1_m5, requests[k], 4, last), k == 2 ? answer('F', 0) : answer(PLACEMENT_DOWN_DOWN, 4));
        WROTE(&out, table_1_stable[both[k]], k == 2 ? 0 : 7);
    }
}

/* Weights that turn the choice, by the table above. */
static void turned(void)
{
    static const struct {
        uint8_t weights[8], students[2];
        size_t letter, total;
    } due[] = {
        {{1, 1, 1, 1, 1, 1, 1, 9}, {0, 6}, PLACEMENT_UP_UP, 4},     /* UU 0 1 5 6, UD 0 2 5 6, DD 0 2 4 6: a tie */
        {{1, 2, 1, 1, 1, 1, 1, 9}, {0, 6}, PLACEMENT_UP_DOWN, 4},   /* UU 5: the tie is broken otherwise */
        {{1, 2, 1, 1, 1, 2, 1, 9}, {0, 6}, PLACEMENT_DOWN_DOWN, 4}, /* UU 6, UD 5 */
        {{1, 2, 1, 1, 2, 1, 1, 9}, {6, 0}, PLACEMENT_DOWN_UP, 4},   /* UU 5, DU 4, DD 5 */
        {{1, 1, 1, 1, 2, 1, 1, 9}, {0, 2}, PLACEMENT_UP_DOWN, 4},   /* DD 5: no tie any more */
        {{1, 1, 1, 1, 1, 2, 1, 9}, {0, 2}, PLACEMENT_DOWN_DOWN, 4}, /* UD 5 */
        {{1, 1, 1, 1, 1, 1, 1, 9}, {0, 1}, PLACEMENT_UP_UP, 4},     /* UU 0 1 5 6, UD 0 1 2 3 5 6, DD 0 1 2 3 4 6 */
        {{1, 0, 0, 0, 0, 9, 0, 9}, {0, 1}, PLACEMENT_DOWN_DOWN, 1}, /* six who weigh 1, before four who weigh 10 */
        {{0, 0, 0, 0, 0, 0, 0, 0}, {2, 0}, PLACEMENT_DOWN_UP, 0},   /* of weight 0, and yet not fixed */
        {{0, 0, 0, 0, 0, 0, 0, 0}, {4, 5}, 'F', 0},
        {{255, 255, 255, 255, 255, 255, 255, 255}, {3, 4}, PLACEMENT_DOWN_DOWN, 1530},
    };
    for (size_t k = 0; k < 3 * (sizeof due / sizeof due[0]); k++) {
        const size_t row = k / 3, first = due[row].students[0], second = due[row].students[1];
        const struct listed listed = table_1(k % 3);
        const struct due got = ask_pairs(&listed, table_1_stable[3], first, second, due[row].weights);
        HOLDS(got.letter == due[row].letter && got.total == due[row].total);
    }
}

/* Every pair of pairs of all eleven, in each form, plainly and with weights. */
static void eleven(void)
{
    static const uint8_t weights[2][8] = {{1, 1, 9, 1, 1, 3, 1, 255}, {0, 30, 7, 0, 200, 1, 1, 0}};
    for (size_t form = 0; form < 3; form++) {
        const struct listed listed = table_1(form);
        ask_all_pairs(&listed, NULL);
        ask_all_pairs(&listed, weights[0]);
        ask_all_pairs(&listed, weights[1]);
    }
}

void test_pairs(void)
{
    forty_nine();
    by_literals();
    in_a_row();
    turned();
    eleven();
}
