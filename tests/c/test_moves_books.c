/* The sheet with moves against the sheet and the repairs of its pairs, one by one: small books with all their stable
 * matchings, and n = 64, with the length of the text. */
#include "asked.h"
#include "printed.h"

#include <stdio.h>

static struct lent out, repaired, gains;
static char due[LARGEST_LENT];
static size_t due_length;

/* Adds the lines under a student's own, by placement_repair of his pair: the students whose gains are not 0. */
static void add_moves(struct book book, const uint8_t *matching, size_t student)
{
    const uint8_t request[2] = {(uint8_t)student, matching[student]};
    struct asked asked = asked_of(book, matching, NULL, request);
    if (matching[student] == PLACEMENT_NOBODY || plain_repair(&asked, &repaired, &gains).letter == 'F') {
        return;
    }
    for (size_t i = 0; i < book.n; i++) {
        int gain = (int8_t)gains.bytes[GUARD + i];
        if (gain != 0) {
            due_length += (size_t)snprintf(due + due_length, sizeof due - due_length, " %zu %d %d %+d\n", i,
                                           matching[i], repaired.bytes[GUARD + i], gain);
        }
    }
}

/* The text that is due: each line of placement_sheet, and under those of the students the moves. */
static void make_due(struct book book, const uint8_t *matching)
{
    static char sheet[PLACEMENT_LARGEST_SHEET + 1];
    struct book input = followed(book, matching, book.n);
    size_t length = placement_sheet(input.bytes, input.length, (uint8_t *)sheet, PLACEMENT_LARGEST_SHEET).value;
    size_t lines = 0;
    due_length = 0;
    for (size_t at = 0; at < length; at++) {
        due[due_length++] = sheet[at];
        if (sheet[at] == '\n') {
            if (lines > 0) {
                add_moves(book, matching, lines - 1);
            }
            lines++;
        }
    }
    HOLDS(lines == book.n + 1);
}

/* What is written for the input in a buffer of so many bytes: what is due, or nothing. */
static void writes(const struct book *input, size_t room)
{
    struct placement_reply reply =
        placement_moves(fenced(0, input->bytes, input->length), input->length, lend(&out, room), room);
    EXPECT(reply, room < due_length ? refused(14, 0) : value(due_length));
    WROTE(&out, due, room < due_length ? 0 : due_length);
}

static void agrees(struct book book, const uint8_t *matching)
{
    make_due(book, matching);
    struct book input = followed(book, matching, book.n);
    writes(&input, due_length);
    writes(&input, due_length - 1);
    writes(&input, PLACEMENT_LARGEST_MOVES);
}

/* All eleven of Table 1, in both editions and shortened, and the stable matchings of the small books. */
static void small(void)
{
    static const uint8_t straight[3] = {0, 1, 2}, exchanged[3] = {1, 0, 2};
    static const uint8_t three[3][3] = {{1, 0, 2}, {2, 0, 1}, {2, 1, 0}};
    struct book table_1 = book_of(7, table_1_lists);
    for (size_t k = 0; k < TABLE_1_STABLE; k++) {
        agrees(table_1, table_1_stable[k]);
        agrees(with(table_1, 0, 2), table_1_stable[k]);
        agrees(short_book(8, short_table_1_lists), table_1_stable[k]);
    }
    for (size_t k = 0; k < 3; k++) {
        agrees(book_of(3, two_rotations_lists), three[k]);
    }
    agrees(book_of(3, one_fixed_lists), straight);
    agrees(book_of(3, one_fixed_lists), exchanged);
    agrees(short_book(6, six_lists), six_best);
    agrees(short_book(6, six_lists), six_worst);
}

/* n = 64, each student with the mentor of a number that is so much more: the first, the last and one between. */
static void shifted(struct book book, size_t places)
{
    const size_t shifts[3] = {0, places / 2, places - 1};
    uint8_t matching[64];
    for (size_t k = 0; k < 3; k++) {
        for (size_t i = 0; i < 64; i++) {
            matching[i] = (uint8_t)((i + shifts[k]) % 64);
        }
        agrees(book, matching);
    }
}

/* Of the cyclic lists every repair moves all, a place each: 64 * 64 lines. Line one is `64 63 0 63`; a student's line
 * has his number twice and seven bytes more, that of a move three numbers below 64 and seven bytes more. Each of these
 * numbers stands once in each column; they have 10 + 2 * 54 digits in all. */
static void largest(void)
{
    const size_t digits = 10 + 2 * 54;
    uint8_t same[64];
    for (size_t i = 0; i < 64; i++) {
        same[i] = (uint8_t)i;
    }
    agrees(xor_64(), same);
    agrees(short_xor_64(8), same);
    agrees(short_cyclic_64(1), same);
    shifted(cyclic_64(), 64);
    shifted(short_cyclic_64(8), 8);
    agrees(cyclic_64(), same);
    HOLDS(due_length == 11 + (2 * digits + 64 * 7) + 64 * (3 * digits + 64 * 7));
}

void test_moves_books(void)
{
    small();
    largest();
}
