/* From a closed set to its matching (15, 16, 14), and back (8, 9, 19, 10, 14). */
#include "books.h"
#include "check.h"

#include <string.h>

static struct lent out;

static struct placement_reply to_matching(struct book book, const uint8_t *set, size_t length, size_t room)
{
    const uint8_t *bytes = fenced(0, book.bytes, book.length), *marks = fenced(1, set, length);
    return after_call(placement_set_to_matching(bytes, book.length, marks, length, lend(&out, room), room), &out);
}

static struct placement_reply to_set(struct book book, const uint8_t *matching, size_t length, size_t room)
{
    const uint8_t *bytes = fenced(0, book.bytes, book.length), *mentors = fenced(1, matching, length);
    return after_call(placement_matching_to_set(bytes, book.length, mentors, length, lend(&out, room), room), &out);
}

/* A set and its matching, both ways, with buffers that are right and longer. */
static void there_and_back(struct book book, const uint8_t *set, size_t count, const uint8_t *matching)
{
    size_t n = (size_t)book.n;
    EXPECT(to_matching(book, set, count, n), value(n));
    WROTE(&out, matching, n);
    EXPECT(to_matching(book, set, count, n + 3), value(n));
    WROTE(&out, matching, n);
    EXPECT(to_set(book, matching, n, count), value((size_t)count));
    WROTE(&out, set, count);
    EXPECT(to_set(book, matching, n, count + 3), value((size_t)count));
    WROTE(&out, set, count);
}

static void sets_of_table_1(void)
{
    for (size_t k = 0; k < 8; k++) {
        there_and_back(book_of(7, table_1_lists), table_1_sets[k].set, 6, table_1_sets[k].matching);
    }
}

/* Of the 64 sets of Table 1 eleven are closed; each comes back from its matching. */
static void all_sets(void)
{
    struct book table_1 = book_of(7, table_1_lists);
    unsigned closed = 0;
    for (unsigned marks = 0; marks < 64; marks++) {
        uint8_t set[6], matching[7];
        for (unsigned k = 0; k < 6; k++) {
            set[k] = marks >> k & 1;
        }
        if (to_matching(table_1, set, 6, 7).number == 0) {
            closed++;
            memcpy(matching, out.bytes + GUARD, 7);
            there_and_back(table_1, set, 6, matching);
        } else {
            EXPECT(to_matching(table_1, set, 6, 7), refused(16, 0));
            EXPECT(to_matching(table_1, set, 6, 0), refused(16, 0));
            WROTE_NOTHING(&out);
        }
    }
    HOLDS(closed == 11);
}

static void bad_sets(void)
{
    static const uint8_t alone[6] = {0, 0, 1, 0, 0, 0}, good[7] = {1, 1, 1, 0, 0, 0, 0};
    static const uint8_t over[6] = {1, 1, 1, 0, 0, 2}, far_over[6] = {255, 0, 1, 0, 0, 0};
    struct book table_1 = book_of(7, table_1_lists);
    EXPECT(to_matching(table_1, alone, 6, 7), refused(16, 0));
    EXPECT(to_matching(table_1, alone, 6, 6), refused(16, 0));
    EXPECT(to_matching(table_1, good, 5, 7), refused(15, 0));
    EXPECT(to_matching(table_1, good, 7, 7), refused(15, 0));
    EXPECT(to_matching(table_1, good, 0, 7), refused(15, 0));
    EXPECT(to_matching(table_1, over, 6, 7), refused(15, 0));
    EXPECT(to_matching(table_1, far_over, 6, 0), refused(15, 0));
    EXPECT(to_matching(table_1, good, 6, 6), refused(14, 0));
    EXPECT(to_matching(with(table_1, 1, 65), over, 6, 6), refused(3, 1));
    EXPECT(placement_set_to_matching(table_1.bytes, 156, good, 6, NULL, 0), refused(14, 0));
    EXPECT(placement_set_to_matching(NULL, 0, NULL, 0, NULL, 0), refused(1, 0));
    WROTE_NOTHING(&out);
}

static void bad_matchings(void)
{
    static const uint8_t clash[7] = {4, 5, 6, 3, 1, 2, 4}, exchanged[8] = {5, 4, 6, 1, 3, 0, 2, 0};
    struct book table_1 = book_of(7, table_1_lists);
    struct placement_reply unstable = {10, 3, 3, 0, 0};
    EXPECT(to_set(table_1, table_1_m5, 6, 6), refused(8, 0));
    EXPECT(to_set(table_1, exchanged, 8, 0), refused(8, 0));
    EXPECT(to_set(table_1, clash, 7, 6), refused(9, 6));
    EXPECT(to_set(table_1, exchanged, 7, 6), unstable);
    EXPECT(to_set(table_1, exchanged, 7, 5), unstable);
    EXPECT(to_set(table_1, table_1_m5, 7, 5), refused(14, 0));
    EXPECT(to_set(with(table_1, 10, 0), exchanged, 8, 0), refused(5, 10));
    EXPECT(placement_matching_to_set(table_1.bytes, 156, table_1_m5, 7, NULL, 0), refused(14, 0));
    EXPECT(placement_matching_to_set(NULL, 0, NULL, 0, NULL, 0), refused(1, 0));
    WROTE_NOTHING(&out);
}

/* No rotations: the set has no marks. */
static void small(void)
{
    static const uint8_t none[2] = {1, 0}, zero[1] = {0};
    EXPECT(placement_set_to_matching(none, 2, NULL, 0, NULL, 0), value(0));
    EXPECT(placement_set_to_matching(none, 2, zero, 1, NULL, 0), refused(15, 0));
    EXPECT(placement_matching_to_set(none, 2, NULL, 0, NULL, 0), value(0));
    there_and_back(book_of(1, "00"), zero, 0, zero);
}

/* Xor lists of 64: no rotation, and all 2,016. */
static void large(void)
{
    static uint8_t set[2016], first[64], last[64];
    for (size_t i = 0; i < 64; i++) {
        first[i] = (uint8_t)i;
        last[i] = (uint8_t)(63 - i);
    }
    there_and_back(xor_64(), set, 2016, first);
    memset(set, 1, sizeof set);
    there_and_back(xor_64(), set, 2016, last);
    set[0] = 0;
    EXPECT(to_matching(xor_64(), set, 2016, 64), refused(16, 0));
    EXPECT(to_matching(xor_64(), set, 2015, 64), refused(15, 0));
    EXPECT(to_set(xor_64(), last, 64, 2015), refused(14, 0));
    WROTE_NOTHING(&out);
}

/* Short lists: the matchings of the six, and those of Table 1, in which student 7 is alone beside the others. */
static void short_lists(void)
{
    static const uint8_t marks[2] = {0, 1};
    struct book six = short_book(6, six_lists), nobody = short_book(0, ""), cyclic = short_cyclic_64(8);
    there_and_back(six, &marks[0], 1, six_best);
    there_and_back(six, &marks[1], 1, six_worst);
    for (size_t k = 0; k < 8; k++) {
        uint8_t matching[8];
        memcpy(matching, table_1_sets[k].matching, 7);
        matching[7] = 255;
        there_and_back(short_book(8, short_table_1_lists), table_1_sets[k].set, 6, matching);
    }
    there_and_back(short_book(2, "- - - -"), marks, 0, (const uint8_t[2]){255, 255});
    EXPECT(placement_set_to_matching(nobody.bytes, 2, NULL, 0, NULL, 0), value(0));
    EXPECT(placement_matching_to_set(nobody.bytes, 2, NULL, 0, NULL, 0), value(0));
    for (size_t steps = 0; steps < 8; steps++) {
        uint8_t set[7] = {0}, shifted[64];
        memset(set, 1, steps);
        for (size_t i = 0; i < 64; i++) {
            shifted[i] = (uint8_t)((i + steps) % 64);
        }
        there_and_back(cyclic, set, 7, shifted);
    }
}

static void short_refusals(void)
{
    static const uint8_t set[2] = {1, 0}, two[1] = {2}, open[6] = {0, 0, 1, 0, 0, 0};
    struct book six = short_book(6, six_lists), one_sided = short_book(1, "0 -");
    EXPECT(to_matching(one_sided, two, 1, 0), refused(18, 0));
    EXPECT(to_matching(six, set, 2, 6), refused(15, 0));
    EXPECT(to_matching(six, set, 0, 6), refused(15, 0));
    EXPECT(to_matching(six, two, 1, 6), refused(15, 0));
    EXPECT(to_matching(short_book(8, short_table_1_lists), open, 6, 7), refused(16, 0));
    EXPECT(to_matching(six, set, 1, 5), refused(14, 0));
    EXPECT(to_set(one_sided, set, 1, 0), refused(18, 0));
    EXPECT(to_set(six, six_best, 5, 1), refused(8, 0));
    EXPECT(to_set(six, (const uint8_t[6]){0, 1, 2, 3, 6, 255}, 6, 1), refused(9, 4));
    EXPECT(to_set(six, (const uint8_t[6]){0, 1, 2, 3, 4, 255}, 6, 0), refused(19, 0));
    EXPECT(to_set(six, (const uint8_t[6]){0, 1, 3, 2, 255, 255}, 6, 0), blocked(2, 4));
    EXPECT(to_set(six, six_best, 6, 0), refused(14, 0));
    WROTE_NOTHING(&out);
}

void test_sets(void)
{
    sets_of_table_1();
    all_sets();
    bad_sets();
    bad_matchings();
    small();
    large();
    short_lists();
    short_refusals();
}
