/* Edition 2 (W-203): the sheet and the weighted sheet, with the line `i - N 0` of a student without a mentor, who does
 * not count as fixed (W-204), and how an input is parted into book and matching. */
#include "printed.h"

#include <stdio.h>

static void prints(struct book input, const char *due)
{
    prints_sheet(placement_sheet, input, due);
}

static void prints_weighted(struct book input, const char *due)
{
    prints_sheet(placement_weighted_sheet, input, due);
}

/* The book with a matching of n bytes after it, and with weights too. */
static struct book with_matching(struct book book, const uint8_t *matching)
{
    return followed(book, matching, book.n);
}

static struct book with_weights(struct book book, const uint8_t *matching, const uint8_t *weights)
{
    return followed(with_matching(book, matching), weights, book.n);
}

static void worked(void)
{
    static const uint8_t m5[8] = {4, 5, 6, 3, 1, 2, 0, 255}, nobody[2] = {255, 255}, one[2] = {0, 255};
    struct book six = short_book(6, six_lists);
    prints(with_matching(six, six_best), "6 1 2 1\n0 0 D 2\n1 1 D 2\n2 2 F 0\n3 3 F 0\n4 - N 0\n5 - N 0\n");
    prints(with_matching(six, six_worst), "6 1 2 1\n0 1 U 2\n1 0 U 2\n2 2 F 0\n3 3 F 0\n4 - N 0\n5 - N 0\n");
    prints(with_matching(short_book(8, short_table_1_lists), m5),
           "8 6 0 3\n0 4 U 2\n1 5 U 4\n2 6 D 2\n3 3 D 4\n4 1 D 2\n5 2 U 2\n6 0 D 2\n7 - N 0\n");
    prints(short_book(0, ""), "0 0 0 -\n");
    prints(with_matching(short_book(1, "0 0"), one), "1 0 1 -\n0 0 F 0\n");
    prints(with_matching(short_book(1, "- -"), nobody), "1 0 0 -\n0 - N 0\n");
    prints(with_matching(short_book(2, "- - - -"), nobody), "2 0 0 -\n0 - N 0\n1 - N 0\n");
    prints(with_matching(short_book(2, "0 - 0 -"), one), "2 0 1 -\n0 0 F 0\n1 - N 0\n");
}

/* The totals of Table 1 are worked out in test_weights.c. Whoever is alone may weigh anything. */
static void weighted(void)
{
    static const uint8_t m5[8] = {4, 5, 6, 3, 1, 2, 0, 255}, given[8] = {1, 1, 9, 1, 1, 3, 1, 255};
    static const uint8_t nobody[2] = {255, 255}, one[2] = {0, 255}, six_weights[6] = {7, 30, 1, 1, 255, 255};
    struct book six = short_book(6, six_lists);
    prints_weighted(with_weights(six, six_best, six_weights),
                    "6 1 2 30\n0 0 D 37\n1 1 D 37\n2 2 F 0\n3 3 F 0\n4 - N 0\n5 - N 0\n");
    prints_weighted(with_weights(six, six_worst, six_weights),
                    "6 1 2 30\n0 1 U 37\n1 0 U 37\n2 2 F 0\n3 3 F 0\n4 - N 0\n5 - N 0\n");
    prints_weighted(with_weights(short_book(8, short_table_1_lists), m5, given),
                    "8 6 0 11\n0 4 D 2\n1 5 U 6\n2 6 D 10\n3 3 D 12\n4 1 D 2\n5 2 U 4\n6 0 U 6\n7 - N 0\n");
    prints_weighted(with_weights(six, six_best, (const uint8_t[6]){0}),
                    "6 1 2 0\n0 0 D 0\n1 1 D 0\n2 2 F 0\n3 3 F 0\n4 - N 0\n5 - N 0\n");
    prints_weighted(with_weights(short_book(2, "- - - -"), nobody, given), "2 0 0 -\n0 - N 0\n1 - N 0\n");
    prints_weighted(with_weights(short_book(2, "0 - 0 -"), one, given), "2 0 1 -\n0 0 F 0\n1 - N 0\n");
    prints_weighted(short_book(0, ""), "0 0 0 -\n");
}

/* Every rule that a book or a matching of edition 2 can break. */
static void refusals(void)
{
    struct book six = short_book(6, six_lists), good = with_matching(six, six_best);
    prints(with(good, 0, 3), "refused 2\n");
    prints(with(good, 1, 65), "refused 3\n");
    prints(with(good, 4, 7), "refused 5\n");
    prints(with(good, 69, 6), "refused 6\n");
    prints(with(good, 51, 0), "refused 7\n");
    prints(with(good, 74, 6), "refused 9\n");
    prints(with(good, 75, 3), "refused 9\n");
    prints(with_matching(six, (const uint8_t[6]){255, 255, 2, 3, 255, 255}), "refused 10\n");
    prints(with_matching(six, (const uint8_t[6]){0, 1, 3, 2, 255, 255}), "refused 10\n");
    prints(with_matching(short_book(1, "0 -"), six_best), "refused 18\n");
    prints(with_matching(short_book(1, "- 0"), six_best), "refused 18\n");
    prints(with_matching(short_book(2, "0 - - 11"), six_best), "refused 7\n");
    prints(with(good, 74, 4), "refused 19\n");
    prints(with_matching(six, (const uint8_t[6]){5, 1, 2, 3, 255, 5}), "refused 9\n");
    /* 255 in edition 1. */
    prints(followed(book_of(2, "01101001"), (const uint8_t[2]){0, 255}, 2), "refused 9\n");
}

/* The book ends with the last list, by the directory. The matching is all that follows, in a weighted sheet n
 * bytes, and the weights are what follows these. */
static void cut_inputs(void)
{
    static const uint8_t ones[7] = {1, 1, 1, 1, 1, 1, 1};
    struct book six = short_book(6, six_lists), whole = with_weights(six, six_best, ones), cut = whole;
    for (cut.length = 1; cut.length <= 76; cut.length++) {
        const char *due = cut.length < 70 ? "refused 1\n" : "refused 8\n";
        prints(cut, cut.length < 76 ? due : "6 1 2 1\n0 0 D 2\n1 1 D 2\n2 2 F 0\n3 3 F 0\n4 - N 0\n5 - N 0\n");
        prints_weighted(cut, cut.length < 76 ? due : "refused 17\n");
    }
    for (; cut.length < 82; cut.length++) {
        prints(cut, "refused 8\n");
        prints_weighted(cut, "refused 17\n");
    }
    prints(followed(short_book(0, ""), ones, 1), "refused 8\n");
    prints_weighted(followed(short_book(0, ""), ones, 1), "refused 17\n");
    prints_weighted(followed(whole, ones, 1), "refused 17\n");
}

/* A last directory pair that says another end than the lists have. It is bytes 46 to 49, and the book never ends
 * before it: so 5 is found where the pair is wrong, and not 1. */
static void wrong_ends(void)
{
    static const uint8_t ones[6] = {1, 1, 1, 1, 1, 1};
    struct book good = with_weights(short_book(6, six_lists), six_best, ones);
    const struct {
        size_t at;
        uint8_t byte;
        const char *due;
    } wrong[] = {
        {46, 0, "refused 5\n"},  {46, 69, "refused 5\n"}, {46, 71, "refused 5\n"}, {47, 1, "refused 5\n"},
        {47, 255, "refused 5\n"}, {48, 7, "refused 5\n"},  {49, 1, "refused 5\n"},  {49, 255, "refused 5\n"},
        /* One byte of the matching, mentor 0, is now on mentor 5's list: student 0, who does not list her. */
        {48, 1, "refused 18\n"},
        /* All six of them: 255 is no student. */
        {48, 6, "refused 6\n"},
    };
    for (size_t k = 0; k < sizeof wrong / sizeof wrong[0]; k++) {
        prints(with(good, wrong[k].at, wrong[k].byte), wrong[k].due);
        prints_weighted(with(good, wrong[k].at, wrong[k].byte), wrong[k].due);
    }
    struct book short_directory = with(good, 46, 0);
    short_directory.length = 50;
    prints(short_directory, "refused 5\n");
    short_directory.length = 49;
    prints(short_directory, "refused 1\n");
}

/* 64 students of whom half are alone, and all other pairs are fixed. */
static void half_alone(void)
{
    static char due[1024];
    uint8_t matching[64];
    int length = snprintf(due, sizeof due, "64 0 32 -\n");
    for (int i = 0; i < 64; i++) {
        matching[i] = (uint8_t)(i % 2 == 0 ? i : 255);
        length += i % 2 == 0 ? snprintf(due + length, sizeof due - (size_t)length, "%d %d F 0\n", i, i)
                             : snprintf(due + length, sizeof due - (size_t)length, "%d - N 0\n", i);
    }
    prints(with_matching(half_64(), matching), due);
    prints_weighted(with_weights(half_64(), matching, matching), due);
}

void test_short_sheet(void)
{
    worked();
    weighted();
    refusals();
    cut_inputs();
    wrong_ends();
    half_alone();
}
