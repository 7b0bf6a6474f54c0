/* The words and the constants of the header: against document 01's table, and against what the library answers. */
#include "books.h"
#include "check.h"

static struct lent out, gains;

/* The words of document 01's table, in its order, and those of W-201 and W-203. */
static void words(void)
{
    static const int numbers[20] = {PLACEMENT_FINE,     PLACEMENT_SHORT,     PLACEMENT_EDITION,  PLACEMENT_CROWD,
                                    PLACEMENT_OVERLONG, PLACEMENT_DIRECTORY, PLACEMENT_STRANGER, PLACEMENT_REPEAT,
                                    PLACEMENT_LENGTH,   PLACEMENT_CLASH,     PLACEMENT_UNSTABLE, PLACEMENT_UNKNOWN,
                                    PLACEMENT_APART,    PLACEMENT_ONE_PAIR,  PLACEMENT_SHEET,    PLACEMENT_MARKS,
                                    PLACEMENT_OPEN,     PLACEMENT_WEIGHTS,   PLACEMENT_ONE_SIDED, PLACEMENT_UNLISTED};
    for (int number = 0; number < 20; number++) {
        HOLDS(numbers[number] == number);
    }
    HOLDS(PLACEMENT_VERSION_MAJOR == 2 && PLACEMENT_VERSION_MINOR == 3);
    HOLDS(PLACEMENT_NOBODY == 255);
    HOLDS(PLACEMENT_NO_GRADE == SIZE_MAX);
}

/* The letters of two pairs (W-207): the first pair's in the low byte, the second's above. U is 85 and D is 68. */
static void letters(void)
{
    HOLDS(PLACEMENT_UP_UP == 85 + 85 * 256);
    HOLDS(PLACEMENT_UP_DOWN == 85 + 68 * 256);
    HOLDS(PLACEMENT_DOWN_UP == 68 + 85 * 256);
    HOLDS(PLACEMENT_DOWN_DOWN == 68 + 68 * 256);
}

/* The repair of Table 1's matching for a request of so many of these bytes, with result buffers of so many entries. */
static struct placement_reply repair(const uint8_t *matching, size_t length, const uint8_t *request, size_t bytes, size_t room)
{
    struct book book = book_of(7, table_1_lists);
    return placement_repair(book.bytes, book.length, matching, length, request, bytes, lend(&out, room), room,
                            (int8_t *)lend(&gains, room), room);
}

/* Each word, as the rule of a call that breaks it. */
static void each_rule(void)
{
    static const uint8_t pair[3] = {0, 4, 0}, apart[2] = {0, 5}, nobody[2] = {7, 4}, open[6] = {0, 0, 1, 0, 0, 0};
    static const uint8_t clash[7] = {4, 5, 6, 3, 1, 2, 4}, exchanged[7] = {5, 4, 6, 1, 3, 0, 2}, two[6] = {2};
    struct book book = book_of(7, table_1_lists), edition = with(book, 0, 3), crowd = with(book, 1, 65);
    struct book directory = with(book, 2, 0), stranger = with(book, 58, 7), repeat = with(book, 59, book.bytes[58]);
    struct book one_sided = short_book(1, "0 -"), nobody_listed = short_book(1, "- -");
    struct placement_reply unstable = {PLACEMENT_UNSTABLE, 3, 3, 0, 0};
    EXPECT(placement_check_book(book.bytes, 156), value(7));
    EXPECT(placement_check_book(book.bytes, 155), refused(PLACEMENT_SHORT, 155));
    EXPECT(placement_check_book(edition.bytes, 156), refused(PLACEMENT_EDITION, 0));
    EXPECT(placement_check_book(crowd.bytes, 156), refused(PLACEMENT_CROWD, 1));
    EXPECT(placement_check_book(book.bytes, 157), refused(PLACEMENT_OVERLONG, 156));
    EXPECT(placement_check_book(directory.bytes, 156), refused(PLACEMENT_DIRECTORY, 2));
    EXPECT(placement_check_book(stranger.bytes, 156), refused(PLACEMENT_STRANGER, 58));
    EXPECT(placement_check_book(repeat.bytes, 156), refused(PLACEMENT_REPEAT, 59));
    EXPECT(repair(table_1_m5, 6, pair, 2, 7), refused(PLACEMENT_LENGTH, 0));
    EXPECT(repair(clash, 7, pair, 2, 7), refused(PLACEMENT_CLASH, 6));
    EXPECT(repair(exchanged, 7, pair, 2, 7), unstable);
    EXPECT(repair(table_1_m5, 7, pair, 3, 7), refused(PLACEMENT_ONE_PAIR, 0));
    EXPECT(repair(table_1_m5, 7, nobody, 2, 7), refused(PLACEMENT_UNKNOWN, 0));
    EXPECT(repair(table_1_m5, 7, apart, 2, 7), refused(PLACEMENT_APART, 0));
    EXPECT(repair(table_1_m5, 7, pair, 2, 6), refused(PLACEMENT_SHEET, 0));
    EXPECT(placement_weighted_grade(book.bytes, 156, table_1_m5, 7, pair, 3), refused(PLACEMENT_WEIGHTS, 0));
    EXPECT(placement_check_book(one_sided.bytes, 11), refused(PLACEMENT_ONE_SIDED, 0));
    EXPECT(placement_grade(nobody_listed.bytes, 10, pair, 1), refused(PLACEMENT_UNLISTED, 0));
    EXPECT(placement_set_to_matching(book.bytes, 156, two, 6, lend(&out, 7), 7), refused(PLACEMENT_MARKS, 0));
    EXPECT(placement_set_to_matching(book.bytes, 156, open, 6, lend(&out, 7), 7), refused(PLACEMENT_OPEN, 0));
    WROTE_NOTHING(&out);
    WROTE_NOTHING(&gains);
}

/* The sheets of a book of 64 in which each student has the mentor of the same number, and all weigh the most, in
 * buffers of the constants. */
static void sheets_fit(struct book book)
{
    const size_t room = PLACEMENT_LARGEST_SHEET, weighted_room = PLACEMENT_LARGEST_WEIGHTED_SHEET;
    uint8_t same[64], heaviest[64];
    for (size_t i = 0; i < 64; i++) {
        same[i] = (uint8_t)i;
        heaviest[i] = 255;
    }
    struct book plain = followed(book, same, 64), weighted = followed(plain, heaviest, 64);
    struct placement_reply sheet = placement_sheet(plain.bytes, plain.length, lend(&out, room), room);
    HOLDS(sheet.number == PLACEMENT_FINE && 500 < sheet.value && sheet.value <= room);
    sheet = placement_weighted_sheet(weighted.bytes, weighted.length, lend(&out, weighted_room), weighted_room);
    HOLDS(sheet.number == PLACEMENT_FINE && 600 < sheet.value && sheet.value <= weighted_room);
}

/* The longest sheets, with a byte after each field. Line one (W-204): n, rotations of four digits, fixed pairs, and a
 * grade of two digits or, with weights, five. The line of each of 64: student, mentor, letter, and a distance of as
 * many digits as the grade. With moves, 64 lines under each of these: a space, student, old mentor, new mentor, and a
 * sign with two digits. */
static void longest_sheets(void)
{
    HOLDS(PLACEMENT_LARGEST_SHEET == 3 + 5 + 3 + 3 + 64 * (3 + 3 + 2 + 3));
    HOLDS(PLACEMENT_LARGEST_WEIGHTED_SHEET == 3 + 5 + 3 + 6 + 64 * (3 + 3 + 2 + 6));
    HOLDS(PLACEMENT_LARGEST_MOVES == PLACEMENT_LARGEST_SHEET + 64 * 64 * (1 + 3 + 3 + 3 + 4));
}

/* The largest of each. The xor lists have the most rotations there can be, and the longest list of them. */
static void constants(void)
{
    struct book book = xor_64();
    const size_t room = PLACEMENT_LARGEST_ROTATION_LIST;
    EXPECT(placement_book_size(PLACEMENT_LARGEST_N), value(PLACEMENT_LARGEST_BOOK));
    EXPECT(placement_book_size(PLACEMENT_LARGEST_N + 1), refused(PLACEMENT_CROWD, 1));
    EXPECT(placement_check_book(book.bytes, PLACEMENT_LARGEST_BOOK), value(PLACEMENT_LARGEST_N));
    EXPECT(placement_rotation_count(book.bytes, book.length), value(PLACEMENT_LARGEST_ROTATION_COUNT));
    EXPECT(placement_rotations(book.bytes, book.length, lend(&out, room), room), value(PLACEMENT_LARGEST_ROTATION_COUNT));
    EXPECT(placement_rotations(book.bytes, book.length, lend(&out, room - 1), room - 1), refused(PLACEMENT_SHEET, 0));
    sheets_fit(xor_64());
    sheets_fit(cyclic_64());
}

void test_header(void)
{
    words();
    letters();
    each_rule();
    longest_sheets();
    constants();
}
