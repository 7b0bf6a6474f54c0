/* How many rotations there are, their list and their order. */
#include "books.h"
#include "check.h"

static struct lent out;

static struct placement_reply list(struct book book, size_t room)
{
    const uint8_t *bytes = fenced(0, book.bytes, book.length);
    return after_call(placement_rotations(bytes, book.length, lend(&out, room), room), &out);
}

static struct placement_reply count(struct book book)
{
    return placement_rotation_count(fenced(0, book.bytes, book.length), book.length);
}

/* Table 1 has 6 (document 01); the xor lists of 64 have 64 * 63 / 2. */
static void counts(void)
{
    struct book table_1 = book_of(7, table_1_lists), large = xor_64();
    EXPECT(count(table_1), value(6));
    EXPECT(count(book_of(0, "")), value(0));
    EXPECT(count(book_of(1, "00")), value(0));
    EXPECT(count(book_of(2, "01101001")), value(1));
    EXPECT(count(book_of(2, "01010101")), value(0));
    EXPECT(count(large), value(2016));
    EXPECT(count(cyclic_64()), value(63));
    EXPECT(placement_rotation_count(NULL, 0), refused(1, 0));
    EXPECT(placement_rotation_count(table_1.bytes, 155), refused(1, 155));
    EXPECT(count(with(table_1, 0, 3)), refused(2, 0));
    EXPECT(count(with(table_1, 1, 65)), refused(3, 1));
    EXPECT(count(with(table_1, 1, 6)), refused(4, 2 + 8 * 6 + 2 * 36));
    EXPECT(count(with(table_1, 54, 0)), refused(5, 54));
    EXPECT(count(with(table_1, 155, 7)), refused(6, 155));
    EXPECT(count(with(large, 8705, large.bytes[8704])), refused(7, 8705));
}

static void lists(void)
{
    static const uint8_t none[2] = {1, 0}, two[5] = {2, 0, 0, 1, 1};
    struct book table_1 = book_of(7, table_1_lists);
    EXPECT(list(table_1, 32), value(6));
    WROTE(&out, table_1_rotations, 32);
    EXPECT(list(table_1, 40), value(6));
    WROTE(&out, table_1_rotations, 32);
    EXPECT(list(table_1, 31), refused(14, 0));
    EXPECT(placement_rotations(table_1.bytes, 156, NULL, 0), refused(14, 0));
    EXPECT(list(with(table_1, 0, 3), 0), refused(2, 0));
    EXPECT(placement_rotations(NULL, 0, NULL, 0), refused(1, 0));
    WROTE_NOTHING(&out);
    EXPECT(placement_rotations(none, 2, NULL, 0), value(0));
    EXPECT(list(book_of(1, "00"), 4), value(0));
    WROTE_NOTHING(&out);
    EXPECT(list(book_of(2, "01101001"), 5), value(1));
    WROTE(&out, two, 5);
    EXPECT(list(book_of(2, "01010101"), 5), value(0));
    WROTE_NOTHING(&out);
}

/* Two rotations are exposed at first, (1,1) (4,4) and (2,2) (3,3). Student 0 is in neither, and his next mentor is 2:
 * the number goes by the lowest student of a rotation, not by the first rotation that a walk from student 0 meets. */
static void lowest_first(void)
{
    static const uint8_t due[10] = {2, 1, 1, 4, 4, 2, 2, 2, 3, 3};
    struct book book = book_of(5, "02134" "14023" "23014" "32014" "41023" "01234" "41023" "30214" "23014" "14023");
    EXPECT(list(book, 10), value(2));
    WROTE(&out, due, 10);
    EXPECT(placement_precedes(book.bytes, book.length, 0, 1), value(0));
    EXPECT(placement_precedes(book.bytes, book.length, 1, 0), value(0));
}

/* Cyclic lists of 64, and short ones: rotation k takes every student from place k to place k + 1. */
static void cyclic(struct book book, size_t rotations)
{
    static uint8_t due[63 * 129];
    const size_t length = rotations * 129;
    size_t at = 0;
    for (size_t k = 0; k < rotations; k++) {
        due[at++] = 64;
        for (size_t i = 0; i < 64; i++) {
            due[at++] = (uint8_t)i;
            due[at++] = (uint8_t)((i + k) % 64);
        }
    }
    EXPECT(list(book, length), value(rotations));
    WROTE(&out, due, length);
    EXPECT(list(book, length - 1), refused(14, 0));
    WROTE_NOTHING(&out);
}

/* Xor lists of 64: 2,016 rotations of two pairs. From place k to k + 1, student i changes with i xor k xor (k + 1).
 * Checked are the number, the form of each, and the first. */
static void xor_lists(void)
{
    struct book book = xor_64();
    EXPECT(list(book, 10080), value(2016));
    const uint8_t *bytes = out.bytes + GUARD;
    int pairs = 1;
    for (size_t at = 0; at < 10080; at += 5) {
        /* Two pairs, the lower student first, and each student's mentor before is the other's mentor after. */
        pairs = pairs && bytes[at] == 2 && bytes[at + 1] < bytes[at + 3] &&
                (bytes[at + 1] ^ bytes[at + 2]) == (bytes[at + 3] ^ bytes[at + 4]);
    }
    HOLDS(pairs);
    HOLDS(bytes[1] == 0 && bytes[2] == 0 && bytes[3] == 1 && bytes[4] == 1);
    EXPECT(list(book, 10079), refused(14, 0));
    WROTE_NOTHING(&out);
}

static void order(void)
{
    struct book table_1 = book_of(7, table_1_lists);
    const uint8_t *book = fenced(0, table_1.bytes, 156);
    for (size_t second = 0; second < 6; second++) {
        for (size_t first = 0; first < 6; first++) {
            EXPECT(placement_precedes(book, 156, first, second), value(table_1_precedes[first][second]));
        }
    }
    EXPECT(placement_precedes(book, 156, 6, 0), refused(11, 0));
    EXPECT(placement_precedes(book, 156, 0, 6), refused(11, 0));
    EXPECT(placement_precedes(book, 156, SIZE_MAX, 0), refused(11, 0));
    EXPECT(placement_precedes(book, 156, 0, (size_t)1 << 32), refused(11, 0));
    EXPECT(placement_precedes(book, 155, 6, 6), refused(1, 155));
    EXPECT(placement_precedes(NULL, 0, 0, 0), refused(1, 0));
}

static void order_of_large(void)
{
    static const uint8_t none[2] = {1, 0};
    struct book cyclic = cyclic_64(), xor = xor_64();
    EXPECT(placement_precedes(none, 2, 0, 0), refused(11, 0));
    EXPECT(placement_precedes(cyclic.bytes, 8706, 0, 62), value(1));
    EXPECT(placement_precedes(cyclic.bytes, 8706, 62, 0), value(0));
    EXPECT(placement_precedes(cyclic.bytes, 8706, 62, 62), value(0));
    EXPECT(placement_precedes(cyclic.bytes, 8706, 0, 63), refused(11, 0));
    EXPECT(placement_precedes(xor.bytes, 8706, 0, 2015), value(1));
    EXPECT(placement_precedes(xor.bytes, 8706, 2015, 0), value(0));
    EXPECT(placement_precedes(xor.bytes, 8706, 0, 2016), refused(11, 0));
}

/* Short lists. Of the six, students 0 and 1 exchange; the search of student 2 for a next mentor ends at mentor 4, who is
 * alone, and so he and student 3 do not. Table 1 shortened has Table 1's rotations, whoever is alone beside them. */
static void short_lists(void)
{
    static const uint8_t exchange[5] = {2, 0, 0, 1, 1};
    struct book six = short_book(6, six_lists), table_1 = short_book(8, short_table_1_lists);
    EXPECT(count(six), value(1));
    EXPECT(list(six, 5), value(1));
    WROTE(&out, exchange, 5);
    EXPECT(list(six, 9), value(1));
    WROTE(&out, exchange, 5);
    EXPECT(list(six, 4), refused(14, 0));
    WROTE_NOTHING(&out);
    EXPECT(placement_precedes(six.bytes, six.length, 0, 0), value(0));
    EXPECT(placement_precedes(six.bytes, six.length, 0, 1), refused(11, 0));
    EXPECT(count(table_1), value(6));
    EXPECT(list(table_1, 32), value(6));
    WROTE(&out, table_1_rotations, 32);
    for (size_t second = 0; second < 6; second++) {
        for (size_t first = 0; first < 6; first++) {
            struct placement_reply yes_or_no = value(table_1_precedes[first][second]);
            EXPECT(placement_precedes(table_1.bytes, table_1.length, first, second), yes_or_no);
        }
    }
    EXPECT(count(short_book(0, "")), value(0));
    EXPECT(count(short_book(2, "- - - -")), value(0));
    EXPECT(list(short_book(2, "- - - -"), 0), value(0));
    EXPECT(count(short_book(2, "01 10 10 01")), value(1));
    EXPECT(count(short_cyclic_64(8)), value(7));
    EXPECT(count(short_xor_64(8)), value(8 * 28));
}

/* Books of edition 2 that are refused, and nothing is written. */
static void short_refusals(void)
{
    struct book six = short_book(6, six_lists), one_sided = short_book(1, "- 0"), cut = six;
    cut.length = 69;
    EXPECT(count(cut), refused(1, 69));
    EXPECT(list(cut, 0), refused(1, 69));
    EXPECT(list(with(six, 46, 69), 5), refused(5, 46));
    EXPECT(count(with(six, 69, 6)), refused(6, 69));
    EXPECT(count(one_sided), refused(18, 0));
    EXPECT(list(one_sided, 0), refused(18, 0));
    EXPECT(placement_precedes(one_sided.bytes, one_sided.length, 0, 9), refused(18, 0));
    WROTE_NOTHING(&out);
}

void test_rotations(void)
{
    counts();
    lists();
    lowest_first();
    cyclic(cyclic_64(), 63);
    cyclic(short_cyclic_64(8), 7);
    xor_lists();
    order();
    order_of_large();
    short_lists();
    short_refusals();
}
