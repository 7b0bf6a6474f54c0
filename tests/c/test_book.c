/* Rules 1 to 7 of a book of edition 1, its size, and one person's list. */
#include "books.h"
#include "check.h"

#include <string.h>

static struct placement_reply check(const uint8_t *bytes, size_t length)
{
    return placement_check_book(fenced(0, bytes, length), length);
}

static struct placement_reply check_book(struct book book)
{
    return check(book.bytes, book.length);
}

/* Rules 1 to 4: the order is under 2 bytes, then 2, 3, 1, 4. */
static void heads(void)
{
    static const uint8_t none[3] = {1, 0, 0}, wrong_edition[2] = {3, 0}, both[2] = {0, 200}, crowd[3] = {1, 65, 0};
    static const uint8_t largest[2] = {1, 255}, only_head[2] = {1, 1}, edition_3[1] = {3}, edition_0[12] = {0, 1};
    EXPECT(placement_check_book(NULL, 0), refused(1, 0));
    EXPECT(placement_check_book(none, 0), refused(1, 0));
    EXPECT(check(none, 1), refused(1, 1));
    EXPECT(check(edition_3, 1), refused(1, 1));
    EXPECT(check(wrong_edition, 2), refused(2, 0));
    EXPECT(check(both, 2), refused(2, 0));
    EXPECT(check(edition_0, 12), refused(2, 0));
    EXPECT(check(crowd, 2), refused(3, 1));
    EXPECT(check(crowd, 3), refused(3, 1));
    EXPECT(check(largest, 2), refused(3, 1));
    EXPECT(check(only_head, 2), refused(1, 2));
    EXPECT(check(none, 2), value(0));
    EXPECT(check(none, 3), refused(4, 2));
}

static void sizes(void)
{
    static const uint8_t zero[1] = {0};
    struct book one = book_of(1, "00"), table_1 = book_of(7, table_1_lists), large = xor_64();
    EXPECT(check_book(one), value(1));
    EXPECT(check(one.bytes, 11), refused(1, 11));
    EXPECT(check_book(followed(one, zero, 1)), refused(4, 12));
    EXPECT(check_book(table_1), value(7));
    EXPECT(check(table_1.bytes, 155), refused(1, 155));
    EXPECT(check_book(followed(table_1, zero, 1)), refused(4, 156));
    EXPECT(check_book(large), value(64));
    EXPECT(check(large.bytes, 8705), refused(1, 8705));
    EXPECT(check_book(followed(large, zero, 1)), refused(4, 8706));
    EXPECT(check_book(with(large, 1, 65)), refused(3, 1));
    EXPECT(check_book(with(table_1, 1, 6)), refused(4, 2 + 8 * 6 + 2 * 36));
    EXPECT(check_book(with(table_1, 1, 8)), refused(1, 156));
    EXPECT(placement_book_size(0), value(2));
    EXPECT(placement_book_size(1), value(12));
    EXPECT(placement_book_size(7), value(156));
    EXPECT(placement_book_size(64), value(8706));
    EXPECT(placement_book_size(65), refused(3, 1));
    EXPECT(placement_book_size((size_t)1 << 32), refused(3, 1));
    EXPECT(placement_book_size(SIZE_MAX), refused(3, 1));
}

/* Rule 5: the place is the first byte of the first pair that is wrong. The directory of Table 1 is bytes 2 to 57. */
static void directory(void)
{
    struct book table_1 = book_of(7, table_1_lists);
    for (size_t at = 2; at < 58; at++) {
        uint8_t byte = table_1.bytes[at];
        EXPECT(check_book(with(table_1, at, (uint8_t)(byte + 1))), refused(5, (size_t)(at - (at - 2) % 4)));
        EXPECT(check_book(with(table_1, at, (uint8_t)(byte ^ 0x80))), refused(5, (size_t)(at - (at - 2) % 4)));
    }
    EXPECT(check_book(with(with(table_1, 54, 0), 14, 0)), refused(5, 14));
    EXPECT(check_book(with(with(table_1, 58, 7), 54, 0)), refused(5, 54));
    /* One list longer and the next shorter: the sum is right, the pairs are not. */
    EXPECT(check_book(with(with(table_1, 4, 8), 8, 6)), refused(5, 2));
}

/* Rules 6 and 7: the lists of Table 1 are bytes 58 to 155, seven a list. */
static void entries(void)
{
    struct book table_1 = book_of(7, table_1_lists);
    for (size_t at = 58; at < 156; at++) {
        size_t first = at - (at - 58) % 7;
        EXPECT(check_book(with(table_1, at, 7)), refused(6, (size_t)at));
        EXPECT(check_book(with(table_1, at, 255)), refused(6, (size_t)at));
        if (at > first) {
            /* The first entry stands earlier; put in the first place, this entry is the one that stands later. */
            EXPECT(check_book(with(table_1, at, table_1.bytes[first])), refused(7, (size_t)at));
            EXPECT(check_book(with(table_1, first, table_1.bytes[at])), refused(7, (size_t)at));
        }
    }
    EXPECT(check_book(with(with(table_1, 70, 7), 60, 0)), refused(7, 60));
    EXPECT(check_book(with(with(table_1, 59, 9), 60, 0)), refused(6, 59));
    struct book large = xor_64();
    EXPECT(check_book(with(large, 8705, 64)), refused(6, 8705));
    EXPECT(check_book(with(large, 8705, large.bytes[8704])), refused(7, 8705));
}

/* One person's list: the offset is the place, the length the value. */
static void lists(void)
{
    static const uint8_t none[2] = {1, 0};
    struct book table_1 = book_of(7, table_1_lists), bad = with(table_1, 60, 7), large = xor_64();
    const uint8_t *book = fenced(0, table_1.bytes, 156);
    for (size_t k = 0; k < 7; k++) {
        struct placement_reply student = {0, 58 + 7 * k, 0, 0, 7}, mentor = {0, 107 + 7 * k, 0, 0, 7};
        EXPECT(placement_student_list(book, 156, k), student);
        EXPECT(placement_mentor_list(book, 156, k), mentor);
    }
    EXPECT(placement_student_list(book, 156, 7), refused(11, 0));
    EXPECT(placement_mentor_list(book, 156, 7), refused(11, 0));
    EXPECT(placement_student_list(book, 156, 255), refused(11, 0));
    /* A number that no byte holds is not another's: 256 is not 0. */
    const size_t none_has[] = {256, 257, 256 + 6, 65536, (size_t)1 << 32, SIZE_MAX - 255, SIZE_MAX};
    for (size_t k = 0; k < sizeof none_has / sizeof none_has[0]; k++) {
        EXPECT(placement_student_list(book, 156, none_has[k]), refused(11, 0));
        EXPECT(placement_mentor_list(book, 156, none_has[k]), refused(11, 0));
        EXPECT(placement_student_list(book, 155, none_has[k]), refused(1, 155));
    }
    EXPECT(placement_mentor_list(book, 155, 0), refused(1, 155));
    EXPECT(placement_student_list(bad.bytes, 156, 200), refused(6, 60));
    EXPECT(placement_mentor_list(bad.bytes, 156, 200), refused(6, 60));
    EXPECT(placement_student_list(none, 2, 0), refused(11, 0));
    EXPECT(placement_mentor_list(none, 2, 0), refused(11, 0));
    EXPECT(placement_student_list(NULL, 0, 0), refused(1, 0));
    EXPECT(placement_mentor_list(NULL, 0, 0), refused(1, 0));
    struct placement_reply last = {0, 8706 - 64, 0, 0, 64};
    EXPECT(placement_mentor_list(large.bytes, 8706, 63), last);
    EXPECT(placement_mentor_list(large.bytes, 8706, 64), refused(11, 0));
}

void test_book(void)
{
    heads();
    sizes();
    directory();
    entries();
    lists();
}
