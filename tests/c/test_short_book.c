/* Edition 2 (W-203): the rules of a book in their order, and one person's list of any length. */
#include "books.h"
#include "check.h"

#include <string.h>

static struct placement_reply check(const uint8_t *bytes, size_t length)
{
    return placement_check_book(fenced(0, bytes, length), length);
}

static struct placement_reply check_book(struct book book)
{
    return check(book.bytes, book.length);
}

/* Under 2 bytes 1, then 2, 3, then 1 where the directory does not fit. The directory of one student is bytes 2 to
 * 9. */
static void heads(void)
{
    static const uint8_t nobody[3] = {2, 0, 0}, edition_3[2] = {3, 65}, crowd[2] = {2, 65}, largest[2] = {2, 255};
    static const uint8_t empty[11] = {2, 1, 10, 0, 0, 0, 10, 0, 0, 0, 0};
    EXPECT(check(nobody, 1), refused(1, 1));
    EXPECT(check(nobody, 2), value(0));
    EXPECT(check(nobody, 3), refused(4, 2));
    EXPECT(check(edition_3, 2), refused(2, 0));
    EXPECT(check(crowd, 2), refused(3, 1));
    EXPECT(check(largest, 2), refused(3, 1));
    for (size_t length = 2; length < 10; length++) {
        EXPECT(check(empty, length), refused(1, length));
    }
    EXPECT(check(empty, 10), value(1));
    EXPECT(check(empty, 11), refused(4, 10));
}

/* The size is the end of the last list, whatever n is. */
static void sizes(void)
{
    static const uint8_t zeros[64] = {0};
    struct book six = short_book(6, six_lists), short_64 = short_cyclic_64(8), full_64 = with(xor_64(), 0, 2);
    HOLDS(six.length == 70 && short_64.length == 2 + 8 * 64 + 128 * 8);
    EXPECT(check_book(six), value(6));
    for (size_t length = 2; length < 70; length++) {
        EXPECT(check(six.bytes, length), refused(1, length));
    }
    EXPECT(check_book(followed(six, zeros, 1)), refused(4, 70));
    EXPECT(check_book(followed(six, zeros, 64)), refused(4, 70));
    EXPECT(check_book(short_book(8, short_table_1_lists)), value(8));
    EXPECT(check_book(short_64), value(64));
    EXPECT(check(short_64.bytes, short_64.length - 1), refused(1, short_64.length - 1));
    EXPECT(check_book(followed(short_64, zeros, 1)), refused(4, short_64.length));
    EXPECT(check_book(short_cyclic_64(0)), value(64));
    EXPECT(check_book(short_cyclic_64(1)), value(64));
    EXPECT(check_book(full_64), value(64));
    EXPECT(check(full_64.bytes, 8705), refused(1, 8705));
    EXPECT(check_book(followed(full_64, zeros, 1)), refused(4, 8706));
    /* In edition 1 the size is what n says, 122. */
    EXPECT(check_book(with(six, 0, 1)), refused(1, 70));
}

/* Rule 5: an offset that is not where the list before ended, or a length over n. The place is that of the pair. */
static void directory(void)
{
    struct book six = short_book(6, six_lists);
    for (size_t k = 0; k < 12; k++) {
        size_t pair = 2 + 4 * k;
        EXPECT(check_book(with(six, pair, (uint8_t)(six.bytes[pair] + 1))), refused(5, pair));
        EXPECT(check_book(with(six, pair, (uint8_t)(six.bytes[pair] - 1))), refused(5, pair));
        EXPECT(check_book(with(six, pair + 1, 1)), refused(5, pair));
        EXPECT(check_book(with(six, pair + 2, 7)), refused(5, pair));
        EXPECT(check_book(with(six, pair + 2, 255)), refused(5, pair));
        EXPECT(check_book(with(six, pair + 3, 1)), refused(5, pair));
        /* A length of n is allowed, so that the next offset is wrong; after the last pair it is the size. */
        EXPECT(check_book(with(six, pair + 2, 6)), k < 11 ? refused(5, pair + 4) : refused(1, 70));
    }
    EXPECT(check_book(with(with(six, 10, 0), 30, 0)), refused(5, 10));
    /* Mentor 4's list without its entry, and mentor 5's from there on: the size is one byte less. */
    EXPECT(check_book(with(with(six, 44, 0), 46, 69)), refused(4, 69));
    /* One byte of student 1's list goes to student 0: the directory is right, and the entry a repeat. */
    EXPECT(check_book(with(with(with(six, 4, 3), 6, 53), 8, 1)), refused(7, 52));
}

/* 1 where the directory does not fit comes before 5, and 5 before 1 and 4 for the lists. */
static void order(void)
{
    static const uint8_t zero[1] = {0};
    struct book six = short_book(6, six_lists), wrong = with(six, 46, 0), stranger = with(six, 50, 6);
    EXPECT(check(wrong.bytes, 49), refused(1, 49));
    EXPECT(check(wrong.bytes, 50), refused(5, 46));
    EXPECT(check(wrong.bytes, 69), refused(5, 46));
    EXPECT(check_book(followed(wrong, zero, 1)), refused(5, 46));
    EXPECT(check(stranger.bytes, 69), refused(1, 69));
    EXPECT(check_book(followed(with(six, 51, 0), zero, 1)), refused(4, 70));
}

/* Rules 6 and 7: the lists are bytes 50 to 69. */
static void entries(void)
{
    struct book six = short_book(6, six_lists);
    for (size_t at = 50; at < 70; at++) {
        EXPECT(check_book(with(six, at, 6)), refused(6, at));
        EXPECT(check_book(with(six, at, 255)), refused(6, at));
    }
    EXPECT(check_book(with(six, 51, 0)), refused(7, 51));
    EXPECT(check_book(with(six, 56, 2)), refused(7, 56));
    EXPECT(check_book(with(six, 56, 4)), refused(7, 56));
    EXPECT(check_book(with(six, 64, 0)), refused(7, 64));
    EXPECT(check_book(with(six, 68, 2)), refused(7, 68));
    EXPECT(check_book(with(with(six, 64, 0), 65, 6)), refused(7, 64));
    EXPECT(check_book(with(with(six, 64, 6), 66, 3)), refused(6, 64));
}

/* Rule 18, for a student's entry and for a mentor's; after every 6 and 7, where ever these stand. */
static void one_sided(void)
{
    EXPECT(check_book(short_book(1, "0 -")), refused(18, 0));
    EXPECT(check_book(short_book(1, "- 0")), refused(18, 0));
    EXPECT(check_book(short_book(1, "0 0")), value(1));
    EXPECT(check_book(short_book(1, "- -")), value(1));
    /* Student 2 lists mentor 4, who lists nobody; mentor 4 lists student 2, who does not list her. */
    EXPECT(check_book(short_book(6, "01 10 243 32 1 - 10 014 32 23 - -")), refused(18, 0));
    EXPECT(check_book(short_book(6, "01 10 23 32 1 - 10 014 32 23 2 -")), refused(18, 0));
    /* Both lists of the pair have entries, and the numbers of the two are the same or exchanged. */
    EXPECT(check_book(short_book(2, "1 0 0 1")), refused(18, 0));
    EXPECT(check_book(short_book(2, "01 - 1 -")), refused(18, 0));
    EXPECT(check_book(short_book(2, "1 0 1 0")), value(2));
    /* Student 0's first entry is not returned; the last byte of the last mentor's list is a repeat, or a stranger. */
    EXPECT(check_book(short_book(2, "0 - - 11")), refused(7, 20));
    EXPECT(check_book(short_book(2, "0 - - 2")), refused(6, 19));
    EXPECT(check_book(short_book(2, "0 - - -")), refused(18, 0));
    /* The last entry of 64 lists of 8: the last mentor lists somebody else. */
    struct book short_64 = short_cyclic_64(8);
    size_t last = short_64.length - 1;
    EXPECT(check_book(with(short_64, last, 7)), refused(18, 0));
    EXPECT(check_book(with(short_64, last, 64)), refused(6, last));
    EXPECT(check_book(with(short_64, last, short_64.bytes[last - 1])), refused(7, last));
}

/* One person's list: the offset is the place, the length, which may be 0, the value. */
static void lists(void)
{
    static const size_t offsets[12] = {50, 52, 54, 57, 59, 60, 60, 62, 65, 67, 69, 70};
    static const size_t lengths[12] = {2, 2, 3, 2, 1, 0, 2, 3, 2, 2, 1, 0};
    struct book six = short_book(6, six_lists), one_sided = short_book(1, "0 -"), short_64 = short_cyclic_64(8);
    const uint8_t *book = fenced(0, six.bytes, 70);
    for (size_t k = 0; k < 6; k++) {
        struct placement_reply student = {0, offsets[k], 0, 0, lengths[k]};
        struct placement_reply mentor = {0, offsets[6 + k], 0, 0, lengths[6 + k]};
        EXPECT(placement_student_list(book, 70, k), student);
        EXPECT(placement_mentor_list(book, 70, k), mentor);
    }
    EXPECT(placement_student_list(book, 70, 6), refused(11, 0));
    EXPECT(placement_mentor_list(book, 70, 255), refused(11, 0));
    EXPECT(placement_student_list(book, 70, 256), refused(11, 0));
    EXPECT(placement_student_list(one_sided.bytes, one_sided.length, 0), refused(18, 0));
    EXPECT(placement_mentor_list(one_sided.bytes, one_sided.length, 1), refused(18, 0));
    struct placement_reply last = {0, short_64.length - 8, 0, 0, 8};
    EXPECT(placement_mentor_list(short_64.bytes, short_64.length, 63), last);
}

void test_short_book(void)
{
    heads();
    sizes();
    directory();
    order();
    entries();
    one_sided();
    lists();
}
