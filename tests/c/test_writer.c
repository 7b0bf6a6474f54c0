/* The writer: 3, then 1 and 4 against 2 n^2, then 6 and 7 with places from the first list byte, then 14. */
#include "books.h"
#include "check.h"

static struct lent out;

static struct placement_reply write_lists(size_t n, const uint8_t *lists, size_t length, size_t room)
{
    return placement_write_book(n, fenced(0, lists, length), length, lend(&out, room), room);
}

static void written(struct book book)
{
    size_t start = 2 + 8 * book.n;
    const uint8_t *lists = book.bytes + start;
    EXPECT(write_lists(book.n, lists, book.length - start, book.length), value((size_t)book.length));
    WROTE(&out, book.bytes, book.length);
    EXPECT(write_lists(book.n, lists, book.length - start, book.length + 9), value((size_t)book.length));
    WROTE(&out, book.bytes, book.length);
    EXPECT(write_lists(book.n, lists, book.length - start, book.length - 1), refused(14, 0));
    WROTE_NOTHING(&out);
}

static void refusals(void)
{
    uint8_t lists[99];
    size_t length = list_bytes(lists, table_1_lists);
    lists[98] = 0;
    EXPECT(write_lists(65, lists, length, 156), refused(3, 1));
    EXPECT(write_lists(SIZE_MAX, lists, length, 156), refused(3, 1));
    EXPECT(placement_write_book(65, NULL, 0, NULL, 0), refused(3, 1));
    EXPECT(write_lists(7, lists, 97, 156), refused(1, 97));
    EXPECT(placement_write_book(7, NULL, 0, lend(&out, 156), 156), refused(1, 0));
    EXPECT(write_lists(7, lists, 99, 156), refused(4, 98));
    EXPECT(write_lists(7, lists, 97, 0), refused(1, 97));
    EXPECT(write_lists(6, lists, 98, 156), refused(4, 72));
    EXPECT(placement_write_book(7, lists, 98, NULL, 0), refused(14, 0));
    WROTE_NOTHING(&out);
    for (size_t at = 0; at < 98; at++) {
        uint8_t kept = lists[at];
        lists[at] = 7;
        EXPECT(write_lists(7, lists, 98, 156), refused(6, (size_t)at));
        EXPECT(write_lists(7, lists, 98, 10), refused(6, (size_t)at));
        WROTE_NOTHING(&out);
        if (at % 7 != 0) {
            lists[at] = lists[at - 1];
            EXPECT(write_lists(7, lists, 98, 156), refused(7, (size_t)at));
            WROTE_NOTHING(&out);
        }
        lists[at] = kept;
    }
}

void test_writer(void)
{
    static const uint8_t none[2] = {1, 0};
    EXPECT(placement_write_book(0, NULL, 0, lend(&out, 2), 2), value(2));
    WROTE(&out, none, 2);
    EXPECT(placement_write_book(0, NULL, 0, lend(&out, 1), 1), refused(14, 0));
    EXPECT(placement_write_book(0, NULL, 0, NULL, 0), refused(14, 0));
    EXPECT(placement_write_book(0, none, 1, lend(&out, 2), 2), refused(4, 0));
    WROTE_NOTHING(&out);
    written(book_of(1, "00"));
    written(book_of(7, table_1_lists));
    written(xor_64());
    written(cyclic_64());
    refusals();
}
