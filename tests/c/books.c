/* Books for the C tests: see books.h. */
#include "books.h"

#include <string.h>

const char table_1_lists[] = "0652413" "6145023" "6031542" "3201465" "1203456" "6103542" "2506431"
                             "2164530" "0435261" "2504316" "6123405" "4605312" "3126540" "4621305";

const char two_rotations_lists[] = "012" "012" "210" "210" "120" "012";
const char one_fixed_lists[] = "012" "102" "201" "102" "012" "201";

const char six_lists[] = "01 10 243 32 1 - 10 014 32 23 2 -";

const char short_table_1_lists[] = "52417 45023 60 32457 1204 0542 2506 620 "
                                   "216457 04 5043167 13 40531 31650 627 30";

const uint8_t six_best[6] = {0, 1, 2, 3, 255, 255}, six_worst[6] = {1, 0, 2, 3, 255, 255};

const uint8_t table_1_best[7] = {5, 4, 6, 3, 1, 0, 2};
const uint8_t table_1_worst[7] = {1, 3, 0, 5, 4, 2, 6};
const uint8_t table_1_m5[7] = {4, 5, 6, 3, 1, 2, 0};

const uint8_t table_1_rotations[32] = {2, 0, 5, 6, 2, 3, 1, 4, 6, 5, 5, 0, 2, 0, 2, 5,
                                       4, 2, 0, 4, 4, 1, 2, 2, 6, 6, 0, 2, 1, 5, 3, 3};

const uint8_t table_1_precedes[6][6] = {{0, 1, 1, 1, 1, 1}, {0, 0, 1, 1, 1, 1}, {0, 0, 0, 1, 0, 0},
                                        {0, 0, 0, 0, 0, 0}, {0, 0, 0, 0, 0, 1}, {0, 0, 0, 0, 0, 0}};

const struct table_1_set table_1_sets[8] = {
    {{0, 0, 0, 0, 0, 0}, {5, 4, 6, 3, 1, 0, 2}}, {{1, 0, 0, 0, 0, 0}, {2, 4, 6, 3, 1, 0, 5}},
    {{1, 1, 0, 0, 0, 0}, {2, 5, 6, 3, 1, 4, 0}}, {{1, 1, 1, 0, 0, 0}, {4, 5, 6, 3, 1, 2, 0}},
    {{1, 1, 1, 1, 0, 0}, {1, 5, 6, 3, 4, 2, 0}}, {{1, 1, 1, 0, 1, 0}, {4, 5, 0, 3, 1, 2, 6}},
    {{1, 1, 1, 0, 1, 1}, {4, 3, 0, 5, 1, 2, 6}}, {{1, 1, 1, 1, 1, 1}, {1, 3, 0, 5, 4, 2, 6}},
};

const uint8_t table_1_stable[TABLE_1_STABLE][8] = {
    {5, 4, 6, 3, 1, 0, 2, 255}, {2, 4, 6, 3, 1, 0, 5, 255}, {2, 5, 6, 3, 1, 4, 0, 255}, {4, 5, 6, 3, 1, 2, 0, 255},
    {1, 5, 6, 3, 4, 2, 0, 255}, {2, 5, 0, 3, 1, 4, 6, 255}, {4, 5, 0, 3, 1, 2, 6, 255}, {1, 5, 0, 3, 4, 2, 6, 255},
    {2, 3, 0, 5, 1, 4, 6, 255}, {4, 3, 0, 5, 1, 2, 6, 255}, {1, 3, 0, 5, 4, 2, 6, 255},
};

size_t list_bytes(uint8_t *out, const char *digits)
{
    size_t length = strlen(digits);
    for (size_t at = 0; at < length; at++) {
        out[at] = (uint8_t)(digits[at] - '0');
    }
    return length;
}

/* A book of n students whose lists are yet to come: edition, n, and a directory of 2n empty lists. */
static struct book headed(uint8_t edition, size_t n)
{
    struct book book = {n, 2 + 8 * n, {0}};
    book.bytes[0] = edition;
    book.bytes[1] = (uint8_t)n;
    return book;
}

/* Puts list k of so many bytes at the end of a book and its pair into the directory; the entries stand there already or
 * are put later. */
static void add_list(struct book *book, size_t k, size_t length)
{
    uint8_t *pair = book->bytes + 2 + 4 * k;
    pair[0] = (uint8_t)(book->length % 256);
    pair[1] = (uint8_t)(book->length / 256);
    pair[2] = (uint8_t)length;
    book->length += length;
}

struct book book_of(size_t n, const char *digits)
{
    struct book book = headed(1, n);
    list_bytes(book.bytes + book.length, digits);
    for (size_t k = 0; k < 2 * n; k++) {
        add_list(&book, k, n);
    }
    return book;
}

struct book short_book(size_t n, const char *words)
{
    struct book book = headed(2, n);
    for (size_t k = 0; k < 2 * n; k++) {
        size_t length = 0;
        for (; *words != ' ' && *words != 0; words++) {
            if (*words != '-') {
                book.bytes[book.length + length++] = (uint8_t)(*words - '0');
            }
        }
        add_list(&book, k, length);
        words += *words == ' ';
    }
    return book;
}

/* The book of 64 in which the mentors' lists are opposed to the students', by the levels of a latin square; the lists
 * have the levels below `length`. */
static struct book opposed_64(uint8_t edition, size_t length, size_t (*level)(size_t, size_t))
{
    struct book book = headed(edition, 64);
    uint8_t *students = book.bytes + book.length, *mentors = students + 64 * length;
    for (size_t k = 0; k < 128; k++) {
        add_list(&book, k, length);
    }
    for (size_t i = 0; i < 64; i++) {
        for (size_t w = 0; w < 64; w++) {
            size_t place = level(i, w);
            if (place < length) {
                students[length * i + place] = (uint8_t)w;
                mentors[length * w + length - 1 - place] = (uint8_t)i;
            }
        }
    }
    return book;
}

static size_t cyclic_level(size_t i, size_t w)
{
    return (w + 64 - i) % 64;
}

static size_t xor_level(size_t i, size_t w)
{
    return i ^ w;
}

struct book cyclic_64(void)
{
    return opposed_64(1, 64, cyclic_level);
}

struct book xor_64(void)
{
    return opposed_64(1, 64, xor_level);
}

struct book short_cyclic_64(size_t length)
{
    return opposed_64(2, length, cyclic_level);
}

struct book short_xor_64(size_t length)
{
    return opposed_64(2, length, xor_level);
}

struct book half_64(void)
{
    struct book book = headed(2, 64);
    for (size_t k = 0; k < 128; k++) {
        book.bytes[book.length] = (uint8_t)(k % 64);
        add_list(&book, k, k % 2 == 0);
    }
    return book;
}

size_t place_of(const struct book *book, size_t student, uint8_t mentor)
{
    const uint8_t *pair = book->bytes + 2 + 4 * student;
    const uint8_t *list = book->bytes + pair[0] + 256 * pair[1];
    size_t at = 0;
    while (at < pair[2] && list[at] != mentor) {
        at++;
    }
    return at;
}

int in_order(size_t x, size_t y, size_t z)
{
    return (x <= y && y <= z) || (z <= y && y <= x);
}

struct book with(struct book book, size_t at, uint8_t byte)
{
    book.bytes[at] = byte;
    return book;
}

struct book followed(struct book book, const uint8_t *bytes, size_t length)
{
    memcpy(book.bytes + book.length, bytes, length);
    book.length += length;
    return book;
}
