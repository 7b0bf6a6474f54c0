/* Books for the C tests, written byte by byte here and not by the library. */
#ifndef BOOKS_H
#define BOOKS_H

#include <stddef.h>
#include <stdint.h>

#define LARGEST_BOOK 8706

/* A book, or the lists of one, and its bytes, with room for a matching and weights; `n` is its number of students. */
struct book {
    size_t n;
    size_t length;
    uint8_t bytes[LARGEST_BOOK + 64 + 64 + 16];
};

/* Lists of Table 1 of document 000, one digit an entry: students 0 to 6, then mentors 0 to 6. */
extern const char table_1_lists[];

/* Matchings of Table 1: student-best, mentor-best, and document 000's M5. */
extern const uint8_t table_1_best[7], table_1_worst[7], table_1_m5[7];

/* Its rotations: number 1 is document 01's; the others follow from Table 2 of document 000. 0 is before 1, 1 before
 * 2 and 4, 2 before 3, 4 before 5; this gives its eleven closed sets. */
extern const uint8_t table_1_rotations[32], table_1_precedes[6][6];

/* The sets of Table 2, and their matchings. */
extern const struct table_1_set {
    uint8_t set[6], matching[7];
} table_1_sets[8];

/* The eleven stable matchings of Table 1, by their closed sets as Table 2 of document 000 has them: {}, {0}, {0,1},
 * {0,1,2}, {0,1,2,3}, {0,1,4}, {0,1,2,4}, {0,1,2,3,4}, {0,1,4,5}, {0,1,2,4,5} and all six. In the shortened Table 1
 * they have an eighth student, who is alone. */
#define TABLE_1_STABLE 11
extern const uint8_t table_1_stable[TABLE_1_STABLE][8];

/* Three students. Two rotations: stable are 1 0 2, 2 0 1 and 2 1 0, as students 0 and 2 exchange their mentors and then
 * students 1 and 2. One fixed: students 0 and 1 can exchange mentors 0 and 1, and student 2 keeps mentor 2. */
extern const char two_rotations_lists[], one_fixed_lists[];

/* Six students and six mentors, edition 2, a word for each list. Students 0 and 1 can exchange their mentors, 0 and 1:
 * one rotation. Students 2 and 3 would exchange theirs, 2 and 3, but for mentor 4: she is alone, and student 2 prefers
 * her to mentor 3, so that their pairs are fixed. Student 4 is alone, as mentor 1 always has one whom she prefers.
 * Student 5 and mentor 5 list nobody. The directory is bytes 2 to 49, the lists are bytes 50 to 69. */
extern const char six_lists[];
extern const uint8_t six_best[6], six_worst[6];

/* Table 1 with an eighth student and an eighth mentor, edition 2. Of a list of Table 1 there are those entries
 * alone that are not below a student's mentor in its mentor-best matching, nor below a mentor's student in its
 * student-best one: all others take part in no stable matching and block none, so that these stay as they are.
 * Student 7 stands last on the lists of mentors 6, 2 and 0, mentor 7 on those of students 0 and 3; as these have
 * others in all of them, student 7 and mentor 7 are alone. */
extern const char short_table_1_lists[];

/* The lists written as digits, as bytes. */
size_t list_bytes(uint8_t *out, const char *digits);

/* The book of edition 1 of n students with these lists, one digit an entry. */
struct book book_of(size_t n, const char *digits);

/* The book of edition 2 of n students with these 2n lists: a word for each, one digit an entry, `-` for none. */
struct book short_book(size_t n, const char *words);

/* n = 64: student i ranks mentor w at place level(i, w), she ranks him at 63 less that.
 * Cyclic: (w - i) modulo 64, which has 63 rotations of 64 pairs. Xor: w xor i, which has 2,016 rotations of two. */
struct book cyclic_64(void);
struct book xor_64(void);

/* The same in edition 2 with lists of `length` entries: of the levels below that alone, she ranks him at length - 1
 * less his level. Cyclic: length - 1 rotations of 64 pairs. Xor, for a length that is a power of 2: students and
 * mentors fall into groups of so many, and each has length * (length - 1) / 2 rotations of two. */
struct book short_cyclic_64(size_t length);
struct book short_xor_64(size_t length);

/* n = 64, edition 2: those of an even number list who has it on the other side, all others nobody. */
struct book half_64(void);

/* The place of a mentor on a student's list, which the directory says; the list's length where she does not stand on
 * it. */
size_t place_of(const struct book *book, size_t student, uint8_t mentor);

/* Whether x, y and z are places in this order, or in the opposite one. */
int in_order(size_t x, size_t y, size_t z);

/* A copy with the byte at `at` changed. */
struct book with(struct book book, size_t at, uint8_t byte);

/* A copy with these bytes added at the end. */
struct book followed(struct book book, const uint8_t *bytes, size_t length);

#endif
