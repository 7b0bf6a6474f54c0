/* Runs the sheet program, the weighted one or the moves program on inputs of as many bytes as it reads, of fewer and of
 * more, from a file and from a pipe. Each time it checks what the program prints and how many bytes it has read. Exits
 * with 1 if a check failed.
 *
 *     sheet_program plain PROGRAM
 *     sheet_program weighted PROGRAM
 *     sheet_program moves PROGRAM */
#include "../c/books.h"
#include "../c/check.h"
#include "program.h"

#include <stdio.h>
#include <string.h>

/* What differs between the programs. Documents 01 and 02: "It reads at most 8,771 bytes", "it reads at most 8,835". The
 * moves program reads as much as the sheet program. */
static const struct kind {
    const char *name;
    size_t most;         /* bytes that it reads */
    size_t parts;        /* of n bytes each, after the book */
    const char *wrong;   /* what it prints where the last part is too short or too long */
    const char *grade;   /* cyclic lists of 64, weights of 255: the grade, and the end of every other line */
    const char *tail;
    const char *table_1; /* Table 1 with M5, weights of 1 1 9 1 1 3 1 (tests/c/test_weights.c) */
    const char *six;     /* the six short lists, student-best, weights of 7 30 1 1 255 255 */
    int moves;           /* whether the moves of each student's repair stand under his line */
} kinds[3] = {
    {"plain", 8771, 1, "refused 8\n", "63", "D 64",
     "7 6 0 3\n0 4 U 2\n1 5 U 4\n2 6 D 2\n3 3 D 4\n4 1 D 2\n5 2 U 2\n6 0 D 2\n",
     "6 1 2 1\n0 0 D 2\n1 1 D 2\n2 2 F 0\n3 3 F 0\n4 - N 0\n5 - N 0\n", 0},
    {"weighted", 8835, 2, "refused 17\n", "16065", "D 16320",
     "7 6 0 11\n0 4 D 2\n1 5 U 6\n2 6 D 10\n3 3 D 12\n4 1 D 2\n5 2 U 4\n6 0 U 6\n",
     "6 1 2 30\n0 0 D 37\n1 1 D 37\n2 2 F 0\n3 3 F 0\n4 - N 0\n5 - N 0\n", 0},
    {"moves", 8771, 1, "refused 8\n", "63", "D 64",
     "7 6 0 3\n"
     "0 4 U 2\n 0 4 2 +1\n 5 2 4 +1\n"
     "1 5 U 4\n 0 4 2 +1\n 1 5 4 +1\n 5 2 0 +4\n 6 0 5 +1\n"
     "2 6 D 2\n 2 6 0 -1\n 6 0 6 -1\n"
     "3 3 D 4\n 1 5 3 -3\n 2 6 0 -1\n 3 3 5 -6\n 6 0 6 -1\n"
     "4 1 D 2\n 0 4 1 -1\n 4 1 4 -4\n"
     "5 2 U 2\n 0 4 2 +1\n 5 2 4 +1\n"
     "6 0 D 2\n 2 6 0 -1\n 6 0 6 -1\n",
     "6 1 2 1\n0 0 D 2\n 0 0 1 -1\n 1 1 0 -1\n1 1 D 2\n 0 0 1 -1\n 1 1 0 -1\n2 2 F 0\n3 3 F 0\n4 - N 0\n5 - N 0\n", 1},
};

static const struct kind *kind;
static const char *program;

/* The bytes of a book with what has to follow it. */
static size_t whole(struct book book)
{
    return book.length + kind->parts * book.n;
}

/* The input with so many bytes in all. */
static struct input input_of(struct book book, const uint8_t *matching, const uint8_t *weights, size_t length)
{
    struct input input = {length, {0}};
    const uint8_t *parts[2] = {matching, weights};
    memcpy(input.bytes, book.bytes, book.length);
    for (size_t k = 0; k < kind->parts; k++) {
        memcpy(input.bytes + book.length + k * book.n, parts[k], book.n);
    }
    return input;
}

/* The program prints this, and has read the whole input, or as much of a longer one as it reads. */
static void prints(struct input input, const char *due)
{
    static char printed[PRINTED];
    size_t most = input.length < kind->most ? input.length : kind->most;
    HOLDS(read_from_file(program, &input, printed) == most);
    HOLDS(strcmp(printed, due) == 0);
    HOLDS(read_from_pipe(program, &input, kind->most, printed) == most);
    HOLDS(strcmp(printed, due) == 0);
}

/* What is due for cyclic lists of 64 and so many rotations, each student with the mentor of the same number: every
 * repair moves each student one place down, to the next mentor. */
static const char *cyclic_due(int rotations)
{
    static char due[PRINTED];
    int length = snprintf(due, sizeof due, "64 %d 0 %s\n", rotations, kind->grade);
    for (int i = 0; i < 64; i++) {
        length += snprintf(due + length, sizeof due - (size_t)length, "%d %d %s\n", i, i, kind->tail);
        for (int k = 0; kind->moves && k < 64; k++) {
            length += snprintf(due + length, sizeof due - (size_t)length, " %d %d %d -1\n", k, k, (k + 1) % 64);
        }
    }
    return due;
}

/* These lists. One byte more than the whole and the last part is too long, and so it is with any number more. */
static void cyclic(struct book book, int rotations)
{
    uint8_t same[64], weights[64];
    for (int i = 0; i < 64; i++) {
        same[i] = (uint8_t)i;
        weights[i] = 255;
    }
    prints(input_of(book, same, weights, book.length + 63), "refused 8\n");
    prints(input_of(book, same, weights, whole(book) - 1), kind->wrong);
    prints(input_of(book, same, weights, whole(book)), cyclic_due(rotations));
    prints(input_of(book, same, weights, whole(book) + 1), kind->wrong);
    prints(input_of(book, same, weights, kind->most), kind->wrong);
    prints(input_of(book, same, weights, kind->most + 1), kind->wrong);
    prints(input_of(book, same, weights, LONGEST_INPUT), kind->wrong);
}

/* Edition 1, edition 2 with full lists, and with lists of 8. The largest whole input is one byte less than the program
 * reads. */
static void largest(void)
{
    HOLDS(whole(cyclic_64()) == kind->most - 1);
    cyclic(cyclic_64(), 63);
    cyclic(short_cyclic_64(64), 63);
    cyclic(short_cyclic_64(8), 7);
}

/* The six short lists: the book ends where its directory says, and what follows is the last part. */
static void short_lists(void)
{
    static const uint8_t weights[6] = {7, 30, 1, 1, 255, 255};
    struct book six = short_book(6, six_lists);
    prints(input_of(six, six_best, weights, whole(six)), kind->six);
    prints(input_of(six, six_best, weights, 49), "refused 1\n");
    prints(input_of(six, six_best, weights, 69), "refused 1\n");
    prints(input_of(six, six_best, weights, 70), "refused 8\n");
    prints(input_of(six, six_best, weights, whole(six) - 1), kind->wrong);
    prints(input_of(six, six_best, weights, whole(six) + 1), kind->wrong);
    prints(input_of(six, six_best, weights, LONGEST_INPUT), kind->wrong);
    prints(input_of(with(six, 47, 255), six_best, weights, LONGEST_INPUT), "refused 5\n");
    prints(input_of(with(six, 46, 0), six_best, weights, whole(six)), "refused 5\n");
    prints(input_of(short_book(1, "0 -"), six_best, weights, LONGEST_INPUT), "refused 18\n");
    prints(input_of(six, (const uint8_t[6]){0, 1, 2, 3, 4, 255}, weights, whole(six)), "refused 19\n");
    prints(input_of(six, (const uint8_t[6]){0, 1, 3, 2, 255, 255}, weights, whole(six)), "refused 10\n");
}

/* Table 1 with M5: all that follows is taken for the last part. A book that breaks a rule is refused by it, however
 * long the input is. */
static void small(void)
{
    static const uint8_t weights[7] = {1, 1, 9, 1, 1, 3, 1};
    struct book table_1 = book_of(7, table_1_lists), nobody = book_of(0, ""), one = book_of(1, "00");
    prints(input_of(table_1, table_1_m5, weights, whole(table_1)), kind->table_1);
    prints(input_of(table_1, table_1_m5, weights, 162), "refused 8\n");
    prints(input_of(table_1, table_1_m5, weights, whole(table_1) - 1), kind->wrong);
    prints(input_of(table_1, table_1_m5, weights, whole(table_1) + 1), kind->wrong);
    prints(input_of(table_1, table_1_m5, weights, LONGEST_INPUT), kind->wrong);
    prints(input_of(with(table_1, 0, 3), table_1_m5, weights, LONGEST_INPUT), "refused 2\n");
    prints(input_of(with(table_1, 1, 65), table_1_m5, weights, LONGEST_INPUT), "refused 3\n");
    prints(input_of(with(table_1, 155, 7), table_1_m5, weights, LONGEST_INPUT), "refused 6\n");
    prints(input_of(nobody, table_1_m5, weights, 2), "0 0 0 -\n");
    prints(input_of(nobody, table_1_m5, weights, LONGEST_INPUT), kind->wrong);
    prints(input_of(one, six_best, weights, whole(one)), "1 0 1 -\n0 0 F 0\n");
    prints(input_of(table_1, table_1_m5, weights, 0), "refused 1\n");
}

int main(int argc, char **argv)
{
    for (size_t k = 0; k < 3; k++) {
        if (argc == 3 && strcmp(argv[1], kinds[k].name) == 0) {
            kind = &kinds[k];
        }
    }
    if (kind == NULL) {
        fprintf(stderr, "usage: sheet_program plain|weighted|moves PROGRAM\n");
        return 2;
    }
    program = argv[2];
    largest();
    small();
    short_lists();
    printf("%s sheet program: %lu checks, %lu failed\n", kind->name, checks, failures);
    return failures != 0;
}
