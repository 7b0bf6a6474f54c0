/* Asks for the repair of one pair, or of two, and prints the answer.
 *
 *     gcc -Iinclude examples/repair.c target/staticlib/libplacement.a -o target/repair
 *     target/repair FILE STUDENT MENTOR                   the pair by both numbers
 *     target/repair FILE MENTOR                           by the mentor's alone
 *     target/repair FILE STUDENT MENTOR STUDENT MENTOR    two pairs at one go
 *
 * FILE holds a book of either edition and after it the matching, as the sheet program takes them; examples/table-1 and
 * examples/short-lists are such files. */
#include <placement.h>

#include <stdio.h>
#include <stdlib.h>

/* The largest book with its matching, and one byte more, so that a matching that is too long is seen. */
#define LARGEST_INPUT (PLACEMENT_LARGEST_BOOK + PLACEMENT_LARGEST_N + 1)

/* A number of the directory: two bytes, low byte first. */
static size_t number_at(const uint8_t *bytes)
{
    return bytes[0] + 256 * (size_t)bytes[1];
}

/* Where the lists of a book of edition 2 end: its directory has 8 * n bytes, and its last four are the offset and
 * the length of the last list. A directory that says less than its own end is wrong, and the library has to see all
 * of it. */
static size_t lists_end(const uint8_t *input, size_t n)
{
    size_t directory_end = 2 + 8 * n;
    size_t end = n == 0 ? 2 : number_at(input + directory_end - 4) + number_at(input + directory_end - 2);
    return end < directory_end ? directory_end : end;
}

/* The bytes of the book at the front of the input. All of it, where its first two bytes are no good or it is too
 * short: the library then says what is wrong. */
static size_t book_length(const uint8_t *input, size_t length)
{
    if (length < 2) {
        return length;
    }
    size_t n = input[1], size = length;
    struct placement_reply complete = placement_book_size(n);
    if (input[0] == 1 && complete.number == PLACEMENT_FINE) {
        size = complete.value;
    } else if (input[0] == 2 && 2 + 8 * n <= length) {
        size = lists_end(input, n);
    }
    return size < length ? size : length;
}

/* Reads a number of a student or mentor. A call takes a byte for each, so one that no byte holds would become
 * another's: it is not taken, nor is anything but digits. */
static int read_number(const char *text, uint8_t *number)
{
    char *end;
    unsigned long value = strtoul(text, &end, 10);
    if (text[0] < '0' || text[0] > '9' || *end != '\0' || value > UINT8_MAX) {
        fprintf(stderr, "repair: '%s' is no number of a student or mentor\n", text);
        return 0;
    }
    *number = (uint8_t)value;
    return 1;
}

/* The mentor of a student as text, `-` where he has none. */
static const char *mentor_text(uint8_t mentor)
{
    static char text[4];
    snprintf(text, sizeof text, "%u", mentor);
    return mentor == PLACEMENT_NOBODY ? "-" : text;
}

/* Prints a refusal. One number is a mentor's, four are two pairs; if they are not together, the first that is not is
 * meant. */
static void print_refusal(struct placement_reply reply, const uint8_t *numbers, int count, const uint8_t *matching)
{
    switch (reply.number) {
    case PLACEMENT_UNSTABLE:
        printf("refused: student %zu and mentor %zu block the matching\n", reply.place, reply.second);
        break;
    case PLACEMENT_UNKNOWN:
        printf("refused: %sno mentor has that number\n", count == 1 ? "" : "no student or ");
        break;
    case PLACEMENT_APART:
        if (count == 1) {
            printf("refused: mentor %u has no student\n", numbers[0]);
        } else {
            const uint8_t student = numbers[matching[numbers[0]] == numbers[1] ? 2 : 0];
            printf("refused: the two are not together; student %u has mentor %s\n", student,
                   mentor_text(matching[student]));
        }
        break;
    default:
        printf("refused %zu, place %zu\n", reply.number, reply.place);
    }
}

/* The letter of one pair as a word. */
static const char *word(size_t letter)
{
    return letter == 'U' ? "up" : "down";
}

/* Prints an answer that is no refusal. Of two pairs there are two letters, the second pair's above the first's.
 * Whoever has no mentor gains nothing and is not named. */
static void print_answer(struct placement_reply reply, int count, const uint8_t *old, const uint8_t *new,
                         const int8_t *gains, size_t n)
{
    if (reply.letter == 'F') {
        printf("fixed: every stable matching holds %s\n", count == 4 ? "at least one of the pairs" : "the pair");
        return;
    }
    printf("repair %s", word(reply.letter % 256));
    if (reply.letter / 256 != 0) {
        printf(" and %s", word(reply.letter / 256));
    }
    printf(" moves %zu students\n", reply.value);
    for (size_t i = 0; i < n; i++) {
        if (gains[i] != 0) {
            printf("student %zu: mentor %u to %u, %+d\n", i, old[i], new[i], gains[i]);
        }
    }
}

/* Asks and prints; gives the status to exit with. */
static int answer(const uint8_t *input, size_t length, const uint8_t *numbers, int count)
{
    uint8_t repaired[PLACEMENT_LARGEST_N];
    int8_t gains[PLACEMENT_LARGEST_N];
    size_t book = book_length(input, length);
    const uint8_t *matching = input + book;
    struct placement_reply reply =
        count == 1 ? placement_repair_mentor(input, book, matching, length - book, numbers[0], repaired,
                                             sizeof repaired, gains, sizeof gains)
                   : placement_repair(input, book, matching, length - book, numbers, (size_t)count, repaired,
                                      sizeof repaired, gains, sizeof gains);
    if (reply.number != PLACEMENT_FINE) {
        print_refusal(reply, numbers, count, matching);
        return 1;
    }
    print_answer(reply, count, matching, repaired, gains, length - book);
    return 0;
}

int main(int argc, char **argv)
{
    static uint8_t input[LARGEST_INPUT];
    uint8_t numbers[4];
    const int count = argc - 2;
    if (count != 1 && count != 2 && count != 4) {
        fprintf(stderr, "usage: repair FILE MENTOR, or repair FILE STUDENT MENTOR [STUDENT MENTOR]\n");
        return 2;
    }
    for (int k = 0; k < count; k++) {
        if (!read_number(argv[2 + k], &numbers[k])) {
            return 2;
        }
    }
    FILE *file = fopen(argv[1], "rb");
    if (file == NULL) {
        perror(argv[1]);
        return 2;
    }
    size_t length = fread(input, 1, sizeof input, file);
    fclose(file);
    return answer(input, length, numbers, count);
}
