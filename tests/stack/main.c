/* Measures the stack that each call of include/placement.h needs. A call is made on a stack of its own, which is
 * filled with a pattern before, and the deepest byte that has changed is looked for afterwards. What is printed for
 * each n is the most of all inputs of that n, each as it is and with a book that is refused at its last byte; a book of
 * edition 1 is measured as one of edition 2 too, which has the same bytes but the first. A repair is asked for every
 * pair, by its request and by its mentor, and for it and the next student's at one go. Exits with 1 if a call needs more
 * than the header says.
 *
 *     stack FILE...       files with a book and a stable matching after it; weights are added here */
#define _XOPEN_SOURCE 700 /* makecontext */
#include <placement.h>

#include <stdio.h>
#include <stdlib.h>
#include <string.h>
#include <ucontext.h>

#define STACK 262144
#define PATTERN 0xa5

/* What a call is asked with: a book with a matching and weights after it, the matching's set and a student. */
static uint8_t input[PLACEMENT_LARGEST_BOOK + 2 * PLACEMENT_LARGEST_N], set[PLACEMENT_LARGEST_ROTATION_COUNT];
static uint8_t *matching, *weights;
static size_t book_len, matching_len, set_len, student;

/* Results. */
static uint8_t out[PLACEMENT_LARGEST_MOVES];
static int8_t gains[PLACEMENT_LARGEST_N];
static struct placement_reply reply;

static void nothing(void)
{
}

/* A function that makes the call of that name. */
#define CALL(name, ...)                                                                                                \
    static void name(void)                                                                                             \
    {                                                                                                                  \
        reply = placement_##name(__VA_ARGS__);                                                                         \
    }

/* What several calls take: the book with the matching, the request of two bytes, and both result buffers. */
#define PLACED input, book_len, matching, matching_len
#define REQUEST (const uint8_t[2]){(uint8_t)student, matching[student]}, 2
#define RESULTS out, sizeof out, gains, sizeof gains

/* The next student, and the request of four bytes for both. */
#define NEXT (matching_len == 0 ? 0 : (student + 1) % matching_len)
#define TWO_PAIRS (const uint8_t[4]){(uint8_t)student, matching[student], (uint8_t)NEXT, matching[NEXT]}, 4

CALL(check_book, input, book_len)
CALL(book_size, matching_len)
CALL(write_book, matching_len, input + 2 + 8 * matching_len, book_len - 2 - 8 * matching_len, out, sizeof out)
CALL(student_list, input, book_len, student)
CALL(mentor_list, input, book_len, student)
CALL(check_matching, PLACED)
CALL(student_best, input, book_len, out, sizeof out)
CALL(mentor_best, input, book_len, out, sizeof out)
CALL(repair, PLACED, REQUEST, RESULTS)
CALL(repair_mentor, PLACED, matching[student], RESULTS)
CALL(grade, PLACED)
CALL(rotation_count, input, book_len)
CALL(rotations, input, book_len, out, sizeof out)
CALL(precedes, input, book_len, 0, set_len == 0 ? 0 : set_len - 1)
CALL(set_to_matching, input, book_len, set, set_len, out, sizeof out)
CALL(matching_to_set, PLACED, out, sizeof out)
CALL(sheet, input, book_len + matching_len, out, sizeof out)
CALL(moves, input, book_len + matching_len, out, sizeof out)
CALL(weighted_repair, PLACED, weights, matching_len, REQUEST, RESULTS)
CALL(weighted_repair_mentor, PLACED, weights, matching_len, matching[student], RESULTS)
CALL(weighted_grade, PLACED, weights, matching_len)
CALL(weighted_sheet, input, book_len + 2 * matching_len, out, sizeof out)

static void repair_two(void)
{
    reply = placement_repair(PLACED, TWO_PAIRS, RESULTS);
}

static void weighted_repair_two(void)
{
    reply = placement_weighted_repair(PLACED, weights, matching_len, TWO_PAIRS, RESULTS);
}

/* The calls, what the header says that each needs, and the most that was measured for each n. */
static struct {
    const char *name;
    void (*make)(void);
    size_t said;
    size_t most[PLACEMENT_LARGEST_N + 1];
} calls[] = {
    {"check_book", check_book, PLACEMENT_STACK_BOOKS, {0}},
    {"book_size", book_size, PLACEMENT_STACK_BOOKS, {0}},
    {"write_book", write_book, PLACEMENT_STACK_BOOKS, {0}},
    {"student_list", student_list, PLACEMENT_STACK_BOOKS, {0}},
    {"mentor_list", mentor_list, PLACEMENT_STACK_BOOKS, {0}},
    {"check_matching", check_matching, PLACEMENT_STACK_MATCHINGS, {0}},
    {"student_best", student_best, PLACEMENT_STACK_MATCHINGS, {0}},
    {"mentor_best", mentor_best, PLACEMENT_STACK_MATCHINGS, {0}},
    {"repair", repair, PLACEMENT_STACK_MATCHINGS, {0}},
    {"repair, two pairs", repair_two, PLACEMENT_STACK_MATCHINGS, {0}},
    {"repair_mentor", repair_mentor, PLACEMENT_STACK_MATCHINGS, {0}},
    {"grade", grade, PLACEMENT_STACK_MATCHINGS, {0}},
    {"rotation_count", rotation_count, PLACEMENT_STACK_MATCHINGS, {0}},
    {"rotations", rotations, PLACEMENT_STACK_ROTATIONS, {0}},
    {"precedes", precedes, PLACEMENT_STACK_ROTATIONS, {0}},
    {"set_to_matching", set_to_matching, PLACEMENT_STACK_ROTATIONS, {0}},
    {"matching_to_set", matching_to_set, PLACEMENT_STACK_ROTATIONS, {0}},
    {"sheet", sheet, PLACEMENT_STACK_MATCHINGS, {0}},
    {"moves", moves, PLACEMENT_STACK_MOVES, {0}},
    {"weighted_repair", weighted_repair, PLACEMENT_STACK_MATCHINGS, {0}},
    {"weighted, two pairs", weighted_repair_two, PLACEMENT_STACK_MATCHINGS, {0}},
    {"weighted_repair_mentor", weighted_repair_mentor, PLACEMENT_STACK_MATCHINGS, {0}},
    {"weighted_grade", weighted_grade, PLACEMENT_STACK_MATCHINGS, {0}},
    {"weighted_sheet", weighted_sheet, PLACEMENT_STACK_MATCHINGS, {0}},
};
#define CALLS (sizeof calls / sizeof calls[0])

/* How many bytes of a stack have changed after a call on it, from the deepest of them up. */
static size_t used(void (*make)(void))
{
    static uint8_t stack[STACK];
    static ucontext_t here, there;
    memset(stack, PATTERN, sizeof stack);
    getcontext(&there);
    there.uc_stack.ss_sp = stack;
    there.uc_stack.ss_size = sizeof stack;
    there.uc_link = &here;
    makecontext(&there, make, 0);
    swapcontext(&here, &there);
    size_t untouched = 0;
    while (untouched < STACK && stack[untouched] == PATTERN) {
        untouched++;
    }
    return STACK - untouched;
}

/* Measures all calls on what is asked with. */
static void measure(void)
{
    size_t less = used(nothing);
    for (size_t k = 0; k < CALLS; k++) {
        size_t needed = used(calls[k].make) - less;
        if (calls[k].most[matching_len] < needed) {
            calls[k].most[matching_len] = needed;
        }
    }
}

/* Measures all calls on the input for each student, and where the last byte of the book is refused. */
static void measure_input(void)
{
    const uint8_t last = input[book_len - 1];
    for (student = 0; student < matching_len; student++) {
        measure();
    }
    student = 0;
    input[book_len - 1] = (uint8_t)matching_len;
    measure();
    input[book_len - 1] = last;
}

/* How many bytes the book has: in edition 2 it ends with the last list, of which the last directory pair says where. */
static size_t book_end(void)
{
    const uint8_t *end = input + 2 + 8 * (size_t)input[1];
    if (input[0] == 1 || input[1] == 0) {
        return placement_book_size(input[1]).value;
    }
    return end[-4] + end[-2] + 256 * (size_t)(end[-3] + end[-1]);
}

/* Measures all calls on the input of a file. */
static void measure_file(const char *name)
{
    FILE *file = fopen(name, "rb");
    if (file == NULL) {
        perror(name);
        exit(2);
    }
    size_t length = fread(input, 1, PLACEMENT_LARGEST_BOOK + PLACEMENT_LARGEST_N, file);
    fclose(file);
    book_len = book_end();
    matching = input + book_len;
    matching_len = length - book_len;
    weights = matching + matching_len;
    reply = placement_matching_to_set(input, book_len, matching, matching_len, set, sizeof set);
    if (reply.number != PLACEMENT_FINE) {
        fprintf(stderr, "%s: no book with a stable matching\n", name);
        exit(2);
    }
    set_len = reply.value;
    for (student = 0; student < matching_len; student++) {
        weights[student] = (uint8_t)(255 - 37 * student);
    }
    measure_input();
    if (input[0] == 1) {
        input[0] = 2;
        measure_input();
    }
}

int main(int argc, char **argv)
{
    int failed = 0;
    for (int k = 1; k < argc; k++) {
        measure_file(argv[k]);
    }
    printf("%-22s %8s %8s\n", "bytes of stack", "n = 8", "n = 64");
    for (size_t k = 0; k < CALLS; k++) {
        printf("%-22s %8zu %8zu\n", calls[k].name, calls[k].most[8], calls[k].most[64]);
        for (size_t n = 0; n <= PLACEMENT_LARGEST_N; n++) {
            if (calls[k].said < calls[k].most[n]) {
                printf("%s: %zu bytes for n = %zu, and the header says %zu\n", calls[k].name, calls[k].most[n], n, calls[k].said);
                failed = 1;
            }
        }
    }
    return failed;
}
