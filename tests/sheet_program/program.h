/* A program that is run on an input, from a file or from a pipe. */
#ifndef PROGRAM_H
#define PROGRAM_H

#include <stddef.h>
#include <stdint.h>

#define LONGEST_INPUT 30000

/* What is printed has fewer bytes: a sheet with moves up to 58,062. */
#define PRINTED 59392

/* An input: a book, then the matching, for the weighted program the weights, then bytes of 0. */
struct input {
    size_t length;
    uint8_t bytes[LONGEST_INPUT];
};

/* Runs the program on the input, from a file or from a pipe. What it prints goes to `printed`, of PRINTED bytes, with a
 * 0 after it. The result is how many bytes it has read; it reads `most` at most. */
size_t read_from_file(const char *program, const struct input *input, char *printed);
size_t read_from_pipe(const char *program, const struct input *input, size_t most, char *printed);

#endif
