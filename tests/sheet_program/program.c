/* Runs a program on an input: see program.h. */
#define _DEFAULT_SOURCE /* fork, pipe, fileno, usleep */
#include "program.h"

#include "../c/check.h"

#include <stdio.h>
#include <sys/ioctl.h>
#include <sys/wait.h>
#include <unistd.h>

/* Ends this process, which may be a child of the test. */
static void stop(const char *what)
{
    perror(what);
    _exit(2);
}

/* Runs the program with its standard input from `from`. What it writes goes to `printed`, of PRINTED bytes. */
static void run(const char *program, int from, char *printed)
{
    int ends[2], status;
    size_t length = 0;
    ssize_t more;
    if (pipe(ends) != 0) {
        stop("pipe");
    }
    pid_t child = fork();
    if (child == 0) {
        dup2(from, 0);
        dup2(ends[1], 1);
        close(ends[0]);
        execl(program, program, (char *)NULL);
        stop(program);
    }
    close(ends[1]);
    while (length < PRINTED - 1 && (more = read(ends[0], printed + length, PRINTED - 1 - length)) > 0) {
        length += (size_t)more;
    }
    printed[length] = 0;
    close(ends[0]);
    HOLDS(child > 0 && waitpid(child, &status, 0) == child && WIFEXITED(status) && WEXITSTATUS(status) == 0);
}

/* Where the file stands afterwards is how many bytes were read. */
size_t read_from_file(const char *program, const struct input *input, char *printed)
{
    FILE *file = tmpfile();
    if (file == NULL || fwrite(input->bytes, 1, input->length, file) != input->length || fflush(file) != 0 ||
        lseek(fileno(file), 0, SEEK_SET) != 0) {
        stop("tmpfile");
    }
    run(program, fileno(file), printed);
    off_t at = lseek(fileno(file), 0, SEEK_CUR);
    fclose(file);
    return (size_t)at;
}

/* Writes the input to a pipe, 1,000 bytes at a time. As long as the program reads on, each piece is read before the
 * next one is written. */
static void write_pieces(const struct input *input, size_t most, int to)
{
    for (size_t at = 0; at < input->length; at += 1000) {
        size_t piece = input->length - at < 1000 ? input->length - at : 1000;
        int waiting = 0;
        while (at < most && ioctl(to, FIONREAD, &waiting) == 0 && waiting > 0) {
            usleep(20);
        }
        if (write(to, input->bytes + at, piece) != (ssize_t)piece) {
            stop("write");
        }
    }
}

/* What is still in the pipe afterwards was not read. */
size_t read_from_pipe(const char *program, const struct input *input, size_t most, char *printed)
{
    static uint8_t rest[LONGEST_INPUT];
    int ends[2];
    size_t left = 0;
    ssize_t more;
    if (pipe(ends) != 0) {
        stop("pipe");
    }
    pid_t writer = fork();
    if (writer == 0) {
        write_pieces(input, most, ends[1]);
        _exit(0);
    }
    close(ends[1]);
    run(program, ends[0], printed);
    while ((more = read(ends[0], rest, sizeof rest)) > 0) {
        left += (size_t)more;
    }
    close(ends[0]);
    HOLDS(writer > 0 && waitpid(writer, NULL, 0) == writer);
    return input->length - left;
}
