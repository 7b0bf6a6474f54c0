/* Checks for the C tests: see check.h. */
#define _DEFAULT_SOURCE /* mmap and MAP_ANONYMOUS */
#include "check.h"

#include <stdio.h>
#include <stdlib.h>
#include <string.h>
#include <sys/mman.h>
#include <unistd.h>

unsigned long checks, failures;

struct placement_reply refused(size_t number, size_t place)
{
    struct placement_reply r = {number, place, 0, 0, 0};
    return r;
}

struct placement_reply blocked(size_t student, size_t mentor)
{
    struct placement_reply r = {10, student, mentor, 0, 0};
    return r;
}

struct placement_reply value(size_t value)
{
    struct placement_reply r = {0, 0, 0, 0, value};
    return r;
}

struct placement_reply answer(size_t letter, size_t distance)
{
    struct placement_reply r = {0, 0, 0, letter, distance};
    return r;
}

void holds_at(const char *file, int line, int holds, const char *text)
{
    checks++;
    if (!holds) {
        failures++;
        printf("%s:%d: failed: %s\n", file, line, text);
    }
}

void expect_at(const char *file, int line, struct placement_reply got, struct placement_reply due)
{
    checks++;
    if (got.number != due.number || got.place != due.place || got.second != due.second || got.letter != due.letter ||
        got.value != due.value) {
        failures++;
        printf("%s:%d: got number %zu, place %zu, second %zu, letter %zu, value %zu; due %zu, %zu, %zu, %zu, %zu\n", file, line,
               got.number, got.place, got.second, got.letter, got.value, due.number, due.place, due.second, due.letter,
               due.value);
    }
}

/* The end of the memory of a fence: a page follows that may not be read. */
static uint8_t *fence_end(int fence)
{
    static uint8_t *ends[FENCES];
    if (ends[fence] == NULL) {
        size_t page = (size_t)sysconf(_SC_PAGESIZE);
        size_t room = (LARGEST_BUFFER + page - 1) / page * page;
        uint8_t *start = mmap(NULL, room + page, PROT_READ | PROT_WRITE, MAP_PRIVATE | MAP_ANONYMOUS, -1, 0);
        if (start == MAP_FAILED || mprotect(start + room, page, PROT_NONE) != 0) {
            perror("fence");
            exit(2);
        }
        ends[fence] = start + room;
    }
    return ends[fence];
}

const uint8_t *fenced(int fence, const uint8_t *bytes, size_t length)
{
    if (length == 0) {
        return NULL;
    }
    if (length > LARGEST_BUFFER) {
        fprintf(stderr, "an input of %zu bytes has no room\n", length);
        exit(2);
    }
    return memcpy(fence_end(fence) - length, bytes, length);
}

static uint8_t pattern(size_t at)
{
    return (uint8_t)(0x80 | (at * 5 + 3) % 0x40);
}

/* How many bytes hold the pattern where so many are lent. */
static size_t filled(size_t length)
{
    return GUARD + (length < LARGEST_BUFFER ? LARGEST_BUFFER : length) + GUARD;
}

uint8_t *lend(struct lent *buffer, size_t length)
{
    if (length > LARGEST_LENT) {
        fprintf(stderr, "a buffer of %zu bytes has no room\n", length);
        exit(2);
    }
    for (size_t at = 0; at < filled(length); at++) {
        buffer->bytes[at] = pattern(at);
    }
    buffer->length = length;
    return buffer->bytes + GUARD;
}

void wrote_at(const char *file, int line, const struct lent *buffer, const void *due, size_t length)
{
    const uint8_t *result = due;
    checks++;
    for (size_t at = 0; at < filled(buffer->length); at++) {
        int written = GUARD <= at && at < GUARD + length;
        uint8_t byte = written ? result[at - GUARD] : pattern(at);
        if (buffer->bytes[at] != byte) {
            failures++;
            printf("%s:%d: byte %ld of a buffer of %zu is %u, due %u%s\n", file, line, (long)at - GUARD, buffer->length,
                   buffer->bytes[at], byte, written ? "" : " (not to be written)");
            return;
        }
    }
}

struct placement_reply after_call(struct placement_reply reply, const struct lent *buffer)
{
    if (reply.number != PLACEMENT_FINE) {
        WROTE_NOTHING(buffer);
    }
    return reply;
}
