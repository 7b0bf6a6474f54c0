/* Checks for the C tests: expected replies, inputs that end at a page nobody may touch, and result buffers between
 * guard bytes. A failed check is printed and counted; the program goes on. */
#ifndef CHECK_H
#define CHECK_H

#include "placement.h"

/* The largest input of a test, and the buffer of most calls: the list of 2,016 rotations has 10,080 bytes. */
#define LARGEST_BUFFER 12288
/* The largest buffer that a test lends: a sheet with moves has up to 58,062 bytes. */
#define LARGEST_LENT 59392
#define GUARD 64

/* How many checks were made, and how many failed. */
extern unsigned long checks, failures;

/* Expected replies; `blocked` is that of rule 10, `answer` that of a repair, whose letter may be two. */
struct placement_reply refused(size_t number, size_t place);
struct placement_reply blocked(size_t student, size_t mentor);
struct placement_reply value(size_t value);
struct placement_reply answer(size_t letter, size_t distance);

/* Compares a reply with the expected one. */
void expect_at(const char *file, int line, struct placement_reply got, struct placement_reply due);
#define EXPECT(got, due) expect_at(__FILE__, __LINE__, (got), (due))

/* Checks that something holds. */
void holds_at(const char *file, int line, int holds, const char *text);
#define HOLDS(test) holds_at(__FILE__, __LINE__, (test) ? 1 : 0, #test)

/* A copy of an input in its own memory, directly before a page that may not be read. There are FENCES of them;
 * a copy stays until the same fence is used again. Length 0 gives a null pointer. */
#define FENCES 4
const uint8_t *fenced(int fence, const uint8_t *bytes, size_t length);

/* A result buffer between guard bytes. LARGEST_BUFFER bytes, or as many as are lent if these are more, and the guard
 * bytes on both sides hold a pattern of bytes from 0x80 to 0xbf. */
struct lent {
    uint8_t bytes[GUARD + LARGEST_LENT + GUARD];
    size_t length;
};

/* Fills a buffer with the pattern and lends that many bytes of it. */
uint8_t *lend(struct lent *buffer, size_t length);

/* Checks that the buffer holds these bytes first, and that every other byte is as it was. */
void wrote_at(const char *file, int line, const struct lent *buffer, const void *due, size_t length);
#define WROTE(buffer, due, length) wrote_at(__FILE__, __LINE__, (buffer), (due), (length))
#define WROTE_NOTHING(buffer) wrote_at(__FILE__, __LINE__, (buffer), "", 0)

/* Where the call refused, checks that it wrote nothing to the buffer. Gives the reply back. */
struct placement_reply after_call(struct placement_reply reply, const struct lent *buffer);

/* The tests, one file each. */
void test_book(void);
void test_writer(void);
void test_matching(void);
void test_rotations(void);
void test_sets(void);
void test_repair(void);
void test_sheet(void);
void test_moves(void);
void test_moves_books(void);
void test_weights(void);
void test_weight_rules(void);
void test_weighted_sheet(void);
void test_mentor(void);
void test_between(void);
void test_pairs(void);
void test_pair_books(void);
void test_pair_rules(void);
void test_short_book(void);
void test_short_matching(void);
void test_short_repair(void);
void test_short_rules(void);
void test_short_sheet(void);
void test_editions(void);
void test_header(void);

#endif
