/* W-206, nobody is moved in vain: what a repair writes, beside stable matchings in which the asking student is better
 * off, where it is up, or worse off, where it is down. Each student's mentor stands on his list between the given one
 * and the one in that matching, ends counted. The stable matchings are those of books.h, or follow from its lists. */
#include "asked.h"

#include <string.h>

static struct lent out, gains;

/* Stable matchings beside repairs: how many, and how many students they moved whom the repair left. */
static struct {
    size_t matchings, left;
} met;

/* Compares what was written with one other stable matching: for each student. Who is alone stays so. */
static void compare(const struct asked *asked, const uint8_t *other)
{
    const uint8_t *given = asked->matching, *written = out.bytes + GUARD;
    int all_between = 1, all_moved_too = 1, alone_stay = 1;
    for (size_t i = 0; i < asked->book.n; i++) {
        const struct book *book = &asked->book;
        const size_t old = place_of(book, i, given[i]), new = place_of(book, i, written[i]);
        all_between &= in_order(old, new, place_of(book, i, other[i]));
        all_moved_too &= written[i] == given[i] || other[i] != given[i];
        alone_stay &= (written[i] == 255) == (given[i] == 255);
        met.left += written[i] == given[i] && other[i] != given[i];
    }
    HOLDS(all_between);
    HOLDS(all_moved_too);
    HOLDS(alone_stay);
    met.matchings++;
}

/* The repair of a student's pair by each of the four calls, beside those of `count` stable matchings in which he is on
 * the side of its letter. A fixed pair is parted by none. */
static void compare_pair(struct asked asked, size_t student, const uint8_t *others, size_t stride, size_t count)
{
    static const repair_call calls[4] = {plain_repair, plain_by_mentor, weighted_repair, weighted_by_mentor};
    const uint8_t request[2] = {(uint8_t)student, asked.matching[student]};
    const size_t given = place_of(&asked.book, student, request[1]);
    asked.request = request;
    asked.mentor = request[1];
    for (size_t k = 0; k < 4; k++) {
        const size_t letter = calls[k](&asked, &out, &gains).letter;
        int parted = 0;
        for (size_t j = 0; j < count; j++) {
            const uint8_t *other = others + stride * j;
            const size_t there = place_of(&asked.book, student, other[student]);
            parted |= there != given;
            if ((letter == 'U' && there < given) || (letter == 'D' && there > given)) {
                compare(&asked, other);
            }
        }
        HOLDS(letter == 'U' || letter == 'D' || (letter == 'F' && !parted));
    }
}

/* All pairs of a matching. */
static void compare_all(struct asked asked, const uint8_t *others, size_t stride, size_t count)
{
    for (size_t student = 0; student < asked.book.n; student++) {
        if (asked.matching[student] != 255) {
            compare_pair(asked, student, others, stride, count);
        }
    }
}

/* Checks how many stable matchings stood beside repairs, and whom these left; counts anew. */
static void expect_met(size_t matchings, size_t left)
{
    HOLDS(met.matchings == matchings);
    HOLDS(met.left == left);
    memset(&met, 0, sizeof met);
}

/* Table 1 or the shortened one, each stable matching in turn. By the definitions, over all matchings, 407 stand beside
 * the repairs of all pairs and move 892 students whom these leave, and 388 and 824 where the weights are others. */
static void table_1(struct book book)
{
    static const uint8_t ones[8] = {1, 1, 1, 1, 1, 1, 1, 1}, others[8] = {1, 1, 9, 1, 1, 3, 1, 255};
    for (size_t k = 0; k < TABLE_1_STABLE; k++) {
        compare_all(asked_of(book, table_1_stable[k], ones, NULL), table_1_stable[0], 8, TABLE_1_STABLE);
    }
    expect_met(4 * 407, 4 * 892);
    for (size_t k = 0; k < TABLE_1_STABLE; k++) {
        compare_all(asked_of(book, table_1_stable[k], others, NULL), table_1_stable[0], 8, TABLE_1_STABLE);
    }
    expect_met(2 * 407 + 2 * 388, 2 * 892 + 2 * 824);
}

/* The repair up of student 0's pair of M5 moves students 0 and 5 (Table 3). He is better off in four more stable
 * matchings; three move two students more, and one four more. */
static void student_0(void)
{
    static const uint8_t pair[2] = {0, 4};
    static const size_t beside[5] = {2, 0, 1, 5, 8}, more[5] = {0, 2, 2, 2, 4};
    struct asked asked = asked_of(book_of(7, table_1_lists), table_1_m5, NULL, pair);
    EXPECT(plain_repair(&asked, &out, &gains), answer('U', 2));
    WROTE(&out, table_1_stable[2], 7);
    for (size_t k = 0; k < 5; k++) {
        compare(&asked, table_1_stable[beside[k]]);
        expect_met(1, more[k]);
    }
}

/* n = 64. In matching t each student has the mentor of level t on his list; all of these are stable. Beside the repair
 * of each pair of matching `given` there are `beside` of them; each moves `left` students whom the repair leaves. */
static void sixty_four(struct book book, int is_xor, size_t levels, size_t given, size_t beside, size_t left)
{
    static uint8_t matchings[64][64], weights[64];
    for (size_t t = 0; t < levels; t++) {
        for (size_t i = 0; i < 64; i++) {
            matchings[t][i] = (uint8_t)(is_xor ? i ^ t : (i + t) % 64);
        }
    }
    memset(weights, 1, 64);
    compare_all(asked_of(book, matchings[given], weights, NULL), matchings[0], 64, levels);
    expect_met(4 * 64 * beside, 4 * 64 * beside * left);
}

/* In the cyclic book a repair moves everybody to the next level, and up is taken. In the xor book it is an exchange of
 * two, up from matching 1 and down from matching 0; each of the others moves 62 more. */
static void levels(void)
{
    sixty_four(cyclic_64(), 0, 64, 20, 20, 0);
    sixty_four(cyclic_64(), 0, 64, 0, 63, 0);
    sixty_four(xor_64(), 1, 64, 1, 1, 62);
    sixty_four(xor_64(), 1, 64, 0, 63, 62);
    sixty_four(short_cyclic_64(8), 0, 8, 3, 3, 0);
    sixty_four(short_xor_64(8), 1, 8, 0, 7, 62);
}

/* The six of books.h: the two who can exchange their mentors do, and nobody else moves. Fixed pairs have nothing beside
 * them. */
static void six(void)
{
    static const uint8_t weights[6] = {7, 30, 1, 1, 255, 255};
    uint8_t both[2][6];
    memcpy(both[0], six_best, 6);
    memcpy(both[1], six_worst, 6);
    compare_all(asked_of(short_book(6, six_lists), six_best, weights, NULL), both[0], 6, 2);
    compare_all(asked_of(short_book(6, six_lists), six_worst, weights, NULL), both[0], 6, 2);
    expect_met(4 * 4, 0);
}

void test_between(void)
{
    table_1(book_of(7, table_1_lists));
    table_1(with(book_of(7, table_1_lists), 0, 2));
    table_1(short_book(8, short_table_1_lists));
    student_0();
    levels();
    six();
}
