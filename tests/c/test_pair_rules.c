/* W-207: the rules of a request of four bytes, in their order: the book with 18 last, 8, 9, 19, 10, 17, 13, 11 and 12
 * on the first pair, 11 and 12 on the second, 14; and the same pair twice. */
#include "asked.h"

#include <string.h>

static struct lent out, gains;

static const repair_call calls[2] = {plain_repair, weighted_repair};
static const uint8_t ones[8] = {1, 1, 1, 1, 1, 1, 1, 1};

/* Neither buffer has been written to. */
static void wrote_neither(void)
{
    WROTE_NOTHING(&out);
    WROTE_NOTHING(&gains);
}

/* Which of the rules below are tried on the weights, the first pair, the second pair. */
enum { WEIGHTS = 5, FIRST_UNKNOWN = 7, FIRST_APART, SECOND_UNKNOWN, SECOND_APART, RULES = 12 };
static const struct placement_reply rules[RULES] = {
    {18, 0, 0, 0, 0}, {8, 0, 0, 0, 0},  {9, 5, 0, 0, 0},  {19, 0, 0, 0, 0}, {10, 2, 4, 0, 0}, {17, 0, 0, 0, 0},
    {13, 0, 0, 0, 0}, {11, 0, 0, 0, 0}, {12, 0, 0, 0, 0}, {11, 0, 0, 0, 0}, {12, 0, 0, 0, 0}, {14, 0, 0, 0, 0},
};

/* Makes the request break a rule; of 11 the student is no student's number, or the mentor no mentor's. */
static void break_request(uint8_t *request, size_t rule, size_t way)
{
    switch (rule) {
    case FIRST_UNKNOWN: request[way % 2] = way < 2 ? 6 : 255; break;
    case FIRST_APART: request[1] = (uint8_t)(1 + way); break;
    case SECOND_UNKNOWN: request[2 + way % 2] = way < 2 ? 6 : 255; break;
    case SECOND_APART: request[3] = (uint8_t)(way == 0 ? 0 : 1 + way); break;
    }
}

/* Makes what is asked with the six break a rule. Students 4 and 5 and mentors 4 and 5 are alone. */
static void break_rule(struct asked *asked, uint8_t *request, size_t rule, size_t way)
{
    static const uint8_t clash[7] = {0, 1, 2, 3, 255, 3}, unlisted[7] = {0, 1, 2, 3, 4, 255};
    static const uint8_t unstable[7] = {0, 1, 3, 2, 255, 255};
    static const size_t lengths[4] = {0, 1, 3, 5};
    switch (rules[rule].number) {
    case 18: asked->book = short_book(6, "01 10 243 32 1 - 10 014 32 23 - -"); break;
    case 8: asked->matching_length = way % 2 == 0 ? 7 : 5; break;
    case 9: asked->matching = clash; break;
    case 19: asked->matching = unlisted; break;
    case 10: asked->matching = unstable; break;
    case 17: asked->weights_length = way % 2 == 0 ? 7 : 5; break;
    case 13: asked->request_length = lengths[way]; break;
    case 14: *(way % 2 == 0 ? &asked->room : &asked->gains_room) = way < 2 ? 5 : 0; break;
    default: break_request(request, rule, way);
    }
}

/* Each rule alone and each with each that comes after it, each in four ways: the earlier one is given, and nothing is
 * written. The plain call takes no weights. */
static void order(void)
{
    static const uint8_t matching[7] = {0, 1, 2, 3, 255, 255, 255};
    for (size_t k = 0; k < 4 * RULES * RULES; k++) {
        const size_t first = k % RULES, other = k / RULES % RULES, way = k / RULES / RULES;
        uint8_t request[5] = {0, 0, 1, 1, 0};
        struct asked asked = asked_of(short_book(6, six_lists), matching, ones, request);
        asked.request_length = 4;
        if (first <= other) {
            break_rule(&asked, request, other, way);
            break_rule(&asked, request, first, way);
            EXPECT(weighted_repair(&asked, &out, &gains), rules[first]);
            wrote_neither();
            const size_t next = first == WEIGHTS ? other : first;
            EXPECT(plain_repair(&asked, &out, &gains), next == WEIGHTS ? answer(PLACEMENT_DOWN_DOWN, 2) : rules[next]);
        }
    }
}

/* The rule that a pair breaks with M5 of Table 1, or 0. */
static size_t rule_of(const uint8_t *pair)
{
    return pair[0] >= 7 || pair[1] >= 7 ? 11 : table_1_m5[pair[0]] != pair[1] ? 12 : 0;
}

/* All requests of four bytes from 0 to 7 and 255 with Table 1: 11 and then 12 on the first pair, then on the second;
 * and then 14, as the buffers hold too few entries, in turn the one and the other. */
static void every_request(void)
{
    size_t met[15] = {0};
    for (size_t k = 0; k < 9 * 9 * 9 * 9; k++) {
        uint8_t request[4] = {(uint8_t)(k % 9), (uint8_t)(k / 9 % 9), (uint8_t)(k / 81 % 9), (uint8_t)(k / 729)};
        for (size_t at = 0; at < 4; at++) {
            request[at] = request[at] == 8 ? 255 : request[at];
        }
        struct asked asked = asked_of(book_of(7, table_1_lists), table_1_m5, ones, request);
        const size_t first = rule_of(request), second = rule_of(request + 2);
        const size_t due = first != 0 ? first : second != 0 ? second : 14;
        asked.request_length = 4;
        *(k % 2 == 0 ? &asked.room : &asked.gains_room) = 6;
        EXPECT(calls[k / 2 % 2](&asked, &out, &gains), refused(due, 0));
        met[due]++;
    }
    HOLDS(met[11] == 32 * 81 + 7 * 32 && met[12] == 42 * 81 + 7 * 42 && met[14] == 49);
}

/* Requests of every length: two bytes are one pair, four are two, and all others get 13, before 11 and 14. */
static void lengths(void)
{
    uint8_t request[256], good[256];
    memset(request, 255, 256);
    for (size_t at = 0; at < 256; at++) {
        good[at] = at % 4 == 0 ? 0 : at % 4 == 1 ? 4 : at % 4 == 2 ? 5 : 2;
    }
    for (size_t length = 0; length <= 256; length++) {
        struct asked asked = asked_of(book_of(7, table_1_lists), table_1_m5, ones, good);
        asked.request_length = length;
        for (size_t k = 0; k < 2; k++) {
            const struct placement_reply due = length == 4 ? answer(PLACEMENT_UP_UP, 2) : answer('U', 2);
            EXPECT(calls[k](&asked, &out, &gains), length == 2 || length == 4 ? due : refused(13, 0));
        }
        asked.request = request;
        asked.room = 0;
        EXPECT(calls[length % 2](&asked, &out, &gains), refused(length == 2 || length == 4 ? 11 : 13, 0));
    }
}

/* Rooms of both buffers about n: 14, or n entries and no more; where both together are fixed, 14 too. Students 0 and 1
 * have the repair of the set {0}, and 4 and 5 none. */
static void rooms(void)
{
    static const uint8_t requests[2][4] = {{0, 4, 1, 5}, {4, 1, 5, 2}};
    static const int8_t gained[7] = {1, 1, 0, 0, 0, 4, 1};
    for (size_t k = 0; k < 2 * 2 * 10 * 10; k++) {
        const size_t fixed = k / 2 % 2, room = k / 4 % 10, gains_room = k / 40;
        const size_t held = room >= 7 && gains_room >= 7;
        struct asked asked = asked_of(book_of(7, table_1_lists), table_1_m5, ones, requests[fixed]);
        asked.request_length = 4;
        asked.room = room;
        asked.gains_room = gains_room;
        EXPECT(calls[k % 2](&asked, &out, &gains),
               !held ? refused(14, 0) : fixed ? answer('F', 0) : answer(PLACEMENT_UP_UP, 4));
        WROTE(&out, table_1_stable[1], held && !fixed ? 7 : 0);
        WROTE(&gains, gained, held && !fixed ? 7 : 0);
    }
}

/* Any pair of bytes twice, in buffers of one entry too few, of n and of more: the reply and every byte in the buffers
 * and around them are those of the request of two bytes, refusals too. */
static void twice(struct book book, const uint8_t *matching, const uint8_t *weights)
{
    static struct lent one_out, one_gains;
    for (size_t k = 0; k < 6 * (book.n + 1); k++) {
        const uint8_t student = (uint8_t)(k / 6), own = student < book.n ? matching[student] : 0;
        const uint8_t mentor = k / 6 % 5 == 4 ? (uint8_t)(own + 1) : own;
        const uint8_t request[4] = {student, mentor, student, mentor};
        struct asked asked = asked_of(book, matching, weights, request);
        asked.room = book.n + k / 2 % 3 - 1;
        asked.gains_room = book.n + k % 3;
        const struct placement_reply one = calls[k % 2](&asked, &one_out, &one_gains);
        asked.request_length = 4;
        EXPECT(calls[k % 2](&asked, &out, &gains), one);
        HOLDS(memcmp(out.bytes, one_out.bytes, sizeof out.bytes) == 0);
        HOLDS(memcmp(gains.bytes, one_gains.bytes, sizeof gains.bytes) == 0);
    }
}

static void same_pair(void)
{
    static const uint8_t weights[8] = {1, 1, 9, 1, 1, 3, 1, 255};
    uint8_t same[64], crossed[64], half[64], many[64];
    for (size_t i = 0; i < 64; i++) {
        same[i] = (uint8_t)i;
        crossed[i] = (uint8_t)(i ^ 1);
        half[i] = (uint8_t)(i % 2 == 0 ? i : 255);
        many[i] = (uint8_t)(255 - 37 * i);
    }
    for (size_t k = 0; k < TABLE_1_STABLE; k++) {
        twice(book_of(7, table_1_lists), table_1_stable[k], weights);
        twice(short_book(8, short_table_1_lists), table_1_stable[k], weights);
    }
    twice(short_book(6, six_lists), six_best, weights);
    twice(short_book(6, six_lists), six_worst, weights);
    twice(book_of(3, one_fixed_lists), same, weights);
    twice(book_of(1, "00"), same, weights);
    twice(cyclic_64(), same, many);
    twice(xor_64(), crossed, many);
    twice(half_64(), half, many);
}

/* Null pointers go with length 0. With nobody every pair gets 11; one pair alone is fixed. */
static void null_pointers(void)
{
    static const uint8_t none[2] = {1, 0}, zeros[4] = {0, 0, 0, 0}, pairs[4] = {0, 4, 1, 5};
    const struct book table_1 = book_of(7, table_1_lists), one = book_of(1, "00");
    uint8_t byte = 7;
    int8_t gain = 7;
    EXPECT(placement_repair(table_1.bytes, 156, table_1_m5, 7, pairs, 4, NULL, 0, NULL, 0), refused(14, 0));
    EXPECT(placement_weighted_repair(table_1.bytes, 156, table_1_m5, 7, NULL, 0, pairs, 4, NULL, 0, NULL, 0),
           refused(17, 0));
    EXPECT(placement_repair(none, 2, NULL, 0, zeros, 4, NULL, 0, NULL, 0), refused(11, 0));
    EXPECT(placement_weighted_repair(none, 2, NULL, 0, NULL, 0, zeros, 4, NULL, 0, NULL, 0), refused(11, 0));
    EXPECT(placement_weighted_repair(none, 2, NULL, 0, zeros, 1, zeros, 4, NULL, 0, NULL, 0), refused(17, 0));
    EXPECT(placement_repair(NULL, 0, NULL, 0, zeros, 4, NULL, 0, NULL, 0), refused(1, 0));
    EXPECT(placement_repair(one.bytes, one.length, zeros, 1, zeros, 4, &byte, 1, &gain, 1), answer('F', 0));
    HOLDS(byte == 7 && gain == 7);
}

void test_pair_rules(void)
{
    order();
    every_request();
    lengths();
    rooms();
    same_pair();
    null_pointers();
}
