/* Edition 2 (W-203): the order of the rules of every call that takes a matching: the book with 18 last, 8, 9, 19,
 * 10, 17, 13, 11, 12, 14. Of these the calls by mentor (W-205) lack 13, and plain calls 17. */
#include "asked.h"

static struct lent out, gains;

/* The rules in that order, with their places. Of the six, mentor 4 has a list of nobody in the book that breaks 18. */
static const struct placement_reply rules[10] = {{18, 0, 0, 0, 0}, {8, 0, 0, 0, 0},  {9, 5, 0, 0, 0},  {19, 0, 0, 0, 0},
                                                 {10, 2, 4, 0, 0}, {17, 0, 0, 0, 0}, {13, 0, 0, 0, 0}, {11, 0, 0, 0, 0},
                                                 {12, 0, 0, 0, 0}, {14, 0, 0, 0, 0}};

/* Makes what is asked with the six break a rule. A matching that breaks 9 breaks 19 and 10 too where `more` says
 * so, one that breaks 19 breaks 10. Mentors 4 and 5 are alone. */
static void break_rule(struct asked *asked, size_t rule, int more)
{
    static const uint8_t clash[2][7] = {{0, 1, 2, 3, 255, 3}, {5, 1, 3, 2, 255, 6}};
    static const uint8_t unlisted[2][7] = {{0, 1, 2, 3, 4, 255}, {0, 1, 3, 2, 255, 5}};
    static const uint8_t unstable[7] = {0, 1, 3, 2, 255, 255}, nobody[3] = {4, 255}, unplaced[3] = {4, 1};
    switch (rule) {
    case 18: asked->book = short_book(6, "01 10 243 32 1 - 10 014 32 23 - -"); break;
    case 8: asked->matching_length = more ? 7 : 5; break;
    case 9: asked->matching = clash[more]; break;
    case 19: asked->matching = unlisted[more]; break;
    case 10: asked->matching = unstable; break;
    case 17: asked->weights_length = more ? 7 : 5; break;
    case 13: asked->request_length = more ? 3 : 1; break;
    case 11: asked->request = nobody; asked->mentor = more ? 255 : 6; break;
    case 12: asked->request = unplaced; asked->mentor = more ? 5 : 4; break;
    case 14: *(more ? &asked->room : &asked->gains_room) = 5; break;
    }
}

static struct placement_reply check(const struct asked *a)
{
    return placement_check_matching(a->book.bytes, a->book.length, a->matching, a->matching_length);
}

static struct placement_reply grade(const struct asked *a)
{
    return placement_grade(a->book.bytes, a->book.length, a->matching, a->matching_length);
}

static struct placement_reply set(const struct asked *a)
{
    return after_call(placement_matching_to_set(a->book.bytes, a->book.length, a->matching, a->matching_length,
                                                lend(&out, 1), 1), &out);
}

/* What a repair gives where two rules are broken: the earlier of those that the call has, which lacks one or two. */
static struct placement_reply due(size_t first, size_t other, size_t lacks, size_t lacks_too)
{
    const size_t tried[2] = {first, other};
    for (size_t k = 0; k < 2; k++) {
        size_t number = rules[tried[k]].number;
        if (number != lacks && number != lacks_too) {
            return rules[tried[k]];
        }
    }
    return answer('D', 2);
}

/* Each rule alone and each with each that comes after it: the earlier one is given, and nothing is written. The check,
 * the grade and the set go as far as 10, the weighted grade as far as 17. */
static void each_pair(size_t first, size_t other, int more)
{
    static const uint8_t matching[7] = {0, 1, 2, 3, 255, 255, 255}, weights[7] = {1, 1, 1, 1, 1, 1, 1};
    static const uint8_t request[3] = {0, 0, 0};
    struct asked asked = asked_of(short_book(6, six_lists), matching, weights, request);
    break_rule(&asked, rules[other].number, more);
    break_rule(&asked, rules[first].number, more);
    EXPECT(weighted_repair(&asked, &out, &gains), rules[first]);
    EXPECT(plain_repair(&asked, &out, &gains), due(first, other, 17, 17));
    EXPECT(weighted_by_mentor(&asked, &out, &gains), due(first, other, 13, 13));
    EXPECT(plain_by_mentor(&asked, &out, &gains), due(first, other, 13, 17));
    EXPECT(weighted_grade(&asked), first < 6 ? rules[first] : value(1));
    if (first < 5) {
        EXPECT(check(&asked), rules[first]);
        EXPECT(grade(&asked), rules[first]);
        EXPECT(set(&asked), rules[first]);
    }
}

void test_short_rules(void)
{
    for (size_t first = 0; first < 10; first++) {
        for (size_t other = first; other < 10; other++) {
            each_pair(first, other, 0);
            each_pair(first, other, 1);
        }
    }
}
