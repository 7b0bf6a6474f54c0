/* The rules of the weighted repair and grade, in their order: the book, 8, 9, 10, 17, 13, 11, 12, 14. */
#include "asked.h"

static struct lent out, gains;

/* Makes what is asked with Table 1 break a rule. The weights are one byte too short or too long. */
static void break_rule(struct asked *asked, int rule, int longer)
{
    static const uint8_t clash[8] = {4, 5, 6, 3, 1, 2, 4}, exchanged[8] = {5, 4, 6, 1, 3, 0, 2};
    static const uint8_t no_student[3] = {7, 4}, apart[3] = {0, 5};
    switch (rule) {
    case PLACEMENT_STRANGER: asked->book.bytes[58] = 7; break;
    case PLACEMENT_LENGTH: asked->matching_length = 8; break;
    case PLACEMENT_CLASH: asked->matching = clash; break;
    case PLACEMENT_UNSTABLE: asked->matching = exchanged; break;
    case PLACEMENT_WEIGHTS: asked->weights_length = longer ? 8 : 6; break;
    case PLACEMENT_ONE_PAIR: asked->request_length = 3; break;
    case PLACEMENT_UNKNOWN: asked->request = no_student; break;
    case PLACEMENT_APART: asked->request = apart; break;
    case PLACEMENT_SHEET: *(longer ? &asked->room : &asked->gains_room) = 6; break;
    }
}

/* The rules in the order in which they are tried. Each alone, and each with each that comes after it: the earlier one
 * is given, with its place, and nothing is written. The grade takes the first five. */
static void order(void)
{
    static const struct placement_reply due[9] = {{6, 58, 0, 0, 0}, {8, 0, 0, 0, 0},  {9, 6, 0, 0, 0},
                                                  {10, 3, 3, 0, 0}, {17, 0, 0, 0, 0}, {13, 0, 0, 0, 0},
                                                  {11, 0, 0, 0, 0}, {12, 0, 0, 0, 0}, {14, 0, 0, 0, 0}};
    static const uint8_t m5[8] = {4, 5, 6, 3, 1, 2, 0}, ones[8] = {1, 1, 1, 1, 1, 1, 1, 1}, request[3] = {0, 4};
    for (size_t first = 0; first < 9; first++) {
        for (size_t other = first; other < 9; other++) {
            for (int longer = 0; longer < 2; longer++) {
                struct asked asked = asked_of(book_of(7, table_1_lists), m5, ones, request);
                break_rule(&asked, (int)due[other].number, longer);
                break_rule(&asked, (int)due[first].number, longer);
                EXPECT(weighted_repair(&asked, &out, &gains), due[first]);
                WROTE_NOTHING(&out);
                WROTE_NOTHING(&gains);
                EXPECT(weighted_grade(&asked), first < 5 ? due[first] : value(3));
            }
        }
    }
}

/* A fixed pair writes nothing, and yet both buffers must hold n entries. */
static void fixed(void)
{
    static const uint8_t straight[2] = {0, 1}, weights[2] = {7, 30};
    for (size_t room = 0; room <= 4; room++) {
        for (size_t gains_room = 0; gains_room <= 4; gains_room++) {
            struct asked asked = asked_of(book_of(2, "01010101"), straight, weights, (const uint8_t[2]){1, 1});
            asked.room = room;
            asked.gains_room = gains_room;
            EXPECT(weighted_repair(&asked, &out, &gains), room < 2 || gains_room < 2 ? refused(14, 0) : answer('F', 0));
            WROTE_NOTHING(&out);
            WROTE_NOTHING(&gains);
        }
    }
}

/* Null pointers go with length 0, and with nobody all may be null. */
static void null_pointers(void)
{
    static const uint8_t none[2] = {1, 0}, pair[2] = {0, 4};
    struct book table_1 = book_of(7, table_1_lists);
    EXPECT(placement_weighted_grade(table_1.bytes, 156, table_1_m5, 7, NULL, 0), refused(17, 0));
    EXPECT(placement_weighted_repair(table_1.bytes, 156, table_1_m5, 7, NULL, 0, pair, 2, NULL, 0, NULL, 0), refused(17, 0));
    EXPECT(placement_weighted_grade(none, 2, NULL, 0, NULL, 0), value(PLACEMENT_NO_GRADE));
    EXPECT(placement_weighted_grade(none, 2, NULL, 0, none, 1), refused(17, 0));
    EXPECT(placement_weighted_grade(none, 2, none, 1, none, 1), refused(8, 0));
    EXPECT(placement_weighted_grade(NULL, 0, NULL, 0, NULL, 0), refused(1, 0));
    EXPECT(placement_weighted_repair(none, 2, NULL, 0, NULL, 0, NULL, 0, NULL, 0, NULL, 0), refused(13, 0));
    EXPECT(placement_weighted_repair(none, 2, NULL, 0, NULL, 0, none, 2, NULL, 0, NULL, 0), refused(11, 0));
    EXPECT(placement_weighted_repair(none, 2, NULL, 0, none, 1, NULL, 0, NULL, 0, NULL, 0), refused(17, 0));
    EXPECT(placement_weighted_repair(NULL, 0, NULL, 0, NULL, 0, NULL, 0, NULL, 0, NULL, 0), refused(1, 0));
}

void test_weight_rules(void)
{
    order();
    fixed();
    null_pointers();
}
