/* Prints the stable matchings of Table 1 of document 000 and its Tables 2 and 3, as the library gives them through
 * include/placement.h, and compares them with what the paper says (paper.h). Exits with 1 if something differs. What it
 * has to print is in `expected`.
 *
 *     tables 1       Table 1 as a book of edition 1
 *     tables 2       as one of edition 2, whose lists are full: it has to print the same */
#include "../c/books.h"
#include "../c/check.h"
#include "definitions.h"
#include "members.h"
#include "paper.h"

#include <stdio.h>
#include <string.h>

/* A number, a matching or a set as text, a dash where there is none, and what follows it. */
static void print_number(int number, const char *after)
{
    if (number == NONE) {
        printf("-%s", after);
    } else {
        printf("%d%s", number, after);
    }
}

static void print_matching(const struct member *member, const char *after)
{
    for (size_t i = 0; member != NULL && i < 7; i++) {
        printf(i == 0 ? "%d" : " %d", member->matching[i]);
    }
    printf("%s%s", member == NULL ? "-" : "", after);
}

static void print_set(const struct member *member, const char *after)
{
    size_t printed = 0;
    for (size_t k = 0; member != NULL && k < ROTATIONS; k++) {
        if (member->set[k]) {
            printf(printed++ == 0 ? "{%zu" : " %zu", k);
        }
    }
    printf("%s%s", member == NULL ? "-" : printed == 0 ? "{}" : "}", after);
}

/* Table 1: its stable matchings and their sets. M5 is among them, with the set S5. */
static void table_1(void)
{
    size_t times = 0;
    printf("Table 1: %zu stable matchings, each with its set\n", member_count);
    for (size_t k = 0; k < member_count; k++) {
        print_matching(&members[k], " | ");
        print_set(&members[k], "\n");
        times += memcmp(members[k].matching, table_1_m5, 7) == 0;
    }
    HOLDS(times == 1);
}

/* The rotation that holds the pair (`after` 0), or the one that gives the student that mentor (1): in it the mentor is
 * that of the following pair, the last going to the first. NONE if there is none. */
static int rotation_of(const uint8_t *list, int student, int mentor, size_t after)
{
    for (int number = 0; number < ROTATIONS; number++) {
        size_t pairs = list[0];
        for (size_t k = 0; k < pairs; k++) {
            if (list[1 + 2 * k] == student && list[2 + 2 * ((k + after) % pairs)] == mentor) {
                return number;
            }
        }
        list += 1 + 2 * pairs;
    }
    return NONE;
}

/* Whether the repair is there exactly where the paper has a set, and then has that set. */
static int same_set(const struct member *repair, const char *digits)
{
    for (size_t k = 0; repair != NULL && digits != NULL && k < ROTATIONS; k++) {
        if (repair->set[k] != (strchr(digits, (int)('0' + k)) != NULL)) {
            return 0;
        }
    }
    return (repair == NULL) == (digits == NULL);
}

/* Table 2: for each pair of M5 the rotations that produce and eliminate it, and the sets of both repairs. */
static void table_2(struct book book)
{
    uint8_t list[64] = {0}, set_5[ROTATIONS] = {0};
    EXPECT(placement_rotations(book.bytes, book.length, list, sizeof list), value(ROTATIONS));
    EXPECT(placement_matching_to_set(book.bytes, book.length, table_1_m5, 7, set_5, ROTATIONS), value(ROTATIONS));
    for (size_t k = 0; k < ROTATIONS; k++) {
        HOLDS(set_5[k] == (strchr(paper_set_5, (int)('0' + k)) != NULL));
    }
    printf("Table 2: pair | produced by | eliminated by | set up | set down\n");
    for (const struct paper_row *due = paper_rows; due < paper_rows + 7; due++) {
        int produced = rotation_of(list, due->student, due->mentor, 1);
        int eliminated = rotation_of(list, due->student, due->mentor, 0);
        const struct member *up = repair_of(due->student, 1), *down = repair_of(due->student, 0);
        HOLDS(table_1_m5[due->student] == due->mentor);
        HOLDS(produced == due->produced);
        HOLDS(eliminated == due->eliminated);
        HOLDS(same_set(up, due->up.set));
        HOLDS(same_set(down, due->down.set));
        printf("<%d, %d> | ", due->student, due->mentor);
        print_number(produced, " | ");
        print_number(eliminated, " | ");
        print_set(up, " | ");
        print_set(down, "\n");
    }
}

/* The distance of a repair from M5. It is the paper's, and equal names mean one matching. */
static int measured(const struct member *repair, const struct paper_repair *due)
{
    static const struct member *named[STABLE];
    int far = repair == NULL ? NONE : distance(table_1_m5, repair->matching);
    HOLDS(far == due->distance);
    HOLDS((repair == NULL) == (due->name == NONE));
    if (due->name != NONE) {
        for (int name = 0; name < STABLE; name++) {
            HOLDS(named[name] == NULL || (named[name] == repair) == (name == due->name));
        }
        named[due->name] = repair;
    }
    return far;
}

/* The answer of the library for the pair, by its request and by its mentor: the nearer repair, up where both are as
 * near. It moves one more than b. */
static void compare_answer(struct book book, const struct paper_row *due, const struct member *up,
                           const struct member *down)
{
    int upward = due->up.distance != NONE && (due->down.distance == NONE || due->up.distance <= due->down.distance);
    const struct member *nearer = upward ? up : down;
    const struct placement_reply moved = answer(upward ? 'U' : 'D', (size_t)due->cost + 1);
    const uint8_t request[2] = {(uint8_t)due->student, (uint8_t)due->mentor};
    uint8_t matching[7], by_mentor[7];
    int8_t gains[7];
    EXPECT(placement_repair(book.bytes, book.length, table_1_m5, 7, request, 2, matching, 7, gains, 7), moved);
    EXPECT(placement_repair_mentor(book.bytes, book.length, table_1_m5, 7, request[1], by_mentor, 7, gains, 7), moved);
    HOLDS(nearer != NULL && memcmp(matching, nearer->matching, 7) == 0);
    HOLDS(nearer != NULL && memcmp(by_mentor, nearer->matching, 7) == 0);
}

/* Table 3: for each student both repairs of his pair, without their names, their distances, and b. */
static void table_3(struct book book)
{
    int grade = 0;
    printf("Table 3: student | repair up | repair down | distance up | distance down | b\n");
    for (const struct paper_row *due = paper_rows; due < paper_rows + 7; due++) {
        const struct member *up = repair_of(due->student, 1), *down = repair_of(due->student, 0);
        int far_up = measured(up, &due->up), far_down = measured(down, &due->down);
        int cost = (far_down == NONE || (far_up != NONE && far_up <= far_down) ? far_up : far_down) - 1;
        HOLDS(cost == due->cost);
        compare_answer(book, due, up, down);
        grade = cost > grade ? cost : grade;
        print_number(due->student, " | ");
        print_matching(up, " | ");
        print_matching(down, " | ");
        print_number(far_up, " | ");
        print_number(far_down, " | ");
        print_number(cost, "\n");
    }
    HOLDS(grade == paper_grade_5);
    EXPECT(placement_grade(book.bytes, book.length, table_1_m5, 7), value((size_t)paper_grade_5));
}

int main(int argc, char **argv)
{
    struct book book = book_of(7, table_1_lists);
    if (argc != 2 || (strcmp(argv[1], "1") != 0 && strcmp(argv[1], "2") != 0)) {
        fprintf(stderr, "usage: tables 1|2\n");
        return 2;
    }
    book = with(book, 0, (uint8_t)(argv[1][0] - '0'));
    find_members(book);
    table_1();
    table_2(book);
    table_3(book);
    fprintf(stderr, "tables, edition %s: %lu checks, %lu failed\n", argv[1], checks, failures);
    return failures != 0;
}
