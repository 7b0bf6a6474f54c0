/* The stable matchings of Table 1 with their closed sets, as the library gives them. */
#ifndef MEMBERS_H
#define MEMBERS_H

#include "../c/books.h"

#include <stddef.h>
#include <stdint.h>

/* Document 01: "Table 1 has 6 rotations and eleven stable matchings." */
enum { ROTATIONS = 6, STABLE = 11 };

/* A stable matching, and its closed set as a mark for each rotation. */
struct member {
    uint8_t set[ROTATIONS];
    uint8_t matching[7];
};

/* Those found by find_members, in the order of their sets. */
extern struct member members[1 << ROTATIONS];
extern size_t member_count;

/* Finds all closed sets of Table 1's book and their matchings, and compares them with the definitions. */
void find_members(struct book book);

/* The repair up (`up` 1) or down (0) of a student's pair of M5, of the members. NULL if there is none. */
const struct member *repair_of(int student, int up);

#endif
