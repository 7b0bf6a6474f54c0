/* The stable matchings of Table 1 by its lists and the definitions alone, without the library. */
#ifndef DEFINITIONS_H
#define DEFINITIONS_H

#include <stddef.h>
#include <stdint.h>

/* Fills `out` with those of all 5,040 matchings that no pair blocks, 64 at most, and says how many there are. */
size_t stable_matchings(uint8_t out[64][7]);

/* Whether in `a` no student is worse off than in `b`. */
int none_worse(const uint8_t *a, const uint8_t *b);

/* The number of students whose mentors differ. */
int distance(const uint8_t *a, const uint8_t *b);

#endif
