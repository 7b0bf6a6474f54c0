/* The stable matchings of Table 1 by its lists: see definitions.h. */
#include "definitions.h"

#include "../c/books.h"

#include <string.h>

/* The place of a mentor on a student's list, and of a student on a mentor's. */
static size_t student_place(size_t student, size_t mentor)
{
    const char *list = table_1_lists + 7 * student;
    return (size_t)(strchr(list, (int)('0' + mentor)) - list);
}

static size_t mentor_place(size_t mentor, size_t student)
{
    const char *list = table_1_lists + 49 + 7 * mentor;
    return (size_t)(strchr(list, (int)('0' + student)) - list);
}

/* Whether some pair blocks: both rank each other above their partners. */
static int blocked(const uint8_t *matching)
{
    for (size_t i = 0; i < 7; i++) {
        for (size_t j = 0; j < 7; j++) { /* student i with the mentor of student j */
            if (student_place(i, matching[j]) < student_place(i, matching[i]) &&
                mentor_place(matching[j], i) < mentor_place(matching[j], j)) {
                return 1;
            }
        }
    }
    return 0;
}

/* Goes through all ways to give mentors to the students from `next` on; `found` counts the stable matchings. */
static void extend(uint8_t *matching, size_t next, uint8_t out[64][7], size_t *found)
{
    if (next == 7) {
        if (!blocked(matching) && *found < 64) {
            memcpy(out[(*found)++], matching, 7);
        }
        return;
    }
    for (uint8_t mentor = 0; mentor < 7; mentor++) {
        if (next == 0 || memchr(matching, mentor, next) == NULL) {
            matching[next] = mentor;
            extend(matching, next + 1, out, found);
        }
    }
}

size_t stable_matchings(uint8_t out[64][7])
{
    uint8_t matching[7];
    size_t found = 0;
    extend(matching, 0, out, &found);
    return found;
}

int none_worse(const uint8_t *a, const uint8_t *b)
{
    for (size_t i = 0; i < 7; i++) {
        if (student_place(i, a[i]) > student_place(i, b[i])) {
            return 0;
        }
    }
    return 1;
}

int distance(const uint8_t *a, const uint8_t *b)
{
    int moved = 0;
    for (size_t i = 0; i < 7; i++) {
        moved += a[i] != b[i];
    }
    return moved;
}
