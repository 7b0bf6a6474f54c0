/* The stable matchings of Table 1 with their closed sets: see members.h. */
#include "members.h"

#include "../c/check.h"
#include "definitions.h"

#include <string.h>

struct member members[1 << ROTATIONS];
size_t member_count;

/* Whether the set holds whatever precedes its members. */
static int closed(const struct book *book, const uint8_t *set)
{
    for (size_t k = 0; k < ROTATIONS; k++) {
        for (size_t j = 0; set[k] && j < ROTATIONS; j++) {
            struct placement_reply before = placement_precedes(book->bytes, book->length, j, k);
            EXPECT(before, value(before.value));
            if (before.value && !set[j]) {
                return 0;
            }
        }
    }
    return 1;
}

/* From a closed set to its matching, which the check finds stable, and back. */
static struct member member_of(const struct book *book, const uint8_t *set)
{
    struct member found;
    memset(&found, 9, sizeof found);
    EXPECT(placement_set_to_matching(book->bytes, book->length, set, ROTATIONS, found.matching, 7), value(7));
    EXPECT(placement_check_matching(book->bytes, book->length, found.matching, 7), value(0));
    EXPECT(placement_matching_to_set(book->bytes, book->length, found.matching, 7, found.set, ROTATIONS),
           value(ROTATIONS));
    HOLDS(memcmp(found.set, set, ROTATIONS) == 0);
    return found;
}

/* Whether the set of `a` is contained in that of `b`. */
static int contained(const struct member *a, const struct member *b)
{
    for (size_t k = 0; k < ROTATIONS; k++) {
        if (a->set[k] > b->set[k]) {
            return 0;
        }
    }
    return 1;
}

/* The members are the stable matchings, each once. In one no student is worse off than in another exactly where its set
 * is contained in the other's (Theorem 1 of document 000). */
static void compare_members(void)
{
    static uint8_t stable[64][7];
    size_t all = stable_matchings(stable);
    HOLDS(all == STABLE);
    HOLDS(member_count == STABLE);
    for (size_t k = 0; k < all; k++) {
        size_t times = 0;
        for (size_t j = 0; j < member_count; j++) {
            times += memcmp(stable[k], members[j].matching, 7) == 0;
        }
        HOLDS(times == 1);
    }
    for (size_t k = 0; k < member_count; k++) {
        for (size_t j = 0; j < member_count; j++) {
            HOLDS(contained(&members[k], &members[j]) == none_worse(members[k].matching, members[j].matching));
        }
    }
}

void find_members(struct book book)
{
    for (unsigned marks = 0; marks < 1 << ROTATIONS; marks++) {
        uint8_t set[ROTATIONS], none[7];
        for (unsigned k = 0; k < ROTATIONS; k++) {
            set[k] = marks >> k & 1;
        }
        if (closed(&book, set)) {
            members[member_count++] = member_of(&book, set);
        } else {
            EXPECT(placement_set_to_matching(book.bytes, book.length, set, ROTATIONS, none, 7), refused(16, 0));
        }
    }
    compare_members();
}

/* Whether in `b` no student is worse off than in `a` (`up` 1), or none better off (0). */
static int goes(const uint8_t *a, const uint8_t *b, int up)
{
    return up ? none_worse(b, a) : none_worse(a, b);
}

/* Whether a member is one of those among which the repair is: without the pair of M5, and on that side of M5. */
static int eligible(const struct member *member, int student, int up)
{
    return member->matching[student] != table_1_m5[student] && goes(table_1_m5, member->matching, up);
}

const struct member *repair_of(int student, int up)
{
    const struct member *repair = NULL;
    size_t others = 0, repairs = 0;
    for (size_t k = 0; k < member_count; k++) {
        int first = eligible(&members[k], student, up);
        others += first;
        for (size_t j = 0; j < member_count; j++) {
            int after = goes(members[k].matching, members[j].matching, up);
            first = first && (after || !eligible(&members[j], student, up));
        }
        repairs += first;
        repair = first ? &members[k] : repair;
    }
    HOLDS(repairs == (others > 0));
    for (size_t k = 0; k < member_count; k++) { /* and none is nearer */
        HOLDS(!eligible(&members[k], student, up) || repair == NULL ||
              distance(table_1_m5, repair->matching) <= distance(table_1_m5, members[k].matching));
    }
    return repair;
}
