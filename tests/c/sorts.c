/* The repair of two pairs over a list of stable matchings: see sorts.h. */
#include "sorts.h"

/* The letter of a student in another matching, 0 where he has the same mentor in both. */
static size_t letter_of(const struct book *book, const uint8_t *given, const uint8_t *other, size_t student)
{
    const size_t old = place_of(book, student, given[student]), new = place_of(book, student, other[student]);
    return new < old ? 'U' : new > old ? 'D' : 0;
}

/* The sort of a matching, 0 where it holds one of the pairs. */
static size_t sort_of(const struct book *book, const uint8_t *given, const uint8_t *other, size_t first, size_t second)
{
    const size_t letter = letter_of(book, given, other, first), next = letter_of(book, given, other, second);
    return letter == 0 || next == 0 ? 0 : first == second ? letter : letter + 256 * next;
}

/* Whether every student's mentor in one matching stands between those in the given one and in another. */
static int lies_between(const struct book *book, const uint8_t *given, const uint8_t *one, const uint8_t *other)
{
    int all = 1;
    for (size_t i = 0; i < book->n; i++) {
        all &= in_order(place_of(book, i, given[i]), place_of(book, i, one[i]), place_of(book, i, other[i]));
    }
    return all;
}

/* The candidate of a sort, NULL where it has no member. */
static const uint8_t *candidate(const struct listed *l, const uint8_t *given, size_t first, size_t second, size_t sort)
{
    const uint8_t *found = NULL;
    size_t members = 0, candidates = 0;
    for (size_t j = 0; j < l->count; j++) {
        int between_all = sort_of(&l->book, given, l->stable[j], first, second) == sort;
        members += (size_t)between_all;
        for (size_t k = 0; k < l->count && between_all; k++) {
            between_all = sort_of(&l->book, given, l->stable[k], first, second) != sort ||
                          lies_between(&l->book, given, l->stable[j], l->stable[k]);
        }
        if (between_all) {
            candidates++;
            found = l->stable[j];
        }
    }
    HOLDS(candidates == (members == 0 ? 0 : 1));
    return found;
}

/* The total weight of the students who have another mentor. */
static size_t moved(const struct book *book, const uint8_t *given, const uint8_t *other, const uint8_t *weights)
{
    size_t total = 0;
    for (size_t i = 0; i < book->n; i++) {
        total += given[i] == other[i] ? 0 : weights == NULL ? 1 : weights[i];
    }
    return total;
}

struct due due_of(const struct listed *l, const uint8_t *given, size_t first, size_t second, const uint8_t *weights)
{
    static const size_t order[6] = {'U' + 256 * 'U', 'U' + 256 * 'D', 'D' + 256 * 'U', 'D' + 256 * 'D', 'U', 'D'};
    struct due due = {'F', 0, NULL};
    for (size_t k = first == second ? 4 : 0; k < (first == second ? 6 : 4); k++) {
        const uint8_t *matching = candidate(l, given, first, second, order[k]);
        const size_t total = matching == NULL ? 0 : moved(&l->book, given, matching, weights);
        if (matching != NULL && (due.matching == NULL || total < due.total)) {
            due = (struct due){order[k], total, matching};
        }
    }
    int least = 1;
    for (size_t j = 0; j < l->count; j++) {
        least &= sort_of(&l->book, given, l->stable[j], first, second) == 0 ||
                 (due.matching != NULL && due.total <= moved(&l->book, given, l->stable[j], weights));
    }
    HOLDS(least);
    return due;
}

/* One call, with that many entries more than n in the buffers. */
static void ask(struct asked asked, repair_call call, size_t more, const struct due *due)
{
    static struct lent out, gains;
    const size_t n = asked.book.n, written = due->matching == NULL ? 0 : n;
    int8_t gained[8] = {0};
    for (size_t i = 0; i < written; i++) {
        gained[i] = (int8_t)(place_of(&asked.book, i, asked.matching[i]) - place_of(&asked.book, i, due->matching[i]));
    }
    asked.room = n + 2 * more;
    asked.gains_room = n + more;
    EXPECT(call(&asked, &out, &gains), answer(due->letter, due->total));
    WROTE(&out, due->matching, written);
    WROTE(&gains, gained, written);
}

struct due ask_pairs(const struct listed *l, const uint8_t *given, size_t first, size_t second, const uint8_t *weights)
{
    static const uint8_t ones[8] = {1, 1, 1, 1, 1, 1, 1, 1};
    const uint8_t request[4] = {(uint8_t)first, given[first], (uint8_t)second, given[second]};
    const struct due due = due_of(l, given, first, second, weights);
    struct asked asked = asked_of(l->book, given, weights == NULL ? ones : weights, request);
    asked.request_length = 4;
    ask(asked, weighted_repair, 0, &due);
    if (weights == NULL) {
        ask(asked, plain_repair, 1, &due);
    }
    return due;
}

void ask_all_pairs(const struct listed *l, const uint8_t *weights)
{
    for (size_t j = 0; j < l->count; j++) {
        for (size_t first = 0; first < l->book.n; first++) {
            for (size_t second = first; second < l->book.n; second++) {
                if (l->stable[j][first] == 255 || l->stable[j][second] == 255) {
                    continue;
                }
                const struct due one = ask_pairs(l, l->stable[j], first, second, weights);
                const struct due other = ask_pairs(l, l->stable[j], second, first, weights);
                const size_t exchanged = one.letter < 256 ? one.letter : one.letter / 256 + one.letter % 256 * 256;
                HOLDS(other.letter == exchanged && other.matching == one.matching);
            }
        }
    }
}
