/* The repair of two pairs by the words of W-207, over a list of all stable matchings of a book. */
#ifndef SORTS_H
#define SORTS_H

#include "asked.h"

/* A book with all its stable matchings, `count` rows of which the first n bytes are a matching. */
struct listed {
    struct book book;
    const uint8_t (*stable)[8];
    size_t count;
};

/* What is due: the letter or letters, the number of the moved or their total weight, and the row of the repaired
 * matching, NULL for 'F'. */
struct due {
    size_t letter, total;
    const uint8_t *matching;
};

/* The repair of the pairs of two students in one of the stable matchings; of one student, the repair of his pair. Each
 * student weighs 1 where the weights are NULL. Checks that each sort with a member has one candidate, and that no
 * stable matching that holds neither pair moves fewer, or weighs less. */
struct due due_of(const struct listed *listed, const uint8_t *given, size_t first, size_t second,
                  const uint8_t *weights);

/* Asks for that repair by four bytes, plainly where the weights are NULL and by the weighted call with weights of 1, or
 * with the weights; into buffers of n entries and of more. Checks reply, matching and gains against what is due, which
 * it gives back. */
struct due ask_pairs(const struct listed *listed, const uint8_t *given, size_t first, size_t second,
                     const uint8_t *weights);

/* Asks for the pairs of every two students, and for every pair twice, of every listed matching; students without a
 * mentor are left out. Whichever pair stands first, the same matching is due, with the letters exchanged: where UD and
 * DU both exist, so do UU and DD, which together move no more than those, so that a tie of UD and DU never decides. */
void ask_all_pairs(const struct listed *listed, const uint8_t *weights);

#endif
