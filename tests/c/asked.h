/* What a repair or a weighted grade is asked with, and the calls. */
#ifndef ASKED_H
#define ASKED_H

#include "books.h"
#include "check.h"

/* The pair is named by the request, or, for the calls by mentor, by her number. */
struct asked {
    struct book book;
    const uint8_t *matching, *weights, *request;
    size_t matching_length, weights_length, request_length, room, gains_room;
    uint8_t mentor;
};

/* A matching, weights and a request of the right lengths, with result buffers of n entries; mentor 0. */
struct asked asked_of(struct book book, const uint8_t *matching, const uint8_t *weights, const uint8_t *request);

/* The repair, plain or with weights, by request or by mentor, into buffers between guard bytes. Each input ends at a
 * page that may not be read. What a repair reports is recounted from the gains; a refusal has to write nothing. */
typedef struct placement_reply (*repair_call)(const struct asked *asked, struct lent *out, struct lent *gains);
struct placement_reply plain_repair(const struct asked *asked, struct lent *out, struct lent *gains);
struct placement_reply plain_by_mentor(const struct asked *asked, struct lent *out, struct lent *gains);
struct placement_reply weighted_repair(const struct asked *asked, struct lent *out, struct lent *gains);
struct placement_reply weighted_by_mentor(const struct asked *asked, struct lent *out, struct lent *gains);

/* The weighted grade. */
struct placement_reply weighted_grade(const struct asked *asked);

#endif
