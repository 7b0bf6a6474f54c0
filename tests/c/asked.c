/* Repairs and weighted grades for the C tests: see asked.h. */
#include "asked.h"

struct asked asked_of(struct book book, const uint8_t *matching, const uint8_t *weights, const uint8_t *request)
{
    struct asked asked = {book, matching, weights, request, book.n, book.n, 2, book.n, book.n, 0};
    return asked;
}

static const uint8_t *book_bytes(const struct asked *a)
{
    return fenced(0, a->book.bytes, a->book.length);
}

static const uint8_t *matching_bytes(const struct asked *a)
{
    return fenced(1, a->matching, a->matching_length);
}

static const uint8_t *weight_bytes(const struct asked *a)
{
    return fenced(2, a->weights, a->weights_length);
}

static const uint8_t *request_bytes(const struct asked *a)
{
    return fenced(3, a->request, a->request_length);
}

/* W-202: a repair, of one pair or two, reports the total weight of the students whose gains, as it wrote them, are not
 * 0; without weights each of them is 1. */
static struct placement_reply recounted(struct placement_reply reply, size_t n, const uint8_t *weights,
                                        const struct lent *out, const struct lent *gains)
{
    size_t total = 0;
    if (reply.letter != 0 && reply.letter != 'F') {
        for (size_t i = 0; i < n; i++) {
            total += gains->bytes[GUARD + i] == 0 ? 0 : weights == NULL ? 1 : weights[i];
        }
        EXPECT(reply, answer(reply.letter, total));
    }
    return after_call(after_call(reply, out), gains);
}

struct placement_reply plain_repair(const struct asked *a, struct lent *out, struct lent *gains)
{
    struct placement_reply reply =
        placement_repair(book_bytes(a), a->book.length, matching_bytes(a), a->matching_length, request_bytes(a),
                         a->request_length, lend(out, a->room), a->room, (int8_t *)lend(gains, a->gains_room),
                         a->gains_room);
    return recounted(reply, a->book.n, NULL, out, gains);
}

struct placement_reply plain_by_mentor(const struct asked *a, struct lent *out, struct lent *gains)
{
    struct placement_reply reply =
        placement_repair_mentor(book_bytes(a), a->book.length, matching_bytes(a), a->matching_length, a->mentor,
                                lend(out, a->room), a->room, (int8_t *)lend(gains, a->gains_room), a->gains_room);
    return recounted(reply, a->book.n, NULL, out, gains);
}

struct placement_reply weighted_repair(const struct asked *a, struct lent *out, struct lent *gains)
{
    struct placement_reply reply =
        placement_weighted_repair(book_bytes(a), a->book.length, matching_bytes(a), a->matching_length, weight_bytes(a),
                                  a->weights_length, request_bytes(a), a->request_length, lend(out, a->room), a->room,
                                  (int8_t *)lend(gains, a->gains_room), a->gains_room);
    return recounted(reply, a->book.n, a->weights, out, gains);
}

struct placement_reply weighted_by_mentor(const struct asked *a, struct lent *out, struct lent *gains)
{
    struct placement_reply reply =
        placement_weighted_repair_mentor(book_bytes(a), a->book.length, matching_bytes(a), a->matching_length,
                                         weight_bytes(a), a->weights_length, a->mentor, lend(out, a->room), a->room,
                                         (int8_t *)lend(gains, a->gains_room), a->gains_room);
    return recounted(reply, a->book.n, a->weights, out, gains);
}

struct placement_reply weighted_grade(const struct asked *a)
{
    return placement_weighted_grade(book_bytes(a), a->book.length, matching_bytes(a), a->matching_length,
                                    weight_bytes(a), a->weights_length);
}
