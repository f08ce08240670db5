/* The header, and what it says of the board. */
#ifndef PLAIN_HEADER_H
#define PLAIN_HEADER_H

#include "fields.h"
#include "group.h"
#include "plain.h"
#include "sha256.h"

enum { MOST_PROCESSES = 8, MOST_BALLOTS = 1000, MOST_WORDS = 128 };

/* The header's length, and where its counter and label stand. */
enum { HEADER_LENGTH = 54, COUNTER_AT = 17, LABEL_AT = 22, LABEL_LENGTH = 32 };

struct board {
    const uint8_t *bytes;
    size_t length;
    size_t n, k; /* processes, ballots */
    struct group group;
};

static bool orders_hold(size_t n, size_t k, uint32_t p, uint32_t q)
{
    return is_prime(p) && is_prime(q) && p < 0x80000000 && (p - 1) % q == 0 && n < q && k < q;
}

/* g1, made of the label, g0 and the counter. */
static uint32_t derived(const uint8_t *bytes, const struct group *g)
{
    struct hasher h;
    uint8_t tail[5], digest[32];

    put_word(tail, g->g0);
    tail[4] = bytes[COUNTER_AT];
    hash_start(&h);
    hash_update(&h, bytes + LABEL_AT, LABEL_LENGTH);
    hash_update(&h, tail, sizeof tail);
    hash_finish(&h, digest);
    return power(g->p, residue(digest, g->p), (g->p - 1) / g->q);
}

static bool generators_hold(const uint8_t *bytes, const struct group *g)
{
    return is_element(g, g->g0) && g->g0 != 1 && g->g1 == derived(bytes, g) && g->g1 != 0 &&
           g->g1 != 1 && g->g1 != g->g0;
}

static size_t header_fault(struct board *board)
{
    const uint8_t *bytes = board->bytes;
    struct group *g = &board->group;

    if (board->length < HEADER_LENGTH) {
        return PLAIN_LENGTH;
    }
    if (!has_mark(bytes, "HF")) {
        return PLAIN_MARK;
    }
    board->n = bytes[2];
    board->k = half(bytes + 3);
    g->p = word(bytes + 5);
    g->q = word(bytes + 9);
    g->g0 = word(bytes + 13);
    g->g1 = word(bytes + 18);
    if (board->n < 2 || board->n > MOST_PROCESSES || board->k < 1 || board->k > MOST_BALLOTS) {
        return PLAIN_SIZES;
    }
    if (!orders_hold(board->n, board->k, g->p, g->q)) {
        return PLAIN_ORDERS;
    }
    if (!generators_hold(bytes, g)) {
        return PLAIN_GENERATORS;
    }
    g->inverse = power(g->p, g->g1, g->q - 1);
    return PLAIN_ACCEPTED;
}

#endif
