/* What a proof claims, the walk of its fields, and its check. */
#ifndef PLAIN_PROOFS_H
#define PLAIN_PROOFS_H

#include "header.h"

/* ---- The walk of a record's fields, left to right: the place after them, or NULL. */

static const uint8_t *pairs_walk(const struct group *g, const uint8_t *at, size_t count)
{
    for (size_t i = 0; i < count; i++, at += 8) {
        if (!is_element(g, word(at)) || !is_element(g, word(at + 4))) {
            return NULL;
        }
    }
    return at;
}

static const uint8_t *branch_walk(const struct group *g, const uint8_t *at, size_t statements)
{
    if (word(at) >= g->q) {
        return NULL;
    }
    at += 4;
    for (size_t i = 0; i < statements; i++) {
        at = pairs_walk(g, at, 1);
        if (at == NULL || word(at) >= g->q) {
            return NULL;
        }
        at += 4;
    }
    return at;
}

/* Branches one after another, of one proof or of several. */
static const uint8_t *branches_walk(const struct group *g, const uint8_t *at, size_t branches,
                                    size_t statements)
{
    for (size_t l = 0; l < branches && at != NULL; l++) {
        at = branch_walk(g, at, statements);
    }
    return at;
}

/* ---- What a proof claims. */

/* A pair (A, B) of which some w has A = g0^w and B = g1^w. */
struct statement {
    uint32_t left, right;
};

enum kind { ENTRY, ROW, COLUMN, SHIFT };

struct claim {
    enum kind kind;
    const uint8_t *record;
    size_t round, place;      /* the round, from 1; the proof's place in the record, from 0 */
    size_t row, column;       /* of a shift, the column of the process that went out */
    const uint8_t *before;    /* of a shift, the ballot's pairs of the round before */
    const uint32_t *inverses; /* of a shift, the inverses of those */
};

/* What stands ahead of the pairs: mark and number, of a ballot its kind too. */
enum { BALLOT_FRAME = 5, SHIFT_FRAME = 4 };

/* A ballot's kind: its proofs say nothing of it. */
enum { COUNTED = 0, AUDITED = 1 };

static uint8_t kind_of(const uint8_t *ballot)
{
    return ballot[4];
}

/* Of a record whose mark is BA or SH. */
static const uint8_t *pairs_of(const uint8_t *record)
{
    return record + (record[0] == 'B' ? BALLOT_FRAME : SHIFT_FRAME);
}

/* The pair is that of x and v, v being 0 or 1. */
static bool pair_opens(const struct group *g, const uint8_t *pair, uint32_t x, uint32_t v)
{
    uint32_t b = power(g->p, g->g0, x);

    return word(pair) == (v == 1 ? times(g->p, b, g->g1) : b) &&
           word(pair + 4) == power(g->p, g->g1, x);
}

/* The product of count words, stride bytes apart, but for the one numbered out. */
static uint32_t product(uint32_t p, const uint8_t *at, size_t stride, size_t count, size_t out)
{
    uint32_t r = 1 % p;

    for (size_t j = 0; j < count; j++) {
        if (j != out) {
            r = times(p, r, word(at + stride * j));
        }
    }
    return r;
}

/* The pair is of 0 in branch 0, of 1 in branch 1. */
static struct statement entry_statement(const struct group *g, const uint8_t *pair, size_t branch)
{
    struct statement s = {word(pair), word(pair + 4)};

    if (branch > 0) {
        s.left = times(g->p, s.left, g->inverse);
    }
    return s;
}

/* The row or column sums to 1. */
static struct statement line_statement(const struct group *g, const uint8_t *at, size_t stride,
                                       size_t n)
{
    uint32_t b = product(g->p, at, stride, n, n);
    uint32_t y = product(g->p, at + 4, stride, n, n);

    return (struct statement){times(g->p, b, g->inverse), y};
}

/* The pairs are those before without row `branch`, whose 1 stands in the claim's column. */
static struct statement shift_statement(const struct board *board, const struct claim *claim,
                                        size_t branch, size_t i)
{
    const struct group *g = &board->group;
    size_t n = board->n;
    const uint8_t *row = claim->before + 8 * branch * n;

    if (i == 0) {
        return entry_statement(g, row + 8 * claim->column, 1);
    }
    if (i == 1) {
        uint32_t b = product(g->p, row, 8, n, claim->column);
        uint32_t y = product(g->p, row + 4, 8, n, claim->column);
        return (struct statement){b, y};
    }
    size_t new = i - 2;
    size_t old = new / n < branch ? new : new + n;
    const uint8_t *pair = pairs_of(claim->record) + 8 * new;
    const uint32_t *inverse = claim->inverses + 2 * old;
    return (struct statement){times(g->p, word(pair), inverse[0]),
                              times(g->p, word(pair + 4), inverse[1])};
}

static struct statement statement_of(const struct board *board, const struct claim *claim,
                                     size_t branch, size_t i)
{
    const struct group *g = &board->group;
    const uint8_t *pairs = pairs_of(claim->record);
    size_t n = board->n;

    switch (claim->kind) {
    case ENTRY:
        return entry_statement(g, pairs + 8 * (claim->row * n + claim->column), branch);
    case ROW:
        return line_statement(g, pairs + 8 * claim->row * n, 8, n);
    case COLUMN:
        return line_statement(g, pairs + 8 * claim->column, 8 * n, n);
    default:
        return shift_statement(board, claim, branch, i);
    }
}

/* ---- The check of a proof. */

/* The commitments and the response of a statement stand at a place. */
static bool statement_holds(const struct group *g, struct statement s, const uint8_t *at,
                            uint32_t challenge)
{
    uint32_t t1 = word(at), t2 = word(at + 4), response = word(at + 8);

    return power(g->p, g->g0, response) == times(g->p, t1, power(g->p, s.left, challenge)) &&
           power(g->p, g->g1, response) == times(g->p, t2, power(g->p, s.right, challenge));
}

/* What a challenge's message has ahead of the statements: label, mark, number, round, place. */
static void hash_context(struct hasher *h, const struct board *board, const struct claim *claim)
{
    uint8_t tail[3];

    tail[0] = (uint8_t)claim->round;
    put_half(tail + 1, (uint32_t)claim->place);
    hash_update(h, board->bytes + LABEL_AT, LABEL_LENGTH);
    hash_update(h, claim->record, 4);
    hash_update(h, tail, sizeof tail);
}

/* A, B, t1, t2 of a statement whose commitments stand at a place. */
static void hash_statement(struct hasher *h, struct statement s, const uint8_t *at)
{
    uint8_t words[16];

    put_word(words, s.left);
    put_word(words + 4, s.right);
    memcpy(words + 8, at, 8);
    hash_update(h, words, sizeof words);
}

static bool proof_holds(const struct board *board, const uint8_t *at, size_t branches,
                        size_t statements, const struct claim *claim)
{
    const struct group *g = &board->group;
    struct hasher h;
    uint8_t digest[32];
    uint32_t sum = 0;

    hash_start(&h);
    hash_context(&h, board, claim);
    for (size_t l = 0; l < branches; l++) {
        uint32_t challenge = word(at);
        sum = (uint32_t)(((uint64_t)sum + challenge) % g->q);
        at += 4;
        for (size_t i = 0; i < statements; i++) {
            struct statement s = statement_of(board, claim, l, i);
            if (!statement_holds(g, s, at, challenge)) {
                return false;
            }
            hash_statement(&h, s, at);
            at += 12;
        }
    }
    hash_finish(&h, digest);
    return sum == residue(digest, g->q);
}

#endif
