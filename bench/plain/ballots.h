/* Ballots and shifts: the first fault of a record. */
#ifndef PLAIN_BALLOTS_H
#define PLAIN_BALLOTS_H

#include "proofs.h"

/* A record's length, mark and number. */
static size_t frame_fault(const struct board *board, size_t at, size_t size, const char *mark,
                          size_t number)
{
    if (board->length - at < size) {
        return PLAIN_LENGTH;
    }
    if (!has_mark(board->bytes + at, mark)) {
        return PLAIN_MARK;
    }
    if (half(board->bytes + at + 2) != number) {
        return PLAIN_NUMBER;
    }
    return PLAIN_ACCEPTED;
}

/* A record of another kind has the length of a counted one. */
static size_t ballot_size(size_t n, uint8_t kind)
{
    size_t size = BALLOT_FRAME + 40 * n * n + 32 * n;

    return kind == AUDITED ? size + 4 * n * n + n : size;
}

/* A ballot's length, which its kind decides, mark, number and kind. */
static size_t ballot_frame_fault(const struct board *board, size_t at, size_t ballot)
{
    if (board->length - at < BALLOT_FRAME) {
        return PLAIN_LENGTH;
    }
    uint8_t kind = kind_of(board->bytes + at);
    size_t fault = frame_fault(board, at, ballot_size(board->n, kind), "BA", ballot + 1);
    if (fault != PLAIN_ACCEPTED) {
        return fault;
    }
    return kind == COUNTED || kind == AUDITED ? PLAIN_ACCEPTED : PLAIN_KIND;
}

static bool entries_hold(const struct board *board, const uint8_t *record, const uint8_t *proofs)
{
    size_t n = board->n;

    for (size_t t = 0; t < n * n; t++) {
        struct claim claim = {.kind = ENTRY,
                              .record = record,
                              .round = 1,
                              .place = t,
                              .row = t / n,
                              .column = t % n};
        if (!proof_holds(board, proofs + 32 * t, 2, 1, &claim)) {
            return false;
        }
    }
    return true;
}

static bool lines_hold(const struct board *board, const uint8_t *record, const uint8_t *proofs)
{
    size_t n = board->n;

    for (size_t t = 0; t < 2 * n; t++) {
        struct claim claim = {.kind = t < n ? ROW : COLUMN,
                              .record = record,
                              .round = 1,
                              .place = n * n + t,
                              .row = t % n,
                              .column = t % n};
        if (!proof_holds(board, proofs + 16 * t, 1, 1, &claim)) {
            return false;
        }
    }
    return true;
}

/* The exponents that an audited ballot shows. */
static bool exponents_walk(const struct group *g, const uint8_t *shown, size_t count)
{
    for (size_t t = 0; t < count; t++) {
        if (word(shown + 4 * t) >= g->q) {
            return false;
        }
    }
    return true;
}

/* Each process stands on the list. */
static bool is_ranking(const uint8_t *list, size_t n)
{
    for (size_t process = 1; process <= n; process++) {
        if (memchr(list, (int)process, n) == NULL) {
            return false;
        }
    }
    return true;
}

/* The pairs open with the exponents shown to the ranking shown. */
static bool opens(const struct board *board, const uint8_t *pairs, const uint8_t *shown)
{
    const struct group *g = &board->group;
    size_t n = board->n;
    const uint8_t *ranking = shown + 4 * n * n;

    if (!is_ranking(ranking, n)) {
        return false;
    }
    for (size_t t = 0; t < n * n; t++) {
        uint32_t x = word(shown + 4 * t);
        uint32_t v = ranking[t / n] == t % n + 1;
        if (!pair_opens(g, pairs + 8 * t, x, v)) {
            return false;
        }
    }
    return true;
}

static size_t ballot_fault(const struct board *board, size_t at, size_t ballot)
{
    const struct group *g = &board->group;
    size_t n = board->n;
    size_t fault = ballot_frame_fault(board, at, ballot);

    if (fault != PLAIN_ACCEPTED) {
        return fault;
    }
    const uint8_t *record = board->bytes + at;
    bool audited = kind_of(record) == AUDITED;
    const uint8_t *entries = pairs_walk(g, pairs_of(record), n * n);
    if (entries == NULL) {
        return PLAIN_FIELD;
    }
    const uint8_t *lines = branches_walk(g, entries, 2 * n * n, 1);
    const uint8_t *shown = lines == NULL ? NULL : branches_walk(g, lines, 2 * n, 1);
    if (shown == NULL || (audited && !exponents_walk(g, shown, n * n))) {
        return PLAIN_FIELD;
    }
    if (!entries_hold(board, record, entries) || !lines_hold(board, record, lines)) {
        return PLAIN_PROOF;
    }
    return audited && !opens(board, pairs_of(record), shown) ? PLAIN_OPENING : PLAIN_ACCEPTED;
}

static size_t shift_size(size_t n, size_t rows)
{
    return 4 + 8 * rows * n + (rows + 1) * (28 + 12 * rows * n);
}

/* The proof that the pairs are those before with a row struck. */
static bool shift_holds(const struct board *board, const uint8_t *record, const uint8_t *proof,
                        const uint8_t *before, size_t rows, size_t column)
{
    const struct group *g = &board->group;
    size_t n = board->n;
    uint32_t inverses[MOST_WORDS];
    struct claim claim = {.kind = SHIFT,
                          .record = record,
                          .round = n - rows + 1,
                          .place = 0,
                          .column = column,
                          .before = before,
                          .inverses = inverses};

    for (size_t u = 0; u < 2 * (rows + 1) * n; u++) {
        inverses[u] = power(g->p, word(before + 4 * u), g->q - 1);
    }
    return proof_holds(board, proof, rows + 1, 2 + rows * n, &claim);
}

/* before: where the ballot's record of the round before starts; out: who went out in it. */
static size_t shift_fault(const struct board *board, size_t at, size_t before, size_t rows,
                          size_t out, size_t ballot)
{
    const struct group *g = &board->group;
    size_t n = board->n;
    size_t fault = frame_fault(board, at, shift_size(n, rows), "SH", ballot + 1);

    if (fault != PLAIN_ACCEPTED) {
        return fault;
    }
    const uint8_t *record = board->bytes + at;
    const uint8_t *proof = pairs_walk(g, pairs_of(record), rows * n);
    if (proof == NULL || branches_walk(g, proof, rows + 1, 2 + rows * n) == NULL) {
        return PLAIN_FIELD;
    }
    const uint8_t *pairs_before = pairs_of(board->bytes + before);
    if (!shift_holds(board, record, proof, pairs_before, rows, out - 1)) {
        return PLAIN_PROOF;
    }
    return PLAIN_ACCEPTED;
}

#endif
