/*
 * A plain C checker of boards. It takes the same steps as the library's: the same tests in the same
 * order, powers by Montgomery products, one table of inverses for each shift, SHA-256 fed in pieces,
 * places carried from record to record. Nothing here is proved.
 */
#include "plain.h"

#include <string.h>

#include "ballots.h"
#include "count.h"

/* ---- Sheets. */

/* A round, from 0: its first record, the number of that record, and where those of the round before
   start. counted: how many ballots are; out: who went out in the round before. */
struct round {
    size_t number;
    size_t at, record;
    size_t before;
    size_t counted;
    size_t out;
};

static size_t sheet_size(size_t n)
{
    return 4 + 6 * n;
}

/* Counts and exponents, left to right. */
static size_t sheet_walk(const struct board *board, const uint8_t *sheet, size_t counted,
                         uint32_t *counts)
{
    for (size_t i = 0; i < board->n; i++) {
        counts[i] = half(sheet + 4 + 6 * i);
        if (counts[i] > counted) {
            return PLAIN_COUNT;
        }
        if (word(sheet + 6 + 6 * i) >= board->group.q) {
            return PLAIN_FIELD;
        }
    }
    return PLAIN_ACCEPTED;
}

/* The product of the words of all counted ballots that stand `offset` bytes behind the start of their
   pairs. */
static uint32_t first_rows(const struct board *board, const struct round *round, size_t offset)
{
    uint32_t p = board->group.p, r = 1 % p;
    const uint8_t *record = board->bytes + round->at;

    if (round->number > 0) {
        size_t size = shift_size(board->n, board->n - round->number);
        return product(p, pairs_of(record) + offset, size, round->counted, round->counted);
    }
    for (size_t k = 0; k < board->k; k++) {
        if (kind_of(record) == COUNTED) {
            r = times(p, r, word(pairs_of(record) + offset));
        }
        record += ballot_size(board->n, kind_of(record));
    }
    return r;
}

/* The tally equations of column i: the products of the counted ballots' first rows. */
static bool tally_holds(const struct board *board, const struct round *round, const uint8_t *sheet,
                        uint32_t count, size_t i)
{
    const struct group *g = &board->group;
    uint32_t s = word(sheet + 6 + 6 * i);
    uint32_t b = first_rows(board, round, 8 * i);

    if (b != times(g->p, power(g->p, g->g0, s), power(g->p, g->g1, count))) {
        return false;
    }
    return first_rows(board, round, 8 * i + 4) == power(g->p, g->g1, s);
}

/* The sheet at a place. Its counts go to the standing count. */
static size_t sheet_fault(const struct board *board, const struct round *round, size_t at,
                          struct standing *standing)
{
    size_t n = board->n;
    const uint8_t *sheet = board->bytes + at;
    uint32_t *counts = standing->sheets[standing->outs];

    if (board->length - at < sheet_size(n)) {
        return PLAIN_LENGTH;
    }
    if (!has_mark(sheet, "RT")) {
        return PLAIN_MARK;
    }
    if (sheet[2] != round->number + 1) {
        return PLAIN_NUMBER;
    }
    size_t fault = sheet_walk(board, sheet, round->counted, counts);
    if (fault != PLAIN_ACCEPTED) {
        return fault;
    }
    for (size_t i = 0; i < n; i++) {
        if (!tally_holds(board, round, sheet, counts[i], i)) {
            return PLAIN_TALLY;
        }
    }
    size_t due = closes(standing, n, round->counted) ? 0 : lowest(standing, n);
    return sheet[3] == due ? PLAIN_ACCEPTED : PLAIN_OUT;
}

/* ---- Rounds. */

/* A walk through the records of a round: the place and the number of the next one. */
struct walk {
    size_t at, record;
};

/* The ballots of round 1, up to one with a fault or to the sheet. Counts those that are counted. */
static size_t ballots_fault(const struct board *board, struct round *round, struct walk *walk)
{
    for (size_t k = 0; k < board->k; k++) {
        size_t fault = ballot_fault(board, walk->at, k);
        if (fault != PLAIN_ACCEPTED) {
            return fault;
        }
        uint8_t kind = kind_of(board->bytes + walk->at);
        round->counted += kind == COUNTED;
        walk->at += ballot_size(board->n, kind);
        walk->record++;
    }
    if (round->counted == 0) {
        walk->record--;
        return PLAIN_NONE_COUNTED;
    }
    return PLAIN_ACCEPTED;
}

/* The same of the shifts of a later round. Two places are carried beside: the ballot's own record,
   for its kind, and its record of the round before. */
static size_t shifts_fault(const struct board *board, const struct round *round, struct walk *walk)
{
    size_t rows = board->n - round->number;
    size_t ballot = HEADER_LENGTH, before = round->before;

    for (size_t k = 0; k < board->k; k++) {
        uint8_t kind = kind_of(board->bytes + ballot);
        size_t size = ballot_size(board->n, kind);
        if (kind == COUNTED) {
            size_t fault = shift_fault(board, walk->at, before, rows, round->out, k);
            if (fault != PLAIN_ACCEPTED) {
                return fault;
            }
            walk->at += shift_size(board->n, rows);
            walk->record++;
        }
        if (round->number == 1) {
            before += size;
        } else if (kind == COUNTED) {
            before += shift_size(board->n, rows + 1);
        }
        ballot += size;
    }
    return PLAIN_ACCEPTED;
}

/* The round after one whose sheet a walk has come to. */
static struct round next_round(const struct board *board, const struct round *round,
                               const struct walk *walk, size_t out)
{
    return (struct round){.number = round->number + 1,
                          .at = walk->at + sheet_size(board->n),
                          .record = walk->record + 1,
                          .before = round->at,
                          .counted = round->counted,
                          .out = out};
}

/* Past the closing sheet: the answer, unless bytes remain. */
static size_t ending(const struct board *board, size_t end, size_t record,
                     const struct standing *standing, size_t winner, size_t *answer)
{
    if (board->length != end) {
        answer[0] = record + 1;
        return PLAIN_REMAIN;
    }
    answer[0] = standing->outs + 1;
    answer[1] = winner;
    memcpy(answer + 2, standing->order, sizeof standing->order);
    return PLAIN_ACCEPTED;
}

static size_t rounds_fault(const struct board *board, size_t *answer)
{
    size_t n = board->n;
    struct standing standing = {.outs = 0};
    struct round round = {.at = HEADER_LENGTH, .record = 1};

    for (;;) {
        struct walk walk = {round.at, round.record};
        size_t fault = round.number == 0 ? ballots_fault(board, &round, &walk)
                                         : shifts_fault(board, &round, &walk);
        if (fault == PLAIN_ACCEPTED) {
            fault = sheet_fault(board, &round, walk.at, &standing);
        }
        if (fault != PLAIN_ACCEPTED) {
            answer[0] = walk.record;
            return fault;
        }
        if (closes(&standing, n, round.counted)) {
            return ending(board, walk.at + sheet_size(n), walk.record, &standing,
                          highest(&standing, n), answer);
        }
        size_t out = lowest(&standing, n);
        standing.order[standing.outs++] = out;
        round = next_round(board, &round, &walk, out);
    }
}

size_t plain_check(const uint8_t *board, size_t length, size_t *answer)
{
    struct board opened = {.bytes = board, .length = length};

    for (size_t i = 0; i < PLAIN_ANSWER; i++) {
        answer[i] = 0;
    }
    size_t fault = header_fault(&opened);
    if (fault != PLAIN_ACCEPTED) {
        return fault;
    }
    return rounds_fault(&opened, answer);
}

/* ---- Receipts. */

void plain_digests(const uint8_t *records, size_t count, size_t size, uint8_t *digests)
{
    for (size_t i = 0; i < count; i++) {
        struct hasher h;
        hash_start(&h);
        hash_update(&h, records + i * size, size);
        hash_finish(&h, digests + i * 32);
    }
}
