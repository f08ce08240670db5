/*
 * Makes the benchmark's boards with the library's writer:
 *
 *   make_boards FOLDER
 *
 * Each board is FOLDER/NAME.board, and FOLDER/NAME.answer has the 11 numbers that a checker must
 * give: 0, then the answer's ten.
 */
#include "files.h"
#include "gooseoften.h"
#include "plain/plain.h"

#include <stdio.h>
#include <stdlib.h>
#include <string.h>

/* The largest p below 2^31 of which p and (p - 1) / 2 are both prime; 4 is a square, of order q. */
static const uint32_t P = 2147483579, Q = 1073741789, G0 = 4;
static const uint8_t COUNTER = 0;
static const char LABEL[] = "a benchmark of the board checker";

struct size {
    const char *name;
    size_t n, k;
    size_t every; /* of every so many ballots the first is counted, the others are audited */
};

/* k / every is even */
static const struct size SIZES[] = {
    {"n8-k10", 8, 10, 1},         {"n8-k30", 8, 30, 1},           {"n8-k100", 8, 100, 1},
    {"n8-k300", 8, 300, 1},       {"n8-k1000", 8, 1000, 1},       {"n2-k1000", 2, 1000, 1},
    {"n8-k100-half", 8, 100, 2},  {"n8-k1000-half", 8, 1000, 2},
};

/*
 * Counted ballot k, from 0 among the counted ones, ranks process k mod n + 1 first, then 1 (k even) or
 * 2 (k odd), then the others by number; audited ballots rank as the counted one before them. Nobody
 * ever has more than half: 1 gets only even ballots, 2 only odd ones. Process n goes out first, then
 * n - 1, down to 3; then 1 and 2 have half each. That takes n - 1 rounds, the most there can be. Of
 * n = 8 process 2 wins: the ballots of 3 are even, so 2 had more in the round before. Of n = 2 process
 * 1 wins.
 */
static void rank(uint8_t *ranking, size_t n, size_t k)
{
    uint8_t first = (uint8_t)(k % n + 1), second = (uint8_t)(k % 2 + 1);
    size_t at = 0;

    ranking[at++] = first;
    if (second != first) {
        ranking[at++] = second;
    }
    for (uint8_t process = 1; process <= n; process++) {
        if (process != first && process != second) {
            ranking[at++] = process;
        }
    }
}

static void expected(size_t n, size_t *answer)
{
    memset(answer, 0, PLAIN_ANSWER * sizeof *answer);
    answer[0] = n - 1;
    answer[1] = n == 2 ? 1 : 2;
    for (size_t process = n; process > 2; process--) {
        answer[2 + n - process] = process;
    }
}

/* A board of n - 1 rounds: its draws and its length. */
static size_t draws_needed(const struct size *size)
{
    size_t n = size->n, counted = size->k / size->every;
    size_t draws = size->k * (4 * n * n + 2 * n);

    for (size_t rows = n - 1; rows >= 2; rows--) {
        draws += counted * (rows * n + (rows + 1) * (2 + rows * n) + rows);
    }
    return draws;
}

static size_t board_length(const struct size *size)
{
    size_t n = size->n, k = size->k, counted = k / size->every;
    size_t sheet = 4 + 6 * n;
    size_t length = 54 + k * (5 + 40 * n * n + 32 * n) + (k - counted) * (4 * n * n + n) + sheet;

    for (size_t rows = n - 1; rows >= 2; rows--) {
        length += counted * (4 + 8 * rows * n + (rows + 1) * (28 + 12 * rows * n)) + sheet;
    }
    return length;
}

/*
 * Lehmer's generator: the powers of ROOT modulo Q, a primitive root, since its powers to (Q - 1) / f
 * are not 1 for the prime factors f of Q - 1: 2, 7, 2341 and 16381. Each number from 1 to Q - 1 comes
 * once before any comes again, so no two of the draws are equal, and no matrix uses an x twice.
 */
static void fill_draws(uint32_t *draws, size_t count)
{
    const uint64_t ROOT = 62089911;
    uint64_t x = 1;

    for (size_t i = 0; i < count; i++) {
        x = x * ROOT % Q;
        draws[i] = (uint32_t)x;
    }
}

/* Writes the board into out, and its result into answer. Ends the program if it is not as due. */
static void write_board(const struct size *size, uint8_t *out, size_t length, size_t *answer)
{
    size_t n = size->n, k = size->k, due[PLAIN_ANSWER];
    size_t needed = draws_needed(size);
    uint8_t *rankings = room_for(k, n), *kinds = room_for(k, 1);
    uint32_t *draws = room_for(needed, sizeof *draws);

    for (size_t i = 0; i < k; i++) {
        rank(rankings + i * n, n, i / size->every);
        kinds[i] = i % size->every == 0 ? 0 : 1;
    }
    fill_draws(draws, needed);
    expected(n, due);
    size_t refusal = gooseoften_write(n, k, P, Q, G0, COUNTER, (const uint8_t *)LABEL, 32, rankings,
                                      k * n, kinds, k, draws, needed, out, length, answer);
    if (refusal != 0 || answer[PLAIN_ANSWER] != length || memcmp(answer, due, sizeof due) != 0) {
        fprintf(stderr, "%s: the writer answers %zu %zu\n", size->name, refusal, answer[0]);
        exit(1);
    }
    free(draws);
    free(kinds);
    free(rankings);
}

static FILE *create(const char *folder, const char *name, const char *kind)
{
    char path[4096];
    int length = snprintf(path, sizeof path, "%s/%s.%s", folder, name, kind);
    FILE *stream = 0 < length && (size_t)length < sizeof path ? fopen(path, "wb") : NULL;

    if (stream == NULL) {
        perror(path);
        exit(2);
    }
    return stream;
}

static void make(const char *folder, const struct size *size)
{
    size_t length = board_length(size);
    uint8_t *board = room_for(length, 1);
    size_t answer[PLAIN_ANSWER + 1];

    write_board(size, board, length, answer);
    FILE *stream = create(folder, size->name, "board");
    size_t written = fwrite(board, 1, length, stream);
    if (fclose(stream) != 0 || written != length) {
        perror(size->name);
        exit(2);
    }
    stream = create(folder, size->name, "answer");
    fputs("0", stream);
    for (size_t i = 0; i < PLAIN_ANSWER; i++) {
        fprintf(stream, " %zu", answer[i]);
    }
    fputs("\n", stream);
    fclose(stream);
    printf("%s: %zu bytes\n", size->name, length);
    free(board);
}

int main(int count, char **arguments)
{
    if (count != 2) {
        fputs("usage: make_boards FOLDER\n", stderr);
        return 2;
    }
    for (size_t i = 0; i < sizeof SIZES / sizeof *SIZES; i++) {
        make(arguments[1], &SIZES[i]);
    }
    return 0;
}
