/*
 * Measures gooseoften_find with 500 digests, half of them of ballots from all over the board and half
 * of none, against hashing the same records alone:
 *
 *   walk       the same call with no digest: the library hashes each record just the same
 *   gcc, clang the SHA-256 of plain C
 */
#include "find.h"

#include <stdbool.h>
#include <stdint.h>
#include <stdio.h>
#include <stdlib.h>
#include <string.h>

#include "files.h"
#include "gooseoften.h"
#include "times.h"

#define X(name)                                                                                     \
    void plain_digests_##name(const uint8_t *records, size_t count, size_t size, uint8_t *digests);
CHECKERS
#undef X

struct hasher {
    const char *name;
    void (*digests)(const uint8_t *records, size_t count, size_t size, uint8_t *digests);
};

#define X(name) {#name, plain_digests_##name},
static const struct hasher HASHER[] = {CHECKERS};
#undef X

/* What is measured: the hashers, then the two calls of the library. */
enum { HASHERS = sizeof HASHER / sizeof *HASHER, WALK = HASHERS, FIND, COUNT };
enum { DIGEST = 32, DIGESTS = 500, HEADER = 54 };

/* A digest that is looked for, and the number that is due. */
struct wanted {
    uint8_t digest[DIGEST];
    uint16_t number;
};

struct walk {
    const char *path;
    uint8_t *board;
    size_t length, n, k, size; /* size: bytes of a ballot, all of them counted */
    uint8_t *held;             /* the digests of all ballots */
    uint8_t digests[DIGESTS * DIGEST];
    uint16_t due[DIGESTS];
};

static void stop(const struct walk *walk, const char *name)
{
    fprintf(stderr, "%s: %s: receipts not as due\n", walk->path, name);
    exit(1);
}

static bool find(const struct walk *walk, size_t digests, double *taken)
{
    uint16_t found[DIGESTS];
    double start = processor_time();
    size_t code = gooseoften_find(walk->board, walk->length, walk->digests, digests * DIGEST, found,
                                  digests);
    *taken = processor_time() - start;
    return code == 0 && memcmp(found, walk->due, digests * sizeof *found) == 0;
}

static bool hash(const struct walk *walk, const struct hasher *hasher, double *taken)
{
    uint8_t *digests = room_for(walk->k, DIGEST);
    double start = processor_time();
    hasher->digests(walk->board + HEADER, walk->k, walk->size, digests);
    *taken = processor_time() - start;
    bool same = memcmp(digests, walk->held, walk->k * DIGEST) == 0;
    free(digests);
    return same;
}

static double once(const void *what, size_t turn)
{
    const struct walk *walk = what;
    double taken;

    if (turn < HASHERS ? !hash(walk, &HASHER[turn], &taken)
                       : !find(walk, turn == FIND ? DIGESTS : 0, &taken)) {
        stop(walk, turn < HASHERS ? HASHER[turn].name : "library");
    }
    return taken;
}

static int compare(const void *a, const void *b)
{
    return memcmp(a, b, DIGEST);
}

/* Digests of ballots from the first to the last, and each of them with its bits turned over, in
 * rising order. */
static void choose(struct walk *walk)
{
    static struct wanted wanted[DIGESTS];

    for (size_t i = 0; i < DIGESTS / 2; i++) {
        size_t ballot = i * (walk->k - 1) / (DIGESTS / 2 - 1);
        struct wanted *own = &wanted[2 * i], *other = own + 1;
        memcpy(own->digest, walk->held + ballot * DIGEST, DIGEST);
        own->number = (uint16_t)(1 + ballot);
        for (size_t at = 0; at < DIGEST; at++) {
            other->digest[at] = (uint8_t)~own->digest[at];
        }
    }
    qsort(wanted, DIGESTS, sizeof *wanted, compare);
    for (size_t i = 0; i < DIGESTS; i++) {
        memcpy(walk->digests + i * DIGEST, wanted[i].digest, DIGEST);
        walk->due[i] = wanted[i].number;
    }
}

static void read_walk(struct walk *walk, const char *path)
{
    walk->path = path;
    walk->board = read_file(path, &walk->length);
    if (walk->length >= HEADER) {
        walk->n = walk->board[2];
        walk->k = (size_t)walk->board[3] << 8 | walk->board[4];
        walk->size = 5 + 40 * walk->n * walk->n + 32 * walk->n;
    }
    if (walk->k == 0 || walk->length < HEADER + walk->k * walk->size) {
        fprintf(stderr, "%s: too short\n", path);
        exit(2);
    }
    walk->held = room_for(walk->k, DIGEST);
    HASHER[0].digests(walk->board + HEADER, walk->k, walk->size, walk->held);
    choose(walk);
}

static void print(const struct walk *walk, const double *least, const double *median)
{
    printf("\n%d digests found, half of them on the board; walk is the same with no digest, the"
           " compilers hash the same ballots in plain C\n", DIGESTS);
    printf("%2s %5s %9s %8s ms %8s ms", "n", "K", "hashed", "find", "walk");
    for (size_t c = 0; c < HASHERS; c++) {
        printf(" %8s ms", HASHER[c].name);
    }
    printf(" find/walk of medians");
    for (size_t c = 0; c < HASHERS; c++) {
        printf(" find/%s of medians", HASHER[c].name);
    }
    printf("\n%2zu %5zu %9zu %11.3f %11.3f", walk->n, walk->k, walk->k * walk->size, least[FIND],
           least[WALK]);
    for (size_t c = 0; c < HASHERS; c++) {
        printf(" %11.3f", least[c]);
    }
    printf(" %9.3f %10.3f", least[FIND] / least[WALK], median[FIND] / median[WALK]);
    for (size_t c = 0; c < HASHERS; c++) {
        printf(" %*.3f %10.3f", 5 + (int)strlen(HASHER[c].name), least[FIND] / least[c],
               median[FIND] / median[c]);
    }
    printf("\n");
}

void measure_find(const char *path, size_t repeats, double seconds)
{
    static struct walk walk;
    double least[COUNT], median[COUNT];

    read_walk(&walk, path);
    by_turns(once, &walk, COUNT, repeats, seconds, least, median);
    print(&walk, least, median);
    free(walk.held);
    free(walk.board);
}
