/*
 * Measures the library's checker against plain C of the same algorithm:
 *
 *   bench [-r REPEATS] [-s SECONDS] [-f BOARD] BOARD...
 *
 * Each board, NAME.board, is checked by turns, at least REPEATS times and for at least SECONDS in
 * all, in another order each time. NAME.answer has what every checker must answer. Where there are
 * boards of 100 and of 1,000 ballots with half of them audited, the times of these are compared. With
 * -f receipts are found on that board (find.c). Times are processor time. Ends with 1 if an answer is
 * another.
 *
 * CHECKERS names the copies of plain.c, one for each compiler: X(gcc) stands for plain_check_gcc and
 * plain_digests_gcc.
 */
#include "files.h"
#include "find.h"
#include "library.h"
#include "plain/plain.h"
#include "times.h"

#include <stdbool.h>
#include <stdio.h>
#include <stdlib.h>
#include <string.h>

#define X(name) size_t plain_check_##name(const uint8_t *board, size_t length, size_t *answer);
CHECKERS
#undef X

struct checker {
    const char *name;
    size_t (*check)(const uint8_t *board, size_t length, size_t *answer);
};

/* The library is the last. */
#define X(name) {#name, plain_check_##name},
static const struct checker CHECKER[] = {CHECKERS{"library", library_check}};
#undef X

enum { COUNT = sizeof CHECKER / sizeof *CHECKER, LIBRARY = COUNT - 1 };

/* What is known of a board, and the times of each checker in milliseconds. */
struct board {
    const char *path;
    uint8_t *bytes;
    size_t length, n, k, counted;
    size_t due[1 + PLAIN_ANSWER];
    double least[COUNT], median[COUNT];
};

static void read_answer(struct board *board)
{
    size_t length = strlen(board->path), end = length - strlen(".board");
    char *path = room_for(length + 2, 1);

    memcpy(path, board->path, end);
    strcpy(path + end, ".answer");
    FILE *stream = fopen(path, "r");
    for (size_t i = 0; i <= PLAIN_ANSWER; i++) {
        if (stream == NULL || fscanf(stream, "%zu", &board->due[i]) != 1) {
            fprintf(stderr, "%s: no answer to compare with\n", path);
            exit(2);
        }
    }
    fclose(stream);
    free(path);
}

/* How many ballots are counted. */
static size_t counted_of(const struct board *board)
{
    size_t n = board->n, at = 54, counted = 0;

    for (size_t i = 0; i < board->k && at + 4 < board->length; i++) {
        bool audited = board->bytes[at + 4] == 1;
        counted += !audited;
        at += 5 + 40 * n * n + 32 * n + (audited ? 4 * n * n + n : 0);
    }
    return counted;
}

static void read_board(struct board *board, const char *path)
{
    size_t length = strlen(path);

    if (length < 6 || strcmp(path + length - 6, ".board") != 0) {
        fprintf(stderr, "%s: not named .board\n", path);
        exit(2);
    }
    board->path = path;
    board->bytes = read_file(path, &board->length);
    if (board->length < 5) {
        fprintf(stderr, "%s: too short\n", path);
        exit(2);
    }
    board->n = board->bytes[2];
    board->k = (size_t)board->bytes[3] << 8 | board->bytes[4];
    board->counted = counted_of(board);
    read_answer(board);
}

/* The time of one check. Its answer must be the one due. */
static double once(const void *what, size_t turn)
{
    const struct board *board = what;
    const struct checker *checker = &CHECKER[turn];
    size_t answer[1 + PLAIN_ANSWER];
    double start = processor_time();

    answer[0] = checker->check(board->bytes, board->length, answer + 1);
    double taken = processor_time() - start;
    if (memcmp(answer, board->due, sizeof answer) != 0) {
        fprintf(stderr, "%s: %s answers %zu %zu, not as due\n", board->path, checker->name,
                answer[0], answer[1]);
        exit(1);
    }
    return taken;
}

static double faster_plain(const double *times)
{
    double best = times[0];

    for (size_t c = 1; c < LIBRARY; c++) {
        if (times[c] < best) {
            best = times[c];
        }
    }
    return best;
}

static const char *name_of(const char *path)
{
    const char *slash = strrchr(path, '/');

    return slash == NULL ? path : slash + 1;
}

static void print_heading(void)
{
    printf("%-19s %2s %5s %7s %6s %9s", "board", "n", "K", "counted", "rounds", "bytes");
    for (size_t c = 0; c < COUNT; c++) {
        printf(" %8s ms", CHECKER[c].name);
    }
    for (size_t c = 0; c < LIBRARY; c++) {
        printf(" library/%s", CHECKER[c].name);
    }
    printf(" library/faster of medians\n");
}

/* The least times, the library's ratio to each plain C and to the faster, and that of medians. */
static void print_line(const struct board *board)
{
    printf("%-19s %2zu %5zu %7zu %6zu %9zu", name_of(board->path), board->n, board->k, board->counted,
           board->due[1], board->length);
    for (size_t c = 0; c < COUNT; c++) {
        printf(" %11.3f", board->least[c]);
    }
    for (size_t c = 0; c < LIBRARY; c++) {
        printf(" %*.3f", 8 + (int)strlen(CHECKER[c].name), board->least[LIBRARY] / board->least[c]);
    }
    printf(" %14.3f %10.3f\n", board->least[LIBRARY] / faster_plain(board->least),
           board->median[LIBRARY] / faster_plain(board->median));
    fflush(stdout);
}

/* Milliseconds a ballot, of boards with as many processes and rounds as the first and no audited
 * ballot. */
static void print_growth(const struct board *boards, size_t count)
{
    printf("\ngrowth with K, n = %zu, %zu rounds, all ballots counted\n%5s", boards[0].n,
           boards[0].due[1], "K");
    for (size_t c = 0; c < COUNT; c++) {
        printf(" %8s ms a ballot", CHECKER[c].name);
    }
    printf("\n");
    for (size_t i = 0; i < count; i++) {
        if (boards[i].n != boards[0].n || boards[i].due[1] != boards[0].due[1] ||
            boards[i].counted != boards[i].k) {
            continue;
        }
        printf("%5zu", boards[i].k);
        for (size_t c = 0; c < COUNT; c++) {
            printf(" %20.4f", boards[i].least[c] / (double)boards[i].k);
        }
        printf("\n");
    }
}

/* The board of so many ballots, half of them audited, or NULL. */
static const struct board *half_audited(const struct board *boards, size_t count, size_t k)
{
    for (size_t i = 0; i < count; i++) {
        if (boards[i].k == k && 2 * boards[i].counted == k) {
            return &boards[i];
        }
    }
    return NULL;
}

/* Time with ten times as many ballots, half of them audited. */
static void print_half(const struct board *boards, size_t count)
{
    const struct board *few = half_audited(boards, count, 100);
    const struct board *many = half_audited(boards, count, 1000);

    if (few == NULL || many == NULL) {
        return;
    }
    printf("\nhalf of the ballots audited: time at K = 1000 over time at K = 100 (bar: below 10.5)\n");
    for (size_t c = 0; c < COUNT; c++) {
        printf("%8s %6.3f, of medians %6.3f\n", CHECKER[c].name, many->least[c] / few->least[c],
               many->median[c] / few->median[c]);
    }
}

static void print_highest(const struct board *boards, size_t count)
{
    double highest = 0;
    size_t at = 0;

    for (size_t i = 0; i < count; i++) {
        double ratio = boards[i].least[LIBRARY] / faster_plain(boards[i].least);
        if (ratio > highest) {
            highest = ratio;
            at = i;
        }
    }
    printf("\nhighest ratio to the faster plain C: %.3f (%s)\n", highest, name_of(boards[at].path));
}

static void measure_checks(char **paths, size_t count, size_t repeats, double seconds)
{
    struct board *boards = room_for(count, sizeof *boards);

    print_heading();
    for (size_t i = 0; i < count; i++) {
        struct board *board = &boards[i];
        read_board(board, paths[i]);
        by_turns(once, board, COUNT, repeats, seconds, board->least, board->median);
        print_line(board);
        free(board->bytes);
    }
    print_growth(boards, count);
    print_half(boards, count);
    print_highest(boards, count);
    free(boards);
}

static int usage(void)
{
    fputs("usage: bench [-r REPEATS] [-s SECONDS] [-f BOARD] BOARD...\n", stderr);
    return 2;
}

int main(int count, char **arguments)
{
    size_t repeats = 5;
    double seconds = 3;
    const char *walked = NULL;
    int first = 1;

    while (first + 1 < count && arguments[first][0] == '-') {
        if (strcmp(arguments[first], "-r") == 0) {
            repeats = strtoul(arguments[first + 1], NULL, 10);
        } else if (strcmp(arguments[first], "-s") == 0) {
            seconds = strtod(arguments[first + 1], NULL);
        } else if (strcmp(arguments[first], "-f") == 0) {
            walked = arguments[first + 1];
        } else {
            return usage();
        }
        first += 2;
    }
    if (first >= count || repeats < 1) {
        return usage();
    }
    measure_checks(arguments + first, (size_t)(count - first), repeats, seconds);
    if (walked != NULL) {
        measure_find(walked, repeats, seconds);
    }
    return 0;
}
