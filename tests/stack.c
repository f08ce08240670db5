/* How much stack a call of the library takes: it runs on a stack of its own, filled beforehand, of
 * which the part that was written to is counted.
 *
 *   stack BOARD DIGESTS
 *
 * It writes a board of 8 processes in 7 rounds, of three ballots one audited, checks it, tells its
 * count with names of 20 letters, finds the digests of a file on the board of another, checks a
 * board of 5 processes in 4 rounds by the second entry, and prints the bytes of each call. */
#define _GNU_SOURCE
#include <stdbool.h>
#include <stdio.h>
#include <stdlib.h>
#include <string.h>
#include <ucontext.h>

#include "gooseoften.h"

enum { ROOM = 1 << 20, FILL = 0xa5, N = 8, K = 3, DRAWS = 10000, BOARD = 1 << 18, DIGESTS = 500 };
enum { SMALL = 5 }; /* the most processes of the screen */
enum { NAME = 21 }; /* 20 letters and a line feed */

static uint8_t board[BOARD], digests[DIGESTS * 32], text[GOOSEOFTEN_TEXT_MOST];
static size_t processes, length, digests_length, code;
static uint16_t found[DIGESTS];
static size_t answer[GOOSEOFTEN_WRITE_LENGTH];
static ucontext_t caller, callee;

static void check(void)
{
    code = gooseoften_check(board, length, answer);
}

static void check_small(void)
{
    code = gooseoften_check_small(board, length, answer);
}

static void find(void)
{
    code = gooseoften_find(board, length, digests, digests_length, found, DIGESTS);
}

static void tell(void)
{
    static uint8_t names[N * NAME];
    for (int i = 0; i < N; i++) {
        memset(names + i * NAME, 'A' + i, NAME - 1);
        names[i * NAME + NAME - 1] = '\n';
    }
    code = gooseoften_text(board, length, names, sizeof names, text, sizeof text, answer);
}

static void write_board(void)
{
    static uint8_t rankings[N * K], kinds[K] = {0, 0, 1}; /* the last is audited */
    static uint32_t draws[DRAWS];
    const char *label = "Gooseoften, stack of one call   ";
    for (size_t i = 0; i < processes * K; i++) {
        rankings[i] = (uint8_t)(1 + i % processes);
    }
    /* the second ballot ranks 2, 1, 3 and so on: nobody gets more than half */
    rankings[processes] = 2;
    rankings[processes + 1] = 1;
    for (size_t i = 0; i < DRAWS; i++) {
        draws[i] = (uint32_t)(1 + i); /* no two are equal */
    }
    code = gooseoften_write(processes, K, 2147483579, 1073741789, 4, 0, (const uint8_t *)label, 32,
                            rankings, processes * K, kinds, sizeof kinds, draws, DRAWS, board,
                            sizeof board, answer);
    length = answer[GOOSEOFTEN_BOARD_LENGTH];
}

/* The bytes of stack that a call writes to. */
static size_t stack_of(void (*call)(void))
{
    uint8_t *room = malloc(ROOM);
    size_t untouched = 0;
    if (room == NULL) {
        exit(2);
    }
    memset(room, FILL, ROOM);
    getcontext(&callee);
    callee.uc_stack.ss_sp = room;
    callee.uc_stack.ss_size = ROOM;
    callee.uc_link = &caller;
    makecontext(&callee, call, 0);
    swapcontext(&caller, &callee);
    while (untouched < ROOM && room[untouched] == FILL) {
        untouched++;
    }
    free(room);
    return ROOM - untouched;
}

/* How many bytes a file has, and where they go. */
static size_t read_file(const char *name, uint8_t *bytes, size_t room)
{
    FILE *file = fopen(name, "rb");
    if (file == NULL) {
        perror(name);
        exit(2);
    }
    size_t count = fread(bytes, 1, room, file);
    fclose(file);
    return count;
}

/* Ends the program where a call was refused. */
static void see(const char *what, bool as_due)
{
    if (!as_due) {
        fprintf(stderr, "stack: %s: %zu\n", what, code);
        exit(1);
    }
}

int main(int count, char **names)
{
    if (count != 3) {
        fputs("usage: stack BOARD DIGESTS\n", stderr);
        return 2;
    }
    processes = N;
    size_t writes = stack_of(write_board);
    see("the board was not written", code == 0 && answer[GOOSEOFTEN_ROUNDS] == N - 1);
    size_t checks = stack_of(check);
    see("the board was not accepted", code == 0);
    size_t texts = stack_of(tell);
    see("the count was not told", code == 0 && text[answer[0] - 1] == '\n');
    length = read_file(names[1], board, sizeof board);
    digests_length = read_file(names[2], digests, sizeof digests);
    size_t finds = stack_of(find);
    see("the board was not walked", code == 0);
    processes = SMALL;
    write_board();
    see("the small board was not written", code == 0 && answer[GOOSEOFTEN_ROUNDS] == SMALL - 1);
    size_t small = stack_of(check_small);
    see("the small board was not accepted", code == 0);
    printf("check %zu small %zu find %zu text %zu write %zu\n", checks, small, finds, texts, writes);
    return 0;
}
