/*
 * The plain C checker as a program.
 *
 *   plain               the board of standard input: its verdict as boardcheck prints it
 *   plain FILE...       the same for each of these boards
 *   plain --cases       the stored boards of crates/cases/stdin: a line for each, as `cases` prints
 *                       it, without the second verdict
 *
 * It has no limit of 65,536 bytes.
 */
#include "../files.h"
#include "plain.h"

#include <stdio.h>
#include <stdlib.h>
#include <string.h>

/* The verdict on a board copied into memory of its own, so that a read past its end can be seen. */
static size_t verdict(const uint8_t *board, size_t length, size_t *answer)
{
    uint8_t *copy = malloc(length > 0 ? length : 1);

    if (copy == NULL) {
        perror("memory");
        exit(2);
    }
    memcpy(copy, board, length);
    size_t refusal = plain_check(copy, length, answer);
    free(copy);
    return refusal;
}

/* The verdict's parts, each but the last followed by `between`. */
static void print_verdict(const uint8_t *board, size_t length, char between)
{
    size_t answer[PLAIN_ANSWER];
    size_t refusal = verdict(board, length, answer);

    if (refusal != PLAIN_ACCEPTED) {
        printf("refused %zu %zu\n", refusal, answer[0]);
        return;
    }
    printf("accepted%crounds %zu%c", between, answer[0], between);
    for (size_t i = 0; i + 1 < answer[0]; i++) {
        printf("out %zu%c", answer[2 + i], between);
    }
    printf("winner %zu\n", answer[1]);
}

/* A piece of the input at *at: a length of 4 bytes, high byte first, and then its bytes. */
static const uint8_t *piece(const uint8_t *input, size_t length, size_t *at, size_t *size)
{
    const uint8_t *from = input + *at;

    if (length - *at >= 4) {
        *size = (size_t)from[0] << 24 | (size_t)from[1] << 16 | (size_t)from[2] << 8 | from[3];
        if (length - *at - 4 >= *size) {
            *at += 4 + *size;
            return from + 4;
        }
    }
    fputs("bad input\n", stderr);
    exit(2);
}

/* Each frame is a name and a board. */
static void print_cases(const uint8_t *input, size_t length)
{
    size_t at = 0, name_length, board_length;

    while (at < length) {
        const uint8_t *name = piece(input, length, &at, &name_length);
        const uint8_t *board = piece(input, length, &at, &board_length);
        fwrite(name, 1, name_length, stdout);
        putchar(' ');
        print_verdict(board, board_length, ' ');
    }
}

int main(int count, char **arguments)
{
    size_t length;

    if (count > 1 && strcmp(arguments[1], "--cases") != 0) {
        for (int i = 1; i < count; i++) {
            uint8_t *board = read_file(arguments[i], &length);
            print_verdict(board, length, '\n');
            free(board);
        }
        return 0;
    }
    uint8_t *input = read_stream(stdin, "standard input", &length);
    if (count > 1) {
        print_cases(input, length);
    } else {
        print_verdict(input, length, '\n');
    }
    free(input);
    return 0;
}
