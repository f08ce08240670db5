/* An example host in C: lends boards of any size to the library, and prints boardcheck's verdicts, the
 * ballots of receipts or the counts in sentences.
 *
 *   boardhost FILE...                  a verdict for each file
 *   boardhost --small BOARD...         the same, boards held to 5 processes and 200 ballots (23)
 *   boardhost --digests FILE BOARD...  for each board a line: found, and for each digest of FILE (of
 *                                      32 bytes, one after another) the ballot's number or 0; or the
 *                                      refusal
 *   boardhost --names FILE BOARD...    for each board its text, the processes named by FILE (a line
 *                                      each); or the refusal
 *
 * With no board it takes the one on standard input. A board that cannot be read gets a line on
 * standard error and no answer, and the next one follows; if the digests or names cannot be read, none
 * gets an answer. Where standard output is closed, or does not take an answer, a line on standard error
 * says why, and no other answer follows. Ends with 0 if all boards are accepted, walked or told, 1 if
 * one is refused, 2 if a file cannot be read or an answer cannot be printed; a pipe that nobody reads
 * any more ends it by SIGPIPE. */

/* For fcntl, which is POSIX's and not C's: under -std=c11 a header need not declare it unasked. */
#define _POSIX_C_SOURCE 200809L

#include <errno.h>
#include <fcntl.h>
#include <stdio.h>
#include <stdlib.h>
#include <string.h>
#include <unistd.h>

#include "gooseoften.h"

/* Failed: not read, or not printed. */
enum { ANSWERED = 0, REFUSED = 1, FAILED = 2, DIGEST = 32, DIGESTS_MOST = 500 };

struct bytes {
    uint8_t *start;
    size_t length;
};

/* The rest of a stream, in memory of the caller's; no start where it cannot be read. */
static struct bytes read_all(FILE *stream)
{
    struct bytes all = {NULL, 0};
    size_t room = 65536;
    uint8_t *more = malloc(room);
    while (more != NULL) {
        all.start = more;
        all.length += fread(all.start + all.length, 1, room - all.length, stream);
        if (all.length < room) {
            break;
        }
        room *= 2;
        more = realloc(all.start, room);
    }
    if (more == NULL || ferror(stream)) {
        free(all.start);
        all.start = NULL;
    }
    return all;
}

/* The bytes of a file, of standard input where it has no name; a line on standard error and no start
 * where it cannot be read. */
static struct bytes read_named(const char *name)
{
    struct bytes all = {NULL, 0};
    FILE *file = name == NULL ? stdin : fopen(name, "rb");
    if (file != NULL) {
        all = read_all(file);
        if (name != NULL) {
            fclose(file);
        }
    }
    if (all.start == NULL) {
        fprintf(stderr, "boardhost: cannot read %s\n", name == NULL ? "standard input" : name);
    }
    return all;
}

static int cannot_print(const char *reason)
{
    fprintf(stderr, "boardhost: cannot print: %s\n", reason);
    return FAILED;
}

/* The answer to a board, once standard output has taken all of it. A part that it did not take earlier
 * is known by ferror, and errno is still of that, since nothing but printing came after it. */
static int printed(int answered)
{
    if (fflush(stdout) != 0 || ferror(stdout)) {
        return cannot_print(strerror(errno));
    }
    return answered;
}

static int print_refusal(size_t code)
{
    printf("refused %zu %zu\n", gooseoften_refusal_number(code), gooseoften_refusal_record(code));
    return REFUSED;
}

/* An entry to the checker. */
typedef size_t entry(const uint8_t *board, size_t length, size_t answer[GOOSEOFTEN_CHECK_LENGTH]);

static int print_checked(entry *check, struct bytes board)
{
    size_t answer[GOOSEOFTEN_CHECK_LENGTH];
    size_t code = check(board.start, board.length, answer);
    if (code != 0) {
        return print_refusal(code);
    }
    printf("accepted\nrounds %zu\n", answer[GOOSEOFTEN_ROUNDS]);
    for (size_t i = 0; i + 1 < answer[GOOSEOFTEN_ROUNDS]; i++) {
        printf("out %zu\n", answer[GOOSEOFTEN_ORDER + i]);
    }
    printf("winner %zu\n", answer[GOOSEOFTEN_WINNER]);
    return ANSWERED;
}

static int print_verdict(struct bytes board, struct bytes nothing)
{
    (void)nothing;
    return print_checked(gooseoften_check, board);
}

static int print_small(struct bytes board, struct bytes nothing)
{
    (void)nothing;
    return print_checked(gooseoften_check_small, board);
}

/* Of more digests none is looked up: the list is refused. */
static int print_found(struct bytes board, struct bytes digests)
{
    uint16_t found[DIGESTS_MOST];
    size_t count = digests.length / DIGEST;
    size_t code = gooseoften_find(board.start, board.length, digests.start, digests.length, found,
                                  count < DIGESTS_MOST ? count : DIGESTS_MOST);
    if (code != 0) {
        return print_refusal(code);
    }
    printf("found");
    for (size_t i = 0; i < count; i++) {
        printf(" %u", (unsigned)found[i]);
    }
    printf("\n");
    return ANSWERED;
}

static int print_text(struct bytes board, struct bytes names)
{
    uint8_t text[GOOSEOFTEN_TEXT_MOST];
    size_t length[1];
    size_t code = gooseoften_text(board.start, board.length, names.start, names.length, text,
                                  sizeof text, length);
    if (code != 0) {
        return print_refusal(code);
    }
    fwrite(text, 1, length[0], stdout);
    return ANSWERED;
}

/* What is asked of every board, and what is lent for it: digests, names, or nothing. */
struct question {
    int (*print)(struct bytes board, struct bytes lent);
    struct bytes lent;
};

static int answer(const char *name, struct question question)
{
    struct bytes board = read_named(name);
    if (board.start == NULL) {
        return FAILED;
    }
    int answered = printed(question.print(board, question.lent));
    free(board.start);
    return answered;
}

/* The worst of the answers to the boards of these names, as far as they can be printed. */
static int answer_all(int count, char **names, struct question question)
{
    if (count == 0) {
        return answer(NULL, question);
    }
    int worst = ANSWERED;
    for (int i = 0; i < count && !ferror(stdout); i++) {
        int answered = answer(names[i], question);
        worst = answered > worst ? answered : worst;
    }
    return worst;
}

static int run(int count, char **arguments)
{
    struct question question = {print_verdict, {NULL, 0}};
    const char *option = count > 0 ? arguments[0] : "";
    if (strcmp(option, "--small") == 0) {
        question.print = print_small;
        return answer_all(count - 1, arguments + 1, question);
    }
    if (strcmp(option, "--digests") == 0) {
        question.print = print_found;
    } else if (strcmp(option, "--names") == 0) {
        question.print = print_text;
    } else {
        return answer_all(count, arguments, question);
    }
    if (count < 2) {
        fprintf(stderr, "usage: boardhost [--small | --digests FILE | --names FILE] [BOARD...]\n");
        return FAILED;
    }
    question.lent = read_named(arguments[1]);
    if (question.lent.start == NULL) {
        return FAILED;
    }
    int worst = answer_all(count - 2, arguments + 2, question);
    free(question.lent.start);
    return worst;
}

/* Whether standard output is closed is asked before a file is opened, which would take its place. */
int main(int count, char **arguments)
{
    if (fcntl(STDOUT_FILENO, F_GETFD) < 0) {
        return cannot_print("standard output is closed");
    }
    return run(count - 1, arguments + 1);
}
