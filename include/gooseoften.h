/* Gooseoften: checks and writes ranked-ballot boards, finds receipts on them, and tells their counts in
 * sentences. Link with libgooseoften.a.
 *
 * The five functions take any bytes and any numbers, keep nothing between calls, allocate nothing,
 * and read and write only what is lent. What they return and write is proved.
 *
 * What an accepted board promises: every rule holds on it. Its result is the plain count of its counted
 * ballots' rankings if their matrices open to rankings, and each later one to the one before with a row
 * struck; the proofs on the board vouch for that, and no further than its maker is trusted: the group
 * is below 2^31, so whoever makes a board can forge a proof by about q tries of the hash, minutes on a
 * desk computer, and the board is accepted. Let nobody make boards who is not trusted with the count:
 * audited ballots catch a ballot that is no ranking where it is among those opened, receipts one that
 * was exchanged, and neither a forged proof of a later round. Nor is a ranking secret from a computer
 * in such a group.
 *
 * The caller sees to it that each pointer has as many elements behind it as the length after it
 * says, that answer has its fixed length, that out, found and answer overlap nothing else that is
 * lent, and that nobody else writes to what is lent before the call returns. Where a length is 0 the
 * pointer may be anything, null too: nothing is read or written through it. answer is never null. */
#ifndef GOOSEOFTEN_H
#define GOOSEOFTEN_H

#include <stddef.h>
#include <stdint.h>

#ifdef __cplusplus
extern "C" {
#endif

/* The functions return 0, or a refusal: the number of the first rule that is broken, and 256 times
 * the record (or the ranking) that goes with it. These are the numbers. */
enum gooseoften_refusal {
    GOOSEOFTEN_LENGTH = 1,        /* bytes left are fewer than the record's length */
    GOOSEOFTEN_MARK = 2,          /* the mark differs from the one due */
    GOOSEOFTEN_SIZES = 3,         /* n or K is out of range */
    GOOSEOFTEN_ORDERS = 4,        /* a rule on p and q is broken */
    GOOSEOFTEN_GENERATORS = 5,    /* a rule on g0 or g1 is broken; of a job, or the label's length */
    GOOSEOFTEN_NUMBER = 6,        /* the number or the round is not the one due */
    GOOSEOFTEN_FIELD = 7,         /* a field is no group element, or not below q */
    GOOSEOFTEN_PROOF = 8,         /* a proof fails */
    GOOSEOFTEN_COUNT = 9,         /* a count is above the number of counted ballots */
    GOOSEOFTEN_TALLY = 10,        /* a tally equation fails */
    GOOSEOFTEN_OUT = 11,          /* out is not the one due */
    GOOSEOFTEN_REMAIN = 12,       /* bytes remain after the closing sheet */
    GOOSEOFTEN_RANKINGS = 13,     /* the rankings' length is wrong, or a ranking lacks a process */
    GOOSEOFTEN_DRAWS = 14,        /* draws are too few, or one is outside 1 to q - 1 */
    GOOSEOFTEN_OUTPUT = 15,       /* out or found is shorter than what is to be written */
    GOOSEOFTEN_DIGESTS = 16,      /* the digests are more than 500, out of order, or no multiple of 32
                                     bytes */
    GOOSEOFTEN_KIND = 17,         /* a ballot's kind is neither counted nor audited; of a job, or the
                                     kinds are not one a ballot */
    GOOSEOFTEN_OPENING = 18,      /* an audited ballot does not open to what it shows */
    GOOSEOFTEN_NONE_COUNTED = 19, /* no ballot is counted */
    GOOSEOFTEN_REPEAT = 20,       /* of a job: two x of a matrix are equal */
    GOOSEOFTEN_NAMES = 21,        /* the names are not one of 1 to 20 letters a process, each with a
                                     line feed after it, all different */
    GOOSEOFTEN_LIMITS = 23        /* of gooseoften_check_small: n is above 5 or K above 200, both in
                                     range */
};

static inline size_t gooseoften_refusal_number(size_t code)
{
    return code % 256;
}

/* The number of the record, from 0; with 12 the number of records read; with 13 the first bad
 * ranking from 1, or 0 for a wrong length; 0 where no record is concerned. */
static inline size_t gooseoften_refusal_record(size_t code)
{
    return code / 256;
}

/* The numbers in the answer of an accepted or written board. A refusal leaves the answer as it was. */
enum gooseoften_answer {
    GOOSEOFTEN_ROUNDS = 0,
    GOOSEOFTEN_WINNER = 1,
    GOOSEOFTEN_ORDER = 2, /* 8 numbers: the rounds - 1 processes in their order of going out, then 0 */
    GOOSEOFTEN_CHECK_LENGTH = 10,
    GOOSEOFTEN_BOARD_LENGTH = 10, /* of a written board */
    GOOSEOFTEN_WRITE_LENGTH = 11
};

/* The verdict on a board. Its result is that of the counted ballots; an audited ballot opens to the
 * ranking that it shows, with the exponents that it shows, and is not counted. A ballot's kind is in no
 * proof's message: that it was not turned is told by the receipt alone. */
size_t gooseoften_check(const uint8_t *board, size_t board_length,
                        size_t answer[GOOSEOFTEN_CHECK_LENGTH]);

/* The verdict for the screen in the council room, which shows five names and stores 200 ballots'
 * lines. A header of more than 5 processes or more than 200 ballots, audited ones included, is
 * refused (23, record 0): after the header's length and mark and the ranges of n and K (1 to 3),
 * ahead of its group and generators (4 and 5) and of all that stands behind it. On every other board
 * what is returned and written is what gooseoften_check returns and writes. */
size_t gooseoften_check_small(const uint8_t *board, size_t board_length,
                              size_t answer[GOOSEOFTEN_CHECK_LENGTH]);

/* Writes the board of a job to the front of out, or refuses and leaves out and answer as they were.
 * Rankings: a byte a place, one ranking after another, of every ballot. Kinds: a byte a ballot, 0
 * counted, 1 audited; at least one is counted. An audited ballot is opened instead of counted: its
 * record shows its ranking and the exponents of its pairs, which are draws. They are public then: the
 * caller sees to it that none of them is drawn for a counted ballot, too. Draws are used in the order
 * of the board; spare ones are ignored. That the exponents of one matrix differ need not be seen to:
 * a job in which two are equal is refused (20), and so is every job where q - 1 is below n * n. Across
 * matrices an exponent may repeat. */
size_t gooseoften_write(size_t n, size_t k, uint32_t p, uint32_t q, uint32_t g0, uint8_t counter,
                        const uint8_t *label, size_t label_length,
                        const uint8_t *rankings, size_t rankings_length,
                        const uint8_t *kinds, size_t kinds_length,
                        const uint32_t *draws, size_t draws_length,
                        uint8_t *out, size_t out_length,
                        size_t answer[GOOSEOFTEN_WRITE_LENGTH]);

/* Finds the ballots of receipts in one walk; a receipt is the SHA-256 digest of a BA record, all its
 * bytes. Writes for each digest to the front of found the number of its ballot from 1, of several the
 * lowest, or 0 for none, or refuses and leaves found as it was. Digests: up to 500 of 32 bytes, one
 * after another, none below the one before it. They are tested first (16), then found's length (15),
 * then the header and each BA's length, mark, number and kind (1 to 6 and 17). Fields, proofs and what
 * an audited ballot opens to are left to the check, and nothing after the last BA is read. */
size_t gooseoften_find(const uint8_t *board, size_t board_length,
                       const uint8_t *digests, size_t digests_length,
                       uint16_t *found, size_t found_length);

/* An output of so many bytes is long enough for the text of every board: 8 names of 20 letters, and
 * counts of 4 digits, in 7 lines. */
enum { GOOSEOFTEN_TEXT_MOST = 1454 };

/* Tells the count of a board: writes a line for each round to the front of out, and the length of all
 * lines to answer[0], or refuses and leaves out and answer as they were. A line is
 *   Round 2: Skyr counts 5, Quark counts 4; Skyr wins.
 * and a line feed: each process still in with its count, in the order of their numbers, then the one
 * that leaves ("; Quark leaves."), in the last round the one that wins. No zero ends the text. Names:
 * one a process, of 1 to 20 letters A to Z and a to z, each with a line feed (byte 10) after it, none
 * equal to another; large and small letters differ. The board is checked first, and refused as
 * gooseoften_check refuses it; then the names (21), then out's length (15). */
size_t gooseoften_text(const uint8_t *board, size_t board_length,
                       const uint8_t *names, size_t names_length,
                       uint8_t *out, size_t out_length, size_t answer[1]);

#ifdef __cplusplus
}
#endif

#endif
