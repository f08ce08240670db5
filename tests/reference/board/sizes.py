"""sizes.py - lengths of records and boards, and draws that they need.  Words in quotation marks are
01's, on a ballot's kind 02's."""

BOARDCHECK_LIMIT = 65536        # "boardcheck, serves boards up to 65,536 bytes"
HF_LENGTH = 54                  # "n 1, K 2, p 4, q 4, g0 4, counter 1, g1 4, label 32 | 54"


BA_FRAME = 5                    # mark 2, number 2, kind 1
COUNTED, AUDITED = 0, 1         # "a kind byte after its number: 0 counted, 1 audited"


def ba_length(n, kind):
    """"a record of another kind has the length of a counted one"; "An audited record ends with n^2
    exponents x (4 bytes each) and the ranking (n bytes)" """
    return BA_FRAME + 40 * n * n + 32 * n + (4 * n * n + n if kind == AUDITED else 0)


def sh_length(n, R):
    return 4 + 8 * R * n + (R + 1) * (28 + 12 * R * n)    # "4 + 8Rn + (R+1)(28 + 12Rn)"


def rt_length(n):
    return 4 + 6 * n                                      # "4 + 6n"


def rows_of_round(n, m):
    return n - m + 1                                      # "in round m, R = n-m+1 rows"


def counted_of(kinds):
    """How many ballots are counted."""
    return sum(kind == COUNTED for kind in kinds)


def board_length(n, kinds, rounds):
    """"A board is HD, K BA numbered 1 to K, RT; each further round is K SH, numbered
    alike, then RT."  Of an audited ballot: "It has no SH" """
    total = HF_LENGTH + sum(ba_length(n, kind) for kind in kinds) + rt_length(n)
    for m in range(2, rounds + 1):
        total += counted_of(kinds) * sh_length(n, rows_of_round(n, m)) + rt_length(n)
    return total


def ba_draws(n):
    return 4 * n * n + 2 * n                              # "BA needs 4n^2 + 2n"


def sh_draws(n, R):
    return R * n + (R + 1) * (2 + R * n) + R              # "SH needs Rn + (R+1)(2 + Rn) + R"


def matrices(n, kinds, rounds):
    """Rows of each matrix and draws of its record, in the board's order."""
    found = [(n, ba_draws(n)) for _ in kinds]
    for m in range(2, rounds + 1):
        R = rows_of_round(n, m)
        found += [(R, sh_draws(n, R))] * counted_of(kinds)
    return found


def draws_needed(n, kinds, rounds):
    return sum(draws for _, draws in matrices(n, kinds, rounds))


def x_places(n, kinds, rounds):
    """Which draws are the x of each matrix, as slices: "Draws are used in board order: per record one
    x a pair, then per proof and branch" """
    places, at = [], 0
    for rows, draws in matrices(n, kinds, rounds):
        places.append(slice(at, at + rows * n))
        at += draws
    return places
