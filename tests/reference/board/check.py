"""check.py - the checker: a board read record by record.  Words in quotation marks are 01's, on the
header's mark, on a ballot's kind and on the second entry 02's."""
from .count import after_close, after_out, closes, first_standing, lowest_due, winner_due
from .group import (BOX, SMALL, Group, g0_holds, g1_holds, group_holds, make_g1, pair_of,
                    product_of, sizes_hold, within)
from .proofs import (Context, column_place, entry_claim, entry_place, line_claim, proof_holds,
                     row_place, shift_claim)
from .reading import Reading, Refused
from .sizes import (AUDITED, BA_FRAME, COUNTED, HF_LENGTH, ba_length, rows_of_round, rt_length,
                    sh_length)


def read_header(reading, limits=BOX):
    # "A header of this model starts HF, and HD meets refusal 2."
    reading.open(b'HF', HF_LENGTH)
    n = reading.number(1)
    K = reading.number(2)
    p = reading.number(4)
    q = reading.number(4)
    g0 = reading.number(4)
    counter = reading.number(1)
    g1 = reading.number(4)
    label = reading.take(32)
    # "HD: n or K out of range | 3"
    if not sizes_hold(n, K):
        reading.refuse(3)
    # "It refuses with 23 a header past 5 or 200 but within 3, right after 3."
    if not within(limits, n, K):
        reading.refuse(23)
    # "HD: a rule on p and q broken | 4"
    if not group_holds(n, K, p, q):
        reading.refuse(4)
    # "HD: a rule on g0 or g1 broken | 5"
    if not g0_holds(p, q, g0):
        reading.refuse(5)
    if g1 != make_g1(p, q, g0, counter, label) or not g1_holds(g0, g1):
        reading.refuse(5)
    reading.close()
    return n, K, Group(p, q, g0, g1, label)


def open_ballot(reading, n, k):
    """The frame of a ballot: what stands ahead of its pairs.  Returns the kind."""
    # "The length test reads up to the kind byte first"
    if reading.left() < BA_FRAME:
        reading.refuse(1)
    reading.open(b'BA', ba_length(n, reading.board[reading.next + 4]))
    # "BA, SH, RT: number or round not the one due | 6"
    if reading.number(2) != k:
        reading.refuse(6)
    # "with 17 another kind (after 6, ...)"
    kind = reading.number(1)
    if kind not in (COUNTED, AUDITED):
        reading.refuse(17)
    return kind


def read_matrix(reading, group, rows, n):
    """"n^2 pairs (b 4, Y 4) by rows" / "R x n pairs" """
    matrix = []
    for _ in range(rows):
        row = []
        for _ in range(n):
            b = reading.element(group)
            y = reading.element(group)
            row.append((b, y))
        matrix.append(row)
    return matrix


def read_proof(reading, group, branches, statements):
    """"A proof is, per branch, e 4, then per statement t1, t2, r, 4 each." """
    proof = []
    for _ in range(branches):
        e = reading.exponent(group)
        lines = []
        for _ in range(statements):
            t1 = reading.element(group)
            t2 = reading.element(group)
            r = reading.exponent(group)
            lines.append((t1, t2, r))
        proof.append((e, lines))
    return proof


def read_shown(reading, group, n):
    """"n^2 exponents x (4 bytes each) and the ranking (n bytes)"; "x >= q stays 7" """
    xs = [[reading.exponent(group) for _ in range(n)] for _ in range(n)]
    return xs, list(reading.take(n))


def opens(group, n, matrix, shown):
    """"every pair must open so": row i with v = 1 in the column of the process ranked i-th."""
    xs, ranking = shown
    if any(process not in ranking for process in range(1, n + 1)):
        return False
    for i in range(n):
        for j in range(n):
            if matrix[i][j] != pair_of(group, xs[i][j], 1 if ranking[i] == j + 1 else 0):
                return False
    return True


def read_ballot(reading, group, n, k):
    """"BA | number 2; n^2 pairs (b 4, Y 4) by rows; n^2 entry, n row, n column proofs"; "BA gains a
    kind byte after its number".  Returns the kind and the matrix."""
    kind = open_ballot(reading, n, k)
    # "same, fields left to right: ... | 7": the whole record is walked before any proof
    matrix = read_matrix(reading, group, n, n)
    entry_proofs = [[read_proof(reading, group, 2, 1) for _ in range(n)] for _ in range(n)]
    row_proofs = [read_proof(reading, group, 1, 1) for _ in range(n)]
    column_proofs = [read_proof(reading, group, 1, 1) for _ in range(n)]
    shown = read_shown(reading, group, n) if kind == AUDITED else None
    # "BA, SH: a proof fails | 8"
    def test(place, claim, proof):
        if not proof_holds(group, Context(b'BA', k, 1, place), claim, proof):
            reading.refuse(8)

    for i in range(n):
        for j in range(n):
            test(entry_place(n, i, j), entry_claim(group, matrix[i][j]), entry_proofs[i][j])
    for i in range(n):
        test(row_place(n, i), line_claim(group, matrix[i]), row_proofs[i])
    for j in range(n):
        column = [matrix[i][j] for i in range(n)]
        test(column_place(n, j), line_claim(group, column), column_proofs[j])
    # "with 18 last n bytes that are no ranking or a pair that does not open so (after 8...)"
    if kind == AUDITED and not opens(group, n, matrix, shown):
        reading.refuse(18)
    reading.close()
    return kind, matrix


def read_shift(reading, group, n, m, k, previous, a):
    """"SH | number 2; R x n pairs; one shift proof" """
    R = rows_of_round(n, m)
    reading.open(b'SH', sh_length(n, R))
    if reading.number(2) != k:
        reading.refuse(6)
    matrix = read_matrix(reading, group, R, n)
    proof = read_proof(reading, group, R + 1, 2 + R * n)
    claim = shift_claim(group, previous, matrix, a)
    if not proof_holds(group, Context(b'SH', k, m, 0), claim, proof):
        reading.refuse(8)
    reading.close()
    return matrix


def read_sheet(reading, group, standing, matrices):
    """"RT | round 1, out 1, then per process count 2, s 4".  matrices: of the counted ballots.
    Returns (next standing, None) or (last standing, winner)."""
    n, C = standing.n, standing.C
    reading.open(b'RT', rt_length(n))
    if reading.number(1) != standing.m:
        reading.refuse(6)
    out = reading.number(1)             # no rule of the walk is about out; see 11
    counts, sums = [], []
    for _ in range(n):
        count = reading.number(2)
        # "RT, in that same walk: count > K | 9"; "the count limit of 9 [is] over counted ballots"
        if count > C:
            reading.refuse(9)
        counts.append(count)
        sums.append(reading.exponent(group))
    # "RT: a tally equation fails | 10"
    # "For column i of round m, over all K ballots' first rows: product of b = g0^s * g1^count,
    #  product of Y = g1^s."; an audited ballot "enters no product"
    for i in range(n):
        if product_of(group, [M[0][i] for M in matrices]) != pair_of(group, sums[i], counts[i]):
            reading.refuse(10)
    # "RT: out is not the one due | 11";  "A closing sheet has out = 0"
    if closes(standing, counts):
        if out != 0:
            reading.refuse(11)
        reading.close()
        return after_close(standing, counts), winner_due(standing, counts)
    if out != lowest_due(standing, counts):
        reading.refuse(11)
    reading.close()
    return after_out(standing, counts, out), None


def check(board, limits=BOX):
    try:
        standing, winner = read_board(bytes(board), limits)
    except Refused as refused:
        return ('refused', refused.number, refused.record)
    return ('accepted', standing.m, list(standing.outs), winner)


def check_small(board):
    """"A second entry to the checker holds boards to n <= 5 and K <= 200, while the box keeps 8 and
    1,000.  Within the smaller limits both give the same result on each board." """
    return check(board, SMALL)


def read_board(board, limits=BOX):
    """The last standing count and the winner of an accepted board; raises Refused of any other."""
    reading = Reading(board)
    n, K, group = read_header(reading, limits)
    matrices = {}                       # of the counted ballots, by number
    for k in range(1, K + 1):
        kind, matrix = read_ballot(reading, group, n, k)
        if kind == COUNTED:
            matrices[k] = matrix
    # "with 19 a board with nothing counted (after the last BA, and naming it...)"
    if not matrices:
        raise Refused(19, K)
    standing = first_standing(n, len(matrices))
    standing, winner = read_sheet(reading, group, standing, list(matrices.values()))
    while winner is None:
        a = standing.outs[-1]
        # an audited ballot "has no SH (the others keep their numbers)"
        for k in matrices:
            matrices[k] = read_shift(reading, group, n, standing.m, k, matrices[k], a)
        standing, winner = read_sheet(reading, group, standing, list(matrices.values()))
    # "after the closing sheet: bytes remain | 12"; "(with 12, the number of records read)"
    if reading.left() > 0:
        reading.refuse(12)
    return standing, winner
