"""write.py - the writer: proofs, records and whole boards made from rankings, kinds and draws.  Words
in quotation marks are 01's, on kinds and on repeats 02's."""
from itertools import combinations

from .group import (Group, g0_holds, g1_holds, group_holds, make_g1, over, pair_of, power,
                    sizes_hold)
from .plain_count import plain_count
from .proofs import (Context, be, challenge, column_place, entry_claim, entry_place, line_claim,
                     message, row_place, shift_claim)
from .sizes import AUDITED, COUNTED, board_length, draws_needed, x_places


class Draws:
    """"Draws are used in board order" """

    def __init__(self, draws):
        self.draws = draws
        self.used = 0

    def next(self):
        self.used += 1
        return self.draws[self.used - 1]


def make_proof(group, context, claim, true_branch, witnesses, draws):
    """"then per proof and branch, false branches a challenge and their responses, the true
    one its nonces (t1 = g0^nonce, t2 = g1^nonce).  A false branch's commitments follow from
    its equations." """
    proof = []
    nonces = None
    for index, branch in enumerate(claim):
        if index == true_branch:
            nonces = [draws.next() for _ in branch]
            proof.append((None, [(power(group, group.g0, k), power(group, group.g1, k), None)
                                 for k in nonces]))
        else:
            e = draws.next()
            responses = [draws.next() for _ in branch]
            lines = []
            for (A, B), r in zip(branch, responses):
                t1 = over(group, power(group, group.g0, r), power(group, A, e))
                t2 = over(group, power(group, group.g1, r), power(group, B, e))
                lines.append((t1, t2, r))
            proof.append((e, lines))
    # "the challenges add up, modulo q, to c": this fixes the true branch's challenge, and
    # the equations g0^r = t1 * A^e, g1^r = t2 * B^e then fix its responses.
    c = challenge(group, message(group, context, claim, proof))
    e = (c - sum(f for f, _ in proof if f is not None)) % group.q
    lines = [(t1, t2, (k + e * w) % group.q)
             for (t1, t2, _), k, w in zip(proof[true_branch][1], nonces, witnesses, strict=True)]
    proof[true_branch] = (e, lines)
    return proof


def matrix_bytes(matrix):
    return b''.join(be(b, 4) + be(y, 4) for row in matrix for b, y in row)


def proof_bytes(proof):
    parts = []
    for e, lines in proof:
        parts.append(be(e, 4))
        for t1, t2, r in lines:
            parts.append(be(t1, 4) + be(t2, 4) + be(r, 4))
    return b''.join(parts)


def header_bytes(n, K, p, q, g0, counter, g1, label):
    return (b'HF' + be(n, 1) + be(K, 2) + be(p, 4) + be(q, 4) + be(g0, 4) + be(counter, 1)
            + be(g1, 4) + label)


def sheet_bytes(m, out, counts, sums):
    return (b'RT' + be(m, 1) + be(out, 1)
            + b''.join(be(count, 2) + be(s, 4) for count, s in zip(counts, sums, strict=True)))


def draw_matrix(group, n, processes, draws):
    """One x a pair, by rows.  "Row i of a ballot matrix has v = 1 in the column of the
    process ranked i-th, else 0."  Returns the xs and the pairs."""
    xs, matrix = [], []
    for process in processes:
        x_row, row = [], []
        for j in range(1, n + 1):
            x = draws.next()
            x_row.append(x)
            row.append(pair_of(group, x, 1 if j == process else 0))
        xs.append(x_row)
        matrix.append(row)
    return xs, matrix


def shown_bytes(xs, ranking):
    """"An audited record ends with n^2 exponents x (4 bytes each) and the ranking (n bytes)" """
    return b''.join(be(x, 4) for row in xs for x in row) + bytes(ranking)


def write_ballot(group, n, k, kind, ranking, draws):
    xs, matrix = draw_matrix(group, n, ranking, draws)
    parts = [b'BA', be(k, 2), be(kind, 1), matrix_bytes(matrix)]

    def prove(place, claim, true_branch, witness):
        proof = make_proof(group, Context(b'BA', k, 1, place), claim, true_branch, [witness], draws)
        parts.append(proof_bytes(proof))

    for i in range(n):
        for j in range(n):
            prove(entry_place(n, i, j), entry_claim(group, matrix[i][j]),
                  1 if ranking[i] == j + 1 else 0, xs[i][j])
    for i in range(n):
        prove(row_place(n, i), line_claim(group, matrix[i]), 0, sum(xs[i]) % group.q)
    for j in range(n):
        column = [matrix[i][j] for i in range(n)]
        prove(column_place(n, j), line_claim(group, column), 0,
              sum(xs[i][j] for i in range(n)) % group.q)
    if kind == AUDITED:
        parts.append(shown_bytes(xs, ranking))
    return b''.join(parts), xs, matrix


def write_shift(group, n, m, k, a, processes, old_xs, old_matrix, draws):
    """The shift of round m.  processes: the list of the matrix before.  Returns record, new list,
    xs, matrix."""
    l = processes.index(a) + 1                       # the row struck
    new_processes = [i for i in processes if i != a]
    xs, matrix = draw_matrix(group, n, new_processes, draws)
    witnesses = [old_xs[l - 1][a - 1],
                 sum(old_xs[l - 1][j - 1] for j in range(1, n + 1) if j != a) % group.q]
    for i in range(1, len(matrix) + 1):
        source = old_xs[i - 1] if i < l else old_xs[i]
        for j in range(1, n + 1):
            witnesses.append((xs[i - 1][j - 1] - source[j - 1]) % group.q)
    proof = make_proof(group, Context(b'SH', k, m, 0), shift_claim(group, old_matrix, matrix, a),
                       l - 1, witnesses, draws)
    record = b'SH' + be(k, 2) + matrix_bytes(matrix) + proof_bytes(proof)
    return record, new_processes, xs, matrix


def first_row_sums(group, n, all_xs):
    return [sum(xs[0][i] for xs in all_xs) % group.q for i in range(n)]


def header_refusal(n, K, p, q, g0, counter, label):
    """The number of the first rule of a header that these break, or None."""
    # "It checks n and K (3),"
    if not sizes_hold(n, K):
        return 3
    # "group (4),"
    if not group_holds(n, K, p, q):
        return 4
    # "label and generators (5: a label not of 32 bytes, or a rule on g0 or g1 broken),"
    if len(label) != 32:
        return 5
    if not g0_holds(p, q, g0):
        return 5
    if not g1_holds(g0, make_g1(p, q, g0, counter, label)):
        return 5
    return None


def write_records(group, n, counter, lists, kinds, count, source):
    """The records of a board.  lists: the K rankings; count: plain_count's answer on the counted
    ones."""
    K = len(lists)
    rounds, all_counts, outs, _ = count
    parts = [header_bytes(n, K, group.p, group.q, group.g0, counter, group.g1, group.label)]
    last = {}                           # list, xs and matrix of the counted ballots, by number
    for k in range(1, K + 1):
        record, xs, matrix = write_ballot(group, n, k, kinds[k - 1], lists[k - 1], source)
        parts.append(record)
        if kinds[k - 1] == COUNTED:
            last[k] = (lists[k - 1], xs, matrix)
    for m in range(1, rounds + 1):
        if m > 1:
            a = outs[m - 2]
            for k in last:
                record, *last[k] = write_shift(group, n, m, k, a, *last[k], source)
                parts.append(record)
        out = outs[m - 1] if m < rounds else 0
        sums = first_row_sums(group, n, [xs for _, xs, _ in last.values()])
        parts.append(sheet_bytes(m, out, all_counts[m - 1], sums))
    return parts


def write_board(group, n, counter, lists, kinds, count, draws):
    """The board, whether or not a matrix uses an x twice: the tests are write's."""
    source = Draws(draws)
    board = b''.join(write_records(group, n, counter, lists, kinds, count, source))
    assert source.used == draws_needed(n, kinds, count[0])
    assert len(board) == board_length(n, kinds, count[0])
    return board


def ballots_refusal(n, K, rankings, kinds):
    """The number of the first rule of rankings and kinds that these break and what goes with it, or
    None."""
    # "rankings (13: list not K x n long, or a ranking lacks a process),"
    # "With 13 goes the first bad ranking from 1, or 0 for a wrong length"
    if len(rankings) != K * n:
        return 13, 0
    for k in range(K):
        if any(process not in rankings[k * n:(k + 1) * n] for process in range(1, n + 1)):
            return 13, k + 1
    # "17 another kind (... in the writer after 13, then 19, then 14; also for a kind list not K long)"
    if len(kinds) != K or any(kind not in (COUNTED, AUDITED) for kind in kinds):
        return 17, 0
    # "19 a board with nothing counted (... in the writer with 0)"
    if COUNTED not in kinds:
        return 19, 0
    return None


def draws_hold(draws, needed, q):
    """"draws (14: fewer than needed, or a needed one outside 1 to q-1)" """
    return len(draws) >= needed and all(1 <= d <= q - 1 for d in draws[:needed])


def x_repeats(n, kinds, rounds, draws):
    """"The writer now tests that the x of a matrix are pairwise different.  Across matrices a repeat
    stays allowed." """
    drawn = [draws[place] for place in x_places(n, kinds, rounds)]
    return any(x == y for xs in drawn for x, y in combinations(xs, 2))


def write(n, K, p, q, g0, counter, label, rankings, kinds, draws, out_len):
    """rankings: flat list of bytes; kinds: list of bytes, one a ballot; draws: list of 32-bit
    numbers; out_len: length of the lent output.  counter is one byte ("a counter of any value": 0 to
    255)."""
    number = header_refusal(n, K, p, q, g0, counter, label)
    if number is not None:
        return ('refused', number, 0)
    refusal = ballots_refusal(n, K, rankings, kinds)
    if refusal is not None:
        return ('refused', *refusal)
    lists = [list(rankings[k * n:(k + 1) * n]) for k in range(K)]
    # "The plain result now concerns counted rankings"
    count = plain_count(n, [ranking for ranking, kind in zip(lists, kinds) if kind == COUNTED])
    rounds, _, outs, winner = count
    if not draws_hold(draws, draws_needed(n, kinds, rounds), q):
        return ('refused', 14, 0)
    # "It refuses with 20 a repeat, after 14 and before 15."
    if x_repeats(n, kinds, rounds, draws):
        return ('refused', 20, 0)
    # "output (15: shorter than the board)."
    if out_len < board_length(n, kinds, rounds):
        return ('refused', 15, 0)
    group = Group(p, q, g0, make_g1(p, q, g0, counter, label), bytes(label))
    board = write_board(group, n, counter, lists, kinds, count, draws)
    return ('written', board, rounds, outs, winner)
