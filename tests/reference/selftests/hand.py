"""hand.py - 01's hand-tried cases: pairs, headers, jobs, the printed text, sizes."""
import os
import random
import subprocess
import sys

import boardref as ref
import gen
from boardref import Group

G = Group(23, 11, 2, 3, bytes(32))


def pairs_by_hand():
    # "With p = 23, q = 11, g0 = 2, g1 = 3"
    assert ref.is_element(23, 11, 2) and ref.is_element(23, 11, 3)
    assert ref.pair_of(G, 5, 1) == (4, 13)
    assert ref.pair_of(G, 5, 0) == (9, 13)
    assert ref.pair_of(G, 7, 1) == (16, 2)
    assert ref.product_of(G, [(4, 13), (16, 2)]) == (18, 3)
    assert ref.pair_of(G, 1, 2) == (18, 3)                  # count 2, s 1
    assert ref.statement_holds(G, (9, 13), 3, 16, 12, 8)
    assert not ref.statement_holds(G, (9, 13), 3, 16, 12, 7)


def headers_by_hand(rng, label, counter):
    # "Empty board: refusal 1, record 0."
    assert ref.check(b'') == ('refused', 1, 0)
    # "n = 8 passes, 9 is 3. K = 1,000 passes, 1,001 is 3; K = 0 is 3. q = K is 4."
    p, q, g0 = gen.HOUSE
    g1 = ref.make_g1(p, q, g0, counter, label)

    def head(n, K):
        return ref.check(ref.header_bytes(n, K, p, q, g0, counter, g1, label))
    assert head(8, 1) == ('refused', 1, 1) and head(9, 1) == ('refused', 3, 0)
    assert head(2, 1000) == ('refused', 1, 1) and head(2, 1001) == ('refused', 3, 0)
    assert head(2, 0) == ('refused', 3, 0)
    g = gen.elements_g0(rng, 23, 11)
    lab, c = gen.label_counter(rng, 23, 11, g)
    h = ref.make_g1(23, 11, g, c, lab)
    assert ref.check(ref.header_bytes(2, 11, 23, 11, g, c, h, lab)) == ('refused', 4, 0)
    assert ref.check(ref.header_bytes(2, 10, 23, 11, g, c, h, lab)) == ('refused', 1, 1)


def jobs_by_hand(rng, label, counter):
    """Returns the board of three processes and three ballots."""
    # "01's two board lengths become 528 and 2,537."  "222 draws."
    assert ref.board_length(2, bytes(2), 1) == 528
    assert ref.board_length(3, bytes(3), 2) == 2537 and ref.draws_needed(3, bytes(3), 2) == 222
    q = gen.HOUSE[1]
    job = gen.Job(3, 3, *gen.HOUSE, counter, label, [1, 2, 3, 2, 3, 1, 3, 1, 2], bytes(3),
                  gen.different(rng, q, 222), 2537)
    answer = ref.write(*job)
    assert answer[0] == 'written' and len(answer[1]) == 2537 and answer[2:] == (2, [3], 1)
    assert ref.write(*job._replace(draws=job.draws[:221])) == ('refused', 14, 0)
    assert ref.write(*job._replace(out_len=2536)) == ('refused', 15, 0)
    # one ranking more each way: 528 bytes
    two = ref.write(2, 2, *gen.HOUSE, counter, label, [1, 2, 2, 1], bytes(2),
                    gen.different(rng, q, 2 * ref.ba_draws(2)), 528)
    assert two[0] == 'written' and len(two[1]) == 528 and two[2:] == (1, [], 1)
    return answer[1]


def boardcheck_by_hand(board):
    """The text for the board of jobs_by_hand, the program's too, and the limit of length."""
    text = 'accepted\nrounds 2\nout 3\nwinner 1\n'
    assert ref.boardcheck(board) == text
    program = [sys.executable, os.path.join(os.path.dirname(ref.__file__), 'boardref.py')]
    ran = subprocess.run(program, input=board, capture_output=True)
    assert ran.stdout == text.encode()
    ran = subprocess.run(program, input=b'', capture_output=True)
    assert ran.stdout == b'refused 1 0\n'
    assert ref.boardcheck(bytes(65536)) == 'refused 2 0\n'
    assert ref.boardcheck(bytes(65537)) == 'too long\n'
    # board of 54 bytes cut, one byte more
    assert ref.check(board[:53]) == ('refused', 1, 0)
    assert ref.check(board[:54]) == ('refused', 1, 1)
    assert ref.check(board + b'\0') == ('refused', 12, 9)


def sizes_by_hand():
    # eight processes: one proof of eight branches, 58 statements in each
    X = [[(1, 1)] * 8 for _ in range(8)]
    claim = ref.shift_claim(G, X, X[:7], 3)
    assert len(claim) == 8 and all(len(b) == 58 for b in claim)
    # house group: no safe prime between it and 2^31
    p, q, _ = gen.HOUSE
    assert ref.is_prime(p) and ref.is_prime(q) and p == 2 * q + 1
    assert not any(ref.is_prime(x) and ref.is_prime(x // 2) for x in range(p + 2, 2 ** 31, 2))


def hand_cases():
    """Returns the board of jobs_by_hand."""
    pairs_by_hand()
    label, counter = gen.label_counter(random.Random(1), *gen.HOUSE)
    rng = random.Random(2)
    headers_by_hand(rng, label, counter)
    board = jobs_by_hand(rng, label, counter)
    boardcheck_by_hand(board)
    sizes_by_hand()
    return board
