"""audits.py - audited ballots by hand: what they open to, their lengths, the kinds of a job, and what
a board with some of them is held to."""
import hashlib
import random

import boardref as ref
import gen
from board.check import opens
from craft import Craft, layout, permutation_matrix

from .hand import G

LISTS = [[1, 2, 3], [2, 3, 1], [3, 1, 2], [2, 1, 3]]


def opened():
    """In p = 23: x = 5 opens (4, 13) with v = 1 and (9, 13) with v = 0, x = 7 opens (16, 2) with
    v = 1; x = 7 with v = 0 gives b = 2^7 = 13."""
    matrix = [[(9, 13), (4, 13)], [(16, 2), (13, 2)]]
    xs = [[5, 5], [7, 7]]
    assert opens(G, 2, matrix, (xs, [2, 1]))
    for ranking in ([1, 2], [2, 2], [1, 1], [0, 1], [2, 3], [2, 255]):
        assert not opens(G, 2, matrix, (xs, ranking)), ranking
    for i in (0, 1):
        for j in (0, 1):
            for x in range(11):
                other = [row[:] for row in xs]
                other[i][j] = x
                assert opens(G, 2, matrix, (other, [2, 1])) == (x == xs[i][j])
    # v = 1 in a row more, or in a row fewer
    assert not opens(G, 2, [[(4, 13), (4, 13)], matrix[1]], (xs, [2, 1]))
    assert not opens(G, 2, [[(9, 13), (9, 13)], matrix[1]], (xs, [2, 1]))


def lengths():
    """A counted ballot has 5 + 40n^2 + 32n bytes, an audited one 4n^2 + n more."""
    assert [ref.ba_length(2, kind) for kind in (0, 1, 2, 255)] == [229, 247, 229, 229]
    assert [ref.ba_length(8, kind) for kind in (0, 1)] == [2821, 3085]
    # 54 + 461 + 500 + 461 + 22; then two SH of 4 + 48 + 3 * 100 and a sheet
    assert ref.board_length(3, b'\0\1\0', 1) == 1498
    assert ref.board_length(3, b'\0\1\0', 2) == 1498 + 2 * 352 + 22
    assert ref.draws_needed(3, b'\0\1\0', 2) == 3 * 42 + 2 * 32


def job_of(kinds):
    rng = random.Random(9)
    label, counter = gen.label_counter(rng, *gen.HOUSE)
    return gen.Job(3, 4, *gen.HOUSE, counter, label, [x for r in LISTS for x in r], kinds,
                   gen.different(rng, gen.HOUSE[1], 10 ** 3), 10 ** 5)


def counted_alone():
    """Process 2 has 2 of 4, not more than half; with ballot 1 audited 2 of 3, with 1 and 3 all."""
    for kinds, rounds, outs, winner in ((b'\0\0\0\0', 2, [3], 2), (b'\1\0\0\0', 1, [], 2),
                                        (b'\1\0\1\0', 1, [], 2), (b'\0\1\1\1', 1, [], 1),
                                        (b'\0\1\0\0', 2, [3], 1), (b'\1\1\0\1', 1, [], 3)):
        answer = ref.write(*job_of(kinds))
        assert answer[2:] == (rounds, outs, winner), (kinds, answer[2:])
        assert ref.check(answer[1]) == ('accepted', rounds, outs, winner)
        # a counted ballot has 461 bytes, an audited one 500
        sheet = 54 + sum(500 if kind else 461 for kind in kinds)
        counts = [answer[1][sheet + 5 + 6 * i] for i in range(3)]
        assert sum(counts) == 4 - sum(kinds)


def orders_of_a_job():
    """"in the writer after 13, then 19, then 14" """
    good = job_of(b'\0\1\0\0')
    bad = good._replace(rankings=good.rankings[:3] + [1, 1, 2] + good.rankings[6:])
    poor = good._replace(draws=[], out_len=0)
    for job, number, which in (
            (bad._replace(kinds=b''), 13, 2), (bad._replace(kinds=b'\1\1\1\1'), 13, 2),
            (poor._replace(kinds=b'\1\1\1\2'), 17, 0), (poor._replace(kinds=b'\1\1\1'), 17, 0),
            (poor._replace(kinds=b'\1\1\1\1'), 19, 0), (poor, 14, 0),
            (good._replace(out_len=0), 15, 0)):
        assert ref.write(*job) == ('refused', number, which), (job.kinds, number)


def named_on_a_board():
    """n = 2, K = 3: ballots of 229, 247 and 229 bytes from 54, 283 and 530 on."""
    rng = random.Random(10)
    label, counter = gen.label_counter(rng, *gen.HOUSE)
    q = gen.HOUSE[1]
    job = gen.Job(2, 3, *gen.HOUSE, counter, label, [1, 2, 2, 1, 2, 1], b'\0\1\0',
                  gen.different(rng, q, 60), 10 ** 4)
    board = ref.write(*job)[1]
    assert len(board) == 54 + 229 + 247 + 229 + 16 and ref.check(board) == ('accepted', 1, [], 1)
    x, ranking = 283 + 229, 283 + 245

    def but(at, data, end=None):
        return ref.check(board[:at] + data + board[at + len(data):][:end])

    assert board[287] == 1 and board[ranking:530] == b'\2\1'
    assert ref.check(board[:287]) == ref.check(board[:283 + 246]) == ('refused', 1, 2)
    for kind in (b'\2', b'\x80', b'\xff'):
        assert but(287, kind) == ('refused', 17, 2)
    assert but(285, b'\0\0\2') == ('refused', 6, 2) and but(283, b'XX\0\0\2') == ('refused', 2, 2)
    for at in range(x, ranking, 4):
        old = int.from_bytes(board[at:at + 4], 'big')
        for value, number in ((q, 7), (old + q, 7), (2 ** 32 - 1, 7), ((old + 1) % q, 18), (0, 18)):
            assert but(at, value.to_bytes(4, 'big')) == ('refused', number, 2)
    for shown in (b'\1\2', b'\2\2', b'\0\1', b'\2\3', b'\2\xff'):
        assert but(ranking, shown) == ('refused', 18, 2)
    # a count above C, as C is 2 and K is 3
    sheet = 54 + 229 + 247 + 229
    assert but(sheet + 4, b'\0\3') == ('refused', 9, 4)
    assert but(sheet + 4, b'\0\2') == ('refused', 10, 4)
    # counted, ballot 2's audited part is where ballot 3 is due
    assert but(287, b'\0') == ('refused', 2, 3)


def every_field():
    """The layout table agrees with what the reader does, of two rounds and an audited ballot."""
    job = job_of(b'\0\1\0\0')
    board = ref.write(*job)[1]
    due = {'kind': 17, 'ranked': 18, 'mark': 2, 'number': 6, 'round': 6, 'count': 9, 'out': 11}
    due.update(dict.fromkeys(('b', 'Y', 't1', 't2', 'e', 'r', 's', 'x'), 7))
    seen = set()
    for f in layout(3, job.kinds, 2):
        if f.record > 0:
            bad = board[:f.start] + b'\xff' * f.width + board[f.start + f.width:]
            assert ref.check(bad) == ('refused', due[f.kind], f.record), f
            seen.add(f.kind)
    assert seen == set(due)


def none_counted():
    """19 names the last BA, after its own tests and before the sheet's."""
    for K in (1, 3):
        label, counter = gen.label_counter(random.Random(K), *gen.HOUSE)
        c = Craft(2, K, *gen.HOUSE, counter, label, K)
        ballots = [c.ballot(k, permutation_matrix(2, [2, 1]), ranking=[2, 1]) for k in range(1, K + 1)]
        board = c.header() + b''.join(ballots)
        for tail in (b'', b'R', c.sheet(1, 0)):
            assert ref.check(board + tail) == ('refused', 19, K)
        assert ref.check(board[:-1] + b'\2') == ('refused', 18, K)
        assert ref.check(board[:-1]) == ('refused', 1, K)
        digests = [hashlib.sha256(ballot).digest() for ballot in ballots]
        for k, digest in enumerate(digests, 1):
            assert ref.find(board, digest, 1) == ('found', [k])
            assert ref.find(board[:-1] + b'\2', digest, 1) == ('found', [k if k < K else 0])
        assert ref.find(board, hashlib.sha256(ballots[0][:229]).digest(), 1) == ('found', [0])


def by_hand():
    opened()
    lengths()
    counted_alone()
    orders_of_a_job()
    named_on_a_board()
    every_field()
    none_counted()
