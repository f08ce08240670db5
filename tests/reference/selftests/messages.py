"""messages.py - the message of a challenge: by hand, on written boards in a second way, and contexts
other than the due one."""
import hashlib
import random

import boardref as ref
import gen
from board.proofs import proof_holds
from boardref import Context
from craft import Craft, permutation_matrix
from faults import messages, moved
from faults.election import LISTS3, Crafts

from .hand import G
from .jobs import random_job


def bytes_by_hand():
    """Commitments of any numbers; the label is of zeros.  In p = 23: 1/3 = 8, 1/2 = 12, 1/4 = 6,
    1/9 = 18, 1/13 = 16, 1/16 = 13."""
    def of(context, claim, *commitments):
        lines = iter(commitments)
        proof = [(7, [(*next(lines), 5) for _ in branch]) for branch in claim]
        return ref.message(G, context, claim, proof)

    label = '00' * 32
    entry = of(Context(b'BA', 258, 1, ref.entry_place(3, 1, 2)), ref.entry_claim(G, (4, 13)),
               (2, 3), (16, 12))
    assert entry.hex() == label + '4241' '0102' '01' '0005' + (
        '00000004' '0000000d' '00000002' '00000003' '00000009' '0000000d' '00000010' '0000000c')
    row = of(Context(b'BA', 3, 1, ref.row_place(3, 1)),
             ref.line_claim(G, [(4, 13), (16, 2), (1, 1)]), (8, 9))
    assert row.hex() == (label + '4241' '0003' '01' '000a'
                         '00000006' '00000003' '00000008' '00000009')
    column = of(Context(b'BA', 1000, 1, ref.column_place(8, 7)),
                ref.line_claim(G, [(9, 13), (16, 2), (2, 3)]), (6, 18))
    assert column.hex() == (label + '4241' '03e8' '01' '004f'
                            '00000004' '00000009' '00000006' '00000012')
    shift = of(Context(b'SH', 2, 6, 0), ref.shift_claim(
        G, [[(4, 13), (9, 13)], [(16, 2), (1, 1)]], [[(2, 3), (1, 1)]], 1),
        (1, 2), (3, 4), (6, 8), (9, 12), (13, 16), (18, 1), (2, 3), (4, 6))
    assert shift.hex() == label + '5348' '0002' '06' '0000' + (
        '00000009' '0000000d' '00000001' '00000002' '00000009' '0000000d' '00000003' '00000004'
        '00000003' '0000000d' '00000006' '00000008' '00000001' '00000001' '00000009' '0000000c'
        '0000000d' '00000002' '0000000d' '00000010' '00000001' '00000001' '00000012' '00000001'
        '0000000c' '00000002' '00000002' '00000003' '00000012' '00000010' '00000004' '00000006')


# ------------------------------------------------------------------ a second way

class Board:
    """A written board, read by the places of its fields."""

    def __init__(self, board):
        self.board, self.n, self.K = board, board[2], int.from_bytes(board[3:5], 'big')
        self.p, self.q, self.g1 = (self.word(at) for at in (5, 9, 18))

    def word(self, at):
        return int.from_bytes(self.board[at:at + 4], 'big')

    def frame(self, record):
        """The bytes ahead of a record's pairs: a ballot has a kind."""
        return 5 if self.board[record:record + 2] == b'BA' else 4

    def pairs(self, record, rows):
        """b and Y in turn, by rows."""
        start = record + self.frame(record)
        return [self.word(start + 4 * i) for i in range(2 * rows * self.n)]

    def over(self, x, y):
        return x * pow(y, self.p - 2, self.p) % self.p

    def product(self, numbers):
        product = 1
        for number in numbers:
            product = product * number % self.p
        return product

    def adds_up(self, record, m, place, at, branches):
        """Do the challenges of the proof at `at` add up to the hash?  branches: A and B in turn."""
        text = self.board[22:54] + self.board[record:record + 4] + bytes([m, 0, place])
        total = 0
        for numbers in branches:
            total += self.word(at)
            at += 4
            for A, B in zip(numbers[::2], numbers[1::2]):
                text += b''.join(x.to_bytes(4, 'big') for x in (A, B)) + self.board[at:at + 8]
                at += 12
        digest = hashlib.sha256(text).digest()
        return total % self.q == int.from_bytes(digest[:8], 'big') % self.q, at

    def ballot(self, record):
        """Where the ballot ends, once each of its proofs was tried."""
        n, pairs = self.n, self.pairs(record, self.n)
        at = record + self.frame(record) + 8 * n * n
        for place in range(n * n + 2 * n):
            if place < n * n:
                b, y = pairs[2 * place:2 * place + 2]
                branches = [[b, y], [self.over(b, self.g1), y]]
            else:
                i = (place - n * n) % n
                step, first = (1, i * n) if place < n * n + n else (n, i)
                cells = range(first, first + n * step, step)
                branches = [[self.over(self.product(pairs[2 * c] for c in cells), self.g1),
                             self.product(pairs[2 * c + 1] for c in cells)]]
            fine, at = self.adds_up(record, 1, place, at, branches)
            assert fine, (record, place)
        return at + (4 * n * n + n if self.board[record + 4] == 1 else 0)

    def shift(self, record, before, m, a):
        """The same of the shift of a ballot whose record of the round before starts at `before`."""
        n, rows = self.n, self.n - m + 1
        old, new = self.pairs(before, rows + 1), self.pairs(record, rows)
        branches = []
        for l in range(rows + 1):
            struck, kept = old[2 * l * n:2 * (l + 1) * n], old[:2 * l * n] + old[2 * (l + 1) * n:]
            others = [x for i, x in enumerate(struck) if i // 2 != a - 1]
            branches.append([self.over(struck[2 * a - 2], self.g1), struck[2 * a - 1],
                             self.product(others[::2]), self.product(others[1::2])]
                            + [self.over(x, y) for x, y in zip(new, kept, strict=True)])
        fine, at = self.adds_up(record, m, 0, record + 4 + 8 * rows * n, branches)
        assert fine, record
        return at


def second_way(data):
    """Every proof of an accepted board."""
    board = Board(data)
    at, before = 54, []
    for m in range(1, board.n):
        starts = []
        for k in range(board.K if m == 1 else len(before)):
            starts.append(at)
            at = board.ballot(at) if m == 1 else board.shift(at, before[k], m, out)
        before = starts if m > 1 else [start for start in starts if data[start + 4] == 0]
        out = data[at + 3]
        at += 4 + 6 * board.n
        if out == 0:
            break
    assert at == len(data)


def random_messages(count, seed):
    """How many proofs of shifts were among those of random boards."""
    rng = random.Random(seed)
    shifts = 0
    for i in range(count):
        job, (rounds, *_) = random_job(rng, i)
        second_way(gen.board_of(job))
        shifts += (rounds - 1) * (job.K - sum(job.kinds))
    assert shifts > count // 2
    return shifts


# ------------------------------------------------------------------ other contexts

def neighbours(context):
    """Contexts that differ in one part."""
    mark, number, m, place = context
    others = {'mark': {b'BA', b'SH', b'HF', b'RT'} - {mark},
              'number': {0, number - 1, number + 1, number + 256} - {number},
              'round': {0, m - 1, m + 1, 8} - {m},
              'place': {0, place + 1, place + 256, 79} - {place}}
    return [context._replace(**{part: value}) for part, values in others.items() for value in values]


def other_contexts():
    """A proof holds in its own context and in no other, of each kind of claim."""
    label, counter = gen.label_counter(random.Random(6), *gen.HOUSE)
    c = Craft(3, 1, *gen.HOUSE, counter, label, 6)
    V = permutation_matrix(3, [1, 2, 3])
    X, M = c.matrix(V)
    newX, new = c.matrix(V[:2])
    witnesses = [X[2][2], X[2][0] + X[2][1]]
    witnesses += [newX[i][j] - X[i][j] for i in (0, 1) for j in range(3)]
    g = c.group
    for context, claim, true_branch, xs in (
            (Context(b'BA', 2, 1, 1), ref.entry_claim(g, M[0][1]), 0, [X[0][1]]),
            (Context(b'BA', 2, 1, 10), ref.line_claim(g, M[1]), 0, [sum(X[1])]),
            (Context(b'BA', 2, 1, 14), ref.line_claim(g, [row[2] for row in M]), 0,
             [sum(row[2] for row in X)]),
            (Context(b'SH', 2, 2, 0), ref.shift_claim(g, M, new, 3), 2, witnesses)):
        proof = c.proof(context, claim, true_branch, xs)
        assert proof_holds(g, context, claim, proof)
        for other in neighbours(context):
            assert not proof_holds(g, other, claim, proof), other


class Refusals:
    """Takes boards as mutate.py does, and asserts their answers."""

    def __init__(self):
        self.count = 0

    def add(self, name, board, expect, note, sure=True):
        assert ref.check(board) == expect, (name, note, expect)
        self.count += 1


def refused_boards():
    """How many boards with another message, or with a proof moved, were refused as due."""
    out, new = Refusals(), Crafts(random.Random(7)).new
    for key in (('entry', 1, 2), ('row', 0), ('col', 2)):
        messages.in_a_ballot(out, new, [[3, 1, 2]], 1, key)
    messages.in_a_shift(out, new, LISTS3, 2, 3)
    messages.boards_of_01(out, new)
    moved.moved(out, new)
    assert out.count > 150, out.count
    return out.count
