"""Receipts of boards with audited ballots: see find_cases.py."""
import boardref as ref
import gen
from boardref import be
from covered import PLACES
from craft import permutation_matrix
from faults.base import Base
from faults.election import Crafts, join
from walks import digest, random_walk


def looked_up(cases, rng):
    """One, two and all of three ballots audited, each found by all its bytes."""
    for numbers in ((1,), (2,), (3,), (1, 3), (1, 2, 3)):
        walk = random_walk(rng, 'audited-' + '-'.join(map(str, numbers)), 2, 3, audited=numbers)
        spots = ['audited ' + PLACES[k - 1] for k in numbers]
        cases.found(walk.name + '.all', walk.board, walk.pairs, *spots)
        cases.found(walk.name + '.behind', walk.ballots + bytes(99), walk.pairs, 'behind')
        for k in numbers:
            cases.found('%s.%d' % (walk.name, k), walk.board, walk.pairs[k - 1:k],
                        'audited ' + PLACES[k - 1])
        parts(cases, walk, numbers[-1])
        kinds(cases, walk, numbers)


def parts(cases, walk, k):
    """What is not the whole record of an audited ballot."""
    n, record = walk.records[0][2], walk.records[k]
    size = ref.ba_length(n, ref.COUNTED)
    shown = record[size:]
    things = {'without-its-part': record[:size], 'part': shown, 'without-its-ranking': record[:-n],
              'counted': record[:4] + b'\0' + record[5:size],
              'without-its-kind': record[:4] + record[5:]}
    for name, thing in things.items():
        cases.found('%s.of.%s' % (walk.name, name), walk.board, [(digest(thing), 0)], 'part')


def kinds(cases, walk, numbers):
    """17 in each ballot; 6 before it, and before the next ballot's faults."""
    for k, where in enumerate(PLACES, 1):
        record = walk.records[k]
        for kind in (2, 255):
            board = walk.but({k: record[:4] + be(kind, 1) + record[5:]})
            cases.refused('%s.ba%d.kind=%d' % (walk.name, k, kind), board, walk.rising, 17, k,
                          '17 ' + where)
        board = walk.but({k: record[:2] + be(k + 1, 2) + b'\2' + record[5:]})
        cases.refused('%s.ba%d.number-and-kind' % (walk.name, k), board, walk.rising, 6, k, 'two')
    if numbers == (2,):
        first = walk.records[1][:4] + b'\2' + walk.records[1][5:]
        cases.refused(walk.name + '.kind-1-and-number-2', walk.but({1: first, 2: b'BA\0\0'}),
                      walk.rising, 17, 1, 'two')


def lengths(cases, rng):
    """The kind decides the length, even under another mark."""
    n, counted, audited = 2, ref.ba_length(2, ref.COUNTED), ref.ba_length(2, ref.AUDITED)
    for k in (1, 2):
        for kind in (0, 1, 2):
            walk = random_walk(rng, 'lengths.ba%d.kind%d' % (k, kind), n, 2, audited=(k,))
            before, record = join(walk.records[:k]), walk.records[k]
            for mark in (b'BA', b'XX'):
                other = mark + record[2:4] + be(kind, 1) + record[5:]
                for length in (4, 5, counted - 1, counted, audited - 1, audited):
                    short = length < ref.ba_length(n, kind)
                    number = 1 if short else 2 if mark == b'XX' else 17 if kind == 2 else 0
                    if number:
                        cases.refused('%s.%s.%d-bytes' % (walk.name, mark.decode(), length),
                                      before + other[:length], walk.rising, number, k, 'lengths')


def turned(cases, rng):
    """The kind byte alone turned: what follows stands elsewhere."""
    walk = random_walk(rng, 'turned', 2, 3, audited=(2,))
    two = walk.records[2]
    cases.refused('turned.ba2.kind=0', walk.but({2: two[:4] + b'\0' + two[5:]}), walk.rising, 2, 3,
                  'lengths')
    one = walk.records[1]
    cases.refused('turned.ba1.kind=1', walk.but({1: one[:4] + b'\1' + one[5:]}), walk.rising, 2, 2,
                  'lengths')


def unopened(cases, rng):
    """Boards that the checker refuses with 7, 8, 18 or 19: the records as they stand are found."""
    base = Base(rng, 'unopened', 2, [[1, 2], [2, 1], [2, 1]], gen.HOUSE, (2,))
    for kind, value, number in (('x', 1, 18), ('x', base.q, 7), ('ranked', 0, 18), ('ranked', 255, 18),
                                ('r', 1, 8)):
        field = [f for f in base.fields if f.record == 2 and f.kind == kind][-1]
        board = base.put(field, value)
        assert ref.check(board) == ('refused', number, 2)
        changed = board[base.starts[2]:base.starts[3]]
        cases.found('unopened.%s=%d' % (kind, value), board,
                    [(digest(changed), 2), (digest(base.record(2)), 0), (digest(base.record(3)), 3)],
                    'unopened')
    for K in (1, 2):
        c = Crafts(rng).new(2, K)
        ballots = [c.ballot(k, permutation_matrix(2, [2, 1]), ranking=[2, 1]) for k in range(1, K + 1)]
        board = c.header() + join(ballots) + c.sheet(1, 0)
        assert ref.check(board) == ('refused', 19, K)
        cases.found('none-counted.k%d' % K, board,
                    [(digest(ballot), k) for k, ballot in enumerate(ballots, 1)], 'unopened')


def sizes(cases, rng):
    for n, K, numbers in ((3, 2, (1,)), (8, 2, (1, 2)), (5, 3, (2,))):
        walk = random_walk(rng, 'audited.n%d.k%d' % (n, K), n, K, audited=numbers)
        cases.found(walk.name, walk.board, walk.pairs + [(bytes(32), 0)], 'n')
        cases.refused(walk.name + '.cut', walk.board[:-1], walk.rising, 1, K, '1 last')
    walk = random_walk(rng, 'thousand-audited', 2, 1000, audited=range(1, 1001, 2))
    chosen = [pair for pair in walk.pairs if pair[1] in (1, 2, 255, 256, 257, 512, 999, 1000)]
    cases.found(walk.name, walk.board, chosen + [(bytes(32), 0)], 'K1000')


def finds(cases, rng):
    looked_up(cases, rng)
    lengths(cases, rng)
    turned(cases, rng)
    unopened(cases, rng)
    sizes(cases, rng)
