"""Receipts for the test program `find_cases`, filed under what they cover (covered.py): a board,
digests, and the places of the lent list.

A walk reads no further into a ballot than its kind, so most boards here have ballots of random
bytes and no sheet.  No two ballots of a walked board are equal, since each has its number: no case
can tell that the lowest of several numbers is the one found."""
import random

import board_cases
import boardref as ref
import find_audited
import gen
from boardref import be
from covered import FIND_PLACED, FINDS, PLACES as SPOTS, place
from mutate import Base
from walks import PLACES, Finds, Walk, digest, random_walk

HOUSE = gen.HOUSE
MOST = 500                                                   # digests


# ------------------------------------------------------------------ what is found

def flipped(one, at):
    return one[:at] + bytes([one[at] ^ 1]) + one[at + 1:]


def looked_up(cases, rng, walk):
    """One digest, several, equal ones, others."""
    name, board, pairs = walk.name, walk.board, walk.pairs
    numbers = list(zip(SPOTS, (0, walk.K // 2, walk.K - 1)))
    cases.found(name + '.none', board, [], 'count')
    cases.found(name + '.none.room', board, [], 'count', 'room', spare=PLACES)
    cases.found(name + '.all', board, pairs, *['found ' + spot for spot in SPOTS])
    cases.found(name + '.all.room', board, pairs, 'room', spare=1)
    cases.found(name + '.all.twice', board, pairs * 2, 'equal', 'room', spare=7)
    runs = [pair for pair in pairs + [(rng.randbytes(32), 0)] for _ in range(2 + pair[1] * 3 % 5)]
    cases.found(name + '.runs', board, runs, 'equal', 'absent')
    for spot, i in numbers:
        one, number = pairs[i]
        cases.found('%s.%d' % (name, number), board, [(one, number)], 'found ' + spot, 'count')
        cases.found('%s.%d.thrice' % (name, number), board, [(one, number)] * 3, 'equal', spare=1)
        at = (0, 15, 31)[SPOTS.index(spot)]
        cases.found('%s.%d.byte-%d-flipped' % (name, number, at), board,
                    [(one, number), (flipped(one, at), 0)], 'absent', 'count')
        cases.found('%s.%d.byte-%d-flipped-alone' % (name, number, at), board,
                    [(flipped(one, at), 0)], 'absent', 'count')
    strangers = [(rng.randbytes(32), 0) for _ in range(3)]
    cases.found(name + '.strangers', board, strangers, 'absent')
    cases.found(name + '.strangers-between', board, strangers + pairs + strangers[:1], 'absent',
                'equal')
    cases.found(name + '.least-and-greatest', board, pairs + [(bytes(32), 0), (b'\xff' * 32, 0)],
                'absent')


def places_of_a_list(cases, rng, walk):
    """A digest of the board at every place of short lists, the others of none."""
    one, number = walk.pairs[0]
    value = int.from_bytes(one, 'big')
    for length in (2, 3, 4, 5, 8):
        for at in range(length):
            others = [be(rng.randrange(value), 32) for _ in range(at)]
            others += [be(rng.randrange(value + 1, 2 ** 256), 32) for _ in range(length - 1 - at)]
            cases.found('%s.place-%d-of-%d' % (walk.name, at + 1, length), walk.board,
                        [(one, number)] + [(other, 0) for other in others],
                        'place ' + place(at, length), *['count'] * (length == 2))


def other_things(cases, walk):
    """Digests of what is no ballot."""
    ballot, board = walk.records[1], walk.board
    things = {'ballot-without-mark': ballot[2:], 'ballot-without-frame': ballot[4:],
              'ballot-cut': ballot[:-1], 'ballot-and-a-byte': ballot + b'\0',
              'two-ballots': ballot + walk.records[2], 'header': walk.records[0],
              'header-and-ballot': walk.records[0] + ballot, 'ballots': walk.ballots[54:],
              'board': board, 'nothing': b'', 'digest': walk.pairs[0][0]}
    things.update({'record-%d' % i: walk.records[i]
                   for i in range(walk.K + 1, len(walk.records))})
    for name, thing in things.items():
        cases.found('%s.of.%s' % (walk.name, name), board, [(digest(thing), 0)], 'other')
    cases.found(walk.name + '.of.all-these', board,
                walk.pairs + [(digest(thing), 0) for thing in things.values()], 'other')
    first = walk.pairs[0][0]
    cases.found(walk.name + '.backwards', board, [(first[::-1], 0)], 'absent')


def behind(cases, walk):
    """Whatever stands behind the last ballot."""
    rest = walk.board[len(walk.ballots):]
    tails = {'nothing': b'', 'a-byte': rest[:1], 'sheet-cut': rest[:-1],
             'another-mark': b'BA' + rest[2:], 'another-round': rest[:2] + b'\7' + rest[3:],
             'another-out': rest[:3] + b'\xff' + rest[4:],
             'count-above-k': rest[:4] + b'\xff' + rest[5:], 'a-byte-more': rest + b'\0',
             'sheet-twice': rest * 2, 'zeros': bytes(300),
             'the-next-ballot': b'BA' + be(walk.K + 1, 2) + walk.records[1][4:]}
    for name, tail in tails.items():
        cases.found('%s.behind.%s' % (walk.name, name), walk.ballots + tail, walk.pairs, 'behind')


def unproved(cases, base):
    """Fields changed so that the checker refuses with 7 or 8: the record as it stands is found."""
    for record, (kind, value) in zip((1, 2, base.K, 1, base.K), (
            ('b', 0), ('Y', 2 ** 32 - 1), ('e', base.q), ('t1', 1), ('r', 1))):
        field = [f for f in base.fields if f.record == record and f.kind == kind][-1]
        board = base.put(field, value)
        assert ref.check(board)[1:] == (8 if value == 1 else 7, record)
        changed = board[base.starts[record]:base.starts[record + 1]]
        cases.found('%s.ba%d.%s=%d' % (base.name, record, kind, value), board,
                    [(digest(changed), record), (digest(base.record(record)), 0)], 'unproved')


# ------------------------------------------------------------------ refusals of the list

def short_lists(cases, walk):
    """15, whatever the board."""
    for name, board in (('', walk.board), ('.empty-board', b''), ('.header-cut', walk.board[:53])):
        for spot, room in zip(SPOTS, (0, walk.K // 2, walk.K - 1)):
            cases.add('%s%s.room=%d' % (walk.name, name, room), (board, walk.rising, room),
                      ('refused', 15, 0), '15 ' + spot, *['two'] * (board != walk.board))
    cases.add(walk.name + '.one.room=0', (walk.board, walk.pairs[0][0], 0), ('refused', 15, 0),
              '15 first')


def odd_lengths(cases, walk):
    """16: no multiple of 32."""
    rising = walk.rising
    for digests in (b'\0', bytes(31), bytes(33), rising[:-1], rising[:-16], rising + b'\xff',
                    rising + b'\xff' * 31):
        name = '%s.%d-bytes' % (walk.name, len(digests))
        cases.refused(name, walk.board, digests, 16, 0, '16.length', spare=1)
        cases.refused(name + '.empty-board', b'', digests, 16, 0, '16.length', 'two')
        cases.add(name + '.room=0', (walk.board, digests, 0), ('refused', 16, 0), '16.length',
                  *['two'] * (len(digests) >= 32))


def not_rising(cases, rng, walk):
    """16: two that differ in one byte alone; two neighbours exchanged."""
    for spot, at in zip(SPOTS, (0, 15, 31)):
        one = flipped(walk.pairs[0][0], at)
        less, more = sorted((one, walk.pairs[0][0]))
        cases.refused('%s.falls-in-byte-%d' % (walk.name, at), walk.board, more + less, 16, 0,
                      '16.byte ' + spot)
    # a later byte rises, the first that differs falls; as signed bytes they would rise
    cases.refused(walk.name + '.falls-then-rises', walk.board,
                  b'\1' + bytes(31) + b'\0' + b'\xff' * 31, 16, 0, '16.byte first')
    cases.refused(walk.name + '.falls-from-128', walk.board, b'\x80' + bytes(31) + b'\x7f' * 32,
                  16, 0, '16.byte first')
    ones = sorted([one for one, _ in walk.pairs] + [rng.randbytes(32) for _ in range(5)])
    last = len(ones) - 2
    for spot, i in zip(SPOTS, (0, last // 2, last)):
        digests = b''.join(ones[:i] + [ones[i + 1], ones[i]] + ones[i + 2:])
        name = '%s.pair-%d-of-%d-falls' % (walk.name, i + 1, last + 1)
        cases.refused(name, walk.board, digests, 16, 0, '16.pair ' + spot)
        cases.refused(name + '.empty-board', b'', digests, 16, 0, 'two')
        cases.add(name + '.room=0', (walk.board, digests, 0), ('refused', 16, 0), 'two')
    cases.refused(walk.name + '.all-fall', walk.board, b''.join(ones[::-1]), 16, 0, '16.pair first')


def long_lists(cases, rng, walk):
    """500 digests and more."""
    board, (one, number) = walk.board, walk.pairs[-1]
    many = sorted(rng.randbytes(32) for _ in range(MOST - walk.K))
    cases.found(walk.name + '.500-equal', board, [(one, number)] * MOST, 'count', 'equal', 'room',
                spare=PLACES - MOST)
    most = b''.join(sorted(many + [one for one, _ in walk.pairs]))
    cases.add(walk.name + '.500.room=499', (board, most, MOST - 1), ('refused', 15, 0), '15 last')
    cases.refused(walk.name + '.501-equal', board, one * (MOST + 1), 16, 0, '16.most', spare=11)
    cases.add(walk.name + '.501.empty-board.room=0', (b'', most + b'\xff' * 32, 0),
              ('refused', 16, 0), '16.most', 'two')
    cases.refused(walk.name + '.16001-bytes', board, most + b'\xff', 16, 0, '16.length', '16.most',
                  spare=1)
    cases.refused(walk.name + '.500.last-pair-falls', board,
                  most[:-64] + most[-32:] + most[-64:-32], 16, 0, '16.pair last')
    cases.refused(walk.name + '.500.board-cut', board[:-1], most, 1, walk.K, '1 last')


# ------------------------------------------------------------------ refusals of the board

class Damaged:
    """Takes a damaged board as `cases` would get it.  A walk refuses alike up to the last ballot;
    a fault behind it is not seen."""

    def __init__(self, cases, walk):
        self.cases, self.walk = cases, walk

    def add(self, name, board, expect, *covers):
        _, number, record = expect
        if record > self.walk.K:
            self.cases.found(name, board, self.walk.pairs, 'behind')
            return
        covers = [cover.replace('.BA', '') for cover in covers]
        covers = [cover for cover in covers if cover.split()[0] in FINDS]
        if number <= 2 and 'two' not in covers:
            covers = ['%d %s' % (number, place(record, self.walk.K + 1))]
        self.cases.refused(name, board, self.walk.rising, number, record, *covers, spare=2)


def damaged(cases, base, walk):
    """1 to 6 as the checker has them, one fault at a time."""
    to = Damaged(cases, walk)
    board_cases.header_places(to, base)
    board_cases.headers(to)
    board_cases.frames(to, base)
    board_cases.numbers(to, base, 'BA')
    to.add(base.name + '.hd', b'HD' + base.board[2:], ('refused', 2, 0))


def whatever_is_asked(cases, walk):
    """The walk goes on to the last ballot, with no digest and where all are found before it."""
    first, last = walk.pairs[0][0], walk.pairs[-1][0]
    number0 = b'BA\0\0' + walk.records[walk.K][4:]
    faults = (('cut', walk.ballots[:-1], 1), ('number=0', walk.but({walk.K: number0}), 6),
              ('mark=sh', walk.but({walk.K: b'SH' + walk.records[walk.K][2:]}), 2))
    for name, digests in (('none', b''), ('first', first), ('first-twice', first * 2),
                          ('last', last), ('stranger', bytes(32))):
        for fault, board, number in faults:
            cases.refused('%s.%s.last-ballot.%s' % (walk.name, name, fault), board, digests, number,
                          walk.K, '%d last' % number)
    cases.refused(walk.name + '.none.empty-board', b'', b'', 1, 0, '1 first')
    cases.refused(walk.name + '.none.header-alone', walk.records[0], b'', 1, 1, '1 middle')


def numbers_like(cases, walk):
    """6: numbers that agree with the one due in one byte, or are a neighbour's."""
    for spot, k in zip(SPOTS, (1, (walk.K + 1) // 2, walk.K)):
        for number in sorted({0, k - 1, k + 1, k + 256, 256 * k, 65535} - {k}):
            record = b'BA' + be(number, 2) + walk.records[k][4:]
            cases.refused('%s.ba%d.number=%d' % (walk.name, k, number), walk.but({k: record}),
                          walk.rising, 6, k, '6 ' + spot)


def two_faults(cases, walk):
    """1 before 2 before 6 in a ballot; the ballot before the next one; the header before all."""
    K, records = walk.K, walk.records
    for k in (1, K):
        number0, both = b'BA\0\0' + records[k][4:], b'SH\0\0' + records[k][4:]
        for name, record, number in (('mark-and-number', both, 2), ('number', number0, 6),
                                     ('number-and-kind', number0[:4] + b'\2' + number0[5:], 6),
                                     ('all-three', both[:4] + b'\2' + both[5:], 2)):
            board = walk.but({k: record})
            cut = board[:walk.start(k) + len(record) - 1]
            cases.refused('%s.ba%d.cut-and-%s' % (walk.name, k, name), cut, walk.rising, 1, k,
                          'two')
            cases.refused('%s.ba%d.%s' % (walk.name, k, name), board, walk.rising, number, k,
                          *['two'] * (name != 'number'))
    late = {1: b'BA\0\0' + records[1][4:], K: b'XX' + records[K][2:]}
    cases.refused(walk.name + '.number-1-and-mark-%d' % K, walk.but(late), walk.rising, 6, 1, 'two')
    cases.refused(walk.name + '.number-1-and-cut', walk.but(late)[:-1], walk.rising, 6, 1, 'two')
    for name, header, number in (('mark', b'BA' + records[0][2:], 2),
                                 ('n', records[0][:2] + b'\1' + records[0][3:], 3),
                                 ('q', records[0][:9] + be(4, 4) + records[0][13:], 4),
                                 ('g1', records[0][:18] + be(1, 4) + records[0][22:], 5)):
        cases.refused('%s.hf.%s-and-number-1' % (walk.name, name),
                      walk.but({0: header, 1: late[1]}), walk.rising, number, 0, 'two')
        cases.refused('%s.hf.%s-and-cut' % (walk.name, name), header, walk.rising, number, 0, 'two')


def moved(cases, walk):
    """Ballots left out, twice, exchanged; one ballot more or fewer by the header."""
    head, one, two, three = walk.records[:4]
    for name, records, number, record in (
            ('without-1', [head, two, three], 6, 1), ('without-2', [head, one, three], 6, 2),
            ('without-3', [head, one, two], 1, 3), ('twice-1', [head, one, one, two, three], 6, 2),
            ('twice-2', [head, one, two, two, three], 6, 3),
            ('swapped-1-2', [head, two, one, three], 6, 1),
            ('swapped-2-3', [head, one, three, two], 6, 2),
            ('header-twice', [head, head, one, two, three], 2, 1)):
        cases.refused('%s.%s' % (walk.name, name), b''.join(records), walk.rising, number, record,
                      'order')
    more, fewer = (head[:3] + be(count, 2) + head[5:] for count in (4, 2))
    cases.refused(walk.name + '.k=4', walk.but({0: more}), walk.rising, 1, 4, 'order', '1 last')
    cases.found(walk.name + '.k=2', walk.but({0: fewer}),
                [(digest(one), 1), (digest(two), 2), (digest(three), 0)], 'order', 'behind')
    wider = head[:2] + b'\3' + head[3:]
    cases.refused(walk.name + '.n=3', walk.but({0: wider}), walk.rising, 1, 2, 'order')


# ------------------------------------------------------------------ boards of every size

def sizes(cases, rng):
    for n in range(2, 9):
        walk = random_walk(rng, 'random.n%d' % n, n, 2)
        cases.found(walk.name, walk.board, walk.pairs + [(bytes(32), 0)], 'n')
        if n in (3, 8):
            cases.refused(walk.name + '.cut', walk.board[:-1], walk.rising, 1, 2, '1 last')
    large = (2147483647, 31, gen.elements_g0(rng, 2147483647, 31))
    for n, K, group in ((2, 2, (7, 3, 2)), (2, 1, (7, 3, 4)), (4, 4, (11, 5, 4)),
                        (3, 3, (23, 11, 2)), (2, 30, large)):
        walk = random_walk(rng, 'random.n%d.k%d.q%d' % (n, K, group[1]), n, K, group)
        cases.found(walk.name, walk.board, walk.pairs, 'groups', 'n')


def thousand(cases, rng):
    walk = random_walk(rng, 'thousand', 2, 1000)
    edges = [pair for pair in walk.pairs if pair[1] in (1, 255, 256, 257, 512, 999, 1000)]
    others = [pair for pair in walk.pairs if pair not in edges]
    strangers = [(rng.randbytes(32), 0) for _ in range(100)]
    others = rng.sample(others, MOST - len(edges) - len(strangers))
    cases.found(walk.name, walk.board, edges + others + strangers, 'K1000', 'count', 'absent')


def finds():
    rng = random.Random(3)
    cases = Finds(FINDS, FIND_PLACED)
    two = Base(rng, 'two', 2, [[1, 2], [2, 1]], HOUSE)
    three = Base(rng, 'three', 3, [[1, 2, 3], [2, 3, 1], [3, 1, 2]], (23, 11, 2))
    sound = Walk(two.name, two.records())
    random3 = random_walk(rng, 'random', 2, 3)
    looked_up(cases, rng, random3)
    looked_up(cases, rng, random_walk(rng, 'one', 2, 1))
    find_audited.finds(cases, rng)
    places_of_a_list(cases, rng, random_walk(rng, 'single', 2, 1))
    other_things(cases, sound)
    behind(cases, sound)
    unproved(cases, two)
    unproved(cases, three)
    short_lists(cases, random3)
    odd_lengths(cases, random3)
    not_rising(cases, rng, random3)
    long_lists(cases, rng, random_walk(rng, 'long', 2, 2))
    damaged(cases, two, sound)
    whatever_is_asked(cases, random3)
    numbers_like(cases, random3)
    two_faults(cases, random3)
    moved(cases, random3)
    sizes(cases, rng)
    thousand(cases, rng)
    return cases
