"""Counts in sentences for the test program `text_cases`, filed under what they cover (covered.py): a
board, names, and the bytes of the lent output.  Names, good and bad, are in text_names.py."""
import collections
import itertools
import random
import re

import boardref as ref
import gen
import text_names
from covered import PLACES, TEXT_PLACED, TEXTS
from craft import permutation_matrix
from elections import WORKED
from faults.election import Crafts, join
from faults.ties import held as forged
from mutate import Base
from text_boards import CHEESES, ROOM, Texts, lent, one_ballot, told

HOUSE = gen.HOUSE
CYCLE = [[1, 2, 3], [2, 3, 1], [3, 1, 2]]
LONG = [letter * 20 for letter in 'ABCDEFGH']

Held = collections.namedtuple('Held', 'name n board counts outs winner')


def two_camps(n):
    """Two opposite rankings: n - 1 rounds."""
    return [list(range(1, n + 1)), list(range(n, 0, -1))]


# ------------------------------------------------------------------ texts

def by_hand(cases, rng, three):
    """01's board of three rankings, and 02's own sentence."""
    cases.add('three', (three.board, b'Skyr\nQuark\nFeta\n', 119), ('text', (
        b'Round 1: Skyr counts 1, Quark counts 1, Feta counts 1; Feta leaves.\n'
        b'Round 2: Skyr counts 2, Quark counts 1; Skyr wins.\n')), 'hand', 'exact', 'ties')
    nine = Base(rng, 'nine', 3, [[1, 2, 3]] * 4 + [[2, 1, 3]] * 3 + [[3, 1, 2], [3, 2, 1]], HOUSE)
    cases.add('nine', (nine.board, b'Skyr\nQuark\nFeta\n', ROOM), ('text', (
        b'Round 1: Skyr counts 4, Quark counts 3, Feta counts 2; Feta leaves.\n'
        b'Round 2: Skyr counts 5, Quark counts 4; Skyr wins.\n')), 'hand', 'room')


def short(cases, held, names, room, spot):
    cases.add('%s.room=%d' % (held.name, room), (held.board, lent(names), room), ('refused', 15, 0),
              '15 ' + spot)


def rooms(cases, held, names):
    """15, a room that just fits, and room to spare."""
    length = len(told(held, names))
    for spot, some in zip(PLACES, ((0, 1), (9, length // 2), (length - 2, length - 1))):
        for room in some:
            short(cases, held, names, room, spot)
    for spare in (0, 1, 7, ROOM - length):
        cases.told('%s.spare=%d' % (held.name, spare), held, names, spare=spare)


def sizes(cases, rng):
    """2 to 8 processes in one round and in n - 1; some in between."""
    for n in range(2, 9):
        for lists in ([list(range(n, 0, -1))], two_camps(n)):
            held = Base(rng, 'n%d.k%d' % (n, len(lists)), n, lists, HOUSE)
            cases.told('%s.rounds%d' % (held.name, held.rounds), held, CHEESES[:n], 'n', 'rounds',
                       *['ties'] * (held.rounds > 1), spare=n)
    for n, K, rounds in ((4, 5, 2), (5, 5, 3)):
        lists = []
        while not lists or ref.plain_count(n, lists)[0] != rounds:
            lists = gen.rankings_of(rng, n, K, 'random')
        held = Base(rng, 'n%d.k%d' % (n, K), n, lists, HOUSE)
        cases.told('%s.rounds%d' % (held.name, rounds), held, CHEESES[8 - n:], 'n', 'rounds')


def longest(cases, rng):
    """8 names of 20 letters in 7 rounds."""
    eight = Base(rng, 'eight', 8, two_camps(8), HOUSE)
    text = told(eight, LONG)
    assert eight.rounds == 7 and len(text) == 1314 + 35               # 35 counts of one digit
    cases.told('eight.long', eight, LONG, 'longest')
    short(cases, eight, LONG, len(text) - 1, 'last')


def orders(cases, rng):
    """Of three each leaves first and each of the others wins: counts 1, 2, 2, then 3 and 2."""
    for out, winner, other in itertools.permutations((1, 2, 3)):
        lists = [[out, winner, other]] + [[winner, other, out], [other, out, winner]] * 2
        held = Base(rng, 'out%d.winner%d' % (out, winner), 3, lists, HOUSE)
        assert (held.outs, held.winner) == ([out], winner)
        cases.told(held.name, held, CHEESES[:3], 'leaves ' + PLACES[out - 1],
                   'wins ' + PLACES[winner - 1])


def ties(cases, rng):
    """Elections with equal counts worked by hand, those of smaller boards, forged ones among them, on
    which some of those gone out have counts too."""
    new = Crafts(rng).new
    for worked in WORKED:
        length = ref.board_length(worked.n, bytes(worked.K), len(worked.counts))
        if length < 20000:
            held = Held('equal.' + worked.name, worked.n, join(forged(new, worked)[0]), worked.counts,
                        worked.outs, worked.winner)
            gone = any(counts[a - 1] for m, counts in enumerate(held.counts) for a in held.outs[:m])
            cases.told(held.name, held, CHEESES[:held.n], 'ties', *['gone'] * gone)


def counts(cases, rng):
    """Counts of one to four digits, zeros among them; several rounds of two digits."""
    for one, other in ((9, 10), (20, 0), (99, 100), (101, 110), (1000, 0)):
        lists = [[1, 2]] * one + [[2, 1]] * other
        rng.shuffle(lists)
        held = Base(rng, 'counts-%d-%d' % (one, other), 2, lists, HOUSE)
        assert held.counts == [[one, other]]
        cases.told(held.name, held, CHEESES[:2], 'counts', *['K1000'] * (held.K == 1000))
        if one == 9:
            short(cases, held, CHEESES[:2], len(told(held, CHEESES[:2])) - 1, 'last')
    held = Base(rng, 'counts-21', 3, [[1, 3, 2]] * 10 + [[2, 1, 3]] * 10 + [[3, 2, 1]], HOUSE)
    assert held.counts == [[10, 10, 1], [10, 11, 0]]
    cases.told(held.name, held, CHEESES[:3], 'counts')


def audited(cases, rng):
    """Counts are over the counted ballots; sheets stand behind longer records."""
    two = [[1, 2], [2, 1], [1, 2]]
    four = [[1, 2, 3], [2, 3, 1], [3, 1, 2], [3, 2, 1]]
    for n, lists, numbers in ((2, two, (1,)), (2, two, (2,)), (2, two, (3,)), (2, two, (1, 3)),
                              (3, CYCLE + CYCLE[:1], (1,)), (3, four, (3,)), (3, four, (4,)),
                              (3, four, (1, 4)), (3, four, (2, 3, 4)),
                              (4, two_camps(4) + [[4, 2, 3, 1]], (3,)),
                              (5, two_camps(5) + [[3, 1, 2, 4, 5]] * 2, (2, 3)),
                              (2, [[1, 2], [2, 1]] * 10, range(1, 20, 2))):
        held = Base(rng, 'audited-' + '-'.join(map(str, numbers))[:20], n, lists, HOUSE, numbers)
        spot = {1: 'first', held.K: 'last'}.get(numbers[-1], 'middle')
        cases.told('%s.n%d.k%d.rounds%d' % (held.name, n, held.K, held.rounds), held, CHEESES[:n],
                   'audited ' + spot)


def groups(cases, rng):
    """Small groups, with names from the other end of the list."""
    large = 2147483647
    for n, lists, (p, q) in ((2, [[2, 1]], (7, 3)), (2, two_camps(2), (11, 5)), (3, CYCLE, (23, 11)),
                             (4, two_camps(4), (large, 11)), (5, two_camps(5), (large, 331))):
        held = Base(rng, 'group.n%d.q%d' % (n, q), n, lists, (p, q, gen.elements_g0(rng, p, q)))
        cases.told(held.name, held, CHEESES[::-1][:n], 'groups')


# ------------------------------------------------------------------ refusals of the board

def board_faults(base):
    """(number, record, the place that it is filed under, board) of a board of two rounds or more with
    no audited ballot; what stands behind the record that is refused is left out."""
    count, sheet = len(base.starts) - 1, base.K + 1
    last = count - 1

    def changed(number, spot, record, kind, value, at=-1):
        field = [f for f in base.fields if f.record == record and f.kind == kind][at]
        board = base.put(field, value(base.value(field)) if callable(value) else value)
        return number, record, spot, board[:base.starts[record + 1]]

    for spot, record in zip(PLACES, (0, sheet, last)):
        yield 1, record, spot, base.board[:base.starts[record + 1] - 1]
        yield changed(2, spot, record, 'mark', 0x5858)
    for number, kind, spot, value in (
            (3, 'n', 'first', 1), (3, 'K', 'last', 1001), (4, 'p', 'first', 9), (4, 'q', 'last', 4),
            (5, 'g0', 'first', 1), (5, 'g1', 'middle', base.g0), (5, 'label', 'last', 0)):
        yield changed(number, spot, 0, kind, value)
    for number, kinds, value in ((6, ('number', 'number', 'round'), 255), (7, 'brs', 2 ** 32 - 1)):
        for spot, record, kind in zip(PLACES, (1, sheet + 1, last), kinds):
            yield changed(number, spot, record, kind, value)
    for spot, record in zip(PLACES, (1, base.K, last - 1)):
        yield changed(8, spot, record, 'r', lambda old: (old + 1) % base.q)
    for number, value in ((9, base.K + 1), (10, lambda old: (old + 1) % (base.K + 1))):
        for spot, record, at in zip(PLACES, (sheet, sheet, last), (0, 1, -1)):
            yield changed(number, spot, record, 'count', value, at)
    yield changed(11, 'first', sheet, 'out', 0)
    yield changed(11, 'last', last, 'out', 1)
    for spot, tail in zip(PLACES, (b'\0', base.record(last), base.board)):
        yield 12, count, spot, base.board + tail
    for spot, k in zip(PLACES, (1, 2, base.K)):
        yield changed(17, spot, k, 'kind', 2)


def opening_faults(rng):
    """18 in the first, a middle and the last ballot; 19."""
    base = Base(rng, 'opening', 2, [[1, 2], [2, 1], [2, 1], [1, 2]], HOUSE, (1, 2, 4))
    for spot, k, kind in zip(PLACES, (1, 2, 4), ('x', 'ranked', 'x')):
        field = [f for f in base.fields if f.record == k and f.kind == kind][-1]
        yield 18, k, spot, base.put(field, 0)
    for spot, K in zip(PLACES, (1, 2, 3)):
        c = Crafts(rng).new(2, K)
        ballots = [c.ballot(k, permutation_matrix(2, [2, 1]), ranking=[2, 1]) for k in range(1, K + 1)]
        yield 19, K, spot, c.header() + join(ballots) + (c.sheet(1, 0) if K < 3 else b'')


def refused_boards(cases, rng, three):
    """The board's own refusal, whatever the names and the room: each of the four ways at the first
    place of a number, then by turns."""
    ways = list(itertools.product(('named', 'unnamed'), (ROOM, 0)))
    bad = (b'', b'Skyr\nSkyr\nSkyr\n', b'Skyr\n', b'Skyr\nQu@rk\nFeta\n')
    seen = set()
    for n, faults in ((3, board_faults(three)), (2, opening_faults(rng))):
        for turn, (number, record, spot, board) in enumerate(faults):
            seen.add(number)
            for named, room in ways if spot == 'first' else ways[turn % 4:][:1]:
                names = lent(CHEESES[:n]) if named == 'named' else bad[turn % 4]
                cases.add('refused%d.record%d.%s.room=%d' % (number, record, named, room),
                          (board, names, room), ('refused', number, record),
                          '%d %s' % (number, spot), *['board.names'] * (named == 'unnamed'),
                          *['board.room'] * (room == 0))
    assert seen == {*range(1, 13), 17, 18, 19}, seen
    cases.add('empty', (b'', b'', 0), ('refused', 1, 0), '1 first', 'board.names', 'board.room')
    cases.add('empty.named', (b'', lent(CHEESES[:3]), ROOM), ('refused', 1, 0), '1 first')
    cases.add('names-for-a-board', (lent(CHEESES[:3]), three.board, ROOM), ('refused', 1, 0),
              '1 first', 'board.names')


# ------------------------------------------------------------------ all

def all_told(cases):
    """The processes, rounds and counts that are wanted are on texts."""
    texts = [(item.case[0][2], item.expect[1]) for item in cases.items if item.expect[0] == 'text']
    assert {n for n, _ in texts} == set(range(2, 9))
    assert {text.count(b'\n') for _, text in texts} == set(range(1, 8))
    seen = {int(count) for _, text in texts for count in re.findall(rb' counts (\d+)', text)}
    assert seen >= {0, 1, 2, 9, 10, 11, 20, 99, 100, 101, 110, 1000}, seen


def texts():
    rng = random.Random(4)
    cases = Texts(TEXTS, TEXT_PLACED)
    three = Base(rng, 'three', 3, CYCLE, HOUSE)
    by_hand(cases, rng, three)
    rooms(cases, one_ballot(2), CHEESES[:2])
    rooms(cases, three, CHEESES[:3])
    sizes(cases, rng)
    longest(cases, rng)
    orders(cases, rng)
    ties(cases, rng)
    counts(cases, rng)
    audited(cases, rng)
    groups(cases, rng)
    refused_boards(cases, rng, three)
    text_names.names(cases)
    all_told(cases)
    return cases
