"""Boards for the test program `cases`, filed under what they cover (covered.py).  Damaged and
dishonest records are made by the reference's craft.py and faults."""
import random
import re

import audit_cases
import boardref as ref
import gen
import message_cases
import mutate
import small_cases
from boardref import be
from covered import BIG, BOARDS, PLACED, PLACES, Cases, Pool, place
from elections import WORKED
from mutate import Base

HOUSE = gen.HOUSE
FIELDS = ('b', 'Y', 'e', 't1', 't2', 'r', 's')               # those that refusal 7 may name


# ------------------------------------------------------------------ every refusal, by its places

def by_kind(base, record):
    """The fields of a record that refusal 7 may name, by kind, the kinds of proof apart."""
    kinds = {}
    for f in base.fields:
        if f.record == record and f.kind in FIELDS:
            kinds.setdefault(f.kind + ('.' + f.detail[0] if f.kind in ('e', 't1', 't2', 'r') else ''),
                             []).append(f)
    return kinds


def records_of(base, mark):
    return sorted({f.record for f in base.fields if f.mark == mark})


def places_in(base, mark):
    """For each kind of field: the first in the first record of a mark, a middle one in a middle
    record, the last in the last record.  Of a ballot's line proofs the last record has the columns,
    the others the rows."""
    records = records_of(base, mark)
    for where, record in zip(PLACES, (records[0], records[len(records) // 2], records[-1])):
        for kind, fields in by_kind(base, record).items():
            if not kind.endswith('row' if where == 'last' else 'col'):
                yield where, record, kind, fields[
                    {'first': 0, 'middle': len(fields) // 2, 'last': -1}[where]]


def no_element(base, old, turn):
    """A number that is no element, of a kind that goes round."""
    p, q = base.p, base.q
    other = next(x for x in range(2 + turn % 5, p) if pow(x, q, p) != 1)
    return (0, p - old, p, old + p, BIG, other, p - 1, 2 ** 31)[turn % 8]


def too_high(base, old, turn):
    return (base.q, old + base.q, BIG, 2 ** 31)[turn % 4]


def bad_fields(cases, base, marks):
    """7: a field of each kind out of its range."""
    turn = 0
    for mark in marks:
        walk = [f for f in base.fields if f.mark == mark and f.kind in FIELDS]
        for where, record, kind, f in places_in(base, mark):
            element = kind[0] in 'bYt'
            value = (no_element if element else too_high)(base, base.value(f), turn)
            turn += 1
            cases.add('%s.%s%d.%s.%s=%d' % (base.name, mark, record, where, kind, value),
                      base.put(f, value), ('refused', 7, record),
                      '7.%s %s' % (mark, place(walk.index(f), len(walk))),
                      *['outside'] * element)


def other_fields(cases, base):
    """8: a field changed to another that may stand there."""
    for mark in ('BA', 'SH'):
        proofs = [f for f in base.fields if f.mark == mark and f.kind in ('e', 't1', 't2', 'r')]
        for where, record, kind, f in places_in(base, mark):
            if where == 'middle' or kind.endswith('row' if where == 'first' else 'entry'):
                continue
            value = ((base.value(f) + 1) % base.q if kind[0] in 'er'
                     else base.value(f) * base.g0 % base.p)
            ends = {'first': proofs[:4], 'last': proofs[-4:]}[where]
            cases.add('%s.%s%d.%s.%s.another' % (base.name, mark, record, where, kind),
                      base.put(f, value), ('refused', 8, record),
                      '8.%s %s' % (mark, where if f in ends else 'middle'))


def sheets(cases, base, chosen):
    """9, 10 and 11 on the chosen sheets (from 0): first, middle and last process."""
    K, n = base.K, base.n
    records = records_of(base, 'RT')
    for at in chosen:
        record = records[at]
        fields = [f for f in base.fields if f.record == record]
        counts = [f for f in fields if f.kind == 'count']
        sums = [f for f in fields if f.kind == 's']
        for i in (0, n // 2, n - 1):
            spot = place(at * n + i, len(records) * n)
            old = base.value(counts[i])
            name = '%s.rt%d.' % (base.name, record)
            value = (K + 1, 65535, 256 + old)[(at + i) % 3]
            cases.add(name + 'count%d=%d' % (i + 1, value), base.put(counts[i], value),
                      ('refused', 9, record), '9 ' + spot)
            value = (old + 1) % (K + 1)
            cases.add(name + 'count%d=%d' % (i + 1, value), base.put(counts[i], value),
                      ('refused', 10, record), '10 ' + spot)
            cases.add(name + 's%d.another' % (i + 1),
                      base.put(sums[i], (base.value(sums[i]) + 1) % base.q),
                      ('refused', 10, record), '10 ' + spot)
        out = next(f for f in fields if f.kind == 'out')
        for value in (0, 1, n, n + 1 if at else 255):
            if value != base.value(out):
                cases.add(name + 'out=%d' % value, base.put(out, value), ('refused', 11, record),
                          '11 ' + place(at, len(records)))


def numbers(cases, base, mark):
    """6 in every record of a mark."""
    fields = [f for f in base.fields if f.mark == mark and f.kind in ('number', 'round')]
    for i, f in enumerate(fields):
        value = (base.value(f) + 1, 0, 255, base.value(f) - 1)[i % 4]
        cases.add('%s.%s%d.%s=%d' % (base.name, mark, f.record, f.kind, value), base.put(f, value),
                  ('refused', 6, f.record), '6.%s %s' % (mark, place(i, len(fields))))


def frames(cases, base):
    """1 and 2 at every record: cut in its last byte, and every second one before it; one byte of its
    mark or both."""
    count = len(base.starts) - 1
    for record in range(count):
        for length in (base.starts[record], base.starts[record + 1] - 1)[record % 2:]:
            cases.add('%s.cut.%d-bytes' % (base.name, length), base.board[:length],
                      ('refused', 1, record), '1 ' + place(record, count))
        mark = next(f for f in base.fields if f.record == record and f.kind == 'mark')
        other = {'HF': 'BA', 'BA': 'SH', 'SH': 'BA', 'RT': 'SH'}[mark[1]]
        value = (mark[1][0] + '\0', 'X' + mark[1][1], other)[record % 3].encode()
        cases.add('%s.record%d.mark=%s' % (base.name, record, value.hex()),
                  base.put(mark, int.from_bytes(value, 'big')), ('refused', 2, record),
                  '2 ' + place(record, count))


def tails(cases, base, rest):
    for where, tail in zip(PLACES, rest):
        cases.add('%s.and-%d-bytes-more' % (base.name, len(tail)), base.board + tail,
                  ('refused', 12, len(base.starts) - 1), '12 ' + where)


def header_places(cases, base):
    """3, 4 and 5, field by field."""
    F = {f.kind: f for f in base.fields if f.record == 0}
    p, q, g0 = base.p, base.q, base.g0
    label, g1 = base.value(F['label']), base.value(F['g1'])
    for kind, values, cover in (
            ('n', (0, 1, 9, 255), '3 first'), ('K', (0, 1001, 65535), '3 last'),
            ('p', (0, p + 1, p + 2 ** 31), '4 first'), ('q', (0, q - 1, p, BIG), '4 last'),
            ('g0', (0, 1, p, p + g0), '5 first'), ('counter', (base.counter ^ 1,), '5 middle'),
            ('g1', (0, g0, g1 + p, p - g1), '5 middle'),
            ('label', (label ^ 1 << 255, label ^ 1), '5 last')):
        for i, value in enumerate(values):
            name = '%s.hf.%s' % (base.name, kind)
            cases.add(name + ('.bit%d' % (255 * (1 - i)) if kind == 'label' else '=%d' % value),
                      base.put(F[kind], value), ('refused', int(cover[0]), 0), cover)


def hand(cases, base):
    """01's unstarred cases that a header decides."""
    def head(n, K, p=base.p, q=base.q, g0=base.g0, counter=base.counter, label=base.label):
        return ref.header_bytes(n, K, p, q, g0, counter, ref.make_g1(p, q, g0, counter, label),
                                label)

    cases.add('empty', b'', ('refused', 1, 0), 'hand.empty', '1 first')
    cases.add('header.n=8', head(8, 1), ('refused', 1, 1), 'hand.n')
    cases.add('header.n=9', head(9, 1), ('refused', 3, 0), 'hand.n', '3 first')
    cases.add('header.k=1000', head(2, 1000), ('refused', 1, 1), 'hand.K')
    cases.add('header.k=1001', head(2, 1001), ('refused', 3, 0), 'hand.K', '3 last')
    cases.add('header.k=0', head(2, 0), ('refused', 3, 0), 'hand.K', '3 last')
    rng = random.Random(11)
    for q, p in ((11, 23), (3, 7), (331, 2147483647)):
        g0 = gen.elements_g0(rng, p, q)
        label, counter = gen.label_counter(rng, p, q, g0)
        cases.add('header.k=q=%d' % q, head(2, q, p, q, g0, counter, label), ('refused', 4, 0),
                  'hand.q', '4 last')
        cases.add('header.k=%d.q=%d' % (q - 1, q), head(2, q - 1, p, q, g0, counter, label),
                  ('refused', 1, 1), 'hand.q', 'edges')


def several(cases, rng, two, small):
    """Two faults at once; records out of order; ballots from elsewhere."""
    doubles = Pool(mutate.double_faults, two).items + Pool(mutate.double_faults, small).items[-3:]
    for _, board, expect, note in doubles:
        cases.add('double.%s.%d' % (note, expect[1]), board, expect, 'two')
    order = Pool(mutate.record_order, rng, two)
    mutate.record_order(order, rng, small)
    order.pick(cases, 'two_drop', ['order'])
    for name in ('two_twice', 'two_swap', 'small_drop', 'small_twice', 'small_swap', 'small_marks'):
        order.pick(cases, name, ['order'], '', 2, lambda board, note: '')
    for base in (two, small):
        for name, board, expect, note in Pool(mutate.replays, rng, base).items:
            cases.add('%s.%s' % (name, note), board, expect, 'struck')


# ------------------------------------------------------------------ whole boards

def sound(cases, rng):
    """Accepted boards of 2 to 8 processes in several groups."""
    for n, lists, group in (
            (2, [[2, 1]], (7, 3, 2)), (2, [[1, 2], [2, 1]], (7, 3, 4)),
            (2, [[2, 1], [2, 1], [1, 2]], (11, 5, 4)), (3, [[3, 1, 2]], HOUSE),
            (3, [[2, 3, 1], [2, 1, 3], [1, 3, 2], [3, 2, 1]], (29, 7, 7)),
            (4, [[4, 3, 2, 1]] * 3, (2147483647, 11, None)),
            (4, [[1, 2, 3, 4], [2, 1, 3, 4], [3, 1, 2, 4], [4, 3, 2, 1]], (11, 5, 4)),
            (5, [[5, 4, 3, 2, 1], [1, 2, 3, 4, 5]], (2147483647, 331, None)),
            (6, [[6, 5, 4, 3, 2, 1], [5, 6, 1, 2, 3, 4]], (2147483647, 31, None)),
            (7, [[7, 1, 2, 3, 4, 5, 6], [3, 7, 1, 2, 4, 5, 6]], (23, 11, 2)),
            (8, [[8, 7, 6, 5, 4, 3, 2, 1]], HOUSE)):
        p, q, g0 = group
        base = Base(rng, 'sound.n%d.k%d.q%d' % (n, len(lists), q), n, lists,
                    (p, q, g0 or gen.elements_g0(rng, p, q)))
        cases.add('%s.rounds%d' % (base.name, base.rounds), base.board, base.accepted, 'sound',
                  *['ties'] * (base.rounds > 1), *['repeats'] * (q - 1 < n * n),
                  *['small.sound'] * (n > 4))


def repeats(cases, rng):
    """All draws 1, a ballot audited: the writer alone refuses that."""
    base = Base(rng, 'repeats', 2, [[1, 2], [2, 1], [2, 1]], HOUSE, (2,), 'ones')
    cases.add('repeats', base.board, ('accepted', 1, [], 1), 'repeats', 'sound', 'ties')


def large(cases, rng):
    base = Base(rng, 'thousand', 2, [[1, 2] if k % 2 else [2, 1] for k in range(1000)], HOUSE)
    cases.add('thousand', base.board, ('accepted', 1, [], 1), 'K1000', 'hand.K', 'ties',
              'small.sound')
    for k in (1, 2):                                 # the low byte is the one due
        number, cut = base.starts[k] + 2, base.starts[k + 1]
        cases.add('thousand.ba%d.number=%d' % (k, 256 + k),
                  base.board[:number] + be(256 + k, 2) + base.board[number + 2:cut],
                  ('refused', 6, k), 'K1000', '6.BA ' + PLACES[k - 1])

    base = Base(rng, 'eight', 8, [list(range(1, 9)), list(range(8, 0, -1))], HOUSE)
    assert base.rounds == 7
    last, sheet = len(base.starts) - 2, base.starts[-2]
    cases.add('eight', base.board, base.accepted, 'n8', 'hand.n', 'sound', 'ties', 'small.sound')
    cases.add('eight.cut.one-byte', base.board[:-1], ('refused', 1, last), 'n8', '1 last')
    cases.add('eight.rt%d.out=3' % last, base.board[:sheet + 3] + b'\3' + base.board[sheet + 4:],
              ('refused', 11, last), 'n8', '11 last')
    for record, kind, spot, cut in ((last - 1, 'r', 'last', -1), (4, 't2', 'middle', 5)):
        f = [g for g in base.fields if g.record == record and g.kind == kind][-1]
        value = (base.value(f) + 1) % base.q if kind == 'r' else base.value(f) * 4 % base.p
        cases.add('eight.sh%d.last.%s.another' % (record, kind),
                  base.put(f, value)[:base.starts[cut]], ('refused', 8, record), 'n8', '8.SH ' + spot)


def false_proofs(cases, pool):
    """Ballots and shifts made to deceive."""
    def turned(board, note):
        """One of t1, t2, r for each branch and statement."""
        m = re.search(r'branch (\d+) statement (\d+): (\w+)', note)
        return m and m[3] == ('t1', 't2', 'r')[(int(m[1]) + int(m[2])) % 3]

    def any_ballot(board, note):
        return board[2], re.sub(r'ballot \d+', '', note)

    pool.pick(cases, 'entry2', ['entry2', '8.BA middle'], '', 4, lambda board, note: board[2])
    pool.pick(cases, 'rows', ['sums', '8.BA middle'])
    pool.pick(cases, 'eq_BA', ['equation', '8.BA middle'], "'entry', (0, 0|1, 1|2, 1)", 1, any_ballot)
    pool.pick(cases, 'eq_BA', ['equation', '8.BA middle'], r"'(row|col)', [02]\).* 3: .*(t1|t2|sum)", 1,
              any_ballot)
    pool.pick(cases, 'eq_SH', ['equation', '8.SH middle'], 'branch', 1, any_ballot,
              lambda board, note: board[2] == 3 and turned(board, note))
    pool.pick(cases, 'eq_SH', ['equation', '8.SH middle'], 'round 3.*branch [02] statement [049]:', 1,
              any_ballot, turned, cut=True)
    pool.pick(cases, 'eq_SH', ['equation', '8.SH middle'], 'sum', 2, lambda board, note: board[2],
              cut=True)
    pool.pick(cases, 'lastrows', ['printed', '8.SH middle'], '', 2, any_ballot,
              lambda board, note: board[2] == 3)
    pool.pick(cases, 'lastrows', ['printed', '8.SH middle'], '', 1, any_ballot,
              lambda board, note: board[2] == 4, cut=True)
    pool.pick(cases, 'lastrows', ['printed', '8.SH middle'], 'round 2 ballot 5: .*(other|before)', 1,
              any_ballot, lambda board, note: board[2] == 5, cut=True)
    pool.pick(cases, 'oneentry', ['struck', '8.SH middle'], 'row 1 column 1|row [23] column 4',
              cut=True)
    for name in ('otherproc', 'otherrow'):
        pool.pick(cases, name, ['struck', '8.SH middle'], '', 2, lambda board, note: '', cut=True)


def false_sheets(cases, pool):
    """Sheets made to deceive, elements that are none, and boards that only a tiny group allows."""
    for name in ('half', 'goeson'):
        pool.pick(cases, name, ['half'])
    for name in ('early', 'again'):
        pool.pick(cases, name, ['half'], '', 1, lambda board, note: '', cut=True)
    pool.pick(cases, 'half_ok', ['half', 'sound'], longest=5000)
    pool.pick(cases, 'moved', ['tally', '10 middle'], '', 2, lambda board, note: note[:3])
    pool.pick(cases, 'bonly', ['tally', '10 middle'])
    pool.pick(cases, 'minus', ['outside', '7.BA middle'], '', 2, lambda board, note: note[:3])
    pool.pick(cases, 'order3', ['outside', '7.BA middle'], '', 2, lambda board, note: '')
    pool.pick(cases, 'zeros', ['edges'], '', 2, lambda board, note: board[5:9])
    pool.pick(cases, 'forged', ['forged'], '^(counts|n=.*(counts|ballot))', longest=9000)
    pool.pick(cases, 'forged', ['forged'], 'three of four', longest=9000)
    pool.pick(cases, 'forged', ['forged'], 'random', 1, lambda board, note: note[:20], longest=5000)


def ties(cases, pool):
    """Equal counts: elections worked by hand, but for those of many ballots, and boards that decide
    by another rule."""
    pool.pick(cases, 'tie', ['ties', '11 first'], longest=9000, cut=True)
    for worked in WORKED:
        length = ref.board_length(worked.n, bytes(worked.K), len(worked.counts))
        if not worked.rankings or length < 20000:
            pool.pick(cases, 'equal', ['ties', 'sound' if worked.rankings else 'forged',
                                       *['n8'] * (worked.n == 8), *worked.decided],
                      '^%s$' % worked.name)
    pool.pick(cases, 'otherwise', ['ties', 'otherwise', '11 middle'])


def headers(cases):
    """From the lone headers of mutate.headers_alone."""
    pool = Pool(mutate.headers_alone, random.Random(1))
    fixed = [be(p, 4) + be(q, 4) for p, q in gen.FIXED]

    def order(board, note):
        return board[5:13]

    pool.pick(cases, 'head_ok', ['edges'], ' K=1 ', 1, order,
              lambda board, note: board[5:13] in fixed[::2])
    pool.pick(cases, 'head3', ['3 first'], '^n=(10|16|127|128)$')
    pool.pick(cases, 'head3', ['3 last'], '^K=(1002|1024|59395|32768)')
    for name in ('head1', 'head2', 'head3', 'head4'):
        pool.pick(cases, name, ['two'], 'before')
    pool.pick(cases, 'head4', ['orders', '4 last'], '^q = n')
    pool.pick(cases, 'head4_p', ['orders', '4 first'], '^composite p=(9|25|561|1729|2047|1373653|'
              '2147117569|2147483577) ', 1, lambda board, note: board[5:9])
    pool.pick(cases, 'head4_p', ['orders', '4 first'], '^prime', 1, lambda board, note: board[5:7])
    pool.pick(cases, 'head4_p', ['orders', '4 first'], '^p=', 1, lambda board, note: board[5:9])
    pool.pick(cases, 'head4_q', ['orders', '4 last'], 'q=(9|341|1729|1072562501) ')
    pool.pick(cases, 'head4_q', ['orders', '4 last'], '^p=', 5, lambda board, note: '')
    pool.pick(cases, 'head5_g0', ['5 first'], 'g0=1 .*p=(23|2147483647) q=(11|331),')
    pool.pick(cases, 'head5_g0', ['5 first'], 'p=(23|2147483647) q=(11|331),', 2, order)
    pool.pick(cases, 'head5_g1', ['5 middle'], 'comes out', 1,
              lambda board, note: re.sub(r'\d\d+|p=.*', '', note))
    pool.pick(cases, 'head5_g1', ['5 middle'], '^g1 .*shown as', 1, order,
              lambda board, note: board[5:13] in (fixed[6], fixed[11]))


def boards():
    rng = random.Random(1)
    cases = Cases(BOARDS, PLACED)
    cycle = [[1, 2, 3], [2, 3, 1], [3, 1, 2]]
    two = Base(rng, 'two', 2, [[1, 2], [2, 1]], HOUSE)
    three = Base(rng, 'three', 3, cycle, HOUSE)
    small = Base(rng, 'small', 3, cycle, (23, 11, 2))
    four = Base(rng, 'four', 4, [[1, 2, 3, 4], [2, 1, 4, 3]], HOUSE)
    assert (len(two.board), len(three.board), four.rounds) == (528, 2537, 3)
    cases.add('two', two.board, ('accepted', 1, [], 1), 'hand.528', 'sound', 'ties')
    for base in (three, small):
        cases.add(base.name, base.board, ('accepted', 2, [3], 1), 'hand.2537', 'sound', 'ties')
    cases.add('four', four.board, ('accepted', 3, [4, 3], 1), 'sound', 'ties')
    hand(cases, three)
    header_places(cases, two)
    frames(cases, three)
    for base, mark in ((three, 'BA'), (three, 'SH'), (four, 'RT')):
        numbers(cases, base, mark)
    bad_fields(cases, three, ('BA', 'SH', 'RT'))
    bad_fields(cases, small, ('RT',))
    bad_fields(cases, four, ('RT',))
    other_fields(cases, three)
    sheets(cases, three, (0, 1))
    sheets(cases, four, (1,))
    tails(cases, two, (b'\0', b'RT' + bytes(14), two.board))
    tails(cases, three, (b'\0', three.record(8), b'SH' + bytes(500)))
    several(cases, rng, two, small)
    headers(cases)
    pool = Pool(mutate.dishonest, random.Random(1))
    false_proofs(cases, pool)
    false_sheets(cases, pool)
    ties(cases, pool)
    message_cases.boards(cases, pool, two)
    audit_cases.boards(cases, pool, random.Random(4))
    sound(cases, rng)
    large(cases, rng)
    repeats(cases, random.Random(5))
    small_cases.boards(cases, random.Random(12))
    return cases
