"""audits.py - whole boards with audited ballots: sound ones, and ones that count, shift, number or
name them wrongly.  See openings.py for what they open to."""
import boardref as ref
from boardref import be, shown_bytes
from craft import permutation_matrix
from gen import HOUSE

from .base import Base
from .doubles import change, find
from .election import LISTS3, election, join
from .openings import shown_length
from .sheets import with_out

# three ballots: of any two counted ones nobody has more than half
THREE = [[1, 2, 3], [2, 1, 3], [3, 1, 2]]
FOUR = [[1, 2, 3, 4], [2, 1, 4, 3], [3, 4, 1, 2]]

ALL_OF = {2: [[1, 2], [2, 1], [2, 1]], 3: THREE, 4: FOUR,
          8: [list(range(1, 9)), list(range(8, 0, -1))]}


def sound(out, new):
    for n, lists in ALL_OF.items():
        K = len(lists)
        for audited in ((), *((k,) for k in range(1, K + 1)),
                        *(set(range(1, K + 1)) - {k} for k in range(1, K + 1))):
            if n < 8 or audited == (1,):
                records, *outcome = election(new(n, K), lists, audited=audited)
                rounds, _, outs, winner = ref.plain_count(
                    n, [r for k, r in enumerate(lists, 1) if k not in audited])
                assert outcome == [rounds, outs, winner]
                out.add('audit_ok', join(records), ('accepted', *outcome),
                        'n=%d K=%d audited %s' % (n, K, sorted(audited)))


# ------------------------------------------------------------------ nothing counted

def none_counted(out, new):
    for n, K in ((2, 1), (2, 3), (3, 2), (8, 1)):
        c = new(n, K)
        lists = (ALL_OF[n] * K)[:K]
        ballots = [c.ballot(k, permutation_matrix(n, r), ranking=r) for k, r in enumerate(lists, 1)]
        sheet = c.sheet(1, 0)
        board = c.header() + join(ballots)
        for tail, text in ((sheet, 'a sheet'), (b'', 'nothing'), (sheet[:-1], 'a sheet cut'),
                           (b'XX' + sheet[2:], 'no sheet'), (sheet[:4] + b'\xff' * (6 * n), 'count'),
                           (sheet + b'\0', 'a byte more')):
            out.add('audit_none', board + tail, ('refused', 19, K),
                    'n=%d K=%d behind it %s' % (n, K, text))
        with_faults(out, c.header(), ballots, sheet)


def with_faults(out, header, ballots, sheet):
    """Nothing is counted, and a ballot has a fault that is named before 19."""
    n, K, last = header[2], len(ballots), ballots[-1]
    ahead = header + join(ballots[:-1])
    for board, number, text in (
            (ahead + last[:-1] + b'\0' + sheet, 18, 'its ranking'), (ahead + last[:-1], 1, 'its end'),
            (ahead + last[:4] + b'\2' + last[5:] + sheet, 17, 'its kind'),
            (ahead + last[:-shown_length(n)] + b'\xff' * 4 + last[4 - shown_length(n):], 7, 'an x')):
        out.add('audit_none_but', board, ('refused', number, K),
                'n=%d K=%d, the last is bad: %s' % (n, K, text))
    if K > 1:
        first = ballots[0][:-1] + b'\0'
        out.add('audit_none_but', header + first + join(ballots[1:]) + sheet, ('refused', 18, 1),
                'n=%d K=%d, the first does not open' % (n, K))


# ------------------------------------------------------------------ kinds

def turned_over(record, n, xs=None, ranking=None):
    """A ballot of the other kind, its proofs as they are."""
    if ranking is None:
        return record[:4] + be(ref.COUNTED, 1) + record[5:-shown_length(n)]
    return record[:4] + be(ref.AUDITED, 1) + record[5:] + shown_bytes(xs, ranking)


def kinds_turned(out, new):
    """The kind is in no challenge: proofs hold, and the tally sees it, or 9 or 19 does."""
    for k in (1, 2, 3):
        c = new(2, 3)
        records, *_ = election(c, ALL_OF[2])
        records[k] = turned_over(records[k], 2, c.X[k], ALL_OF[2][k - 1])
        out.add('audit_turned', join(records), ('refused', 10, 4),
                'n=2, counted ballot %d shown as audited' % k)
        for n in (2, 3):
            records, *_ = election(new(n, 3), ALL_OF[n], audited=(k,))
            records[k] = turned_over(records[k], n)
            out.add('audit_turned', join(records), ('refused', 10, 4),
                    'n=%d, audited ballot %d shown as counted' % (n, k))
    # both are for process 2; if one is audited, its count is above C
    c = new(2, 2)
    records, *_ = election(c, [[2, 1], [2, 1]])
    records[2] = turned_over(records[2], 2, c.X[2], [2, 1])
    out.add('audit_turned', join(records), ('refused', 9, 3), 'two for 2, one shown as audited')
    records[1] = turned_over(records[1], 2, c.X[1], [2, 1])
    out.add('audit_turned', join(records), ('refused', 19, 2), 'two for 2, both shown as audited')


def kinds_alone(out, new):
    """The kind byte changed and nothing else: what follows stands elsewhere."""
    for n, lists in ((2, ALL_OF[2]), (3, THREE)):
        K = len(lists)
        for k in range(1, K + 1):
            records, *_ = election(new(n, K), lists)
            records[k] = records[k][:4] + b'\1' + records[k][5:]
            # the next record's mark is taken for an x, and the last ballot lacks one on n = 2's board
            short = len(join(records[k:])) < ref.ba_length(n, 1)
            out.add('audit_kind', join(records), ('refused', 1 if short else 7, k),
                    'n=%d ballot %d of %d: 1 for 0' % (n, k, K))
            records, *_ = election(new(n, K), lists, audited=(k,))
            records[k] = records[k][:4] + b'\0' + records[k][5:]
            rest = join(records[k:])[ref.ba_length(n, 0):]
            due = ref.ba_length(n, rest[4]) if k < K else ref.rt_length(n)
            out.add('audit_kind', join(records), ('refused', 1 if len(rest) < due else 2, k + 1),
                    'n=%d ballot %d of %d: 0 for 1' % (n, k, K))
            for audited in ((), (k,)):
                for kind in (2, 3, 128, 255):
                    records, *_ = election(new(n, K), lists, audited=audited)
                    records[k] = records[k][:4] + be(kind, 1) + records[k][5:]
                    out.add('audit_other', join(records), ('refused', 17, k),
                            'n=%d ballot %d of %d: %d for %d' % (n, k, K, kind, len(audited)))


def cuts(out, new):
    """Every length that decides: up to the kind, and the two of a ballot."""
    for n, lists in ((2, ALL_OF[2]), (3, THREE)):
        K, counted, audited = len(lists), ref.ba_length(n, 0), ref.ba_length(n, 1)
        for k in (1, 2, K):
            for kind in (0, 1, 2, 255):
                records, *_ = election(new(n, K), lists, audited=(k,))
                before = join(records[:k])
                record = records[k][:4] + be(kind, 1) + records[k][5:]
                for length in (0, 2, 3, 4, 5, 6, counted - 1, counted, audited - 1):
                    short = length < 5 or length < ref.ba_length(n, kind)
                    number, at = (1, k) if short else (17, k) if kind > 1 else (1, k + 1)
                    if kind == 0 and length == audited - 1:
                        continue                      # what follows a counted ballot: kinds_alone
                    out.add('audit_cut', before + record[:length], ('refused', number, at),
                            'n=%d ballot %d kind %d, %d bytes' % (n, k, kind, length))
                # another mark: the byte in the place of the kind decides all the same
                other = b'XX' + record[2:]
                for length in (4, counted - 1, counted, audited - 1, audited):
                    short = length < 5 or length < ref.ba_length(n, kind)
                    out.add('audit_mark', before + other[:length], ('refused', 1 if short else 2, k),
                            'n=%d ballot %d kind %d, %d bytes, another mark' % (n, k, kind, length))


# ------------------------------------------------------------------ shifts

def shifts(out, new):
    """An audited ballot's SH; a counted one's left out; numbers counted anew."""
    K = 3
    for a in (1, 2, 3):
        c = new(3, K)
        records, *_ = election(c, THREE, audited=(a,))
        numbers = c.counted()
        assert [r[:2] for r in records] == [b'HF', *[b'BA'] * 3, b'RT', *[b'SH'] * 2, b'RT']
        gone = records[4][3]
        extra = c.shift(a, gone)
        more = records[:4 + a] + [extra] + records[4 + a:]
        out.add('audit_shift', join(more), ('refused', 6 if a < 3 else 2, 4 + a),
                'audited ballot %d has an SH' % a)
        out.add('audit_shift', join(records[:7] + [extra] + records[7:]), ('refused', 2, 7),
                'audited ballot %d has an SH behind the others' % a)
        for i, k in enumerate(numbers):
            fewer = records[:5 + i] + records[6 + i:]
            out.add('audit_shift', join(fewer), ('refused', 1 if i else 6, 5 + i),
                    'audited %d, SH of counted ballot %d left out' % (a, k))
            instead = records[:5 + i] + [extra] + records[6 + i:]
            out.add('audit_shift', join(instead), ('refused', 6, 5 + i),
                    'audited %d, its SH in the place of that of %d' % (a, k))
        anew = [r[:2] + be(i, 2) + r[4:] for i, r in enumerate(records[5:7], 1)]
        if a < 3:
            wrong = next(i for i, k in enumerate(numbers, 1) if i != k)
            out.add('audit_shift', join(records[:5] + anew + records[7:]),
                    ('refused', 6, 4 + wrong), 'audited %d, SH numbered 1 to C' % a)


# ------------------------------------------------------------------ counts

def closing(out, new):
    """A majority of the counted ballots is none of all, and the other way round."""
    for lists, audited in ((THREE, (2, 3)), ([[1, 2, 3]] * 2 + [[2, 1, 3]] * 2, (3, 4)),
                           ([[1, 2, 3], [3, 2, 1], [1, 3, 2], [2, 1, 3], [3, 1, 2]], (2, 5))):
        K, C = len(lists), len(lists) - len(audited)
        records, *outcome = election(new(3, K), lists, audited=audited)
        assert outcome == [1, [], 1]
        out.add('audit_closes', join(records), ('accepted', 1, [], 1),
                'more than half of %d, not of %d' % (C, K))
        records, *_ = election(new(3, K), lists, audited=audited,
                               sheet=lambda m, counts, due: 3 if m == 1 else 0)
        out.add('audit_closes', join(records), ('refused', 11, K + 1),
                'more than half of %d, not of %d, goes on' % (C, K))
    for lists, audited in (([[1, 2, 3], [2, 1, 3], [1, 3, 2]], (3,)),
                           ([[1, 3, 2], [1, 2, 3], [2, 1, 3]], (1,))):
        records, *outcome = election(new(3, 3), lists, audited=audited)
        assert outcome == [2, [3], 1]
        out.add('audit_closes', join(records), ('accepted', *outcome),
                'half of 2, %s audited, more than half of 3' % audited)
        records[4] = with_out(records[4], 0)
        out.add('audit_closes', join(records[:5]), ('refused', 11, 4),
                'half of 2, %s audited, more than half of 3, closes' % audited)


def products(out, new):
    """Sheets over all ballots, in their counts, in their s or in both; counts above C."""
    for lists, audited in ((THREE, (2,)), ([[2, 1], [1, 2], [1, 2]], (1,)), ([[2, 1], [2, 1]], (2,))):
        n, K = len(lists[0]), len(lists)
        c = new(n, K)
        records = [c.header()] + [
            c.ballot(k, permutation_matrix(n, r), ranking=r if k in audited else None)
            for k, r in enumerate(lists, 1)]
        counts, sums = c.tallies()
        all_counts, all_sums = c.tallies(range(1, K + 1))
        number = 9 if max(all_counts) > K - len(audited) else 10
        for shown, s, refusal, text in ((all_counts, all_sums, number, 'counts and s'),
                                        (all_counts, sums, number, 'counts'),
                                        (counts, all_sums, 10, 's')):
            out.add('audit_product', join(records) + c.sheet(1, 0, shown, s),
                    ('refused', refusal, K + 1), 'n=%d K=%d, %s of all' % (n, K, text))
        for i in range(n):
            for count in range(K - len(audited) + 1, K + 1):
                shown = counts[:i] + [count] + counts[i + 1:]
                out.add('audit_count', join(records) + c.sheet(1, 0, shown, sums),
                        ('refused', 9, K + 1),
                        'n=%d K=%d, count %d of process %d' % (n, K, count, i + 1))


# ------------------------------------------------------------------ the numbers of records

def late(out, rng):
    """One fault in a record of a later round, and bytes behind the last."""
    for n, lists, audited in ((3, THREE, (2,)), (4, FOUR, (1,)), (3, THREE + LISTS3, (1, 2, 6))):
        base = Base(rng, 'late%d.%d' % (n, len(lists)), n, lists, HOUSE, audited)
        q = base.q
        for m in range(2, base.rounds + 1):
            rt = base.sheet(m)
            for record, kind, value, number in (
                    (rt - base.C, 'number', 999, 6), (rt - 1, 'mark', 0, 2), (rt - 1, 'e', q, 7),
                    (rt, 'round', 9, 6), (rt, 'count', base.C + 1, 9), (rt, 's', q, 7),
                    (rt, 'out', 255, 11)):
                out.add('audit_late', change(base, [(find(base, record, kind), value)]),
                        ('refused', number, record),
                        '%s round %d: %d in record %d' % (base.name, m, number, record))
            for record, kind, number in ((rt - 1, 'r', 8), (rt, 's', 10)):
                f = find(base, record, kind)
                out.add('audit_late', base.put(f, (base.value(f) + 1) % q),
                        ('refused', number, record),
                        '%s round %d: %d in record %d' % (base.name, m, number, record))
        last = base.sheet(base.rounds)
        out.add('audit_late', base.board[:-1], ('refused', 1, last), base.name + ' a byte fewer')
        out.add('audit_late', base.board + b'\0', ('refused', 12, last + 1),
                base.name + ' a byte more')


def audits(out, rng, new):
    sound(out, new)
    none_counted(out, new)
    kinds_turned(out, new)
    kinds_alone(out, new)
    cuts(out, new)
    shifts(out, new)
    closing(out, new)
    products(out, new)
    late(out, rng)
