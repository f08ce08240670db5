"""doubles.py - two faults in one board: which is named?"""
import boardref as ref
from boardref import be


def change(base, pairs):
    """The board with a value put into each field."""
    board = bytearray(base.board)
    for f, value in pairs:
        board[f.start:f.start + f.width] = be(value, f.width)
    return bytes(board)


def find(base, record, kind, detail=None):
    return next(f for f in base.fields if f.record == record and f.kind == kind
                and (detail is None or f.detail == detail))


def double_faults(out, base):
    sheet_doubles(out, base)
    for r in (1, base.K):
        ballot_doubles(out, base, r)
    for r in range(1, base.K + 1):
        if base.kinds[r - 1] == ref.AUDITED:
            audited_doubles(out, base, r)
    record_doubles(out, base)


def sheet_doubles(out, base):
    """Both faults in the first sheet."""
    C, q, n = base.C, base.q, base.n
    rt = base.sheet(1)
    c1, s1 = find(base, rt, 'count', 1), find(base, rt, 's', 1)
    cn, sn = find(base, rt, 'count', n), find(base, rt, 's', n)
    out_, round_ = find(base, rt, 'out'), find(base, rt, 'round')
    mark = find(base, rt, 'mark')
    wrong_out = 255
    cases = [
        ('count1 and s1', [(c1, C + 1), (s1, q)], 9),
        ('s1 and last count', [(s1, q), (cn, C + 1)], 7),
        ('last count and s1 is wrong but < q', [(cn, C + 1), (s1, (base.value(s1) + 1) % q)], 9),
        ('last s and out', [(sn, q), (out_, wrong_out)], 7),
        ('last count and out', [(cn, C + 1), (out_, wrong_out)], 9),
        ('tally and out', [(s1, (base.value(s1) + 1) % q), (out_, wrong_out)], 10),
        ('tally of last and out', [(sn, (base.value(sn) + 1) % q), (out_, wrong_out)], 10),
        ('round and s', [(round_, 9), (s1, q)], 6),
        ('round and count', [(round_, 9), (c1, C + 1)], 6),
        ('round and out', [(round_, 0), (out_, wrong_out)], 6),
        ('mark and round', [(mark, 0), (round_, 0)], 2),
    ]
    for what, pairs, number in cases:
        out.add('double', change(base, pairs), ('refused', number, rt), base.name + ' ' + what)


def ballot_doubles(out, base, r):
    """In ballot r: number 6 before 7 before 8; a late bad field (7) before an early bad proof
    (8)."""
    C, q, name = base.C, base.q, base.name
    mark, num, b = find(base, r, 'mark'), find(base, r, 'number'), find(base, r, 'b')
    kind = find(base, r, 'kind')
    responses = [f for f in base.fields if f.record == r and f.kind == 'r']
    first_r, last_r = responses[0], responses[-1]
    c1 = find(base, base.sheet(1), 'count', 1)
    bad = (base.value(first_r) + 1) % q

    def add(pairs, number, what='', end=None):
        out.add('double', change(base, pairs)[:end], ('refused', number, r), name + what)

    add([(num, 0), (b, 0)], 6, ' 6 and 7')
    add([(first_r, bad), (last_r, q)], 7,
        ' bad first proof, bad field at the end of the record')
    add([(b, 0), (first_r, bad)], 7)
    add([(first_r, bad), (c1, C + 1)], 8, ' ballot before sheet')
    add([(first_r, bad)], 8, ' ballot before a cut at the end', -1)
    cut = base.starts[r + 1] - 1
    add([(first_r, bad)], 1, ' bad proof in a record cut by one byte', cut)
    add([(kind, 2), (b, 0)], 17, ' 17 and 7')
    add([(kind, 2), (first_r, bad)], 17, ' 17 and 8')
    add([(num, 0), (kind, 2)], 6, ' 6 and 17')
    add([(mark, 0), (num, 0), (kind, 2)], 2, ' 2, 6 and 17')
    add([(mark, 0), (kind, 2)], 2, ' 2 and 17')
    add([(kind, 2)], 1, ' 17 in a record cut before the end of a counted one',
        base.starts[r] + ref.ba_length(base.n, ref.COUNTED) - 1)
    add([(num, 0)], 1, '', cut)
    add([(mark, 0)], 1, ' bad mark in a record cut by one byte', cut)
    add([(mark, 0), (num, 0)], 2)


def audited_doubles(out, base, r):
    """In audited ballot r: 17 before 7, 7 of an x before 8, 8 before 18."""
    q, n = base.q, base.n
    xs = [f for f in base.fields if f.record == r and f.kind == 'x']
    kind, b, first_r = find(base, r, 'kind'), find(base, r, 'b'), find(base, r, 'r')
    ranked, c1 = find(base, r, 'ranked', n - 1), find(base, base.sheet(1), 'count', 1)
    bad, other = (base.value(first_r) + 1) % q, (base.value(xs[0]) + 1) % q

    def add(pairs, number, what, end=None):
        out.add('double', change(base, pairs)[:end], ('refused', number, r),
                '%s audited ballot %d: %s' % (base.name, r, what))

    add([(kind, 2), (xs[-1], q)], 17, '17 and x = q')
    add([(kind, 255), (ranked, 0)], 17, '17 and 18')
    add([(first_r, bad), (xs[0], q)], 7, '8 and the first x = q')
    add([(first_r, bad), (xs[-1], q)], 7, '8 and the last x = q')
    add([(xs[-1], q), (ranked, 0)], 7, 'x = q and 18 by the ranking')
    add([(xs[0], other), (xs[-1], q)], 7, '18 by the first x and the last x = q')
    add([(b, 0), (ranked, 0)], 7, '7 and 18')
    add([(first_r, bad), (ranked, 0)], 8, '8 and 18 by the ranking')
    add([(first_r, bad), (xs[0], other)], 8, '8 and 18 by an x')
    add([(ranked, 255), (c1, base.C + 1)], 18, '18 before the sheet')
    add([(xs[0], other)], 18, '18 before a cut at the end', -1)
    cut = base.starts[r + 1] - 1
    add([(xs[0], other)], 1, '18 in a record cut by one byte', cut)
    add([(xs[0], q)], 1, 'x = q in a record cut by one byte', cut)
    add([(kind, 2)], 17, '17 in a record cut by one byte', cut)


def record_doubles(out, base):
    """Faults of two records: the earlier record is named."""
    q, rt = base.q, base.sheet(1)
    if base.rounds > 1:
        sh = rt + 1
        first_r = find(base, sh, 'r')
        bad = (base.value(first_r) + 1) % q
        out.add('double', change(base, [(find(base, rt, 'out'), 0), (first_r, bad)]),
                ('refused', 11, rt), base.name)
        out.add('double',
                change(base, [(first_r, q), (find(base, base.sheet(2), 'count', 1), base.C + 1)]),
                ('refused', 7, sh), base.name)
    last = base.sheet(base.rounds)
    out.add('double', change(base, [(find(base, last, 'out'), 1)]) + b'\0',
            ('refused', 11, last), base.name + ' closing out and a byte more')
