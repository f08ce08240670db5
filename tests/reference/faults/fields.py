"""fields.py - a single field changed."""
from .base import BIG


def spread(items, most=3):
    """first, middle, last"""
    if len(items) <= most:
        return items
    return [items[0], items[len(items) // 2], items[-1]]


def field_faults(out, rng, base, every_record=False, light=False):
    """light: only the last field of each kind in a record, fewer values."""
    by_record = {}
    for f in base.fields:
        by_record.setdefault(f.record, []).append(f)
    chosen = []
    groups = {}                                       # records by mark, length and round
    for r, fields in by_record.items():
        m = sum(base.sheet(m) < r for m in range(1, base.rounds))
        groups.setdefault((fields[0].mark, len(fields), m), []).append(r)
    for records in groups.values():
        chosen += records if every_record else sorted({records[0], records[-1]})
    for r in sorted(chosen):
        if r == 0:
            continue
        kinds = {}
        for f in by_record[r]:
            name = f.kind
            if name in ('e', 't1', 't2', 'r'):
                name += '/' + f.detail[0]
            kinds.setdefault(name, []).append(f)
        for name, fields in kinds.items():
            for f in fields[-1:] if light else spread(fields):
                one_field(out, rng, base, r, f, light)


def one_field(out, rng, base, r, f, light=False):
    """Field f of record r, with each value of its kind that differs and fits."""
    kind, mark, detail = f.kind, f.mark, f.detail
    old = base.value(f)
    note = '%s record %d %s field %s %s' % (base.name, r, mark, kind, detail)
    for value, number, sure in VALUES[kind](rng, base, f, light):
        if 0 <= value < 256 ** f.width and value != old:
            out.add('%s_%s_%s' % (base.name, mark, kind), base.put(f, value),
                    ('refused', number, r), note + ' %d -> %d' % (old, value), sure)


# ------------------------------------------------------------------ values of each kind
#
# Each yields (value, number of the refusal due, sure); sure as in Out.add.

def marks(rng, base, f, light):
    mark = f.mark.encode()
    others = (b'HD', b'BA', b'SH', b'RT', b'HF', b'ba', b'\0\0', mark[::-1], mark[:1] + b'\0',
              b'\0' + mark[1:])
    for other in others[2:5] if light else others:
        if other != mark:
            yield int.from_bytes(other, 'big'), 2, True


def numbers(rng, base, f, light):
    old = base.value(f)
    for value in (0, old + 1, old - 1, old + 256, 255, 65535):
        yield value, 6, True


def kinds(rng, base, f, light):
    for value in (2, 3, 128, 255):
        yield value, 17, True


def shown_exponents(rng, base, f, light):
    q, old = base.q, base.value(f)
    for value in (q, old + q, BIG, 2 ** 31):
        yield value, 7, True
    for value in ((old + 1) % q, (old - 1) % q, (q - old) % q, 0):
        yield value, 18, True


def ranked(rng, base, f, light):
    for value in list(range(base.n + 2)) + [255]:
        yield value, 18, True


def elements(rng, base, f, light):
    p, q, old = base.p, base.q, base.value(f)
    for value in (0, p - old) if light else (0, p, old + p, p - old, BIG, 2 ** 31, p - 1):
        yield value, 7, True
    while True:                                       # some other number that is no element
        value = rng.randrange(1, p)
        if pow(value, q, p) != 1:
            break
    yield value, 7, True
    sure = f.kind in ('t1', 't2') or not base.tiny
    yield old * base.g0 % p, 8, sure                  # another element
    if not light:
        yield 1, 8, sure


def exponents(rng, base, f, light):
    q, old = base.q, base.value(f)
    for value in (q, old + q) if light else (q, old + q, BIG, 2 ** 31):
        yield value, 7, True
    yield (old + 1) % q, 8, True
    if not light:
        yield (old - 1) % q, 8, True
        yield (q - old) % q, 8, False


def sums(rng, base, f, light):
    q, old = base.q, base.value(f)
    for value in (q, old + q, BIG, 2 ** 31):
        yield value, 7, True
    yield (old + 1) % q, 10, True
    yield (old - 1) % q, 10, True
    yield (q - old) % q, 10, False


def counts(rng, base, f, light):
    C, old = base.C, base.value(f)
    for value in (C + 1, base.K, base.K + 1, 65535, old + base.q, 256 * old + C + 1):
        if value > C:
            yield value, 9, True
    for value in range(0, C + 1) if C <= 5 else (old + 1, old - 1, 0, C):
        if 0 <= value <= C:
            yield value, 10, True


def outs(rng, base, f, light):
    for value in list(range(0, base.n + 2)) + [128, 255]:
        yield value, 11, True


VALUES = {'mark': marks, 'number': numbers, 'round': numbers, 'kind': kinds, 'x': shown_exponents,
          'ranked': ranked, 'b': elements, 'Y': elements,
          't1': elements, 't2': elements, 'e': exponents, 'r': exponents, 's': sums,
          'count': counts, 'out': outs}
