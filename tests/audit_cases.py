"""Boards for the test program `cases` with audited ballots, filed under what they cover (covered.py).
The reference's faults/audits.py and faults/openings.py make them."""
import re

import gen
import mutate
from covered import PLACES, Pool, place
from mutate import Base


def sound(cases, pool):
    for n, numbers in ((2, (1, 2, 3)), (3, (1, 2, 3)), (4, (1,))):
        for k in numbers:
            pool.pick(cases, 'audit_ok', ['audited ' + PLACES[k - 1], 'sound'],
                      r'^n=%d .*audited \[%d\]$' % (n, k))
    pool.pick(cases, 'audit_ok', ['audited first', 'audited.most', 'sound'], '^n=8')
    pool.pick(cases, 'audit_ok', ['audited.most', 'sound'], r'^n=2 .*\[\d, \d\]')
    pool.pick(cases, 'audit_ok', ['audited.most', 'sound'], r'^n=3 .*\[1, 3\]')


def none_counted(cases, pool):
    pool.pick(cases, 'audit_none', ['19'], '^n=2 K=1 ')
    pool.pick(cases, 'audit_none', ['19'], '^n=2 K=3 .*(a sheet|nothing)')
    pool.pick(cases, 'audit_none', ['19'], '^n=[38] .* nothing')
    pool.pick(cases, 'audit_none_but', ['two'], '^n=2 ')


def places_of(cases, pool, name, key, note, spot, most=1):
    """Boards of a name filed by the place that spot(note) tells."""
    spots = {spot(item.note) for item in pool.items
             if item.name == name and re.search(note, item.note)}
    for where in sorted(spots):
        pool.pick(cases, name, ['%s %s' % (key, where)], note, most, lambda board, note: note,
                  lambda board, note: spot(note) == where, cut=True)


def pair_spot(note):
    """Of "n=N pair I J: ..." """
    n, i, j = (int(x) for x in re.search(r'n=(\d) pair (\d) (\d)', note).groups())
    return place((i - 1) * n + j - 1, n * n)


def ranking_spot(note):
    """Of "n=N, ... place(s) I ..." """
    n, i = (int(x) for x in re.search(r'n=(\d), .*?places? (\d)', note).groups())
    return place(i - 1, n)


def openings(cases, pool):
    places_of(cases, pool, 'opening_x', '18.x', '^n=2 pair', pair_spot, 2)
    places_of(cases, pool, 'opening_x', '18.x', '^n=3 pair', pair_spot)
    pool.pick(cases, 'opening_x', ['18.x middle'], 'exchanged', cut=True)
    places_of(cases, pool, 'opening_q', '7.x', '^n=2 pair', pair_spot)
    places_of(cases, pool, 'opening_q', '7.x', '^n=3 pair .*x . q', pair_spot)
    places_of(cases, pool, 'opening_ranking', '18.ranking', '^n=2', ranking_spot)
    places_of(cases, pool, 'opening_ranking', '18.ranking', '^n=3, (0|4|255) .*2$|^n=3, places',
              ranking_spot)
    for name in ('opening_Y', 'opening_pair', 'opening_none'):
        pool.pick(cases, name, ['18.forged'], longest=700)
    pool.pick(cases, 'opening_none', ['18.forged'], r', \d, ', cut=True)
    pool.pick(cases, 'opening_Y', ['18.forged'], 'n=3', cut=True)


def kinds(cases, pool):
    for k, where in enumerate(PLACES, 1):
        pool.pick(cases, 'audit_other', ['17 ' + where], '^n=2 ballot %d .*: (2|255) for' % k, cut=True)
    pool.pick(cases, 'audit_other', ['17 middle'], '^n=3 ballot 2 .*: 128 for 1', cut=True)
    pool.pick(cases, 'audit_turned', ['turned'], '^n=2|^two')
    pool.pick(cases, 'audit_turned', ['turned'], '^n=3, audited ballot 2', cut=True)
    pool.pick(cases, 'audit_kind', ['turned'], '^n=2')
    pool.pick(cases, 'audit_kind', ['turned'], '^n=3 ballot 3 of 3: 1 for 0')
    pool.pick(cases, 'audit_cut', ['lengths', '1 middle'],
              '^n=2 ballot (1 kind [012]|3 kind (0|1|255)), (4|5|228|229|246) bytes')
    pool.pick(cases, 'audit_mark', ['lengths.mark', 'two'],
              '^n=2 ballot (1 kind [12]|2 kind 1|3 kind 1), (4|228|229|246|247) bytes',
              where=lambda board, note: '3 kind' not in note or ' 229 ' in note)


def counts(cases, pool):
    pool.pick(cases, 'audit_shift', ['shifts'], 'has an SH$|SH numbered')
    pool.pick(cases, 'audit_shift', ['shifts'], '2 has an SH behind|audited 2, (SH of|its SH.* 3$)')
    pool.pick(cases, 'audit_closes', ['majority'], longest=2300)
    pool.pick(cases, 'audit_product', ['counted'], '^n=2|counts and s')
    pool.pick(cases, 'audit_count', ['counted', '9 middle'], '^n=2|process 3')
    pool.pick(cases, 'audit_late', ['later'], '^late3.3 .*: (6 in record 5|8)', cut=True)
    pool.pick(cases, 'audit_late', ['later'], '^late3.3 .*: 11|late3.3 a byte')
    pool.pick(cases, 'audit_late', ['later'], '^late4.3 round 3: 9|late4.3 a byte more')


def several(cases, rng):
    """Two faults at once, and records out of order."""
    base = Base(rng, 'audit', 2, [[1, 2], [2, 1]], gen.HOUSE, (2,))
    for _, board, expect, note in Pool(mutate.double_faults, base).items:
        if 'audited ballot' in note:
            cases.add('double.%s.%d' % (note, expect[1]), board, expect, 'two')
    order = Pool(mutate.record_order, rng, base)
    for name in ('audit_drop', 'audit_twice', 'audit_swap'):
        order.pick(cases, name, ['order'], '', 2, lambda board, note: '')


def boards(cases, pool, rng):
    sound(cases, pool)
    none_counted(cases, pool)
    openings(cases, pool)
    kinds(cases, pool)
    counts(cases, pool)
    several(cases, rng)
