"""moved.py - sound proofs taken from another place of their board where the same is claimed."""
import itertools

import boardref as ref
from boardref import be
from craft import permutation_matrix

from .election import join


def span(n, place):
    """Where the proof at a place of a ballot's record starts and ends."""
    entries = n * n
    if place < entries:
        start, size = ref.BA_FRAME + 8 * entries + 32 * place, 32
    else:
        start, size = ref.BA_FRAME + 40 * entries + 16 * (place - entries), 16
    return start, start + size


def copied(n, source, taken, target, given):
    """The record target with the proof at one place that of the record source at another."""
    start, end = span(n, given)
    proof = source[slice(*span(n, taken))]
    assert len(proof) == end - start
    return target[:start] + proof + target[end:]


def crossed(c):
    """The x of two rows and two columns whose pairs are equal crosswise, so that all rows and
    columns have one claim."""
    x, y = c.draw(), c.draw()
    return [[x, y], [y, x]]


def within_a_ballot(out, new):
    """n = 2: places 0 and 3 have one claim, 1 and 2 another, the rows and columns, 4 to 7, one too."""
    for alike in ((0, 3), (1, 2), (4, 5, 6, 7)):
        for taken, given in itertools.permutations(alike, 2):
            c = new(2, 1)
            records = [c.header(), c.ballot(1, permutation_matrix(2, [1, 2]), X=crossed(c)),
                       c.sheet(1, 0)]
            assert ref.check(join(records)) == ('accepted', 1, [], 1)
            records[1] = copied(2, records[1], taken, records[1], given)
            out.add('moved_BA', join(records), ('refused', 8, 1),
                    'place %d has the proof of place %d' % (given, taken))


def between_ballots(out, new):
    """Two ballots of equal pairs, each proved for itself; a proof or all of them taken over."""
    V = permutation_matrix(2, [2, 1])
    for place in (*range(8), None):
        for taken, given in ((1, 2), (2, 1)):
            c = new(2, 2)
            X = [[c.draw(), c.draw()], [c.draw(), c.draw()]]
            records = [c.header(), c.ballot(1, V, X=X), c.ballot(2, V, X=X), c.sheet(1, 0)]
            assert ref.check(join(records)) == ('accepted', 1, [], 2)
            if place is None:
                records[given] = b'BA' + be(given, 2) + records[taken][4:]
            else:
                records[given] = copied(2, records[taken], place, records[given], place)
            out.add('moved_BA', join(records), ('refused', 8, given),
                    'ballot %d has %s of ballot %d, whose pairs are equal'
                    % (given, 'all proofs' if place is None else 'proof %d' % place, taken))


def between_shifts(out, new):
    """Ballots 1, 2 and 4 are equal in both rounds; a shift's proof taken over."""
    lists = [[1, 2, 3], [1, 2, 3], [2, 1, 3], [1, 2, 3], [2, 3, 1], [3, 2, 1]]
    for taken, given in ((1, 2), (2, 1), (1, 4), (4, 2)):
        c = new(3, 6)
        X = [[c.draw() for _ in range(3)] for _ in range(3)]
        later = [[c.draw() for _ in range(3)] for _ in range(2)]
        alike = (1, 2, 4)
        records = [c.header()]
        records += [c.ballot(k, permutation_matrix(3, ranking), X=X if k in alike else None)
                    for k, ranking in enumerate(lists, 1)]
        records.append(c.sheet(1, 3))
        records += [c.shift(k, 3, X=later if k in alike else None) for k in range(1, 7)]
        records.append(c.sheet(2, 0))
        rounds, _, outs, winner = ref.plain_count(3, lists)
        assert ref.check(join(records)) == ('accepted', rounds, outs, winner)
        assert records[7 + taken][4:52] == records[7 + given][4:52]          # the pairs
        records[7 + given] = b'SH' + be(given, 2) + records[7 + taken][4:]
        out.add('moved_SH', join(records), ('refused', 8, 7 + given),
                'shift %d has the proof of shift %d, whose pairs are equal' % (given, taken))


def moved(out, new):
    within_a_ballot(out, new)
    between_ballots(out, new)
    between_shifts(out, new)
