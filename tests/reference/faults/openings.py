"""openings.py - audited ballots that do not open to what they show.

Where nothing else is said the proofs hold, and the fault is in the audited part alone."""
from boardref import shown_bytes
from craft import permutation_matrix
from gen import HOUSE

from .base import BIG
from .election import P23, join
from .forged import FORGE
from .sheets import logarithm


def shown_length(n):
    return 4 * n * n + n


def showing(record, xs, ranking):
    """An audited ballot's record with another audited part."""
    return record[:-shown_length(len(ranking))] + shown_bytes(xs, ranking)


class Opened:
    """A board of two ballots, the second counted; `add` takes what the first, audited, shows.  V: its
    matrix, where it is not the ranking's, with forged proofs."""

    def __init__(self, out, new, ranking, group=HOUSE, V=None):
        n = len(ranking)
        self.out, self.n, self.ranking, self.c = out, n, ranking, new(n, 2, group)
        c, due = self.c, permutation_matrix(n, ranking)
        self.V = V or due
        self.first = c.ballot(1, self.V, FORGE if V else None, ranking=ranking)
        self.rest = c.ballot(2, permutation_matrix(n, list(range(1, n + 1)))) + c.sheet(1, 0)
        self.X = c.X[1]
        self.off = [[v - w for v, w in zip(*rows)] for rows in zip(self.V, due)]

    def but(self, *changes):
        """The x with some changed: (row, column, value)."""
        xs = [row[:] for row in self.X]
        for i, j, value in changes:
            xs[i][j] = value
        return xs

    def add(self, name, xs, ranking, number, note):
        """number: the refusal due, or None of an accepted board."""
        record = showing(self.first, xs, ranking)
        self.out.add(name, join([self.c.header(), record, self.rest]),
                     ('refused', number, 1) if number else ('accepted', 1, [], 1), note)


def spots(n):
    """The first pair, one or two in the middle, the last."""
    return (0, 0), (0, 1), (n - 1, 0), (n - 1, n - 1)


def other_x(out, new):
    for ranking in ([2, 1], [3, 1, 2]):
        made = Opened(out, new, ranking)
        q = made.c.group.q
        made.add('opening_ok', made.X, ranking, None, 'n=%d, as it is' % made.n)
        for i, j in spots(made.n):
            x = made.X[i][j]
            for value in ((x + 1) % q, (x - 1) % q, q - x, 0):
                made.add('opening_x', made.but((i, j, value)), ranking, 18,
                         'n=%d pair %d %d: another x' % (made.n, i + 1, j + 1))
            for value, text in ((q, 'q'), (x + q, 'x + q'), (BIG, '2^32 - 1'), (2 ** 31, '2^31')):
                made.add('opening_q', made.but((i, j, value)), ranking, 7,
                         'n=%d pair %d %d: %s' % (made.n, i + 1, j + 1, text))
        (a, b), (c, d) = spots(made.n)[:2]
        made.add('opening_x', made.but((a, b, made.X[c][d]), (c, d, made.X[a][b])), ranking, 18,
                 'n=%d, two x exchanged' % made.n)


def other_rankings(out, new):
    for ranking in ([2, 1], [3, 1, 2]):
        made = Opened(out, new, ranking)
        n = made.n
        for i in range(n):
            for value in (0, n + 1, 255, ranking[(i + 1) % n], ranking[i] + 128):
                made.add('opening_ranking', made.X, ranking[:i] + [value] + ranking[i + 1:], 18,
                         'n=%d, %d at place %d' % (n, value, i + 1))
            if i + 1 < n:
                other = ranking[:i] + [ranking[i + 1], ranking[i]] + ranking[i + 2:]
                made.add('opening_ranking', made.X, other, 18,
                         'n=%d, places %d and %d exchanged' % (n, i + 1, i + 2))


def second_equation_alone(out, new):
    """Another ranking is shown, and x for which every b is as it says: Y alone sees it."""
    for ranking, other in (([2, 1], [1, 2]), ([3, 1, 2], [3, 2, 1])):
        made = Opened(out, new, ranking)
        g = made.c.group
        log = logarithm(g.p, g.q, g.g0, g.g1)
        due = permutation_matrix(made.n, other)
        xs = [[(x + (v - w) * log) % g.q for x, v, w in zip(*rows)]
              for rows in zip(made.X, made.V, due)]
        made.add('opening_Y', xs, other, 18, 'n=%d, every b opens' % made.n)


def one_pair(out, new):
    """Forged: one pair of the matrix has another v than is shown.  Its b alone sees it; or, by
    another x, its Y alone."""
    for (i, j), v in zip(((0, 0), (0, 1), (1, 0), (1, 1), (1, 1)), (0, 1, 1, 0, 2)):
        V = [[1, 0], [0, 1]]
        V[i][j] = v
        made = Opened(out, new, [1, 2], P23, V)
        g = made.c.group
        note = 'pair %d %d has v = %d' % (i + 1, j + 1, v)
        made.add('opening_pair', made.X, [1, 2], 18, note + ', its Y opens')
        log = logarithm(g.p, g.q, g.g0, g.g1)
        x = (made.X[i][j] + made.off[i][j] * log) % g.q
        made.add('opening_pair', made.but((i, j, x)), [1, 2], 18, note + ', its b opens')


def no_rankings(out, new):
    """Forged: every pair opens as the last bytes say, and these are no ranking."""
    for shown, V in (([1, 1], [[1, 0], [1, 0]]), ([2, 2], [[0, 1], [0, 1]]),
                     ([0, 2], [[0, 0], [0, 1]]), ([1, 0], [[1, 0], [0, 0]]),
                     ([1, 3], [[1, 0], [0, 0]]), ([255, 1], [[0, 0], [1, 0]]),
                     ([0, 0], [[0, 0], [0, 0]]), ([3, 1, 1], [[0, 0, 1], [1, 0, 0], [1, 0, 0]]),
                     ([4, 1, 2], [[0, 0, 0], [1, 0, 0], [0, 1, 0]]),
                     ([0, 3], [[0, 0], [0, 0]]), ([2, 2, 2], [[0, 1, 0]] * 3)):
        made = Opened(out, new, shown, P23, V)
        made.add('opening_none', made.X, shown, 18, 'every pair opens as %s' % shown)


def openings(out, new):
    other_x(out, new)
    other_rankings(out, new)
    second_equation_alone(out, new)
    one_pair(out, new)
    no_rankings(out, new)
