"""Sound writer jobs, to be changed: see job_cases.py and repeat_cases.py."""
import boardref as ref
import gen

HOUSE = gen.HOUSE
NAMES = ('n', 'K', 'p', 'q', 'g0', 'counter', 'label', 'rankings', 'kinds', 'draws', 'out_len')
CYCLE = [[1, 2, 3], [2, 3, 1], [3, 1, 2]]


class Job:
    """A job, sound if the group has enough numbers for the x of a matrix; `but` gives it with some
    parts changed.  audited: the numbers of the audited ballots."""

    def __init__(self, rng, n, lists, group, draws='random', counter=None, audited=()):
        p, q, g0 = group
        g0 = g0 or gen.elements_g0(rng, p, q)
        label, found = gen.label_counter(rng, p, q, g0)
        while counter is not None and not ref.g1_holds(g0, ref.make_g1(p, q, g0, counter, label)):
            label = rng.randbytes(32)
        self.n, self.K, self.q = n, len(lists), q
        kinds = gen.audited_at(self.K, *audited)
        self.rounds, _, self.outs, self.winner = ref.plain_count(n, gen.counted(lists, kinds))
        self.needed = ref.draws_needed(n, kinds, self.rounds)
        self.places = ref.x_places(n, kinds, self.rounds)    # of the x of each matrix
        self.length = ref.board_length(n, kinds, self.rounds)
        self.parts = dict(zip(NAMES, (
            n, self.K, p, q, g0, found if counter is None else counter, label,
            bytes(x for r in lists for x in r), kinds,
            tuple(gen.job_draws(rng, q, n, kinds, self.rounds, draws)), self.length)))

    def but(self, **changes):
        return tuple({**self.parts, **changes}[name] for name in NAMES)

    def written(self):
        return ('written', self.length, self.rounds, self.outs, self.winner)

    def equal(self, *pairs):
        """The draws, of each pair of places the second made as the first."""
        draws = list(self.parts['draws'])
        for first, second in pairs:
            draws[second] = draws[first]
        return tuple(draws)

    def repeat(self, matrix, i, j):
        """The draws with x number j of a matrix made as x number i; numbers from 0, or back from -1."""
        xs = range(self.needed)[self.places[matrix]]
        return self.equal((xs[i], xs[j]))


def put(items, place, value):
    """bytes or a tuple with one item changed"""
    return items[:place] + type(items)([value]) + items[place + 1:]
