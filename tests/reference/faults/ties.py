"""ties.py - whole boards with equal counts: sound and forged ones, and ones made to deceive, which
decide between equal counts by another rule than the one in force."""
from elections import WORKED

from .election import HOUSE, P23, election, join
from .forged import FORGE

# another rule: by what it compares processes, out of their counts, the latest first; which of equal
# ones it takes
OTHER_RULES = {
    'this round alone': (lambda own: own[:1], max),
    'one round back alone': (lambda own: own[:2], max),
    'from round 1 up': (lambda own: own[:1] + own[:0:-1], max),
    'lowest number': (lambda own: own, min),
}

# the boards that follow one: election, rule, the first round that it changes, who goes out in it
DISHONEST = (
    ('four', 'this round alone', 2, 3), ('shown-three', 'this round alone', 3, 3),
    ('shown-three', 'one round back alone', 3, 2), ('shown-turned', 'this round alone', 3, 3),
    ('shown-turned', 'from round 1 up', 3, 2), ('shown-first', 'this round alone', 4, 2),
    ('number', 'lowest number', 2, 2),
)


class Otherwise:
    """The sheets of a board that follows another rule; see `sheet` of election."""

    def __init__(self, n, rule):
        self.key, self.number = OTHER_RULES[rule]
        self.still, self.sheets = list(range(1, n + 1)), []

    def __call__(self, m, counts, due):
        self.sheets.insert(0, counts)
        if due == 0:
            return 0
        keys = {i: self.key(tuple(sheet[i - 1] for sheet in self.sheets)) for i in self.still}
        out = self.number(i for i in self.still if keys[i] == min(keys.values()))
        self.still.remove(out)
        return out


def held(new, worked, sheet=None):
    """The board of an election of elections.py.  Where no rankings give its counts, it is forged:
    the first row of ballot k has a 1 for each process that is to have k or more."""
    n, K = worked.n, worked.K
    if worked.rankings:
        return election(new(n, K, HOUSE), worked.rankings, sheet=sheet)

    def rows(m, k):
        return [[1 if k <= count else 0 for count in worked.counts[m - 1]]] + [[0] * n] * (n - m)

    return election(new(n, K, P23), [list(range(1, n + 1))] * K, sheet=sheet,
                    ballot=lambda k, V: (rows(1, k), FORGE),
                    shift=lambda m, k, a: {'fault': 'forge', 'l': 0, 'V': rows(m, k)})


def ties(out, new):
    for worked in WORKED:
        records, *outcome = held(new, worked)
        assert outcome == [len(worked.counts), worked.outs, worked.winner], (worked.name, outcome)
        out.add('equal', join(records), ('accepted', *outcome), worked.name)
    by_name = {worked.name: worked for worked in WORKED}
    for name, rule, m, wrong in DISHONEST:
        worked = by_name[name]
        records, _, outs, _ = held(new, worked, Otherwise(worked.n, rule))
        assert outs[:m] == worked.outs[:m - 1] + [wrong] != worked.outs[:m], (name, rule, outs)
        out.add('otherwise', join(records), ('refused', 11, m * (worked.K + 1)),
                '%s, %s: %d goes out, not %d' % (name, rule, wrong, worked.outs[m - 1]))
