"""election.py - whole boards made freely: what the dishonest and forged ones are built with."""
import gen
from craft import Craft, permutation_matrix, strike
from gen import HOUSE

P23 = (23, 11, 2)                                     # a tiny group
LISTS3 = [[1, 2, 3], [2, 3, 1], [3, 1, 2]]
LISTS4 = [[1, 2, 3, 4], [2, 3, 4, 1], [3, 4, 1, 2], [4, 1, 2, 3]]
LISTS5 = [[1, 2, 3, 4, 5], [2, 3, 4, 5, 1], [3, 4, 5, 1, 2], [4, 5, 1, 2, 3], [5, 1, 2, 3, 4]]
PAIRS4 = [[1, 2, 3, 4], [2, 1, 4, 3], [3, 4, 1, 2], [4, 3, 2, 1]]

join = b''.join


class Crafts:
    """Makes a Craft for each board, its label and counter drawn, its seed the next number."""

    def __init__(self, rng):
        self.rng, self.seed = rng, 1000

    def new(self, n, K, group=HOUSE):
        self.seed += 1
        label, counter = gen.label_counter(self.rng, *group)
        return Craft(n, K, *group, counter, label, self.seed)


def election(c, lists, alter=None, sheet=None, shift=None, ballot=None, audited=()):
    """Builds a whole board through Craft c, following the counts that its matrices give.
    alter(m, k, V) -> new matrix for round m >= 2;  ballot(k, V) -> (V, faults);
    shift(m, k, a) -> dict of arguments for Craft.shift;
    sheet(m, counts, due) -> out field to write (due: the right one) or None to stop there;
    audited: the numbers of the audited ballots.
    Returns records, and the (rounds, outs, winner) that the sheets' counts lead to."""
    n = c.n
    records = [c.header()]
    for k in range(1, c.K + 1):
        V = permutation_matrix(n, lists[k - 1])
        faults = None
        if ballot:
            V, faults = ballot(k, V)
        records.append(c.ballot(k, V, faults, ranking=lists[k - 1] if k in audited else None))
    C = len(c.counted())
    still, outs, sheets, m = list(range(1, n + 1)), [], [], 1
    while True:
        counts, _ = c.tallies()
        sheets.insert(0, counts)
        by_process = dict(enumerate(zip(*sheets), 1))        # its counts, the latest first
        top = max(by_process[i] for i in still)
        low = min(by_process[i] for i in still)
        closing = 2 * top[0] > C or m == n - 1
        due = 0 if closing else max(i for i in still if by_process[i] == low)
        shown = due if sheet is None else sheet(m, counts, due)
        records.append(c.sheet(m, shown, counts=[min(x, 65535) for x in counts]))
        if shown == 0:
            return records, m, outs, min(i for i in still if by_process[i] == top)
        outs.append(shown)
        still.remove(shown)
        m += 1
        records += [shifted(c, m, k, shown, alter, shift) for k in c.counted()]


def shifted(c, m, k, out, alter, shift):
    """The shift of ballot k in round m, after a process went out; alter and shift as above."""
    args = dict(shift(m, k, out) or {}) if shift else {}
    if alter and 'V' not in args:
        l = args.get('l')
        if l is None:
            l = next((i for i, row in enumerate(c.V[k]) if row[out - 1] == 1), 0)
        args['l'] = l
        args['V'] = alter(m, k, strike(c.V[k], l))
    return c.shift(k, args.pop('a', out), **args)
