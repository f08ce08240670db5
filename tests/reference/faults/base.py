"""base.py - a sound board with its parts, to be damaged."""
import boardref as ref
import gen
from boardref import be
from craft import Craft, layout

BIG = 2 ** 32 - 1


class Base:
    """A sound board with its parts; its matrices may use an x twice.  audited: the numbers of the
    audited ballots."""

    def __init__(self, rng, name, n, lists, group, audited=(), draws='random'):
        self.name, self.n, self.K, self.lists = name, n, len(lists), lists
        self.kinds = gen.audited_at(self.K, *audited)
        self.C = ref.counted_of(self.kinds)
        self.p, self.q, self.g0 = group
        self.label, self.counter = gen.label_counter(rng, *group)
        self.rounds, self.counts, self.outs, self.winner = ref.plain_count(
            n, gen.counted(lists, self.kinds))
        self.draws = gen.make_draws(rng, self.q, ref.draws_needed(n, self.kinds, self.rounds), draws)
        flat = [x for r in lists for x in r]
        self.board = gen.board_of(gen.Job(n, self.K, *group, self.counter, self.label, flat,
                                          self.kinds, self.draws, 0))
        self.accepted = ('accepted', self.rounds, self.outs, self.winner)
        self.fields = layout(n, self.kinds, self.rounds)
        self.starts = [f.start for f in self.fields if f.kind == 'mark'] + [len(self.board)]
        self.tiny = self.q < 1000

    def value(self, field):
        _, _, _, place, width, _ = field
        return int.from_bytes(self.board[place:place + width], 'big')

    def put(self, field, value):
        _, _, _, place, width, _ = field
        return self.board[:place] + be(value, width) + self.board[place + width:]

    def sheet(self, m):
        """The number of the sheet of round m: round 1 has K + 1 records, a later one C + 1."""
        return self.K + 1 + (m - 1) * (self.C + 1)

    def record(self, i):
        return self.board[self.starts[i]:self.starts[i + 1]]

    def records(self):
        return [self.record(i) for i in range(len(self.starts) - 1)]

    def xs(self, k):
        """The x of ballot k's pairs, by rows: the first of its draws."""
        start = (k - 1) * ref.ba_draws(self.n)
        return [self.draws[start + i * self.n:start + (i + 1) * self.n] for i in range(self.n)]

    def craft(self, seed):
        return Craft(self.n, self.K, self.p, self.q, self.g0, self.counter, self.label, seed)
