"""forged.py - tiny groups, where a false proof is met after some tries.

By the rules these boards are accepted; their matrices open to no rankings.  They show how the count
must treat counts that do not sum to the number of counted ballots and counts of processes gone out."""
from craft import strike

from .election import P23, election, join

P11 = (11, 5, 4)
FORGE = {'false': 'forge'}                            # a ballot's faults: false claims are forged


def forge_shift(m, k, a):
    return {'fault': 'forge', 'l': 0}


def turned(n, K):
    """Rankings 1 to n, each begun one further on."""
    base = list(range(1, n + 1))
    return [base[k % n:] + base[:k % n] for k in range(K)]


def forged(out, rng, new):
    odd_entries(out, new)
    odd_sums(out, new)
    gone_out_leads(out, new)
    random_matrices(out, rng, new)


def odd_entries(out, new):
    # entries of 2 and -1 in a ballot
    records, *_ = election(new(2, 2, P23), [[2, 1], [2, 1]],
                           ballot=lambda k, V: ([[2, -1], [-1, 2]], FORGE)
                           if k == 2 else (V, None))
    out.add('forged', join(records), ('accepted', 1, [], 1), 'counts 2, 0 of 2 by an entry of 2')
    # ballots that are all zeros: counts 0 of K
    for n in (2, 3, 4):
        zero = [[0] * n for _ in range(n)]
        records, m, outs, w = election(
            new(n, 2, P23), [list(range(1, n + 1))] * 2, ballot=lambda k, V: (zero, FORGE),
            shift=forge_shift)
        assert (m, outs, w) == (n - 1, list(range(n, 2, -1)), 1)
        out.add('forged', join(records), ('accepted', m, outs, w), 'n=%d, all counts 0' % n)
    # ballots that are all ones: every count K; majority for all, lowest wins
    for n in (2, 3):
        ones = [[1] * n for _ in range(n)]
        records, *_ = election(
            new(n, 2, P23), [list(range(1, n + 1))] * 2, ballot=lambda k, V: (ones, FORGE))
        out.add('forged', join(records), ('accepted', 1, [], 1), 'n=%d, all counts K' % n)


def odd_sums(out, new):
    """Counts that sum to more or less than K."""
    for n, rows in ((3, [[0, 0, 1], [0, 1, 0], [1, 0, 0]]), (3, [[0, 1, 1], [1, 0, 0], [0, 0, 0]]),
                    (3, [[0, 0, 0], [0, 0, 1], [1, 1, 0]]), (3, [[1, 0, 1], [0, 1, 1], [0, 0, 0]]),
                    (4, [[0, 1, 0, 0], [1, 0, 1, 0], [0, 0, 0, 1], [0, 0, 0, 0]]),
                    (4, [[0, 0, 0, 0]] * 4), (4, [[1, 0, 0, 1], [0, 1, 0, 0], [0, 0, 1, 0],
                                                 [0, 0, 0, 0]])):
        for group in (P23, P11):
            K = 4
            c = new(n, K, group)
            records, m, outs, w = election(
                c, turned(n, K), ballot=lambda k, V: (rows, FORGE) if k == K else (V, None),
                shift=lambda m, k, a: forge_shift(m, k, a) if k == K else None)
            expect = ('accepted', m, outs, w)
            if any(x > K for x in c.tallies()[0]):
                expect = None
            out.add('forged', join(records), expect, 'n=%d q=%d ballot %s' % (n, group[1], rows))


def shift_for_gone(c, least, gone):
    """A shift after which, in ballots from number `least`, the first row shows the process that
    went out first.  gone: a list to which those that go out are added."""
    def shift(m, k, a):
        gone.append(a)
        l = next((i for i, row in enumerate(c.V[k]) if row[a - 1] == 1), 0)
        V = strike(c.V[k], l)
        if k >= least:
            V[0] = [1 if j + 1 == gone[0] else 0 for j in range(c.n)]
        return {'fault': 'forge', 'l': l, 'V': V}
    return shift


def gone_out_leads(out, new):
    K = 4
    # after round 1 all first rows show the process gone out: it has count K, more than half, and
    # must neither close the board nor win nor go out again
    for n in (3, 4, 5):
        for group in (P23, P11 if n < 5 else P23):
            c, gone = new(n, K, group), []
            records, m, outs, w = election(c, turned(n, K), shift=shift_for_gone(c, 1, gone))
            assert m == n - 1 and w != gone[0] and len(set(outs)) == len(outs)
            out.add('forged', join(records), ('accepted', m, outs, w),
                    'n=%d q=%d, process %d gone out has all counts later' % (n, group[1], gone[0]))
    # the same with three of the four ballots
    for n in (4, 5):
        c = new(n, K, P23)
        records, m, outs, w = election(c, turned(n, K), shift=shift_for_gone(c, 2, []))
        out.add('forged', join(records), ('accepted', m, outs, w),
                'three of four for a process out')


def random_matrices(out, rng, new):
    """Random matrices all through, tiny groups."""
    for _ in range(60):
        n = rng.randrange(2, 6)
        group = rng.choice((P23, P11, (7, 3, 2), (29, 7, 7)))
        if group[1] <= n:
            continue
        K = rng.randrange(1, min(5, group[1]))
        c = new(n, K, group)
        lists = [list(range(1, n + 1)) for _ in range(K)]
        for ranking in lists:
            rng.shuffle(ranking)
        random_election(out, rng, c, lists)


def random_election(out, rng, c, lists):
    n, K, q = c.n, c.K, c.group.q
    highest = []

    def any_row():
        row = [0] * n
        for _ in range(rng.choice((0, 1, 1, 2))):
            row[rng.randrange(n)] = 1
        return row

    def ballot(k, V):
        if rng.random() < 0.5:
            return V, None
        return [any_row() for _ in range(n)], FORGE

    def shift(m, k, a):
        return {'fault': 'forge', 'l': 0, 'V': [any_row() for _ in range(n - m + 1)]}

    def sheet(m, counts, due):
        highest.append(max(counts))
        return due

    records, m, outs, w = election(c, lists, ballot=ballot, shift=shift, sheet=sheet)
    out.add('forged', join(records), ('accepted', m, outs, w) if max(highest) <= K else None,
            'random matrices n=%d K=%d q=%d' % (n, K, q))
