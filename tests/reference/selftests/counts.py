"""counts.py - the count: 01's cases and those of elections.py by hand, and thousands of elections
and standing counts in three ways."""
import itertools
import random

import boardref as ref
import gen
from board.plain_count import left_of
from craft import permutation_matrix, strike
from elections import WORKED


def of_01():
    # "Counts 8, 17, 16, 19 of 60: 1 goes out."
    s = ref.first_standing(4, 60)
    assert not ref.closes(s, [8, 17, 16, 19]) and ref.lowest_due(s, [8, 17, 16, 19]) == 1
    # "Before round n-1, 30 of 60 does not close, 31 does."
    assert not ref.closes(s, [30, 10, 10, 10])
    assert ref.closes(s, [31, 10, 10, 9])
    assert ref.closes(s._replace(m=3), [30, 10, 10, 10])    # round n-1 always closes
    # "Ranking (4, 2, 1, 3) without 4, then 1, is (2, 3)."
    V = permutation_matrix(4, [4, 2, 1, 3])
    V = strike(V, 0)
    V = strike(V, next(i for i, r in enumerate(V) if r[0] == 1))
    assert V == permutation_matrix(4, [2, 3])[:2] and len(V) == 2
    # "n = 2, one ballot each way: closes in round 1, winner 1."
    assert ref.plain_count(2, [[1, 2], [2, 1]]) == (1, [[1, 1]], [], 1)


def equal_counts():
    def ends(*sheets):
        """Who goes out and who would win in round 3, 1, 2 and 3 of five being in."""
        s = ref.first_standing(5, 60)._replace(m=3, still_in=(1, 2, 3), sheets=sheets[:-1])
        return ref.lowest_due(s, sheets[-1]), ref.winner_due(s, sheets[-1])
    assert ends((1, 2, 3), (1, 2, 3), (9, 8, 7)) == (3, 1)  # none equal
    assert ends((9, 8, 7), (6, 7, 8), (9, 9, 9)) == (1, 3)  # round 2, though round 1 is against it
    assert ends((7, 6, 8), (8, 8, 8), (9, 9, 9)) == (2, 3)  # round 1 alone
    assert ends((4, 5, 1), (7, 7, 8), (9, 9, 9)) == (1, 3)  # of 1 and 2 round 1 sends 1
    assert ends((4, 5, 9), (8, 8, 7), (9, 9, 9)) == (3, 2)  # of 1 and 2 round 1 favours 2
    assert ends((1, 9, 2), (7, 7, 3), (9, 9, 8)) == (3, 2)  # 3 is not among the equal highest
    assert ends((1, 9, 2), (3, 7, 7), (8, 9, 9)) == (1, 2)  # 1 is not among them
    assert ends((9, 1, 2), (7, 3, 3), (9, 8, 8)) == (2, 1)  # 1 is not among the equal lowest
    assert ends((6, 6, 6), (8, 8, 8), (9, 9, 9)) == (3, 1)  # the number alone


def by_sheets(n, K, all_counts):
    """Who goes out and who wins, as the checker finds it."""
    standing = ref.first_standing(n, K)
    for counts in all_counts[:-1]:
        assert not ref.closes(standing, counts)
        standing = ref.after_out(standing, counts, ref.lowest_due(standing, counts))
    assert ref.closes(standing, all_counts[-1])
    return list(standing.outs), ref.winner_due(standing, all_counts[-1])


def by_hand():
    of_01()
    equal_counts()
    for name, n, K, rankings, counts, outs, winner, _ in WORKED:
        assert by_sheets(n, K, counts) == (outs, winner), name
        if rankings:
            due = (len(counts), counts, outs, winner)
            assert ref.plain_count(n, rankings) == due == second_count(n, rankings), name


def worst_first(processes, all_counts):
    """Sorted by one round after another, the present one last; equal ones stay in their order."""
    order = sorted(processes, reverse=True)
    for counts in all_counts:
        order.sort(key=lambda i: counts[i - 1])
    return order


def second_count(n, rankings):
    """Another way to count: strike the process from every ranking."""
    rankings = [list(r) for r in rankings]
    processes, outs, all_counts = list(range(1, n + 1)), [], []
    for m in itertools.count(1):
        tops = [r[0] for r in rankings]
        counts = [tops.count(i) for i in range(1, n + 1)]
        all_counts.append(counts)
        order = worst_first(processes, all_counts)
        if counts[order[-1] - 1] > len(rankings) / 2 or len(processes) == 2:
            return (m, all_counts, outs, order[-1])
        processes.remove(order[0])
        outs.append(order[0])
        for r in rankings:
            r.remove(order[0])


def random_elections(count, seed):
    """How many have a tie that an earlier round decides: (for who goes out, for the winner)."""
    rng = random.Random(seed)
    lower = upper = 0
    for _ in range(count):
        n, K = rng.randrange(2, 9), rng.randrange(1, 25)
        rankings = gen.rankings_of(rng, n, K, rng.choice(gen.STYLES))
        plain = ref.plain_count(n, rankings)
        _, all_counts, outs, winner = plain
        assert plain == second_count(n, rankings)
        assert by_sheets(n, K, all_counts) == (outs, winner)
        lower += any(outs[m] < max(i for i in range(1, n + 1) if i not in outs[:m]
                                   and counts[i - 1] == counts[outs[m] - 1])
                     for m, counts in enumerate(all_counts[:-1]))
        upper += winner > all_counts[-1].index(max(all_counts[-1])) + 1
    assert lower and upper
    return lower, upper


def random_standings(count, seed):
    """Any counts, of processes gone out as well: rankings need not give them."""
    rng = random.Random(seed)
    for _ in range(count):
        n, rounds = rng.randrange(2, 9), rng.randrange(1, 8)
        still_in = sorted(rng.sample(range(1, n + 1), rng.randrange(2, n + 1)))
        sheets = [[rng.randrange(rng.choice((1, 2, 3))) for _ in range(n)] for _ in range(rounds)]
        standing = ref.first_standing(n, 9)._replace(m=rounds, still_in=tuple(still_in),
                                                     sheets=tuple(sheets[:-1]))
        order = worst_first(still_in, sheets)
        assert (ref.lowest_due(standing, sheets[-1]) == max(left_of(still_in, sheets, min))
                == order[0]), (still_in, sheets)
        assert (ref.winner_due(standing, sheets[-1]) == min(left_of(still_in, sheets, max))
                == order[-1]), (still_in, sheets)
