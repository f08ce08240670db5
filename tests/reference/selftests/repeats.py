"""repeats.py - x that a matrix uses twice: by hand, for every two draws of a job, and in groups that
have just enough numbers, or too few."""
import itertools
import random

import boardref as ref
import gen


def matrices_on(board, n, kinds, rounds):
    """The Y of each matrix, read straight off the board by their known places."""
    found, at = [], 54
    for m in range(1, rounds + 1):
        rows = n - m + 1
        for kind in kinds if m == 1 else bytes(kinds.count(0)):
            pairs = at + (5 if m == 1 else 4)
            found.append([board[i + 4:i + 8] for i in range(pairs, pairs + 8 * rows * n, 8)])
            at += ref.ba_length(n, kind) if m == 1 else ref.sh_length(n, rows)
        at += ref.rt_length(n)
    assert at == len(board)
    return found


def repeated_on(board, n, kinds, rounds):
    """Whether a matrix has two equal Y: g1^x of x from 1 to q-1 are equal where the x are, and nowhere
    else."""
    return any(len(set(ys)) < len(ys) for ys in matrices_on(board, n, kinds, rounds))


def one_ballot(p, q):
    """A job of n = 2, K = 1 without draws: it needs 20, the first four are the x."""
    g0 = gen.elements_g0(random.Random(q), p, q)
    label, counter = gen.label_counter(random.Random(q), p, q, g0)
    return gen.Job(2, 1, p, q, g0, counter, label, [2, 1], bytes(1), [], 229 + 54 + 16)


def one_matrix():
    """Each pair of the four x, with another fault too: 20 before 15 alone.  Other draws may be equal."""
    job, rest = one_ballot(*gen.HOUSE[:2]), [7] * 16

    def answer(draws, **changes):
        return ref.write(*job._replace(draws=draws, **changes))
    for xs in ([1, 2, 3, 4], [7, 2, 3, 4], [1, 2, 3, 7], [1, 257, 65537, 16777217]):
        assert answer(xs + rest)[0] == answer(xs + rest + xs)[0] == 'written'
        assert answer(xs + rest, out_len=0) == ('refused', 15, 0)
    for i, j in itertools.combinations(range(4), 2):
        xs = [1, 2, 3, 4]
        xs[j] = xs[i]
        assert answer(xs + rest) == answer(xs + rest, out_len=0) == ('refused', 20, 0)
        for bad in (rest[1:], rest[1:] + [0], [gen.HOUSE[1]] + rest[1:]):
            assert answer(xs + bad) == answer(xs + bad, out_len=0) == ('refused', 14, 0)
        assert answer(xs + rest, kinds=b'\1') == ('refused', 19, 0)
        assert answer(xs + rest, kinds=b'\2') == ('refused', 17, 0)
        assert answer(xs + rest, rankings=[2, 2]) == ('refused', 13, 1)


def every_two_draws():
    """n = 3, K = 3, ballot 2 audited, two rounds: the x are draws 0 to 8, 42 to 50 and 84 to 92 of the
    ballots, 126 to 131 and 158 to 163 of the shifts."""
    p, q = 467, 233                                   # more numbers than the 190 draws
    rng = random.Random(20)
    g0 = gen.elements_g0(rng, p, q)
    label, counter = gen.label_counter(rng, p, q, g0)
    matrices = [range(0, 9), range(42, 51), range(84, 93), range(126, 132), range(158, 164)]
    draws = rng.sample(range(1, q), 190)
    job = gen.Job(3, 3, p, q, g0, counter, label, [1, 2, 3, 2, 3, 1, 3, 1, 2], b'\0\1\0', draws, 0)
    for i, j in itertools.combinations(range(190), 2):
        same = any(i in xs and j in xs for xs in matrices)
        draws[j], kept = draws[i], draws[j]
        assert ref.write(*job) == ('refused', 20 if same else 15, 0), (i, j)
        draws[j] = kept


def every_x(p, q):
    """How many of all choices of four x, from 0 to q, are written: of n = 2, K = 1."""
    job, written = one_ballot(p, q), 0
    for xs in itertools.product(range(q + 1), repeat=4):
        answer = ref.write(*job._replace(draws=[*xs] + [1] * 16))
        if not all(1 <= x <= q - 1 for x in xs):
            assert answer == ('refused', 14, 0), xs
        elif len(set(xs)) < 4:
            assert answer == ('refused', 20, 0), xs
        else:
            assert answer[0] == 'written' and not repeated_on(answer[1], 2, bytes(1), 1), xs
            written += 1
    return written


def two_ballots(rng, n, p, q):
    """A job of two ballots and n - 1 rounds, without draws."""
    g0 = gen.elements_g0(rng, p, q)
    label, counter = gen.label_counter(rng, p, q, g0)
    return gen.Job(n, 2, p, q, g0, counter, label, [*range(1, n + 1), *range(n, 0, -1)], bytes(2), [],
                   ref.board_length(n, bytes(2), n - 1))


def too_few():
    """"With q-1 below the matrix's size every job is turned down": by 20, or by 14."""
    rng = random.Random(21)
    for n, (p, q) in gen.TOO_FEW.items():
        assert q - 1 < n * n <= gen.JUST_ENOUGH[n][1] - 1
        assert not any(ref.is_prime(between) for between in range(q + 1, gen.JUST_ENOUGH[n][1]))
        job = two_ballots(rng, n, p, q)
        for _ in range(100):
            draws = gen.job_draws(rng, q, n, bytes(2), n - 1)
            assert ref.write(*job._replace(draws=draws)) == ('refused', 20, 0)
            draws[rng.randrange(len(draws))] = rng.choice((0, q))
            assert ref.write(*job._replace(draws=draws)) == ('refused', 14, 0)


def just_enough():
    rng = random.Random(22)
    for n, (p, q) in gen.JUST_ENOUGH.items():
        job = two_ballots(rng, n, p, q)
        for style in ('random', 'edges'):
            draws = gen.job_draws(rng, q, n, bytes(2), n - 1, style)
            answer = ref.write(*job._replace(draws=draws))
            assert answer[0] == 'written' and not repeated_on(answer[1], n, bytes(2), n - 1)


def by_hand():
    one_matrix()
    every_two_draws()
    # of 2 numbers none, of 4 all orders, of 6 the orders of any four
    assert [every_x(p, q) for p, q in ((7, 3), (11, 5), (29, 7))] == [0, 24, 360]
    too_few()
    just_enough()
