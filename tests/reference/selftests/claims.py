"""claims.py - what the proofs' claims mean, by logarithms in p = 23."""
import random

import boardref as ref
from craft import permutation_matrix, strike

from .hand import G

LOG0 = {pow(2, w, 23): w for w in range(11)}
LOG1 = {pow(3, w, 23): w for w in range(11)}


def true_branches(claim):
    """For each branch, whether log_g0 A = log_g1 B in all its statements (A, B)."""
    return [all(LOG0[A] == LOG1[B] for A, B in branch) for branch in claim]


def matrix_of(rng, V):
    return [[ref.pair_of(G, rng.randrange(11), v % 11) for v in row] for row in V]


def ballot_claims(rng):
    for v in range(11):
        for x in range(11):
            assert true_branches(ref.entry_claim(G, ref.pair_of(G, x, v))) == [v == 0, v == 1]
    for _ in range(300):
        row = [rng.choice((0, 0, 1, 2, -1)) for _ in range(rng.randrange(2, 6))]
        assert true_branches(ref.line_claim(G, matrix_of(rng, [row])[0])) == [sum(row) % 11 == 1]


def random_next(rng, n, processes, a):
    """A list one shorter than processes: without a, or wrong in one of several ways."""
    size = len(processes)
    way = rng.randrange(5)
    if way <= 1:
        new = [i for i in processes if i != a][:size - 1]
    elif way == 2:
        new = [i for i in processes if i != rng.choice(processes)][:size - 1]
    elif way == 3:
        new = [i for i in processes if i != a][:size - 1]
        i, j = rng.randrange(len(new)), rng.randrange(len(new))
        new[i], new[j] = new[j], new[i]
    else:
        new = [rng.randrange(1, n + 1) for _ in range(size - 1)]
    while len(new) < size - 1:
        new.append(rng.randrange(1, n + 1))
    return new


def shift_claim_once(rng):
    """Whether the shift, made at random, was a right one."""
    n = rng.randrange(2, 6)
    size = rng.randrange(2, n + 1)                    # rows of the matrix before
    processes = rng.sample(range(1, n + 1), size)
    a = rng.choice(processes) if rng.random() < 0.8 else rng.randrange(1, n + 1)
    V = permutation_matrix(n, processes)
    new = random_next(rng, n, processes, a)
    W = permutation_matrix(n, new)
    if rng.random() < 0.1:                            # one entry off
        W[rng.randrange(len(W))][rng.randrange(n)] += rng.choice((1, -1, 2))
    got = true_branches(ref.shift_claim(G, matrix_of(rng, V), matrix_of(rng, W), a))
    want = [False] * size
    if a in processes:
        l = processes.index(a)
        want[l] = W == strike(V, l)
    assert got == want, (processes, a, new, got, want)
    return any(want)


def claims_mean_what_they_say(seed):
    """In p = 23 every logarithm can be looked up: a statement (A, B) is true iff
    log_g0 A = log_g1 B.  Compare with the lists that the matrices stand for."""
    rng = random.Random(seed)
    ballot_claims(rng)
    trues = sum(shift_claim_once(rng) for _ in range(4000))
    assert 500 < trues < 3500
