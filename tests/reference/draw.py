"""draw.py - random groups, rankings, kinds and draws."""
from collections import namedtuple

import boardref as ref

HOUSE_P = 2147483579            # largest p < 2^31 with p and (p-1)/2 prime; selftest proves it
HOUSE = (HOUSE_P, (HOUSE_P - 1) // 2, 4)


# a writer job, as ref.write takes it
Job = namedtuple('Job', 'n K p q g0 counter label rankings kinds draws out_len')


def elements_g0(rng, p, q):
    while True:
        g0 = pow(rng.randrange(1, p), (p - 1) // q, p)
        if g0 != 1:
            return g0


def label_counter(rng, p, q, g0):
    """A random label and counter that give a valid g1."""
    while True:
        label = rng.randbytes(32)
        counter = rng.randrange(256)
        if ref.g1_holds(g0, ref.make_g1(p, q, g0, counter, label)):
            return label, counter


# fixed (p, q): tiny ones, ones with q^2 | p-1, the largest prime below 2^31, others
FIXED = [(7, 3), (19, 3), (11, 5), (101, 5), (29, 7), (43, 7), (23, 11), (199, 11), (53, 13),
         (47, 23), (1979, 23), (2147483647, 331), (2147483647, 151), (2147483647, 31),
         (2147483647, 11), (2147483647, 7), HOUSE[:2]]


# (p, q) by n: the largest q with q - 1 < n^2, too few numbers for the x of a ballot's matrix, and the
# least q with q - 1 >= n^2.  q - 1 = n^2 - 1 would need q = n^2, no prime; q - 1 = n^2 is there for
# n = 2, 4 and 6.
TOO_FEW = {2: (7, 3), 3: (29, 7), 4: (53, 13), 5: (47, 23), 6: (311, 31), 7: (283, 47), 8: (367, 61)}
JUST_ENOUGH = {2: (11, 5), 3: (23, 11), 4: (103, 17), 5: (59, 29), 6: (149, 37), 7: (107, 53),
               8: (269, 67)}


def random_pq(rng, q_bits, p_bits):
    """q of about q_bits bits, p = kq+1 of about p_bits bits, p < 2^31."""
    while True:
        q = rng.getrandbits(q_bits) | 1 | (1 << (q_bits - 1))
        if not ref.is_prime(q):
            continue
        for _ in range(400):
            low = max(2, (1 << (p_bits - 1)) // q)
            k = rng.randrange(low, 2 * low + 2)
            p = k * q + 1
            if p < 2 ** 31 and ref.is_prime(p):
                return p, q


def random_group(rng, least_q):
    """(p, q, g0) with q >= least_q, from several sizes."""
    while True:
        way = rng.randrange(6)
        if way <= 1:
            p, q = rng.choice(FIXED)
        elif way == 2:
            p, q = random_pq(rng, rng.randrange(3, 9), rng.randrange(9, 14))
        elif way == 3:
            p, q = random_pq(rng, rng.randrange(8, 16), 31)
        elif way == 4:
            p, q = random_pq(rng, rng.randrange(20, 28), 31)
        else:
            p, q = HOUSE[:2]
        if q >= least_q:
            g0 = 4 if (p, q) == HOUSE[:2] else elements_g0(rng, p, q)
            return p, q, g0


def rankings_of(rng, n, K, style):
    base = list(range(1, n + 1))
    out = []
    for k in range(K):
        r = base[:]
        if style == 'random':
            rng.shuffle(r)
        elif style == 'same':                        # majority in round 1
            r = base[::-1]
        elif style == 'cycle':                       # ties all along
            s = k % n
            r = base[s:] + base[:s]
        elif style == 'half':                        # exactly half for process n (K even)
            if k % 2 == 0:
                r = [n] + base[:-1]
            else:
                head = 1 + (k // 2) % max(1, n - 1)
                r = [head] + [i for i in base if i != head]
        elif style == 'late':                        # wins only after transfers
            rng.shuffle(r)
            r.remove(n)
            r.insert(1, n)
        elif style == 'two':                         # two camps
            r = base if k % 2 == 0 else base[::-1]
        out.append(list(r))
    rng.shuffle(out)
    return out


STYLES = ('random', 'same', 'cycle', 'half', 'late', 'two')


def audited_at(K, *numbers):
    """The kinds of K ballots, those of these numbers audited."""
    return bytes(ref.AUDITED if k in numbers else ref.COUNTED for k in range(1, K + 1))


def kinds_of(rng, K, style='random'):
    """At least one ballot is counted."""
    numbers = {'none': [], 'first': [1], 'last': [K], 'one': [rng.randint(1, K)],
               'all but one': rng.sample(range(1, K + 1), K - 1),
               'random': rng.sample(range(1, K + 1), rng.randrange(K))}[style]
    return audited_at(K, *(numbers if len(numbers) < K else ()))


KIND_STYLES = ('none', 'none', 'first', 'last', 'one', 'all but one', 'random', 'random')


def counted(lists, kinds):
    """The rankings that are counted."""
    return [ranking for ranking, kind in zip(lists, kinds, strict=True) if kind == ref.COUNTED]


def make_draws(rng, q, count, style='random'):
    """Any draws: a matrix may use an x twice."""
    if style == 'ones':
        return [1] * count
    if style == 'tops':
        return [q - 1] * count
    if style == 'edges':
        return [rng.choice((1, q - 1)) for _ in range(count)]
    return [rng.randrange(1, q) for _ in range(count)]


def different(rng, q, count, style='random'):
    """So many different numbers: from 1 up, from q - 1 down, from both ends, or any."""
    if style == 'ones':
        return list(range(1, count + 1))
    if style == 'tops':
        return list(range(q - 1, q - 1 - count, -1))
    if style == 'edges':
        return [q - 1 - i // 2 if i % 2 else 1 + i // 2 for i in range(count)]
    return rng.sample(range(1, q), count)


def job_draws(rng, q, n, kinds, rounds, style='random'):
    """Draws of which no matrix uses an x twice, wherever there are as many numbers as it has x."""
    draws = make_draws(rng, q, ref.draws_needed(n, kinds, rounds), style)
    for place in ref.x_places(n, kinds, rounds):
        count = len(draws[place])
        if count <= q - 1:
            draws[place] = different(rng, q, count, style)
    return draws


def board_of(job):
    """What the writer makes of a job's draws below its tests: a matrix may use an x twice."""
    n, p, q, g0 = job.n, job.p, job.q, job.g0
    lists = [list(job.rankings[k * n:(k + 1) * n]) for k in range(job.K)]
    group = ref.Group(p, q, g0, ref.make_g1(p, q, g0, job.counter, job.label), job.label)
    return ref.write_board(group, n, job.counter, lists, job.kinds,
                           ref.plain_count(n, counted(lists, job.kinds)), job.draws)
