"""jobs.py - jobs worked by hand, and random ones: written or refused for a repeat, their boards
checked and counted in a second way; boards made by Craft."""
import random

import boardref as ref
import gen
from craft import Craft, permutation_matrix
from elections import WORKED

from .counts import second_count
from .repeats import repeated_on


def sheets_of(board, n, kinds, rounds):
    """Rounds, outs and counts read straight off the sheets by their known places."""
    outs, counts = [], []
    place = 54 + len(kinds) * (5 + 40 * n ** 2 + 32 * n) + sum(kinds) * (4 * n ** 2 + n)
    for m in range(1, rounds + 1):
        if m > 1:
            place += (len(kinds) - sum(kinds)) * ref.sh_length(n, n - m + 1)
        assert board[place:place + 2] == b'RT' and board[place + 2] == m
        outs.append(board[place + 3])
        counts.append([int.from_bytes(board[place + 4 + 6 * i:place + 6 + 6 * i], 'big')
                       for i in range(n)])
        place += ref.rt_length(n)
    assert place == len(board)
    return outs, counts


def small_group(rng, least_q):
    """(p, q, g0) with q >= least_q and a small p."""
    while True:
        if rng.random() < 0.8:
            p, q = rng.choice([f for f in gen.FIXED if f[0] < 3000])
        else:
            p, q = gen.random_pq(rng, rng.randrange(3, 12), 14)
        if q >= least_q:
            return p, q, gen.elements_g0(rng, p, q)


def random_job(rng, i):
    """A job in a small group and its plain count; n is large in one of 60.  In some a matrix uses an x
    twice, in groups with too few numbers in all."""
    n = rng.choice((2, 2, 3, 3, 3, 4, 4, 5)) if i % 60 else rng.randrange(6, 9)
    K = rng.randrange(1, 9 if n < 4 else 7 if n < 6 else 4)
    p, q, g0 = small_group(rng, max(rng.choice((n, n * n, n * n)), K) + 1)
    label, counter = gen.label_counter(rng, p, q, g0)
    lists = gen.rankings_of(rng, n, K, rng.choice(gen.STYLES))
    kinds = gen.kinds_of(rng, K, rng.choice(gen.KIND_STYLES))
    counted = [lists[k] for k in range(K) if kinds[k] == 0]
    plain = ref.plain_count(n, counted)
    assert plain == second_count(n, counted)
    rounds, counts = plain[:2]
    assert all(sum(c) == len(counted) for c in counts)
    style = rng.choice(('random', 'random', 'ones', 'tops', 'edges'))
    draws = (gen.make_draws(rng, q, ref.draws_needed(n, kinds, rounds), style) if rng.random() < 0.2
             else gen.job_draws(rng, q, n, kinds, rounds, style))
    flat = [x for r in lists for x in r]
    return gen.Job(n, K, p, q, g0, counter, label, flat, kinds, draws,
                   ref.board_length(n, kinds, rounds)), plain


def written_as_counted(job, plain):
    """The writer's answer and the board of its draws, once the checker and the sheets agree with the
    plain count, and once the answer is 20 where a matrix on the board has two equal Y, else the
    board."""
    rounds, counts, outs, winner = plain
    board = gen.board_of(job)
    assert ref.check(board) == ('accepted', rounds, outs, winner)
    assert sheets_of(board, job.n, job.kinds, rounds) == (outs + [0], counts)
    answer = ref.write(*job)
    if repeated_on(board, job.n, job.kinds, rounds):
        assert answer == ('refused', 20, 0)
    else:
        assert answer == ('written', board, rounds, outs, winner)
    return answer, board


def audited_as_given(job, board):
    """How many ballots are audited, once each shows its draws and its ranking, and once the numbers
    of the shifts of round 2 are those of the others."""
    n, at = job.n, 54
    for k, kind in enumerate(job.kinds):
        assert board[at:at + 5] == b'BA' + (k + 1).to_bytes(2, 'big') + bytes([kind])
        at += 5 + 40 * n ** 2 + 32 * n
        if kind:
            xs = job.draws[k * (4 * n ** 2 + 2 * n):][:n ** 2]
            shown = b''.join(x.to_bytes(4, 'big') for x in xs) + bytes(job.rankings[k * n:(k + 1) * n])
            assert board[at:at + 4 * n ** 2 + n] == shown
            at += len(shown)
    at += 4 + 6 * n
    for k in [k for k, kind in enumerate(job.kinds) if not kind and at < len(board)]:
        assert board[at:at + 4] == b'SH' + (k + 1).to_bytes(2, 'big')
        at += ref.sh_length(n, n - 1)
    return sum(job.kinds)


def worked_jobs():
    """The elections of elections.py that have rankings, written and checked."""
    rng = random.Random(4)
    for _, n, K, rankings, counts, outs, winner, _ in WORKED:
        if rankings:
            group = small_group(rng, max(n * n, K) + 1)
            label, counter = gen.label_counter(rng, *group)
            kinds = bytes(K)
            draws = gen.job_draws(rng, group[1], n, kinds, len(counts))
            job = gen.Job(n, K, *group, counter, label, [x for r in rankings for x in r], kinds, draws,
                          ref.board_length(n, kinds, len(counts)))
            answer, _ = written_as_counted(job, (len(counts), counts, outs, winner))
            assert answer[0] == 'written'


def job_varied(rng, job, answer, board, rounds):
    """Spare draws and room change nothing; a job with one fault, or with a repeat and another fault, is
    refused, and a board with one."""
    def written(**changes):
        return ref.write(*job._replace(**changes))
    draws, length, flat = job.draws, job.out_len, job.rankings
    assert written(draws=draws + [0, 0, 2 ** 32 - 1], out_len=length + 5) == answer
    assert written(draws=draws[:-1]) == ('refused', 14, 0)
    short = ('refused', 15, 0) if answer[0] == 'written' else ('refused', 20, 0)
    assert written(out_len=length - 1) == written(out_len=0) == short
    place = rng.randrange(len(draws))
    for bad in (0, job.q):
        assert written(draws=draws[:place] + [bad] + draws[place + 1:]) == ('refused', 14, 0)
    place = rng.randrange(len(flat))
    worse = flat[:place] + [rng.choice((0, job.n + 1))] + flat[place + 1:]
    assert written(rankings=worse) == ('refused', 13, place // job.n + 1)
    place, kinds = rng.randrange(job.K), job.kinds
    worse = kinds[:place] + bytes([rng.randrange(2, 256)]) + kinds[place + 1:]
    for bad in (worse, kinds[1:], kinds + b'\0'):
        assert written(kinds=bad) == ('refused', 17, 0)
    assert written(kinds=b'\1' * job.K) == ('refused', 19, 0)
    last = 1 + job.K + (rounds - 1) * (1 + job.K - sum(kinds))
    assert ref.check(board[:-1]) == ('refused', 1, last)
    assert ref.check(board + b'\0') == ('refused', 12, last + 1)


def answer_after_flip(rng, board):
    """The refusal number, or 'accepted', once one bit of the board is flipped."""
    place = rng.randrange(len(board))
    broken = board[:place] + bytes([board[place] ^ (1 << rng.randrange(8))]) + board[place + 1:]
    verdict = ref.check(broken)
    return verdict[1] if verdict[0] == 'refused' else verdict[0]


def random_jobs(count, seed):
    rng = random.Random(seed)
    rounds_seen, refusals, audited, repeats = {}, {}, 0, 0
    for i in range(count):
        job, plain = random_job(rng, i)
        answer, board = written_as_counted(job, plain)
        repeats += answer[0] == 'refused'
        audited += audited_as_given(job, board)
        seen = (job.n, plain[0])
        rounds_seen[seen] = rounds_seen.get(seen, 0) + 1
        if i % 10 == 0:
            job_varied(rng, job, answer, board, plain[0])
        # a byte changed anywhere never leaves the board accepted (label, frames, pairs, t1 and t2
        # are hashed, all else is bound by an equation) except by luck in a tiny group
        key = answer_after_flip(rng, board)
        refusals[key] = refusals.get(key, 0) + 1
    assert audited > count and count // 5 < repeats < count // 2, (audited, repeats)
    return rounds_seen, refusals, audited, repeats


def craft_and_write_agree():
    """Craft's honest boards are accepted too, and its proofs are read by the same rules."""
    rng = random.Random(8)
    for group in (gen.HOUSE, (23, 11, 2)):
        label, counter = gen.label_counter(rng, *group)
        c = Craft(3, 1, *group, counter, label, 3)
        board = c.header() + c.ballot(1, permutation_matrix(3, [2, 1, 3])) + c.sheet(1, 0)
        assert ref.check(board) == ('accepted', 1, [], 2)
