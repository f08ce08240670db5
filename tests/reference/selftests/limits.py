"""limits.py - the two entries to the checker: headers on both sides of each limit, with up to four
faults, by the rule of 02 on what was put there; sound boards, and damaged ones by what the first entry
says of them."""
import itertools
import random

import boardref as ref
import gen
from boardref import be

PROCESSES = (0, 1, 2, 4, 5, 6, 8, 9, 255)
BALLOTS = (0, 1, 199, 200, 201, 255, 256, 257, 456, 1000, 1001, 65535)
FAULTS = {'cut': 1, 'HD': 2, 'p': 4, 'g1': 5}    # of a header, and the refusal that each is due
GROUP = (2039, 1019, 4)                          # room for K = 1,000


def in_range(n, K):
    """"n is the number of processes (2 to 8 ...), K the number of ballots (1 to 1,000)." """
    return n in range(2, 9) and K in range(1, 1001)


def past(n, K):
    """"a header past 5 or 200 but within 3" """
    return in_range(n, K) and (n in (6, 7, 8) or K in range(201, 1001))


def header_with(n, K, faults):
    """A header with these faults, and nothing behind it."""
    p, q, g0 = GROUP
    label, counter = gen.label_counter(random.Random(23), p, q, g0)
    g1 = ref.make_g1(p, q, g0, counter, label)
    head = ref.header_bytes(n, K, p + 1 if 'p' in faults else p, q, g0, counter,
                            g1 + 1 if 'g1' in faults else g1, label)
    head = b'HD' + head[2:] if 'HD' in faults else head
    return head[:-1] if 'cut' in faults else head


def header_due(n, K, faults, small):
    """The first refusal in the order of the table: "It refuses with 23 ..., right after 3."  A header
    without any has no ballot behind it."""
    broken = {FAULTS[fault] for fault in faults}
    broken |= set() if in_range(n, K) else {3}
    broken |= {23} if small and past(n, K) else set()
    return next((('refused', number, 0) for number in (1, 2, 3, 23, 4, 5) if number in broken),
                ('refused', 1, 1))


def headers():
    """How many headers, and of how many of them the second entry says 23."""
    seen = []
    for n, K in itertools.product(PROCESSES, BALLOTS):
        for count in range(len(FAULTS) + 1):
            for faults in itertools.combinations(FAULTS, count):
                head = header_with(n, K, faults)
                answers = ref.check(head), ref.check_small(head)
                dues = header_due(n, K, faults, False), header_due(n, K, faults, True)
                assert answers == dues, (n, K, faults, answers, dues)
                assert ref.find(head, b'', 0) == answers[0]
                assert ref.text(head, b'', 0) == answers[0]
                seen.append(answers[1] == ('refused', 23, 0))
    return len(seen), sum(seen)


def second_answer(board, first):
    """What is due of the second entry by the answer of the first: "It refuses with 23 a header past 5 or
    200 but within 3, right after 3."  "Within the smaller limits both give the same result on each
    board." """
    ahead = first in [('refused', number, 0) for number in (1, 2, 3)]
    return ('refused', 23, 0) if not ahead and past(board[2], board[3] * 256 + board[4]) else first


def sound_board(rng, n, K):
    """A sound board and its answer; about a third of the ballots is audited, the first not."""
    label, counter = gen.label_counter(rng, *GROUP)
    kinds = bytes([0] + [rng.choice((0, 0, 1)) for _ in range(K - 1)])
    lists = gen.rankings_of(rng, n, K, rng.choice(gen.STYLES))
    rounds, _, outs, winner = ref.plain_count(n, gen.counted(lists, kinds))
    board = gen.board_of(gen.Job(n, K, *GROUP, counter, label, [x for r in lists for x in r], kinds,
                                 gen.job_draws(rng, GROUP[1], n, kinds, rounds), 0))
    return board, ('accepted', rounds, outs, winner)


def boards(seed):
    """Sound boards, each with a byte changed, of the header in every other one, and each with a byte
    more.  Returns how many both entries accept, both refuse alike, and the second refuses with 23."""
    rng = random.Random(seed)
    seen = {'accepted': 0, 'refused': 0, '23': 0}
    sizes = 4 * [(n, K) for n in range(2, 9) for K in (1, 2, 4)] + [(2, 200), (2, 201)]
    for i, (n, K) in enumerate(sizes):
        board, answer = sound_board(rng, n, K)
        assert (ref.check(board), ref.check_small(board)) == (
            answer, ('refused', 23, 0) if n > 5 or K > 200 else answer), (n, K)
        at = rng.randrange(len(board) if i % 2 else 54)
        damaged = board[:at] + be(rng.randrange(256), 1) + board[at + 1:]
        for one in (board, damaged, board + b'\0'):
            first, second = ref.check(one), ref.check_small(one)
            assert second == second_answer(one, first), (n, K, at, first, second)
            seen['23' if second != first else first[0]] += 1
    assert all(seen.values()), seen
    return seen
