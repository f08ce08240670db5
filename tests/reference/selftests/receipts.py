"""receipts.py - receipts found by hand, and in a second way on random boards."""
import hashlib
import random

import boardref as ref
import gen
from boardref import be

from .jobs import small_group


def digest(data):
    return hashlib.sha256(data).digest()


def find_by_hand(board):
    """The board of jobs_by_hand: its ballots are bytes 54 to 514, 515 to 975 and 976 to 1436."""
    ones = [digest(board[start:start + 461]) for start in (54, 515, 976)]
    numbers = dict(zip(ones, (1, 2, 3)))
    rising = b''.join(sorted(ones))
    due = ('found', [numbers[one] for one in sorted(ones)])
    for room in (3, 4, 500):
        assert ref.find(board, rising, room) == due
    assert ref.find(board, rising, 2) == ('refused', 15, 0)
    assert ref.find(b'', rising, 2) == ('refused', 15, 0)
    # equal digests, none, others
    assert ref.find(board, ones[1] * 500, 500) == ('found', [2] * 500)
    assert ref.find(board, ones[1] * 501, 501) == ('refused', 16, 0)
    assert ref.find(board, b'', 0) == ('found', [])
    assert ref.find(board, bytes(32) + ones[0], 2) == ('found', [0, 1])
    assert ref.find(board, digest(board[56:515]), 1) == ('found', [0])
    # 16 before 15, and both before the board
    for bad in (b''.join(sorted(ones)[::-1]), rising[:-1], rising + b'\0', b'\0'):
        assert ref.find(board, bad, 500) == ref.find(b'', bad, 0) == ('refused', 16, 0)
    # nothing behind the last ballot is read; up to it each is
    for tail in (b'', b'XX', board):
        assert ref.find(board[:1437] + tail, rising, 3) == due
    assert ref.find(board[:1436], rising, 3) == ('refused', 1, 3)
    assert ref.find(board[:976] + b'SH' + board[978:], rising, 3) == ('refused', 2, 3)
    assert ref.find(board[:978] + be(2, 2) + board[980:], rising, 3) == ('refused', 6, 3)
    assert ref.find(board[:980] + b'\2' + board[981:], rising, 3) == ('refused', 17, 3)
    assert ref.find(board[:978] + b'\0\0\2' + board[981:], rising, 3) == ('refused', 6, 3)
    assert ref.find(b'HD' + board[2:], b'', 0) == ('refused', 2, 0)


def second_find(board, digests, room):
    """Another way to find: every record cut out by its place, every digest held against all."""
    count, over = divmod(len(digests), 32)
    wanted = [digests[32 * i:32 * i + 32] for i in range(count)]
    if over or count > 500 or wanted != sorted(wanted):
        return ('refused', 16, 0)
    if count > room:
        return ('refused', 15, 0)
    verdict = ref.check(board[:54])                   # a sound header lacks its first ballot
    if verdict != ('refused', 1, 1):
        return verdict
    n, K = board[2], int.from_bytes(board[3:5], 'big')
    records, at = [], 54
    for k in range(1, K + 1):
        size = 5 + 40 * n ** 2 + 32 * n + (board[at + 4:at + 5] == b'\1') * (4 * n ** 2 + n)
        record = board[at:at + size]
        faults = (len(record) < size, record[:2] != b'BA', record[2:4] != be(k, 2),
                  record[4:5] > b'\1')
        if any(faults):
            return ('refused', (1, 2, 6, 17)[faults.index(True)], k)
        records.append(record)
        at += size
    return ('found', [min((k for k in range(1, K + 1) if digest(records[k - 1]) == one), default=0)
                      for one in wanted])


def random_walk(rng):
    """A header and ballots of random bytes behind their frames, most often damaged."""
    n, K = rng.randrange(2, 5), rng.randrange(1, 5)
    p, q, g0 = small_group(rng, max(n, K) + 1)
    label, counter = gen.label_counter(rng, p, q, g0)
    records = [ref.header_bytes(n, K, p, q, g0, counter, ref.make_g1(p, q, g0, counter, label),
                                label)]
    for k in range(1, K + 1):
        kind = rng.choice((0, 0, 1))
        records.append(b'BA' + be(k, 2) + be(kind, 1) + rng.randbytes(ref.ba_length(n, kind) - 5))
    held = [digest(record) for record in records]
    if rng.random() < 0.15:
        records[rng.randrange(K + 1)] = rng.choice(records)
    board = b''.join(records) + rng.choice((b'', b'RT', rng.randbytes(60)))
    way = rng.randrange(6)
    if way == 0:
        board = board[:rng.randrange(len(board))]
    if way <= 2 and board:                            # a byte of the header or of a frame
        at = rng.choice((rng.randrange(54), len(b''.join(records[:rng.randint(1, K)]))
                         + rng.randrange(6)))
        board = board[:at] + bytes([rng.choice((0, 1, 2, 255, rng.randrange(256)))]) + board[at + 1:]
    return board, held


def random_list(rng, held):
    """Digests of the board and others, most often rising, and the places for them."""
    ones = [rng.choice(held) if rng.random() < 0.7 else rng.choice((rng.randbytes(32), bytes(32)))
            for _ in range(rng.choice((0, 1, 2, 3, 6)))]
    rising = b''.join(sorted(ones) if rng.random() < 0.9 else ones)
    if rng.random() < 0.05:
        rising = rising[:rng.randrange(len(rising) + 1)] + bytes(rng.randrange(2))
    return rising, max(0, len(rising) // 32 + rng.choice((-1, 0, 0, 0, 0, 0, 1, 5)))


def random_finds(count, seed):
    """How often each answer came, once both ways agree."""
    rng = random.Random(seed)
    seen = {}
    for _ in range(count):
        board, held = random_walk(rng)
        for _ in range(2):
            digests, room = random_list(rng, held)
            answer = ref.find(board, digests, room)
            assert answer == second_find(board, digests, room), (answer, board, digests, room)
            key = answer[1] if answer[0] == 'refused' else answer[0]
            seen[key] = seen.get(key, 0) + 1
    assert set(seen) == {'found', 1, 2, 3, 4, 5, 6, 15, 16, 17}, seen
    return seen
