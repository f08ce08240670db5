"""Boards of which receipts are looked for, and the list of such cases: see find_cases.py."""
import hashlib

import boardref as ref
import gen
from boardref import be
from covered import Cases

PLACES = 512                                                 # of the test program's list


def digest(data):
    return hashlib.sha256(data).digest()


class Walk:
    """A board by its records, the header first, and the digests of its ballots."""

    def __init__(self, name, records):
        self.name, self.records = name, records
        self.K = int.from_bytes(records[0][3:5], 'big')
        self.board = b''.join(records)
        self.ballots = b''.join(records[:self.K + 1])        # up to the last
        self.pairs = [(digest(records[k]), k) for k in range(1, self.K + 1)]
        self.rising = b''.join(sorted(one for one, _ in self.pairs))

    def but(self, changes):
        """The board with the records of some numbers changed."""
        return b''.join(changes.get(i, record) for i, record in enumerate(self.records))

    def start(self, record):
        return len(b''.join(self.records[:record]))


def random_walk(rng, name, n, K, group=gen.HOUSE, audited=()):
    """A sound header, and ballots of random bytes.  audited: the numbers of the audited ones."""
    p, q, g0 = group
    label, counter = gen.label_counter(rng, p, q, g0)
    header = ref.header_bytes(n, K, p, q, g0, counter, ref.make_g1(p, q, g0, counter, label), label)
    kinds = gen.audited_at(K, *audited)
    return Walk(name, [header] + [
        b'BA' + be(k, 2) + be(kind, 1) + rng.randbytes(ref.ba_length(n, kind) - ref.BA_FRAME)
        for k, kind in enumerate(kinds, 1)])


class Finds(Cases):
    def found(self, name, board, pairs, *covers, spare=0):
        """Digests with the numbers that are due, in any order."""
        pairs = sorted(pairs)
        self.add(name, (board, b''.join(one for one, _ in pairs), len(pairs) + spare),
                 ('found', [number for _, number in pairs]), *covers)

    def refused(self, name, board, digests, number, record, *covers, spare=0):
        self.add(name, (board, digests, len(digests) // 32 + spare), ('refused', number, record),
                 *covers)
