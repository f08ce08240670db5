"""records.py - boards cut and extended; records out of order, or from elsewhere."""
import boardref as ref
from boardref import be
from craft import permutation_matrix


def cuts_and_tails(out, rng, base, every_byte=False):
    board, starts = base.board, base.starts
    lengths = set(range(len(board))) if every_byte else set()
    for i, s in enumerate(starts):
        for d in (-2, -1, 0, 1, 2, 3, 4):
            if 0 <= s + d < len(board):
                lengths.add(s + d)
    for length in sorted(lengths):
        record = max(i for i, s in enumerate(starts) if s <= length)
        out.add(base.name + '_cut', board[:length], ('refused', 1, record),
                'first %d bytes' % length)
    read = len(starts) - 1
    tails = [b'\0', b'R', b'RT', b'\xff' * 7, base.record(read - 1), base.record(1),
             base.record(0), board, b'SH' + bytes(500),
             bytes(max(0, ref.BOARDCHECK_LIMIT - len(board)))]
    for tail in tails:
        out.add(base.name + '_tail', board + tail, ('refused', 12, read),
                '%d bytes after the closing sheet' % len(tail))
    out.add(base.name + '_tail', board + bytes(max(0, ref.BOARDCHECK_LIMIT + 1 - len(board))),
            ('refused', 12, read), 'too long by one')


def answer_for(R, records, at):
    """For records that first differ from the right ones, R, at number `at`: 1 if what is left is
    shorter than the record due, where a ballot is due by the byte in the place of its kind, else 2 if
    the mark differs, else 6 (numbers differ)."""
    rest = b''.join(records[at:])
    if R[at][:2] == b'BA':
        short = len(rest) < ref.BA_FRAME or len(rest) < ref.ba_length(R[0][2], rest[4])
    else:
        short = len(rest) < len(R[at])
    if short:
        return ('refused', 1, at)
    if rest[:2] != R[at][:2]:
        return ('refused', 2, at)
    return ('refused', 6, at)


def record_order(out, rng, base):
    R = base.records()
    fewer_or_more(out, base, R)
    exchanged(out, base, R)
    marks_exchanged(out, base, R)
    other = [R[1], R[0]] + R[2:]
    out.add(base.name + '_swap', b''.join(other), ('refused', 2, 0), 'BA before HF')


def fewer_or_more(out, base, R):
    for i in range(1, len(R)):
        fewer = R[:i] + R[i + 1:]
        if i < len(R) - 1:
            # dropping the first SH of a round may bring up the next with number 2: 6; K = 1: 2
            out.add(base.name + '_drop', b''.join(fewer), answer_for(R, fewer, i),
                    'record %d left out' % i)
        twice = R[:i + 1] + R[i:]
        if i < len(R) - 1:
            out.add(base.name + '_twice', b''.join(twice), answer_for(R, twice, i + 1),
                    'record %d twice' % i)
        else:
            out.add(base.name + '_twice', b''.join(twice), ('refused', 12, len(R)),
                    'record %d twice' % i)


def exchanged(out, base, R):
    K = base.K
    for i in range(1, len(R)):
        for j in {i + 1, i + K, i + K + 1, len(R) - 1}:
            if i < j < len(R):
                other = R[:]
                other[i], other[j] = other[j], other[i]
                known = answer_for(R, other, i)
                if R[i][:4] == R[j][:4]:              # same mark and number, another round
                    known = None
                out.add(base.name + '_swap', b''.join(other), known,
                        'records %d and %d exchanged' % (i, j))


def marks_exchanged(out, base, R):
    for i in range(1, len(R) - 1):
        a, b = R[i], R[i + 1]
        if a[:2] != b[:2]:
            other = R[:i] + [b[:2] + a[2:], a[:2] + b[2:]] + R[i + 2:]
            out.add(base.name + '_marks', b''.join(other), ('refused', 2, i),
                    'marks of %d and %d exchanged' % (i, i + 1))


def replays(out, rng, base):
    """Ballots taken from elsewhere: the proofs fail of one that is copied, and the tally of one that
    is proved for its place."""
    R = base.records()
    K = base.K
    V = permutation_matrix(base.n, base.lists[0])

    def add(k, record, number, at, note):
        out.add(base.name + '_replay', b''.join(R[:k] + [record] + R[k + 1:]),
                ('refused', number, at), note, sure=not base.tiny)

    assert base.C == K
    if K > 1:
        add(2, b'BA' + be(2, 2) + R[1][4:], 8, 2, 'ballot 1 again as ballot 2')
        proved = base.craft(97).ballot(2, V, X=base.xs(1))
        assert proved[4:5 + 8 * base.n ** 2] == R[1][4:5 + 8 * base.n ** 2]
        add(2, proved, 10, K + 1, 'ballot 1 again as ballot 2, proved as such')
    add(1, base.craft(99).ballot(1, V), 10, K + 1, 'ballot 1 made anew')
    other = base.craft(98)
    other.group = other.group._replace(label=bytes(32))
    add(1, other.ballot(1, V), 8, 1, 'ballot 1 proved under another label')
