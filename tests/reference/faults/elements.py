"""elements.py - elements outside the group where every equation holds; zeros, which may stand."""
import boardref as ref
import gen
from craft import layout
from gen import HOUSE

from .election import LISTS3, P23, election, join

FIELDS = layout(2, bytes(2), 1)                       # of n = 2, K = 2
LISTS2 = [[1, 2], [2, 1]]


def number_at(board, f):
    return int.from_bytes(board[f.start:f.start + 4], 'big')


def unseen(board, k, j, order):
    """Is every challenge that touches the pair of ballot k, row 2, column j (from 0) a multiple of
    the order?  No tally reads that row."""
    return all(number_at(board, f) % order == 0 for f in FIELDS
               if f.record == k and f.kind == 'e'
               and f.detail[:2] in (('entry', 2 + j), ('row', 1), ('col', j)))


def with_outsider(c, kind, k, j, outsider):
    """Records of a board whose b or Y of ballot k, row 2, column j (from 0) is times a number outside
    the group, and its outcome.  The proofs claim that pair."""
    made, inside = [], c.matrix

    def matrix(V, X=None):
        X, M = inside(V, X)
        made.append(M)
        if len(made) == k:
            b, y = M[1][j]
            M[1][j] = (b * outsider % c.group.p, y) if kind == 'b' else (b, y * outsider % c.group.p)
        return X, M

    c.matrix = matrix
    return election(c, LISTS2)


def passes_without_membership(board, answer):
    """Is this the answer if a number from 1 to p-1 is taken for an element?"""
    def in_range(reading, group):
        x = reading.number(4)
        if not 1 <= x <= group.p - 1:
            reading.refuse(7)
        return x

    keep = ref.Reading.element
    ref.Reading.element = in_range
    try:
        return ref.check(board) == answer
    finally:
        ref.Reading.element = keep


def only_membership(out, name, new, group, kind, outsider, order, note):
    """Three boards of which every equation holds, since the challenges that touch the outsider are
    multiples of its order, and every challenge is the due one."""
    for k, j in ((1, 0), (2, 0), (2, 1)):
        while True:
            records, *outcome = with_outsider(new(2, 2, group), kind, k, j, outsider)
            if unseen(join(records), k, j, order):
                break
        assert passes_without_membership(join(records), ('accepted', *outcome))
        out.add(name, join(records), ('refused', 7, k), note)


def order_2(out, new):
    """"Passing elements outside the order-q group": -b or -Y, challenges even.  House group."""
    for kind in ('b', 'Y'):
        only_membership(out, 'minus', new, HOUSE, kind, -1, 2, '-%s, every equation holds' % kind)


def order_3(out, rng, new):
    """In a group with a cofactor: p = 2^31-1, q = 331, an element of order 3."""
    p, q = 2147483647, 331
    g0 = gen.elements_g0(rng, p, q)
    order3 = next(x for x in (pow(h, (p - 1) // 3, p) for h in range(2, 50)) if x != 1)
    only_membership(out, 'order3', new, (p, q, g0), 'b', order3, 3, 'b times an element of order 3')


def zeros(out, new):
    """Values that the writer never makes but the rules allow: x = 0, nonce 0, e = 0, r = 0."""
    c = new(3, 3)
    c.draw = lambda: 0
    records, *outcome = election(c, LISTS3)
    out.add('zeros', join(records), ('accepted', *outcome), 'all x, nonces, e, r are 0')
    for lot in range(4):
        c = new(3, 3, HOUSE if lot % 2 else P23)
        c.draw = lambda c=c: c.rng.choice((0, 0, 1, c.group.q - 1))
        records, *outcome = election(c, LISTS3)
        out.add('zeros', join(records), ('accepted', *outcome), 'many x, nonces, e, r are 0')
