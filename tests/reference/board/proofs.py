"""proofs.py - what the proofs claim, and when a proof holds.  Words in quotation marks are 01's, on
the challenge's message 02's."""
import hashlib
from collections import namedtuple

from .group import over, power, product_of, times

# ------------------------------------------------------------------ statements of the proofs
#
# "Every statement has one kind: for a pair (A, B), some w has A = g0^w and B = g1^w.
#  A proof has branches, each of one or more statements."
# A claim is a list of branches; a branch is a list of pairs (A, B).

def entry_claim(group, pair):
    """"Entry: two branches, (b, Y) and (b/g1, Y)." """
    b, y = pair
    return [[(b, y)], [(over(group, b, group.g1), y)]]


def line_claim(group, pairs):
    """"Row, column: one branch; the products of the row's or column's b and Y, the former
    over g1." """
    b, y = product_of(group, pairs)
    return [[(over(group, b, group.g1), y)]]


def shift_claim(group, previous, new, a):
    """"Shift in round m, R = n-m+1 rows, process a having gone out: R+1 branches." """
    R = len(new)
    n = len(new[0])
    claim = []
    for l in range(1, R + 2):
        old_row = previous[l - 1]
        # "Branch l has first (b/g1, Y) of the previous matrix at row l, column a;"
        b, y = old_row[a - 1]
        branch = [(over(group, b, group.g1), y)]
        # "then the products of row l's other columns;"
        branch.append(product_of(group, [old_row[j - 1] for j in range(1, n + 1) if j != a]))
        # "then for each new row i and column j the new pair over the previous pair at row i
        #  if i < l, else row i+1."
        for i in range(1, R + 1):
            source = previous[i - 1] if i < l else previous[i]
            for j in range(1, n + 1):
                new_b, new_y = new[i - 1][j - 1]
                old_b, old_y = source[j - 1]
                branch.append((over(group, new_b, old_b), over(group, new_y, old_y)))
        claim.append(branch)
    return claim


# ------------------------------------------------------------------ proofs
#
# "It shows per branch a challenge e, and per statement commitments t1, t2 and a response r."
# A proof is a list of branches (e, [(t1, t2, r), ...]).

# mark, number: the record's; round: 1 for BA; place: the proof's place in the record, from 0
Context = namedtuple('Context', 'mark number round place')


def entry_place(n, i, j):
    """"n^2 entry, n row, n column proofs", in this order, entries by rows; i, j from 0."""
    return i * n + j


def row_place(n, i):
    return n * n + i


def column_place(n, j):
    return n * n + n + j


def be(value, width):
    """"All fields are unsigned, high byte first." """
    return value.to_bytes(width, 'big')


def message(group, context, claim, proof):
    """"The message becomes: label, the record's mark, its number field, the round (1 byte, 1 for
    BA), the proof's place in the record from 0 (2 bytes), then per statement A, B, t1, t2." """
    parts = [group.label, context.mark, be(context.number, 2), be(context.round, 1),
             be(context.place, 2)]
    for branch, (_, lines) in zip(claim, proof, strict=True):
        for (A, B), (t1, t2, _) in zip(branch, lines, strict=True):
            parts += [be(A, 4), be(B, 4), be(t1, 4), be(t2, 4)]
    return b''.join(parts)


def challenge(group, hashed):
    """"c is the first 8 bytes of SHA-256" of the message, "modulo q." """
    digest = hashlib.sha256(hashed).digest()
    return int.from_bytes(digest[:8], 'big') % group.q


def statement_holds(group, statement, e, t1, t2, r):
    """"for every statement g0^r = t1 * A^e and g1^r = t2 * B^e modulo p" """
    A, B = statement
    return (power(group, group.g0, r) == times(group, t1, power(group, A, e))
            and power(group, group.g1, r) == times(group, t2, power(group, B, e)))


def proof_holds(group, context, claim, proof):
    for branch, (e, lines) in zip(claim, proof, strict=True):
        for statement, (t1, t2, r) in zip(branch, lines, strict=True):
            if not statement_holds(group, statement, e, t1, t2, r):
                return False
    # "and the challenges add up, modulo q, to c."
    c = challenge(group, message(group, context, claim, proof))
    return sum(e for e, _ in proof) % group.q == c
