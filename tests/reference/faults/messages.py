"""messages.py - proofs whose challenge comes from another message than the due one.

Every equation of such a proof holds, and its challenges add up to the hash of its own message: held
to that message, the board is accepted, which is tried."""
from collections import namedtuple

import boardref as ref
from board import proofs
from boardref import be
from craft import place_of

from .election import LISTS3, election, join

# a message in parts; branches: a list of statements each, a statement being [A, B, t1, t2]
Message = namedtuple('Message', 'label mark number round place branches')


class Alike(Exception):
    """The other message is the due one."""


def apart(hashed, branches):
    statements = [[hashed[at + i:at + i + 4] for i in (0, 4, 8, 12)]
                  for at in range(39, len(hashed), 16)]
    size = len(statements) // branches
    return Message(hashed[:32], hashed[32:34], hashed[34:36], hashed[36:37], hashed[37:39],
                   [statements[l * size:(l + 1) * size] for l in range(branches)])


def joined(parts):
    return join(parts[:5]) + join(word for branch in parts.branches for statement in branch
                                  for word in statement)


def plus(field, add):
    """A field of the same width with a number added, or taken off."""
    return be((int.from_bytes(field, 'big') + add) % 256 ** len(field), len(field))


# ------------------------------------------------------------------ the statements

def each(change):
    """A message with every statement changed."""
    return lambda parts, group, n: parts._replace(
        branches=[[change(*statement) for statement in branch] for branch in parts.branches])


def two_runs(first, second):
    """A message with one part of all statements, then with another."""
    def change(parts, group, n):
        statements = [statement for branch in parts.branches for statement in branch]
        return parts._replace(branches=[[first(*s) for s in statements],
                                        [second(*s) for s in statements]])
    return change


def not_reduced(parts, group, n):
    return each(lambda A, B, t1, t2: [plus(A, group.p), plus(B, group.p), t1, t2])(parts, group, n)


def not_over_g1(parts, group, n):
    """The first A of the last branch as it is before it is divided by g1."""
    A, B, t1, t2 = parts.branches[-1][0]
    A = be(int.from_bytes(A, 'big') * group.g1 % group.p, 4)
    return parts._replace(branches=[*parts.branches[:-1],
                                    [[A, B, t1, t2], *parts.branches[-1][1:]]])


def first_branch_alone(parts, group, n):
    return parts._replace(branches=parts.branches[:1])


def last_branch_first(parts, group, n):
    return parts._replace(branches=parts.branches[::-1])


def statement_before_branch(parts, group, n):
    return parts._replace(branches=[list(statements) for statements in zip(*parts.branches)])


def first_statements_alone(parts, group, n):
    return parts._replace(branches=[branch[:1] for branch in parts.branches])


# ------------------------------------------------------------------ what stands ahead of them

def without(*names):
    return lambda parts, group, n: parts._replace(**dict.fromkeys(names, b''))


def field(name, change):
    """A message with one field changed."""
    return lambda parts, group, n: parts._replace(**{name: change(getattr(parts, name))})


def another_place(change):
    """A ballot's message with the place of another counting: of change(n, place)."""
    def changed(parts, group, n):
        if parts.mark != b'BA':
            raise Alike
        return parts._replace(place=be(change(n, int.from_bytes(parts.place, 'big')), 2))
    return changed


def by_columns(n, place):
    return place % n * n + place // n if place < n * n else place


def columns_before_rows(n, place):
    return place if place < n * n else place + n if place < n * n + n else place - n


def among_its_kind(n, place):
    return place if place < n * n else (place - n * n) % n


def lines_first(n, place):
    return (place + 2 * n) % (n * n + 2 * n)


def old(parts, group, n):
    """01's: "label, then t1, t2 of every statement in order" """
    ahead = without('mark', 'number', 'round', 'place')(parts, group, n)
    return each(lambda A, B, t1, t2: [t1, t2])(ahead, group, n)


OTHERS = {
    'old message': old,
    'label left out': without('label'), 'mark left out': without('mark'),
    'number left out': without('number'), 'round left out': without('round'),
    'place left out': without('place'),
    'nothing but the label ahead': without('mark', 'number', 'round', 'place'),
    'A left out': each(lambda A, B, t1, t2: [B, t1, t2]),
    'B left out': each(lambda A, B, t1, t2: [A, t1, t2]),
    'A and B left out': each(lambda A, B, t1, t2: [t1, t2]),
    't1 left out': each(lambda A, B, t1, t2: [A, B, t2]),
    't2 left out': each(lambda A, B, t1, t2: [A, B, t1]),
    'A and B exchanged': each(lambda A, B, t1, t2: [B, A, t1, t2]),
    't1 and t2 exchanged': each(lambda A, B, t1, t2: [A, B, t2, t1]),
    't1 and t2 before A and B': each(lambda A, B, t1, t2: [t1, t2, A, B]),
    't1 behind A': each(lambda A, B, t1, t2: [A, t1, B, t2]),
    'all claims before the commitments': two_runs(lambda A, B, t1, t2: [A, B],
                                                  lambda A, B, t1, t2: [t1, t2]),
    'all commitments before the claims': two_runs(lambda A, B, t1, t2: [t1, t2],
                                                  lambda A, B, t1, t2: [A, B]),
    'A and B not reduced': not_reduced, 'A not over g1': not_over_g1,
    'first branch alone': first_branch_alone, 'last branch first': last_branch_first,
    'statement before branch': statement_before_branch,
    'first statements alone': first_statements_alone,
    'mark of the other record': field('mark', lambda mark: {b'BA': b'SH', b'SH': b'BA'}[mark]),
    'mark of the header': field('mark', lambda mark: b'HF'),
    'number from 0': field('number', lambda number: plus(number, -1)),
    'number of the next': field('number', lambda number: plus(number, 1)),
    'number low byte first': field('number', lambda number: number[::-1]),
    'number of 1 byte': field('number', lambda number: number[1:]),
    'round from 0': field('round', lambda m: plus(m, -1)),
    'round of the next': field('round', lambda m: plus(m, 1)),
    'round 1': field('round', lambda m: b'\1'),
    'round of 2 bytes': field('round', lambda m: b'\0' + m),
    'place from 1': field('place', lambda place: plus(place, 1)),
    'place low byte first': field('place', lambda place: place[::-1]),
    'place of 1 byte': field('place', lambda place: place[1:]),
    'place by columns': another_place(by_columns),
    'columns before rows': another_place(columns_before_rows),
    'place among its kind': another_place(among_its_kind),
    'rows and columns before entries': another_place(lines_first),
    'round and place exchanged': lambda parts, group, n: parts._replace(round=parts.place,
                                                                       place=parts.round),
    'number and place exchanged': lambda parts, group, n: parts._replace(number=parts.place,
                                                                        place=parts.number),
    'label last': lambda parts, group, n: parts._replace(
        label=b'', branches=[*parts.branches, [[parts.label]]]),
}


# ------------------------------------------------------------------ boards

def hashes(name, n):
    """As Craft's fault 'message' takes it."""
    def other(group, hashed, branches):
        made = joined(OTHERS[name](apart(hashed, branches), group, n))
        if made == hashed:
            raise Alike
        return made
    return other


def passes_so_hashed(board, answer, other, context=None):
    """Is this the answer if the proof of that context, or each, is held to the other message?"""
    due = proofs.message

    def message(group, at, claim, proof):
        hashed = due(group, at, claim, proof)
        return other(group, hashed, len(claim)) if context in (None, at) else hashed

    proofs.message = message
    try:
        return ref.check(board) == answer
    finally:
        proofs.message = due


def keys_of(n):
    """The proofs of a ballot, in order."""
    return ([('entry', i, j) for i in range(n) for j in range(n)]
            + [('row', i) for i in range(n)] + [('col', j) for j in range(n)])


def in_a_ballot(out, new, lists, which, key):
    n, K = len(lists[0]), len(lists)
    for name in OTHERS:
        other = hashes(name, n)
        try:
            records, *outcome = election(new(n, K), lists, ballot=lambda k, V: (
                V, {key: ('message', other)} if k == which else None))
        except Alike:
            continue
        context = ref.Context(b'BA', which, 1, place_of(n, key))
        assert passes_so_hashed(join(records), ('accepted', *outcome), other, context), (name, key)
        out.add('message_BA', join(records), ('refused', 8, which),
                'n=%d ballot %d of %d, %s %d: %s' % (n, which, K, key[0], context.place, name))


def in_a_shift(out, new, lists, m_bad, which):
    n, K = len(lists[0]), len(lists)
    for name in OTHERS:
        other = hashes(name, n)
        try:
            records, *outcome = election(new(n, K), lists, shift=lambda m, k, a: (
                {'fault': ('message', other)} if (m, k) == (m_bad, which) else None))
        except Alike:
            continue
        context = ref.Context(b'SH', which, m_bad, 0)
        assert passes_so_hashed(join(records), ('accepted', *outcome), other, context), name
        out.add('message_SH', join(records), ('refused', 8, (m_bad - 1) * (K + 1) + which),
                'n=%d ballot %d of %d, round %d: %s' % (n, which, K, m_bad, name))


def other_messages(out, new):
    for key in keys_of(2):
        in_a_ballot(out, new, [[2, 1]], 1, key)
    for key in [('entry', 0, 0), ('entry', 1, 2), ('entry', 2, 2)] + keys_of(3)[9:]:
        in_a_ballot(out, new, [[3, 1, 2]], 1, key)
    for which in (1, 2, 3):
        for key in (('entry', 1, 0), ('row', 0), ('col', 1)):
            in_a_ballot(out, new, [[1, 2], [2, 1], [1, 2]], which, key)
    for lists, m, which in (([[1, 2, 3], [2, 1, 3]], 2, 1), ([[1, 2, 3], [2, 1, 3]], 2, 2),
                            (LISTS3, 2, 2), ([[1, 2, 3, 4], [2, 1, 4, 3]], 2, 2),
                            ([[1, 2, 3, 4], [2, 1, 4, 3]], 3, 1),
                            ([[1, 2, 3, 4], [2, 1, 4, 3]], 3, 2)):
        in_a_shift(out, new, lists, m, which)


def boards_of_01(out, new):
    """Every challenge comes from 01's message: 2 with 01's mark, 8 with the one in force."""
    for n, lists in ((2, [[1, 2], [2, 1]]), (3, LISTS3)):
        other = hashes('old message', n)
        fault = ('message', other)
        records, *outcome = election(new(n, len(lists)), lists,
                                     ballot=lambda k, V: (V, dict.fromkeys(keys_of(n), fault)),
                                     shift=lambda m, k, a: {'fault': fault})
        board = join(records)
        assert passes_so_hashed(board, ('accepted', *outcome), other)
        out.add('model', b'HD' + board[2:], ('refused', 2, 0), 'n=%d, a board of 01' % n)
        out.add('model', board, ('refused', 8, 1), 'n=%d, a board of 01 with the mark HF' % n)
        records, *_ = election(new(n, len(lists)), lists)
        out.add('model', b'HD' + join(records)[2:], ('refused', 2, 0), 'n=%d, HD for HF' % n)
