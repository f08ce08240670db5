"""The mutants of a challenge's message: see mutants.py.  A checker or a writer may hash another
message, a checker may take the challenge of another one beside the due one."""
from faults.messages import (OTHERS, Alike, among_its_kind, by_columns, columns_before_rows, hashes,
                             lines_first)

# messages that differ by how the proofs of a ballot are counted
OTHER_PLACES = {'place by columns': by_columns, 'columns before rows': columns_before_rows,
                'place among its kind': among_its_kind,
                'rows and columns before entries': lines_first}

# per kind of proof, the messages that are the due one in all of its proofs
ALIKE = {
    'entry': ('statement before branch', 'first statements alone', 'round 1'),
    'line': ('statement before branch', 'first statements alone', 'round 1', 'first branch alone',
             'last branch first', 'all claims before the commitments'),
    'shift': ('place low byte first',),
}


def other(name, kind, group, hashed, branches):
    """The message of a name for the proofs of a kind, or of any where kind is None; else the due
    one."""
    if kind not in (None, 'shift' if hashed[32:34] == b'SH' else 'entry' if branches == 2 else 'line'):
        return hashed
    try:
        return hashes(name, None)(group, hashed, branches)
    except Alike:
        return hashed


DUE = 'message(group, context, claim, proof))\n'
OTHER = "other(%r, %r, group, message(group, context, claim, proof), len(claim)))\n"
TEST = '    c = challenge(group, %s    return sum(e for e, _ in proof) %% group.q == c\n'
EITHER = ('    c = challenge(group, %s    d = challenge(group, %s'
          '    return sum(e for e, _ in proof) %% group.q in (c, d)\n')
MADE = '    c = challenge(group, %s    e = (c - sum('

BALLOT = "        if not proof_holds(group, Context(b'BA', k, 1, place), claim, proof):\n"
BALLOT_OR = ("        if not any(proof_holds(group, Context(b'BA', k, 1, at), claim, proof)\n"
             "                   for at in (place, other_places[%r](n, place))):\n")

# of checker and writer alike
CONTEXTS = [
    ('entry places by columns', '    return i * n + j\n', '    return j * n + i\n'),
    ('row and column places exchanged',
     'n * n + i\n\n\ndef column_place(n, j):\n    return n * n + n + j\n',
     'n * n + n + i\n\n\ndef column_place(n, j):\n    return n * n + j\n'),
    ('row places from 0', '    return n * n + i\n', '    return i\n'),
    ('column places from 0', '    return n * n + n + j\n', '    return j\n'),
    ('column places as of rows', '    return n * n + n + j\n', '    return n * n + j\n'),
    ('low byte of the number', 'be(context.number, 2)', 'be(context.number % 256, 2)'),
]

NAMES = [name for name in OTHERS if name not in OTHER_PLACES]

CHECKERS = CONTEXTS + [(name, TEST % DUE, TEST % (OTHER % (name, None))) for name in NAMES]

WRITERS = CONTEXTS + [(name, MADE % DUE, MADE % (OTHER % (name, None))) for name in NAMES]

# by kind of proof
BESIDE = {kind: [('%s: %s beside' % (kind, name), TEST % DUE,
                  EITHER % (DUE, OTHER % (name, kind)))
                 for name in NAMES if name not in ALIKE[kind]] for kind in ALIKE}
BESIDE['place'] = [(name + ' beside', BALLOT, BALLOT_OR % name) for name in OTHER_PLACES]
