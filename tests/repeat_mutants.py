"""The mutants of the rule on draws that repeat: see mutants.py."""
from audit_mutants import written

DRAWN = '    drawn = [draws[place] for place in x_places(n, kinds, rounds)]\n'
PAIRS = 'x == y for xs in drawn for x, y in combinations(xs, 2)'
TEST_14 = "    if not draws_hold(draws, draws_needed(n, kinds, rounds), q):\n        return ('refused', 14, 0)\n"
TEST_20 = "    if x_repeats(n, kinds, rounds, draws):\n        return ('refused', 20, 0)\n"
TEST_15 = "    if out_len < board_length(n, kinds, rounds):\n        return ('refused', 15, 0)\n"
FEW = TEST_14.replace('not draws_hold(draws, draws_needed(n, kinds, rounds), q)',
                      'len(draws) < draws_needed(n, kinds, rounds)')
OUTSIDE = TEST_14.replace('draws_needed(n, kinds, rounds)', 'len(draws)')
REPEATS = 'if x_repeats(n, kinds, rounds, draws):'
# of the ballots alone, where their draws are fine: rounds and kinds may not be known yet
EARLY = ('draws_hold(draws, draws_needed(n, bytes(K), 1), q) and x_repeats(n, bytes(K), 1, draws):\n'
         "        return ('refused', 20, 0)\n")
HEADER = '    number = header_refusal(n, K, p, q, g0, counter, label)\n'
BALLOTS = '    refusal = ballots_refusal(n, K, rankings, kinds)\n'
BY_RECORD = """    for place in x_places(n, kinds, rounds) if len(draws) >= draws_needed(n, kinds, rounds) else ():
        if not draws_hold(draws, place.stop, q):
            return ('refused', 14, 0)
        if len(set(draws[place])) < len(draws[place]):
            return ('refused', 20, 0)
"""


def matrices(name, some):
    """Other matrices are tested: some of `drawn`, or other draws."""
    return name, DRAWN, DRAWN + '    drawn = %s\n' % some


def places(name, changed):
    """Of each matrix other draws are tested."""
    return name, DRAWN, DRAWN.replace('draws[place]', 'draws[%s]' % changed)


def pairs(name, some):
    """Of a matrix other pairs are tested."""
    return name, PAIRS, PAIRS.replace('combinations(xs, 2)', some)


MATRICES = [
    matrices('20 not tested', '[]'),
    matrices('BA alone', 'drawn[:len(kinds)]'),
    matrices('SH alone', 'drawn[len(kinds):]'),
    matrices('counted BA alone', '[xs for xs, kind in zip(drawn, kinds) if kind == COUNTED]'),
    matrices('audited BA left', '[xs for xs, kind in zip(drawn, kinds) if kind == COUNTED] + drawn[len(kinds):]'),
    matrices('audited BA alone', '[xs for xs, kind in zip(drawn, kinds) if kind == AUDITED]'),
    matrices('first matrix alone', 'drawn[:1]'),
    matrices('last matrix alone', 'drawn[-1:]'),
    matrices('first matrix left', 'drawn[1:]'),
    matrices('last matrix left', 'drawn[:-1]'),
    matrices('first and last matrix alone', '[drawn[0], drawn[-1]]'),
    matrices('SH of two rows left', '[xs for xs in drawn if len(xs) > 2 * n or n == 2]'),
    matrices('SH of round 2 left', '[xs for xs in drawn if len(xs) != (n - 1) * n]'),
    matrices('SH of round 3 left', '[xs for xs in drawn if len(xs) != (n - 2) * n]'),
    matrices('rows alone', '[xs[i:i + n] for xs in drawn for i in range(0, len(xs), n)]'),
    matrices('columns alone', '[xs[j::n] for xs in drawn for j in range(n)]'),
    matrices('rows and columns alone', '[xs[i:i + n] for xs in drawn for i in range(0, len(xs), n)]'
             ' + [xs[j::n] for xs in drawn for j in range(n)]'),
    matrices('across all matrices', '[sum(drawn, [])]'),
    matrices('across the matrices of a ballot', '[sum(drawn[k::K], []) for K in [len(kinds)] for k in range(K)]'),
    matrices('across the matrices of a round', '[sum(drawn[:len(kinds)], []), sum(drawn[len(kinds):], [])]'),
    matrices('across neighbours', '[one + other for one, other in zip(drawn, drawn[1:] + [[]])]'),
    matrices('all draws needed', '[draws[:draws_needed(n, kinds, rounds)]]'),
    matrices('spare draws', 'drawn + [draws[draws_needed(n, kinds, rounds):]]'),
    matrices('spare draws with the last matrix',
             'drawn + [drawn[-1] + draws[draws_needed(n, kinds, rounds):]]'),
    ('places as if all had an SH', DRAWN, DRAWN.replace('kinds', 'bytes(len(kinds))')),
    ('SH of round 3 and on left', DRAWN, DRAWN.replace('rounds', 'min(rounds, 2)')),
    matrices('all draws of a record', '[draws[a.start:b] for S in [x_places(n, kinds, rounds)] for a, b in '
             'zip(S, [b.start for b in S[1:]] + [draws_needed(n, kinds, rounds)])]'),
    places('first x left', 'place.start + 1:place.stop'),
    places('last x left', 'place.start:place.stop - 1'),
    places('a draw too many', 'place.start:place.stop + 1'),
    places('a draw too early', 'max(0, place.start - 1):place.stop'),
    places('last row left', 'place.start:place.stop - n'),
    places('first row alone', 'place.start:place.start + n'),
    places('as many x as in a ballot', 'place.start:place.start + n * n'),
]

PAIRED = [
    pairs('neighbours alone', 'zip(xs, xs[1:])'),
    pairs('no neighbours', '[(x, y) for i, x in enumerate(xs) for y in xs[i + 2:]]'),
    pairs('pairs with the first alone', '[(xs[0], y) for y in xs[1:]]'),
    pairs('pairs with the last alone', '[(x, xs[-1]) for x in xs[:-1]]'),
    pairs('all but the first and the last', '[p for p in combinations(enumerate(xs), 2) if p[1][0] - p[0][0] '
          '< len(xs) - 1 for p in [(p[0][1], p[1][1])]]'),
    pairs('the nearest with its low byte alone', '[(x, next((y for y in reversed(xs[:i]) if y % 256 == x % 256), 0)) '
          'for i, x in enumerate(xs)]'),
    ('low bytes alone', PAIRS, PAIRS.replace('x == y', 'x % 256 == y % 256')),
    ('low 16 bits alone', PAIRS, PAIRS.replace('x == y', 'x % 65536 == y % 65536')),
    ('low 24 bits alone', PAIRS, PAIRS.replace('x == y', 'x % 2 ** 24 == y % 2 ** 24')),
    ('all but the low byte', PAIRS, PAIRS.replace('x == y', 'x // 256 == y // 256')),
    ('three equal x', PAIRS, 'len(set(three)) == 1 for xs in drawn for three in combinations(xs, 3)'),
]

ORDERS = [
    written('20 after 15', (TEST_20, ''), (TEST_15, TEST_15 + TEST_20)),
    written('20 before 14', (TEST_14, TEST_20 + TEST_14)),
    written('20 before draws outside 1 to q - 1', (TEST_14, FEW + TEST_20 + TEST_14)),
    written('20 before draws too few', (TEST_14, OUTSIDE + TEST_20 + TEST_14)),
    written('14 and 20 record by record', (TEST_14, BY_RECORD + TEST_14)),
    ('20 before 5', HEADER, '    if ' + EARLY + HEADER),
    written('20 before 13', (BALLOTS, '    if ' + EARLY + BALLOTS)),
    written('20 before 17', (BALLOTS, BALLOTS + '    if refusal == (17, 0) and ' + EARLY)),
    written('20 before 19', (BALLOTS, BALLOTS + '    if refusal == (19, 0) and ' + EARLY)),
    written('14 for 20', ("return ('refused', 20, 0)", "return ('refused', 14, 0)")),
    written('20 with a number', ("return ('refused', 20, 0)", "return ('refused', 20, 1)")),
    written('20 for equal entries of a ballot alone',
            (REPEATS, REPEATS.replace('draws)', '[(x, k < K and i < n * n and lists[k][i // n] == i % n + 1) for at, x '
                                      'in enumerate(draws) for k, i in [divmod(at, 4 * n * n + 2 * n)]])'))),
    written('20 by the group alone', (REPEATS, 'if q - 1 < n * n:')),
    written('20 for q - 1 = n^2', (REPEATS, REPEATS[:-1] + ' or q - 1 <= n * n:')),
    written('20 by the group before 14', (TEST_14, "    if q - 1 < n * n:\n        return ('refused', 20, 0)\n" + TEST_14)),
    written('4 by the group', (BALLOTS, "    if q - 1 < n * n:\n        return ('refused', 4, 0)\n" + BALLOTS)),
]

WRITERS = MATRICES + PAIRED + ORDERS

MATRIX = '        matrix.append(row)\n    return matrix\n\n\ndef read_proof'
SHOWN = '    return xs, list(reading.take(n))\n'

# 20 is the writer's alone
CHECKERS = [
    ('equal Y of a matrix refused', MATRIX, MATRIX.replace('    return', """    ys = [y for row in matrix for _, y in row]
    if len(set(ys)) < len(ys):
        reading.refuse(20)
    return""")),
    ('equal pairs of a shift refused', MATRIX, MATRIX.replace('    return', """    pairs = [pair for row in matrix for pair in row]
    if rows < n and len(set(pairs)) < len(pairs):
        reading.refuse(20)
    return""")),
    ('equal x of an audited ballot refused', SHOWN, """    drawn = [x for row in xs for x in row]
    if len(set(drawn)) < len(drawn):
        reading.refuse(20)
""" + SHOWN),
]
