"""The mutants of the rules on kinds and audited ballots: see mutants.py."""
from stored import content


def spoilt(name, module, first, last, *changes):
    """A mutant: the text of a module from one place up to another, with some of it changed."""
    text = content('tests', 'reference', 'board', module + '.py').decode()
    start = text.index(first)
    old = new = text[start:text.index(last, start)]
    for before, after in changes:
        assert new.count(before) == 1, (name, before)
        new = new.replace(before, after)
    return name, old, new


def frame(name, *changes):
    return spoilt(name, 'check', '    # "The length test reads', '    return kind\n', *changes)


def rounds(name, *changes):
    return spoilt(name, 'check', '    matrices = {}', '    # "after the closing sheet', *changes)


def ballot(name, *changes):
    return spoilt(name, 'check', '    kind = open_ballot', '    reading.close()\n    return kind', *changes)


def job(name, *changes):
    return spoilt(name, 'write', '    if len(rankings) != K * n:', '    return None\n\n\ndef draws_hold',
                  *changes)


def written(name, *changes):
    return spoilt(name, 'write', '    refusal = ballots_refusal', '    group = Group', *changes)


def records(name, *changes):
    return spoilt(name, 'write', '    K = len(lists)\n', 'def ballots_refusal', *changes)


def opened(name, *changes):
    return spoilt(name, 'check', '    xs, ranking = shown\n', 'def read_ballot', *changes)


K_SHOWN = "int.from_bytes(reading.board[3:5], 'big')"
KEPT = '        if kind == COUNTED:\n            matrices[k] = matrix\n'
TEST_19 = '    if not matrices:\n        raise Refused(19, K)\n'
FIRST = 'standing, list(matrices.values()))\n    while'
TEST_17 = ('    kind = reading.number(1)\n    if kind not in (COUNTED, AUDITED):\n'
           '        reading.refuse(17)\n')
TEST_6 = '    if reading.number(2) != k:\n        reading.refuse(6)\n'
OPEN = "    reading.open(b'BA', ba_length(n, reading.board[reading.next + 4]))\n"
KIND_AT_4 = 'reading.board[reading.next + 4]'
BAD_KIND = '    if reading.board[reading.next + 4] > 1:\n        reading.refuse(17)\n'
TEST_18 = ('    if kind == AUDITED and not opens(group, n, matrix, shown):\n'
           '        reading.refuse(18)\n')
PAIR = 'matrix[i][j] != pair_of(group, xs[i][j], 1 if ranking[i] == j + 1 else 0)'
NO_RANKING = ('    if any(process not in ranking for process in range(1, n + 1)):\n'
              '        return False\n')
SHOWN = '    xs = [[reading.exponent(group) for _ in range(n)] for _ in range(n)]\n'

LATE_17 = ('    # "with 17 another kind', '        reading.refuse(17)\n', '        pass\n')

COUNTING = [
    rounds('audited ballots enter round 1 products', (KEPT, '        every[k] = matrix\n' + KEPT),
           ('    matrices = {} ', '    every = {}\n    matrices = {} '),
           (FIRST, FIRST.replace('matrices', 'every'))),
    rounds('audited ballots counted as others', (KEPT, '        matrices[k] = matrix\n')),
    rounds('audited ballots enter later products', (KEPT, '        every[k] = matrix\n' + KEPT),
           ('    matrices = {} ', '    every = {}\n    matrices = {} '),
           ('        standing, winner = read_sheet(reading, group, standing, list(matrices',
            '        standing, winner = read_sheet(reading, group, standing, list({**every, **matrices}')),
    rounds('majority and 9 over K', ('first_standing(n, len(matrices))', 'first_standing(n, K)')),
    ('majority over K', '    if closes(standing, counts):',
     '    if closes(standing._replace(C=%s), counts):' % K_SHOWN),
    ('9 over K', 'if count > C:', 'if count > %s:' % K_SHOWN),
    rounds('SH asked for audited ballots',
           (KEPT, '        every[k] = matrix\n' + KEPT),
           ('    matrices = {} ', '    every = {}\n    matrices = {} '),
           ('        for k in matrices:\n            matrices[k] =',
            '        for k in every:\n            every[k] ='),
           ('matrices[k], a)\n', 'every[k], a)\n        matrices = {k: every[k] for k in matrices}\n')),
    rounds('SH numbered 1 to C', ('for k in matrices:', 'for i, k in enumerate(matrices, 1):'),
           ('standing.m, k, matrices[k]', 'standing.m, i, matrices[k]')),
    rounds('matrix before by place', ('for k in matrices:', 'for i, k in enumerate(matrices, 1):'),
           ('k, matrices[k], a)', 'k, matrices.get(i, matrices[k]), a)')),
    rounds('later rounds have K + 1 records',
           ('        a = standing.outs[-1]\n',
            '        a = standing.outs[-1]\n        reading.record += K - len(matrices)\n')),
    rounds('audited ballots have no record number',
           (KEPT, KEPT + '        else:\n            reading.record -= 1\n')),
]

NONE_COUNTED = [
    rounds('19 not tested', (TEST_19, '')),
    rounds('19 named by the sheet', ('Refused(19, K)', 'Refused(19, K + 1)')),
    rounds('19 named by the header', ('Refused(19, K)', 'Refused(19, 0)')),
    rounds('19 named by the first ballot', ('Refused(19, K)', 'Refused(19, 1)')),
    rounds('19 after the sheet', (TEST_19, ''), (FIRST, FIRST.replace('    while', TEST_19 + '    while'))),
    rounds('19 once the sheet is long enough',
           ('    if not matrices:\n', '    if not matrices:\n        if reading.left() < rt_length(n):\n'
            '            reading.refuse(1)\n')),
    rounds('19 after the mark of the sheet',
           ('    if not matrices:\n', "    if not matrices:\n        if reading.board[reading.next:reading.next + 2] "
            "not in (b'RT', b''):\n            reading.refuse(2)\n")),
    rounds('19 for more than one ballot alone', ('    if not matrices:', '    if not matrices and K > 1:')),
    rounds('19 before the tests of the last ballot',
           ('        kind, matrix =', '        if k == K and not matrices and reading.left() > 4 and '
            + KIND_AT_4 + ' == 1:\n            raise Refused(19, K)\n        kind, matrix =')),
    rounds('19 as soon as one is audited', ('    if not matrices:', '    if len(matrices) < K:')),
]

KINDS = [
    frame('1 at 4 bytes', ('reading.left() < BA_FRAME', 'reading.left() < 4')),
    frame('length of a counted ballot', (OPEN, OPEN.replace(KIND_AT_4, '0'))),
    frame('length of an audited ballot', (OPEN, OPEN.replace(KIND_AT_4, '1'))),
    frame('length by the low bit', (OPEN, OPEN.replace(KIND_AT_4, KIND_AT_4 + ' & 1'))),
    frame('length by another byte', (OPEN, OPEN.replace('+ 4', '+ 3'))),
    ('another kind has the audited length', 'if kind == AUDITED else 0)', 'if kind != COUNTED else 0)'),
    ('audited part without the ranking', '(4 * n * n + n if', '(4 * n * n if'),
    frame('mark before the audited length',
          (OPEN, "    reading.open(b'BA', ba_length(n, 0))\n    if %s == 1 and reading.left() + 2 < "
           "ba_length(n, 1):\n        reading.refuse(1)\n"
           % KIND_AT_4.replace('+ 4', '+ 2'))),
    frame('17 before 1', (OPEN, BAD_KIND + OPEN)),
    frame('17 before 2', (OPEN, '    if reading.left() >= ba_length(n, 0):\n    '
                          + BAD_KIND.replace('\n    ', '\n        ') + OPEN)),
    frame('17 before 6', (TEST_6, TEST_17.replace('reading.number(1)', 'reading.board[reading.next + 2]')
                          + TEST_6)),
    frame('17 not tested', ('    if kind not in (COUNTED, AUDITED):', '    if False:')),
    frame('17 for 2 alone', ('    if kind not in (COUNTED, AUDITED):', '    if kind == 2:')),
    frame('17 from 3 on', ('    if kind not in (COUNTED, AUDITED):', '    if kind > 2:')),
    frame('17 not tested of 255', ('    if kind not in (COUNTED, AUDITED):', '    if 1 < kind < 255:')),
    frame('7 for 17', ('reading.refuse(17)', 'reading.refuse(7)')),
]

AFTER = [
    spoilt('17 after 7', 'check', LATE_17[0], '    # "BA, SH: a proof fails', LATE_17[1:],
           ('if kind == AUDITED else None\n', 'if kind == AUDITED else None\n    if kind > 1:\n'
            '        reading.refuse(17)\n')),
    spoilt('17 after 8', 'check', LATE_17[0], '    # "with 18 last n bytes', LATE_17[1:],
           ('line_claim(group, column), column_proofs[j])\n', 'line_claim(group, column), '
            'column_proofs[j])\n    if kind > 1:\n        reading.refuse(17)\n')),
    ballot('18 of an x in the walk',
           ('    shown = read_shown', """    for i in range(n * n if kind == AUDITED else 0):
        x = int.from_bytes(reading.board[reading.next + 4 * i:reading.next + 4 * i + 4], 'big')
        if x < group.q and matrix[i // n][i % n][1] != pair_of(group, x, 0)[1]:
            reading.refuse(18)
    shown = read_shown""")),
    ballot('audited proofs not tested', ('        if not proof_holds', '        if kind == COUNTED and not proof_holds')),
    ballot('18 not tested', (TEST_18, '')),
    ballot('18 before 8', (TEST_18, ''), ('    # "BA, SH: a proof fails', TEST_18 + '    # "BA, SH: a proof fails')),
    ballot('8 for 18', ('reading.refuse(18)', 'reading.refuse(8)')),
    ballot('18 named by the next record', ('        reading.refuse(18)', '        reading.record += 1\n        reading.refuse(18)')),
    ballot('18 of the last ballot alone', ('    if kind == AUDITED and not opens', '    if kind == AUDITED and k == %s and not opens' % K_SHOWN)),
    ballot('18 of all but the last ballot', ('    if kind == AUDITED and not opens', '    if kind == AUDITED and k < %s and not opens' % K_SHOWN)),
    ('x not tested', SHOWN, SHOWN.replace('reading.exponent(group)', 'reading.number(4)')),
    ('x reduced', SHOWN, SHOWN.replace('reading.exponent(group)', 'reading.number(4) % group.q')),
    ('x = q let in', SHOWN, SHOWN.replace('reading.exponent(group)',
                                          '(lambda x: x if x <= group.q else reading.refuse(7))(reading.number(4))')),
    ('x = 0 shut out', SHOWN, SHOWN + '    if any(0 in row for row in xs):\n        reading.refuse(7)\n'),
    ('first x not tested', SHOWN, SHOWN.replace('[[', '[[reading.number(4) if reading.next == first else ')
     .replace('    xs', '    first = reading.next\n    xs')),
    ('last x not tested', SHOWN, SHOWN.replace('[[', '[[reading.number(4) if reading.next == last else ')
     .replace('    xs', '    last = reading.next + 4 * n * n - 4\n    xs')),
    ('7 in the ranking', '    return xs, list(reading.take(n))\n',
     '    ranking = list(reading.take(n))\n    if not all(1 <= i <= n for i in ranking):\n'
     '        reading.refuse(7)\n    return xs, ranking\n'),
]


def pairs(name, where):
    """18 is not tested of the pairs where this holds."""
    return opened('18 not tested ' + name, ('            if ' + PAIR, '            if not (%s) and %s' % (where, PAIR)))


OPENINGS = [
    opened('ranking not tested', (NO_RANKING, '')),
    opened('ranking: 0 let in', (NO_RANKING, '    if any(ranking.count(i) > 1 or i > n for i in ranking):\n        return False\n')),
    opened('ranking: n + 1 let in', (NO_RANKING, '    if any(ranking.count(i) > 1 or i not in range(1, n + 2) for i in ranking):\n        return False\n')),
    opened('ranking: 255 let in', (NO_RANKING, '    if any(ranking.count(i) > 1 or i == 0 or n < i < 255 for i in ranking):\n        return False\n')),
    opened('ranking: a process twice let in', (NO_RANKING, '    if not all(1 <= i <= n for i in ranking):\n        return False\n')),
    opened('ranking: sum alone', (NO_RANKING, '    if sum(ranking) != n * (n + 1) // 2:\n        return False\n')),
    pairs('of the first pair', 'i == j == 0'), pairs('of the last pair', 'i == j == n - 1'),
    pairs('of pair 1 2', '(i, j) == (0, 1)'), pairs('of the last row', 'i == n - 1'),
    pairs('of the first row', 'i == 0'), pairs('of the last column', 'j == n - 1'),
    pairs('but of the first pair', 'i + j > 0'), pairs('but of the first row', 'i > 0'),
    pairs('where v is 1', 'ranking[i] == j + 1'), pairs('where v is 0', 'ranking[i] != j + 1'),
    opened('18: b alone', (PAIR, PAIR.replace(' !=', '[0] !=') + '[0]')),
    opened('18: Y alone', (PAIR, PAIR.replace(' !=', '[1] !=') + '[1]')),
    opened('18: v as it is in b', (PAIR, 'matrix[i][j] not in [pair_of(group, xs[i][j], v) for v in (0, 1)]')),
    opened('18: ranking turned round', (PAIR, PAIR.replace('ranking[i] == j + 1', 'ranking[j] == i + 1'))),
    opened('18: ranking from 0', (PAIR, PAIR.replace('== j + 1', '== j'))),
    opened('18: last first', (PAIR, PAIR.replace('ranking[i]', 'ranking[n - 1 - i]'))),
    opened('18: x by columns', (PAIR, PAIR.replace('xs[i][j]', 'xs[j][i]'))),
    opened('18: x plus v', (PAIR, PAIR.replace('xs[i][j]', 'xs[i][j] + v').replace('1 if', '(v := 1) if'))),
]

MESSAGES = [
    ('kind in the message of BA', 'be(context.round, 1),',
     "(b'\\0' if context.mark == b'BA' else b'') + be(context.round, 1),"),
]

CHECKERS = COUNTING + NONE_COUNTED + KINDS + AFTER + OPENINGS + MESSAGES

# ------------------------------------------------------------------ writers

JOB_17 = ('    if len(kinds) != K or any(kind not in (COUNTED, AUDITED) for kind in kinds):\n'
          '        return 17, 0\n')
JOB_19 = '    if COUNTED not in kinds:\n        return 19, 0\n'
JOB_13 = '    if len(rankings) != K * n:\n        return 13, 0\n'
REFUSAL = ("    refusal = ballots_refusal(n, K, rankings, kinds)\n    if refusal is not None:\n"
           "        return ('refused', *refusal)\n")
FEW = "    if len(draws) < K * (4 * n * n + 2 * n):\n        return ('refused', 14, 0)\n"
SHORT = "    if out_len < 54:\n        return ('refused', 15, 0)\n"

WRITERS = [
    job('17 before 13', (JOB_13, JOB_17 + JOB_13)), job('19 before 13', (JOB_13, JOB_19 + JOB_13)),
    job('17 between 13 and 13', ('    for k in range(K):\n', JOB_17 + '    for k in range(K):\n')),
    job('19 before 17', (JOB_17, JOB_19 + JOB_17)), job('17 not tested', (JOB_17, '')),
    job('19 not tested', (JOB_19, '')), job('17 for 19', ('return 19, 0', 'return 17, 0')),
    job('19 with the last ballot', ('return 19, 0', 'return 19, K')),
    job('17 with the ballot', ('        return 17, 0\n', '        return 17, next((k for k, kind in '
                               'enumerate(kinds, 1) if kind > 1), 0)\n')),
    job('kinds may be more', ('len(kinds) != K or', 'len(kinds) < K or')),
    job('kinds may be fewer', ('len(kinds) != K or', 'len(kinds) > K or')),
    job('no kinds at all', ('len(kinds) != K or', 'len(kinds) not in (0, K) or')),
    job('kinds as many as rankings', ('len(kinds) != K or', 'len(kinds) not in (K, 2 * K) or')),
    job('first kind not tested', ('for kind in kinds)', 'for kind in kinds[1:])')),
    job('last kind not tested', ('for kind in kinds)', 'for kind in kinds[:-1])')),
    job('first and last kind alone', ('for kind in kinds)', 'for kind in (*kinds[:1], *kinds[-1:]))')),
    job('kind 2 let in', ('kind not in (COUNTED, AUDITED)', 'kind > 2')),
    job('kind 255 let in', ('kind not in (COUNTED, AUDITED)', '1 < kind < 255')),
    job('19 for more than one ballot alone', ('if COUNTED not in kinds:', 'if COUNTED not in kinds and K > 1:')),
    job('19 as soon as one is audited', ('if COUNTED not in kinds:', 'if AUDITED in kinds:')),
    job('rankings of audited ballots not tested',
        ('        if any(process', '        if kinds[k:k + 1] != bytes([AUDITED]) and any(process')),
    job('13 numbers the counted ballots', ('return 13, k + 1', 'return 13, k + 1 - sum(kinds[:k])')),
    written('14 before 17 and 19', (REFUSAL, FEW + REFUSAL)),
    written('15 before 17 and 19', (REFUSAL, SHORT + REFUSAL)),
    written('all rankings counted', ('[ranking for ranking, kind in zip(lists, kinds) if kind == COUNTED]', 'lists')),
    written('audited rankings counted', ('if kind == COUNTED]', 'if kind == AUDITED]')),
    written('15 before 14', ("    if not draws_hold", "    if out_len < board_length(n, kinds, rounds):\n"
                             "        return ('refused', 15, 0)\n    if not draws_hold")),
    ('draws for the SH of all', 'sh_draws(n, R))] * counted_of(kinds)', 'sh_draws(n, R))] * len(kinds)'),
    ('draws for counted BA alone', 'ba_draws(n)) for _ in kinds]', 'ba_draws(n)) for _ in range(counted_of(kinds))]'),
    ('draws for the x alone of audited BA', 'ba_draws(n)) for _ in kinds]',
     'n * n if kind == AUDITED else ba_draws(n)) for kind in kinds]'),
    ('length with the SH of all', '        total += counted_of(kinds) * sh_length', '        total += len(kinds) * sh_length'),
    ('length without the audited parts', 'sum(ba_length(n, kind) for kind in kinds)', 'len(kinds) * ba_length(n, 0)'),
    ('kind byte 0', 'be(k, 2), be(kind, 1), matrix_bytes(matrix)]', "be(k, 2), b'\\0', matrix_bytes(matrix)]"),
    ('kind behind the pairs', 'be(k, 2), be(kind, 1), matrix_bytes(matrix)]', 'be(k, 2), matrix_bytes(matrix), be(kind, 1)]'),
    ('no audited part', '        parts.append(shown_bytes(xs, ranking))\n', '        pass\n'),
    ('audited part of counted ballots', '    if kind == AUDITED:\n        parts', '    if kind == COUNTED:\n        parts'),
    ('ranking before the x', "    return b''.join(be(x, 4) for row in xs for x in row) + bytes(ranking)\n",
     "    return bytes(ranking) + b''.join(be(x, 4) for row in xs for x in row)\n"),
    ('x by columns', 'be(x, 4) for row in xs for x in row) + bytes(ranking)', 'be(x, 4) for row in zip(*xs) for x in row) + bytes(ranking)'),
    ('places for the ranking', 'for x in row) + bytes(ranking)\n', 'for x in row) + bytes(ranking.index(i) + 1 for i in sorted(ranking))\n'),
    records('SH of all', ('        if kinds[k - 1] == COUNTED:\n            last', '        if True:\n            last')),
    records('SH numbered 1 to C', ('for k in last:', 'for i, k in enumerate(last, 1):'), ('n, m, k, a', 'n, m, i, a')),
    records('s over all', ('    last = {} ', '    every = []\n    last = {} '),
            ('        parts.append(record)\n        if', '        parts.append(record)\n        every.append(xs)\n        if'),
            ('[xs for _, xs, _ in last.values()]', 'every if m == 1 else [xs for _, xs, _ in last.values()]')),
]

# ------------------------------------------------------------------ finders

WALKED = '        kind = open_ballot(reading, n, k)\n'
STEP = '        reading.next = start + ba_length(n, kind)\n'
RECORD = 'board[start:reading.next]'

FINDERS = [mutant for mutant in KINDS if mutant[0] != 'audited part without the ranking'] + [
    ('steps of a counted ballot', STEP, STEP.replace('kind', '0')),
    ('digest of the counted part', RECORD, 'board[start:start + ba_length(n, 0)]'),
    ('digest without the ranking', RECORD, 'board[start:reading.next - (n if kind else 0)]'),
    ('digest without the kind', RECORD, 'board[start:start + 4] + board[start + 5:reading.next]'),
    ('digest of a counted kind', RECORD, "board[start:start + 4] + b'\\0' + board[start + 5:reading.next]"),
    ('audited ballots not found', 'board[start:reading.next]).digest())', "board[start:reading.next]).digest() if kind == 0 else b'')"),
    ('audited ballots not numbered', '        held.append(', '        if kind == 0: held.append('),
    ('18 tested', WALKED, """        from .check import read_ballot
        kind = reading.board[start + 4:start + 5]
        try:
            read_ballot(reading, _, n, k)
        except Refused as refused:
            if refused.number == 18:
                raise
        reading.next, reading.record = start, k
""" + WALKED),
    ('19 tested', WALKED, WALKED + """        counted = (counted if k > 1 else 0) + (kind == 0)
        if k == K and not counted:
            raise Refused(19, K)
"""),
    ('x tested', WALKED, WALKED + """        at = start + ba_length(n, 0)
        for x in range(at, at + (4 * n * n if kind else 0), 4):
            if int.from_bytes(board[x:x + 4], 'big') >= _.q:
                reading.refuse(7)
"""),
    ('audited ballots refused', WALKED, WALKED + '        if kind == 1:\n            reading.refuse(17)\n'),
]
