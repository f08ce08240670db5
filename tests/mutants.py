#!/usr/bin/env python3
"""mutants.py - are the stored cases of the test programs `cases`, `find_cases`, `text_cases` and
`job_cases` sharp enough?  The mutants of a challenge's message are in message_mutants.py, of audited
ballots in audit_mutants.py, of draws that repeat in repeat_mutants.py, of the second entry to the
checker in small_mutants.py, of the walk for receipts in find_mutants.py, of the text in
text_mutants.py.

  python3 tests/mutants.py

Each mutant is the reference's checker, its finder of receipts, its teller of counts or its writer, with
one rule spoilt by a change of its text.  Prints for each the smallest stored case on which it answers
otherwise; one that answers like the reference on all of them is reported, and the exit status is 1.
Takes three minutes."""
import collections
import os
import sys
import types

import stored
from stored import HERE

import audit_mutants
import find_mutants
import message_mutants
import repeat_mutants
import small_mutants
import text_mutants

# the modules of the reference, each after those that it imports
MODULES = ('board.sizes', 'board.group', 'board.proofs', 'board.count', 'board.plain_count',
           'board.reading', 'board.check', 'board.find', 'board.text', 'board.write', 'boardref')

Question = collections.namedtuple('Question', 'case function arguments')

CHECKERS = [
    ('element: no order test', "return 1 <= x <= p - 1 and pow(x, q, p) == 1",
     "return 1 <= x <= p - 1"),
    ('element: no range test', "return 1 <= x <= p - 1 and pow(x, q, p) == 1",
     "return pow(x, q, p) == 1"),
    ('element: 1 shut out', "return 1 <= x <= p - 1 and pow(x, q, p) == 1",
     "return 2 <= x <= p - 1 and pow(x, q, p) == 1"),
    ('exponent: q let in', "if x >= group.q:", "if x > group.q:"),
    ('exponent: no test', "if x >= group.q:", "if False:"),
    ('exponent: 0 shut out', "if x >= group.q:", "if x >= group.q or x == 0:"),
    ('shift: last row left', "for i in range(1, R + 1):\n            source = previous[i - 1] if i < l else previous[i]\n            for j",
     "for i in range(1, R + 1):\n            source = previous[i - 1] if i < l else previous[i]\n            if i > R - 1:\n                branch += [(1, 1)] * n\n                continue\n            for j"),
    ('shift: last two rows left, as printed', "for i in range(1, R + 1):\n            source = previous[i - 1] if i < l else previous[i]\n            for j",
     "for i in range(1, R + 1):\n            source = previous[i - 1] if i < l else previous[i]\n            if i > R - 2:\n                branch += [(1, 1)] * n\n                continue\n            for j"),
    ('shift: i <= l', "source = previous[i - 1] if i < l else previous[i]\n            for j in range(1, n + 1):\n                new_b",
     "source = previous[i - 1] if i <= l else previous[i]\n            for j in range(1, n + 1):\n                new_b"),
    ('shift: all rows for the products', "[old_row[j - 1] for j in range(1, n + 1) if j != a]",
     "[old_row[j - 1] for j in range(1, n + 1)]"),
    ('shift: last row unchecked',
     "for statement, (t1, t2, r) in zip(branch, lines, strict=True):",
     "for statement, (t1, t2, r) in checked(claim, branch, lines, 1):"),
    ('shift: last two rows unchecked, as printed',
     "for statement, (t1, t2, r) in zip(branch, lines, strict=True):",
     "for statement, (t1, t2, r) in checked(claim, branch, lines, 2):"),
    ('proof: challenges reduced modulo p',
     "return sum(e for e, _ in proof) % group.q == c",
     "return sum(e for e, _ in proof) % group.p == c"),
    ('proof: only the first branch', "for branch, (e, lines) in zip(claim, proof, strict=True):",
     "for branch, (e, lines) in list(zip(claim, proof))[:1]:"),
    ('proof: all but the last branch of more',
     "for branch, (e, lines) in zip(claim, proof, strict=True):",
     "for branch, (e, lines) in list(zip(claim, proof))[:max(1, len(claim) - 1)]:"),
    ('proof: last statement of more left',
     "for statement, (t1, t2, r) in zip(branch, lines, strict=True):",
     "for statement, (t1, t2, r) in list(zip(branch, lines))[:max(1, len(branch) - 1)]:"),
    ('proof: second statement of more left',
     "for statement, (t1, t2, r) in zip(branch, lines, strict=True):",
     "for statement, (t1, t2, r) in [z for i, z in enumerate(zip(branch, lines)) if i != 1]:"),
    ('proof: first statement of more left',
     "for statement, (t1, t2, r) in zip(branch, lines, strict=True):",
     "for statement, (t1, t2, r) in [z for i, z in enumerate(zip(branch, lines)) if i != 0 or len(branch) == 1]:"),
    ('proof: a true branch is enough', "            if not statement_holds(group, statement, e, t1, t2, r):\n                return False\n    #",
     "            if not statement_holds(group, statement, e, t1, t2, r):\n                break\n        else:\n            return True\n    #"),
    ('proof: no sum test', "return sum(e for e, _ in proof) % group.q == c",
     "return True"),
    ('proof: sum not reduced',
     "return sum(e for e, _ in proof) % group.q == c",
     "return sum(e for e, _ in proof) == c"),
    ('statement: second equation left', "\n            and power(group, group.g1, r) == times(group, t2, power(group, B, e)))", ")"),
    ('statement: first equation left',
     "power(group, group.g0, r) == times(group, t1, power(group, A, e))", "True"),
    ('challenge: first 4 bytes', "return int.from_bytes(digest[:8], 'big') % group.q",
     "return int.from_bytes(digest[:4], 'big') % group.q"),
    ('closes at half', "if 2 * counts[i - 1] > standing.C:", "if 2 * counts[i - 1] >= standing.C:"),
    ('closes for a process out', "for i in standing.still_in:\n        if 2 *",
     "for i in range(1, standing.n + 1):\n        if 2 *"),
    ('closes only by majority', "return standing.m == standing.n - 1", "return standing.m == standing.n"),
    ('closes a round early', "return standing.m == standing.n - 1", "return standing.m >= max(1, standing.n - 2)"),
    ('winner among all', "for i in standing.still_in:                     # rising numbers\n        if best",
     "for i in range(1, standing.n + 1):\n        if best"),
    ('out among all', "for i in standing.still_in:                     # rising numbers\n        if worst",
     "for i in range(1, standing.n + 1):\n        if worst"),
    ('out 0 let through', "if out != lowest_due(standing, counts):", "if out != lowest_due(standing, counts) and out:"),
    ('closing out not tested', "        if out != 0:\n            reading.refuse(11)\n", ""),
    ('out tested in the walk', "out = reading.number(1)  ", "out = reading.number(1)\n    if out > n:\n        reading.refuse(7)\n    "),
    ('11 before 10', "    # \"RT: a tally equation fails | 10\"",
     "    if out != (0 if closes(standing, counts) else lowest_due(standing, counts)):\n        reading.refuse(11)\n    # \"RT: a tally equation fails | 10\""),
    ('9 after the walk', "        if count > C:\n            reading.refuse(9)\n        counts.append(count)\n        sums.append(reading.exponent(group))\n",
     "        counts.append(count)\n        sums.append(reading.exponent(group))\n    if any(c > C for c in counts):\n        reading.refuse(9)\n"),
    ('9 before the walk', "    counts, sums = [], []\n",
     "    counts, sums = [], []\n    for i in range(n):\n        if int.from_bytes(reading.board[reading.next + 6 * i:reading.next + 6 * i + 2], 'big') > C:\n            reading.refuse(9)\n"),
    ('9 not tested', "if count > C:", "if False:"),
    ('9 at C', "if count > C:", "if count >= C:"),
    ('9 for processes still in alone', "        if count > C:", "        if count > C and len(counts) + 1 in standing.still_in:"),
    ('counts must sum to C', "    # \"RT: a tally equation fails | 10\"",
     "    if sum(counts) != C:\n        reading.refuse(10)\n    # \"RT: a tally equation fails | 10\""),
    ('processes out must have 0', "    # \"RT: a tally equation fails | 10\"",
     "    if any(counts[a - 1] for a in standing.outs):\n        reading.refuse(10)\n    # \"RT: a tally equation fails | 10\""),
    ('tally: only processes still in', "        if product_of(group, [M[0][i] for M in matrices]) !=",
     "        if i + 1 in standing.still_in and product_of(group, [M[0][i] for M in matrices]) !="),
    ('tally: not the last column', "    for i in range(n):\n        if product_of(group, [M[0][i]",
     "    for i in range(n - 1):\n        if product_of(group, [M[0][i]"),
    ('tally: b alone', "        if product_of(group, [M[0][i] for M in matrices]) != pair_of(group, sums[i], counts[i]):",
     "        if product_of(group, [M[0][i] for M in matrices])[0] != pair_of(group, sums[i], counts[i])[0]:"),
    ('tally: Y alone', "        if product_of(group, [M[0][i] for M in matrices]) != pair_of(group, sums[i], counts[i]):",
     "        if product_of(group, [M[0][i] for M in matrices])[1] != pair_of(group, sums[i], counts[i])[1]:"),
    ('tally: first round alone', "    for i in range(n):\n        if product_of(group, [M[0][i]",
     "    for i in range(n if standing.m == 1 else 0):\n        if product_of(group, [M[0][i]"),
    ('entry proofs left', "            test(entry_place(n, i, j), entry_claim(group, matrix[i][j]), entry_proofs[i][j])",
     "            pass"),
    ('row proofs left', "        test(row_place(n, i), line_claim(group, matrix[i]), row_proofs[i])", "        pass"),
    ('column proofs left', "        test(column_place(n, j), line_claim(group, column), column_proofs[j])", "        pass"),
    ('row not over g1', "return [[(over(group, b, group.g1), y)]]", "return [[(b, y)]]"),
    ('shift proofs waved through', "    if not proof_holds(group, Context(b'SH', k, m, 0), claim, proof):", "    if False:"),
    ('6 not tested in BA', "due | 6\"\n    if reading.number(2) != k:\n        reading.refuse(6)\n", "due | 6\"\n    reading.number(2)\n"),
    ('6 not tested in SH', "    if reading.number(2) != k:\n        reading.refuse(6)\n    matrix = read_matrix(reading, group, R, n)",
     "    reading.number(2)\n    matrix = read_matrix(reading, group, R, n)"),
    ('6 not tested in RT', "    if reading.number(1) != standing.m:\n        reading.refuse(6)\n", "    reading.number(1)\n"),
    ('6 by low byte', "due | 6\"\n    if reading.number(2) != k:",
     "due | 6\"\n    if reading.number(2) % 256 != k % 256:"),
    ('8 before the rest of the walk', "    row_proofs = [read_proof",
     "    for i in range(n):\n        for j in range(n):\n            if not proof_holds(group, Context(b'BA', k, 1, entry_place(n, i, j)), entry_claim(group, matrix[i][j]), entry_proofs[i][j]):\n                reading.refuse(8)\n    row_proofs = [read_proof"),
    ('12 not tested', "    if reading.left() > 0:\n        reading.refuse(12)\n", ""),
    ('12 names the last record', "    if reading.left() > 0:\n        reading.refuse(12)\n",
     "    if reading.left() > 0:\n        reading.record -= 1\n        reading.refuse(12)\n"),
    ('2 before 1', "        if self.left() < length:\n            self.refuse(1)\n",
     "        if self.left() < 2:\n            self.refuse(1)\n        if self.board[self.next:self.next + 2] != mark:\n            self.refuse(2)\n        if self.left() < length:\n            self.refuse(1)\n"),
    ('HD let in beside HF', "reading.open(b'HF', HF_LENGTH)", "reading.open(b'HD' if reading.board[:2] == b'HD' else b'HF', HF_LENGTH)"),
    ('HD for HF', "reading.open(b'HF', HF_LENGTH)", "reading.open(b'HD', HF_LENGTH)"),
    ('marks not tested', "if self.take(2) != mark:", "if self.take(2) is None:"),
    ('mark: first byte alone', "if self.take(2) != mark:", "if self.take(2)[0] != mark[0]:"),
    ('records numbered from 1', "self.record = 0", "self.record = 1"),
    ('n = 9', "2 <= n <= 8", "2 <= n <= 9"),
    ('n = 1', "2 <= n <= 8", "1 <= n <= 8"),
    ('K = 0', "1 <= K <= 1000", "0 <= K <= 1000"),
    ('K = 1001', "1 <= K <= 1000", "1 <= K <= 1001"),
    ('K = 999', "1 <= K <= 1000", "1 <= K <= 999"),
    ('4 before 3', "    # \"HD: n or K out of range | 3\"", "    if not group_holds(n, K, p, q):\n        reading.refuse(4)\n    # \"HD: n or K out of range | 3\""),
    ('p up to 2^32', "2 <= p < 2 ** 31 and", "2 <= p < 2 ** 32 and"),
    ('p below 2^31-1', "2 <= p < 2 ** 31 and", "2 <= p < 2 ** 31 - 1 and"),
    ('q >= n', "and q > n and q > K and", "and q >= n and q > K and"),
    ('q >= K', "and q > n and q > K and", "and q > n and q >= K and"),
    ('q need not divide p-1', "(p - 1) % q == 0", "True"),
    ('q need not be prime', "and is_prime(p) and is_prime(q))", "and is_prime(p))"),
    ('p need not be prime', "and is_prime(p) and is_prime(q))", "and is_prime(q))"),
    ('prime by Fermat 2', "    d = 3\n    while", "    return pow(2, x - 1, x) == 1\n    d = 3\n    while"),
    ('prime: squares pass', "while d * d <= x:", "while d * d < x:"),
    ('g0 not tested', "return is_element(p, q, g0) and g0 != 1", "return True"),
    ('g0 = 1', "return is_element(p, q, g0) and g0 != 1", "return is_element(p, q, g0)"),
    ('g1 not made anew', "if g1 != make_g1(p, q, g0, counter, label) or not g1_holds(g0, g1):", "if not g1_holds(g0, g1):"),
    ('g1 = 0', "return g1 != 0 and g1 != 1 and g1 != g0", "return g1 != 1 and g1 != g0"),
    ('g1 = 1', "return g1 != 0 and g1 != 1 and g1 != g0", "return g1 != 0 and g1 != g0"),
    ('g1 = g0', "return g1 != 0 and g1 != 1 and g1 != g0", "return g1 != 0 and g1 != 1"),
    ('g1 compared modulo p', "if g1 != make_g1(p, q, g0, counter, label) or", "if g1 % p != make_g1(p, q, g0, counter, label) or"),
    ('g1 to the power p-1 over 2', "return pow(number, (p - 1) // q, p)", "return pow(number, 2, p)"),
]

# the sheets that another rule on equal counts would look at
OTHER_SHEETS = (
    ('this round alone', '()'), ('one round back alone', 'standing.sheets[-1:]'),
    ('two rounds back alone', 'standing.sheets[-2:-1]'),
    ('no more than two rounds back', 'standing.sheets[-2:]'),
    ('latest earlier round left', 'standing.sheets[:-1]'), ('round 1 left', 'standing.sheets[1:]'),
    ('round 1 alone', 'standing.sheets[:1]'), ('from round 1 up', 'standing.sheets[::-1]'),
    ('sums of the earlier rounds', '(tuple(map(sum, zip(*standing.sheets))),)[:len(standing.sheets)]'),
    ('%s in earlier rounds', 'tuple(tuple(-x for x in sheet) for sheet in standing.sheets)'))

COUNTS = [
    ('winner: highest number', "latest_first(standing, counts, i) > latest_first(", "latest_first(standing, counts, i) >= latest_first("),
    ('out: lowest number', "<= latest_first(standing, counts, worst)", "< latest_first(standing, counts, worst)"),
    ('the sheet of round 1 kept alone', "sheets=standing.sheets + (tuple(counts),)", "sheets=standing.sheets or (tuple(counts),)"),
    ('the latest sheet kept alone', "sheets=standing.sheets + (tuple(counts),)", "sheets=(tuple(counts),)"),
] + [('%s: %s' % (end, name.replace('%s', other)), '    %s = None\n' % found,
      '    %s = None\n    standing = standing._replace(sheets=%s)\n' % (found, sheets))
     for end, found, other in (('out', 'worst', 'more'), ('winner', 'best', 'fewer'))
     for name, sheets in OTHER_SHEETS]


def checked(claim, branch, lines, rows):
    """The statements of a branch, without those of the last rows of a shift."""
    statements = list(zip(branch, lines, strict=True))
    if len(branch) == 1:
        return statements
    n = (len(branch) - 2) // (len(claim) - 1)
    return statements[:max(2, len(branch) - rows * n)]


def text_of(name):
    with open(os.path.join(HERE, 'reference', *name.split('.')) + '.py') as f:
        return f.read()


def load(texts):
    """The reference as these texts of its modules make it, boardref the last."""
    for name, text in texts.items():
        module = types.ModuleType(name)
        module.__package__ = name.rpartition('.')[0]
        module.checked, module.early = checked, find_mutants.early
        module.other, module.other_places = message_mutants.other, message_mutants.OTHER_PLACES
        sys.modules[name] = module                    # the modules after it import this one
        exec(compile(text, name, 'exec'), module.__dict__)
    return module


def checks(function):
    return [Question(board.name, function, (board.bytes,)) for board in stored.boards()]


def boards():
    """The boards not made for the screen's limits: they tell all other rules apart."""
    return [question for question in checks('check') if not question.case.startswith('limits.')]


def others():
    """Those not made for the message of a challenge either, which tell no other rule apart."""
    return [question for question in boards() if not question.case.startswith(('message-', 'moved'))]


def entries():
    """The boards made for those limits, and sound ones, asked of both entries."""
    return [question for question in checks('check') + checks('check_small')
            if question.case.startswith(('limits.', 'sound.'))]


def audits():
    """The boards made for audited ballots."""
    return [question for question in boards()
            if question.case.startswith(('audit-', 'opening-', 'double.'))]


def ties():
    """The boards made for equal counts: to ask all the others before them would take long."""
    return [question for question in boards() if question.case.startswith(('equal.', 'otherwise.'))]


def messages(kind):
    """The boards with the challenge of another message, by kind of proof."""
    words = {'entry': ('-entry-',), 'line': ('-row-', '-col-'), 'shift': ('-round-',),
             'place': ('-entry-', '-row-', '-col-')}[kind]
    return [question for question in boards() if question.case.startswith('message-')
            and any(word in question.case for word in words)]


def asked(jobs):
    return [Question(job.name, 'write', (job.n, job.K, job.p, job.q, job.g0, job.counter, job.label,
                                         job.rankings, job.kinds, job.draws, job.room)) for job in jobs]


def jobs():
    """The jobs of small boards and the one of the most ballots, not made for draws that repeat."""
    return asked(job for job in stored.jobs() if (job.room < 3000 or job.name == 'thousand')
                 and not job.name.startswith('repeat.'))


def repeats():
    """The jobs made for draws that repeat, and those with two faults."""
    return asked(job for job in stored.jobs() if job.name.startswith(('repeat.', 'three.faults-')))


def finds():
    return [Question(find.name, 'find', (find.board, find.digests, find.room))
            for find in stored.finds()]


def all_texts():
    return [Question(text.name, 'text', (text.board, text.names, text.room))
            for text in stored.texts()]


def names():
    """The texts made for names."""
    return [question for question in all_texts() if question.case.startswith(('names.', 'one'))]


def told():
    """The others."""
    return [question for question in all_texts() if not question.case.startswith(('names.', 'one'))]


def counts():
    """The texts made for counts of several digits."""
    return [question for question in all_texts() if question.case.startswith('counts-')]


def size(question):
    return sum(len(x) for x in question.arguments if isinstance(x, bytes))


def answer(reference, question):
    try:
        return getattr(reference, question.function)(*question.arguments)
    except Exception as error:                        # a crash is a difference too
        return repr(error)


def right_answers(texts):
    """The reference's answer to a question, worked out when it is first asked."""
    reference, known = load(texts), {}

    def right(question):
        key = question.function, question.case
        if key not in known:
            known[key] = answer(reference, question)
        return known[key]

    return right


def survivors(texts, mutants, questions, right):
    """The mutants that no question tells apart, the smallest asked first."""
    ordered = sorted(questions, key=size)
    left = []
    for name, old, new in mutants:
        found = sum(text.count(old) for text in texts.values())
        assert found == 1, (name, found)
        mutant = load({module: text.replace(old, new) for module, text in texts.items()})
        caught = next((q.case for q in ordered if answer(mutant, q) != right(q)), None)
        print('%-45s %s' % (name, caught or 'SURVIVES'), flush=True)
        left += [name] if caught is None else []
    return left


def main():
    texts = {name: text_of(name) for name in MODULES}
    right = right_answers(texts)
    left = []
    for what, mutants, questions in (('checkers', CHECKERS, others()),
                                     ('checkers, equal counts', COUNTS, ties()),
                                     ('checkers, messages', message_mutants.CHECKERS, boards()),
                                     *[('checkers, messages beside, ' + kind, mutants, messages(kind))
                                       for kind, mutants in message_mutants.BESIDE.items()],
                                     ('checkers, audits', audit_mutants.CHECKERS, audits()),
                                     ('checkers, repeats', repeat_mutants.CHECKERS, others()),
                                     ('checkers, limits', small_mutants.CHECKERS, entries()),
                                     ('writers, messages', message_mutants.WRITERS, jobs()),
                                     ('writers, audits', audit_mutants.WRITERS, jobs()),
                                     ('writers, repeats', repeat_mutants.WRITERS, repeats()),
                                     ('finders', find_mutants.FINDERS, finds()),
                                     ('finders, audits', audit_mutants.FINDERS, finds()),
                                     ('finders, limits', small_mutants.FINDERS, finds()),
                                     ('tellers, names', text_mutants.NAMES, names()),
                                     ('tellers, counts', text_mutants.COUNTS, counts()),
                                     ('tellers, sentences', text_mutants.SENTENCES, told()),
                                     ('tellers, orders', text_mutants.ORDERS, all_texts()),
                                     ('tellers, boards', text_mutants.BOARDS, told()),
                                     ('tellers, limits', small_mutants.TELLERS, told())):
        some = survivors(texts, mutants, questions, right)
        print('%s: %d mutants, %d survive' % (what, len(mutants), len(some)))
        left += some
    return 1 if left else 0


if __name__ == '__main__':
    sys.exit(main())
