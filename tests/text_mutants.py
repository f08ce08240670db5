"""The mutants of the text: see mutants.py."""

LENGTH = "if not 1 <= len(name) <= 20:"
LETTER = "if any(letter not in LETTERS for letter in name):"
NUMBER = "    if rest or len(names) != n:\n"
SPLIT = "    *names, rest = lent.split(b'\\n')\n"
EQUAL = "if names[i] == names[j]:"
PAIRS = "    for i in range(n):\n        for j in range(i):\n            if names[i]"
COUNT = "'%s counts %d' % (process, count)"
JOINED = "counts = ', '.join('%s counts"
LINE = "return 'Round %d: %s; %s %s.\\n' % (m, counts, name, does)"
STILL = "if i not in outs[:m - 1]]"
SHOWN = "        shown = [(names[i - 1], counts[i - 1]) for i in still_in]\n"
LEAVES = "names[outs[m - 1] - 1], 'leaves'"
WINS = "names[winner - 1], 'wins'"
LINES = "return ''.join(lines).encode('ascii')"
ROOM = "if room < len(told):"
BOARD = "    try:\n        standing, winner = read_board(bytes(board))\n    except Refused as refused:\n        return ('refused', refused.number, refused.record)\n    # \"It refuses"
HELD = "    process_names = names_of(bytes(names), standing.n)\n"

LETTERS = [('length: ' + name, LENGTH, new) for name, new in (
    ('0 let in', "if not len(name) <= 20:"), ('1 shut out', "if not 2 <= len(name) <= 20:"),
    ('19 the most', "if not 1 <= len(name) <= 19:"), ('21 the most', "if not 1 <= len(name) <= 21:"),
    ('22 the most', "if not 1 <= len(name) <= 22:"), ('no most', "if not 1 <= len(name):"),
    ('modulo 256', "if not 1 <= len(name) % 256 <= 20:"),
    ('in 5 bits', "if not 1 <= len(name) & 31 <= 20:"),
    ('of all names together', "if not 1 <= len(name) or len(lent) > 21 * n:"))
] + [('names: %s tested' % name, "for name in names:\n        if not", "for name in %s:\n        if not" % new)
     for name, new in (('all but the first', 'names[1:]'), ('all but the last', 'names[:-1]'),
                       ('the first alone', 'names[:1]'), ('the last alone', 'names[-1:]'),
                       ('the ends alone', 'names[:1] + names[-1:]'), ('none', 'names[:0]'))
] + [('letters: %r let in' % extra, LETTER, "if any(letter not in LETTERS + %r for letter in name):" % extra)
     for extra in (b'@', b'[', b'`', b'{', b'0', b'9', b'-', b' ', b'\t', b'\r', b'\0', b'\x7f', b'\x80',
                   b'\xff', b'\xc3\xa9', b'/', b':', b"'", b'.', b'_')
] + [('letters: %s shut out' % name, LETTER, "if any(letter not in LETTERS or letter in %r for letter in name):" % out)
     for name, out in (('A', b'A'), ('Z', b'Z'), ('a', b'a'), ('z', b'z'),
                       ('large ones', b'ABCDEFGHIJKLMNOPQRSTUVWXYZ'),
                       ('small ones', b'abcdefghijklmnopqrstuvwxyz'))
] + [('letters: ' + name, LETTER, "if any(%s):" % new) for name, new in (
    ('all from A to z', "not 65 <= letter <= 122 for letter in name"),
    ('all from @ on', "letter < 64 for letter in name"),
    ('all above 127 let in', "letter not in LETTERS and letter < 128 for letter in name"),
    ('the low 7 bits tested', "letter & 127 not in LETTERS for letter in name"),
    ('digits let in', "not bytes([letter]).isalnum() for letter in name"),
    ('white space let in', "letter not in LETTERS and letter not in b' \\t\\r\\v\\f' for letter in name"),
    ('all but line feeds', "letter == 10 for letter in name"),
    ('the first not tested', "letter not in LETTERS for letter in name[1:]"),
    ('the last not tested', "letter not in LETTERS for letter in name[:-1]"),
    ('the first alone', "letter not in LETTERS for letter in name[:1]"),
    ('the last alone', "letter not in LETTERS for letter in name[-1:]"),
    ('the ends alone', "letter not in LETTERS for letter in name[:1] + name[-1:]"),
    ('19 tested', "letter not in LETTERS for letter in name[:19]"),
    ('those of other writings', "not letter.isalpha() for letter in name.decode('utf-8', 'replace')"))
]

LISTS = [('list: ' + name, NUMBER, new) for name, new in (
    ('bytes beyond let in', "    if len(names) != n:\n"),
    ('one byte beyond let in', "    if rest[1:] or len(names) != n:\n"),
    ('zeros beyond let in', "    if rest.strip(b'\\0') or len(names) != n:\n"),
    ('blanks beyond let in', "    if rest.strip() or len(names) != n:\n"),
    ('fewer let in', "    if rest or len(names) > n:\n"),
    ('more let in', "    if rest or len(names) < n:\n"),
    ('one more let in', "    if rest or len(names) not in (n, n + 1):\n"),
    ('twice as many let in', "    if rest or len(names) not in (n, 2 * n):\n"),
    ('as many as 8', "    if rest or not len(names) in (n, 8):\n"),
    ('last line feed may lack', "    if rest:\n        names.append(rest)\n    if len(names) != n:\n"),
    ('last line feed must lack', "    names.append(rest)\n    if len(names) != n:\n"),
    ('empty names left out', "    names = [name for name in names if name]\n" + NUMBER),
    ('an empty name at the end left out', "    if len(names) > n and not names[-1]:\n        names.pop()\n" + NUMBER),
    ('none needed', "    names = names or [b'A', b'B', b'C', b'D', b'E', b'F', b'G', b'H'][:n]\n" + NUMBER),
    ('names without blanks around', "    names = [name.strip() for name in names]\n" + NUMBER))
] + [('list: ' + name, SPLIT, "    lent = %s\n" % new + SPLIT) for name, new in (
    ('carriage returns left out', "lent.replace(b'\\r\\n', b'\\n')"),
    ('carriage returns for line feeds', "lent.replace(b'\\r', b'\\n')"),
    ('zeros for line feeds', "lent.replace(b'\\0', b'\\n')"),
    ('blanks for line feeds', "lent.replace(b' ', b'\\n')"),
    ('commas for line feeds', "lent.replace(b', ', b'\\n')"),
    ('line feeds ahead left out', "lent.lstrip(b'\\n')"),
    ('a mark of the writing left out', "lent.removeprefix(b'\\xef\\xbb\\xbf')"),
    ('two line feeds as one', "lent.replace(b'\\n\\n', b'\\n')"),
    ('up to a zero', "lent.split(b'\\0')[0]"),
    ('168 bytes read', "lent[:168]"), ('as many bytes read as names may have', "lent[:21 * n]"))
]

EQUALS = [('equal: ' + name, EQUAL, "if %s:" % new) for name, new in (
    ('not tested', "False"), ('but for the case', "names[i].lower() == names[j].lower()"),
    ('but for the case of the first', "names[i][:1].lower() + names[i][1:] == names[j][:1].lower() + names[j][1:] or names[i] == names[j]"),
    ('by length', "len(names[i]) == len(names[j])"), ('by first letter', "names[i][:1] == names[j][:1]"),
    ('by last letter', "names[i][-1:] == names[j][-1:]"), ('by 2 letters', "names[i][:2] == names[j][:2]"),
    ('by 3 letters', "names[i][:3] == names[j][:3]"), ('by 19 letters', "names[i][:19] == names[j][:19]"),
    ('all but the first', "names[i][1:] == names[j][1:]"), ('all but the last', "names[i][:-1] == names[j][:-1]"),
    ('first and last letter', "names[i][:1] + names[i][-1:] == names[j][:1] + names[j][-1:]"),
    ('by sum', "sum(names[i]) == sum(names[j])"), ('as sets', "set(names[i]) == set(names[j])"),
    ('whatever the order', "sorted(names[i]) == sorted(names[j])"),
    ('the later starts so', "names[i].startswith(names[j])"), ('the earlier starts so', "names[j].startswith(names[i])"),
    ('the later ends so', "names[i].endswith(names[j])"), ('within', "names[i] in names[j]"),
    ('those of one letter let in', "names[i] == names[j] and len(names[i]) > 1"),
    ('those of 20 letters let in', "names[i] == names[j] and len(names[i]) < 20"),
    ('the ends let in', "names[i] == names[j] and (i, j) != (n - 1, 0)"),
    ('the first two let in', "names[i] == names[j] and (i, j) != (1, 0)"),
    ('the last two let in', "names[i] == names[j] and (i, j) != (n - 1, n - 2)"),
    ('all of them alone', "names.count(names[0]) == n"))
] + [('equal: ' + name, PAIRS, "    for i in range(%s):\n        for j in range(%s):\n            if names[i]" % new)
     for name, new in (('neighbours alone', ('n', 'max(0, i - 1), i')), ('all but neighbours', ('n', 'i - 1')),
                       ('the first with others alone', ('n', 'min(i, 1)')), ('the last with others alone', ('n - 1, n', 'i')),
                       ('the first with none', ('n', '1, i')), ('the last with none', ('n - 1', 'i')),
                       ('the first three alone', ('min(n, 3)', 'i')), ('the first seven alone', ('min(n, 7)', 'i')))
]

NAMES = LETTERS + LISTS + EQUALS

COUNTS = [('count: ' + name, COUNT, "'%%s counts %%s' %% (process, %s)" % new) for name, new in (
    ('two digits', "'%02d' % count"), ('three digits', "'%03d' % count"), ('four digits', "'%04d' % count"),
    ('a blank for a digit', "'%2d' % count"), ('a sign', "'%+d' % count"), ('hexadecimal', "'%x' % count"),
    ('thousands apart', "format(count, ',')"), ('backwards', "str(count)[::-1]"), ('nothing for 0', "count or ''"),
    ('a word for 0', "count or 'none'"), ('zeros left out', "str(count).replace('0', '') or '0'"),
    ('zeros at the end left out', "str(count).rstrip('0') or '0'"), ('last digit alone', "count % 10"),
    ('last two digits', "count % 100"), ('last three digits', "count % 1000"), ('low byte', "count % 256"),
    ('high byte first', "count >> 8 or count"), ('at most 255', "min(count, 255)"), ('at most 999', "min(count, 999)"),
    ('at most 9', "min(count, 9)"), ('at most 99', "min(count, 99)"), ('one more', "count + 1"),
    ('99 in one digit', "chr(48 + count) if count < 100 else count"))
]

WORDS = [('joined by ' + repr(sign), JOINED, "counts = %r.join('%%s counts" % sign)
             for sign in (',', ' ', '; ', ' and ', ' , ', ',  ', '')
] + [('line: ' + name, LINE, new) for name, new in (
    ('no line feed', "return 'Round %d: %s; %s %s.' % (m, counts, name, does)"),
    ('two line feeds', "return 'Round %d: %s; %s %s.\\n\\n' % (m, counts, name, does)"),
    ('carriage return', "return 'Round %d: %s; %s %s.\\r\\n' % (m, counts, name, does)"),
    ('zero for a line feed', "return 'Round %d: %s; %s %s.\\0' % (m, counts, name, does)"),
    ('no full stop', "return 'Round %d: %s; %s %s\\n' % (m, counts, name, does)"),
    ('comma ahead of the end', "return 'Round %d: %s, %s %s.\\n' % (m, counts, name, does)"),
    ('no blank ahead of the end', "return 'Round %d: %s;%s %s.\\n' % (m, counts, name, does)"),
    ('two sentences', "return 'Round %d: %s. %s %s.\\n' % (m, counts, name, does)"),
    ('small r', "return 'round %d: %s; %s %s.\\n' % (m, counts, name, does)"),
    ('no colon', "return 'Round %d %s; %s %s.\\n' % (m, counts, name, does)"),
    ('no blank behind the colon', "return 'Round %d:%s; %s %s.\\n' % (m, counts, name, does)"),
    ('no number', "return 'Round: %s; %s %s.\\n' % (counts, name, does)"),
    ('two digits of a round', "return 'Round %02d: %s; %s %s.\\n' % (m, counts, name, does)"),
    ('rounds from 0', "return 'Round %d: %s; %s %s.\\n' % (m - 1, counts, name, does)"),
    ('all round 1', "return 'Round 1: %s; %s %s.\\n' % (counts, name, does)"),
    ('a blank at the end', "return 'Round %d: %s; %s %s. \\n' % (m, counts, name, does)"),
    ('no end', "return 'Round %d: %s.\\n' % (m, counts)"))
] + [('words: ' + name, COUNT, new) for name, new in (
    ('count', "'%s count %d' % (process, count)"), ('a colon', "'%s: %d' % (process, count)"),
    ('1 in the singular', "'%s count%s %d' % (process, 's' * (count != 1), count)"),
    ('count ahead', "'%d %s' % (count, process)"), ('small letters', "'%s counts %d' % (process.lower(), count)"),
    ('large letters', "'%s counts %d' % (process.upper(), count)"),
    ('a large first letter', "'%s counts %d' % (process.capitalize(), count)"),
    ('19 letters', "'%s counts %d' % (process[:19], count)"), ('8 letters', "'%s counts %d' % (process[:8], count)"),
    ('names of one length', "'%-8s counts %d' % (process, count)"))
]

ROUNDS = [('still in: ' + name, STILL, new) for name, new in (
    ('all', "]"), ('the one who leaves not told', "if i not in outs[:m]]"),
    ('who left last is told', "if i not in outs[:max(0, m - 2)]]"),
    ('who left last alone is not told', "if i not in outs[max(0, m - 2):m - 1]]"),
    ('who left first alone is not told', "if i not in outs[:min(1, m - 1)]]"),
    ('none of those who ever leave', "if i not in outs]"),
    ('those with 0 not told', "if i not in outs[:m - 1] and counts[i - 1]]"),
    ('those gone told where they count', "if i not in outs[:m - 1] or counts[i - 1]]"),
    ('the last process not told', "if i not in outs[:m - 1] and i < len(names)]"),
    ('from the last down', "if i not in outs[:m - 1]][::-1]"),
    ('two at most', "if i not in outs[:m - 1]][:2]"), ('seven at most', "if i not in outs[:m - 1]][:7]"))
] + [('shown: ' + name, SHOWN, "        shown = %s\n" % new) for name, new in (
    ('all, those gone with 0', "[(name, counts[i] if i + 1 in still_in else 0) for i, name in enumerate(names)]"),
    ('counts of round 1', "[(names[i - 1], sheets[0][i - 1]) for i in still_in]"),
    ('counts of the last round', "[(names[i - 1], sheets[-1][i - 1]) for i in still_in]"),
    ('counts of the round before', "[(names[i - 1], sheets[max(0, m - 2)][i - 1]) for i in still_in]"),
    ('counts of the next round', "[(names[i - 1], sheets[m % len(sheets)][i - 1]) for i in still_in]"),
    ('counts so far', "[(names[i - 1], sum(sheet[i - 1] for sheet in sheets[:m])) for i in still_in]"),
    ('counts by place', "[(names[i - 1], counts[k]) for k, i in enumerate(still_in)]"),
    ('names by place', "[(names[k], counts[i - 1]) for k, i in enumerate(still_in)]"),
    ('counts from the last process on', "[(names[i - 1], counts[-i]) for i in still_in]"),
    ('counts of the process before', "[(names[i - 1], counts[i - 2]) for i in still_in]"),
    ('names of the process before', "[(names[i - 2], counts[i - 1]) for i in still_in]"),
    ('most first', "sorted([(names[i - 1], counts[i - 1]) for i in still_in], key=lambda one: -one[1])"),
    ('fewest first', "sorted([(names[i - 1], counts[i - 1]) for i in still_in], key=lambda one: one[1])"),
    ('by name', "sorted((names[i - 1], counts[i - 1]) for i in still_in)"),
    ('the winner first', "sorted([(names[i - 1], counts[i - 1]) for i in still_in], key=lambda one: one[0] != names[winner - 1])"))
]

ENDS = [('leaves: ' + name, LEAVES, new) for name, new in (
    ('wins', "names[outs[m - 1] - 1], 'wins'"), ('leave', "names[outs[m - 1] - 1], 'leave'"),
    ('the first who left', "names[outs[0] - 1], 'leaves'"), ('the last who left', "names[outs[-1] - 1], 'leaves'"),
    ('the one before', "names[outs[max(0, m - 2)] - 1], 'leaves'"), ('the winner', "names[winner - 1], 'leaves'"),
    ('the next process', "names[outs[m - 1] % len(names)], 'leaves'"),
    ('the highest number', "names[still_in[-1] - 1], 'leaves'"), ('the lowest number', "names[still_in[0] - 1], 'leaves'"),
    ('fewest, the highest number', "names[min(still_in, key=lambda i: (counts[i - 1], -i)) - 1], 'leaves'"),
    ('fewest, the lowest number', "names[min(still_in, key=lambda i: counts[i - 1]) - 1], 'leaves'"))
] + [('wins: ' + name, WINS, new) for name, new in (
    ('leaves', "names[winner - 1], 'leaves'"), ('win', "names[winner - 1], 'win'"),
    ('leaves after round 1', "names[winner - 1], 'wins' if m == 1 else 'leaves'"),
    ('the last who left', "names[(outs or [winner])[-1] - 1], 'wins'"), ('process 1', "names[0], 'wins'"),
    ('the last process', "names[-1], 'wins'"), ('the next process', "names[winner % len(names)], 'wins'"),
    ('the lowest number', "names[still_in[0] - 1], 'wins'"), ('the highest number', "names[still_in[-1] - 1], 'wins'"),
    ('most, the lowest number', "names[max(still_in, key=lambda i: counts[i - 1]) - 1], 'wins'"),
    ('most, the highest number', "names[max(still_in, key=lambda i: (counts[i - 1], i)) - 1], 'wins'"),
    ('fewest', "names[min(still_in, key=lambda i: counts[i - 1]) - 1], 'wins'"),
    ('most of all processes', "names[max(range(len(names)), key=lambda i: counts[i])], 'wins'"))
] + [('text: ' + name, LINES, "return %s.encode('ascii')" % new) for name, new in (
    ('no last line', "''.join(lines[:-1])"), ('the last line alone', "lines[-1]"), ('round 1 alone', "lines[0]"),
    ('no line feed at the end', "''.join(lines)[:-1]"), ('an empty line at the end', "(''.join(lines) + '\\n')"),
    ('an empty line ahead', "('\\n' + ''.join(lines))"), ('the last round first', "''.join(lines[::-1])"),
    ('a zero at the end', "(''.join(lines) + '\\0')"), ('six lines at most', "''.join(lines[:6])"),
    ('1,024 bytes at most', "''.join(lines)[:1024]"), ('256 bytes at most', "''.join(lines)[:256]"))
]

SENTENCES = WORDS + ROUNDS + ENDS

ORDERS = [('15: ' + name, ROOM, new) for name, new in (
    ('not tested', "if False:"), ('for a room that fits', "if room <= len(told):"),
    ('for room to spare', "if room != len(told):"), ('one byte short let in', "if room + 1 < len(told):"),
    ('two bytes short let in', "if room + 2 < len(told):"), ('a byte more asked for', "if room < len(told) + 1:"),
    ('the longest text of all asked for', "if room < 1421:"), ('no room alone', "if room == 0:"),
    ('by names of 20 letters', "if room < len(sentences([x.ljust(20) for x in process_names], standing.sheets, standing.outs, winner)):"),
    ('by counts of four digits', "if room < len(sentences(process_names, [[1000] * standing.n] * standing.m, standing.outs, winner)):"),
    ('by counts of one digit', "if room < len(sentences(process_names, [[0] * standing.n] * standing.m, standing.outs, winner)):"),
    ('by the lowest byte', "if room % 256 < len(told) % 256:"),
    ('the text is cut', "if room < len(told):\n        return ('text', told[:room])\n    if False:"))
] + [
    ('15 before 21', HELD, "    if room < 52:\n        return ('refused', 15, 0)\n" + HELD),
    ('no room before 21', HELD, "    if room == 0:\n        return ('refused', 15, 0)\n" + HELD),
    ('15 before the board', BOARD, "    if room == 0:\n        return ('refused', 15, 0)\n" + BOARD),
    ('no names before the board', BOARD, "    if not names:\n        return ('refused', 21, 0)\n" + BOARD),
    ('21 before the board', BOARD, "    if names_of(bytes(names), bytes(names).count(b'\\n')) is None:\n        return ('refused', 21, 0)\n" + BOARD),
    ('21 before the proofs', BOARD, "    if len(board) > 2 and names_of(bytes(names), board[2]) is None:\n        return ('refused', 21, 0)\n" + BOARD),
    ('as many processes as names', HELD, "    process_names = names_of(bytes(names), bytes(names).count(b'\\n'))\n"),
    ('21 with the bad name', "        return ('refused', 21, 0)\n", "        return ('refused', 21, 1)\n"),
    ('21 with the last record', "        return ('refused', 21, 0)\n", "        return ('refused', 21, standing.m * (standing.C + 1))\n"),
    ('15 with the length', "        return ('refused', 15, 0)\n    return ('text', told)", "        return ('refused', 15, len(told))\n    return ('text', told)"),
    ('15 for bad names', "        return ('refused', 21, 0)\n", "        return ('refused', 15, 0)\n"),
    ('20 for bad names', "        return ('refused', 21, 0)\n", "        return ('refused', 20, 0)\n"),
    ('21 for a short output', "        return ('refused', 15, 0)\n    return ('text', told)", "        return ('refused', 21, 0)\n    return ('text', told)"),
    ('the board without its record', BOARD, BOARD.replace("refused.record)\n", "0)\n")),
    ('the board with the record from 1', BOARD, BOARD.replace("refused.record)\n", "refused.record + 1)\n")),
    ('the board refused with 1 alone', BOARD, BOARD.replace("refused.number, ", "1, ")),
]

BOARDS = [('the board: %s not tested' % name, old, new) for name, old, new in (
    ('1', "        if self.left() < length:\n            self.refuse(1)\n", ""),
    ('2', "if self.take(2) != mark:", "if self.take(2) is None:"),
    ('3', "    if not sizes_hold(n, K):\n        reading", "    if False:\n        reading"),
    ('4', "    if not group_holds(n, K, p, q):\n        reading", "    if False:\n        reading"),
    ('5', "if g1 != make_g1(p, q, g0, counter, label) or not g1_holds(g0, g1):", "if False:"),
    ('6 of a sheet', "    if reading.number(1) != standing.m:\n        reading.refuse(6)\n", "    reading.number(1)\n"),
    ('7 of an exponent', "if x >= group.q:", "if False:"),
    ('8 of a ballot', "        if not proof_holds(group, Context(b'BA', k, 1, place), claim, proof):", "        if False:"),
    ('8 of a shift', "    if not proof_holds(group, Context(b'SH', k, m, 0), claim, proof):", "    if False:"),
    ('9', "if count > C:", "if False:"),
    ('10', "        if product_of(group, [M[0][i] for M in matrices]) !=", "        if False and product_of(group, [M[0][i] for M in matrices]) !="),
    ('11 of the last sheet', "        if out != 0:\n            reading.refuse(11)\n", ""),
    ('12', "    if reading.left() > 0:\n        reading.refuse(12)\n", ""),
    ('17', "    if kind not in (COUNTED, AUDITED):", "    if False:"),
    ('18', "    if kind == AUDITED and not opens(", "    if False and not opens("),
    ('19', "    if not matrices:\n        raise Refused(19, K)\n", "    if not matrices:\n        raise Refused(1, K + 1)\n"))
] + [('counts over all ballots', "standing = first_standing(n, len(matrices))", "standing = first_standing(n, K)"),
     ('the closing sheet lacks', "sheets=(*standing.sheets, tuple(counts))", "sheets=standing.sheets"),
     ('the sheet before for the closing one', "sheets=(*standing.sheets, tuple(counts))", "sheets=(*standing.sheets, (*standing.sheets, tuple(counts))[-2:][0])"),
]
