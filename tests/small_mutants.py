"""The mutants of the second entry to the checker, with the screen's limits: see mutants.py.  Both
entries are asked."""
from textwrap import indent

from audit_mutants import spoilt

LIMITS = 'SMALL = Limits(5, 200)'
WITHIN = 'return n <= limits.n and K <= limits.K'
LENGTH = "    reading.open(b'HF', HF_LENGTH)\n"
TEST_3 = '    if not sizes_hold(n, K):\n        reading.refuse(3)\n'
TEST_23 = '    if not within(limits, n, K):\n        reading.refuse(23)\n'
EARLY_23 = TEST_23.replace('not', 'limits == SMALL and not')
TEST_4 = '    if not group_holds(n, K, p, q):\n        reading.refuse(4)\n'
TEST_5 = ('    if g1 != make_g1(p, q, g0, counter, label) or not g1_holds(g0, g1):\n'
          '        reading.refuse(5)\n')
TEST_G0 = '    if not g0_holds(p, q, g0):\n        reading.refuse(5)\n'
# n and K off the board, before any test
SHOWN = "    n, K = (int.from_bytes(reading.board[at:end], 'big') for at, end in ((2, 3), (3, 5)))\n"
MARKED = "    if reading.left() < HF_LENGTH:\n        reading.refuse(1)\n"
HEADER = '    n, K, group = read_header(reading, limits)\n'
BALLOT = '        kind, matrix = read_ballot(reading, group, n, k)\n'
ENDED = '    if reading.left() > 0:\n        reading.refuse(12)\n'
LATE_23 = '    if not (n <= limits.n and K <= limits.K):\n        raise Refused(23, 0)\n'


def header(name, *changes):
    return spoilt(name, 'check', "    # \"A header of this model", '\n\ndef open_ballot', *changes)


def board(name, *changes):
    """23 is not tested in the header, but later on."""
    return spoilt(name, 'check', TEST_23, '    return standing, winner\n', (TEST_23, ''), *changes)


def small(name, body):
    """Another second entry: `first` is the first one's answer, `second` its own."""
    return ('second entry: ' + name, '    return check(board, SMALL)\n',
            '    first, second = check(board), check(board, SMALL)\n    return %s\n' % body)


OTHER_LIMITS = [('limits of %d and %d' % pair, LIMITS, 'SMALL = Limits(%d, %d)' % pair)
                for pair in ((4, 200), (6, 200), (7, 200), (8, 200), (5, 1), (5, 199), (5, 201), (5, 255),
                             (5, 256), (5, 456), (5, 1000), (8, 1000), (200, 5), (2, 200))]

# of the second entry alone
TESTS = [('limits: ' + name, WITHIN, 'return limits == BOX or ' + new) for name, new in (
    ('both must be past', 'n <= limits.n or K <= limits.K'), ('n alone', 'n <= limits.n'),
    ('K alone', 'K <= limits.K'), ('n below', 'n < limits.n and K <= limits.K'),
    ('K below', 'n <= limits.n and K < limits.K'), ('none', 'True'),
    ('the other way', 'n >= limits.n and K >= limits.K'), ('just these', '(n, K) == limits'),
    ('low byte of K', 'n <= limits.n and K % 256 <= limits.K'),
    ('high byte of K', 'n <= limits.n and K // 256 <= limits.K // 256'),
    ('K low byte first', 'n <= limits.n and K // 256 + K % 256 * 256 <= limits.K'),
    ('K of one byte with a sign', 'n <= limits.n and (K - 256 if K in range(128, 256) else K) <= limits.K'),
    ('low two bits of n', '(n & 3) <= limits.n and K <= limits.K'),
    ('low three bits of n', '(n & 7) <= limits.n and K <= limits.K'),
    ('product', 'n * K <= limits.n * limits.K'), ('sum', 'n + K <= limits.n + limits.K'))]

ORDERS = [
    header('23 before 1', (LENGTH, SHOWN + TEST_23.replace('not', 'sizes_hold(n, K) and not') + LENGTH)),
    header('23 before 2', (LENGTH, MARKED + SHOWN + TEST_23.replace('not', 'sizes_hold(n, K) and not')
                           + LENGTH)),
    header('23 before 3', (TEST_3, EARLY_23 + TEST_3)),
    header('23 before 3 by n', (TEST_3, EARLY_23.replace('K)', '1)') + TEST_3)),
    header('23 before 3 by K', (TEST_3, EARLY_23.replace('n,', '2,') + TEST_3)),
    header('23 before n out of range', (TEST_3, EARLY_23.replace('limits ==', 'K in range(1, 1001) and '
                                                                 'limits ==') + TEST_3)),
    header('23 before K out of range', (TEST_3, EARLY_23.replace('limits ==', 'n in range(2, 9) and '
                                                                 'limits ==') + TEST_3)),
    header('23 after 4', (TEST_23, ''), (TEST_4, TEST_4 + TEST_23)),
    header('23 after g0', (TEST_23, ''), (TEST_G0, TEST_G0 + TEST_23)),
    header('23 after 5', (TEST_23, ''), (TEST_5, TEST_5 + TEST_23)),
    board('23 after the first ballot', (BALLOT, BALLOT + indent(LATE_23, '    '))),
    board('23 before a ballot that is there', (HEADER, HEADER + LATE_23.replace(
        'if not', 'if reading.left() > 0 and not'))),
    board('23 after the last ballot', ('    # "with 19', LATE_23 + '    # "with 19')),
    board('23 after the closing sheet', ('    # "after the closing', LATE_23 + '    # "after the closing')),
    board('23 after 12', (ENDED, ENDED + LATE_23)),
    board('K over counted ballots', ('    # "with 19', LATE_23.replace('K <=', 'len(matrices) <=')
                                     + '    # "with 19')),
]

NUMBERS = [header('%d for 23' % number, ('reading.refuse(23)', 'reading.refuse(%d)' % number))
           for number in (1, 2, 3, 4, 20, 21, 22, 24)] + [
    header('23 names record 1', ('reading.refuse(23)', 'raise Refused(23, 1)')),
    header('23 names n', ('reading.refuse(23)', 'raise Refused(23, n)')),
    header('23 names K', ('reading.refuse(23)', 'raise Refused(23, K)')),
    header('3 and 23 exchanged', (TEST_3, TEST_3.replace('3)\n', '23)\n')),
           (TEST_23, TEST_23.replace('23)', '3)'))),
]

ENTRIES = [
    ('first entry held to the smaller limits', 'def check(board, limits=BOX):',
     'def check(board, limits=SMALL):'),
    ('second entry held to the limits of the box', '    return check(board, SMALL)\n',
     '    return check(board, BOX)\n'),
    ('entries exchanged', '    return check(board, SMALL)\n\n',
     '    return check(board, BOX)\n\n\ndef check(board, limits=SMALL, first=check):\n'
     '    return first(board, limits)\n\n'),
    header('smaller limits by 3', (TEST_3, '    if not (sizes_hold(n, K) and within(limits, n, K)):\n'
                                   '        reading.refuse(3)\n')),
    *[header('second entry: %s let in' % size, ('not sizes_hold(n, K)', 'not (sizes_hold(n, K) or '
                                                'limits == SMALL and %s)' % size.replace('=', '==')))
      for size in ('n = 1', 'n = 9', 'K = 0', 'K = 1001')],
    small('23 for every refusal', "first if first[0] == 'accepted' else ('refused', 23, 0)"),
    small('23 for accepted boards alone', "second if first[0] == 'accepted' else first"),
    small('23 for refused boards alone', "first if first[0] == 'accepted' else second"),
    small('no winner', "second[:3] + (0,) if second[0] == 'accepted' else second"),
    small('no order', "(*second[:2], [], second[3]) if second[0] == 'accepted' else second"),
    small('the header alone', "second if second[1:] == (23, 0) else check(board[:54])"),
    small('bytes behind the closing sheet let through',
          "check(board[:-1], SMALL) if second[1] == 12 else second"),
    small('no board beyond 40,000 bytes', "check(board[:40000], SMALL)"),
]

CHECKERS = OTHER_LIMITS + TESTS + ORDERS + NUMBERS + ENTRIES

# the box keeps its limits for all else
FINDERS = [('walk held to the smaller limits', 'def read_header(reading, limits=BOX):',
            'def read_header(reading, limits=SMALL):')]

TELLERS = [('text held to the smaller limits', 'def read_board(board, limits=BOX):',
            'def read_board(board, limits=SMALL):')]
