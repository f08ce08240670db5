"""Boards for the test program `cases` on both sides of the screen's limits, 5 processes and 200 ballots,
filed under what they cover (covered.py).  Many are a header alone, or a board of one ballot whose
header says that there are more."""
import boardref as ref
import gen
from boardref import be
from covered import Both
from mutate import Base

PROCESSES = (2, 4, 5, 6, 7, 8)
BALLOTS = (1, 199, 200, 201, 255, 256, 257, 456, 1000)       # 456: its low byte is 200
CORNERS = ((5, 200), (5, 201), (6, 200), (6, 201), (8, 1000))
THOUSAND = (2039, 1019, 4)                                   # room for K = 1,000
NOTHING = ('refused', 1, 1)                                  # of a header with no ballot behind it


def side(n, K):
    """The row for a header, by the sides of the limits on which n and K are."""
    return {(False, False): 'small.within', (True, False): 'small.n', (False, True): 'small.K',
            (True, True): 'small.both'}[n > 5, K > 200]


def add(cases, name, n, K, board, answer, *covers):
    """A board of which nothing is wrong up to 3; answer: that of the first entry."""
    small = answer if side(n, K) == 'small.within' else ('refused', 23, 0)
    cases.add('limits.%s.n=%d.k=%d' % (name, n, K), board, Both(answer, small), side(n, K), *covers)


def add_early(cases, name, n, K, board, number, *covers):
    """A board that 1, 2 or 3 refuses: both entries alike."""
    answer = ('refused', number, 0)
    cases.add('limits.%s.n=%d.k=%d' % (name, n, K), board, Both(answer, answer),
              'small.%d' % number, *covers)


def head(base, n, K, **changed):
    """The header of a board with other numbers in some of its fields."""
    data = base.board[:ref.HF_LENGTH]
    for kind, value in dict(changed, n=n, K=K).items():
        f = next(f for f in base.fields if f.kind == kind)
        data = data[:f.start] + be(value, f.width) + data[f.start + f.width:]
    return data


# ------------------------------------------------------------------ headers alone

def headers(cases, base):
    for n in PROCESSES:
        for K in BALLOTS:
            add(cases, 'header', n, K, head(base, n, K), NOTHING)


def early(cases, base):
    """A fault that is named before 23."""
    for n, K in CORNERS:
        for length in (53, 5):                               # 5: behind K
            add_early(cases, 'cut.%d-bytes' % length, n, K, head(base, n, K)[:length], 1)
        for mark in ('HD', 'BA'):
            add_early(cases, 'mark=%s' % mark, n, K, mark.encode() + head(base, n, K)[2:], 2)
    for n, K in ((0, 1), (1, 200), (9, 200), (255, 1), (5, 0), (5, 1001), (5, 65535),
                 (0, 201), (1, 201), (1, 1000), (9, 201), (255, 1000), (6, 0), (8, 0), (6, 1001),
                 (8, 65535), (9, 1001)):
        add_early(cases, 'range', n, K, head(base, n, K), 3)


def late(cases, base):
    """A fault of the header that is named after 23."""
    for n, K in CORNERS:
        for number, changed in ((4, {'p': base.p + 1}), (4, {'q': base.q - 1}), (5, {'g0': 1}),
                                (5, {'g1': base.g0}), (4, {'p': 0, 'q': 0, 'g0': 0, 'g1': 0})):
            name = '.'.join('%s=%d' % item for item in changed.items())
            add(cases, name, n, K, head(base, n, K, **changed), ('refused', number, 0),
                'small.%d' % number)


def least_groups(cases, rng):
    """q = n, q = K, and q just above K."""
    for n, K, q in ((5, 1, 5), (7, 1, 7), (2, 199, 199), (2, 211, 211), (2, 200, 211), (2, 201, 211),
                    (6, 6, 7), (5, 6, 7)):
        p = next(p for p in range(2 * q + 1, 100 * q, 2 * q) if ref.is_prime(p))
        g0 = gen.elements_g0(rng, p, q)
        label, counter = gen.label_counter(rng, p, q, g0)
        board = ref.header_bytes(n, K, p, q, g0, counter, ref.make_g1(p, q, g0, counter, label), label)
        fits = q > n and q > K
        add(cases, 'q=%d' % q, n, K, board, NOTHING if fits else ('refused', 4, 0),
            *['small.4'] * (not fits))


def several(cases, base):
    """An earlier fault and a later one: the earlier is named."""
    faults = {'p': base.p + 1, 'g1': base.g0}
    for n, K in CORNERS:
        board = head(base, n, K, **faults)
        add_early(cases, 'cut.and-p', n, K, board[:53], 1, 'small.several')
        add_early(cases, 'mark.and-p', n, K, b'HD' + board[2:], 2, 'small.several')
        add_early(cases, 'mark.and-g1', n, K, b'HD' + head(base, n, K, g1=1)[2:], 2, 'small.several')
    for n, K in ((9, 201), (6, 0), (6, 1001), (1, 201), (5, 0), (9, 200)):
        add_early(cases, 'range.and-p', n, K, head(base, n, K, **faults), 3, 'small.several')
        add_early(cases, 'range.and-g1', n, K, head(base, n, K, g1=1), 3, 'small.several')


# ------------------------------------------------------------------ a first ballot

def ballots(cases, base, faults, sizes):
    """The first ballot of a board, as it is and with a fault; its header says that there are K."""
    field = {f.kind: f for f in reversed(base.fields) if f.record == 1}
    response = base.value(field['r'])
    ends = base.board[:base.starts[2]]
    made = {'sound': (ends, 1, 2), 'cut': (ends[:-1], 1, 1)}
    for kind, value, number in (('mark', 0x5348, 2), ('number', 2, 6), ('kind', 2, 17), ('b', 0, 7),
                                ('r', (response + 1) % base.q, 8)):
        made[kind] = (base.put(field[kind], value)[:len(ends)], number, 1)
    for name in faults:
        board, number, record = made[name]
        for K in sizes:
            board = head(base, base.n, K) + board[ref.HF_LENGTH:]
            add(cases, 'ballot.' + name, base.n, K, board, ('refused', number, record),
                'small.ballot')
            if number == 8:
                add_early(cases, 'mark.and-ballot.' + name, base.n, K, b'HD' + board[2:], 2,
                          'small.several')


# ------------------------------------------------------------------ whole boards

def whole(cases, rng, bases):
    for base in bases:
        add(cases, 'sound', base.n, base.K, base.board, base.accepted, 'small.sound', 'sound')
        add(cases, 'byte-more', base.n, base.K, base.board + b'\0',
            ('refused', 12, len(base.starts) - 1), 'small.sound', '12 first')
    for K, audited in ((200, ()), (201, (7,))):              # of 201 ballots 200 are counted
        base = Base(rng, 'limits', 2, [[1, 2] if k % 2 else [2, 1] for k in range(K)], gen.HOUSE,
                    audited)
        add(cases, 'sound', 2, K, base.board, base.accepted, 'small.sound', 'sound', 'ties')


def boards(cases, rng):
    two, five, six = (Base(rng, 'limits', n, [list(range(n, 0, -1))], group)
                      for n, group in ((2, THOUSAND), (5, gen.HOUSE), (6, gen.HOUSE)))
    headers(cases, two)
    early(cases, two)
    late(cases, two)
    least_groups(cases, rng)
    several(cases, two)
    every = ('sound', 'cut', 'mark', 'number', 'kind', 'b', 'r')
    ballots(cases, two, every, (200, 201, 256))
    ballots(cases, five, ('sound', 'r'), (200, 201))
    ballots(cases, six, ('sound', 'cut', 'number', 'r'), (200,))
    whole(cases, rng, (five, six))
