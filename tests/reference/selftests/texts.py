"""texts.py - counts told in sentences: by hand, and read back in a second way on random boards."""
import random
import re
import string

import boardref as ref
import gen

from .jobs import random_job

CHEESES = b'Skyr\nQuark\nFeta\n'
THREE = (b'Round 1: Skyr counts 1, Quark counts 1, Feta counts 1; Feta leaves.\n'
         b'Round 2: Skyr counts 2, Quark counts 1; Skyr wins.\n')
BAD = (b'', b'\n', b'\n\n\n', b'Skyr\nQuark\n', b'Skyr\nQuark\nFeta', b'SkyrQuark\nFeta\n',
       b'Skyr\nQuark\n\n', b'\nSkyr\nQuark\n', b'Skyr\n\nQuark\nFeta\n', CHEESES + b'\n',
       CHEESES + b'\0', CHEESES + b'B', CHEESES + b'Brie\n', b'Skyr\nFeta\nFeta\n',
       b'Skyr\nQuark\nSkyr\n', b'Skyr\nSkyr\nFeta\n', b'Skyr\nQuark\n' + b'F' * 21 + b'\n',
       b'F' * 21 + b'\nQuark\nFeta\n', b'Skyr\nQuark\nFe ta\n', b'Skyr\r\nQuark\r\nFeta\r\n',
       b'Skyr\nQu@rk\nFeta\n', b'[kyr\nQuark\nFeta\n', b'Skyr\n`uark\nFeta\n', b'Skyr\nQuark\nFet{\n',
       b'Skyr\nQuark\n0\n', b'Skyr\nQuark\nF\xc3\xa9ta\n', b'Skyr\nQuark\nFeta\0\n')


def sample(board):
    """The board of jobs_by_hand, of the rankings (1, 2, 3), (2, 3, 1), (3, 1, 2)."""
    for room in (119, 120, 10 ** 6):
        assert ref.text(board, CHEESES, room) == ('text', THREE)
    for room in (0, 68, 118):
        assert ref.text(board, CHEESES, room) == ('refused', 15, 0)
    assert ref.text(board, b'a\nA\nb\n', 1000) == ('text', (
        b'Round 1: a counts 1, A counts 1, b counts 1; b leaves.\n'
        b'Round 2: a counts 2, A counts 1; a wins.\n'))
    assert ref.text(board, b'wins\nFe\nFeta\n', 1000) == ('text', (
        b'Round 1: wins counts 1, Fe counts 1, Feta counts 1; Feta leaves.\n'
        b'Round 2: wins counts 2, Fe counts 1; wins wins.\n'))
    for letters in (b'A' * 20, b'Z', b'z' * 20):
        assert ref.text(board, b'Skyr\n' + letters + b'\nFeta\n', 1000)[0] == 'text'


def refusals(board):
    """The board's own first, then 21, then 15."""
    for names in BAD:
        for room in (0, 118, 1000):
            assert ref.text(board, names, room) == ('refused', 21, 0), names
    for names in (CHEESES, *BAD):
        for room in (0, 1000):
            assert ref.text(b'', names, room) == ('refused', 1, 0)
            assert ref.text(b'HD' + board[2:], names, room) == ('refused', 2, 0)
            assert ref.text(board[:-1], names, room) == ('refused', 1, 8)
            assert ref.text(board + b'\0', names, room) == ('refused', 12, 9)


def nine_ballots():
    """02's sentence: "Round 2: Skyr counts 5, Quark counts 4; Skyr wins." """
    rankings = [[1, 2, 3]] * 4 + [[2, 1, 3]] * 3 + [[3, 1, 2], [3, 2, 1]]
    rng = random.Random(7)
    label, counter = gen.label_counter(rng, *gen.HOUSE)
    job = gen.Job(3, 9, *gen.HOUSE, counter, label, [x for r in rankings for x in r], bytes(9),
                  gen.job_draws(rng, gen.HOUSE[1], 3, bytes(9), 2), 10 ** 5)
    board = ref.write(*job)[1]
    assert ref.text(board, CHEESES, 1000) == ('text', (
        b'Round 1: Skyr counts 4, Quark counts 3, Feta counts 2; Feta leaves.\n'
        b'Round 2: Skyr counts 5, Quark counts 4; Skyr wins.\n'))
    # the last two ballots audited: more than half in the first round
    board = ref.write(*job._replace(kinds=bytes(7) + b'\1\1'))[1]
    assert ref.text(board, CHEESES, 1000) == ('text', (
        b'Round 1: Skyr counts 4, Quark counts 3, Feta counts 0; Skyr wins.\n'))


def results():
    """Texts of results without a board: who leaves, a count of one gone out, counts of any length."""
    assert ref.sentences(['A', 'B', 'C'], [[0, 10, 9], [7, 100, 1000]], [1], 3) == (
        b'Round 1: A counts 0, B counts 10, C counts 9; A leaves.\n'
        b'Round 2: B counts 100, C counts 1000; C wins.\n')
    assert ref.sentences(['A', 'B'], [[505, 90]], [], 1) == (
        b'Round 1: A counts 505, B counts 90; A wins.\n')


def longest():
    """No text of an accepted board is longer than 1,421 bytes.  A round that does not close has no
    count above half of 1,000, and the last none above 1,000; 8 names of 20 letters in 7 rounds tell
    8 + 7 + .. + 2 = 35 counts.  Where the counts of a round sum to 1,000, it is 1,419."""
    names = [letter * 20 for letter in 'ABCDEFGH']
    outs, half = [8, 7, 6, 5, 4, 3], [500] * 8
    assert len(ref.sentences(names, [half] * 6 + [[1000] * 8], outs, 1)) == 1421 == (
        7 * len('Round 1: ; \n') + 35 * (20 + len(' counts , ')) - 7 * len(', ') + 33 * 3 + 2 * 4
        + 7 * 20 + 6 * len(' leaves.') + len(' wins.'))
    sheets = [[1000 // (8 - m)] * 8 for m in range(7)]
    assert len(ref.sentences(names, sheets, outs, 1)) == 1419
    for n in range(2, 9):
        for rounds in range(1, n):
            sheets = [half] * (rounds - 1) + [[1000] * 8]
            assert len(ref.sentences(names[:n], sheets, list(range(n, 1, -1))[:rounds - 1], 1)) <= 1421


def by_hand(board):
    sample(board)
    refusals(board)
    nine_ballots()
    results()
    longest()


def read_back(text):
    """The names, the counts of each round by name, who leaves in each, and who wins."""
    assert text.endswith(b'\n')
    told, ends = [], []
    for m, line in enumerate(text.decode().split('\n')[:-1], 1):
        number, counts, name, does = re.fullmatch(
            r'Round (\d): (.*); ([A-Za-z]{1,20}) (leaves|wins)\.', line).groups()
        pairs = [re.fullmatch('([A-Za-z]+) counts (0|[1-9][0-9]*)', one).groups()
                 for one in counts.split(', ')]
        assert int(number) == m and (does == 'wins') == (m == text.count(b'\n'))
        told.append([(process, int(count)) for process, count in pairs])
        ends.append(name)
    return [process for process, _ in told[0]], told, ends[:-1], ends[-1]


def as_counted(text, n, lent, plain):
    """Whether a text, read back, is that of a plain count."""
    names, told, outs, winner = read_back(text)
    process = {i: name for i, name in enumerate(lent.decode().split('\n'), 1)}
    due = [[(process[i], counts[i - 1]) for i in range(1, n + 1) if i not in plain[2][:m]]
           for m, counts in enumerate(plain[1])]
    return (names, told, outs, winner) == ([process[i] for i in range(1, n + 1)], due,
                                           [process[a] for a in plain[2]], process[plain[3]])


def random_names(rng, n):
    """Names as they are lent, most often good ones."""
    names = [''.join(rng.choices(string.ascii_letters[:rng.choice((2, 52))], k=rng.choice(
        (1, 2, 5, 19, 20) if rng.random() < 0.95 else (0, 21)))) for _ in range(n)]
    lent = ''.join(name + '\n' for name in names).encode()
    way, at = rng.randrange(12), rng.randrange(len(lent))
    if way == 0:
        lent = lent[:at] + bytes([rng.randrange(256)]) + lent[at + rng.randrange(2):]
    if way == 1:
        lent = rng.choice((lent[:at], lent[:at] + lent[at + 1:], lent + rng.choice((b'\n', b'a\n'))))
    return lent


def good_names(lent, n):
    """Another way to test names."""
    return (re.fullmatch(rb'([A-Za-z]{1,20}\n){%d}' % n, lent) is not None
            and len(set(lent.split(b'\n'))) == n + 1)


def random_texts(count, seed):
    """How often each answer came, once texts read back as the plain count, and refusals are due."""
    rng = random.Random(seed)
    seen = {}
    for i in range(count):
        job, plain = random_job(rng, i)
        board, lent = gen.board_of(job), random_names(rng, job.n)
        kind, *answer = ref.text(board, lent, 2000)
        assert (kind == 'text') == good_names(lent, job.n), lent
        if kind == 'text':
            length = len(answer[0])
            assert as_counted(answer[0], job.n, lent, plain), (answer, lent, plain)
            assert ref.text(board, lent, length) == ('text', *answer)
            assert ref.text(board, lent, rng.randrange(length)) == ('refused', 15, 0)
        else:
            assert answer == [21, 0] == list(ref.text(board, lent, 0)[1:])
        cut = board[:rng.randrange(len(board))]
        assert ref.text(cut, lent, 0) == ref.check(cut)
        seen[kind] = seen.get(kind, 0) + 1
    assert min(seen['text'], seen['refused']) > count // 10, seen
    return seen
