"""What the hosts print, and with which status they end: for library.py."""
import errno
import hashlib
import os
import random
import re
import subprocess

import stored
from stored import LIMIT, path

import boardref as ref
import gen

SOUND = path('crates', 'boardcheck', 'stdin')                # the sample board
NAMES = b'Skyr\nQuark\nFeta\n'                               # of its processes
UNREAD = 'boardhost: cannot read %s\n'
USAGE = 'usage: boardhost [--small | --digests FILE | --names FILE] [BOARD...]\n'


def run_host(program, *names, **more):
    done = subprocess.run([program, *names], capture_output=True, **more)
    return done.stdout.decode(), done.stderr.decode(errors='replace'), done.returncode


def put(folder, name, data):
    """The path of a file with these bytes."""
    name = os.path.join(folder, name)
    with open(name, 'wb') as f:
        f.write(data)
    return name


def due_of(answer):
    """What is due of a host that prints an answer."""
    return answer, '', 1 if answer.startswith('refused') else 0


# ------------------------------------------------------------------ verdicts

def large_boards():
    """Sound boards beyond boardcheck's limit, and damaged ones, with the reference's verdicts."""
    rng = random.Random(65537)
    boards = []
    p, q, g0 = gen.HOUSE
    for n, K, audited in ((8, 12, ()), (3, 200, ()), (2, 500, ()), (4, 60, range(1, 61, 3))):
        label, counter = gen.label_counter(rng, p, q, g0)
        rankings = [c for ranking in gen.rankings_of(rng, n, K, 'cycle') for c in ranking]
        kinds = gen.audited_at(K, *audited)
        draws = gen.job_draws(rng, q, n, kinds, n - 1)
        board = ref.write(n, K, p, q, g0, counter, label, rankings, kinds, draws, 1 << 25)[1]
        assert len(board) > LIMIT, len(board)
        boards += [board, board[:-1], board + b'\0', board[:LIMIT + 1]]
        for _ in range(12):
            at = rng.randrange(54, len(board))
            boards.append(board[:at] + bytes([board[at] ^ 1 << rng.randrange(8)]) + board[at + 1:])
    return [stored.Board('', board, ref.answer_text(ref.check(board)),
                         ref.answer_text(ref.check_small(board))) for board in boards]


def verdicts(program, option, boards, folder):
    """What a host does with each board, lent from a file of its own."""
    return [run_host(program, *option, put(folder, 'board', board.bytes)) for board in boards]


def unreadable(program, option):
    """What a host does with files of which some cannot be read, and with no file at all."""
    folder, missing = path('tests'), path('tests', 'no_such_board')
    with open(SOUND, 'rb') as board, open('/dev/null') as nothing:
        return [run_host(program, *option, *names, stdin=stdin) for names, stdin in (
            ((missing,), None), ((missing, SOUND, folder, SOUND), None), ((SOUND, '/dev/null'), None),
            ((), board), ((), nothing))] + [
                redirected(program, '<&-', *option), redirected(program, '0>/dev/null', *option),
                run_host(program, *option, b'no such board \xff', SOUND)[::2]]


def unreadable_due():
    sound = stored.content('crates', 'boardcheck', 'stdout').decode()
    folder, missing = path('tests'), path('tests', 'no_such_board')
    return [('', UNREAD % missing, 2), (2 * sound, UNREAD % missing + UNREAD % folder, 2),
            (sound + 'refused 1 0\n', '', 1), (sound, '', 0), ('refused 1 0\n', '', 1),
            *[('', UNREAD % 'standard input', 2)] * 2, (sound, 2)]


# ------------------------------------------------------------------ receipts and texts

def hosts_finds():
    """(find, what is due of a host): without those that 15 refuses, since a host lends a list that
    fits."""
    finds = []
    for find in stored.finds():
        answer = re.fullmatch(r'\S+ (.*), (rest|list) unchanged', find.line).group(1)
        if not answer.startswith('refused 15'):
            finds.append((find, due_of(answer + '\n')))
    return finds


def hosts_texts():
    """(text, what is due of a host): likewise without those that 15 refuses."""
    texts = []
    for text in stored.texts():
        refusal = re.fullmatch(r'\S+ (refused \d+ \d+), output unchanged\n', text.due)
        answer = refusal[1] + '\n' if refusal else text.due.split('\n', 1)[1]
        if not answer.startswith('refused 15'):
            texts.append((text, due_of(answer)))
    return texts


def asked(program, finds, folder):
    """What a host does with the digests and the board of each find."""
    return [run_host(program, '--digests', put(folder, 'digests', find.digests),
                     put(folder, 'board', find.board)) for find in finds]


def told(program, texts, folder):
    """What a host does with the names and the board of each text."""
    return [run_host(program, '--names', put(folder, 'names', text.names),
                     put(folder, 'board', text.board)) for text in texts]


def partly_read(program, option, lent):
    """What a host does with a file that is lent and boards of which some cannot be read, with a board
    on standard input, with nothing lent, and with no file."""
    folder, missing = path('tests'), path('tests', 'no_such_file')
    with open(SOUND, 'rb') as board:
        return [run_host(program, option, *names, stdin=board) for names in (
            (missing, SOUND), (folder, SOUND), (lent, missing, SOUND, folder, SOUND),
            (lent, '/dev/null', SOUND), (lent,), ('/dev/null', SOUND), ())]


def partly_read_due(answer, nothing):
    """answer: to the sample board; nothing: the same where nothing is lent."""
    missing, folder = UNREAD % path('tests', 'no_such_file'), UNREAD % path('tests')
    return [('', missing, 2), ('', folder, 2), (2 * answer, missing + folder, 2),
            ('refused 1 0\n' + answer, '', 1), (answer, '', 0), due_of(nothing), ('', USAGE, 2)]


def sample_digests():
    """One that no ballot of the sample board has, and that of its first ballot."""
    return bytes(32) + hashlib.sha256(stored.content('crates', 'boardcheck', 'stdin')[54:515]).digest()


def sample_text():
    return ref.text(stored.content('crates', 'boardcheck', 'stdin'), NAMES, 1 << 20)[1].decode()


def readme_example():
    """README's names for the sample board, and the text that it shows for them."""
    found = re.search(r"^    printf '([^']*)' > names\n"
                      r'    \./boardhost --names names crates/boardcheck/stdin\n\n'
                      r'(?:\S.*\n)+\n((?:    .*\n)+)', stored.content('README.md').decode(), re.M)
    assert found, 'README has no example of --names'
    return found[1].replace('\\n', '\n').encode(), re.sub('^    ', '', found[2], flags=re.M)


# ------------------------------------------------------------------ output that takes nothing

UNTAKEN = (('>/dev/full', os.strerror(errno.ENOSPC)),        # as sh writes it, and the reason
           ('>&-', 'standard output is closed'),
           ('1</dev/null', os.strerror(errno.EBADF)))


def redirected(program, how, *names):
    """What a host does with its output redirected, without the number that Rust puts behind the
    system's words."""
    out, error, status = run_host('sh', '-c', 'exec "$0" "$@" ' + how, program, *names)
    return out, re.sub(r' \(os error \d+\)\n', '\n', error), status


def compare_untaken(comparison, name, program, folder):
    """Both verdicts, receipts and text of an accepted board, of a refused one and of both; and standard
    error that takes nothing either."""
    lent = ((), ('--small',), ('--digests', put(folder, 'digests', sample_digests())),
            ('--names', put(folder, 'names', NAMES)))
    asked = [(*question, *boards) for question in lent
             for boards in ((SOUND,), ('/dev/null',), (SOUND, '/dev/null'))]
    comparison.compare(name + ', output that takes nothing',
                       [redirected(program, how, *words) for how, _ in UNTAKEN for words in asked]
                       + [redirected(program, '>/dev/full 2>&1', *words) for words in asked],
                       [('', 'boardhost: cannot print: %s\n' % reason, 2)
                        for _, reason in UNTAKEN for _ in asked] + [('', '', 2)] * len(asked))


# ------------------------------------------------------------------ all

def compare_lent(comparison, name, program, folder):
    """Stored finds and texts, files that cannot be read, README's example."""
    for what, asking, cases in (('finds', asked, hosts_finds()), ('texts', told, hosts_texts())):
        comparison.compare('%s, stored %s' % (name, what),
                           asking(program, [case for case, _ in cases], folder),
                           [due for _, due in cases])
    digests = put(folder, 'digests', sample_digests())
    comparison.compare(name + ', digests and boards that cannot be read',
                       partly_read(program, '--digests', digests),
                       partly_read_due('found 0 1\n', 'found\n'))
    names = put(folder, 'names', NAMES)
    comparison.compare(name + ', names and boards that cannot be read',
                       partly_read(program, '--names', names),
                       partly_read_due(sample_text(), 'refused 21 0\n'))
    names, text = readme_example()
    comparison.compare(name + ", README's example",
                       [run_host(program, '--names', put(folder, 'names', names), SOUND)],
                       [due_of(text)])


def compare_verdicts(comparison, name, program, boards, folder):
    """Both entries to the checker; boards: what they are, and the boards."""
    for option, field in ((), 'verdict'), (('--small',), 'small'):
        words = ' '.join((name, *option))
        for what, some in boards:
            comparison.compare('%s, %s' % (words, what), verdicts(program, option, some, folder),
                               [due_of(getattr(board, field)) for board in some])
        comparison.compare(words + ', files that cannot be read', unreadable(program, option),
                           unreadable_due())


def compare_hosts(comparison, hosts, folder):
    boards = (('stored boards', stored.boards()), ('boards beyond 65,536 bytes', large_boards()))
    for name, program in hosts:
        compare_verdicts(comparison, name, program, boards, folder)
        compare_lent(comparison, name, program, folder)
        compare_untaken(comparison, name, program, folder)
