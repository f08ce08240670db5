"""What the test scripts share: the paths, the stored boards, jobs, finds and texts, and how results are
compared."""
import collections
import os
import re
import sys

sys.dont_write_bytecode = True
HERE = os.path.dirname(os.path.abspath(__file__))
ROOT = os.path.dirname(HERE)
sys.path[:0] = [HERE, os.path.join(HERE, 'reference')]

LIMIT = 65536                                                # of boardcheck's boards

Board = collections.namedtuple('Board', 'name bytes verdict small')
Job = collections.namedtuple('Job', 'name n K p q g0 counter room label rankings kinds draws')
Find = collections.namedtuple('Find', 'name board digests room line')
Text = collections.namedtuple('Text', 'name board names room due')


def path(*parts):
    return os.path.join(ROOT, *parts)


def content(*parts):
    with open(path(*parts), 'rb') as f:
        return f.read()


class Frames:
    """The numbers and pieces of a stored input: see make_cases.py."""

    def __init__(self, data):
        self.data = data
        self.at = 0

    def more(self):
        return self.at < len(self.data)

    def take(self, length):
        self.at += length
        assert self.at <= len(self.data), 'damaged input'
        return self.data[self.at - length:self.at]

    def number(self):
        return int.from_bytes(self.take(4), 'big')

    def piece(self):
        return self.take(self.number())


def as_lines(words):
    """A verdict on one line, as boardcheck's lines."""
    if words.startswith('refused'):
        return words + '\n'
    for word in ('rounds', 'out', 'winner'):
        words = words.replace(' %s ' % word, '\n%s ' % word)
    return words + '\n'


def boards():
    """Each stored board, with the verdicts of both entries as boardcheck prints them."""
    frames = Frames(content('crates', 'cases', 'stdin'))
    stored = []
    for line in content('crates', 'cases', 'stdout').decode().splitlines():
        name, words = line.split(' ', 1)
        assert frames.piece().decode() == name, name
        verdict, small = words.split('; small ')
        stored.append(Board(name, frames.piece(), as_lines(verdict), as_lines(small)))
    assert not frames.more()
    return stored


def words_of(data):
    return [int.from_bytes(data[i:i + 4], 'big') for i in range(0, len(data), 4)]


def jobs():
    """Each stored job."""
    frames = Frames(content('crates', 'job_cases', 'stdin'))
    stored = []
    while frames.more():
        name = frames.piece().decode()
        numbers = [frames.number() for _ in range(7)]
        stored.append(Job(name, *numbers, frames.piece(), frames.piece(), frames.piece(),
                          words_of(frames.piece())))
    return stored


def finds():
    """Each stored find: a board, the digests looked for, the places of the lent list, and the line
    that is due."""
    frames = Frames(content('crates', 'find_cases', 'stdin'))
    stored = []
    for line in content('crates', 'find_cases', 'stdout').decode().splitlines():
        stored.append(Find(frames.piece().decode(), frames.piece(), frames.piece(),
                           frames.number(), line))
        assert line.startswith(stored[-1].name + ' '), line
    assert not frames.more()
    return stored


def texts():
    """Each stored text: a board, names, the length of the lent output, and what is due: a line, and the
    text behind it."""
    frames = Frames(content('crates', 'text_cases', 'stdin'))
    due = content('crates', 'text_cases', 'stdout').decode()
    stored = []
    while frames.more():
        name, board, names, room = (frames.piece().decode(), frames.piece(), frames.piece(),
                                    frames.number())
        line = re.match(r'(\S+) (?:text (\d+), rest|refused \d+ \d+, output) unchanged\n', due)
        assert line[1] == name, name
        end = line.end() + int(line[2] or 0)
        stored.append(Text(name, board, names, room, due[:end]))
        due = due[end:]
    assert not due
    return stored


class Comparison:
    """Counts what is not as due, and prints a line for each thing compared."""

    def __init__(self):
        self.different = 0

    def compare(self, what, got, due):
        bad = [i for i, (a, b) in enumerate(zip(got, due)) if a != b]
        bad += [] if len(got) == len(due) else ['%d instead of %d' % (len(got), len(due))]
        print('%s: %d compared, %d different' % (what, len(due), len(bad)), flush=True)
        for i in bad[:5]:
            print('  number %s%s' % (i, '' if isinstance(i, str) else
                                     ': %r, due %r' % (got[i], due[i])))
        self.different += len(bad)
        assert due, what + ': nothing to compare with'

    def status(self):
        return 1 if self.different else 0
