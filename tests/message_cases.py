"""Boards for the test program `cases` whose proofs have the challenge of another message, or stand
elsewhere than they were made for, filed under what they cover (covered.py).  The reference's
faults/messages.py and faults/moved.py make them.  A long board ends with the record whose proof is
refused."""
import collections
import re

from covered import end_of, place
from faults.messages import OTHERS

# a board of the pool: n, the ballot and how many there are, the kind of the proof, its place in its
# record or its round, the message that was hashed
Other = collections.namedtuple('Other', 'n ballot K kind at message item')
NOTE = re.compile(r'n=(\d) ballot (\d) of (\d), (\w+) (\d+): (.*)')

# messages that are tried at more places than the others
IN_EVERY_PROOF = ('old message', 'place from 1', 'columns before rows')
IN_EVERY_BALLOT = ('old message', 'number left out', 'number from 0', 'number of the next')
IN_EVERY_ROUND = ('old message', 'number from 0', 'round from 0', 'round 1')


def others(pool):
    for item in pool.items:
        if item.name in ('message_BA', 'message_SH'):
            n, ballot, K, kind, at, message = NOTE.fullmatch(item.note).groups()
            yield Other(int(n), int(ballot), int(K), {'round': 'shift'}.get(kind, kind), int(at),
                        message, item)


def spot(other):
    """First, middle or last of the proofs of its kind, of a board's shifts."""
    n = other.n
    if other.kind == 'shift':
        return place((other.at - 2) * other.K + other.ballot - 1, (n - 2) * other.K)
    first, count = {'entry': (0, n * n), 'row': (n * n, n), 'col': (n * n + n, n)}[other.kind]
    return place((other.ballot - 1) * count + other.at - first, other.K * count)


def add(cases, item, *covers):
    _, number, record = item.expect
    whole = number == 2 or len(item.board) < 600
    board = item.board if whole else item.board[:end_of(item.board, record)]
    cases.add('%s.%s' % (item.name, item.note), board, item.expect, *covers)


def turn(items, i):
    """One of them, by turns; none of a message that is the due one in all of them."""
    return items[i % len(items):][:1] if items else []


def chosen(made):
    """Every message in an entry, in a row or column, and in a shift; some at more places."""
    for i, message in enumerate(OTHERS):
        of = [other for other in made if other.message == message]
        assert of, message
        one = [other for other in of if (other.n, other.K) == (2, 1)]
        yield from turn([other for other in one if other.kind == 'entry'], i)
        yield from turn([other for other in one if other.kind in ('row', 'col')], i)
        yield from turn([other for other in of if other.kind == 'shift'
                         and (other.n, other.K) == (3, 2)], i)
        if message in IN_EVERY_PROOF:
            yield from (other for other in of if (other.n, other.K) == (3, 1))
        if message in IN_EVERY_BALLOT:
            for ballot in (1, 2, 3):
                yield from turn([other for other in of if other.kind != 'shift'
                                 and (other.K, other.ballot) == (3, ballot)], i + ballot)
            yield from (other for other in of if other.kind == 'shift' and other.K == 3)
        if message in IN_EVERY_ROUND:
            yield from turn([other for other in of if other.kind == 'shift' and other.n == 4], i)


def boards(cases, pool, base):
    for other in chosen(list(others(pool))):
        where = spot(other)
        ends = (('entry', 'first'), ('col', 'last'), ('shift', 'first'), ('shift', 'last'))
        add(cases, other.item, 'message.%s %s' % (other.kind, where),
            '8.%s %s' % (other.item.name[-2:], where if (other.kind, where) in ends else 'middle'))
    for item in pool.items:
        if item.name in ('moved_BA', 'moved_SH'):
            add(cases, item, 'moved', '8.%s middle' % item.name[-2:])
        elif item.name == 'model':
            add(cases, item, 'model', *['2 first'] * (item.expect[1] == 2))
    head = b'HD' + base.board[2:54]
    cases.add('hd.header-alone', head, ('refused', 2, 0), 'model', '2 first')
    cases.add('hd.cut.53-bytes', head[:53], ('refused', 1, 0), 'model', 'two')
    cases.add('hd.n=9', head[:2] + b'\x09' + head[3:], ('refused', 2, 0), 'model', 'two')
