"""Boards whose counts are told in sentences, and the list of such cases: see text_cases.py."""
import random

from covered import Cases
from mutate import Base

ROOM = 2048                                                  # of the test program's output
CHEESES = ('Skyr', 'Quark', 'Feta', 'Brie', 'Edam', 'Gouda', 'Tilsit', 'Halloumi')


def lent(names):
    """Names as they are lent."""
    return ''.join(name + '\n' for name in names).encode('ascii')


def told(held, names):
    """The text that is due of a board with its n, counts of each round, outs and winner: a way of its
    own, who goes out taken off the list round by round."""
    left, text = dict(enumerate(names, 1)), b''
    for m, counts in enumerate(held.counts):
        words = [left[i] + ' counts ' + str(counts[i - 1]) for i in sorted(left)]
        end = left[held.winner] + ' wins.'
        if m < len(held.outs):
            end = left.pop(held.outs[m]) + ' leaves.'
        text += b'Round %d: ' % (m + 1) + ', '.join(words).encode() + b'; ' + end.encode() + b'\n'
    return text


class Texts(Cases):
    def told(self, name, held, names, *covers, spare=0):
        """A board with good names, in a room that fits or has some bytes to spare."""
        text = told(held, names)
        self.add(name, (held.board, lent(names), len(text) + spare), ('text', text),
                 'room' if spare else 'exact', *covers)

    def unnamed(self, name, held, names, *covers, both=False):
        """21, with room for any text and with none, by turns or both.  names: as they are lent."""
        turn = len(self.items) % 2
        if both or turn:
            self.add(name, (held.board, names, ROOM), ('refused', 21, 0), *covers)
        if both or not turn:
            self.add(name + '.room=0', (held.board, names, 0), ('refused', 21, 0), '21.15', *covers)


def one_ballot(n):
    """The smallest board of n processes, soon checked: process n has the one ballot, and wins."""
    return Base(random.Random(n), 'one%d' % n, n, [list(range(n, 0, -1))], (23, 11, 2))
