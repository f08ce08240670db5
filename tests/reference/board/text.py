"""text.py - the count on a board in sentences.  Words in quotation marks are 02's."""
from .check import read_board
from .reading import Refused

LETTERS = b'ABCDEFGHIJKLMNOPQRSTUVWXYZabcdefghijklmnopqrstuvwxyz'


def names_of(lent, n):
    """"Names are 1 to 20 letters A to Z and a to z, one per process, all different, each lent with a
    line feed after it."  None where they are not."""
    *names, rest = lent.split(b'\n')
    if rest or len(names) != n:
        return None
    for name in names:
        if not 1 <= len(name) <= 20:
            return None
        if any(letter not in LETTERS for letter in name):
            return None
    for i in range(n):
        for j in range(i):
            if names[i] == names[j]:
                return None
    return [name.decode('ascii') for name in names]


def line(m, shown, name, does):
    """"as "Round 2: Skyr counts 5, Quark counts 4; Skyr wins." or "Quark leaves.", each line ended by
    one line feed (byte 10).  Counts are decimal without leading zeros."  shown: (name, count) of each
    process still in."""
    counts = ', '.join('%s counts %d' % (process, count) for process, count in shown)
    return 'Round %d: %s; %s %s.\n' % (m, counts, name, does)


def sentences(names, sheets, outs, winner):
    """"per round, each process still in with its count, in number order, then who leaves or wins".
    sheets: the counts of each round, of all processes; those gone out before it are not told."""
    lines = []
    for m, counts in enumerate(sheets, 1):
        still_in = [i for i in range(1, len(names) + 1) if i not in outs[:m - 1]]
        shown = [(names[i - 1], counts[i - 1]) for i in still_in]
        if m < len(sheets):
            lines.append(line(m, shown, names[outs[m - 1] - 1], 'leaves'))
        else:
            lines.append(line(m, shown, names[winner - 1], 'wins'))
    return ''.join(lines).encode('ascii')


def text(board, names, room):
    """room: bytes of the lent output."""
    # "A board that the checker refuses is refused alike, first."
    try:
        standing, winner = read_board(bytes(board))
    except Refused as refused:
        return ('refused', refused.number, refused.record)
    # "It refuses with 21 bad or equal names, then with 15 a short output."
    process_names = names_of(bytes(names), standing.n)
    if process_names is None:
        return ('refused', 21, 0)
    told = sentences(process_names, standing.sheets, standing.outs, winner)
    if room < len(told):
        return ('refused', 15, 0)
    return ('text', told)
