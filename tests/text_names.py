"""Names for the test program `text_cases`, good and bad, on boards of one ballot: see text_cases.py."""
import itertools
import string

from covered import PLACES, place
from text_boards import CHEESES, lent, one_ballot

LETTERS = string.ascii_letters.encode()
THREE = CHEESES[:3]
LONG = lent(letter * 20 for letter in 'ABCDEFGH')

# just outside the letters, digits, signs that a list of names might have, and bytes above 127
OUTSIDE = (b'@', b'[', b'`', b'{', b'0', b'9', b' ', b'-', b'\t', b'\r', b'\0', b'\n', b'\x7f', b'\x80',
           b'\xff', b'\xc1', b'\xc3\xa9')


def with_name(at, name):
    """The three names as they are lent, the one at a place (from 0) being other bytes."""
    names = [one.encode() for one in THREE]
    return b''.join(one + b'\n' for one in names[:at] + [name] + names[at + 1:])


# ------------------------------------------------------------------ 21

def lengths(cases, three):
    """Empty names and long ones, each at the first, the second and the last place."""
    for at, spot in enumerate(PLACES):
        cases.unnamed('names.empty-%d' % (at + 1), three, with_name(at, b''), '21.empty ' + spot,
                      both=True)
        for length in (21, 22, 40, 255, 256, 256 + 20):
            cases.unnamed('names.%d-letters-%d' % (length, at + 1), three, with_name(at, b'F' * length),
                          '21.long ' + spot, both=length == 21)
        twice = list(THREE)
        twice.insert(at, '')
        cases.unnamed('names.line-feed-more-%d' % (at + 1), three, lent(twice), '21.empty ' + spot)
    for count in (1, 2, 3, 4):
        cases.unnamed('names.%d-line-feeds' % count, three, b'\n' * count, '21.empty first')
    cases.unnamed('names.all-of-21-letters', three, lent(letter * 21 for letter in 'ABC'),
                  *['21.long ' + spot for spot in PLACES])
    cases.unnamed('names.3000-letters', three, b'F' * 3000, '21.long first', '21.feed last')


def numbers(cases, held):
    """Names too few and too many, a line feed missing, bytes beyond."""
    n, names = held.n, list(CHEESES[:held.n])
    good, name, both = lent(names), held.name, n == 3
    cases.unnamed(name + '.names.none', held, b'', '21.none', both=True)
    for count in sorted({1, n // 2, n - 1} - {0}):
        cases.unnamed('%s.names.first-%d' % (name, count), held, lent(names[:count]), '21.few',
                      both=both)
    cases.unnamed('%s.names.last-%d' % (name, n - 1), held, lent(names[1:]), '21.few')
    for more in (['Ricotta'], names[:1], names[-1:], ['Ricotta', 'Comte'], names, CHEESES[n:]):
        cases.unnamed('%s.names.and-%d-more' % (name, len(more)), held, good + lent(more), '21.many',
                      both=both)
    for at in range(n):
        fed = [one + '\n' * (i != at) for i, one in enumerate(names)]
        cases.unnamed('%s.names.line-feed-%d-missing' % (name, at + 1), held, ''.join(fed).encode(),
                      '21.feed ' + place(at, n), both=both)
    for beyond in (b'B', b'Ricotta', b'\n', b'\0', b' ', b'\r', b'.', b'\xff', b'\n\n'):
        cases.unnamed('%s.names.and-%s' % (name, beyond.hex()), held, good + beyond, '21.beyond',
                      both=both)


def bytes_outside(cases, three):
    """A byte that is no letter at the first, a middle and the last place of each name."""
    for at, spot in enumerate(PLACES):
        name = THREE[at].encode()
        for spot_in, i in zip(PLACES, (0, len(name) // 2, len(name) - 1)):
            for byte in OUTSIDE:
                cases.unnamed('names.%s-in-%d-at-%d' % (byte.hex(), at + 1, i + 1), three,
                              with_name(at, name[:i] + byte + name[i + 1:]), '21.byte ' + spot,
                              '21.letter ' + spot_in)


def every_byte(cases, two):
    """Each byte as a name of one byte, or as the last of 20: a name just where it is a letter."""
    for byte in range(256):
        name = b'F' * (byte % 2 * 19) + bytes([byte])
        names = [name, b'Skyr'] if byte % 4 < 2 else [b'Skyr', name]
        if byte in LETTERS:
            cases.told('names.letter-%02x-at-%d' % (byte, len(name)), two,
                       [one.decode() for one in names], 'letters')
        else:
            cases.unnamed('names.byte-%02x-at-%d' % (byte, len(name)), two,
                          b''.join(one + b'\n' for one in names), '21.every')


def otherwise_lent(cases, three):
    """Names ended or parted by something else."""
    for name, names in (('crlf', b'Skyr\r\nQuark\r\nFeta\r\n'), ('cr', b'Skyr\rQuark\rFeta\r'),
                        ('zero', b'Skyr\0Quark\0Feta\0'), ('space', b'Skyr Quark Feta\n'),
                        ('comma', b'Skyr, Quark, Feta\n'), ('mark', b'\xef\xbb\xbfSkyr\nQuark\nFeta\n'),
                        ('blank', b'Skyr \nQuark \nFeta \n'), ('indented', b' Skyr\n Quark\n Feta\n'),
                        ('zeros', bytes(15)), ('no-letter', b'\xff\n\xfe\n\xfd\n')):
        cases.unnamed('names.lent-with-' + name, three, names, '21.otherwise')


def equal(cases, held, names, both=False):
    """Each pair of places with the same name, the first of the two."""
    n = held.n
    pairs = list(itertools.combinations(range(n), 2))
    for i, j in pairs:
        same = list(names[:n])
        same[j] = same[i]
        spot = {pairs[0]: 'first', pairs[-1]: 'last'}.get((i, j), 'middle')
        cases.unnamed('%s.names.%d-as-%d' % (held.name, j + 1, i + 1), held, lent(same),
                      '21.equal ' + spot, *['21.ends'] * ((i, j) == (0, n - 1)), both=both)
    cases.unnamed(held.name + '.names.all-equal', held, lent(names[:1] * n), '21.equal first')


def equal_names(cases, three):
    for length in (1, 2, 19, 20):
        equal(cases, three, [letter * length for letter in 'FGH'])
    equal(cases, three, THREE, both=True)
    equal(cases, one_ballot(2), CHEESES[:2], both=True)
    equal(cases, one_ballot(5), CHEESES[:5])


def eight_names(cases, eight):
    """Faults of the last of eight names, and behind it."""
    good = lent(CHEESES)
    for name, names, cover in (
            ('and-a', LONG + b'A', '21.beyond'), ('and-line-feed', LONG + b'\n', '21.beyond'),
            ('7', lent(CHEESES[:7]), '21.few'), ('9', good + b'Ricotta\n', '21.many'),
            ('cut', good[:-1], '21.feed last'), ('and-0', good + b'\0', '21.beyond'),
            ('last-empty', lent([*CHEESES[:7], '']), '21.empty last'),
            ('8-as-1', lent([*CHEESES[:7], CHEESES[0]]), '21.ends'),
            ('8-as-7', lent([*CHEESES[:7], CHEESES[6]]), '21.equal last'),
            ('5-as-4', lent([*CHEESES[:4], *CHEESES[3:4], *CHEESES[5:]]), '21.equal middle')):
        cases.unnamed('one8.names.' + name, eight, names, cover)


# ------------------------------------------------------------------ good names

def good_lengths(cases, three):
    """1 and 20 letters at each place and at all."""
    for length in (1, 2, 19, 20):
        for at, spot in enumerate(PLACES):
            names = list(THREE)
            names[at] = 'B' * length
            cases.told('names.%d-letters-%d.good' % (length, at + 1), three, names, 'length ' + spot)
        cases.told('names.%d-letters.good' % length, three, [letter * length for letter in 'abc'],
                   *['length ' + spot for spot in PLACES])


def alike(cases, three):
    """Names that differ in the case of a letter, in one letter, or in what follows."""
    for names in (('Skyr', 'skyr', 'SKYR'), ('feta', 'Skyr', 'Feta'), ('Feta', 'feta', 'Skyr'),
                  ('Skyr', 'fetA', 'feta'), ('a', 'A', 'b'),
                  ('F' * 20, 'f' + 'F' * 19, 'F' * 19 + 'f')):
        cases.told('names.case.' + '-'.join(names), three, names, 'case')
    for names in (('Fe', 'Feta', 'Skyr'), ('Feta', 'Fe', 'F'), ('F', 'Fe', 'Fet'),
                  ('Skyr', 'Feta', 'Fet'), ('Feta', 'Skyr', 'Fetas'), ('F' * 19, 'F' * 20, 'F'),
                  ('AB', 'A', 'B'), ('eta', 'Feta', 'ta')):
        cases.told('names.start.' + '-'.join(names), three, names, 'start')
    for names in (('Feta', 'Geta', 'Heta'), ('Feta', 'Fets', 'Fetb'), ('Feta', 'Fota', 'Futa'),
                  ('Skyr', 'ryks', 'ksry'), ('A' * 19 + 'B', 'A' * 20, 'B' + 'A' * 19)):
        cases.told('names.letter.' + '-'.join(names), three, names, 'near')


def words(cases, three):
    """Words of the sentence as names."""
    for names in (('Round', 'counts', 'wins'), ('counts', 'leaves', 'Round'),
                  ('wins', 'Round', 'leaves'), ('leaves', 'wins', 'counts')):
        cases.told('names.words.' + '-'.join(names), three, names, 'words')


def names(cases):
    two, three, eight = one_ballot(2), one_ballot(3), one_ballot(8)
    lengths(cases, three)
    numbers(cases, two)
    numbers(cases, three)
    bytes_outside(cases, three)
    every_byte(cases, two)
    otherwise_lent(cases, three)
    equal_names(cases, three)
    eight_names(cases, eight)
    good_lengths(cases, three)
    alike(cases, three)
    words(cases, three)
    cases.told('names.all-letters', three, [LETTERS[i:i + 20].decode() for i in (0, 20, 40)], 'letters')
    cases.told('names.a-z', one_ballot(4), ['A', 'Z', 'a', 'z'], 'letters',
               *['length ' + spot for spot in PLACES])
