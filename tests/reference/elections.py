"""elections.py - elections with equal counts, worked by hand: the counts of each round, who goes out
and who wins.

What decides between equal counts of round m, at either end (`out`: who goes out; `winner`):
  latest     round m-1
  first      round 1 alone: the rounds between agree
  narrowed   three are equal; an earlier round leaves two of them, one before it decides
  number     nothing but the number: all rounds agree
"""
from collections import namedtuple

# rankings: a list a ballot, or None where no rankings give these counts; counts: a list a round;
# decided: what decides, as above
Election = namedtuple('Election', 'name n K rankings counts outs winner decided')


def digits(text):
    return [[int(digit) for digit in word] for word in text.split()]


def cast(name, rankings, counts, outs, winner, *decided):
    rankings, counts = digits(rankings), digits(counts)
    return Election(name, len(counts[0]), len(rankings), rankings, counts, digits(outs)[0], winner,
                    decided)


def shown(name, K, counts, outs, winner, *decided):
    """An election that only forged boards can show: counts that rise and fall, and counts of
    processes gone out."""
    counts = digits(counts)
    return Election(name, len(counts[0]), K, None, counts, digits(outs)[0], winner, decided)


# Comments give the counts of the equal ones, from the round of the tie back.
WORKED = (
    # 1, 2, 3: 2 2 2, 1 2 2: 1 goes out
    cast('four', '1324 4132 2134 2143 3142 3124', '1221 2220 0240', '41', 3, 'out.latest'),
    # 1, 2: 4 4, 3 4, 3 2: 1 goes out
    cast('turned', '12345 12534 14253 21345 24153 31245 32145 35421 34512 41235 43215 52134 52413',
         '32422 34420 44500 08500', '541', 2, 'out.latest'),
    # 1, 2: 2 2, 2 2, 1 2: 1 goes out
    cast('first', '12345 51234 45321 21345 25134 34521 31254', '12211 22210 22300 04300', '541', 2,
         'out.first'),
    # 1, 2, 3: 4 4 4, 3 3 4, 2 3 4: 1 goes out
    cast('three', '12345 12543 23145 21345 25413 31245 31254 35124 34125 41235 42315 51234',
         '23421 33420 44400 08400', '541', 2, 'out.narrowed'),
    # 2, 3: 1 1, 1 1: 3 goes out
    cast('number', '1234 1342 2143 3124', '2110 2110 3100', '43', 1, 'out.number'),
    # 2, 3: 0 0, 0 0: 3 goes out; 1, 5: 1 1 in all rounds: 1 wins
    cast('camps', '54321 12345', '10001 10001 10001 10001', '432', 1, 'out.number', 'winner.number'),
    # 1, 2: 2 2, 1 2: 2 wins
    cast('two', '123 213 231 312', '121 220', '3', 2, 'winner.latest'),
    # 1, 3: 3 3, 3 3: 3 goes out; 1, 2: 5 5, 3 4, 3 2: 2 wins
    cast('last', '1234 1243 1324 2134 2143 3124 3412 3241 4213 4231', '3232 3430 5500', '43', 2,
         'out.number', 'winner.latest'),
    # 1, 2: 4 4, 3 3, 2 3: 2 wins
    cast('last-first', '1234 1432 2134 2314 2431 3142 3421 4132', '2321 3320 4400', '43', 2,
         'winner.first'),
    # 1, 2, 3: 1 1 1, 0 0 1, 0 1 0: 1 goes out; 2, 3: 1 1, 1 1, 0 1, 1 0: 3 wins
    shown('shown-three', 2, '01000 00102 11100 21100', '541', 3, 'out.narrowed'),
    # 1, 2, 3: 0 0 0, 0 1 1, 1 0 1: 1 goes out; 2, 3: 1 1, 0 0, 1 1, 0 1: 3 wins
    shown('shown-turned', 2, '10100 01100 00022 21122', '541', 3, 'out.latest', 'winner.first'),
    # 1, 2, 3: 2 2 2, more than half each, 0 1 1, 1 0 1: 3 wins
    shown('shown-last-three', 2, '10100 01102 22200', '54', 3, 'winner.narrowed'),
    # 1, 2: 0 0, 0 0, 0 0, 0 1: 1 goes out; 2, 3: 1 1, 0 1, 0 0, 0 0, 1 0: 3 wins
    shown('shown-first', 2, '010000 000002 000020 001200 211000', '6541', 3, 'out.first',
          'winner.latest'),
    # 1, 2, 3: 0 0 0 in rounds 6 to 3, 0 0 1, 0 1 1: 1 goes out; 2, 3: 1 1, 0 0 in rounds 6 to 3,
    # 0 1, 1 1: 3 wins
    shown('shown-eight', 2,
          '01100000 00100002 00000000 00000000 00000000 00000000 01100000', '876541', 3,
          'out.narrowed'),
)
