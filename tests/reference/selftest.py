#!/usr/bin/env python3
"""selftest.py [jobs] [seed]  - asserts 01's hand-tried cases and elections with equal counts worked
by hand, thousands of random elections and jobs, every refusal number, what the proof claims mean (by
brute-force logarithms in p = 23), the messages of challenges by hand and in a second way, audited
ballots by hand and in a second way, x that a matrix uses twice by hand and in a second way, the two
entries to the checker on headers with every set of faults, receipts that are found in a second way,
and counts in sentences by hand and read back.  The folder selftests has them, by subject."""
import sys
import time

sys.dont_write_bytecode = True

from selftests import audits, counts, limits, messages, repeats, texts
from selftests.claims import claims_mean_what_they_say
from selftests.hand import hand_cases
from selftests.jobs import craft_and_write_agree, random_jobs, worked_jobs
from selftests.receipts import find_by_hand, random_finds
from selftests.refusals import every_refusal


def main(count, seed):
    start = time.time()
    board = hand_cases()
    find_by_hand(board)
    texts.by_hand(board)
    counts.by_hand()
    worked_jobs()
    messages.bytes_by_hand()
    audits.by_hand()
    repeats.by_hand()
    print('hand-tried cases hold')
    ties = counts.random_elections(4 * count, seed)
    counts.random_standings(4 * count, seed)
    print('%d random elections and as many standing counts: alike in three ways' % (4 * count))
    print('  earlier rounds decide who goes out in %d of the elections, who wins in %d' % ties)
    every_refusal()
    print('refusals 1 to 12, 17 to 19 (checker) and 3, 4, 5, 13 to 15, 17, 19, 20 (writer) are hit')
    print('%d headers: both entries as due, the second says 23 of %d' % limits.headers())
    print('sound boards, each with a byte changed and with one more: both entries as due')
    print('  answers:', limits.boards(seed))
    claims_mean_what_they_say(seed)
    print('claims are true for the right lists and for no others')
    craft_and_write_agree()
    messages.other_contexts()
    print('a proof holds in its own context alone; refused are %d boards with another message or a '
          'moved proof' % messages.refused_boards())
    print('%d random boards: their challenges alike in two ways, %d of shifts among them'
          % (count // 10, messages.random_messages(count // 10, seed)))
    seen = random_finds(count, seed)
    print('%d random boards: receipts found alike in two ways' % count)
    print('  answers:', dict(sorted(seen.items(), key=str)))
    seen = texts.random_texts(count // 5, seed)
    print('%d random boards: texts read back as the plain count, or refused as due' % (count // 5))
    print('  answers:', dict(sorted(seen.items())))
    rounds_seen, refusals, audited, refused = random_jobs(count, seed)
    print('%d random jobs: their boards accepted, equal to the plain count; %d written, %d refused, on '
          'whose boards a matrix has two equal Y; %d audited ballots show what was given'
          % (count, count - refused, refused, audited))
    print('  (n, rounds):', dict(sorted(rounds_seen.items())))
    print('  answers after one bit flip:', dict(sorted(refusals.items(), key=str)))
    print('selftest passed in %.1f s' % (time.time() - start))


if __name__ == '__main__':
    main(int(sys.argv[1]) if len(sys.argv) > 1 else 3000,
         int(sys.argv[2]) if len(sys.argv) > 2 else 3)
