#!/usr/bin/env python3
"""make_cases.py - makes the input and the expected output of the test programs `cases` (boards),
`job_cases` (writer jobs), `find_cases` (receipts) and `text_cases` (counts in sentences), with the
reference in tests/reference:

  python3 tests/make_cases.py [--check]

It writes stdin and stdout of the four in crates/, and of boardcheck, whose input is the board
`three` of the cases, and prints what the cases cover.  Every run makes the same bytes.  No program
under test has a part in it.  With --check it writes nothing, and ends with 1 where a stored file is
not what it makes.

The input is a run of frames, to its end.  Every number is of 4 bytes, unsigned, high byte first; a
piece is its length, a number, and then its bytes.

  a board:  name (a piece, ASCII), board (a piece)
  a job:    name (a piece, ASCII), numbers n, K, p, q, g0, counter, length of the output, then label,
            rankings, kinds and draws (pieces; a draw is a number)
  a find:   name (a piece, ASCII), board and digests (pieces), number of places of the lent list
  a text:   name (a piece, ASCII), board and names (pieces), length of the output

The program prints a line for each frame, of a text with the text behind it:

  NAME VERDICT; small VERDICT                            of the two entries to the checker
  NAME written LENGTH SHA256 rounds R out A winner W, rest unchanged
  NAME refused NUMBER WHICH, output unchanged
  NAME found A B C, rest unchanged                       a number or 0 for each digest
  NAME refused NUMBER RECORD, list unchanged
  NAME text LENGTH, rest unchanged
  NAME refused NUMBER RECORD, output unchanged           of a text

A verdict is as boardcheck prints it, on one line: `accepted rounds R out A out B winner W`, or
`refused NUMBER RECORD`.

Before a job, byte i of the program's output buffer is i modulo 251; before a lookup, each of its 512
numbers is 65535, before a text each of its 2,048 bytes is 255, and the first of them are lent.  The
last words of a line say whether what should have been left alone is still so (`changed` if not).
"""
import hashlib
import sys

from stored import Comparison, content, path

import boardref as ref
import board_cases
import find_cases
import job_cases
import text_boards
import text_cases
import walks
from boardref import be
from covered import Both
from selftests.limits import second_answer


def piece(data):
    return be(len(data), 4) + data


def outcome(rounds, outs, winner):
    return ' '.join(['rounds %d' % rounds] + ['out %d' % a for a in outs] + ['winner %d' % winner])


def verdict(answer):
    if answer[0] == 'refused':
        return 'refused %d %d' % answer[1:]
    return 'accepted ' + outcome(*answer[1:])


def board_case(name, board, expect):
    """expect: of both entries, or of the first alone."""
    answers = Both(ref.check(board), ref.check_small(board))
    known = expect if isinstance(expect, Both) else Both(expect, None)
    for answer, due in zip(answers, known):
        assert due is None or answer == due, (name, expect, answers)
    assert answers.small == second_answer(board, answers.check), (name, answers)
    return piece(name.encode()) + piece(board), '%s %s; small %s\n' % (
        name, verdict(answers.check), verdict(answers.small))


def job_case(name, job, expect):
    n, K, p, q, g0, counter, label, rankings, kinds, draws, out_len = job
    answer = ref.write(n, K, p, q, g0, counter, label, list(rankings), kinds, list(draws), out_len)
    if answer[0] == 'refused':
        assert answer == expect, (name, expect, answer)
        line = 'refused %d %d, output unchanged' % answer[1:]
    else:
        _, board, rounds, outs, winner = answer
        assert ('written', len(board), rounds, outs, winner) == expect, (name, expect)
        assert ref.check(board) == ('accepted', rounds, outs, winner), name
        line = 'written %d %s %s, rest unchanged' % (
            len(board), hashlib.sha256(board).hexdigest(), outcome(rounds, outs, winner))
    frame = (piece(name.encode()) + b''.join(be(x, 4) for x in (n, K, p, q, g0, counter, out_len))
             + piece(label) + piece(rankings) + piece(kinds)
             + piece(b''.join(be(d, 4) for d in draws)))
    return frame, '%s %s\n' % (name, line)


def find_case(name, case, expect):
    board, digests, room = case
    answer = ref.find(board, digests, room)
    assert answer == expect and room <= walks.PLACES, (name, expect, answer)
    if answer[0] == 'refused':
        line = 'refused %d %d, list unchanged' % answer[1:]
    else:
        line = ' '.join(['found'] + [str(number) for number in answer[1]]) + ', rest unchanged'
    frame = piece(name.encode()) + piece(board) + piece(digests) + be(room, 4)
    return frame, '%s %s\n' % (name, line)


def text_case(name, case, expect):
    board, names, room = case
    answer = ref.text(board, names, room)
    assert answer == expect and room <= text_boards.ROOM, (name, expect, answer)
    if answer[0] == 'refused':
        line = 'refused %d %d, output unchanged\n' % answer[1:]
    else:
        line = 'text %d, rest unchanged\n%s' % (len(answer[1]), answer[1].decode())
    frame = piece(name.encode()) + piece(board) + piece(names) + be(room, 4)
    return frame, '%s %s' % (name, line)


def make(cases, one):
    """The bytes of stdin and of stdout."""
    made = [one(name, case, expect) for name, case, expect, _ in cases.items]
    return b''.join(frame for frame, _ in made), ''.join(line for _, line in made).encode()


def sample(cases):
    """01's board of three rankings, and the text that 01 has for it."""
    board = next(item.case for item in cases.items if item.name == 'three')
    text = 'accepted\nrounds 2\nout 3\nwinner 1\n'
    assert len(board) == 2537 and ref.boardcheck(board) == text
    return board, text.encode()


def store(crate, files):
    for name, data in files:
        with open(path('crates', crate, name), 'wb') as f:
            f.write(data)


def show(crate, count, size, rows):
    print('%s: %d cases, %d bytes' % (crate, count, size))
    print('| covered | cases: first, middle, last place |\n|---|---|')
    for text, numbers in rows:
        print('| %s | %s |' % (text, ', '.join('-' if x is None else str(x) for x in numbers)))


def main(check):
    comparison = Comparison()
    boards = board_cases.boards()
    lists = (('cases', boards, board_case), ('job_cases', job_cases.jobs(), job_case),
             ('find_cases', find_cases.finds(), find_case),
             ('text_cases', text_cases.texts(), text_case))
    rows = {crate: list(cases.rows()) for crate, cases, _ in lists}      # each has a case
    made = {crate: make(cases, one) for crate, cases, one in lists}
    made['boardcheck'] = sample(boards)
    for crate, data in made.items():
        files = list(zip(('stdin', 'stdout'), data))
        if check:
            comparison.compare(crate + ', stored files', [content('crates', crate, name) == data
                                                          for name, data in files], [True, True])
        else:
            store(crate, files)
    for crate, cases, _ in lists if not check else ():
        show(crate, len(cases.items), len(made[crate][0]), rows[crate])
    return comparison.status()


if __name__ == '__main__':
    sys.exit(main('--check' in sys.argv[1:]))
