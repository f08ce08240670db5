#!/usr/bin/env python3
"""library.py - tests the box's library through its hosts and its C interface:

  python3 tests/library.py [--without-c] [--without-rust]

It builds libgooseoften.a (`rt lib` in its crate) and the hosts in C and in Rust, and compares:

  - the verdicts of both hosts on the stored boards of crates/cases with the stored ones, which the
    reference made, by both entries to the checker;
  - their verdicts on boards beyond 65,536 bytes, sound and damaged, with the reference's, likewise;
  - what both do with files that cannot be read and with output that takes nothing, and with which
    status they end;
  - what both print of the digests of a file, for the stored finds of crates/find_cases, and with the
    names of a file, for the stored texts of crates/text_cases;
  - the text that both print for README's example with the one that README shows;
  - gooseoften_check and gooseoften_check_small on the stored boards with the stored verdicts;
  - gooseoften_write on the stored jobs of crates/job_cases with the stored replies;
  - gooseoften_find on the stored finds of crates/find_cases with the stored replies;
  - gooseoften_text on the stored texts of crates/text_cases with the stored replies;
  - the functions with a null pointer wherever a length is 0;
  - the stack that a call takes with the most that README names.

A compiler that is missing fails the test, unless --without-c or --without-rust asks for what needs
it to be left out.  Prints a line for each comparison and ends with 1 where anything is not as due.
"""
import ctypes
import hashlib
import os
import re
import shutil
import subprocess
import sys
import tempfile

import stored
from stored import ROOT, Comparison, path

import interface
import text_boards
from host_tests import compare_hosts, put

NAMES = ('gcc', 'clang', 'cc')


# ------------------------------------------------------------------ builds

def c_compiler():
    found = next((c for c in NAMES if shutil.which(c)), None)
    assert found, 'no C compiler: --without-c leaves out what needs one'
    return found


def compile_c(source, program, *more):
    subprocess.run([c_compiler(), '-std=c11', '-O2', '-Wall', '-Wextra', '-Werror', '-I',
                    path('include'), path(*source), interface.ARCHIVE, '-o', program, *more],
                   check=True)
    return program


def build_hosts(folder, arguments):
    """The hosts asked for: (name, program)."""
    hosts = []
    if '--without-c' not in arguments:
        hosts.append(('host in C', compile_c(('hosts', 'boardhost.c'),
                                             os.path.join(folder, 'host_c'))))
    if '--without-rust' not in arguments:
        assert shutil.which('rustc'), 'no rustc: --without-rust leaves out what needs it'
        program = os.path.join(folder, 'host_rust')
        subprocess.run(['rustc', '--edition', '2021', '-O', '-D', 'warnings', '-L',
                        os.path.dirname(interface.ARCHIVE), path('hosts', 'boardhost.rs'), '-o',
                        program], check=True)
        hosts.append(('host in Rust', program))
    return hosts


def load_library(folder):
    """The archive as a library that Python can call."""
    shared = os.path.join(folder, 'gooseoften.so')
    subprocess.run([c_compiler(), '-shared', '-Wl,--whole-archive', interface.ARCHIVE,
                    '-Wl,--no-whole-archive', '-o', shared], check=True)
    return interface.signatures(ctypes.CDLL(shared))


# ------------------------------------------------------------------ the functions

def lent(kind, values):
    """An array of C, and how many elements it has; null where it has none."""
    return ((kind * len(values))(*values), len(values)) if values else (None, 0)


def verdict(check, board):
    """What boardcheck would print of a board, by an entry to the checker, and whether the rest of the
    answer is as due: as it was where the board is refused, else zeros behind the order."""
    answer = (ctypes.c_size_t * 10)(*[99] * 10)
    code = check(*lent(ctypes.c_uint8, list(board)), answer)
    if code:
        return 'refused %d %d\n' % (code % 256, code // 256), list(answer) == [99] * 10
    rounds, winner, order = answer[0], answer[1], answer[2:]
    lines = ['accepted', 'rounds %d' % rounds, *['out %d' % process for process in order[:rounds - 1]],
             'winner %d' % winner]
    return '\n'.join(lines) + '\n', not any(order[rounds - 1:])


def write(library, job, out, answer):
    return library.gooseoften_write(
        job.n, job.K, job.p, job.q, job.g0, job.counter, *lent(ctypes.c_uint8, list(job.label)),
        *lent(ctypes.c_uint8, list(job.rankings)), *lent(ctypes.c_uint8, list(job.kinds)),
        *lent(ctypes.c_uint32, job.draws), out, len(out) if out is not None else 0, answer)


def reply(library, job):
    """The line of crates/job_cases/stdout for a job."""
    before = bytes(i % 251 for i in range(job.room))
    out = lent(ctypes.c_uint8, list(before))[0]
    answer = (ctypes.c_size_t * 11)(*[99] * 11)
    code = write(library, job, out, answer)
    after = bytes(out) if out is not None else b''
    if code:
        same = after == before and list(answer) == [99] * 11
        return '%s refused %d %d, output %s' % (job.name, code % 256, code // 256,
                                                'unchanged' if same else 'changed')
    rounds, winner, order, length = answer[0], answer[1], answer[2:10], answer[10]
    outs = ''.join(' out %d' % process for process in order[:rounds - 1])
    same = after[length:] == before[length:] and not any(order[rounds - 1:])
    return '%s written %d %s rounds %d%s winner %d, rest %s' % (
        job.name, length, hashlib.sha256(after[:length]).hexdigest(), rounds, outs, winner,
        'unchanged' if same else 'changed')


def find(library, board, digests, found, room):
    return library.gooseoften_find(*lent(ctypes.c_uint8, list(board)),
                                   *lent(ctypes.c_uint8, list(digests)), found, room)


def found_by(library, case):
    """The line of crates/find_cases/stdout for a find."""
    before = [65535 - i for i in range(512)]
    numbers = (ctypes.c_uint16 * 512)(*before)
    code = find(library, case.board, case.digests, numbers, case.room)
    count = 0 if code else len(case.digests) // 32
    rest = 'unchanged' if numbers[count:] == before[count:] else 'changed'
    if code:
        return '%s refused %d %d, list %s' % (case.name, code % 256, code // 256, rest)
    words = [case.name, 'found'] + [str(number) for number in numbers[:count]]
    return '%s, rest %s' % (' '.join(words), rest)


def null_finds(library, board):
    """(code, list unchanged) where board, digests and list are null and empty, by turns and all."""
    digest = hashlib.sha256(board[54:283]).digest()
    seen = []
    for lent_board, digests, room in ((b'', digest, 1), (board, b'', 1), (board, digest, 0),
                                      (board, b'', 0), (b'', b'', 0)):
        numbers = (ctypes.c_uint16 * 1)(7)
        seen.append((find(library, lent_board, digests, numbers if room else None, room),
                     numbers[0] == 7))
    return seen


def text(library, board, names, out, room, answer):
    return library.gooseoften_text(*lent(ctypes.c_uint8, list(board)),
                                   *lent(ctypes.c_uint8, list(names)), out, room, answer)


def told_by(library, case):
    """What crates/text_cases/stdout has for a text."""
    before = bytes(i % 251 for i in range(text_boards.ROOM))
    out = (ctypes.c_uint8 * len(before))(*before)
    answer = (ctypes.c_size_t * 1)(9999)
    code = text(library, case.board, case.names, out, case.room, answer)
    after, length = bytes(out), 0 if code else answer[0]
    same = after[length:] == before[length:] and (answer[0] == 9999 or not code)
    rest = 'unchanged' if same else 'changed'
    if code:
        return '%s refused %d %d, output %s\n' % (case.name, code % 256, code // 256, rest)
    return '%s text %d, rest %s\n%s' % (case.name, length, rest, after[:length].decode('latin-1'))


def null_texts(library, board):
    """(code, output and answer unchanged) where board, names and output are null and empty, by turns
    and all."""
    seen = []
    for lent_board, names, room in ((b'', b'A\nB\n', 99), (board, b'', 99), (board, b'A\nB\n', 0),
                                    (board, b'', 0), (b'', b'', 0)):
        out, answer = (ctypes.c_uint8 * 99)(*[7] * 99), (ctypes.c_size_t * 1)(7)
        code = text(library, lent_board, names, out if room else None, room, answer)
        seen.append((code, list(out) == [7] * 99 and answer[0] == 7))
    return seen


def nulls(library, job):
    """(code, answer unchanged) where each slice in turn, and each from it on, is null and empty."""
    empty = [dict(label=b''), dict(rankings=b''), dict(kinds=b''), dict(draws=[]), dict(room=0),
             dict(rankings=b'', kinds=b'', draws=[]),
             dict(label=b'', rankings=b'', kinds=b'', draws=[], room=0)]
    seen = []
    for changed in empty:
        poor = job._replace(**changed)
        answer = (ctypes.c_size_t * 11)(*[7] * 11)
        out = lent(ctypes.c_uint8, [0] * poor.room)[0]
        seen.append((write(library, poor, out, answer), list(answer) == [7] * 11))
    for check in (library.gooseoften_check, library.gooseoften_check_small):
        answer = (ctypes.c_size_t * 10)(*[7] * 10)
        seen.append((check(None, 0, answer), list(answer) == [7] * 10))
    return seen


def stack(folder):
    """Whether each call takes no more stack than README names: a check by either entry alike."""
    readme = stored.content('README.md').decode()
    most = [int(x.replace(',', '')) for x in re.search(
        r'at most ([\d,]+) bytes of stack for a check, ([\d,]+) for finding receipts, ([\d,]+) for a '
        r'text and ([\d,]+) for a board written', readme).groups()]
    most.insert(1, most[0])
    # memcpy is looked up before the first call: the dynamic linker's stack is none of the library's
    program = compile_c(('tests', 'stack.c'), os.path.join(folder, 'stack'), '-Wl,-z,now')
    longest = max(stored.finds(), key=lambda case: len(case.board))
    words = subprocess.run([program, put(folder, 'board', longest.board),
                            put(folder, 'digests', longest.digests)], check=True,
                           capture_output=True, text=True).stdout.split()
    print('stack: ' + ' '.join(words))
    return [int(taken) <= named for taken, named in zip(words[1::2], most, strict=True)]


def compare_functions(comparison, library):
    boards, jobs, finds, texts = stored.boards(), stored.jobs(), stored.finds(), stored.texts()
    comparison.compare('gooseoften_check, stored boards',
                       [verdict(library.gooseoften_check, board.bytes) for board in boards],
                       [(board.verdict, True) for board in boards])
    comparison.compare('gooseoften_check_small, stored boards',
                       [verdict(library.gooseoften_check_small, board.bytes) for board in boards],
                       [(board.small, True) for board in boards])
    comparison.compare('gooseoften_write, stored jobs', [reply(library, job) for job in jobs],
                       stored.content('crates', 'job_cases', 'stdout').decode().splitlines())
    comparison.compare('gooseoften_find, stored finds', [found_by(library, case) for case in finds],
                       [case.line for case in finds])
    comparison.compare('gooseoften_text, stored texts', [told_by(library, case) for case in texts],
                       [case.due for case in texts])
    sound = next(job for job in jobs if job.name == 'two')
    comparison.compare('null pointers of length 0', nulls(library, sound),
                       [(5, True), (13, True), (17, True), (14, True), (15, True), (13, True),
                        (5, True), (1, True), (1, True)])
    board = next(board.bytes for board in boards if board.name == 'two')
    comparison.compare('null pointers of length 0, receipts', null_finds(library, board),
                       [(1, True), (0, True), (15, True), (0, True), (1, True)])
    comparison.compare('null pointers of length 0, texts', null_texts(library, board),
                       [(1, True), (21, True), (15, True), (21, True), (1, True)])


def main(arguments):
    subprocess.run(['rt', 'lib'], cwd=path('crates', 'gooseoften'), check=True,
                   stdout=subprocess.DEVNULL)
    comparison = Comparison()
    with tempfile.TemporaryDirectory() as folder:
        compare_hosts(comparison, build_hosts(folder, arguments), folder)
        if '--without-c' not in arguments:
            compare_functions(comparison, load_library(folder))
            comparison.compare('stack of a call', stack(folder), [True] * 5)
    return comparison.status()


if __name__ == '__main__':
    sys.exit(main(sys.argv[1:]))
