#!/usr/bin/env python3
"""boardcheck.py - tests the program boardcheck, from standard input to the printed verdict:

  python3 tests/boardcheck.py [--without-c]

It runs crates/boardcheck/out/boardcheck, which `rt ci` and `rt run` leave there, on every stored board, on boards
of exactly 65,536 bytes and of one byte more, on input that comes in parts, late, interrupted, or
that cannot be read, with output that takes nothing, and with arguments.  A board that was not read
to its end gets no verdict: nothing on standard output, a line on standard error.  Interrupted reads
need a C compiler: without one the test fails, unless --without-c asks for that part to be left out.
Ends with 1 where anything is not as due.
"""
import errno
import os
import subprocess
import sys
import tempfile
import time

import stored
from library import c_compiler
from stored import LIMIT, Comparison, path

PROGRAM = path('crates', 'boardcheck', 'out', 'boardcheck')
SAMPLE = path('crates', 'boardcheck', 'stdin')
NO_VERDICT = ('', 'boardcheck: no verdict, cannot read the board: ')
NO_ARGUMENTS = ('boardcheck: no verdict, it takes no arguments; the board is read from standard '
                'input\n')


def seen(done):
    """What was printed; of a line on standard error the part before the system's own words."""
    error = done.stderr.decode()
    return done.stdout.decode(), error[:len(NO_VERDICT[1])] if error.count('\n') == 1 else error


def on_bytes(board, **more):
    return seen(subprocess.run([PROGRAM], input=board, capture_output=True, **more))


def in_parts(parts, pause):
    """Input from a pipe, a part at a time."""
    program = subprocess.Popen([PROGRAM], stdin=subprocess.PIPE, stdout=subprocess.PIPE,
                               stderr=subprocess.PIPE)
    for part in parts:
        program.stdin.write(part)
        program.stdin.flush()
        time.sleep(pause)
    out, error = program.communicate()
    return seen(subprocess.CompletedProcess([], 0, out, error))


def from_descriptor(descriptor):
    return seen(subprocess.run([PROGRAM], stdin=descriptor, capture_output=True))


def failing_pipe(board):
    """A pipe that is not waited for: after the bytes that are there a read fails."""
    reader, writer = os.pipe()
    os.set_blocking(reader, False)
    os.write(writer, board)
    try:
        return from_descriptor(reader)
    finally:
        os.close(reader)
        os.close(writer)


def directory():
    descriptor = os.open(path('tests'), os.O_RDONLY)
    try:
        return from_descriptor(descriptor)
    finally:
        os.close(descriptor)


def closed():
    return seen(subprocess.run(['sh', '-c', 'exec "$0" <&-', PROGRAM], capture_output=True))


def redirected(board, how):
    """What is printed with standard output redirected, as sh writes it."""
    done = subprocess.run(['sh', '-c', 'exec "$0" ' + how, PROGRAM], input=board,
                          capture_output=True)
    return done.stdout.decode(), done.stderr.decode()


def untaken(boards, comparison):
    """Standard output that takes nothing."""
    ways = (('>/dev/full', errno.ENOSPC), ('>&-', errno.EBADF))
    comparison.compare('boardcheck, output that takes nothing',
                       [redirected(board, how) for how, _ in ways for board in boards],
                       [('', 'boardcheck: cannot print the verdict: %s\n' % os.strerror(error))
                        for _, error in ways for _ in boards])


def with_arguments(*arguments):
    """What is printed, and how many bytes of the board are read."""
    with open(SAMPLE, 'rb') as board:
        done = subprocess.run([PROGRAM, *arguments], stdin=board, capture_output=True)
        return (done.stdout.decode(), done.stderr.decode(),
                os.lseek(board.fileno(), 0, os.SEEK_CUR))


def interrupted(board, verdict, comparison, folder):
    """Reads that are interrupted, and reads that fail after some bytes."""
    shim = os.path.join(folder, 'reads.so')
    subprocess.run([c_compiler(), '-shared', '-fPIC', '-Wall', '-Wextra', '-Werror', '-O2',
                    path('tests', 'reads.c'), '-o', shim, '-ldl'], check=True)
    environment = dict(os.environ, LD_PRELOAD=shim)
    got = [on_bytes(board, env=dict(environment, READS=how))
           for how in ('interrupted', 'error:1', 'error:2', 'error:7')]
    comparison.compare('boardcheck, reads interrupted or failing', got,
                       [(verdict, '')] + [NO_VERDICT] * 3)


def main(arguments):
    assert os.path.exists(PROGRAM), 'boardcheck is not built: rt run in crates/boardcheck, or rt ci'
    comparison = Comparison()
    boards = stored.boards()
    sample = stored.content('crates', 'boardcheck', 'stdin')
    verdict = stored.content('crates', 'boardcheck', 'stdout').decode()
    comparison.compare('boardcheck, stored boards', [on_bytes(board.bytes) for board in boards],
                       [('too long\n' if LIMIT < len(board.bytes) else board.verdict, '')
                        for board in boards])
    longest = sample + bytes(LIMIT - len(sample))
    comparison.compare('boardcheck, 65,536 and 65,537 bytes',
                       [on_bytes(longest), on_bytes(longest + b'\0'), on_bytes(2 * longest)],
                       [('refused 12 9\n', ''), ('too long\n', ''), ('too long\n', '')])
    comparison.compare('boardcheck, input in parts', [
        in_parts([sample[:3], sample[3:]], 0.3), in_parts([sample, b'later'], 0.3),
        in_parts([sample[i:i + 97] for i in range(0, len(sample), 97)], 0.01),
        in_parts([], 0)],
        [(verdict, ''), ('refused 12 9\n', ''), (verdict, ''), ('refused 1 0\n', '')])
    comparison.compare('boardcheck, input that cannot be read', [
        failing_pipe(sample), failing_pipe(sample[:3]), failing_pipe(b''), directory(), closed()],
        [NO_VERDICT] * 5)
    untaken([sample, b'', longest + b'\0'], comparison)
    comparison.compare('boardcheck, arguments', [
        with_arguments(), with_arguments(SAMPLE), with_arguments(SAMPLE, SAMPLE),
        with_arguments(''), with_arguments('', '--help')],
        [(verdict, '', len(sample))] + [('', NO_ARGUMENTS, 0)] * 4)
    if '--without-c' not in arguments:
        with tempfile.TemporaryDirectory() as folder:
            interrupted(sample, verdict, comparison, folder)
    return comparison.status()


if __name__ == '__main__':
    sys.exit(main(sys.argv[1:]))
