"""refusals.py - every refusal of the checker and of the writer, simplest case."""
import random

import boardref as ref
import gen
from boardref import be
from craft import layout


def checker_refusals(board, fields, q):
    def field(record, kind, last):
        return [f for f in fields if f.record == record and f.kind == kind][-1 if last else 0]

    def put(record, kind, value, last=False):
        f = field(record, kind, last)
        return ref.check(board[:f.start] + be(value, f.width) + board[f.start + f.width:])

    def old(record, kind, last=False):
        f = field(record, kind, last)
        return int.from_bytes(board[f.start:f.start + f.width], 'big')

    hit = {
        1: (ref.check(board[:-1]), 8),
        17: (put(2, 'kind', 2), 2),
        2: (put(5, 'mark', 0x4241), 5),
        3: (put(0, 'K', 0), 0),
        4: (put(0, 'q', 3), 0),
        5: (put(0, 'g1', 4), 0),
        6: (put(7, 'number', 1), 7),
        7: (put(8, 's', q, last=True), 8),
        8: (put(7, 'r', (old(7, 'r', True) + 1) % q, last=True), 7),
        9: (put(8, 'count', 4, last=True), 8),
        10: (put(8, 'count', 1, last=True), 8),
        11: (put(4, 'out', 2), 4),
        12: (ref.check(board + b'RT'), 9),
    }
    for number, (answer, record) in hit.items():
        assert answer == ('refused', number, record), (number, answer)


def writer_refusals(job):
    for number, changes in ((3, {'n': 9}), (4, {'q': 3}), (5, {'g0': 1}),
                            (13, {'rankings': job.rankings[1:]}), (14, {'draws': []}),
                            (15, {'out_len': 0}), (17, {'kinds': bytes(2)}),
                            (19, {'kinds': b'\1\1\1'}), (20, {'draws': [1] * 222})):
        assert ref.write(*job._replace(**changes)) == ('refused', number, 0)
    assert ref.write(*job._replace(rankings=[1, 2, 3, 1, 2, 2, 3, 1, 2])) == ('refused', 13, 2)


def every_refusal():
    """Each number once, simplest case, over the 3 x 3 board."""
    job = gen.cycle_job(random.Random(5), *gen.HOUSE)
    board = ref.write(*job)[1]
    fields = layout(3, bytes(3), 2)
    checker_refusals(board, fields, job.q)
    writer_refusals(job)
    # the layout table agrees with what the reader does: every 4-byte proof field set to 2^32-1
    # is refused with 7 at its record
    for f in fields:
        if f.kind in ('b', 'Y', 't1', 't2', 'e', 'r', 's'):
            bad = board[:f.start] + b'\xff' * 4 + board[f.start + 4:]
            assert ref.check(bad) == ('refused', 7, f.record)
