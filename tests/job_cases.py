"""Writer jobs for the test program `job_cases`, filed under what they cover (covered.py); those with
an x twice in a matrix, or with equal draws elsewhere, are in repeat_cases.py."""
import itertools
import random

import boardref as ref
import gen
import repeat_cases
from covered import BIG, JOB_PLACED, JOBS, PLACES, Cases, place
from elections import WORKED
from sound_jobs import CYCLE, HOUSE, Job, put


def refused(cases, name, job):
    """Every refusal of a sound job with three rankings, one fault at a time."""
    parts = job.parts
    p, q, g0, label = parts['p'], parts['q'], parts['g0'], parts['label']
    rankings, draws = parts['rankings'], parts['draws']

    def one(part, value, number, which, *covers, text=None):
        cases.add('%s.%s=%s' % (name, part, value if text is None else text),
                  job.but(**{part: value}), ('refused', number, which), *covers)

    for value in (0, 1, 9, 256 + 3, BIG):
        one('n', value, 3, 0, '3 first')
    for value in (0, 1001, 65536 + 3, BIG):
        one('K', value, 3, 0, '3 last')
    for value in (0, 1, p + 1, 2 ** 31 + 11, BIG):
        one('p', value, 4, 0, '4 first')
    for value in (0, 1, 3, q - 1, p, BIG):
        one('q', value, 4, 0, '4 last')
    for value in (0, 1, p - 1, p, p + g0):
        one('g0', value, 5, 0, '5 first')
    for value in (b'', label[:31], label + b'\0'):
        one('label', value, 5, 0, '5 last', text='%d-bytes' % len(value))
    for value in (b'', rankings[:-1], rankings + b'\1', rankings * 2):
        one('rankings', value, 13, 0, '13.0', text='%d-bytes' % len(value))
    for ranking, where in ((1, 'first'), (2, 'middle'), (3, 'last')):
        at = 3 * (ranking - 1) + 1
        for value in (0, 4, rankings[at + 1]):
            bad = put(rankings, at, value)
            one('rankings', bad, 13, ranking, '13 ' + where, text=bad.hex())
    bad = put(put(rankings, 5, 2), 6, 0)
    one('rankings', bad, 13, 2, '13 middle', text=bad.hex())
    for few in (0, 1, job.needed - 1):
        one('draws', draws[:few], 14, 0, '14.few', text='%d-draws' % few)
    for place, where in ((0, 'first'), (job.needed // 2, 'middle'), (job.needed - 1, 'last')):
        for value in (0, q, BIG):
            one('draws', put(draws, place, value), 14, 0, '14 ' + where,
                text='%d-at-%d' % (value, place))
    for value, where in ((0, 'first'), (54, 'middle'), (job.length - 1, 'last')):
        one('out_len', value, 15, 0, '15 ' + where)


def weak_generators(cases, rng):
    """5 where g1 comes out as 0, 1 or g0."""
    job = Job(rng, 3, CYCLE, (23, 11, 2))
    for want in (0, 1, 2):
        label, counter = b'', 0
        while len(label) != 32 or ref.make_g1(23, 11, 2, counter, label) != want:
            label, counter = rng.randbytes(32), rng.randrange(256)
        cases.add('small.g1=%d' % want, job.but(label=label, counter=counter), ('refused', 5, 0),
                  '5 middle')


def two_faults(cases, job):
    """For every two refusals a job with both faults; then one with all."""
    rankings, repeat = job.parts['rankings'], job.repeat(0, 0, 1)
    # in the order of the tests
    faults = {3: {'n': 1}, 4: {'q': 4}, 5: {'label': bytes(31)}, 13: {'rankings': put(rankings, 4, 0)},
              17: {'kinds': b'\0\1\2'}, 19: {'kinds': b'\1\1\1'},
              14: {'draws': job.parts['draws'][:-1]}, 20: {'draws': repeat},
              15: {'out_len': job.length - 1}}
    one_part = {(17, 19): {'kinds': b'\1\2\1'}, (14, 20): {'draws': repeat[:-1]}}
    for first, second in itertools.combinations(faults, 2):
        both = one_part.get((first, second), {**faults[second], **faults[first]})
        cases.add('three.faults-%d-and-%d' % (first, second), job.but(**both),
                  ('refused', first, 2 if first == 13 else 0), 'two')
    every = {part: value for fault in faults.values() for part, value in fault.items()}
    cases.add('three.faults-all', job.but(**every), ('refused', 3, 0), 'two')
    cases.add('three.faults-length-and-ranking', job.but(rankings=put(rankings, 4, 0) + b'\1'),
              ('refused', 13, 0), 'two')


def bad_kinds(cases, name, job):
    """17 and 19; the rest of the job is fine, or lacks all draws or all room."""
    kinds = job.parts['kinds']
    assert job.K == len(kinds) == 3

    def one(value, number, *covers):
        cases.add('%s.kinds=%s' % (name, value.hex()), job.but(kinds=value), ('refused', number, 0),
                  *covers)

    for value in (b'', kinds[:-1], kinds + b'\0', kinds + b'\1', kinds * 2, b'\1\1', b'\1' * 4):
        one(value, 17, '17.length')
    for at, where in enumerate(PLACES):
        for value in (2, 255):
            one(put(kinds, at, value), 17, '17 ' + where)
    one(b'\2\2\2', 17, '17 first')
    one(b'\1\1\1', 19, '19')
    for value, number in ((b'\1\1', 17), (b'\2\0\0', 17), (b'\1\1\1', 19)):
        for part, less in (('draws', ()), ('out_len', 0)):
            cases.add('%s.kinds=%s.no-%s' % (name, value.hex(), part),
                      job.but(**{'kinds': value, part: less}), ('refused', number, 0), 'two')


def none_counted(cases, rng):
    for n, K in ((2, 1), (2, 2), (8, 1)):
        job = Job(rng, n, [list(range(1, n + 1))] * K, HOUSE)
        cases.add('none.n%d.k%d' % (n, K), job.but(kinds=b'\1' * K), ('refused', 19, 0), '19')


def audited(cases, rng):
    """Some ballots audited."""
    for n, lists, group, numbers, covers in (
            (2, [[1, 2], [2, 1]], HOUSE, (1,), ['audited first', 'audited.most']),
            (2, [[1, 2], [2, 1]], (11, 5, 4), (2,), ['audited last', 'audited.most', 'groups']),
            (3, CYCLE, HOUSE, (1,), ['audited first', 'ties']),
            (3, CYCLE, (23, 11, 2), (2,), ['audited middle', 'ties', 'groups']),
            (3, CYCLE, HOUSE, (3,), ['audited last', 'ties']),
            (3, CYCLE, HOUSE, (1, 3), ['audited.most']),
            (3, [[1, 2, 3], [1, 3, 2], [2, 1, 3], [3, 2, 1], [2, 3, 1]], HOUSE, (2, 4), []),
            (4, [[1, 2, 3, 4], [2, 1, 4, 3], [3, 4, 1, 2]], HOUSE, (1,), ['audited first', 'ties']),
            (5, gen.rankings_of(rng, 5, 4, 'random'), (2147483647, 331, None), (2, 3), []),
            (8, [list(range(1, 9)), list(range(8, 0, -1)), [2, 1, 3, 4, 5, 6, 7, 8]], HOUSE, (3,),
             ['audited last', 'n8', 'ties'])):
        job = Job(rng, n, lists, group, audited=numbers)
        cases.add('audited.n%d.k%d.q%d.rounds%d.of.%s' % (n, job.K, job.q, job.rounds,
                                                         '-'.join(map(str, numbers))),
                  job.but(), job.written(), 'n', *covers)


def audited_edges(cases, rng):
    """Draws and room as needed and one fewer, bad rankings, draws that nobody needs."""
    for audited in ((1,), (2,), (3,), (1, 2)):
        job = Job(rng, 3, CYCLE, HOUSE, audited=audited)
        name = 'audited.%s' % '-'.join(map(str, audited))
        draws, k = job.parts['draws'], audited[-1]
        cases.add(name + '.a-draw-fewer', job.but(draws=draws[:-1]), ('refused', 14, 0),
                  'audited.edges', '14.few')
        cases.add(name + '.a-byte-fewer', job.but(out_len=job.length - 1), ('refused', 15, 0),
                  'audited.edges', '15 last')
        cases.add(name + '.a-byte-more', job.but(out_len=job.length + 1), job.written(), 'room')
        cases.add(name + '.unused-draws', job.but(draws=draws + (0,) * 64), job.written(),
                  'audited.edges', 'spare')
        for value in (0, 4, 255):
            bad = put(job.parts['rankings'], 3 * k - 1, value)
            cases.add(name + '.ranking-%d-has-%d' % (k, value), job.but(rankings=bad),
                      ('refused', 13, k), '13.audited', '13 ' + PLACES[k - 1])
        at = (k - 1) * ref.ba_draws(3)
        cases.add(name + '.draw-%d=0' % at, job.but(draws=put(draws, at, 0)), ('refused', 14, 0),
                  '14 ' + place(at, job.needed))


def thousand(cases, rng):
    job = Job(rng, 2, [[1, 2] if k % 2 else [2, 1] for k in range(1000)], HOUSE)
    cases.add('thousand', job.but(), job.written(), 'K1000', 'ties')
    for k, where in ((1, 'first'), (500, 'middle'), (1000, 'last')):
        bad = put(job.parts['rankings'], 2 * k - 1, 3)
        cases.add('thousand.bad-ranking-%d' % k, job.but(rankings=bad, draws=()),
                  ('refused', 13, k), '13 ' + where)
    half = Job(rng, 2, [[1, 2], [2, 1]] * 500, HOUSE, audited=range(2, 1001, 2))
    cases.add('thousand.half-audited', half.but(), half.written(), 'K1000')
    bad = put(half.parts['kinds'], 999, 2)
    cases.add('thousand.bad-kind-1000', half.but(kinds=bad, draws=()), ('refused', 17, 0), '17 last')
    cases.add('thousand.k=q=331', Job(rng, 2, [[2, 1]] * 331, (662 * 3 + 1, 331, None)).but(draws=()),
              ('refused', 4, 0), '4 last')


def written(cases, rng):
    for n, lists, group, draws, counter, covers in (
            (2, [[2, 1]], (11, 5, 4), 'random', 0, ['n', 'groups', 'enough']),
            (2, [[1, 2], [2, 1]], (11, 5, 4), 'tops', 255, ['n', 'groups', 'ties', 'draws', 'enough']),
            (3, CYCLE, (23, 11, 2), 'ones', None, ['n', 'groups', 'ties', 'draws', 'enough']),
            (3, CYCLE, HOUSE, 'tops', 255, ['n', 'groups', 'ties', 'draws']),
            (3, [[3, 1, 2]], (2147483647, 11, None), 'edges', 0, ['n', 'groups', 'draws', 'enough']),
            (3, [[1, 2, 3], [1, 3, 2], [2, 1, 3], [3, 2, 1]], HOUSE, 'random', 1, ['n', 'ties']),
            (4, [[1, 2, 3, 4], [2, 1, 4, 3], [3, 4, 1, 2], [4, 3, 2, 1]], (103, 17, None), 'random',
             None, ['n', 'groups', 'ties', 'enough']),
            (4, [[4, 3, 2, 1], [3, 4, 1, 2], [4, 1, 2, 3], [1, 2, 3, 4], [2, 4, 3, 1]], HOUSE,
             'random', None, ['n']),
            (4, gen.rankings_of(rng, 4, 10, 'random'), (47, 23, None), 'random', None,
             ['n', 'groups']),
            (5, gen.rankings_of(rng, 5, 5, 'cycle'), (2147483647, 331, None), 'edges', None,
             ['n', 'groups', 'ties', 'draws']),
            (5, [[5, 1, 2, 3, 4]] * 3, (59, 29, None), 'random', None, ['n', 'groups', 'enough']),
            (6, gen.rankings_of(rng, 6, 4, 'late'), (149, 37, None), 'random', None,
             ['n', 'groups', 'enough']),
            (7, gen.rankings_of(rng, 7, 3, 'random'), (2147483647, 151, None), 'random', None, ['n']),
            (8, [[8, 7, 6, 5, 4, 3, 2, 1]], HOUSE, 'random', None, ['n']),
            (8, [list(range(1, 9)), list(range(8, 0, -1))], HOUSE, 'random', None,
             ['n', 'n8', 'ties']),
            (8, [[2, 1, 3, 4, 5, 6, 7, 8], [1, 2, 3, 4, 5, 6, 7, 8]], (269, 67, None), 'tops', None,
             ['n', 'n8', 'groups', 'ties', 'draws', 'enough'])):
        job = Job(rng, n, lists, group, draws, counter)
        assert 'n8' not in covers or job.rounds == 7
        assert ('enough' in covers) == (job.q == gen.JUST_ENOUGH[n][1])
        room = rng.choice((0, 1, 7, 100))
        cases.add('written.n%d.k%d.q%d.rounds%d.%s' % (n, job.K, job.q, job.rounds, draws),
                  job.but(out_len=job.length + room), job.written(), *covers,
                  *['room'] * (room > 0))


def ties(cases, rng):
    """Equal counts: elections worked by hand."""
    for worked in WORKED:
        if worked.rankings:
            job = Job(rng, worked.n, worked.rankings, HOUSE)
            assert job.written()[2:] == (len(worked.counts), worked.outs, worked.winner), worked.name
            cases.add('tie.%s.n%d.k%d' % (worked.name, worked.n, worked.K), job.but(), job.written(),
                      'n', 'ties', *worked.decided)


def jobs():
    rng = random.Random(2)
    cases = Cases(JOBS, JOB_PLACED)
    two = Job(rng, 2, [[1, 2], [2, 1]], HOUSE)
    three = Job(rng, 3, CYCLE, HOUSE)
    assert (two.length, three.length, three.needed) == (528, 2537, 222)
    cases.add('two', two.but(), two.written(), 'hand.528', 'n', 'ties')
    cases.add('three', three.but(), three.written(), 'hand.2537', 'n', 'ties')
    cases.add('three.room', three.but(out_len=70000), three.written(), 'room')
    for spare in ((0,), (0, three.q, BIG)):
        cases.add('three.%d-spare-draws' % len(spare),
                  three.but(draws=three.parts['draws'] + spare), three.written(), 'spare')
    refused(cases, 'three', three)
    two_faults(cases, three)
    bad_kinds(cases, 'three', three)
    bad_kinds(cases, 'middle', Job(rng, 3, CYCLE, HOUSE, audited=(2,)))
    none_counted(cases, rng)
    weak_generators(cases, rng)
    written(cases, rng)
    thousand(cases, rng)
    ties(cases, rng)
    audited(cases, rng)
    audited_edges(cases, rng)
    repeat_cases.jobs(cases, random.Random(3))
    return cases
