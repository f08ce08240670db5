"""Writer jobs for the test program `job_cases` of which a matrix uses an x twice, which is refused, or
of which other draws are equal, which is not: filed under what they cover (covered.py)."""
import gen
from covered import place
from sound_jobs import CYCLE, HOUSE, Job, put


def refused(cases, name, job, draws, *covers, number=20, **changes):
    cases.add('repeat.' + name, job.but(draws=draws, **changes), ('refused', number, 0), *covers)


def written(cases, name, job, draws, *covers):
    cases.add('repeat.' + name, job.but(draws=draws), job.written(), *covers)


def common(n, count, i, j):
    """What two x of a matrix have in common, by their numbers from 0."""
    spot = {(0, 1): 'first', (count - 2, count - 1): 'last'}.get((i, j), 'middle')
    yield '20.pair ' + spot
    yield '20.row' if i // n == j // n else '20.column' if i % n == j % n else '20.neither'
    if (i, j) == (0, count - 1):
        yield '20.ends'


def in_matrices(cases, name, job, pairs, *covers):
    """pairs: the number of a matrix with those of two x, -1 for the last."""
    for matrix, i, j in pairs:
        count = len(job.parts['draws'][job.places[matrix]])
        i, j = i % count, j % count
        refused(cases, '%s.matrix%d.x%d=x%d' % (name, matrix, j, i), job, job.repeat(matrix, i, j),
                '20 ' + place(matrix, len(job.places)), *common(job.n, count, i, j), *covers)


def by_pair(cases, two, three, eight):
    """Two ballots: each pair of the last.  Three ballots and their shifts: neighbours of a row and of
    two rows, the first and the last, one column, neither.  Eight processes: 64 x."""
    in_matrices(cases, 'two', two, [(1, i, j) for i in range(4) for j in range(i + 1, 4)])
    in_matrices(cases, 'three', three,
                [(at, i, j) for at in (0, 5) for i, j in ((0, 1), (0, -1), (-2, -1))])
    in_matrices(cases, 'three', three, [(1, 0, 3), (2, 2, 3), (3, 1, 5), (4, 2, 3), (4, 1, 4)])
    in_matrices(cases, 'eight', eight, [(0, 0, 63), (0, 62, 63), (0, 7, 8), (0, 9, 54)])


def by_record(cases, five):
    """Five processes, ballot 2 of three audited: shifts of two ballots in rounds 2, 3 and 4."""
    in_matrices(cases, 'five', five, [(1, 0, -1), (1, 7, 18)], '20.audited middle')
    in_matrices(cases, 'five', five, [(2, 0, -1)], '20.behind')
    for matrix, (i, j) in zip(range(3, 9), ((0, -1), (4, 5), (1, 13), (-2, -1), (0, 5), (0, -1))):
        spot = 'first' if matrix < 5 else 'middle' if matrix < 7 else 'last'
        in_matrices(cases, 'five', five, [(matrix, i, j)], '20.shift ' + spot, '20.behind')
    assert five.rounds == 4 and len(five.places) == 9


def audited_ends(cases, rng):
    """Two ballots, one audited."""
    for k, matrix, cover in ((1, 0, '20.audited first'), (1, 1, '20.behind'), (2, 1, '20.audited last')):
        job = Job(rng, 2, [[1, 2], [2, 1]], HOUSE, audited=(k,))
        in_matrices(cases, 'two.audited%d' % k, job, [(matrix, k - 1, 2)], cover)


def all_equal(cases, job, name):
    for value in (1, job.q - 1):
        refused(cases, '%s.all=%d' % (name, value), job, (value,) * job.needed, '20.same')


def groups(cases, rng):
    """The largest q with q - 1 < n^2, and the least with q - 1 >= n^2, with one x twice as well.  Of
    n = 3 and q = 7 the six x of each shift differ: the nine of the ballots cannot."""
    for n, lists in ((2, [[2, 1], [1, 2]]), (3, CYCLE), (4, [[1, 2, 3, 4]] * 3),
                     (8, [[8, 7, 6, 5, 4, 3, 2, 1]])):
        few = Job(rng, n, lists, (*gen.TOO_FEW[n], None))
        draws, name = few.parts['draws'], 'few.n%d.q%d' % (n, few.q)
        refused(cases, name, few, draws, '20.group')
        assert all(len(set(draws[xs])) == xs.stop - xs.start for xs in few.places[few.K:])
        if n < 4:
            refused(cases, name + '.no-room', few, draws, 'two', out_len=0)
            refused(cases, name + '.a-draw-0', few, put(draws, few.needed - 1, 0), 'two', number=14)
            refused(cases, name + '.a-draw-fewer', few, draws[:-1], 'two', number=14)
        enough = Job(rng, n, lists, (*gen.JUST_ENOUGH[n], None), 'edges')
        name = 'enough.n%d.q%d' % (n, enough.q)
        written(cases, name, enough, enough.parts['draws'], 'enough')
        in_matrices(cases, name, enough, [(0, 1, -1)])


def orders(cases, job):
    """14 before 20, wherever the repeat and the bad draw are; 20 before 15."""
    for matrix in (0, 5):
        draws = job.repeat(matrix, 1, 2)
        for at, value in ((0, job.q), (job.needed - 1, 0)):
            refused(cases, 'three.matrix%d.draw%d=%d' % (matrix, at, value), job,
                    put(draws, at, value), '20.order', number=14)
        refused(cases, 'three.matrix%d.a-draw-fewer' % matrix, job, draws[:-1], '20.order', number=14)
        for room in (0, job.length - 1):
            refused(cases, 'three.matrix%d.room=%d' % (matrix, room), job, draws, '20.order',
                    out_len=room)
    for value in (0, job.q):
        refused(cases, 'three.x0=x8=%d' % value, job,
                put(put(job.parts['draws'], 0, value), 8, value), '20.order', number=14)


def across(cases, three, five):
    """Equal x in two matrices: of one ballot, of one round, of neighbours; in all."""
    first = [xs.start for xs in three.places]
    last = [xs.stop - 1 for xs in three.places]
    for name, pair in (('ballot', (first[0], first[3])), ('ballots', (last[0], first[1])),
                       ('rounds', (last[2], first[3])), ('shifts', (first[3], last[5]))):
        written(cases, 'across.' + name, three, three.equal(pair), 'across')
    same = three.equal(*[(i, xs.start + i) for xs in three.places for i in range(xs.stop - xs.start)])
    written(cases, 'across.all', three, same, 'across')
    # the audited ballot with one counted, shifts of one ballot and of two
    first = [xs.start for xs in five.places]
    written(cases, 'across.five', five,
            five.equal((first[1], first[2]), (first[3], first[5] + 1), (first[6], first[7])), 'across')


def within(cases, job):
    """A ballot's record has 42 draws, a shift's 32: their x and those of the proofs."""
    for matrix, size in ((0, 42), (5, 32)):
        xs, name = job.places[matrix], 'within.matrix%d' % matrix
        end = xs.start + size
        for i, j in ((xs.start, xs.stop), (xs.stop - 1, xs.stop), (xs.start, end - 1),
                     (xs.stop, end - 1)):
            written(cases, '%s.draws-%d-%d' % (name, i, j), job, job.equal((i, j)), 'within')
        written(cases, name + '.all', job,
                job.equal(*[(xs.start, at) for at in range(xs.stop, end)]), 'within')
    before = job.equal(*[(xs.start, xs.start - 1) for xs in job.places[1:]])
    written(cases, 'within.the-draw-before', job, before, 'within')


def beyond(cases, job):
    draws, last = job.parts['draws'], job.places[-1]
    for name, spare in (('first-x', draws[:1]), ('last-x', draws[last][-1:]),
                        ('last-matrix', draws[last]), ('equal', (1,) * 9)):
        written(cases, 'beyond.' + name, job, draws + spare, 'beyond')


def close(cases, two, eight):
    """x that agree in all bytes but one; all 64 of a matrix with one low byte, and then one of them
    twice, with others of that byte between them."""
    draws = list(two.parts['draws'])
    draws[two.places[0]] = [1, 1 + 2 ** 8, 1 + 2 ** 16, 1 + 2 ** 24]
    draws[two.places[1]] = [0x1020304, 0x1020305, 0x1020404, 0x1030304]
    written(cases, 'close', two, tuple(draws), 'close')
    xs = [256 * i + 1 for i in range(64)]
    for name, value, where in (('first', 0, 63), ('middle', 30, 33), ('last', 62, 63)):
        draws = list(eight.parts['draws'])
        draws[eight.places[0]] = put(tuple(xs), where, xs[value])
        refused(cases, 'close.%s' % name, eight, tuple(draws), '20.close')
    draws[eight.places[0]] = xs
    written(cases, 'close.eight', eight, tuple(draws), 'close')


def jobs(cases, rng):
    two = Job(rng, 2, [[1, 2], [2, 1]], HOUSE)
    three = Job(rng, 3, CYCLE, HOUSE)
    five = Job(rng, 5, [[1, 2, 3, 4, 5], [3, 2, 1, 5, 4], [5, 4, 3, 2, 1]], HOUSE, audited=(2,))
    eight = Job(rng, 8, [[1, 2, 3, 4, 5, 6, 7, 8]], HOUSE)
    by_pair(cases, two, three, eight)
    by_record(cases, five)
    audited_ends(cases, rng)
    all_equal(cases, two, 'two')
    all_equal(cases, three, 'three')
    groups(cases, rng)
    orders(cases, three)
    across(cases, three, five)
    within(cases, three)
    beyond(cases, three)
    close(cases, two, eight)
