"""The lists of stored cases: what they have to cover, and how one is filed."""
import collections
import re

import boardref as ref

BIG = 2 ** 32 - 1
Case = collections.namedtuple('Case', 'name case expect covers')     # a case filed
Made = collections.namedtuple('Made', 'name board expect note')      # a board that faults made
Both = collections.namedtuple('Both', 'check small')                 # the answers of both entries
PLACES = ('first', 'middle', 'last')

# what decides between equal counts of round m: see elections.py
TIES = {'%s.%s' % (end, by): 'who %s in a tie of round m: %s' % (does, text)
        for end, does in (('out', 'goes out'), ('winner', 'wins'))
        for by, text in (('latest', 'round m - 1 decides'), ('first', 'round 1 alone decides'),
                         ('narrowed', 'of three an earlier round leaves two, one before it decides'),
                         ('number', 'all rounds agree, the number decides'))}

BOARDS = {
    'hand.empty': '01 by hand: empty board is 1, record 0',
    'hand.n': '01 by hand: n = 8 passes, 9 is 3',
    'hand.K': '01 by hand: K = 1,000 passes, 1,001 and 0 are 3',
    'hand.q': '01 by hand: q = K is 4',
    'hand.528': '01 by hand: n = 2, K = 2: 528 bytes',
    'hand.2537': '01 by hand: three rankings: 2,537 bytes, rounds 2, out 3, winner 1',
    '1': 'refusal 1: each record cut',
    '2': 'refusal 2: mark of each record',
    '3': 'refusal 3: n, K',
    '4': 'refusal 4: p, q',
    '5': 'refusal 5: g0, counter or g1, label',
    '6.BA': 'refusal 6: number of a ballot',
    '6.SH': 'refusal 6: number of a shift',
    '6.RT': 'refusal 6: round of a sheet',
    '7.BA': 'refusal 7: field of a ballot',
    '7.SH': 'refusal 7: field of a shift',
    '7.RT': 'refusal 7: s of a sheet',
    '8.BA': 'refusal 8: proof of a ballot',
    '8.SH': 'refusal 8: proof of a shift',
    '9': 'refusal 9: count of a process',
    '10': 'refusal 10: tally of a process, by count and by s',
    '11': 'refusal 11: out of a sheet',
    '12': 'refusal 12: one byte, a record, a board more',
    '17': 'refusal 17: kind of a ballot',
    '7.x': 'refusal 7: x of an audited ballot, q, x + q and more',
    '18.x': 'refusal 18: another x of an audited ballot, by its pair',
    '18.ranking': 'refusal 18: a process twice, 0, n + 1, 255, two exchanged, by the place on the '
                  'ranking',
    '18.forged': 'refusal 18: all opens but one pair, b or Y alone; all opens, to no ranking',
    '19': 'refusal 19: nothing counted, whatever stands behind the last ballot',
    'outside': 'elements outside the group; in some every equation holds',
    'printed': 'rows that the printed theorem leaves unchecked',
    'entry2': 'an entry of 2 with a -1 beside it',
    'sums': 'rows or columns that do not sum to 1',
    'equation': 'one equation, or the sum of challenges, fails and all else holds',
    'message.entry': 'the challenge of another message, all else as due: entry proofs',
    'message.row': 'the challenge of another message, all else as due: row proofs',
    'message.col': 'the challenge of another message, all else as due: column proofs',
    'message.shift': 'the challenge of another message, all else as due: shift proofs',
    'moved': 'a sound proof, moved to another place, ballot or shift that claims the same',
    'model': 'boards of 01: 2 with the mark HD, 8 with HF',
    'struck': 'another row or process struck, an entry changed, ballots from elsewhere',
    'forged': 'forged boards of tiny groups',
    'ties': 'ties, broken rightly and wrongly',
    **TIES,
    'otherwise': 'ties broken by this round alone, by one round back alone, from round 1 up, by the '
                 'lowest number',
    'half': 'closing at exactly half, a round early, a round late',
    'tally': 'votes moved; tallies whose first equation alone holds',
    'audited': 'sound boards with one ballot audited',
    'audited.most': 'sound boards with all but one ballot audited',
    'turned': 'a ballot of the other kind, its proofs as they are; its kind byte turned alone',
    'lengths': 'a ballot cut ahead of and behind its kind and at both lengths, of each kind',
    'lengths.mark': 'the same with another mark',
    'shifts': 'an audited ballot with an SH, a counted one without, SH numbered 1 to C',
    'counted': 'counts above C and not above K; products over all ballots',
    'majority': 'more than half of the counted ballots alone, of all ballots alone',
    'later': 'the record that is named in a later round, some ballots audited',
    'two': 'two faults: the one that is named',
    'order': 'records left out, twice, exchanged',
    'orders': 'p and q: composites that weak tests pass, bounds',
    'edges': 'allowed at the edge: 0 for x, nonce, e, r; least and largest groups',
    'repeats': 'allowed: an x twice in a matrix, in groups with too few numbers and with draws all '
               'equal',
    'sound': 'sound boards of 2 to 8 processes',
    'K1000': 'K = 1,000 with n = 2',
    'n8': 'n = 8 in 7 rounds',
    'small.within': 'both entries alike: n within 5 and K within 200, nothing wrong up to 3',
    'small.n': 'second entry, 23: n above 5, K within 200',
    'small.K': 'second entry, 23: K above 200, n within 5, K = 256, 257 and 456 among them',
    'small.both': 'second entry, 23: n above 5 and K above 200',
    'small.1': 'both entries, 1: the header cut, on both sides of the limits',
    'small.2': 'both entries, 2: the mark of the header, on both sides of the limits',
    'small.3': 'both entries, 3: n or K out of range, the other on both sides of its limit',
    'small.4': 'a rule on p and q broken, on both sides of the limits: 23 before 4',
    'small.5': 'a rule on g0 or g1 broken, on both sides of the limits: 23 before 5',
    'small.ballot': 'the first ballot sound, cut or with a fault, on both sides of the limits',
    'small.several': 'a fault before 23 and one after it, on both sides of the limits',
    'small.sound': 'whole boards on both sides of the limits, K = 200 and 201 among them',
}

JOBS = {
    'hand.528': '01 by hand: n = 2, K = 2: 528 bytes',
    'hand.2537': '01 by hand: three rankings: 2,537 bytes, 222 draws',
    '3': 'refusal 3: n, K',
    '4': 'refusal 4: p, q',
    '5': 'refusal 5: g0, counter or g1, label',
    '13.0': 'refusal 13 with 0: the list shorter, longer',
    '13': 'refusal 13 with the bad ranking',
    '13.audited': 'refusal 13 with the bad ranking of an audited ballot',
    '17.length': 'refusal 17: kinds too few, too many, none',
    '17': 'refusal 17: another kind',
    '19': 'refusal 19: nothing counted',
    '14.few': 'refusal 14: draws too few',
    '14': 'refusal 14: a draw of 0, of q or more',
    '20': 'refusal 20: an x twice in a matrix, by the matrix',
    '20.pair': 'refusal 20: an x twice in a matrix, the first two of its x, others, the last two',
    '20.ends': 'refusal 20: the first x of a matrix and the last',
    '20.row': 'refusal 20: two x of a row',
    '20.column': 'refusal 20: two x of a column',
    '20.neither': 'refusal 20: two x of neither, neighbours among them',
    '20.audited': 'refusal 20: in an audited ballot',
    '20.behind': 'refusal 20: in a ballot or a shift behind an audited ballot',
    '20.shift': 'refusal 20: in a shift, by its round',
    '20.group': 'refusal 20: fewer numbers from 1 to q - 1 than x in a ballot, the largest such q',
    '20.same': 'refusal 20: draws all 1, all q - 1',
    '20.close': 'refusal 20: an x twice, with others of its low byte between',
    '20.order': 'a repeat and another fault: 14 before 20, 20 before 15',
    '15': 'refusal 15: room for nothing, for the header, for all but a byte',
    'two': 'two faults: the earlier number',
    'audited': 'written: one ballot audited',
    'audited.most': 'written: all but one ballot audited',
    'audited.edges': 'some ballots audited: one draw fewer is 14, one byte fewer 15; draws for an SH '
                     'of theirs are spare',
    'spare': 'written: spare draws that could not be used',
    'room': 'written: room to spare, kept as it was',
    'n': 'written: 2 to 8 processes',
    'groups': 'written: least, tiny and large groups; counters 0 and 255',
    'draws': 'written: x from 1 up, from q - 1 down, from both ends, the other draws all 1, all q - 1, '
             'both',
    'enough': 'written: the least q with as many numbers from 1 to q - 1 as x in a ballot',
    'across': 'written: equal x in matrices of one ballot, of one round, of others, in all',
    'within': 'written: equal draws of a record or of two, at most one of them an x',
    'beyond': 'written: spare draws that repeat an x, or each other',
    'close': 'written: x that differ in one byte alone, 64 with one low byte',
    'ties': 'written: ties',
    # of rankings no more than two can tie for the winner
    **{key: 'written: ' + text for key, text in TIES.items() if key != 'winner.narrowed'},
    'K1000': 'written: K = 1,000 with n = 2',
    'n8': 'written: n = 8 in 7 rounds',
}

FINDS = {
    '1': 'refusal 1: header and each ballot cut',
    '2': 'refusal 2: mark of the header, of each ballot',
    '3': 'refusal 3: n, K',
    '4': 'refusal 4: p, q',
    '5': 'refusal 5: g0, counter or g1, label',
    '6': 'refusal 6: number of a ballot',
    '17': 'refusal 17: kind of a ballot',
    '15': 'refusal 15: no place at all, some, all but one',
    '16.length': 'refusal 16: a length that is no multiple of 32',
    '16.most': 'refusal 16: 501 digests and more',
    '16.byte': 'refusal 16: below the one before it in the first, a middle, the last byte',
    '16.pair': 'refusal 16: below the one before it in the first, a middle, the last pair',
    'two': 'two faults: the one that is named',
    'order': 'ballots left out, twice, exchanged',
    'found': 'found: a ballot by its number',
    'place': 'found: a digest by its place on the list',
    'count': 'found: 0, 1, 2 and 500 digests',
    'equal': 'found: equal digests, 2, 3 and 500',
    'absent': 'found: digests that no ballot has',
    'other': 'found: digests of a ballot without its mark, of other records, of the whole board',
    'room': 'found: places to spare, kept as they were',
    'behind': 'found: nothing, a part or a fault behind the last ballot',
    'unproved': 'found: a ballot whose fields or proofs fail',
    'n': 'found: 2 to 8 processes',
    'groups': 'found: the least group, a tiny one, q just above K',
    'audited': 'found: an audited ballot by its number',
    'part': 'found: digests of an audited ballot without its audited part, of that part alone',
    'lengths': 'ballots of each kind cut ahead of and behind the kind and at both lengths',
    'unopened': 'found: a ballot that does not open, on boards that 18 or 19 would refuse',
    'K1000': 'found: K = 1,000 with n = 2',
}

TEXTS = {
    'hand': "01's board of three rankings; 02's own sentence",
    '1': 'refusal 1: header, first and last sheet cut',
    '2': 'refusal 2: mark of the header, of the first and the last sheet',
    '3': 'refusal 3: n, K',
    '4': 'refusal 4: p, q',
    '5': 'refusal 5: g0, g1, label',
    '6': 'refusal 6: number of a ballot, of a shift, round of a sheet',
    '7': 'refusal 7: field of a ballot, of a shift, of a sheet',
    '8': 'refusal 8: proof of the first ballot, of the last, of the last shift',
    '9': 'refusal 9: count of a process',
    '10': 'refusal 10: tally of a process',
    '11': 'refusal 11: out of a sheet',
    '12': 'refusal 12: one byte, a record, a board more',
    '17': 'refusal 17: kind of a ballot',
    '18': 'refusal 18: what an audited ballot shows',
    '19': 'refusal 19: nothing counted, of one, two and three ballots',
    'board.names': 'a refused board with bad names: the board is named',
    'board.room': 'a refused board and no room: the board is named',
    '21.none': 'refusal 21: no names at all',
    '21.empty': 'refusal 21: an empty name',
    '21.long': 'refusal 21: a name of 21 letters and more',
    '21.few': 'refusal 21: n - 1 names and fewer',
    '21.many': 'refusal 21: n + 1 names and more',
    '21.feed': 'refusal 21: a line feed missing',
    '21.beyond': 'refusal 21: bytes behind the last line feed',
    '21.byte': 'refusal 21: a byte that is no letter, by its name',
    '21.letter': 'refusal 21: a byte that is no letter, by its place in the name',
    '21.every': 'refusal 21: each byte that is no letter, alone or behind 19 letters',
    '21.otherwise': 'refusal 21: names ended or parted by something else',
    '21.equal': 'refusal 21: equal names, the first two, others, the last two',
    '21.ends': 'refusal 21: the first name and the last',
    '21.15': 'bad names and no room: 21',
    '15': 'refusal 15: next to no room, some, all but one or two bytes',
    'exact': 'text: a room that just fits',
    'room': 'text: room to spare, kept as it was',
    'length': 'text: a name of 1, 2, 19 and 20 letters',
    'letters': 'text: each letter, alone or behind 19 others',
    'case': 'text: names equal but for large and small letters',
    'start': 'text: a name that is the beginning or the end of another',
    'near': 'text: names that differ in one letter or in their order',
    'words': 'text: words of the sentence as names',
    'leaves': 'text: who leaves first, by its number',
    'wins': 'text: who wins after that, by its number',
    'gone': 'text: counts of those gone out on the sheets, which are not told',
    'ties': 'text: ties',
    'counts': 'text: counts of 0, 9, 10, 99, 100, 101, 110, 1,000 and others',
    'audited': 'text: some ballots audited, by the last of them',
    'n': 'text: 2 to 8 processes',
    'rounds': 'text: 1 to 7 rounds',
    'groups': 'text: the least group, tiny ones, q of 11 and 331',
    'longest': 'text: 8 names of 20 letters in 7 rounds',
    'K1000': 'text: K = 1,000 with n = 2',
}

# rows that are counted by place, with the places that they have
PLACED = {key: PLACES for key in BOARDS if key[0].isdigit() or key.startswith('message.')}
PLACED['3'] = PLACED['4'] = ('first', 'last')
PLACED['audited'] = PLACES
del PLACED['18.forged'], PLACED['19']
JOB_PLACED = {key: PLACES for key in ('5', '13', '14', '15', '17', '20', '20.pair', '20.audited',
                                      '20.shift', 'audited')}
JOB_PLACED['3'] = JOB_PLACED['4'] = ('first', 'last')
FIND_PLACED = {key: PLACES for key in ('1', '2', '5', '6', '15', '16.byte', '16.pair', '17', 'found',
                                       'place', 'audited')}
FIND_PLACED['3'] = FIND_PLACED['4'] = ('first', 'last')
TEXT_PLACED = {key: PLACES for key in TEXTS if key.isdigit()}
TEXT_PLACED.update({key: PLACES for key in ('21.empty', '21.long', '21.feed', '21.byte', '21.letter',
                                            '21.equal', 'length', 'leaves', 'wins', 'audited')})
TEXT_PLACED['3'] = TEXT_PLACED['4'] = TEXT_PLACED['11'] = ('first', 'last')


class Cases:
    """Named cases, each filed under keys of a table: 'KEY', or 'KEY PLACE' for a placed row."""

    def __init__(self, table, placed):
        self.table, self.placed = table, placed
        self.items, self.names, self.seen = [], set(), set()

    def add(self, name, case, expect, *covers):
        """expect: the answer that the making fixes, or None.  A case that is there is not filed
        again."""
        for cover in covers:
            key, _, place = cover.partition(' ')
            assert key in self.table and place in self.placed.get(key, ('',)), cover
        if case in self.seen:
            return
        name = re.sub('-*([.=])-*', r'\1', re.sub('[^a-z0-9.=+]+', '-', name.lower()))[:70].strip('-')
        same = sum(n == name or n.startswith(name + '.again') for n in self.names)
        if same:
            name += '.again%d' % same
        self.names.add(name)
        self.seen.add(case)
        self.items.append(Case(name, case, expect, covers))

    def rows(self):
        """(text, number or numbers by place) for each row of the table."""
        filed = [c for item in self.items for c in item.covers]
        for key, text in self.table.items():
            if key in self.placed:
                numbers = [filed.count('%s %s' % (key, p)) if p in self.placed[key] else None
                           for p in PLACES]
            else:
                numbers = [filed.count(key)]
            assert 0 not in numbers, (text, numbers)
            yield text, numbers


class Pool:
    """Keeps what a function of the reference's faults makes."""

    def __init__(self, make, *args):
        self.items = []
        make(self, *args)

    def add(self, name, board, expect=None, note='', sure=True):
        self.items.append(Made(name, board, expect if sure else None, note))

    def pick(self, cases, name, covers, note='', most=1, key=None, where=None, longest=BIG, cut=False):
        """Files the boards of a name whose note matches and for which where(board, note) holds;
        with a key, at most `most` of each key(board, note).  cut: without what stands behind the
        record that is refused."""
        groups = {}
        for item in self.items:
            if (item.name == name and re.search(note, item.note) and len(item.board) <= longest
                    and (where is None or where(item.board, item.note))):
                group = key(item.board, item.note) if key else item.board
                groups.setdefault(group, []).append(item)
        assert groups, (name, note)
        for items in groups.values():
            for item in spread(items, most):
                board = item.board[:end_of(item.board, item.expect[2])] if cut else item.board
                cases.add('%s.%s' % (name, item.note), board, item.expect, *covers)


def end_of(board, record):
    """Where a record of a board ends, the marks up to it being the ones due."""
    n, at, m = board[2], ref.HF_LENGTH, 1
    for _ in range(record):
        mark = board[at:at + 2]
        if mark == b'BA':
            at += ref.ba_length(n, board[at + 4])
        elif mark == b'SH':
            at += ref.sh_length(n, n - m + 1)
        else:
            at += ref.rt_length(n)
            m += 1
    return at


def spread(items, most):
    """At most so many, the first among them and, of two or more, the last."""
    if len(items) <= most:
        return items
    return [items[i * (len(items) - 1) // max(1, most - 1)] for i in range(most)]


def place(index, total):
    return PLACES[0] if index == 0 else PLACES[2] if index == total - 1 else PLACES[1]
