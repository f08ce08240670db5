"""dishonest.py - whole boards made to deceive."""
import boardref as ref
from gen import HOUSE

from . import ballots, elements, sheets, shifts
from .audits import audits
from .election import LISTS3, P23, PAIRS4, Crafts, election, join
from .forged import forged
from .messages import boards_of_01, other_messages
from .moved import moved
from .openings import openings
from .ties import ties


def dishonest(out, rng):
    new = Crafts(rng).new
    honest(out, new)
    ballots.entries_of_2(out, new)
    ballots.lines_not_1(out, new)
    for group in (HOUSE, P23):
        ballots.equations(out, new, group)
        shifts.equations(out, new, group)
    shifts.last_rows(out, new)
    shifts.one_entry(out, new)
    shifts.struck_otherwise(out, new)
    sheets.stops_early(out, new)
    sheets.goes_on(out, new)
    sheets.wrong_out(out, new)
    sheets.moved_votes(out, new)
    sheets.first_equation_alone(out, new)
    elements.order_2(out, new)
    elements.order_3(out, rng, new)
    elements.zeros(out, new)
    forged(out, rng, new)
    ties(out, new)
    other_messages(out, new)
    boards_of_01(out, new)
    moved(out, new)
    audits(out, rng, new)
    openings(out, new)


def honest(out, new):
    """Honest boards made by Craft: the builder itself is sound."""
    for n, lists in ((2, [[1, 2], [2, 1]]), (3, LISTS3), (4, PAIRS4)):
        records, *outcome = election(new(n, len(lists)), lists)
        rounds, _, outs, winner = ref.plain_count(n, lists)
        assert outcome == [rounds, outs, winner]
        out.add('honest', join(records), ('accepted', *outcome), 'by Craft')
