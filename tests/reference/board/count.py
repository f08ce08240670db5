"""count.py - the count on a board, sheet by sheet.  Words in quotation marks are 01's, on equal
counts and on what is counted 02's."""
from collections import namedtuple

# "Each sheet takes the standing count and hands back the next."

Standing = namedtuple('Standing', 'n C m still_in outs sheets')
# C: how many ballots are counted; m: round of the sheet to come; still_in, outs: tuples of process
# numbers; sheets: the counts of rounds 1 to m-1, once the board is closed of round m too


def first_standing(n, C):
    return Standing(n, C, 1, tuple(range(1, n + 1)), (), ())


def closes(standing, counts):
    """"A round closes the board if a process still in has 2 * count > K, or if m = n-1.";
    "counts, their sum on each sheet, majority and the count limit of 9 are over counted ballots" """
    for i in standing.still_in:
        if 2 * counts[i - 1] > standing.C:
            return True
    return standing.m == standing.n - 1


def latest_first(standing, counts, i):
    """The counts of process i in this round, in "the latest earlier round", in "the one before it,
    and so on".  Two processes stand to each other as the first of these in which they differ."""
    return [sheet[i - 1] for sheet in (counts, *reversed(standing.sheets))]


def winner_due(standing, counts):
    """"the winner is the process still in with the highest count"; "The winner among equal highest
    is found the same way, more being better, lowest number last." """
    best = None
    for i in standing.still_in:                     # rising numbers
        if best is None or latest_first(standing, counts, i) > latest_first(standing, counts, best):
            best = i
    return best


def lowest_due(standing, counts):
    """"Otherwise out is the process still in with the lowest count"; "Among those with the lowest
    count, the one goes out that had fewer in the latest earlier round where they differ; equal ones
    left after that round are compared in the one before it, and so on.  Only if all rounds agree
    does the highest number go out." """
    worst = None
    for i in standing.still_in:                     # rising numbers
        if worst is None or (latest_first(standing, counts, i)
                             <= latest_first(standing, counts, worst)):
            worst = i
    return worst


def after_out(standing, counts, a):
    return standing._replace(m=standing.m + 1,
                             still_in=tuple(i for i in standing.still_in if i != a),
                             outs=standing.outs + (a,),
                             sheets=standing.sheets + (tuple(counts),))


def after_close(standing, counts):
    """With the counts of the closing sheet: nothing else changes."""
    return standing._replace(sheets=(*standing.sheets, tuple(counts)))
