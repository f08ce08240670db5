"""plain_count.py - the count of rankings in the clear.  Words in quotation marks are 01's, on equal
counts 02's."""


def left_of(processes, all_counts, edge):
    """Those of the processes that the last round leaves, then "the one before it, and so on": of the
    ones still compared those with the fewest stay, or with the most.  edge: min or max."""
    for counts in reversed(all_counts):
        kept = edge(counts[i - 1] for i in processes)
        processes = [i for i in processes if counts[i - 1] == kept]
    return processes


def plain_count(n, rankings):
    """"The plain count": fed n and a list of rankings, reads no board.  Written on its own,
    without the functions that the checker uses.  "The plain count that accepted boards are held
    to uses this rule too."; of a board with audited ballots, "The plain result now concerns counted
    rankings" """
    m = 1
    still_in = set(range(1, n + 1))
    gone = []
    all_counts = []
    while True:
        # "In a round each ranking counts one for the first process on it that is still in;
        #  a process gone out has count 0."
        counts = {i: 0 for i in range(1, n + 1)}
        for ranking in rankings:
            for process in ranking:
                if process in still_in:
                    counts[process] += 1
                    break
        all_counts.append([counts[i] for i in range(1, n + 1)])
        # "If a process still in has 2 * count above the number of rankings, or if m = n-1,
        #  the round is the last, and the winner is the process still in with the highest
        #  count"; "The winner among equal highest is found the same way, more being better,
        #  lowest number last."
        if any(2 * counts[i] > len(rankings) for i in still_in) or m == n - 1:
            winner = min(left_of(still_in, all_counts, max))
            return (m, all_counts, gone, winner)
        # "Among those with the lowest count, the one goes out that had fewer in the latest earlier
        #  round where they differ; equal ones left after that round are compared in the one
        #  before it, and so on.  Only if all rounds agree does the highest number go out."
        loser = max(left_of(still_in, all_counts, min))
        still_in.remove(loser)
        gone.append(loser)
        m += 1
