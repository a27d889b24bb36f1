"""Groups of runs over a lent trace. X is one of confirm, vote, tuple, reserve.

In the runs of the tuple vote one N serves for both counts; groups_counts.py has the others.
"""

from itertools import combinations

from chance import below, walk
from groups_steps import COUNTS, WIDTHS
from lines import OUTPUTS, UNITS, counts_of, lent_for, run_call, run_line


def lengths(kind, chance):
    """Traces of every length at issue. Long ones hold long stretches of equal values."""
    for length in (0, 1, 2, 5, 2047, 2048, 2049):
        for n, N in ((1, 1), (2, 2), (3, 3), (32, 5), (2, 1000)):
            stay = 2 if length <= 5 else 80 if N < 1000 else 1500
            columns = walk(chance, n, UNITS[kind], length, stay)
            lent = lent_for(kind, length, chance)
            yield run_line(kind, n, N, below(chance, 2 ** n), columns, lent)


def greatest_count(kind, chance):
    """N 999 and 1,000 in a whole trace: just confirmed, just alarmed, and just not. Units 2
    and 4 show 0 throughout, or 1 as the others do."""
    for N in (999, 1000):
        for length in (N, N + 1, N + 2, 2048):
            for shown in (1,) if kind == 'confirm' else (0, 1):
                moved, other = [0] + [1] * (length - 1), [0] + [shown] * (length - 1)
                columns = [moved, other, moved, other][:UNITS[kind]]
                yield run_line(kind, 2, N, 0, columns, lent_for(kind, length, chance))


def widths_and_counts(kind, chance):
    """Every width and every count, with samples inside n 1."""
    for n, N in [(n, 2) for n in WIDTHS] + [(2, N) for N in COUNTS] + [(0, 0), (33, 1001)]:
        columns = walk(chance, 1, UNITS[kind], 6, 2)
        yield run_line(kind, n, N, 0, columns, lent_for(kind, 6, chance))


def unequal(kind, chance):
    """One slice shorter or longer than the others, in each position, inputs and outputs; T-09's is as long as the first
    column (groups_which.py has the others)."""
    positions = UNITS[kind] + len(OUTPUTS[kind])
    for position in range(positions):
        for length, other in ((5, 4), (5, 6), (5, 0), (0, 1), (5, 2049), (2048, 2047),
                              (2048, 2049), (2049, 5)):
            sizes = [length] * positions
            sizes[position] = other
            columns = [[0] * size for size in sizes[:UNITS[kind]]]
            lent = lent_for(kind, length, chance)
            lent = [(size, fill) for size, (_, fill) in zip(sizes[UNITS[kind]:], lent)]
            yield run_line(kind, 1, 2, 0, columns, lent)


def outside_samples(kind, chance):
    """Samples outside the width: first, middle, last; each column; several at once."""
    columns_of = range(UNITS[kind])
    alone = [[(column, at)] for column in columns_of for at in (0, 3, 6)]
    several = [[(below(chance, UNITS[kind]), below(chance, 7)) for _ in range(3)]
               for _ in range(8)]
    for n in (3, 31):
        for places in alone + several:
            columns = walk(chance, n, UNITS[kind], 7, 2)
            for column, at in places:
                columns[column][at] = 2 ** n
            yield run_line(kind, n, 2, 1, columns, lent_for(kind, 7, chance))
    for at in (0, 1023, 2047):
        columns = [[0] * 2048 for _ in columns_of]
        columns[-1][at:] = [8] * (2048 - at)
        yield run_line(kind, 3, 2, 1, columns, lent_for(kind, 2048, chance))


def outside_words(kind, chance):
    """The initial word just inside and outside the width, with samples and without."""
    for n in (1, 3, 31, 32):
        for word in (2 ** n - 1, 2 ** n % 2 ** 32, 2 ** 31):
            for length in (0, 4):
                columns = walk(chance, n, UNITS[kind], length, 2)
                yield run_line(kind, n, 2, word, columns, lent_for(kind, length, chance))


def caused_run(kind, counts, numbers, chance):
    """A run that gives cause for each of these refusal numbers, 2 to 6, beside what its counts give cause for."""
    length = 2049 if 3 in numbers else 5
    n = below(chance, 2) * 33 if 2 in numbers else 3
    word = 2 ** 31 if 5 in numbers else 5
    columns = [[1] * length for _ in range(UNITS[kind])]
    if 6 in numbers:
        columns[-1][2] = 2 ** 31
    lent = lent_for(kind, length, chance)
    if 4 in numbers:
        lent[0] = (length - 1, lent[0][1])
    return run_call(kind, [n] + counts + [word], columns, lent)


def refused_run(kind, numbers, chance):
    """A run that gives cause for each of these refusal numbers."""
    N = below(chance, 2) * 1001 if 1 in numbers else 2
    return caused_run(kind, counts_of(kind, N), numbers, chance)


def refusals(kind, chance):
    """Every refusal of a run alone, in pairs, and all of them."""
    for size in (1, 2, 3, 6):
        for numbers in combinations((1, 2, 3, 4, 5, 6), size):
            yield refused_run(kind, numbers, chance)


def short(kind, chance):
    """Random short traces with small widths and counts."""
    for _ in range(30):
        n, N, length = 1 + below(chance, 3), 1 + below(chance, 4), 5 + below(chance, 20)
        columns = walk(chance, n, UNITS[kind], length, 3)
        lent = lent_for(kind, length, chance)
        yield run_line(kind, n, N, below(chance, 2 ** n), columns, lent)


def runs(kind, chance):
    """All groups of runs."""
    for group in (lengths, greatest_count, widths_and_counts, unequal, outside_samples,
                  outside_words, refusals, short):
        yield from group(kind, chance)
