"""Groups of calls for change request T-02: one count for votes, V, and one for confirmation, N.

The sizing gives both, and the tuple vote keeps both. The paper asks for no relation between them, so the calls of the
tuple vote have V below N and above it. A count decides at the end of its own limit; the other limit's end must not.
"""

from itertools import permutations

from chance import below, pick
from groups_runs import caused_run
from groups_steps import MOST, sequence
from groups_words import parted
from lines import lent_for, line, run_call
from rules import word_of

WIDTHS = [1, 2, 3, 8, 31, 32]
SMALL = [(1, 2), (2, 1), (2, 3), (3, 2), (1, 4), (4, 1), (2, 5), (5, 2)]  # V and N
ENDS = [(1, 1000), (1000, 1), (999, 1000), (1000, 999)]
TWICE = SMALL + ENDS + ENDS + SMALL  # at two widths each, these being taken in turn
FAR = [(2, 5), (5, 2), (1, 1000), (1000, 1)]
ONE_WRONG = [(0, 2), (2, 0), (1001, 2), (2, 1001), (MOST, 2), (2, MOST)]
BOTH_WRONG = [(0, 1001), (1001, 0), (MOST, 0)]


def around_multiples():
    """Delays at a multiple of the least gap, where both counts are equal, and one below and above, where they are not.
    The thousandth multiple decides on number 10, for each count by itself."""
    for turn, Tm in enumerate((2, 3, 7, 10, 1000)):
        for times in (0, 1, 2, 5, 998, 999, 1000):
            for D in (times * Tm - 1, times * Tm, times * Tm + 1):
                if D >= 0:
                    yield line('sizing', [(1, 3, 32, 2, 31)[turn], Tm, Tm + turn, D])


def below_two_gaps():
    """T-02's example, a delay below the least gap, and all delays beside it up to two gaps: a division that rounds to
    the nearest would show."""
    for D in range(21):
        yield line('sizing', [2, 10, 13, D])
    yield from (line('sizing', [1, 1000000, 1000000, D]) for D in (0, 1, 500000, 999999, 1000000))


def greatest_delay():
    """The greatest delay with least gaps that just will not do, and that just will."""
    for Tm in (9999, 10000, 10001, 10005, 10010, 10011, 10012, 333333, 999999, 1000000):
        for n, D in ((1, 10000000), (32, 9999999)):
            yield line('sizing', [n, Tm, 1000000, D])


def lower_numbers():
    """The votes' count alone is above 1,000, and 2 or 9 applies too."""
    for n, Tm, TM, D in ((0, 2, 2, 1999), (33, 2, 2, 1999), (MOST, 2, 2, 1999), (1, 2, 1, 1999), (1, 2, 1000001, 1999),
                         (32, 10005, 1000000, 10000001), (0, 2, 1, 1999)):
        yield line('sizing', [n, Tm, TM, D])


def near_thousand(chance):
    """Random least gaps with delays near the thousandth multiple."""
    for _ in range(24):
        Tm = 2 + below(chance, 9000)
        D = pick(chance, [998, 999]) * Tm + below(chance, Tm + 1)
        yield line('sizing', [1 + below(chance, 32), Tm, Tm + below(chance, 1000), D])


def sizings(chance):
    """All groups of sizing calls of this file."""
    for group in (around_multiples(), below_two_gaps(), greatest_delay(), lower_numbers(), near_thousand(chance)):
        yield from group


def constructors(chance):
    """Every two different counts at the limits; number 1 for one count, beside 2 and 5; 2 and 5 alone; random ones."""
    for turn, counts in enumerate(permutations((0, 1, 2, 999, 1000, 1001, MOST), 2)):
        n = WIDTHS[turn % len(WIDTHS)]
        yield line('tuple.new', [n, *counts])
        yield line('tuple.from_word', [n, *counts, below(chance, 2 ** n)])
    for counts in ONE_WRONG + FAR:
        yield from (line('tuple.new', [n, *counts]) for n in (0, 33))
        yield from (line('tuple.from_word', [n, *counts, word]) for n, word in ((0, 0), (33, MOST), (3, 8)))
    for _ in range(12):
        n, counts = 1 + below(chance, 32), [below(chance, 1100), below(chance, 1100)]
        yield line('tuple.from_word', [n, *counts, below(chance, 2 ** n)])


def step(V, n, N, confirmation, agreed, counts, samples):
    """A call of a step. confirmation: previous input, previous output, count; counts: those of the n voters."""
    return line('tuple.step', [V, n, N] + confirmation + [agreed] + counts + [0] * (32 - n) + list(samples))


def deciding(limit, other):
    """Counts inside the limit: the first, the last two, and what would be the last two with the other limit."""
    return sorted({count for count in (0, limit - 2, limit - 1, other - 2, other - 1) if 0 <= count < limit})


def one_voter(chance):
    """One signal disagrees at each count that decides: it alarms at V-1 and holds below, whatever N is. The voted word
    is the confirmation's input, so that its count decides if there is no alarm."""
    for turn, (V, N) in enumerate(TWICE):
        for more, count in enumerate(deciding(V, N)):
            n = WIDTHS[(turn + more) % 6]
            common, first, shown, place = [below(chance, 2 ** n) for _ in range(3)] + [below(chance, n)]
            counts = [pick(chance, deciding(V, N)) for _ in range(n)]
            counts[place] = count
            agreed = common ^ pick(chance, [0, 2 ** place])
            confirmation = [agreed, shown, pick(chance, deciding(N, V))]
            yield step(V, n, N, confirmation, agreed, counts, parted(common, 2 ** place, first))


def one_confirmation(chance):
    """The confirmation at each count that decides: it confirms at N-1 and holds below, whatever V is; and a change of
    its input. Signals hold beside it where V allows that."""
    for turn, (V, N) in enumerate(TWICE):
        for more, count in enumerate(deciding(N, V) + [N - 1]):
            n = WIDTHS[(turn + more + 1) % 6]
            common, first, shown, apart = [below(chance, 2 ** n) for _ in range(4)]
            apart, last = (0, V) if V == 1 else (apart, V - 1)
            counts = [below(chance, last) for _ in range(n)]
            before = common if more < len(deciding(N, V)) else common ^ 2 ** below(chance, n)
            yield step(V, n, N, [before, shown, count], common, counts, parted(common, apart, first))


def any_steps(chance):
    """Random good states, most never reached; several signals hold, alarm and agree at once."""
    for turn in range(36):
        n, V, N = WIDTHS[turn % 6], 1 + below(chance, 4), 1 + below(chance, 4)
        agreed, common, first, shown = [below(chance, 2 ** n) for _ in range(4)]
        before = pick(chance, [common, agreed])
        apart = pick(chance, [0, common ^ agreed, below(chance, 2 ** n)])
        counts = [below(chance, V) for _ in range(n)]
        yield step(V, n, N, [before, shown, below(chance, N)], agreed, counts, parted(common, apart, first))


def counts_at_limits(chance):
    """Number 7. One voter's count at the end of each limit and beyond, in a signal that agrees or not; the same for
    the confirmation's count."""
    for turn, (V, N) in enumerate(SMALL[:2] + SMALL[-2:] + ENDS):
        n, voters, confirmed = WIDTHS[turn % 6], {V - 1, V, N - 1, N, 65536}, {V - 1, V, N - 1, N, MOST}
        word, place = below(chance, 2 ** n), pick(chance, [0, n - 1])
        for more, count in enumerate(sorted(voters)):
            counts = [0] * n
            counts[place] = count
            apart = (more + turn) % 2 * 2 ** place
            yield step(V, n, N, [word, 0, 0], word, counts, parted(word, apart, 0))
        for count in sorted(confirmed):
            yield step(V, n, N, [word, 0, count], word, [V - 1] * n, (word, word))


def counts_above(chance):
    """Number 7. A count at n or above that would do below n, by one limit or by both."""
    for turn, (V, N) in enumerate(SMALL + ENDS):
        n, counts = (1, 2, 3, 8, 31)[turn % 5], [0] * 32
        counts[pick(chance, [n, 31])] = pick(chance, [1, max(V, N) - 1])
        yield line('tuple.step', [V, n, N, 0, 0, 0, 0] + counts + [1, 1])


def refused_step(V, N, numbers, chance):
    """A step that gives cause for each of these numbers, 2, 6 and 7, beside what its counts give cause for."""
    n = below(chance, 2) * 33 if 2 in numbers else 3
    confirmation, agreed, counts, samples = [5, 4, 0], 5, [0] * 3, [5, 4]
    if 6 in numbers:
        samples[below(chance, 2)] += 8
    if 7 in numbers:
        kind = below(chance, 3)
        confirmation[2], agreed, counts[1] = [(MOST, 5, 0), (0, 8, 0), (0, 5, 1000)][kind]
    return line('tuple.step', [V, n, N] + confirmation + [agreed] + counts + [0] * 29 + samples)


def refused_steps(chance):
    """Number 1 for one count and for both, alone and beside 2, 6 and 7, which are higher; then these with good counts.
    The state comes back as it was given, V with it."""
    for V, N in ONE_WRONG + BOTH_WRONG:
        for numbers in ((), (2,), (6,), (7,), (2, 6, 7)):
            yield refused_step(V, N, numbers, chance)
    for V, N in FAR:
        for numbers in ((2,), (6,), (7,), (2, 7), (6, 7)):
            yield refused_step(V, N, numbers, chance)


def runs_of(n, V, N, word, samples, chance):
    """A call of a run over these pairs of samples."""
    columns = [list(column) for column in zip(*samples)]
    return run_call('tuple', [n, V, N, word], columns, lent_for('tuple', len(samples), chance))


def rows(V, N, length, chance):
    """One signal of a trace: 1 where the units disagree, in rows that just hold or just alarm, by either count;
    between them rows that just confirm, or just do not."""
    bits = []
    while len(bits) < length:
        bits += [0] * pick(chance, [1, N, N + 1, V + 1]) + [1] * pick(chance, [1, V - 1, V, V + 1, N - 1, N])
    return bits[:length]


def rows_in_runs(chance):
    """Runs that alarm, hold and confirm: one or two signals have rows of their own; the common word may change."""
    for n in WIDTHS:
        for V, N in SMALL + [(2, 2), (3, 3)]:
            places = [below(chance, n), below(chance, n)][:1 + below(chance, 2)]
            signals = [rows(V, N, 26, chance) if i in places else [0] * 26 for i in range(n)]
            common, samples = below(chance, 2 ** n), []
            for bits in zip(*signals):
                if below(chance, N + 5) == 0:
                    common ^= 2 ** below(chance, n)
                samples.append(parted(common, word_of(bits), 2 ** n - 1 if n % 2 else 0))
            yield runs_of(n, V, N, below(chance, 2 ** n), samples, chance)


def sound_units(chance):
    """T-02's reason. The second unit shows what the first one does, but some samples later. With the votes' count it
    never alarms, though whole words disagree for longer; with one less each change alarms. The signals change one
    by one."""
    for n in (1, 3, 32):
        for late in (1, 2, 4):
            word = below(chance, 2 ** n)
            changes = [word ^ 2 ** i - 1 for i in range(min(n, 4) + 1)]
            one = [word] * 2 + [change for change in changes for _ in range(2)] + [changes[-1]] * (2 * late + 3)
            two = [word] * late + one[:-late]
            for V, N in ((late + 1, late), (late + 1, late + 1), (late, late), (late, late + 1)):
                yield runs_of(n, V, N, word, list(zip(one, two)), chance)


def long_rows(chance):
    """One count at its least and the other at its greatest, or both there but one apart: rows of disagreement that
    just hold and just alarm, with rows before and after them that just confirm, and just do not."""
    for n, (V, N) in zip((1, 32, 3, 31), ENDS):
        for more in (0, 1):
            word = below(chance, 2 ** n)
            other = word ^ 2 ** n - 1
            agreed, apart = [(other, other)], [parted(other, 2 ** below(chance, n), other)]
            samples = agreed * (N + more) + apart * (V - 1 + more) + agreed * N + apart * V
            yield runs_of(n, V, N, word, samples[:2048], chance)
            yield runs_of(n, V, N, word, [(word, word)] + apart * (V + more) + agreed * (N + more), chance)


def refused_runs(chance):
    """Number 1 for one count, alone and beside each higher number; then these with good counts."""
    for counts in ONE_WRONG:
        for numbers in ((), (2,), (3,), (4,), (5,), (6,)):
            yield caused_run('tuple', list(counts), numbers, chance)
    for counts in BOTH_WRONG:
        yield caused_run('tuple', list(counts), (2, 3, 4, 5, 6), chance)
    for counts in FAR[:2]:
        for numbers in ((2,), (3,), (4,), (5,), (6,)):
            yield caused_run('tuple', list(counts), numbers, chance)


def sequences(chance):
    """A constructor, then steps, each from the state that the call before it left."""
    for n, V, N in ((1, 1, 3), (2, 3, 1), (2, 2, 3), (3, 2, 4), (8, 4, 2), (32, 3, 2)):
        yield from sequence('tuple', n, [V, N], below(chance, 2 ** n), 10, chance)


def tuples(chance):
    """All groups of tuple calls of this file."""
    for group in (constructors, one_voter, one_confirmation, any_steps, counts_at_limits, counts_above,
                  refused_steps, rows_in_runs, sound_units, long_rows, refused_runs, sequences):
        yield from group(chance)
