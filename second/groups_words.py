"""Groups of calls of the tuple vote for change request T-03: the signals that disagree, as one word.

No answer changes with it. But a vote that works on whole words can go wrong at one width, at one place of the word,
or for a signal that alarms beside others that hold or agree. So each group has every width, and the steps of a width
bring every place into every situation of their group. One N serves for both counts; groups_counts.py has the others.
"""

from chance import below, pick
from lines import lent_for, run_line, tuple_step
from rules import word_of

EVERY_WIDTH = range(1, 33)
MOST = 4294967295
AGREED, COUNTS, SAMPLES = 5, 6, 38  # where these stand among the numbers of a step after V: one, 32, two

# The situation of a signal in a step: which of the two units depart from its agreed bit, and its count. If one unit
# departs, the count N-1 alarms and a lower one holds. If none or both do, they agree, whatever the count.
ALARMS = [(1, 0, 'last'), (0, 1, 'last')]
HOLDS = [(1, 0, 'lower'), (0, 1, 'lower')]
AGREES = [(1, 1, 'last'), (0, 0, 'some')]


def count_of(kind, N, chance):
    """A count of this kind. Of the lower ones those that decide, and those after which 8 or 9 bits would not do."""
    if kind == 'last':
        return N - 1
    if kind == 'some':
        return 1 + below(chance, N - 1)
    return pick(chance, [0, N - 2, min(255, N - 2), min(511, N - 2), below(chance, N - 1)])


def signal(situation, N, chance):
    """One signal of a step: its agreed bit, its count, its bit of each unit."""
    one, two, kind = situation
    agreed = below(chance, 2)
    return agreed, count_of(kind, N, chance), (agreed + one) % 2, (agreed + two) % 2


def turned(n, situations, chance):
    """For each turn the situation of every signal. In the turns together every signal is in each of them once. Signals
    0 and 1 are half the turns apart, so that at n 2 too each of them agrees while the other one alarms."""
    many = len(situations)
    starts = [below(chance, many) for _ in range(n)]
    starts[1:2] = [starts[0] + many // 2][:n - 1]
    for turn in range(many):
        yield [situations[(start + turn) % many] for start in starts]


def step_line(n, N, confirmation, signals):
    """A call of a step. confirmation: previous input, previous output, count."""
    agreed, counts, a, b = zip(*signals)
    return tuple_step([n, N] + confirmation + [word_of(agreed)] + list(counts) + [0] * (32 - n)
                      + [word_of(a), word_of(b)])


def voted(signals):
    """The word for confirmation, if no signal alarms."""
    return word_of(a if a == b else agreed for agreed, _, a, b in signals)


def alarms_beside_others(chance):
    """Signals that alarm, hold and agree in one sample. The others step too, the confirmation does not."""
    limits = [2, 3, 4, 5, 300, 1000]
    for n in EVERY_WIDTH:
        for turn, situations in enumerate(turned(n, ALARMS + HOLDS + AGREES, chance)):
            N = limits[(n + turn) % len(limits)]
            signals = [signal(situation, N, chance) for situation in situations]
            confirmation = [below(chance, 2 ** n), below(chance, 2 ** n), below(chance, N)]
            yield step_line(n, N, confirmation, signals)


def holds_beside_agreements(chance):
    """No alarm: held bits and newly agreed ones are put together, then confirmed, held, or held after a change."""
    limits = [2, 3, 1000]
    for n in EVERY_WIDTH:
        for turn, situations in enumerate(turned(n, HOLDS + AGREES[:1], chance)):
            N = limits[(n + turn) % len(limits)]
            signals = [signal(situation, N, chance) for situation in situations]
            word, shown = voted(signals), below(chance, 2 ** n)
            confirmation = [[word, shown, N - 1], [word, shown, below(chance, N - 1)],
                            [word ^ 2 ** below(chance, n), shown, N - 1]][turn]
            yield step_line(n, N, confirmation, signals)


def all_agree(chance):
    """No signal disagrees, and the counts that there are go to zero all the same; the word is confirmed."""
    for n in EVERY_WIDTH:
        N = pick(chance, [2, 3, 1000])
        signals = [signal(pick(chance, AGREES), N, chance) for _ in range(n)]
        yield step_line(n, N, [voted(signals), below(chance, 2 ** n), N - 1], signals)


def no_holds(chance):
    """N 1: every count is 0, and a signal that disagrees alarms at once."""
    for n in EVERY_WIDTH:
        signals = [signal((below(chance, 2), below(chance, 2), 'last'), 1, chance) for _ in range(n)]
        yield step_line(n, 1, [voted(signals), below(chance, 2 ** n), 0], signals)


def parted(common, apart, first):
    """The sample of each unit. Both show the common word, but for the signals apart: these are inverted
    in the first unit where `first` has them, and in the second unit elsewhere."""
    return common ^ apart & first, common ^ apart & ~first


def words_run(n, N, word, samples, chance):
    """A call of a run over these pairs of samples."""
    columns = [list(column) for column in zip(*samples)]
    return run_line('tuple', n, N, word, columns, lent_for('tuple', len(samples), chance))


def one_at_a_time(chance):
    """N 1: every signal alone alarms at once, then some, the other ones, all; none."""
    for n in EVERY_WIDTH:
        every = 2 ** n - 1
        common, first, some = [below(chance, 2 ** n) for _ in range(3)]
        sets = [0] + [2 ** i for i in range(n)] + [some, every - some, every, 0, 0]
        samples = [parted(common, apart, first) for apart in sets]
        yield words_run(n, 1, every - common, samples, chance)


def one_after_another(chance):
    """N 2: every signal holds while the one before it alarms, then alarms while the next one holds; upwards at even
    widths, downwards at odd ones. At the last alarm the others agree on their inverted bits, which they hold
    at the next sample, so that the word is confirmed only if these were stored."""
    for n in EVERY_WIDTH:
        every, (common, first, word) = 2 ** n - 1, [below(chance, 2 ** n) for _ in range(3)]
        singles = [2 ** i for i in range(n)][::1 if n % 2 == 0 else -1]
        sets = [0] + [one + two for one, two in zip(singles, [0] + singles)]
        samples = [parted(common, apart, first) for apart in sets]
        samples += [parted(every - common, apart, first) for apart in (singles[-1], every - singles[-1], 0, 0)]
        yield words_run(n, 2, word, samples, chance)


def one_sample_between(chance):
    """One agreement between rows of disagreements that are too short: no alarm. First all signals together, with rows
    of one and of N-1, so that between them none disagrees; then each signal in its own time. Then all go on
    disagreeing, and the alarms come up in the order of the counts."""
    for n in EVERY_WIDTH:
        N, every = 3 + n % 2, 2 ** n - 1
        starts = [below(chance, N) for _ in range(n)]
        sets = [every, 0] * N + ([every] * (N - 1) + [0]) * 2
        sets += [word_of(int((start + turn) % N != 0) for start in starts) for turn in range(2 * N)]
        sets += [every] * (N + 1)
        common, first, word = [below(chance, 2 ** n) for _ in range(3)]
        samples = [parted(common, apart, first) for apart in sets] + [(word, word)] * (N + 2)
        yield words_run(n, N, common, samples, chance)


def held_until_confirmed(chance):
    """A word is agreed on, its signals disagree for N-1 samples, it is agreed on again, and is confirmed: what a unit
    showed in between does not count. Four times all signals disagree, so that each does with both
    bits and with either unit departing; then some of them."""
    for n in EVERY_WIDTH:
        N, every, samples = 2 + n % 2, 2 ** n - 1, []
        words = [(word_of(common), every, word_of(first)) for common, first in
                 (zip(*kinds) for kinds in turned(n, [(0, 0), (1, 0), (0, 1), (1, 1)], chance))]
        words += [tuple(below(chance, 2 ** n) for _ in range(3)) for _ in range(5)]
        for common, apart, first in words:
            samples += [(common, common)] + [parted(common, apart, first)] * (N - 1) + [(common, common)]
        yield words_run(n, N, below(chance, 2 ** n), samples, chance)


def rows(N, length, chance):
    """One signal of a trace: 1 where the units disagree, in rows that just hold, just alarm, and go on to alarm."""
    bits = []
    while len(bits) < length:
        bits += [0] * pick(chance, [1, 1, 2, N]) + [1] * pick(chance, [1, N - 1, N, N + 1])
    return bits[:length]


def rows_run(n, N, places, chance):
    """A run in which each signal at these places has rows of its own. From time to time the common word changes, and
    the unit that departs from it; so a signal may go on disagreeing with both bits exchanged."""
    length = 36
    signals = [rows(N, length, chance) if i in places else [0] * length for i in range(n)]
    samples = []
    for bits in zip(*signals):
        if not samples or below(chance, 5) == 0:
            common, first = below(chance, 2 ** n), below(chance, 2 ** n)
        samples.append(parted(common, word_of(bits), first))
    return words_run(n, N, below(chance, 2 ** n), samples, chance)


def each_its_own(chance):
    """Rows at every place with a small N; rows at a few places, the last one among them, with a larger N."""
    for n in EVERY_WIDTH:
        yield rows_run(n, 2 + (n + 1) % 3, range(n), chance)
        yield rows_run(n, 5 + n % 4, [n - 1, below(chance, n), below(chance, n)], chance)


def good_step(n, N, apart, chance):
    """The numbers of a good step, without V, in which these signals disagree."""
    common, first, agreed, before, shown = [below(chance, 2 ** n) for _ in range(5)]
    counts = [below(chance, N) for _ in range(n)] + [0] * (32 - n)
    return [n, N, before, shown, below(chance, N), agreed] + counts + list(parted(common, apart, first))


def some_places(n, chance):
    """Four places below n, or as many as there are: the last, the third and the eighth from the end, other ones."""
    taken = [place for place in (n - 1, n - 3, n - 8) if place >= 0]
    left = [place for place in range(n) if place not in taken]
    while left and len(taken) < 4:
        taken.append(left.pop(below(chance, len(left))))
    return taken


def counts_of_N(chance):
    """One count of N or more below n: in a sample without disagreement; where all signals disagree; where all do but
    this one; where this one alone does."""
    for n in EVERY_WIDTH:
        for turn, place in enumerate(some_places(n, chance)):
            N, every = pick(chance, [1, 2, 3, 1000]), 2 ** n - 1
            apart = [0, every, every - 2 ** place, 2 ** place][(n + turn) % 4]
            values = good_step(n, N, apart, chance)
            values[COUNTS + place] = pick(chance, [N, N, N, N + 1, 65536, MOST])
            yield tuple_step(values)


def counts_above(chance):
    """One count at n or above that would do below n: at n itself, and at another place."""
    for n in EVERY_WIDTH[:-1]:
        for place in [n] if n == 31 else [n, 31 if n % 3 == 0 else n + 1 + below(chance, 31 - n)]:
            N = pick(chance, [2, 3, 1000])
            values = good_step(n, N, pick(chance, [0, below(chance, 2 ** n), 2 ** n - 1]), chance)
            values[COUNTS + place] = pick(chance, [1, 1, N - 1])
            yield tuple_step(values)


def bits_above(chance):
    """A bit at n or above: in both samples, so that they do not differ there; in one sample; in the agreed bits."""
    for n in EVERY_WIDTH[:-1]:
        for fields in ([SAMPLES, SAMPLES + 1], [SAMPLES + n % 2], [AGREED]):
            values = good_step(n, 3, pick(chance, [0, below(chance, 2 ** n)]), chance)
            bit = 2 ** pick(chance, [n, 31, n + below(chance, 32 - n)])
            for field in fields:
                values[field] += bit
            yield tuple_step(values)


def bits_above_in_runs(chance):
    """The first sample outside the width has the same bit in both units, a later one in one unit; then one alone."""
    for n in EVERY_WIDTH[:-1]:
        for both in (True, False):
            common, first = below(chance, 2 ** n), below(chance, 2 ** n)
            samples = [parted(common, below(chance, 2 ** n), first) for _ in range(7)]
            at, bit = below(chance, 5), 2 ** pick(chance, [n, 31, n + below(chance, 32 - n)])
            one, two = samples[at]
            if both:
                samples[at], samples[at + 2] = (one + bit, two + bit), (common, common + bit)
            else:
                samples[at] = (one + bit, two) if n % 2 == 0 else (one, two + bit)
            yield words_run(n, 2, common, samples, chance)


def words(chance):
    """All groups of this file: steps, runs, refused steps, refused runs."""
    for group in (alarms_beside_others, holds_beside_agreements, all_agree, no_holds, one_at_a_time,
                  one_after_another, one_sample_between, held_until_confirmed, each_its_own, counts_of_N,
                  counts_above, bits_above, bits_above_in_runs):
        yield from group(chance)
