"""Groups of calls for change request T-04: a constructor without an initial word starts from all ones within the width.

It can go wrong at one width (examples.py has every one), in one field of a state, just above the width, and where zero
stays: in what a refused constructor returns, and wherever a caller or a recording names it. After that such a start is
like any other, so its first steps and runs are called too. `kind` is one of confirm, vote, tuple, reserve.
"""

import protocol
from chance import below
from groups_steps import MOST, state_after
from lines import UNITS, counts_of, good_recording, lent_for, line, run_call

ONE_COUNT = [[2], [1], [3]]
TWO_COUNTS = [[2, 3], [1, 2], [3, 1], [2, 1]]  # V and N of the tuple vote
# Refused widths and counts. A program which cuts bits off them, or shifts by so many, takes most of them for good ones,
# and some, as 64, 256, 1024 and 65536, for 0.
BEYOND = [34, 63, 64, 65, 96, 256, 257, 288, 65537, 65568, 2 ** 31 + 1, MOST - 31]
MANY = [1024, 1025, 65536, 65537, 65536 + 1000, 2 ** 31 + 1]
# Where these stand among the numbers of a step: the stored words, the count (the confirmation's), the samples.
STORED = {'confirm': [2, 3], 'vote': [2], 'tuple': [3, 4, 6], 'reserve': [3]}
COUNT = {'confirm': 4, 'vote': 3, 'tuple': 5, 'reserve': 4}
SAMPLES = {'confirm': [5], 'vote': [4, 5], 'tuple': [39, 40], 'reserve': [5, 6, 7, 8]}
VOTERS = 7  # in the tuple vote: the first of 32 counts


def all_ones(n):
    """A one for each of the n signals."""
    return sum(2 ** i for i in range(n))


def one_more(n):
    """All ones, and the bit just above the width; there is none at n 32."""
    return all_ones(n) + 2 ** n


def counts_in_turn(kind, turn):
    """Small counts."""
    several = TWO_COUNTS if kind == 'tuple' else ONE_COUNT
    return several[turn % len(several)]


def accepted(kind, calls):
    """The numbers of each accepted call without an initial word, n first."""
    for call in calls:
        name, *numbers = call.split(' ')
        if name == kind + '.new' and protocol.result(call).number == 0:
            yield [int(number) for number in numbers]


def refused(kind):
    """No initial word, and number 1 or 2: the state of n 1, N 1 and word zero comes back, not the default of n 1. Of
    a refused width no word can be made."""
    for turn, n in enumerate(BEYOND):
        yield line(kind + '.new', [n] + counts_in_turn(kind, turn))
    for turn, many in enumerate(MANY):
        counts = list(counts_in_turn(kind, turn))
        counts[turn % len(counts)] = many
        yield line(kind + '.new', [(1, 8, 32)[turn % 3]] + counts)
        if turn < 3:
            yield line(kind + '.new', [(0, 64, 257)[turn]] + counts)


def named(kind):
    """The default named, which is the same start; then with the bit above the width, or 32 ones: number 5."""
    for turn, n in enumerate((1, 4, 8, 16, 17, 24, 30, 31, 32)):
        before = [n] + counts_in_turn(kind, turn)
        yield line(kind + '.from_word', before + [all_ones(n)])
        if n < 32:
            yield line(kind + '.from_word', before + [one_more(n) if turn % 2 == 0 else MOST])


def two_words(n, chance):
    """Two different words, neither of them all ones if there are others."""
    if n == 1:
        return 0, 1
    ones = all_ones(n)
    some = below(chance, ones)
    return some, (some + 1 + below(chance, ones - 1)) % ones


def until_shown(kind, counts):
    """So many samples must agree on a word until it is shown: the tuple vote confirms it too."""
    return counts[1] + 1 if kind == 'tuple' else 1


def rest_then_leave(kind, n, counts, chance):
    """The samples of each step: first the start's word, then others."""
    ones, (some, other) = all_ones(n), two_words(n, chance)
    rest, apart, zero = (ones, ones), (ones, min(some, other)), (0, 0)
    if kind == 'confirm':
        return [(ones,)] * counts[0] + [(0,)] * 2
    if kind == 'reserve':
        return [rest + zero] + [apart + zero] * counts[0] + [zero + (some, other), zero + (some, some)]
    return [rest] + [apart] * counts[0] + [zero] * until_shown(kind, counts)


def leave_at_once(kind, n, counts, chance):
    """The samples of each step: never the start's word, at n 2 and above. A vote holds it, and alarms with it, until
    two units agree; a confirmation holds it until another word was there for long enough."""
    some, other = two_words(n, chance)
    apart, agreed, zero = (some, other), (some, some), (0, 0)
    if kind == 'confirm':
        return [(0,)] * (counts[0] + 1) + [(some,)]
    if kind == 'reserve':
        return [apart + zero] * counts[0] + [zero + apart] * (counts[0] + 1) + [agreed + zero]
    return [apart] * counts[0] + [agreed] * until_shown(kind, counts)


def first_steps(kind, chance):
    """No initial word, then steps, each from the state that the call before it left. In the vote of two words some
    have a reset at the first step."""
    for turn, n in enumerate((1, 3, 31, 2, 8, 32)):
        counts, plan = counts_in_turn(kind, turn), (rest_then_leave, leave_at_once)[turn // 3]
        call = line(kind + '.new', [n] + counts)
        yield call
        for number, samples in enumerate(plan(kind, n, counts, chance)):
            reset = [int(number == 0 and n > 2)] if kind == 'vote' else []
            call = line('%s.step %s' % (kind, state_after(call)), list(samples) + reset)
            yield call


def changed_start(kind, n, turn, changes):
    """A step from a start without an initial word, in which all units show all ones; other numbers at some places."""
    state = state_after(line(kind + '.new', [n] + counts_in_turn(kind, turn)))
    values = [int(number) for number in state.split(' ')]
    values += [all_ones(n)] * UNITS[kind] + [0] * (kind == 'vote')
    return line(kind + '.step', [changes.get(place, value) for place, value in enumerate(values)])


def damaged_steps(kind):
    """A start with one word that has too many ones, stored or sampled: numbers 7 and 6. Each place has 32 ones at
    one width, and just one too many at another. Then all stored ones alike, all samples alike, and all of both. Then a
    count that is too high, or stands at an absent signal."""
    stored, samples = STORED[kind], SAMPLES[kind]
    for turn, places in enumerate([[place] for place in (stored + samples) * 2] + [stored, samples, stored + samples]):
        n = (3, 17, 8, 16, 1, 30, 31)[turn % 7]
        more = MOST if turn % 2 == 0 else one_more(n)
        yield changed_start(kind, n, turn, {place: more for place in places})
    for turn, n in enumerate((1, 17, 31)):
        yield changed_start(kind, n, turn, {COUNT[kind]: counts_in_turn(kind, turn)[-1]})
        if kind == 'tuple':
            yield changed_start(kind, n, turn, {VOTERS + n: 1})


def runs(kind, chance):
    """Runs from all ones, and over the same samples from zero, both named; with too many ones: number 5."""
    greatest = [1000, 999] if kind == 'tuple' else [1000]
    for plan in (rest_then_leave, leave_at_once):
        for turn, n in enumerate((5, 16, 32)):
            counts = counts_in_turn(kind, turn) if n < 32 else greatest
            columns = [list(column) for column in zip(*plan(kind, n, counts, chance))]
            too_many = [] if n == 32 else [one_more(n) if plan == rest_then_leave else MOST]
            for word in [all_ones(n), 0] + too_many:
                yield run_call(kind, [n] + counts + [word], columns, lent_for(kind, len(columns[0]), chance))


def zero_named(kind, calls):
    """What each accepted call without an initial word answered before T-04, now with zero named."""
    for numbers in accepted(kind, calls):
        yield line(kind + '.from_word', numbers + [0])


def starts(kind, calls, chance):
    """All groups of this file but the recordings, for a room that has these calls already."""
    made = list(refused(kind)) + list(named(kind)) + list(first_steps(kind, chance))
    made += list(damaged_steps(kind)) + list(runs(kind, chance))
    return made + list(zero_named(kind, calls + made))


def leave_and_return(kind, n, counts, chance):
    """The samples of each step: unit 2 leaves the start's word at once and comes back, so soon that it alarms only with
    N 1; then all leave. Above N 1 a confirmation shows whether each place of the state had the start's word."""
    ones, N = all_ones(n), counts[0]
    pairs = [(ones, below(chance, ones))] * max(N - 1, 1) + [(ones, ones)] * 2 + [(0, 0)] * (N + 1)
    return [(pair * 2)[:UNITS[kind]] for pair in pairs]


def seen_from(word, n, steps):
    """The columns of samples that are planned for a start from all ones; for one from zero every bit is inverted."""
    return [[all_ones(n) - value if word == 0 else value for value in column] for column in zip(*steps)]


def recordings(chance):
    """Recordings name their word, and zero is not a missing one: from zero, from all ones, and with the bit above the
    width, which is number 5. A unit leaves the word, or two disagree, so early that a listing shows it for a while."""
    for kind in ('confirm', 'tuple', 'reserve'):
        for n, N in ((3, 2), (17, 1), (31, 3), (32, 2)):
            for plan in (leave_at_once, leave_and_return):
                steps = plan(kind, n, counts_of(kind, N), chance)
                times = [10000 * at for at in range(len(steps))]
                too_wide = [] if n == 32 else [one_more(n) if plan == leave_at_once else 2 ** n]
                for word in [0, all_ones(n)] + too_wide:
                    yield good_recording(n, N, word, times, seen_from(word, n, steps))
