"""Groups of calls for change request T-09: which unit still shows the last agreed word.

It can go wrong in the word that is compared with: an older one, the start's, one that units 3 and 4 agreed on by
themselves, or the output of a confirmation. It can go wrong in whom it speaks of, in when it is said, in one bit of a
word, and in the slice that a run writes it to. `kind` is one of vote, tuple, reserve.
"""

from chance import below, pick
from groups_counts import step as tuple_step
from groups_start import COUNT, SAMPLES, STORED, VOTERS, all_ones
from groups_steps import MOST, state_after
from lines import OUTPUTS, UNITS, WHICH_FILLS, WORD_FILLS, lent_for, line, run_call

EVERY_WIDTH = range(1, 33)
# N, and a count: below it those that hold first and last, and the one that alarms.
LIMITS = [(1, 0), (2, 0), (2, 1), (3, 0), (3, 1), (3, 2), (4, 2), (300, 255), (300, 256), (300, 299),
          (999, 0), (999, 997), (999, 998), (1000, 0), (1000, 998), (1000, 999)]
LEAVES = ['first', 'second', 'neither']

# A story is told sample by sample, a letter for each unit. l: the last agreed word; e: another one, agreed on before
# it; s: the start's word; r: what units 3 and 4 last agreed on by themselves; x and y: two different words, and if
# possible none of these. `*3` repeats a sample; `*N` does so until it alarms, from a count of 0.
SINGLE = ['lx xl ll lx xx xl lx ll xl*3 lx*2 xx xl', 'xl*2 lx xx xx lx*3 xl ll xl']
STORIES = [
    'lx xl xy yx lx ll xl',              # from the first sample on: the start's word is the last agreed one
    'xy lx xl ll xl',                    # the same, neither first
    'll lx ll xl xy',                    # agreed on the old word
    'xx le el lx xl ex xe',              # agreed on a new word: the old one does not count
    'xx xx xx es se sl ls el le xe sx',  # nor do those before, for one unit or for both
    'xx ss el le ex xs',                 # agreed on the start's word again
    'lx*3 xl*2 xy*3 lx yx xl*2 ll xl',   # alarms that last while units leave and come back
    'xy*4 xx el le ex xl lx xx le',      # agreed on a new word after an alarm
]
SINGLE_RESERVE = ['xxll lxxl*N llxl lllx lxxl xllx xxxx lxlx llxl', 'xlxx*N xxlx lllx xxxl*2 lxlx*2 xxxx llel']
RESERVE_STORIES = [
    'xxyy lxrr*N llrl lllr llrx llxr xyll llrl',           # units 3 and 4 agreed on a word of their own
    'xxxx xlll*N llxy llxl*2 lllx xxxx llel lxle',         # at the hand-over only units 1 and 2 show the agreed word
    'xxyy xyll*N xylx xyxl xyll xylx xyxl*3',              # the other way round: only unit 3 does
    'xyxx*N xysx xyxs lsxy ssyx ssxx xyex xyxe',           # no agreement before the hand-over
    'xxxx xxxx esll*N lxse lxes lxsl lxls lxel lxle',      # at the hand-over both show words agreed on before
    'xxlx lxxx*N xyll xylx yxxl xyxy*3',                   # at the hand-over agreed, on the old word
    'xxxl xlxx*N lxxx lxel lele exxe xyll',                # at the hand-over agreed, on a new word
    'xxyy xylx*N xyrx xyxr llxy*3 llxl*2 lllx ssll elxl',  # units 3 and 4 alarm too
]
TOLD = {'vote': (SINGLE, STORIES), 'reserve': (SINGLE_RESERVE, RESERVE_STORIES)}
# n, N and a story, in which rows just hold and just alarm; some have 2,048 samples.
LONG = {'vote': [(32, 1000, 'xx le*999 el*2 xy xl ll xl'), (3, 999, 'xy*998 xl*3 ll lx*998 xy xl'),
                 (2, 1, 'xx le*700 el*700 xe*640 xl*7'), (31, 1000, 'xl*1000 xy*1000 lx*48')],
        'reserve': [(32, 1000, 'xxyy lxrl*N llrl*900 lllr*99 llxy*3'), (3, 999, 'xxyy xlrr*N xxrx*1000 llxl*2'),
                    (2, 1, 'xxyy xyrl*N llrl*1000 lllr*900 ssrx*146')]}


def departures(n, turn, chance):
    """What a word may differ in from another one: the lowest bit, the top bit, all bits, of these another one first
    in each turn; one bit, some bits. There is one at n 1, and else there are three or more."""
    known = [1, 2 ** (n - 1), all_ones(n)]
    known = known[turn % 3:] + known[:turn % 3]
    return known + [2 ** below(chance, n) for _ in range(2)] + [1 + below(chance, all_ones(n)) for _ in range(4)]


def letters(n, past, own, turn, chance):
    """The word for each letter. past: the words agreed on, the start's first; own: units 3 and 4's, or None."""
    last = past[-1]
    other = [last ^ departure for departure in departures(n, turn, chance)]
    unused = [word for word in other if word not in past and word != own]
    x, y = (list(dict.fromkeys(unused + other)) + [None])[:2]
    earlier = [word for word in past if word != last] or [None]
    return {'l': last, 's': past[0], 'e': earlier[-1], 'r': own, 'x': x, 'y': y}


def told(n, N, word, story, chance):
    """The samples of a story, two or four units'. After `*N` units 3 and 4 are in force."""
    past, own, samples, in_force = [word], None, [], 0
    for turn, token in enumerate(story.split()):
        units, _, times = token.partition('*')
        meant = letters(n, past, own, turn, chance)
        shown = tuple(meant[unit] for unit in units)
        samples += [shown] * (N if times == 'N' else int(times or 1))
        one, two = shown[in_force:in_force + 2]
        if one == two:
            past.append(one)
        if in_force == 0 and shown[-2] == shown[-1]:
            own = shown[-1]
        if times == 'N':
            in_force = 2
    return samples


def start_words(n, turn, chance):
    """Zero, all ones, another word."""
    return [0, all_ones(n), below(chance, 2 ** n)][turn % 3]


def run_of(kind, n, counts, word, samples, chance):
    """A call of a run over these samples."""
    columns = [list(column) for column in zip(*samples)]
    return run_call(kind, [n] + counts + [word], columns, lent_for(kind, len(samples), chance))


def steps_of(kind, n, counts, word, samples, resets=()):
    """A constructor, then steps, each from the state that the call before it left; in the vote of two words with a
    reset at these."""
    call = line(kind + '.from_word', [n] + counts + [word])
    yield call
    for number, shown in enumerate(samples):
        reset = [int(number in resets)] if kind == 'vote' else []
        call = line('%s.step %s' % (kind, state_after(call)), list(shown) + reset)
        yield call


def stories(kind, chance):
    """Every story with N 1, 2 and 3 at small widths, those of single signals too; then one at every width, in the vote
    of two words with greater counts too."""
    single, several = TOLD[kind]
    limits = [1, 2, 3, 4, 5] + ([999, 1000] if kind == 'vote' else [])
    plan = [(3 + number % 4, N, story) for number, story in enumerate(several) for N in (1, 2, 3)]
    plan += [(1, N, story) for story in single for N in (1, 2, 3)]
    plan += [(n, pick(chance, limits), several[n % 8]) for n in EVERY_WIDTH[1:]]
    for turn, (n, N, story) in enumerate(plan):
        word = start_words(n, turn, chance)
        yield run_of(kind, n, [N], word, told(n, N, word, story, chance), chance)


def stories_as_steps(kind, chance):
    """Some stories step by step, in the vote of two words with resets."""
    single, several = TOLD[kind]
    plan = [(several[4], 3, 2), (several[6], 32, 2), (several[3], 17, 1), (single[0], 1, 2)]
    for turn, (story, n, N) in enumerate(plan):
        word = start_words(n, turn, chance)
        yield from steps_of(kind, n, [N], word, told(n, N, word, story, chance)[:12], (1, 4, 5, 8))


def pair_of(what, n, word, turn, chance):
    """The two samples of a pair. One shows the word still, or neither; or both do, or agree on a new one."""
    other = [word ^ departure for departure in departures(n, turn, chance)]
    x, y = other[0], next((one for one in other if one != other[0]), None)
    return {'first': (word, x), 'second': (x, word), 'neither': (x, y), 'old': (word, word), 'new': (x, x)}[what]


def vote_steps(chance):
    """First, second and neither at every width, on hold and on alarm, with a reset and without."""
    turn = 0
    for N, count in LIMITS:
        for reset in (0, 1):
            for what in LEAVES:
                n = 1 + turn % 32
                what = 'first' if n == 1 and what == 'neither' else what
                word = start_words(n, turn + n, chance)
                yield line('vote.step', [n, N, word, count, *pair_of(what, n, word, turn, chance), reset])
                turn += 1


def reserve_steps(chance):
    """Every phase; the pair in force and the other one leave the word, or agree, each in its own way."""
    turn = 0
    for phase in (0, 1, 2):
        for here in LEAVES + ['new']:
            for there in LEAVES + ['old', 'new']:
                n, (N, count) = 2 + turn % 31, LIMITS[turn % 16]
                word = start_words(n, turn // 2, chance)
                voted, other = [pair_of(what, n, word, turn + more, chance) for more, what in enumerate((here, there))]
                pairs = voted + other if phase == 0 else other + voted
                yield line('reserve.step', [phase, n, N, word, count, *pairs])
                turn += 1


def every_bit(kind, chance):
    """A unit differs in one bit alone from the agreed word, at every place; then two units do, in neighbouring bits."""
    for n, N in ((32, 1000), (17, 1), (8, 2)):
        word, samples = below(chance, 2 ** n), []
        for place in range(n):
            one, two = word ^ 2 ** place, word ^ 2 ** ((place + 1) % n)
            samples += [(word, one), (one, word), (one, two)]
        samples = [(shown * 2)[:UNITS[kind]] for shown in samples]
        yield run_of(kind, n, [N], word, samples, chance)


def long_stories(kind, chance):
    """N 999 and 1,000, and the longest traces."""
    for turn, (n, N, story) in enumerate(LONG[kind]):
        word = start_words(n, turn, chance)
        yield run_of(kind, n, [N], word, told(n, N, word, story, chance), chance)


def departed(word, pairs):
    """The samples of two units for each pair of words: the signals in which unit 1 departs from the agreed bits, and
    those in which unit 2 does. Where both do, they agree on the other bit."""
    samples = []
    for one, two in pairs:
        samples.append((word ^ one, word ^ two))
        word ^= one & two
    return samples


def all_and_some(n, chance):
    """Which signals depart in each sample: all in one unit, some in each, all in both; any."""
    every, some, few = all_ones(n), below(chance, 2 ** n), below(chance, 2 ** n) & below(chance, 2 ** n)
    known = [(every, 0), (0, every), (some, every - some), (every, every), (some, 0), (0, some), (every, some),
             (some, every), (few, 0), (0, 0)]
    return known + [(below(chance, 2 ** n), below(chance, 2 ** n)) for _ in range(3)]


def tuple_runs(chance):
    """Every width: signals that agree, on old and new bits, beside those that differ, alarm or not."""
    limits = [(2, 1), (1, 2), (3, 2), (1000, 3), (1, 1), (4, 2), (999, 1000), (2, 3)]
    for n in EVERY_WIDTH:
        V, N = limits[n % 8]
        word, pairs = start_words(n, n // 2, chance), all_and_some(n, chance)
        yield run_of('tuple', n, [V, N], word, departed(word, pairs[n % 4:] + pairs[:n % 4]), chance)


def other_words(chance):
    """All signals agree on other bits than those that are shown, and differ while the confirmation holds the old word;
    then it confirms, and they still differ."""
    for turn, (V, N) in enumerate([(9, 3), (1000, 5), (4, 2), (6, 1000)]):
        for n in (1, 5, 32):
            every, some = all_ones(n), below(chance, 2 ** n)
            pairs = [(every, every), (some, every - some), (every, 0), (0, every), (every - some, some)]
            word = start_words(n, turn, chance)
            samples = departed(word, pairs)
            yield run_of('tuple', n, [V, N], word, samples + samples[1:] + departed(word ^ every, [(0, 0), (some, 0)]),
                         chance)


def agreed_beside_alarm(chance):
    """One signal alarms, so that the confirmation takes no step; another one agrees on a new bit there, and its units
    differ at the next sample."""
    for turn, n in enumerate((2, 3, 8, 31, 32)):
        for V in (1, 2):
            alarm = 2 ** below(chance, n)
            new = 2 ** ((below(chance, n - 1) + alarm.bit_length()) % n)
            pairs = [(alarm, 0)] * (V - 1) + [(alarm + new, new), (alarm + new, 0), (alarm, new), (new, alarm), (0, 0)]
            word = start_words(n, turn + V, chance)
            yield run_of('tuple', n, [V, 1 + turn % 3], word, departed(word, pairs), chance)


def one_signal_each(chance):
    """One signal alone at every place, first then second."""
    for n, V in ((32, 1000), (31, 1), (16, 2)):
        word = below(chance, 2 ** n)
        pairs = [pair for place in range(n) for pair in ((2 ** place, 0), (0, 2 ** place))]
        yield run_of('tuple', n, [V, 2], word, departed(word, pairs), chance)


def tuple_steps(chance):
    """Three steps of every width. Some signals alarm, others hold or agree; then none alarms, and the word is confirmed
    while they hold; then all that differ alarm. What is shown is the agreed word, its inverse or any other."""
    for n in EVERY_WIDTH:
        for turn in range(3):
            V = [pick(chance, [2, 3, 1000]), pick(chance, [2, 3, 999]), pick(chance, [1, 2, 1000])][turn]
            N, agreed = pick(chance, [1, 2, 1000]), start_words(n, n + turn, chance)
            one, two = below(chance, 2 ** n), below(chance, 2 ** n)
            counts = [[pick(chance, [0, V - 1]), below(chance, V - 1) if V > 1 else 0, V - 1][turn] for _ in range(n)]
            shown = [agreed, all_ones(n) - agreed, below(chance, 2 ** n)][(n + turn) // 2 % 3]
            confirmation = [agreed ^ one & two, shown, N - 1] if turn == 1 else [shown, agreed ^ one, below(chance, N)]
            yield tuple_step(V, n, N, confirmation, agreed, counts, (agreed ^ one, agreed ^ two))


def tuple_sequences(chance):
    """A constructor, then steps."""
    for turn, (n, V, N) in enumerate(((4, 2, 1), (32, 3, 2), (1, 2, 2))):
        word = start_words(n, turn, chance)
        yield from steps_of('tuple', n, [V, N], word, departed(word, all_and_some(n, chance)[:10]))


def long_tuples(chance):
    """Rows that just hold and just alarm with V 999 and 1,000; 2,048 samples."""
    for n, V, N in ((32, 1000, 3), (5, 999, 1000), (2, 1, 1)):
        every, some, word = all_ones(n), 1 + below(chance, all_ones(n)), below(chance, 2 ** n)
        rest = every - some
        new, apart, back, other = departed(word, [(every, every), (some, rest), (rest, some), (0, some)])
        samples = [new] * 2 + [apart] * (V - 1 + n % 2) + [back] * 2 + [new] + [other] * 1044
        yield run_of('tuple', n, [V, N], word, samples[:2048], chance)


def good_step(kind, turn, chance):
    """The numbers of a good step with n 3, in which the first unit, the second one or neither shows the agreed word; in
    a tuple vote all three signals differ."""
    word = below(chance, 8)
    one, two = [(0, 3), (5, 0), (1, 7)][turn % 3] if kind != 'tuple' else [(0, 7), (7, 0), (5, 2)][turn % 3]
    pair = [word ^ one, word ^ two]
    if kind == 'vote':
        return [3, 2, word, turn % 2] + pair + [turn // 2 % 2]
    if kind == 'reserve':
        return [turn % 3, 3, 2, word, turn // 3 % 2] + pair * 2
    return [2, 3, 2, word, word, 1, word] + [turn % 2] * 3 + [0] * 29 + pair


def step_damages(kind):
    """(place, value) for numbers 1, 2, 6 and 7, each alone."""
    at = {'vote': 0, 'tuple': 1, 'reserve': 1}[kind]
    limits = [0, 2] if kind == 'tuple' else [at + 1]
    yield from ((place, value) for place in limits for value in (0, 1001))
    yield from ((at, value) for value in (0, 33))
    yield from ((place, value) for place in SAMPLES[kind] for value in (8, MOST))
    yield from ((place, 8) for place in STORED[kind])
    yield from ((COUNT[kind], value) for value in (2, MOST))
    if kind == 'tuple':
        yield from ((VOTERS, 2), (VOTERS + 2, 2), (VOTERS + 3, 1), (VOTERS + 31, 1))


def refused_steps(kind, chance):
    """Every refusal of a step in which `which` or `second` would not always be 0; then 6 and 7 together."""
    for turn, (place, value) in enumerate(step_damages(kind)):
        numbers = good_step(kind, turn, chance)
        numbers[place] = value
        yield line(kind + '.step', numbers)
    for turn, sample in enumerate(SAMPLES[kind]):
        numbers = good_step(kind, turn, chance)
        numbers[sample], numbers[STORED[kind][-1]] = 8, 8
        yield line(kind + '.step', numbers)


def apart_columns(kind, length):
    """Samples of units that differ at every place, from the word 5: first, second and neither in turn."""
    pairs = [[(5, 4), (7, 5), (6, 1)][at % 3] for at in range(length)] if length < 2000 else [(5, 4)] * length
    return [[shown[unit % 2] for shown in pairs] for unit in range(UNITS[kind])]


def slices_run(kind, columns, sizes, chance, plain=(3, 2, 5), fill=None):
    """A run with these sizes of its output slices, T-09's last. plain: n, N, the word."""
    n, N, word = plain
    lent = [(size, one) for size, (_, one) in zip(sizes, lent_for(kind, 0, chance))]
    fills = WORD_FILLS + [0, 1, 7] if kind == 'tuple' else WHICH_FILLS + [0, 1, 2, 3]
    last = (sizes[-1], pick(chance, fills) if fill is None else fill)
    return run_call(kind, [n] + [N] * (1 + (kind == 'tuple')) + [word], columns, lent, last)


def other_lengths(kind, chance):
    """T-09's slice alone is shorter or longer, by one place and by many, or is empty, or is all there is: number 4.
    Beside 2,049 samples it is number 3."""
    many = len(OUTPUTS[kind])
    for length, last in ((5, 4), (5, 6), (5, 0), (5, 1), (5, 10), (5, 2048), (5, 2049), (5, 2304), (1, 0), (1, 2),
                         (0, 1), (0, 2), (0, 2048), (0, 2049), (2048, 2047), (2048, 2049), (2048, 0), (2048, 5),
                         (2049, 2049), (2049, 2048), (2049, 0)):
        yield slices_run(kind, apart_columns(kind, length), [length] * many + [last], chance)


def another_length(kind, chance):
    """Another slice is shorter or longer, and T-09's has the length of the rest, or that of the odd one; then all
    output slices alike have another length than the inputs."""
    units, many = UNITS[kind], len(OUTPUTS[kind])
    for position in range(units + many):
        for odd, last in ((4, 5), (6, 5), (6, 6)):
            columns, sizes = apart_columns(kind, 5), [5] * many + [last]
            if position < units:
                columns[position] = (columns[position] + [5])[:odd]
            else:
                sizes[position - units] = odd
            yield slices_run(kind, columns, sizes, chance)
    for size in (0, 4, 6):
        yield slices_run(kind, apart_columns(kind, 5), [size] * (many + 1), chance)


def refused_runs(kind, chance):
    """Numbers 1, 2, 3, 5 and 6 with T-09's slice as long as the rest, where it keeps what it held; then beside a slice
    that is not: 4 is higher than 1, 2 and 3, and lower than 5 and 6."""
    many = len(OUTPUTS[kind])
    causes = [((3, 0, 5), 5, None), ((3, 1001, 5), 5, None), ((0, 2, 5), 5, None), ((33, 2, 5), 5, None),
              ((3, 2, 5), 2049, None), ((3, 2, 8), 5, None), ((3, 2, MOST), 5, 1), ((3, 2, 5), 5, 0),
              ((3, 2, 5), 5, 3), ((3, 2, 5), 5, 4)]
    for plain, length, outside in causes:
        for more in (0, 1, -1):
            columns = apart_columns(kind, length)
            if outside is not None:
                columns[below(chance, UNITS[kind])][outside] += 8
            yield slices_run(kind, columns, [length] * many + [length + more], chance, plain)


def short_traces(kind, chance):
    """Empty traces, whatever the fill: nothing is written. One sample and two, with fills that are right answers
    elsewhere. 2,048 samples; the same with a sample outside the width at the end."""
    many, columns = len(OUTPUTS[kind]), apart_columns(kind, 0)
    for fill in (0, 3, 170):
        yield slices_run(kind, columns, [0] * (many + 1), chance, fill=fill)
    for length in (1, 2, 3):
        for fill in (0, 1, 2, 3):
            yield slices_run(kind, apart_columns(kind, length), [length] * (many + 1), chance, fill=fill)
    whole = apart_columns(kind, 2048)
    yield slices_run(kind, whole, [2048] * (many + 1), chance)
    whole[-1][2047] = 8
    yield slices_run(kind, whole, [2048] * (many + 1), chance)


GROUPS = {'vote': [vote_steps], 'reserve': [reserve_steps],
          'tuple': [tuple_steps, tuple_runs, other_words, agreed_beside_alarm, one_signal_each, tuple_sequences,
                    long_tuples]}


def which(kind, chance):
    """All groups of this file, for a room."""
    for group in GROUPS[kind]:
        yield from group(chance)
    if kind != 'tuple':
        for group in (stories, stories_as_steps, every_bit, long_stories):
            yield from group(kind, chance)
    for group in (refused_steps, other_lengths, another_length, refused_runs, short_traces):
        yield from group(kind, chance)
