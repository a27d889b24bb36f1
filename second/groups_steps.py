"""Groups of constructor and step calls. X is one of confirm, vote, tuple, reserve.

In the calls of the tuple vote one N serves for both counts; groups_counts.py has the others.
"""

from itertools import combinations, product

import protocol
from chance import below, pick, walk
from lines import UNITS, counts_of, line

MOST = 4294967295
WIDTHS = [0, 1, 2, 3, 31, 32, 33, MOST]
COUNTS = [0, 1, 2, 3, 999, 1000, 1001, MOST]
BEFORE_STATE = {'confirm': 3, 'vote': 4, 'tuple': 5, 'reserve': 5}  # tokens of a step's answer


def edge_words(n):
    """Words just inside and just outside the width."""
    if n == 0 or n >= 32:
        return [0, 2 ** 31, MOST]
    return [2 ** n - 1, 2 ** n, 2 ** 31]


def constructors(kind, chance):
    """Every width with every count, words at the edge of the width; then random ones."""
    for n in WIDTHS:
        for N in COUNTS:
            yield line(kind + '.new', [n] + counts_of(kind, N))
            for word in edge_words(n):
                yield line(kind + '.from_word', [n] + counts_of(kind, N) + [word])
    for _ in range(60):
        n, N = below(chance, 36), below(chance, 1100)
        yield line(kind + '.new', [n] + counts_of(kind, N))
        yield line(kind + '.from_word', [n] + counts_of(kind, N) + [next(chance) % 2 ** (n + 1) % 2 ** 32])


def state_after(call):
    """The state a constructor or a step leaves, as text."""
    name = call.split(' ')[0]
    kind, _, what = name.partition('.')
    before = BEFORE_STATE[kind] if what == 'step' else 1
    return ' '.join(protocol.answer(call).split(' ')[before:])


def sequence(kind, n, counts, word, length, chance):
    """A constructor, then steps, each from the state that the call before it left."""
    call = line(kind + '.from_word', [n] + counts + [word])
    yield call
    for samples in zip(*walk(chance, n, UNITS[kind], length, 3)):
        inputs = list(samples)
        if kind == 'vote':
            inputs.append(int(below(chance, 5) == 0))  # the reset
        call = line('%s.step %s' % (kind, state_after(call)), inputs)
        yield call


def sequences(kind, chance):
    """Small widths and counts, so that every clause is met often; some wide ones."""
    for n in (1, 2, 3):
        for N in (1, 2, 3, 4):
            for _ in range(2):
                yield from sequence(kind, n, counts_of(kind, N), below(chance, 2 ** n), 24, chance)
    for n in (8, 17, 31, 32):
        counts = counts_of(kind, 1 + below(chance, 4))
        yield from sequence(kind, n, counts, below(chance, 2 ** n), 24, chance)


def replaced(good, damages):
    """Copies of the numbers with one place replaced, then with two."""
    for changes in [[one] for one in damages] + list(combinations(damages, 2)):
        if len({place for place, _ in changes}) == len(changes):
            values = list(good)
            for place, value in changes:
                values[place] = value
            yield values


def damages(n, N, places):
    """(place, value) for the places of width, count limit, words and counts."""
    for place, what in enumerate(places):
        values = {'n': [0, 1, 33, MOST],
                  'N': [0, 1, 1001, MOST],
                  'word': sorted({2 ** n % 2 ** 32, 2 ** 31}),
                  'count': [N - 1, N, N + 1, MOST],
                  'above': [1, N],
                  'reset': [1],
                  'phase': [1, 2],
                  'same': []}[what]
        for value in values:
            yield place, value


def damaged(n, N, good, places):
    """The numbers of a good step, then damaged in every field, alone and in pairs."""
    return [good] + list(replaced(good, list(damages(n, N, places))))


def damaged_steps(kind, chance):
    """The damaged step calls of one kind, at four widths."""
    places = {'confirm': 'n N word word count word',
              'vote': 'n N word count word word reset',
              'reserve': 'phase n N word count word word word word'}[kind].split()
    for n, N in ((1, 1), (3, 3), (31, 1000), (32, 2)):
        good = [{'n': n, 'N': N, 'word': below(chance, 2 ** n)}.get(what, 0) for what in places]
        yield from (line(kind + '.step', values) for values in damaged(n, N, good, places))


def any_states(kind, chance):
    """Random steps from random states, most of them good but never reached."""
    for _ in range(250):
        n = pick(chance, [1, 2, 2, 31, 32, 1 + below(chance, 32)])
        N = pick(chance, [1, 2, 3, 4, 1 + below(chance, 1000)])
        count = pick(chance, [0, N - 1, below(chance, N), below(chance, N + 2)])
        words = [below(chance, 2 ** min(n, 2)) for _ in range(5)]
        if below(chance, 8) == 0:
            words[below(chance, 5)] = next(chance)
        yield line(kind + '.step', {
            'confirm': [n, N, words[0], words[1], count, words[2]],
            'vote': [n, N, words[0], count, words[1], words[2], below(chance, 2)],
            'reserve': [below(chance, 3), n, N, words[0], count] + words[1:]}[kind])


def edges_of_width(kind, inputs):
    """Good states of every width and count, the samples at the edge of the width."""
    for n in WIDTHS:
        for N in COUNTS:
            state = {'confirm': [n, N, 0, 0, 0], 'vote': [n, N, 0, 0],
                     'tuple': [N, n, N, 0, 0, 0, 0] + [0] * 32, 'reserve': [2, n, N, 0, 0]}[kind]
            for word in edge_words(n):
                reset = [0] if kind == 'vote' else []
                yield line(kind + '.step', state + [0] * (inputs - 1) + [word] + reset)


def counts_below():
    """(N, count) with counts that decide: 0, N-2 and N-1."""
    return [(N, count) for N in (1, 2, 3, 1000) for count in sorted({0, N - 2, N - 1})
            if count >= 0]


def confirm_situations():
    """Every clause, with the output equal to the new input, to the old one, to neither."""
    for N, count in counts_below():
        for output, x in product((0, 1, 2), (1, 2)):
            yield line('confirm.step', [2, N, 1, output, count, x])


def vote_situations():
    """Every clause, with a reset and without."""
    for N, count in counts_below():
        for n, word, a, b, reset in product((1, 32), (0, 1), (0, 1), (0, 1), (0, 1)):
            yield line('vote.step', [n, N, word, count, a, b, reset])


def reserve_situations():
    """Every phase with every state of the vote, each pair equal or not."""
    for N, count in counts_below():
        for phase, word, b, d in product((0, 1, 2), (0, 3), (1, 2), (1, 3)):
            yield line('reserve.step', [phase, 2, N, word, count, 1, b, 1, d])
