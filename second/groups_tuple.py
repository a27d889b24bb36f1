"""Groups of step calls of the tuple vote, whose state has a place for each of 32 signals.

One N serves for both counts; groups_counts.py has the others.
"""

from chance import below, pick
from groups_steps import damaged
from lines import tuple_step


def damaged_steps(chance):
    """Every field damaged, alone and in pairs. Of the 32 counts these are taken: signal 0,
    the last signal of the width, the place at the width and the last place."""
    for n, N in ((3, 3), (31, 2)):
        words = [below(chance, 2 ** n) for _ in range(5)]
        good = [n, N, words[0], words[1], 0, words[2]] + [0] * 32 + words[3:]
        kinds = ['same'] * 32
        kinds[0] = kinds[n - 1] = 'count'
        kinds[n] = kinds[31] = 'above'
        places = ['n', 'N', 'word', 'word', 'count', 'word'] + kinds + ['word', 'word']
        yield from (tuple_step(values) for values in damaged(n, N, good, places))


def every_place(chance):
    """Each of the 32 counts and each of the 32 agreed bits set alone, below and above n."""
    for n, N in ((1, 2), (3, 3), (31, 1000), (32, 2)):
        word = below(chance, 2 ** n)
        for place in range(32):
            for count in (N - 1, N):
                counts = [0] * 32
                counts[place] = count
                yield tuple_step([n, N, word, 0, 0, word] + counts + [word, 0])
            yield tuple_step([n, N, 0, 0, N - 1, 2 ** place] + [0] * 32 + [0, 0])


def any_states(chance):
    """Random good states of every width, most never reached; steps that hold, alarm in
    several signals at once, or agree."""
    for n in list(range(1, 33)) * 6:
        N = 1 + below(chance, 3)
        counts = [below(chance, N) for _ in range(n)] + [0] * (32 - n)
        agreed, a = below(chance, 2 ** n), below(chance, 2 ** n)
        b = pick(chance, [a, a, below(chance, 2 ** n), (a + 1) % 2 ** n])
        before, shown = pick(chance, [a, a, below(chance, 2 ** n)]), below(chance, 2 ** n)
        count = pick(chance, [0, N - 1])
        yield tuple_step([n, N, before, shown, count, agreed] + counts + [a, b])
