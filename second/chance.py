"""A small random generator of our own, the same on every machine and version."""


def numbers(seed):
    """Numbers of 32 bits without end: the upper half of a 64-bit linear congruence."""
    while True:
        seed = (seed * 6364136223846793005 + 1442695040888963407) % 2 ** 64
        yield seed // 2 ** 32


def below(chance, bound):
    """A number from 0 to bound - 1."""
    return next(chance) % bound


def pick(chance, values):
    """One of the values."""
    return values[below(chance, len(values))]


def pattern(chance):
    """A number of 64 bits."""
    return next(chance) * 2 ** 32 + next(chance)


def walk(chance, n, units, length, stay):
    """The columns of a trace for n signals. About once in `stay` samples the common word
    changes, and about once in `stay` samples one unit's deviation from it does."""
    word, deviations = 0, [0] * units
    columns = [[] for _ in range(units)]
    for _ in range(length):
        if below(chance, stay) == 0:
            word = below(chance, 2 ** n)
        if below(chance, stay) == 0:
            deviations[below(chance, units)] = pick(chance, [0, 0, 1, below(chance, 2 ** n)])
        for column, deviation in zip(columns, deviations):
            column.append((word + deviation) % 2 ** n)
    return columns
