"""Groups of sizing calls and of threshold calls."""

from itertools import combinations, combinations_with_replacement, permutations, product

from chance import below, pattern, pick
from lines import line
from protocol import from_bits, to_bits

MOST = 4294967295
SIGN = 2 ** 63
SMALLEST, SUBNORMAL, NORMAL = 1, 0x000FFFFFFFFFFFFF, 0x0010000000000000
ONE, LARGEST = to_bits(1.0), 0x7FEFFFFFFFFFFFFF
NOT_FINITE = [0x7FF0000000000000, 0xFFF0000000000000, 0x7FF8000000000000, 0xFFF8000000000000,
              0x7FF0000000000001, 0xFFF0000000000001, 0x7FFFFFFFFFFFFFFF, 0xFFFFFFFFFFFFFFFF]


def sizing_limits():
    """Every limit and one beyond, with one another."""
    for values in product((0, 1, 32, 33), (0, 1, 10, 10000, 1000000, 1000001),
                          (1, 10, 999999, 1000000, 1000001), (0, 999, 1000, 10000000, 10000001)):
        yield line('sizing', values)
    for n in (0, 1, 2, 3, 31, 32, 33, MOST):
        for Tm, TM, D in ((10, 12, 25), (0, 0, 0), (MOST, MOST, MOST), (1, MOST, 0),
                          (1, 1, MOST), (2, 1, 0), (0, 1, 0), (1000000, 1000000, 10000000)):
            yield line('sizing', [n, Tm, TM, D])


def sizing_products(chance):
    """Delays at and beside a multiple of the least gap, the thousandth above all."""
    for _ in range(80):
        Tm, n = 1 + below(chance, 10000), 1 + below(chance, 32)
        TM = Tm + below(chance, 1000000 - Tm + 1)
        for times in (1, 999, 1000, 1 + below(chance, 1000)):
            for D in (times * Tm - 1, times * Tm):
                yield line('sizing', [n, Tm, TM, D])


def sizing_random(chance):
    """Random values, some of them beyond a limit."""
    for _ in range(300):
        Tm = 1 + below(chance, pick(chance, [20, 20000, 1000001]))
        TM = Tm + below(chance, pick(chance, [20, 20000, 1000001]))
        D = below(chance, pick(chance, [100, 100000, 10000100]))
        yield line('sizing', [1 + below(chance, 33), Tm, TM, D])


def orders(readings, tolerance):
    """The three readings in all orders."""
    for three in permutations(readings):
        yield line('threshold', list(three) + [tolerance])


def special_triples(chance):
    """Triples of both zeros, subnormals, the smallest normal, 1, the largest finite ones;
    differences that overflow among them."""
    values = [SIGN, 0, SMALLEST, SUBNORMAL, NORMAL, ONE, LARGEST, SIGN + LARGEST]
    tolerances = [0, SIGN, SMALLEST, NORMAL, ONE, LARGEST - 1, LARGEST]
    for three in combinations_with_replacement(values, 3):
        yield from orders(three, pick(chance, tolerances))


def refused_readings():
    """What is not finite in each place, alone and in pairs; tolerances at and below zero."""
    good = [ONE, ONE, ONE + 2, 0]
    for place in range(4):
        for value in NOT_FINITE:
            yield line('threshold', good[:place] + [value] + good[place + 1:])
    for places in combinations(range(4), 2):
        for value in NOT_FINITE:
            values = list(good)
            values[places[0]], values[places[1]] = value, NOT_FINITE[places[1]]
            yield line('threshold', values)
    for tolerance in (0, SMALLEST, NORMAL, ONE, LARGEST):
        for sign in (0, SIGN):
            yield line('threshold', [ONE, ONE, ONE + 1, sign + tolerance])
            yield line('threshold', [NOT_FINITE[0], ONE, ONE, sign + tolerance])


def ties(readings):
    """A tolerance exactly the rounded difference of the first two, and its neighbours."""
    exact = to_bits(abs(from_bits(readings[1]) - from_bits(readings[0])))
    for tolerance in (exact - 1, exact, exact + 1):
        if 0 <= tolerance < NOT_FINITE[0]:
            yield from orders(readings, tolerance)


def close_triples(chance):
    """Readings a few steps apart, the third far away or close too; both signs."""
    for _ in range(24):
        x1 = pick(chance, [0, SIGN]) + below(chance, 2046) * 2 ** 52 + pattern(chance) % 2 ** 52
        x2 = x1 + 1 + below(chance, 1000)
        x3 = pick(chance, [x2 + 1 + below(chance, 1000), pattern(chance) % NOT_FINITE[0]])
        yield from ties([x1, x2, x3])


def rounded_differences(chance):
    """Readings whose exponents lie so far apart that their difference rounds; the third
    is further away than that."""
    for apart in (1, 2, 5, 20, 40, 51, 52, 53, 54, 55, 60):
        exponent = 100 + below(chance, 1000)
        x1 = exponent * 2 ** 52 + pattern(chance) % 2 ** 52
        x2 = pick(chance, [0, SIGN]) + (exponent + apart) * 2 ** 52 + pattern(chance) % 2 ** 52
        x3 = (exponent + apart + 70) * 2 ** 52
        yield from ties([x1, x2, x3])


def near_overflow():
    """An infinite difference, which does not agree, beside differences that are largest or
    half of that, with tolerances at and just below these."""
    half = LARGEST - 2 ** 52
    for middle in (0, SIGN, SMALLEST, ONE):
        for tolerance in (half, LARGEST - 1, LARGEST):
            yield from orders([SIGN + LARGEST, middle, LARGEST], tolerance)
    for tolerance in (half - 1, half):
        yield from orders([SIGN + half, half, LARGEST], tolerance)
        yield from orders([SIGN + LARGEST, LARGEST, LARGEST - 1], tolerance)


def random_patterns(chance):
    """Any bits at all, and any finite ones with a tolerance of their size."""
    for _ in range(40):
        yield from orders([pattern(chance) for _ in range(3)], pattern(chance))
        values = [pattern(chance) % NOT_FINITE[0] + pick(chance, [0, SIGN]) for _ in range(3)]
        yield from orders(values, pick(chance, values) % SIGN)
