"""Groups of recordings, for the reader and for the listing."""

from chance import below, pick, walk
from groups_steps import MOST, replaced
from lines import TAG, WELL_LENT, fields, good_recording, read_line, recording

# A header's numbers: tag 0, units 1, samples 2, n 3, N 4, word 5, times 6, units' offsets 7 to 10.
TIMES = [4294967290, 5]  # large and wrapping: "Times are carried and not judged"


def small(units):
    """Header and columns of a good recording of two samples."""
    return fields(units, 2, 3, 2, 5), [TIMES] + [[5, 5]] * units


def long_recording(units, length, chance):
    """A long recording of n 32, every word of four equal bytes, so that its bytes stand in
    long runs."""
    columns = [[value * 0x01010101 for value in column]
               for column in walk(chance, 8, units, length, 100)]
    times = [at // 200 * 0x01010101 for at in range(length)]
    return good_recording(32, 1 + below(chance, 3), 0, times, columns)


def random_recording(units, n, length, chance):
    """A short recording with a small count."""
    times = [1000 * at + below(chance, 50) for at in range(length)]
    columns = walk(chance, n, units, length, 3)
    return good_recording(n, 1 + below(chance, 3), below(chance, 2 ** n), times, columns)


def good(chance):
    """1, 2 and 4 units; 0, 1, 2, a few, 2,047 and 2,048 samples."""
    for units in (1, 2, 4):
        for length in (0, 1, 2):
            yield random_recording(units, pick(chance, [1, 3, 32]), length, chance)
        for _ in range(6):
            length = 3 + below(chance, 8)
            yield random_recording(units, 1 + below(chance, 32), length, chance)
        for length in (2047, 2048):
            yield long_recording(units, length, chance)


def too_many(chance):
    """2,049 samples, all there; and announced alone."""
    for units in (1, 2, 4):
        yield long_recording(units, 2049, chance)
        yield recording(fields(units, 2049, 3, 2, 5), [])


def beyond_longest(chance):
    """The longest recording there is, and a byte more, and 20,000 more."""
    longest = long_recording(4, 2048, chance)
    yield from (longest, longest + b'\0', longest + b'\0' * 20000)


def header_damages(units):
    """(place, value) for every field of the header."""
    header = small(units)[0]
    yield from ((0, TAG + 1), (0, TAG + 256), (0, TAG + 2 ** 16), (0, TAG + 2 ** 24), (0, 0))
    yield from ((1, value) for value in (0, 1, 2, 3, 4, 5, MOST))
    yield from ((2, value) for value in (0, 1, 3, 2048, 2049, MOST))
    yield from ((3, value) for value in (0, 1, 2, 32, 33, MOST))
    yield from ((4, value) for value in (0, 1, 1000, 1001, MOST))
    yield from ((5, value) for value in (7, 8, MOST))
    for place in (6, 7, 8, 9, 10):
        yield from ((place, value) for value in (0, 44, header[place] + 4, MOST))


def damaged_headers():
    """Every field of the header damaged alone, for each number of units."""
    for units in (1, 2, 4):
        header, columns = small(units)
        for damage in header_damages(units):
            for values in replaced(header, [damage]):
                yield recording(values, columns)


def damaged_pairs():
    """Fields of the header damaged in pairs: the recording's own order of checks."""
    header, columns = small(2)
    damages = [(0, TAG + 1), (1, 0), (1, 3), (1, 5), (2, 2049), (2, MOST), (3, 0), (3, 33),
               (4, 0), (4, 1001), (5, 8), (6, 48), (7, 0), (8, 0), (9, 44), (10, 44)]
    for values in replaced(header, damages):
        yield recording(values, columns)


def other_lengths():
    """Cut short at every byte of a small one, and inside each column; too long by 1 and by 4;
    the same where the header is damaged too."""
    header, columns = small(1)
    whole = recording(header, columns)
    for length in range(len(whole)):
        yield whole[:length]
    for units in (1, 2, 4):
        header, columns = small(units)
        for values in [header] + list(replaced(header, [(0, 0), (2, 2049), (3, 0), (4, 0)])):
            data = recording(values, columns)
            yield from (data + b'\0', data + b'\0\0\0\0', data[:-1], data[:-4])
        # inside each column: two fields of four bytes each
        whole = recording(header, columns)
        yield from (whole[:44 + 8 * place + cut] for place in range(units + 1) for cut in (1, 4, 7))


def outside(chance):
    """Samples outside the width in each unit, first, middle and last, and in several; the
    same beside other refusals."""
    for units in (1, 2, 4):
        places = [[(unit, at)] for unit in range(units) for at in (0, 2, 4)]
        places += [[(below(chance, units), below(chance, 5)) for _ in range(3)] for _ in range(4)]
        for several in places:
            columns = walk(chance, 3, units, 5, 2)
            for unit, at in several:
                columns[unit][at] = 8
            yield good_recording(3, 2, 5, [MOST] * 5, columns)
        for n, N, word in ((3, 0, 5), (0, 2, 5), (3, 2, 8), (33, 1001, 8)):
            yield good_recording(n, N, word, TIMES, [[5, 8]] * units)


def lent_otherwise():
    """Lent slices of other lengths in each position, with a good recording and with bad
    ones: their number 4 comes first."""
    header, columns = small(2)
    bad_tag, too_long = [0] + header[1:], header[:2] + [2049] + header[3:]
    for place in range(5):
        for length in (2047, 2049, 0):
            lent = list(WELL_LENT)
            lent[place] = (length, lent[place][1])
            yield read_line(recording(header, columns), lent)
        for data in (b'', recording(bad_tag, columns), recording(too_long, columns)):
            yield read_line(data, lent)


def real_times():
    """A whole recording with rising times."""
    return good_recording(2, 3, 0, [1000 * at for at in range(2048)], [[0] * 1024 + [1] * 1024])
