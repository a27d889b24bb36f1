"""Puts call lines together: runs, recordings, listings."""

from chance import pick
from protocol import show_slice

UNITS = {'confirm': 1, 'vote': 2, 'tuple': 2, 'reserve': 4}
# The output slices of a run but for the last one of a vote, which T-09 adds: bytes, words for the tuple vote.
OUTPUTS = {'confirm': ['words', 'marks', 'counts'], 'vote': ['words', 'marks'],
           'tuple': ['words', 'masks', 'marks'], 'reserve': ['words', 'marks']}
WORD_FILLS = [3735928559, 4277009102, 2863311530]
MARK_FILLS = [7, 99, 170, 238]
WHICH_FILLS = [9, 170, 88, 201, 46]  # no answers: these are 0 to 3

TAG = 0x31525351  # "QSR1" as a little-endian number
WELL_LENT = [(2048, 3735928559), (2048, 7), (2048, 4277009102), (2048, 2863311530), (2048, 99)]


def line(name, values):
    """A call of plain numbers."""
    return ' '.join([name] + ['%d' % value for value in values])


def counts_of(kind, N):
    """The counts of a call in which N serves for all: the tuple vote has two, V and N (T-02)."""
    return [N, N] if kind == 'tuple' else [N]


def tuple_step(values):
    """A step of the tuple vote in which N, the second of these values, serves for both counts: V stands in front."""
    return line('tuple.step', [values[1]] + values)


def lent_for(kind, length, chance):
    """(length, fill) for each output slice of a run, but for T-09's."""
    return [(length, pick(chance, MARK_FILLS if output == 'marks' else WORD_FILLS))
            for output in OUTPUTS[kind]]


def lent_text(lent):
    """LENT for each (length, fill)."""
    return ' '.join('%d %d' % one for one in lent)


def last_for(kind, columns, lent):
    """(length, fill) of T-09's slice in a run that names none: as long as the first column, so that it neither gives
    cause for number 4 nor hides one. The fill follows from those of the other slices; no random number is taken."""
    fills = WORD_FILLS if kind == 'tuple' else WHICH_FILLS
    return len(columns[0]), fills[sum(fill for _, fill in lent) % len(fills)]


def run_call(kind, plain, columns, lent, last=None):
    """A call of a run: the plain numbers, the input columns, the output slices. last: T-09's slice."""
    lists = ' '.join(show_slice(column) for column in columns)
    if kind != 'confirm':
        lent = lent + [last or last_for(kind, columns, lent)]
    return '%s %s %s' % (line(kind + '.run', plain), lists, lent_text(lent))


def run_line(kind, n, N, word, columns, lent, last=None):
    """A call of a run in which N serves for all counts."""
    return run_call(kind, [n] + counts_of(kind, N) + [word], columns, lent, last)


def fields(units, samples, n, N, word):
    """The header of a recording as eleven numbers: tag, units, samples, n, N, initial word,
    offset of the times, offsets of the unit columns."""
    offsets = [44 + 4 * samples * unit if unit <= units else 0 for unit in (1, 2, 3, 4)]
    return [TAG, units, samples, n, N, word, 44] + offsets


def recording(header, columns):
    """The bytes: the header's numbers, then the columns, times first."""
    values = header + [value for column in columns for value in column]
    return b''.join(value.to_bytes(4, 'little') for value in values)


def good_recording(n, N, word, times, columns):
    """The bytes of a recording of these unit columns."""
    return recording(fields(len(columns), len(times), n, N, word), [times] + columns)


def read_line(data, lent=WELL_LENT):
    """A call of the reader."""
    return 'recording.read %s %s' % (show_slice(list(data)), lent_text(lent))


def listing_line(data):
    """A call of the listing."""
    return 'listing %s' % show_slice(list(data))
