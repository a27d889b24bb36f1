"""The call protocol: a call is one line of text, its answer is one line of text.

Nothing of the paper's rules is in here. In an answer a tuple is shown part by part,
a list is a slice, a float is a reading's bits, a text is the listing's.
"""

import struct
from collections import namedtuple

import confirm
import listing
import recording
import reserve
import sizing
import threshold
import tuple_vote
import vote

# readers: one for each argument; each takes its tokens from the iterator it is given
Call = namedtuple('Call', 'readers function')


def whole(text, greatest):
    """An unsigned decimal number."""
    value = int(text) if text.isdigit() else -1
    if not 0 <= value <= greatest:
        raise ValueError('not a number from 0 to %d: %r' % (greatest, text))
    return value


def number(tokens):
    """A u32."""
    return whole(next(tokens), 2 ** 32 - 1)


def flag(tokens):
    """0 or 1."""
    return whole(next(tokens), 1) == 1


def reading(tokens):
    """An f64, given as its 64-bit pattern."""
    return from_bits(whole(next(tokens), 2 ** 64 - 1))


def from_bits(pattern):
    """The f64 with this 64-bit pattern."""
    return struct.unpack('<d', struct.pack('<Q', pattern))[0]


def to_bits(value):
    """The 64-bit pattern of this f64."""
    return struct.unpack('<Q', struct.pack('<d', value))[0]


def filled(tokens):
    """LIST: the number of elements, then `v` or `v*t` until there are so many."""
    length = number(tokens)
    values = []
    while len(values) < length:
        value, _, times = next(tokens).partition('*')
        values += [whole(value, 2 ** 32 - 1)] * whole(times or '1', length)
    if len(values) != length:
        raise ValueError('a list of %d elements where %d were announced' % (len(values), length))
    return values


def byte_list(tokens):
    """LIST of bytes."""
    return bytes(filled(tokens))


def lent(tokens):
    """LENT: length and fill."""
    length, fill = number(tokens), number(tokens)
    return [fill] * length


def confirm_state(tokens):
    return confirm.State(*[number(tokens) for _ in range(5)])


def vote_state(tokens):
    return vote.State(*[number(tokens) for _ in range(4)])


def tuple_state(tokens):
    V, confirmation, agreed = number(tokens), confirm_state(tokens), number(tokens)
    return tuple_vote.State(V, confirmation, agreed, tuple([number(tokens) for _ in range(32)]))


def reserve_state(tokens):
    return reserve.State(whole(next(tokens), 2), vote_state(tokens))


CALLS = {
    'confirm.new': Call([number] * 2, confirm.new),
    'confirm.from_word': Call([number] * 3, confirm.from_word),
    'confirm.step': Call([confirm_state, number], confirm.step),
    'confirm.run': Call([number] * 3 + [filled] + [lent] * 3, confirm.run),
    'vote.new': Call([number] * 2, vote.new),
    'vote.from_word': Call([number] * 3, vote.from_word),
    'vote.step': Call([vote_state, number, number, flag], vote.step),
    'vote.run': Call([number] * 3 + [filled] * 2 + [lent] * 3, vote.run),
    'tuple.new': Call([number] * 3, tuple_vote.new),
    'tuple.from_word': Call([number] * 4, tuple_vote.from_word),
    'tuple.step': Call([tuple_state, number, number], tuple_vote.step),
    'tuple.run': Call([number] * 4 + [filled] * 2 + [lent] * 4, tuple_vote.run),
    'reserve.new': Call([number] * 2, reserve.new),
    'reserve.from_word': Call([number] * 3, reserve.from_word),
    'reserve.step': Call([reserve_state] + [number] * 4, reserve.step),
    'reserve.run': Call([number] * 3 + [filled] * 4 + [lent] * 3, reserve.run),
    'sizing': Call([number] * 4, sizing.sizing),
    'threshold': Call([reading] * 4, threshold.threshold),
    'recording.read': Call([byte_list] + [lent] * 5, recording.read),
    'listing': Call([byte_list], listing.listing),
}


def show_slice(values):
    """The number of places, then the values in maximal runs; also the form of a LIST."""
    runs = []
    for value in values:
        if runs and runs[-1][0] == value:
            runs[-1][1] += 1
        else:
            runs.append([value, 1])
    tokens = ['%d' % value if times == 1 else '%d*%d' % (value, times) for value, times in runs]
    return ' '.join(['%d' % len(values)] + tokens)


def show(value):
    """A part of an answer as text."""
    if isinstance(value, tuple):
        return ' '.join(show(part) for part in value)
    if isinstance(value, list):
        return show_slice(value)
    if isinstance(value, float):
        return '%d' % to_bits(value)
    if isinstance(value, str):
        return '%d %s' % (len(value), value.replace('\n', '|'))
    return '%d' % value


def result(line, calls=CALLS):
    """What the call on this line returns; ValueError if the line is not a call."""
    name, *rest = line.split(' ')
    if name not in calls:
        raise ValueError('no such call: %r' % name)
    tokens = iter(rest)
    try:
        arguments = [read(tokens) for read in calls[name].readers]
    except StopIteration:
        raise ValueError('the call ends too early') from None
    if next(tokens, None) is not None:
        raise ValueError('the call goes on after its last argument')
    return calls[name].function(*arguments)


def answer(line, calls=CALLS):
    """The answer line to a call line, both without their newlines."""
    return show(result(line, calls))
