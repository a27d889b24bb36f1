"""The listing program. Document 01, 'The recording', its last part."""

import confirm
import recording
import reserve
import tuple_vote
import vote

CONFIRM_MARKS = {confirm.CONFIRMED: 'C', confirm.HELD: 'H'}
PAIR_MARKS = {tuple_vote.CONFIRMED: 'C', tuple_vote.HELD: 'H', tuple_vote.ALARM: '!'}
RESERVE_MARKS = {vote.AGREED: 'A', vote.HELD: 'H', vote.ALARM: '!'}


def line(number, word, mark, last):
    """Number, output word in 8 lowercase hex digits, a mark, and 8 hex digits more."""
    return '%d %08x %s %08x\n' % (number, word, mark, last)


def confirm_lines(header, samples):
    """One unit is confirmed; the last field is the count after the step."""
    state = confirm.fresh(header.n, header.N, header.word)
    for number, x in enumerate(samples):
        answer = confirm.step(state, x)
        state = answer.state
        yield line(number, answer.word, CONFIRM_MARKS[answer.mark], state.count)


def pair_lines(header, a, b):
    """Two take the tuple vote; the last field is the alarm mask."""
    # T-02: the recording's single N serves for both counts, as before.
    state = tuple_vote.fresh(header.n, header.N, header.N, header.word)
    for number, samples in enumerate(zip(a, b)):
        answer = tuple_vote.step(state, *samples)
        state = answer.state
        yield line(number, answer.word, PAIR_MARKS[answer.mark], answer.mask)


def reserve_lines(header, a, b, c, d):
    """Four take the reserve vote; the last field is the pair that was voted on."""
    state = reserve.fresh(header.n, header.N, header.word)
    for number, samples in enumerate(zip(a, b, c, d)):
        answer = reserve.step(state, *samples)
        state = answer.state
        yield line(number, answer.word, RESERVE_MARKS[answer.mark], answer.pair)


def listing(data):
    """The whole text; every line ends with a newline."""
    got = recording.read(data, *[[0] * recording.PLACES] * 5)
    # A refused recording gives one line, as `refused 6 at 3`.
    if got.number != 0:
        return 'refused %d at %d\n' % (got.number, got.sample)
    header = got.header
    columns = [unit[:header.samples] for unit in (got.unit1, got.unit2, got.unit3, got.unit4)]
    name, lines = {1: ('confirm', confirm_lines),
                   2: ('pair', pair_lines),
                   4: ('reserve', reserve_lines)}[header.units]
    # First line: the name, then samples, n, N in decimal. Then a line per sample.
    first = '%s %d %d %d\n' % (name, header.samples, header.n, header.N)
    return first + ''.join(lines(header, *columns[:header.units]))
