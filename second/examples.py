"""The settled examples of document 01, and those of T-02, T-04 and T-09 in document 02, each with the answer its text
gives.

Numbers of an answer of which the example says nothing follow from the clauses.
Run as a program, it checks every example.
"""

from collections import namedtuple
from itertools import product

import lines
import protocol
from protocol import to_bits

Example = namedtuple('Example', 'name room call answer')

LISTED = lines.good_recording(2, 2, 0, [0, 10, 20, 30, 40, 50], [[0, 1, 1, 3, 3, 3]])
LISTING = '''confirm 6 2 2
0 00000000 H 00000001
1 00000000 H 00000000
2 00000000 H 00000001
3 00000000 H 00000000
4 00000000 H 00000001
5 00000003 C 00000001
'''


def readings(*values):
    return lines.line('threshold', [to_bits(value) for value in values])


EXAMPLES = [
    Example('n 1, Tm 10, TM 12, D 0: N 1, age 12, quiet gap 24',
            'sizing', 'sizing 1 10 12 0', '0 1 1 12 24'),
    Example('D 9: N 1', 'sizing', 'sizing 1 10 12 9', '0 1 2 21 33'),
    Example('D 10: N 2', 'sizing', 'sizing 1 10 12 10', '0 2 2 34 46'),
    Example('n 3, Tm 10, TM 12, D 25: N 3, age 133, quiet gap 145',
            'sizing', 'sizing 3 10 12 25', '0 3 4 133 145'),
    Example('Tm 1, TM 1, D 999: N 1,000', 'sizing', 'sizing 1 1 1 999', '0 1000 1000 1999 2000'),
    Example('Tm 1, TM 1, D 1,000: refusal 10', 'sizing', 'sizing 1 1 1 1000', '10 0 0 0 0'),
    Example('The listing above', 'listing', lines.listing_line(LISTED),
            '%d %s' % (len(LISTING), LISTING.replace('\n', '|'))),
    Example('The listing above, its recording read', 'recording', lines.read_line(LISTED),
            '0 0 1 6 2 2 0 2048 0 10 20 30 40 50 3735928559*2042 2048 0 1*2 3*3 7*2042 '
            '2048 4277009102*2048 2048 2863311530*2048 2048 99*2048'),
    Example('The listing above, as a run', 'confirm',
            'confirm.run 2 2 0 6 0 1*2 3*3 6 3735928559 6 170 6 3735928559',
            '0 0 6 0*5 3 6 1*5 0 6 1 0 1 0 1*2'),
    Example('Plain vote, N 1: the first disagreement alarms',
            'vote', 'vote.step 1 1 0 0 0 1 0', '0 0 2 1 1 1 0 0'),
    Example('N 3: held', 'vote', 'vote.step 1 3 0 0 0 1 0', '0 0 1 1 1 3 0 1'),
    Example('N 3: held, held', 'vote', 'vote.step 1 3 0 1 0 1 0', '0 0 1 1 1 3 0 2'),
    Example('N 3: held, held, alarm', 'vote', 'vote.step 1 3 0 2 0 1 0', '0 0 2 1 1 3 0 2'),
    Example('N 3: a following agreement is agreed',
            'vote', 'vote.step 1 3 0 2 1 1 0', '0 1 0 0 1 3 1 0'),
    Example('N 3: held, held, alarm, agreed, as a run', 'vote',
            'vote.run 1 3 0 4 0*3 1 4 1*4 4 3735928559 4 170 4 9', '0 0 4 0*3 1 4 1*2 2 0 4 1*3 0'),
    Example('(5,5,5,5) agreed 5',
            'reserve', 'reserve.step 0 3 2 0 0 5 5 5 5', '0 5 0 1 0 0 3 2 5 0'),
    Example('(5,7,5,4) held 5',
            'reserve', 'reserve.step 0 3 2 5 0 5 7 5 4', '0 5 1 1 1 0 3 2 5 1'),
    Example('(5,7,5,4) alarm',
            'reserve', 'reserve.step 0 3 2 5 1 5 7 5 4', '0 5 2 1 1 1 3 2 5 1'),
    Example('(5,7,5,4) held 5, taking over',
            'reserve', 'reserve.step 1 3 2 5 1 5 7 5 4', '0 5 1 2 1 2 3 2 5 0'),
    Example('(5,7,5,4) held 5, reserve',
            'reserve', 'reserve.step 2 3 2 5 0 5 7 5 4', '0 5 1 2 1 2 3 2 5 1'),
    Example('(5,7,4,4) agreed 4',
            'reserve', 'reserve.step 2 3 2 5 1 5 7 4 4', '0 4 0 2 0 2 3 2 4 0'),
    Example('Reserve vote, N 2, n 3, initial 0, as a run', 'reserve',
            'reserve.run 3 2 0 6 5*6 6 5 7*5 6 5*5 4 6 5 4*5 6 3735928559 6 170 6 9',
            '0 0 6 5*5 4 6 0 1 2 1*2 0 6 0 1*4 0'),
    Example('Readings 0.0, 0.5, 1.0, tolerance 0.5: agreed 0.5',
            'threshold', readings(0.0, 0.5, 1.0, 0.5), '0 0 %d' % to_bits(0.5)),
    Example('1.0, 2.0, 3.0, tolerance 0.5: alarm',
            'threshold', readings(1.0, 2.0, 3.0, 0.5), '0 2 0'),
    Example('-0, 0, 1.0, tolerance 0: agreed -0',
            'threshold', readings(-0.0, 0.0, 1.0, 0.0), '0 0 9223372036854775808'),
]


def width_examples():
    """n 32 accepts every word; n 31 refuses 80000000 hex."""
    refused = {'confirm': '5 1 1 0 0 0', 'vote': '5 1 1 0 0', 'reserve': '5 0 1 1 0 0',
               'tuple': '5 1 1 1 0 0 0 0' + 32 * ' 0'}
    made = {'confirm': '0 32 1 {0} {0} 0', 'vote': '0 32 1 {0} 0', 'reserve': '0 0 32 1 {0} 0',
            'tuple': '0 1 32 1 {0} {0} 0 {0}' + 32 * ' 0'}
    for room in ('confirm', 'vote', 'tuple', 'reserve'):
        name, counts = room + '.from_word', lines.counts_of(room, 1)
        for word in (2147483648, 4294967295):
            yield Example('n 32 accepts every word', room,
                          lines.line(name, [32] + counts + [word]), made[room].format(word))
        yield Example('n 31 refuses 80000000 hex', room,
                      lines.line(name, [31] + counts + [2147483648]), refused[room])


def length_examples():
    """2,048 samples pass, 2,049 do not. All at rest with N 1: every output number is 0."""
    for room in ('confirm', 'vote', 'tuple', 'reserve'):
        for length in (2048, 2049):
            columns = [[0] * length] * lines.UNITS[room]
            lent = [(length, 170)] * len(lines.OUTPUTS[room])
            first, left = ('0 0', 0) if length == 2048 else ('3 0', 170)
            many = len(lent) + (room != 'confirm')  # T-09: a vote has one more
            slices = ' %d %d*%d' % (length, left, length) * many
            yield Example('2,048 samples pass, 2,049 do not', room,
                          lines.run_line(room, 1, 1, 0, columns, lent, (length, 170)), first + slices)


EXAMPLES += list(width_examples()) + list(length_examples())

# T-02, and what follows from it. A sizing answers count, votes, age bound, quiet gap; a tuple vote has V, then N.
PLACES = 31 * ' 0'  # the counts of signals 1 to 31, of which there are none
COUNTED = [
    Example('Tm 10 and D 9: N 1, and 2 for votes', 'sizing', 'sizing 1 10 12 9', '0 1 2 21 33'),
    Example('Tm 2 and D 1,999: N 1,000, but 1,001 for votes: refusal 10', 'sizing', 'sizing 1 2 3 1999', '10 0 0 0 0'),
    Example('Tm 2 and D 1,998: 1,000 for both', 'sizing', 'sizing 1 2 3 1998', '0 1000 1000 4998 5001'),
    Example('Tm 2 and D 1,997: N 999, and 1,000 for votes', 'sizing', 'sizing 1 2 3 1997', '0 999 1000 4994 4997'),
    Example('With N 1 a single disagreement alarms', 'tuple',
            'tuple.step 1 1 1 0 0 0 0 0' + PLACES + ' 1 0', '0 0 1 2 1 1 1 1 0 0 0 0 0' + PLACES),
    Example('With 2 for votes it does not', 'tuple',
            'tuple.step 2 1 1 0 0 0 0 0' + PLACES + ' 1 0', '0 0 0 0 1 2 1 1 0 0 0 0 1' + PLACES),
    Example('A second one in a row alarms', 'tuple',
            'tuple.step 2 1 1 0 0 0 0 1' + PLACES + ' 1 0', '0 0 1 2 1 2 1 1 0 0 0 0 1' + PLACES),
    Example('Two healthy units, one sample inside the delay, N 1', 'tuple',
            'tuple.run 1 1 1 0 6 0*2 1*4 6 0*3 1*3 6 3735928559 6 4277009102 6 170 6 2863311530',
            '0 0 6 0*4 1*2 6 0*2 1 0*3 6 0*2 2 1 0*2 6 0*2 1 0*3'),
    Example('The same with 2 for votes: no alarm', 'tuple',
            'tuple.run 1 2 1 0 6 0*2 1*4 6 0*3 1*3 6 3735928559 6 4277009102 6 170 6 2863311530',
            '0 0 6 0*4 1*2 6 0*6 6 0*3 1 0*2 6 0*2 1 0*3'),
]


def start_examples():
    """T-04: all ones within the width, for every width, and zero if it is named. A refused constructor's zero is
    document 01's own."""
    made = {'confirm': '{0} {1} {2} {3} {3} 0', 'vote': '{0} {1} {2} {3} 0', 'reserve': '{0} 0 {1} {2} {3} 0',
            'tuple': '{0} {2} {1} {2} {3} {3} 0 {3}' + 32 * ' 0'}
    for room in ('confirm', 'vote', 'tuple', 'reserve'):
        counts = lines.counts_of(room, 2)
        for n in range(1, 33):
            ones = int('1' * n, 2)  # written out, not reckoned as in rules.py
            yield Example('The default becomes all ones within the width', room,
                          lines.line(room + '.new', [n] + counts), made[room].format(0, n, 2, ones))
            yield Example('Zero is named from then on', room,
                          lines.line(room + '.from_word', [n] + counts + [0]), made[room].format(0, n, 2, 0))
        yield Example('A refused constructor returns the fresh state of n 1, N 1 and word zero', room,
                      lines.line(room + '.new', [33] + counts), made[room].format(2, 1, 1, 0))


# T-09, and what follows from it. The byte `which` stands after the mark, in the reserve vote after the pair; the tuple
# vote's word stands after the mark.
ABSENT = 28 * ' 0'  # the counts of signals 4 to 31, of which there are none
WALKED = [
    Example('On hold the first still shows the last agreed word', 'vote',
            'vote.step 3 2 5 0 5 7 0', '0 5 1 1 3 2 5 1'),
    Example('On hold the second does', 'vote', 'vote.step 3 2 5 0 7 5 0', '0 5 1 2 3 2 5 1'),
    Example('On hold neither does', 'vote', 'vote.step 3 2 5 0 7 6 0', '0 5 1 3 3 2 5 1'),
    Example('On alarm the first does', 'vote', 'vote.step 3 2 5 1 5 7 0', '0 5 2 1 3 2 5 1'),
    Example('On alarm the second does', 'vote', 'vote.step 3 2 5 1 7 5 0', '0 5 2 2 3 2 5 1'),
    Example('On alarm neither does', 'vote', 'vote.step 3 2 5 1 7 6 0', '0 5 2 3 3 2 5 1'),
    Example('A reset holds too', 'vote', 'vote.step 3 2 5 1 7 5 1', '0 5 1 2 3 2 5 0'),
    Example('0 agreed, on the old word', 'vote', 'vote.step 3 2 5 1 5 5 0', '0 5 0 0 3 2 5 0'),
    Example('0 agreed, on a new word', 'vote', 'vote.step 3 2 5 1 7 7 0', '0 7 0 0 3 2 7 0'),
    Example('Agreed on 5 and on 6; then 5 is no longer the last agreed word', 'vote',
            'vote.run 3 2 0 7 0 5 6 5 6 5 0 7 7 5 6 6 5 0 5 7 3735928559 7 170 7 9',
            '0 0 7 0 5 6*5 7 1 0*2 1 2*3 7 1 0*2 2 1 3*2'),
    Example('Covered by number 4', 'vote',
            'vote.run 3 2 0 2 5*2 2 5 7 2 3735928559 2 170 3 9', '4 0 2 3735928559*2 2 170*2 3 9*3'),
    Example('Signals 0 and 2 differ, agreed on 1 both; the first shows 1 in signal 0, the second in signal 2', 'tuple',
            'tuple.step 2 4 1 5 5 0 5 0 0 0 0' + ABSENT + ' 3 6',
            '0 5 0 1 4 2 4 1 7 5 0 7 1 0 1 0' + ABSENT),
    Example('The same on alarm', 'tuple',
            'tuple.step 1 4 1 5 5 0 5 0 0 0 0' + ABSENT + ' 3 6',
            '0 5 5 2 4 1 4 1 5 5 0 7 0 0 0 0' + ABSENT),
    Example('The same with the units exchanged', 'tuple',
            'tuple.step 1 4 1 5 5 0 5 0 0 0 0' + ABSENT + ' 6 3',
            '0 5 5 2 1 1 4 1 5 5 0 7 0 0 0 0' + ABSENT),
    Example('Held by confirmation, while no signals differ', 'tuple',
            'tuple.step 2 4 1 5 5 0 5 0 0 0 0' + ABSENT + ' 6 6',
            '0 5 0 1 0 2 4 1 6 5 0 6 0 0 0 0' + ABSENT),
    Example('Both agree on 3 while 0 is shown; then the second shows what is agreed, the first what is shown', 'tuple',
            'tuple.run 2 3 2 0 4 3 0 1 3 4 3*2 2 0 4 3735928559 4 4277009102 4 170 4 2863311530',
            '0 0 4 0*2 3*2 4 0*3 3 4 1*2 0 2 4 0 3 2 0'),
    Example('Units 1 and 2 alarm, the second shows the last agreed word; units 3 and 4 do not count', 'reserve',
            'reserve.step 0 3 2 5 1 7 5 5 4', '0 5 2 1 2 1 3 2 5 1'),
    Example('At the hand-over unit 4 shows it', 'reserve',
            'reserve.step 1 3 2 5 1 5 7 4 5', '0 5 1 2 2 2 3 2 5 0'),
    Example('At the hand-over neither unit 3 nor unit 4 shows it; units 1 and 2 no longer count', 'reserve',
            'reserve.step 1 3 2 5 1 5 5 4 6', '0 5 1 2 3 2 3 2 5 0'),
    Example('Units 1 and 2 agreed on 5, units 3 and 4 on 4: at the hand-over 5 is the last agreed word', 'reserve',
            'reserve.run 3 1 0 5 5*2 0*3 5 5 7 0*3 5 4*3 5 4 5 4*2 5 4 6 5 3735928559 5 170 5 9',
            '0 0 5 5*5 5 0 2 1 2*2 5 0 1 2 1 3'),
]


def single_signals():
    """T-09: "For single signals "neither" cannot occur." All there are, with N 2: the agreed bit, the count, the bits
    of both units. `which` is 1 or 2 if they differ."""
    for word, count, a in product((0, 1), repeat=3):
        for b in (0, 1):
            which, mark, after = (0, 0, (a, 0)) if a == b else (1 if a == word else 2, 1 + count, (word, 1))
            yield Example('For single signals "neither" cannot occur', 'vote',
                          lines.line('vote.step', [1, 2, word, count, a, b, 0]),
                          ' '.join('%d' % value for value in (0, after[0], mark, which, 1, 2) + after))


WALKED += list(single_signals())

REQUESTED = {'T-02': COUNTED, 'T-04': list(start_examples()), 'T-09': WALKED}


def calls(room):
    """The calls of a room's examples of document 01."""
    return [example.call for example in EXAMPLES if example.room == room]


def requested(request, room):
    """The calls of a room's examples of a change request."""
    return [example.call for example in REQUESTED[request] if example.room == room]


if __name__ == '__main__':
    changed = sum(REQUESTED.values(), [])
    for one in EXAMPLES + changed:
        assert protocol.answer(one.call) == one.answer, one.name
    print('%d settled examples hold, and %d of change requests' % (len(EXAMPLES), len(changed)))
