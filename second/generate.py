"""The call lines of every room. Each room begins with its settled examples."""

from collections import namedtuple

import examples
import groups_counts
import groups_numbers
import groups_recordings
import groups_runs
import groups_start
import groups_steps
import groups_tuple
import groups_which
import groups_words
from chance import numbers
from lines import line, listing_line, read_line, tuple_step

# error: the number of the error of document 01 that the call tells apart, or 0
Case = namedtuple('Case', 'call error')

ERRORS = {1: 'Confirming after N equal samples',
          2: 'Comparing the input with the previous output',
          3: 'Testing the count before the change of input',
          4: 'Alarm at the step of hand-over, or stored as the last word',
          5: 'Stepping the confirmation at a sample that alarmed'}


def cases(calls, error=0):
    return [Case(call, error) for call in calls]


def started(kind, room, seed):
    """The room with what T-04 adds at its end: the examples, then the groups, which look at the calls before them."""
    room = room + cases(examples.requested('T-04', kind))
    calls = [case.call for case in room]
    return room + cases(groups_start.starts(kind, calls, numbers(seed)))


def walked(kind, room, seed):
    """The room with what T-09 adds at its end: the examples, then the groups."""
    return room + cases(examples.requested('T-09', kind)) + cases(groups_which.which(kind, numbers(seed)))


def confirm_room():
    chance = numbers(101)
    # The settled examples.
    room = cases(examples.calls('confirm'))
    # Error 1, confirming after N equal samples: this sample is the Nth equal one.
    room += cases(['confirm.step 2 1 0 0 0 1', 'confirm.step 2 1 1 0 0 2'], 1)
    room += cases([line('confirm.step', [2, N, 1, 0, N - 2, 1]) for N in (2, 3, 4, 1000)], 1)
    # Error 2, comparing the input with the previous output: the input goes back to what is
    # shown, or stays at what is not yet shown.
    for N in (1, 2, 3, 1000):
        room += cases([line('confirm.step', [2, N, 1, 0, N - 1, x]) for x in (0, 1)], 2)
    # Error 3, testing the count before the change of input: the input changes, count < N-1.
    for N, count in ((2, 0), (3, 0), (3, 1), (1000, 998)):
        room += cases([line('confirm.step', [2, N, 1, 0, count, x]) for x in (0, 2)], 3)
    # Constructors; steps in sequence; every clause; damaged and unreached states; edges.
    room += cases(groups_steps.constructors('confirm', chance))
    room += cases(groups_steps.sequences('confirm', chance))
    room += cases(groups_steps.confirm_situations())
    room += cases(groups_steps.damaged_steps('confirm', chance))
    room += cases(groups_steps.any_states('confirm', chance))
    room += cases(groups_steps.edges_of_width('confirm', 1))
    # Runs.
    room += cases(groups_runs.runs('confirm', chance))
    # T-04, the start from all ones.
    return started('confirm', room, 111)


def vote_room():
    chance = numbers(102)
    # The settled examples.
    room = cases(examples.calls('vote'))
    # Error 4, alarm at the step of hand-over: a reset with the count at N-1.
    room += cases([line('vote.step', [3, N, 5, N - 1, 5, 4, 1]) for N in (1, 2, 3, 1000)], 4)
    # Constructors; steps in sequence; every clause; damaged and unreached states; edges.
    room += cases(groups_steps.constructors('vote', chance))
    room += cases(groups_steps.sequences('vote', chance))
    room += cases(groups_steps.vote_situations())
    room += cases(groups_steps.damaged_steps('vote', chance))
    room += cases(groups_steps.any_states('vote', chance))
    room += cases(groups_steps.edges_of_width('vote', 2))
    # Runs.
    room += cases(groups_runs.runs('vote', chance))
    # T-04, the start from all ones; T-09, which unit still shows the last agreed word.
    return walked('vote', started('vote', room, 112), 117)


def tuple_room():
    chance = numbers(103)
    # The settled examples.
    room = cases(examples.calls('tuple'))
    # Error 5, stepping the confirmation at a sample that alarmed: signal 0 alarms; the voted
    # word differs from the confirmation's input, or the count is not yet N-1, or it would be
    # confirmed at this very sample.
    for N, before, count in ((1, 0, 0), (1, 2, 0), (2, 2, 0), (2, 2, 1), (3, 0, 2), (1000, 2, 998)):
        counts = [N - 1] + [0] * 31
        room += cases([tuple_step([2, N, before, 0, count, 2] + counts + [3, 2])], 5)
    # Constructors; steps in sequence; damaged and unreached states; every place; edges.
    room += cases(groups_steps.constructors('tuple', chance))
    room += cases(groups_steps.sequences('tuple', chance))
    room += cases(groups_tuple.damaged_steps(chance))
    room += cases(groups_tuple.every_place(chance))
    room += cases(groups_tuple.any_states(chance))
    room += cases(groups_steps.edges_of_width('tuple', 2))
    # Runs.
    room += cases(groups_runs.runs('tuple', chance))
    # T-03, the disagreement as one word: steps and runs of every width.
    room += cases(groups_words.words(chance))
    # T-02, a count for the voters and one for confirmation: its example, then its groups.
    room += cases(examples.requested('T-02', 'tuple')) + cases(groups_counts.tuples(numbers(109)))
    # T-04, the start from all ones; T-09, which unit still shows the last agreed bit, for each signal.
    return walked('tuple', started('tuple', room, 113), 118)


def reserve_room():
    chance = numbers(104)
    # The settled examples.
    room = cases(examples.calls('reserve'))
    # Error 4, alarm at the step of hand-over: units 3 and 4 disagree there.
    room += cases([line('reserve.step', [1, 3, N, 5, N - 1, 5, 7, 5, 4])
                   for N in (1, 2, 3, 1000)], 4)
    # Error 4, the alarm stored as the last word: held after the hand-over, in a run.
    for N in (1, 2, 3, 5):
        room += cases(['reserve.run 3 %d 6 12 5*12 12 5 7*11 12 5*12 12 4*12 '
                       '12 4277009102 12 170 12 9' % N], 4)
    # Constructors; steps in sequence; every clause; damaged and unreached states; edges.
    room += cases(groups_steps.constructors('reserve', chance))
    room += cases(groups_steps.sequences('reserve', chance))
    room += cases(groups_steps.reserve_situations())
    room += cases(groups_steps.damaged_steps('reserve', chance))
    room += cases(groups_steps.any_states('reserve', chance))
    room += cases(groups_steps.edges_of_width('reserve', 4))
    # Runs.
    room += cases(groups_runs.runs('reserve', chance))
    # T-04, the start from all ones; T-09, which unit of its pair still shows the last agreed word.
    return walked('reserve', started('reserve', room, 114), 119)


def sizing_room():
    chance = numbers(105)
    # The settled examples; the limits; products near the limits; random values.
    room = cases(examples.calls('sizing')
                 + list(groups_numbers.sizing_limits())
                 + list(groups_numbers.sizing_products(chance))
                 + list(groups_numbers.sizing_random(chance)))
    # T-02, a count for votes and one for confirmation: its example, then its groups.
    return room + cases(examples.requested('T-02', 'sizing')) + cases(groups_counts.sizings(numbers(110)))


def threshold_room():
    chance = numbers(106)
    # The settled examples; special values; refusals; ties; rounding; overflow; random bits.
    return cases(examples.calls('threshold')
                 + list(groups_numbers.special_triples(chance))
                 + list(groups_numbers.refused_readings())
                 + list(groups_numbers.close_triples(chance))
                 + list(groups_numbers.rounded_differences(chance))
                 + list(groups_numbers.near_overflow())
                 + list(groups_numbers.random_patterns(chance)))


def recording_room():
    chance = numbers(107)
    # Good ones of every length; too long ones; damaged headers; other lengths; samples
    # outside the width.
    data = list(groups_recordings.good(chance)) + [groups_recordings.real_times()]
    data += groups_recordings.too_many(chance)
    data += groups_recordings.damaged_headers()
    data += groups_recordings.damaged_pairs()
    data += groups_recordings.other_lengths()
    data += groups_recordings.outside(chance)
    data += groups_recordings.beyond_longest(chance)
    # The settled example stands before these; lent slices of other lengths follow.
    room = cases(examples.calls('recording') + [read_line(one) for one in data]
                 + list(groups_recordings.lent_otherwise()))
    # T-04, zero and all ones, both named.
    return room + cases(read_line(one) for one in groups_start.recordings(numbers(115)))


def listing_room():
    chance = numbers(108)
    # All three kinds, short and empty ones; one of 2,048 samples of each.
    data = []
    for units in (1, 2, 4):
        for n in (1, 2, 2, 3, 3, 32):
            for length in (0, 1, 6, 12, 20):
                data.append(groups_recordings.random_recording(units, n, length, chance))
        data.append(groups_recordings.long_recording(units, 2048, chance))
    # Refused recordings of every number.
    data += groups_recordings.too_many(chance)
    data += groups_recordings.damaged_headers()
    data += groups_recordings.outside(chance)
    data += [b'', data[0][:43], data[0] + b'\0']
    data += groups_recordings.other_lengths()
    data += groups_recordings.beyond_longest(chance)
    # The settled example, the paper's own listing, first.
    room = cases(examples.calls('listing') + [listing_line(one) for one in data])
    # T-04, zero and all ones, both named.
    return room + cases(listing_line(one) for one in groups_start.recordings(numbers(116)))


MAKERS = {'confirm': confirm_room, 'vote': vote_room, 'tuple': tuple_room,
          'reserve': reserve_room, 'sizing': sizing_room, 'threshold': threshold_room,
          'recording': recording_room, 'listing': listing_room}
ROOMS = list(MAKERS)


def room_cases(name):
    """The cases of a room; of equal calls the first is kept."""
    kept, seen = [], set()
    for case in MAKERS[name]():
        if case.call not in seen:
            seen.add(case.call)
            kept.append(case)
    return kept
