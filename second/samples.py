"""The small recordings of `samples`, which a newcomer lists first, by their names."""

from lines import good_recording

EVERY_10_MS = [10000 * at for at in range(12)]


def paper():
    """Document 01's example: one unit, n 2, N 2, initial word 0."""
    return good_recording(2, 2, 0, EVERY_10_MS[:6], [[0, 1, 1, 3, 3, 3]])


def nuisance():
    """Two healthy units and N 1: signal 1 reaches the second unit one sample later, and alarms."""
    first = [0, 0, 2, 2, 2, 2, 2, 2]
    return good_recording(2, 1, 0, EVERY_10_MS[:8], [first, [0] + first[:-1]])


def hand_over():
    """The reserve vote of document 01: the alarm at sample 2 hands over to units 3 and 4."""
    return good_recording(3, 2, 0, EVERY_10_MS[:6],
                          [[5] * 6, [5] + [7] * 5, [5] * 5 + [4], [5] + [4] * 5])


def empty():
    """A recording of no samples."""
    return good_recording(3, 2, 0, [], [[]])


def refused():
    """Sample 3 of unit 1 has a bit above the width: number 6."""
    return good_recording(2, 2, 0, EVERY_10_MS[:6], [[0, 1, 1, 4, 3, 3]])


SAMPLES = {'paper': paper, 'nuisance': nuisance, 'hand-over': hand_over, 'empty': empty, 'refused': refused}
