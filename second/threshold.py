"""The 2/3 threshold vote on f64 readings. Document 01, 'Threshold vote'; document 000, 6.1.

A Python float is an f64, and each operation on two of them is rounded once.
"""

from collections import namedtuple
from math import isfinite

import rules

AGREED, ALARM = 0, 2  # the call protocol's mark byte

Answer = namedtuple('Answer', 'number mark reading')


def smaller(a, b):
    """min(a,b) is a if a <= b, else b."""
    return a if a <= b else b


def larger(a, b):
    """max(a,b) is a if a >= b, else b."""
    return a if a >= b else b


def median(x1, x2, x3):
    """max(max(min(x1,x2), min(x2,x3)), min(x3,x1)), bits and all."""
    return larger(larger(smaller(x1, x2), smaller(x2, x3)), smaller(x3, x1))


def threshold(x1, x2, x3, tolerance):
    """An agreed reading or an alarm."""
    # Number 11. A tolerance of -0 is not below zero.
    if not all(isfinite(x) for x in (x1, x2, x3, tolerance)) or tolerance < 0.0:
        return Answer(11, rules.NO_MARK, 0.0)
    # An infinite difference is above every finite tolerance, so it does not agree.
    differences = (x2 - x1, x3 - x2, x1 - x3)
    if any(abs(difference) <= tolerance for difference in differences):
        return Answer(0, AGREED, median(x1, x2, x3))
    return Answer(0, ALARM, 0.0)
