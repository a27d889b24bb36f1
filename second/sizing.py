"""Sizing of counts and bounds. Document 01, 'Sizing'; document 000, 4.2.2 and 6.2; T-02 of document 02."""

from collections import namedtuple

import rules

GREATEST_GAP = 1000000     # microseconds
GREATEST_DELAY = 10000000  # microseconds

# count: the confirmation's; votes: the votes' count
Sizes = namedtuple('Sizes', 'number count votes age gap')


def refused(number):
    """A refused sizing returns zeros."""
    return Sizes(number, 0, 0, 0, 0)


def sizing(n, Tm, TM, D):
    """Both counts, age bound and quiet gap."""
    # Number 2. Number 1 is not asked: the counts are made here, and number 10 bounds them.
    if rules.wrong_width(n):
        return refused(2)
    # Number 9.
    if Tm == 0 or Tm > TM or TM > GREATEST_GAP or D > GREATEST_DELAY:
        return refused(9)
    # The confirmation's count is floor(D / Tm) + 1.
    N = D // Tm + 1
    # T-02: "Votes take ceil(D / Tm) + 1". Division rounds down, so that of -D rounds D / Tm up.
    V = -(-D // Tm) + 1
    # Number 10. T-02: "if either count is above 1,000".
    if N > rules.GREATEST_COUNT or V > rules.GREATEST_COUNT:
        return refused(10)
    # The age bound is n*N*TM + D; the quiet gap is (n*N+1)*TM + D. T-02: they "use the confirmation count".
    return Sizes(0, N, V, n * N * TM + D, (n * N + 1) * TM + D)
