"""Limits and refusal tests.

Document 01, 'What the library covers' and 'Refusal numbers'. The tests of a call take all its counts as one list:
the tuple vote has two (T-02 of document 02), every other call has one.
"""

GREATEST_WIDTH = 32    # "n is 1 to 32"
GREATEST_COUNT = 1000  # "Counts N are 1 to 1,000"
GREATEST_TRACE = 2048  # "A trace has 0 to 2,048 samples"

NO_MARK = 255          # the call protocol's mark byte of a refused step


def wrong_count(counts):
    """Number 1: N is 0 or above 1,000. T-02: it covers both counts of a tuple vote."""
    return any(N == 0 or N > GREATEST_COUNT for N in counts)


def wrong_width(n):
    """Number 2: n is 0 or above 32."""
    return n == 0 or n > GREATEST_WIDTH


def outside(word, n):
    """The word has a bit at n or above. Asked only once n is known to be 1 to 32."""
    return word >= 2 ** n


def default_word(n):
    """T-04: all ones within the width, for a constructor without an initial word. A width that number 2 refuses
    has no signals, and its word is not looked at; 0 stands in for it."""
    return 0 if wrong_width(n) else 2 ** n - 1


def bit(word, i):
    """Signal i of the word: "signal i at bit i"."""
    return word // 2 ** i % 2


def word_of(bits):
    """The word with these signals, signal 0 first."""
    return sum(value * 2 ** i for i, value in enumerate(bits))


def first_outside(columns, n):
    """The smallest sample number at which a column has a bit at n or above, or None."""
    for number, samples in enumerate(zip(*columns)):
        if any(outside(word, n) for word in samples):
            return number
    return None


def refuse_constructor(n, counts, word):
    """The lowest of 1, 2 and 5 that applies, or 0."""
    if wrong_count(counts):
        return 1
    if wrong_width(n):
        return 2
    if outside(word, n):
        return 5
    return 0


def refuse_step(n, counts, samples):
    """The lowest of 1, 2 and 6 that applies to a step, or 0.

    "A state carries its n and N, so 1 and 2 apply to a step too."
    Number 7 is tested after this, beside the state it looks at.
    """
    if wrong_count(counts):
        return 1
    if wrong_width(n):
        return 2
    if any(outside(word, n) for word in samples):
        return 6
    return 0


def refuse_run(n, counts, word, columns, lent):
    """The lowest number that applies to a run, with its sample number; or 0, 0.

    The trace is the input columns; the lent slices are these and the outputs.
    """
    if wrong_count(counts):
        return 1, 0
    if wrong_width(n):
        return 2, 0
    if any(len(column) > GREATEST_TRACE for column in columns):
        return 3, 0
    if any(len(one) != len(columns[0]) for one in columns + lent):
        return 4, 0
    if outside(word, n):
        return 5, 0
    sample = first_outside(columns, n)
    if sample is not None:
        return 6, sample
    return 0, 0
