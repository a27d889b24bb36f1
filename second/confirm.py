"""Confirmation of a tuple. Document 01, 'Confirmation'; document 000, definition 6; T-04 of document 02."""

from collections import namedtuple

import rules

CONFIRMED, HELD = 0, 1  # the mark byte

State = namedtuple('State', 'n N input output count')
Made = namedtuple('Made', 'number state')
Answer = namedtuple('Answer', 'number word mark state')
Run = namedtuple('Run', 'number sample words marks counts')


def fresh(n, N, word):
    """Fresh: both the initial word, count 0."""
    return State(n, N, word, word, 0)


def from_word(n, N, word):
    """The constructor with an initial word. A refused one returns "the fresh state of n 1, N 1 and word zero"."""
    number = rules.refuse_constructor(n, [N], word)
    if number != 0:
        return Made(number, fresh(1, 1, 0))
    return Made(0, fresh(n, N, word))


def new(n, N):
    """The second constructor takes no initial word. T-04: it uses all ones within the width."""
    return from_word(n, N, rules.default_word(n))


def damaged(state):
    """Number 7: a count above N-1, or a stored word outside the width."""
    return (state.count > state.N - 1
            or rules.outside(state.input, state.n)
            or rules.outside(state.output, state.n))


def step(state, x):
    """One step on any state."""
    number = rules.refuse_step(state.n, [state.N], [x])
    if number == 0 and damaged(state):
        number = 7
    if number != 0:
        return Answer(number, 0, rules.NO_MARK, state)
    return clauses(state, x)


def clauses(state, x):
    """The clauses, in order; the first that applies is taken."""
    # Clause 1. Input differs from the previous input.
    if x != state.input:
        return Answer(0, state.output, HELD, state._replace(input=x, count=0))
    # Clause 2. Count < N-1.
    if state.count < state.N - 1:
        return Answer(0, state.output, HELD, state._replace(count=state.count + 1))
    # Clause 3. Output the input, count unchanged.
    return Answer(0, x, CONFIRMED, state._replace(output=x))


def run(n, N, word, samples, words, marks, counts):
    """A run equals its steps, taken from a fresh state."""
    number, sample = rules.refuse_run(n, [N], word, [samples], [words, marks, counts])
    if number != 0:
        return Run(number, sample, words, marks, counts)
    state = fresh(n, N, word)
    words, marks, counts = [], [], []
    for x in samples:
        answer = step(state, x)
        state = answer.state
        words.append(answer.word)
        marks.append(answer.mark)
        counts.append(state.count)
    return Run(0, 0, words, marks, counts)
