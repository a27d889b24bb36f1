"""Vote of two words. Document 01, 'Vote of two words'; document 000, definitions 14 and 16; T-04 and T-09 of
document 02."""

from collections import namedtuple

import rules

AGREED, HELD, ALARM = 0, 1, 2      # the mark byte
FIRST, SECOND, NEITHER = 1, 2, 3   # T-09, the byte `which`; 0 is AGREED there too

State = namedtuple('State', 'n N word count')
Made = namedtuple('Made', 'number state')
Answer = namedtuple('Answer', 'number word mark which state')
Run = namedtuple('Run', 'number sample words marks which')


def fresh(n, N, word):
    """Fresh: initial word, 0."""
    return State(n, N, word, 0)


def from_word(n, N, word):
    """The constructor with an initial word. A refused one returns "the fresh state of n 1, N 1 and word zero"."""
    number = rules.refuse_constructor(n, [N], word)
    if number != 0:
        return Made(number, fresh(1, 1, 0))
    return Made(0, fresh(n, N, word))


def new(n, N):
    """The second constructor takes no initial word. T-04: it uses all ones within the width."""
    return from_word(n, N, rules.default_word(n))


def damaged(state):
    """Number 7: a count above N-1, or a stored word outside the width."""
    return state.count > state.N - 1 or rules.outside(state.word, state.n)


def step(state, a, b, reset):
    """One step on any state; without a reset it is the plain vote."""
    number = rules.refuse_step(state.n, [state.N], [a, b])
    if number == 0 and damaged(state):
        number = 7
    if number != 0:
        return Answer(number, 0, rules.NO_MARK, 0, state)
    return clauses(state, a, b, reset)


def which_shows(word, a, b):
    """T-09: "which unit still shows the last agreed word: the first, the second, or neither". Asked only of two that
    differ, on hold and alarm. Of a single signal one of the two always shows it: "neither" cannot occur."""
    if a == word:
        return FIRST
    if b == word:
        return SECOND
    return NEITHER


def clauses(state, a, b, reset):
    """The clauses, in order; the first that applies is taken."""
    # Clause 1. The two are equal: agreed on that word, which is stored, count 0.
    if a == b:
        return Answer(0, a, AGREED, AGREED, state._replace(word=a, count=0))
    which = which_shows(state.word, a, b)
    # Clause 2. A reset is given: held at the last agreed word, count 0.
    if reset:
        return Answer(0, state.word, HELD, which, state._replace(count=0))
    # Clause 3. Count < N-1: held, count plus 1.
    if state.count < state.N - 1:
        return Answer(0, state.word, HELD, which, state._replace(count=state.count + 1))
    # Clause 4. Alarm; word and count unchanged.
    return Answer(0, state.word, ALARM, which, state)


def run(n, N, word, a, b, words, marks, which):
    """A run has no resets; it equals its steps, taken from a fresh state. T-09: `which` is "one more lent slice,
    covered by number 4"."""
    number, sample = rules.refuse_run(n, [N], word, [a, b], [words, marks, which])
    if number != 0:
        return Run(number, sample, words, marks, which)
    state = fresh(n, N, word)
    words, marks, which = [], [], []
    for one, two in zip(a, b):
        answer = step(state, one, two, False)
        state = answer.state
        words.append(answer.word)
        marks.append(answer.mark)
        which.append(answer.which)
    return Run(0, 0, words, marks, which)
