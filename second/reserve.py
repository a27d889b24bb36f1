"""Reserve vote over two pairs. Document 01, 'Reserve vote'; document 000, definition 17; T-04 and T-09 of document 02.

T-04's title, "Start reserved", is about the word. It is not the phase: a fresh state is primary.

T-09: "the reserve vote passes it on for its pair", the one that is voted on. The first is unit 1 or 3, the second unit
2 or 4. The last agreed word is the vote's, so at the hand-over it is still the one that units 1 and 2 left.
"""

from collections import namedtuple

import rules
import vote

PRIMARY, TAKING_OVER, RESERVE = 0, 1, 2  # which pair is in force

State = namedtuple('State', 'phase vote')
Made = namedtuple('Made', 'number state')
Answer = namedtuple('Answer', 'number word mark pair which state')
Run = namedtuple('Run', 'number sample words marks which')


def fresh(n, N, word):
    """Primary, with a fresh vote."""
    return State(PRIMARY, vote.fresh(n, N, word))


def from_word(n, N, word):
    """The constructor with an initial word. A refused one returns "the fresh state of n 1, N 1 and word zero"."""
    number = rules.refuse_constructor(n, [N], word)
    if number != 0:
        return Made(number, fresh(1, 1, 0))
    return Made(0, fresh(n, N, word))


def new(n, N):
    """The second constructor takes no initial word. T-04: it uses all ones within the width."""
    return from_word(n, N, rules.default_word(n))


def step(state, a, b, c, d):
    """One step on any state. The samples of all four units must be inside the width."""
    number = rules.refuse_step(state.vote.n, [state.vote.N], [a, b, c, d])
    if number == 0 and vote.damaged(state.vote):
        number = 7
    if number != 0:
        return Answer(number, 0, rules.NO_MARK, 0, 0, state)
    return clauses(state, a, b, c, d)


def clauses(state, a, b, c, d):
    """The vote of the pair in force. Whole words are compared."""
    # Primary uses units 1 and 2. An alarm there makes the next step "taking over".
    if state.phase == PRIMARY:
        answer = vote.clauses(state.vote, a, b, False)
        phase = TAKING_OVER if answer.mark == vote.ALARM else PRIMARY
        return Answer(0, answer.word, answer.mark, 1, answer.which, State(phase, answer.state))
    # Taking over: units 3 and 4, with a reset. After that reserve: no reset, for ever.
    reset = state.phase == TAKING_OVER
    answer = vote.clauses(state.vote, c, d, reset)
    return Answer(0, answer.word, answer.mark, 2, answer.which, State(RESERVE, answer.state))


def run(n, N, word, a, b, c, d, words, marks, which):
    """A run equals its steps, taken from a fresh state. T-09: `which` is "one more lent slice, covered by number 4"."""
    number, sample = rules.refuse_run(n, [N], word, [a, b, c, d], [words, marks, which])
    if number != 0:
        return Run(number, sample, words, marks, which)
    state = fresh(n, N, word)
    words, marks, which = [], [], []
    for samples in zip(a, b, c, d):
        answer = step(state, *samples)
        state = answer.state
        words.append(answer.word)
        marks.append(answer.mark)
        which.append(answer.which)
    return Run(0, 0, words, marks, which)
