"""Tuple vote. Document 01, 'Tuple vote'; document 000, definition 15; T-02, T-04 and T-09 of document 02.

T-02: "the tuple vote keeps one for its voters and one for its confirmation". V is the voters' count, the same for
every signal; N is the confirmation's. Neither need be the greater one.

T-09: "The tuple vote passes it on for each signal", as "a word with a one where the signals differ and the second unit
shows the agreed bit". "For single signals "neither" cannot occur": where the signals differ and the word has a zero,
the first unit shows it.
"""

from collections import namedtuple

import confirm
import rules
import vote

CONFIRMED, HELD, ALARM = 0, 1, 2  # the mark byte

# confirmation: its state, with n and N; agreed: the voters' last agreed bits as one word; counts: 32 places, one for
# each signal
State = namedtuple('State', 'V confirmation agreed counts')
Made = namedtuple('Made', 'number state')
Answer = namedtuple('Answer', 'number word mask mark second state')
Run = namedtuple('Run', 'number sample words masks marks seconds')


def fresh(n, V, N, word):
    """Each signal has a vote of its own, with the same V, from its bit of the initial word."""
    return State(V, confirm.fresh(n, N, word), word, (0,) * 32)


def from_word(n, V, N, word):
    """The constructor with an initial word. Number 1 covers both counts. A refused one returns "the fresh state of
    n 1, N 1 and word zero", with 1 for both counts."""
    number = rules.refuse_constructor(n, [V, N], word)
    if number != 0:
        return Made(number, fresh(1, 1, 1, 0))
    return Made(0, fresh(n, V, N, word))


def new(n, V, N):
    """The second constructor takes no initial word. T-04: it uses all ones within the width, in the confirmation and in
    the voters' bits; "places for absent signals stay zero"."""
    return from_word(n, V, N, rules.default_word(n))


def damaged(state):
    """Number 7, for the confirmation, whose count may reach N-1; for the n voters, whose counts may reach V-1;
    and for the places at n or above, which must be as in a state freshly made from zero: agreed bit 0, count 0."""
    n = state.confirmation.n
    return (confirm.damaged(state.confirmation)
            or rules.outside(state.agreed, n)
            or any(count > state.V - 1 for count in state.counts[:n])
            or any(count != 0 for count in state.counts[n:]))


def step(state, a, b):
    """One step on any state. It carries its n, V and N, so 1, for both counts, and 2 apply to it too."""
    number = rules.refuse_step(state.confirmation.n, [state.V, state.confirmation.N], [a, b])
    if number == 0 and damaged(state):
        number = 7
    if number != 0:
        return Answer(number, 0, 0, rules.NO_MARK, 0, state)
    return clauses(state, a, b)


def vote_all(state, a, b):
    """The plain vote of each signal, signal 0 first, with the voters' count; none depends on another."""
    voters = [vote.State(1, state.V, rules.bit(state.agreed, i), state.counts[i])
              for i in range(state.confirmation.n)]
    return [vote.clauses(voter, rules.bit(a, i), rules.bit(b, i), False)
            for i, voter in enumerate(voters)]


def clauses(state, a, b):
    """The voters' step, then the alarm mask or the confirmation's step."""
    before = state.confirmation
    answers = vote_all(state, a, b)
    # Voters of all signals step in either case.
    agreed = rules.word_of(answer.state.word for answer in answers)
    counts = tuple(answer.state.count for answer in answers) + state.counts[before.n:]
    # T-09: what the voters say of each signal, those that hold and those that alarm; confirmation has no part in it.
    second = rules.word_of(int(answer.which == vote.SECOND) for answer in answers)
    # If any alarms: the alarm mask with the previous output; confirmation takes no step.
    mask = rules.word_of(int(answer.mark == vote.ALARM) for answer in answers)
    if mask != 0:
        return Answer(0, before.output, mask, ALARM, second, State(state.V, before, agreed, counts))
    # Otherwise the voted word takes a step of confirmation, with N, which its state carries.
    voted = rules.word_of(answer.word for answer in answers)
    after = confirm.clauses(before, voted)
    mark = CONFIRMED if after.mark == confirm.CONFIRMED else HELD
    return Answer(0, after.word, 0, mark, second, State(state.V, after.state, agreed, counts))


def run(n, V, N, word, a, b, words, masks, marks, seconds):
    """A run equals its steps, taken from a fresh state. T-09: `seconds` is "one more lent slice, covered by number 4",
    a word for each sample."""
    number, sample = rules.refuse_run(n, [V, N], word, [a, b], [words, masks, marks, seconds])
    if number != 0:
        return Run(number, sample, words, masks, marks, seconds)
    state = fresh(n, V, N, word)
    words, masks, marks, seconds = [], [], [], []
    for one, two in zip(a, b):
        answer = step(state, one, two)
        state = answer.state
        words.append(answer.word)
        masks.append(answer.mask)
        marks.append(answer.mark)
        seconds.append(answer.second)
    return Run(0, 0, words, masks, marks, seconds)
