"""The five errors of document 01, 'Errors we have met', each made on purpose.

Run as a program, it checks that every wrong variant gives another answer than the right one
on at least three stored calls of its room, and on every call that is named for it.
"""

import sys
from collections import namedtuple

import confirm
import generate
import make
import protocol
import reserve
import tuple_vote
import vote

Variant = namedtuple('Variant', 'error name function')


def error_1(state, x):
    """Confirms after N equal samples, the one that changed counted as the first."""
    count = 0 if x != state.input else min(state.count + 1, state.N - 1)
    word, mark = state.output, confirm.HELD
    if count == state.N - 1:
        word, mark = x, confirm.CONFIRMED
    return confirm.Answer(0, word, mark, state._replace(input=x, output=word, count=count))


def error_2(state, x):
    """Compares the input with the previous output."""
    answer = confirm.clauses(state._replace(input=state.output), x)
    return answer._replace(state=answer.state._replace(input=x))


def error_3(state, x):
    """Tests the count before the change of input."""
    if state.count < state.N - 1:
        after = state._replace(input=x, count=state.count + 1)
        return confirm.Answer(0, state.output, confirm.HELD, after)
    return confirm.clauses(state, x)


def error_4_vote(state, a, b, reset):
    """Definition 16 to the letter: the alarm clause stands above the reset."""
    right = vote.clauses(state, a, b, reset)
    if a == b or not reset:
        return right
    return right._replace(mark=vote.HELD if state.count < state.N - 1 else vote.ALARM)


def error_4_reserve(state, a, b, c, d):
    """The same at the step of hand-over."""
    if state.phase != reserve.TAKING_OVER:
        return reserve.clauses(state, a, b, c, d)
    answer = error_4_vote(state.vote, c, d, True)
    after = reserve.State(reserve.RESERVE, answer.state)
    return reserve.Answer(0, answer.word, answer.mark, 2, answer.which, after)


def error_4_run(*arguments):
    """The alarm is stored as the last word: a hold shows it until the next agreement."""
    right = reserve.run(*arguments)
    marks, stored = [], False
    for mark in right.marks:
        stored = mark == vote.ALARM or stored and mark != vote.AGREED
        marks.append(vote.ALARM if stored else mark)
    return right._replace(marks=marks)


def error_5(state, a, b):
    """Steps the confirmation at a sample that alarmed."""
    right = tuple_vote.clauses(state, a, b)
    if right.mark != tuple_vote.ALARM:
        return right
    after = confirm.clauses(state.confirmation, right.state.agreed)
    return right._replace(state=right.state._replace(confirmation=after.state))


VARIANTS = [Variant(1, 'confirm.step', error_1), Variant(2, 'confirm.step', error_2),
            Variant(3, 'confirm.step', error_3), Variant(4, 'vote.step', error_4_vote),
            Variant(4, 'reserve.step', error_4_reserve), Variant(4, 'reserve.run', error_4_run),
            Variant(5, 'tuple.step', error_5)]


def differs(call, variant):
    """Whether the variant gives another answer. A refused call is refused by it as well."""
    right = protocol.result(call)
    if right.number != 0:
        return False
    readers = protocol.CALLS[variant.name].readers
    wrong = protocol.result(call, {variant.name: protocol.Call(readers, variant.function)})
    return protocol.show(wrong) != protocol.show(right)


def stored_calls(name):
    """The stored calls of this name."""
    room = name.split('.')[0]
    return [case.call for case in generate.room_cases(room) if case.call.startswith(name + ' ')]


def main():
    well = True
    named = list(make.error_lines())
    for variant in VARIANTS:
        telling = [call for call in stored_calls(variant.name) if differs(call, variant)]
        mine = [call for error, _, _, call in named
                if error == variant.error and call.startswith(variant.name + ' ')]
        good = len(telling) >= 3 and len(mine) >= 3 and set(mine) <= set(telling)
        print('error %d in %s: %d stored calls tell, %d of them named%s'
              % (variant.error, variant.name, len(telling), len(mine), '' if good else ': WRONG'))
        well = well and good
    return 0 if well else 1


if __name__ == '__main__':
    sys.exit(main())
