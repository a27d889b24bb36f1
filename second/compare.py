"""Compares two files of answers, line by line.

    python3 compare.py CALLS EXPECTED ACTUAL
"""

import sys
from itertools import zip_longest

from where import settled

SHOWN = 10     # disagreements printed in full
CALL_CUT = 300
TOKEN_CUT = 40


def lines_of(name):
    with open(name, encoding='utf-8', errors='replace', newline='') as file:
        text = file.read()
    lines = text.split('\n')
    return lines[:-1] if lines[-1] == '' else lines


def cut(text, length):
    return text if len(text) <= length else text[:length] + '...'


def first_difference(one, two):
    """The number, from 1, of the first token that differs."""
    pairs = zip_longest(one.split(' '), two.split(' '))
    return next(number for number, (a, b) in enumerate(pairs, 1) if a != b)


def around(answer, number):
    """The answer cut around this token, which stands in brackets."""
    tokens = [cut(token, TOKEN_CUT) for token in answer.split(' ')]
    start, end = max(0, number - 6), number + 5
    shown = tokens[start:end]
    if number <= len(tokens):
        shown[number - 1 - start] = '[' + shown[number - 1 - start] + ']'
    else:
        shown.append('[no token]')
    before, after = '... ' if start > 0 else '', ' ...' if end < len(tokens) else ''
    return before + ' '.join(shown) + after


def report(number, call, expected, actual):
    """Prints one disagreement."""
    missing = '(no such line)'
    print('line %d: %s' % (number, cut(missing if call is None else call, CALL_CUT)))
    if expected is None or actual is None or expected == actual:
        print('  expected: ' + cut(missing if expected is None else expected, CALL_CUT))
        print('  actual:   ' + cut(missing if actual is None else actual, CALL_CUT))
    else:
        token = first_difference(expected, actual)
        print('  first different token: %d' % token)
        print('  expected: ' + around(expected, token))
        print('  actual:   ' + around(actual, token))
    print('  settled:  ' + settled(call or ''))


def main(names):
    if len(names) != 3:
        print(__doc__)
        return 2
    calls, expected, actual = [lines_of(name) for name in names]
    disagreements = 0
    for number, (call, one, two) in enumerate(zip_longest(calls, expected, actual), 1):
        if None in (call, one, two) or one != two:
            disagreements += 1
            if disagreements <= SHOWN:
                report(number, call, one, two)
    print('%d disagreements in %d lines' % (disagreements, len(calls)))
    return 0 if disagreements == 0 else 1


if __name__ == '__main__':
    sys.exit(main(sys.argv[1:]))
