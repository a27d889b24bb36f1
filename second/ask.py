"""Answers one call, and says where in the papers it is settled.

    python3 ask.py confirm.step 2 2 0 0 0 1
    python3 ask.py threshold 0.0 0.5 1.0 0.5      readings as floats or as bit patterns
    python3 ask.py listing FILE                   the listing's text itself
    python3 ask.py recording.read FILE            with five lent slices of 2048 places, fill 7
"""

import os
import sys

import lines
import protocol
from where import settled


def is_float(token):
    """Written as a float: with a `.` or `e` in it, or inf or nan."""
    return any(part in token.lower() for part in ('.', 'e', 'inf', 'nan'))


def call_line(tokens):
    """The call line that the tokens stand for."""
    name = tokens[0]
    if name == 'threshold':
        tokens = ['%d' % protocol.to_bits(float(token)) if is_float(token) else token
                  for token in tokens[1:]]
        return ' '.join([name] + tokens)
    if name in ('listing', 'recording.read') and len(tokens) == 2 and os.path.isfile(tokens[1]):
        with open(tokens[1], 'rb') as file:
            data = file.read()
        return lines.listing_line(data) if name == 'listing' else lines.read_line(
            data, [(2048, 7)] * 5)
    return ' '.join(tokens)


def main(tokens):
    if not tokens:
        print(__doc__)
        return 2
    try:
        call = call_line(tokens)
        result = protocol.result(call)
    except ValueError as problem:
        print('not a call: %s' % problem, file=sys.stderr)
        return 2
    if tokens[0] == 'listing' and call != ' '.join(tokens):
        # A listing of a file: the text alone on standard output.
        print(result, end='')
        print(settled(call), file=sys.stderr)
        return 0
    print(protocol.show(result))
    print(settled(call))
    if tokens[0] == 'threshold' and any(is_float(token) for token in tokens[1:]):
        print({0: 'agreed %r' % result.reading, 2: 'alarm'}.get(result.mark, 'refused'))
    return 0


if __name__ == '__main__':
    sys.exit(main(sys.argv[1:]))
