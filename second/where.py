"""Where in the papers each call is settled."""

MADE = "document 01, 'What the library covers' (fresh states), '%s' (Fresh)"
NEW = MADE + '; T-04 of document 02 (all ones within the width); refusals 1, 2'
FROM_WORD = MADE + '; refusals 1, 2, 5'
CONFIRM = "document 01, 'Confirmation', clauses 1 to 3; document 000, definition 6"
VOTE = "document 01, 'Vote of two words', clauses 1 to 4; document 000, definitions 14 and 16"
TWO_COUNTS = '; T-02 of document 02 (two counts)'
TUPLE = "document 01, 'Tuple vote'; document 000, definition 15" + TWO_COUNTS
RESERVE = "document 01, 'Reserve vote'; document 000, definition 17"
WHICH = '; T-09 of document 02 (which unit)'
STEP = '; refusals 1, 2, 6, 7'
RUN = '; refusals 1 to 6'

SETTLED = {
    'confirm.new': NEW % 'Confirmation',
    'confirm.from_word': FROM_WORD % 'Confirmation',
    'confirm.step': CONFIRM + STEP,
    'confirm.run': CONFIRM + RUN,
    'vote.new': NEW % 'Vote of two words',
    'vote.from_word': FROM_WORD % 'Vote of two words',
    'vote.step': VOTE + WHICH + STEP,
    'vote.run': VOTE + WHICH + RUN,
    'tuple.new': NEW % 'Tuple vote' + TWO_COUNTS,
    'tuple.from_word': FROM_WORD % 'Tuple vote' + TWO_COUNTS,
    'tuple.step': TUPLE + WHICH + STEP,
    'tuple.run': TUPLE + WHICH + RUN,
    'reserve.new': NEW % 'Reserve vote',
    'reserve.from_word': FROM_WORD % 'Reserve vote',
    'reserve.step': RESERVE + WHICH + STEP,
    'reserve.run': RESERVE + WHICH + RUN,
    'sizing': "document 01, 'Sizing'; document 000, 4.2.2 and 6.2" + TWO_COUNTS + '; refusals 2, 9, 10',
    'threshold': "document 01, 'Threshold vote'; document 000, 6.1; refusal 11",
    'recording.read': "document 01, 'The recording' (its own order of checks)",
    'listing': "document 01, 'The recording', the part on the listing program",
}


def settled(line):
    """The place for the call on this line."""
    name = line.split(' ')[0]
    return SETTLED.get(name, 'nowhere: no such call')
