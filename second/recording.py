"""The reader of recordings. Document 01, 'The recording'."""

from collections import namedtuple

import rules

TAG = bytes([0x51, 0x53, 0x52, 0x31])  # "QSR1"
HEADER_LENGTH = 44
PLACES = 2048                          # of each lent slice

Header = namedtuple('Header', 'units samples n N word')
Read = namedtuple('Read', 'number sample header times unit1 unit2 unit3 unit4')


def field(data, offset):
    """The little-endian u32 at this offset."""
    return int.from_bytes(data[offset:offset + 4], 'little')


def header_of(data):
    """Units at 4, samples at 8, n at 12, N at 16, initial word at 20."""
    return Header(*[field(data, offset) for offset in (4, 8, 12, 16, 20)])


def right_offsets(header):
    """Of the times, always 44, and of units 1 to 4: each column follows directly on what
    stands before, absent units have 0."""
    length = 4 * header.samples
    present = [HEADER_LENGTH + length * unit for unit in range(1, header.units + 1)]
    return [HEADER_LENGTH] + present + [0] * (4 - header.units)


def column(data, header, place):
    """A column has one u32 per sample: place 0 the times, 1 to 4 the units."""
    start = HEADER_LENGTH + 4 * header.samples * place
    return [field(data, start + 4 * i) for i in range(header.samples)]


def refuse(data, lent):
    """The number and its sample number, in the recording's own order; or 0, 0."""
    # Lent slices (4).
    if any(len(one) != PLACES for one in lent):
        return 4, 0
    # Shorter than 44 bytes, tag, units (12).
    if len(data) < HEADER_LENGTH or data[:4] != TAG:
        return 12, 0
    header = header_of(data)
    if header.units not in (1, 2, 4):
        return 12, 0
    # Samples (3).
    if header.samples > rules.GREATEST_TRACE:
        return 3, 0
    # Offsets and length (12).
    offsets = [field(data, offset) for offset in (24, 28, 32, 36, 40)]
    if offsets != right_offsets(header):
        return 12, 0
    if len(data) != HEADER_LENGTH + 4 * header.samples * (1 + header.units):
        return 12, 0
    # Then 1, 2, 5.
    number = rules.refuse_constructor(header.n, [header.N], header.word)
    if number != 0:
        return number, 0
    # Then 6. Times are carried and not judged.
    units = [column(data, header, unit) for unit in range(1, header.units + 1)]
    sample = rules.first_outside(units, header.n)
    if sample is not None:
        return 6, sample
    return 0, 0


def read(data, times, unit1, unit2, unit3, unit4):
    """The header's values, and the first places of five lent slices filled."""
    lent = [times, unit1, unit2, unit3, unit4]
    number, sample = refuse(data, lent)
    if number != 0:
        return Read(number, sample, Header(0, 0, 0, 0, 0), *lent)
    header = header_of(data)
    # Other places and absent units' slices stay.
    for place in range(1 + header.units):
        lent[place] = column(data, header, place) + lent[place][header.samples:]
    return Read(0, 0, header, *lent)
