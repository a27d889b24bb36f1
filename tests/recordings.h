/* Recordings for the tests, in one place that the next one overwrites. */
#ifndef RECORDINGS_H
#define RECORDINGS_H

#include "more.h"

#define HEADER_BYTES 44
#define UNITS_AT 4       /* offsets in the header */
#define SAMPLES_AT 8
#define WIDTH_AT 12
#define NEED_AT 16
#define WORD_AT 20
#define OFFSETS_AT 24    /* five of them, as many as columns */

/* What a recording that was written holds in a column; column 0 are the times. */
uint32_t value_of(size_t column, size_t i);
/* Writes a whole recording; the header need not be one that the reader takes. */
bytes recording_of(const scorve_header *header);
/* Overwrites a number in the recording that was written last. */
void overwrite(size_t offset, uint32_t value);
/* Where a sample stands in a recording with this number of samples. */
size_t place_of(size_t samples, size_t column, size_t i);

#endif
