/* The reader of recordings and the listing, straight from the rules. */
#include "plain.h"

#include <string.h>

#include "clauses.h"

enum { HEADER_BYTES = 44, TAG_BYTES = 4, OFFSETS_AT = 24, WORD_BYTES = 4, MAX_UNITS = 4 };

_Static_assert(__BYTE_ORDER__ == __ORDER_LITTLE_ENDIAN__, "a recording's numbers are taken as they stand");

/* ---- the reader ---- */

/* A recording's numbers need not be aligned. */
static inline uint32_t number_at(const uint8_t *bytes)
{
  uint32_t number;
  memcpy(&number, bytes, sizeof number);
  return number;
}

/* Column 0 holds the times, column u the samples of unit u. */
static inline uint32_t column_offset(uint32_t samples, uint32_t which)
{
  return HEADER_BYTES + WORD_BYTES * samples * which;
}

static inline const uint8_t *column(const uint8_t *bytes, uint32_t samples, uint32_t which)
{
  return bytes + column_offset(samples, which);
}

static int offsets_stand(const uint8_t *bytes, size_t bytes_len, uint32_t units, uint32_t samples)
{
  for (uint32_t which = 0; which <= MAX_UNITS; which++) {
    const uint32_t expected = which <= units ? column_offset(samples, which) : 0;
    if (number_at(bytes + OFFSETS_AT + WORD_BYTES * which) != expected) return 0;
  }
  return bytes_len == column_offset(samples, units + 1);
}

/* The number of the first sample outside the width, or limit if there is none before it. */
static uint32_t first_outside(const uint8_t *samples, uint32_t limit, uint32_t high)
{
  for (uint32_t i = 0; i < limit; i++) {
    if (number_at(samples + (size_t)WORD_BYTES * i) & high) return i;
  }
  return limit;
}

static uint32_t check_columns(const uint8_t *bytes, const scorve_header *header, uint32_t *sample)
{
  uint32_t first = header->samples;
  for (uint32_t unit = 1; unit <= header->units; unit++) {
    first = first_outside(column(bytes, header->samples, unit), first, outside(header->n));
  }
  if (first == header->samples) return SCORVE_OK;
  *sample = first;
  return SCORVE_BAD_SAMPLE;
}

/* All refusals of a recording but that of the lent slices; *header is filled on the way. */
static uint32_t check_recording(const uint8_t *bytes, size_t bytes_len, scorve_header *header, uint32_t *sample)
{
  *sample = 0;
  if (bytes_len < HEADER_BYTES || memcmp(bytes, "QSR1", TAG_BYTES) != 0) return SCORVE_NO_RECORDING;
  *header = (scorve_header){number_at(bytes + 4), number_at(bytes + 8), number_at(bytes + 12),
                            number_at(bytes + 16), number_at(bytes + 20)};
  if (header->units != 1 && header->units != 2 && header->units != 4) return SCORVE_NO_RECORDING;
  if (header->samples > SCORVE_MAX_SAMPLES) return SCORVE_TOO_LONG;
  if (!offsets_stand(bytes, bytes_len, header->units, header->samples)) return SCORVE_NO_RECORDING;
  const uint32_t refusal = check_limits(header->n, header->need);
  if (refusal) return refusal;
  if (header->word & outside(header->n)) return SCORVE_BAD_WORD;
  return check_columns(bytes, header, sample);
}

uint32_t plain_recording_read(const uint8_t *bytes, size_t bytes_len,
                              uint32_t *times, size_t times_len,
                              uint32_t *one, size_t one_len,
                              uint32_t *two, size_t two_len,
                              uint32_t *three, size_t three_len,
                              uint32_t *four, size_t four_len,
                              scorve_header *header, uint32_t *sample)
{
  uint32_t *const lent[1 + MAX_UNITS] = {times, one, two, three, four};
  const size_t places = SCORVE_MAX_SAMPLES;
  scorve_header read;
  *sample = 0;
  if (times_len != places || one_len != places || two_len != places || three_len != places || four_len != places) {
    return SCORVE_BAD_LENGTH;
  }
  const uint32_t refusal = check_recording(bytes, bytes_len, &read, sample);
  if (refusal) return refusal;
  for (uint32_t which = 0; which <= read.units; which++) {
    memcpy(lent[which], column(bytes, read.samples, which), (size_t)WORD_BYTES * read.samples);
  }
  *header = read;
  return SCORVE_OK;
}

/* ---- the listing: each put_ function returns the place after what it has written ---- */

static uint8_t *put_text(uint8_t *at, const char *text)
{
  while (*text) *at++ = (uint8_t)*text++;
  return at;
}

static uint8_t *put_decimal(uint8_t *at, uint32_t value)
{
  uint8_t digits[10];
  size_t len = 0;
  do {
    digits[len++] = (uint8_t)('0' + value % 10);
    value /= 10;
  } while (value);
  while (len) *at++ = digits[--len];
  return at;
}

static uint8_t *put_hex(uint8_t *at, uint32_t value)
{
  for (int shift = 28; shift >= 0; shift -= 4) *at++ = (uint8_t)"0123456789abcdef"[value >> shift & 15];
  return at;
}

static uint8_t *put_line(uint8_t *at, uint32_t number, uint32_t word, char mark, uint32_t last)
{
  at = put_decimal(at, number);
  *at++ = ' ';
  at = put_hex(at, word);
  *at++ = ' ';
  *at++ = (uint8_t)mark;
  *at++ = ' ';
  at = put_hex(at, last);
  *at++ = '\n';
  return at;
}

static uint8_t *put_first_line(uint8_t *at, const char *kind, const scorve_header *header)
{
  at = put_text(at, kind);
  at = put_decimal(at, header->samples);
  *at++ = ' ';
  at = put_decimal(at, header->n);
  *at++ = ' ';
  at = put_decimal(at, header->need);
  *at++ = '\n';
  return at;
}

static uint8_t *put_confirm(uint8_t *at, const uint8_t *bytes, const scorve_header *header)
{
  const uint8_t *samples = column(bytes, header->samples, 1);
  uint32_t previous = header->word, output = header->word, count = 0;
  at = put_first_line(at, "confirm ", header);
  for (uint32_t i = 0; i < header->samples; i++) {
    const uint32_t mark = confirm(header->need, &previous, &output, &count, number_at(samples + 4 * i));
    at = put_line(at, i, output, "CH"[mark], count);
  }
  return at;
}

static uint8_t *put_pair(uint8_t *at, const uint8_t *bytes, const scorve_header *header)
{
  const uint8_t *a = column(bytes, header->samples, 1), *b = column(bytes, header->samples, 2);
  scorve_tuple state = fresh_tuple(header->n, header->need, header->need, header->word);
  at = put_first_line(at, "pair ", header);
  for (uint32_t i = 0; i < header->samples; i++) {
    uint32_t mask;
    const uint32_t mark = tuple_vote(&state, number_at(a + 4 * i), number_at(b + 4 * i), &mask);
    at = put_line(at, i, state.output, "CH!"[mark], mask);
  }
  return at;
}

static uint8_t *put_reserve(uint8_t *at, const uint8_t *bytes, const scorve_header *header)
{
  const uint8_t *a = column(bytes, header->samples, 1), *b = column(bytes, header->samples, 2);
  const uint8_t *c = column(bytes, header->samples, 3), *d = column(bytes, header->samples, 4);
  uint32_t phase = SCORVE_PRIMARY, agreed = header->word, count = 0;
  at = put_first_line(at, "reserve ", header);
  for (uint32_t i = 0; i < header->samples; i++) {
    const uint32_t pair = phase == SCORVE_PRIMARY ? 1 : 2; /* before the step changes it */
    const uint32_t mark = reserve_vote(header->need, &phase, &agreed, &count, number_at(a + 4 * i),
                                       number_at(b + 4 * i), number_at(c + 4 * i), number_at(d + 4 * i));
    at = put_line(at, i, agreed, "AH!"[mark], pair);
  }
  return at;
}

static uint8_t *put_refusal(uint8_t *at, uint32_t refusal, uint32_t sample)
{
  at = put_text(at, "refused ");
  at = put_decimal(at, refusal);
  at = put_text(at, " at ");
  at = put_decimal(at, sample);
  *at++ = '\n';
  return at;
}

uint32_t plain_listing_list(const uint8_t *bytes, size_t bytes_len,
                            uint8_t *out, size_t out_len,
                            size_t *written, uint32_t *refused)
{
  scorve_header header;
  uint32_t sample;
  uint8_t *end;
  if (out_len < SCORVE_LONGEST_LISTING) return SCORVE_BUFFER_TOO_SHORT;
  const uint32_t refusal = check_recording(bytes, bytes_len, &header, &sample);
  if (refusal) end = put_refusal(out, refusal, sample);
  else if (header.units == 1) end = put_confirm(out, bytes, &header);
  else if (header.units == 2) end = put_pair(out, bytes, &header);
  else end = put_reserve(out, bytes, &header);
  *written = (size_t)(end - out);
  *refused = refusal != SCORVE_OK;
  return SCORVE_OK;
}
