/* The reader of recordings: lengths at their limits, what stays, every part of the header damaged, the order of the
 * numbers. */
#include <string.h>

#include "recordings.h"

#define PLACES (SCORVE_MAX_SAMPLES + 1)

static uint32_t places[COLUMNS][PLACES];
static slice slices[COLUMNS];
static const scorve_header small = {2, 5, 3, 2, 7};

static void renew_slices(void)
{
  size_t i;
  make_dirty(places, sizeof places);
  for (i = 0; i < COLUMNS; i++) {
    slices[i].at = places[i];
    slices[i].length = SCORVE_MAX_SAMPLES;
    slices[i].size = sizeof **places;
  }
}

static void check_header(const scorve_header *got, const scorve_header *expected)
{
  check(got->units == expected->units && got->samples == expected->samples && got->n == expected->n &&
        got->need == expected->need && got->word == expected->word, "recording: another header");
}

/* The first places hold the column, if it is there; all others stay. */
static void check_column(const scorve_header *header, size_t column)
{
  size_t i, filled = column <= header->units ? header->samples : 0;
  int same = 1;
  for (i = 0; i < filled; i++)
    same = same && places[column][i] == value_of(column, i);
  check(same, "recording: column %lu has other values", (unsigned long)column);
  check(is_dirty(places[column] + filled, (PLACES - filled) * sizeof **places),
        "recording: a place behind column %lu was changed", (unsigned long)column);
}

static void check_read(const scorve_header *header)
{
  scorve_header got;
  uint32_t sample, refusal;
  size_t column;
  bytes recording = recording_of(header);
  renew_slices();
  make_dirty(&got, sizeof got);
  make_dirty(&sample, sizeof sample);
  refusal = guarded_recording_read(recording, slices, &got, &sample);
  check(refusal == SCORVE_OK && sample == 0, "recording: refused with %lu at %lu", (unsigned long)refusal,
        (unsigned long)sample);
  if (refusal != SCORVE_OK)
    return;
  check_header(&got, header);
  for (column = 0; column < COLUMNS; column++)
    check_column(header, column);
}

static void check_refused(bytes recording, uint32_t expected, uint32_t expected_sample)
{
  scorve_header header;
  uint32_t sample, refusal;
  make_dirty(&header, sizeof header);
  make_dirty(&sample, sizeof sample);
  refusal = guarded_recording_read(recording, slices, &header, &sample);
  check(refusal == expected && sample == expected_sample, "recording: refused with %lu at %lu, not %lu at %lu",
        (unsigned long)refusal, (unsigned long)sample, (unsigned long)expected, (unsigned long)expected_sample);
}

static void good_recordings(void)
{
  static const uint32_t units[] = {1, 2, 4}, samples[] = {0, 1, 5, 2047, 2048}, needs[] = {1, 1000};
  size_t i, rest = 0;
  for (i = 0; rest == 0; i++) {
    scorve_header header = {0, 0, 3, 0, 7};
    rest = i;
    header.units = PICK(rest, units);
    header.samples = PICK(rest, samples);
    header.need = PICK(rest, needs);
    checking("good recording", (unsigned long)i);
    check_read(&header);
  }
}

/* Number 4 stands before all others: the recording is none here. */
static void slices_of_another_length(void)
{
  static const size_t lengths[] = {0, 1, SCORVE_MAX_SAMPLES - 1, SCORVE_MAX_SAMPLES + 1};
  size_t i;
  for (i = 0; i < COLUMNS * 4; i++) {
    bytes recording = recording_of(&small), none = {recording.at, 0};
    checking("reader's slices", (unsigned long)i);
    renew_slices();
    slices[i / 4].length = lengths[i % 4];
    check_refused(recording, SCORVE_BAD_LENGTH, 0);
    check_refused(none, SCORVE_BAD_LENGTH, 0);
  }
}

/* Cut anywhere, or one byte longer, it is no recording. */
static void cut_recordings(void)
{
  size_t length, whole = recording_of(&small).length;
  renew_slices();
  for (length = 0; length <= whole + 1; length++) {
    bytes recording = recording_of(&small);
    checking("cut recording", (unsigned long)length);
    recording.length = length;
    if (length != whole)
      check_refused(recording, SCORVE_NO_RECORDING, 0);
  }
}

static void check_damaged(size_t offset, uint32_t value, uint32_t expected)
{
  bytes recording = recording_of(&small);
  overwrite(offset, value);
  checking("header, offset", (unsigned long)offset);
  check_refused(recording, expected, 0);
}

static void damaged_headers(void)
{
  size_t column;
  renew_slices();
  check_damaged(0, 0x32525351, SCORVE_NO_RECORDING); /* QSR2 */
  check_damaged(UNITS_AT, 0, SCORVE_NO_RECORDING);
  check_damaged(UNITS_AT, 3, SCORVE_NO_RECORDING);
  check_damaged(UNITS_AT, 256 + 2, SCORVE_NO_RECORDING);
  check_damaged(SAMPLES_AT, SCORVE_MAX_SAMPLES + 1, SCORVE_TOO_LONG);
  check_damaged(SAMPLES_AT, UINT32_MAX, SCORVE_TOO_LONG);
  check_damaged(SAMPLES_AT, 0x40000000 + 5, SCORVE_TOO_LONG); /* four times this is 20 again in 32 bits */
  check_damaged(SAMPLES_AT, 4, SCORVE_NO_RECORDING);
  check_damaged(WIDTH_AT, 0, SCORVE_BAD_WIDTH);
  check_damaged(WIDTH_AT, 33, SCORVE_BAD_WIDTH);
  check_damaged(NEED_AT, 0, SCORVE_BAD_COUNT);
  check_damaged(NEED_AT, 1001, SCORVE_BAD_COUNT);
  check_damaged(WORD_AT, 8, SCORVE_BAD_WORD);
  for (column = 0; column < COLUMNS; column++) {
    check_damaged(OFFSETS_AT + 4 * column, 43, SCORVE_NO_RECORDING);
    check_damaged(OFFSETS_AT + 4 * column, UINT32_MAX, SCORVE_NO_RECORDING);
  }
}

/* Everything is damaged, and mended one by one, in the reader's own order. */
static void damages_mended_one_by_one(void)
{
  bytes recording = recording_of(&small), cut = {recording.at, HEADER_BYTES - 1};
  checking("damaged recording", 0);
  renew_slices();
  overwrite(SAMPLES_AT, SCORVE_MAX_SAMPLES + 1);
  overwrite(OFFSETS_AT, 0);
  overwrite(NEED_AT, 0);
  overwrite(WIDTH_AT, 0);
  overwrite(WORD_AT, 8);
  overwrite(place_of(5, 1, 4), 8);
  overwrite(place_of(5, 2, 3), 8);
  check_refused(cut, SCORVE_NO_RECORDING, 0);
  check_refused(recording, SCORVE_TOO_LONG, 0);
  overwrite(SAMPLES_AT, 5);
  check_refused(recording, SCORVE_NO_RECORDING, 0);
  overwrite(OFFSETS_AT, HEADER_BYTES);
  check_refused(recording, SCORVE_BAD_COUNT, 0);
  overwrite(NEED_AT, 2);
  check_refused(recording, SCORVE_BAD_WIDTH, 0);
  overwrite(WIDTH_AT, 3);
  check_refused(recording, SCORVE_BAD_WORD, 0);
  overwrite(WORD_AT, 7);
  check_refused(recording, SCORVE_BAD_SAMPLE, 3);
  overwrite(place_of(5, 2, 3), 7);
  check_refused(recording, SCORVE_BAD_SAMPLE, 4);
}

/* 2,049 samples, all there and well laid out. */
static void too_many_samples(void)
{
  scorve_header header = {4, SCORVE_MAX_SAMPLES + 1, 3, 2, 7};
  checking("too many samples", 0);
  renew_slices();
  check_refused(recording_of(&header), SCORVE_TOO_LONG, 0);
}

void more_recordings(void)
{
  good_recordings();
  slices_of_another_length();
  cut_recordings();
  damaged_headers();
  damages_mended_one_by_one();
  too_many_samples();
}
