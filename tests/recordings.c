/* Writes recordings as document 01 describes them. */
#include <string.h>

#include "recordings.h"

#define MOST_SAMPLES (SCORVE_MAX_SAMPLES + 1)

static uint8_t file[HEADER_BYTES + 4 * COLUMNS * MOST_SAMPLES + 1];

uint32_t value_of(size_t column, size_t i)
{
  return column == 0 ? (uint32_t)(10000 * i) : (uint32_t)(i / 5 + (i % 7 == column ? 1 : 0)) % 8;
}

void overwrite(size_t offset, uint32_t value)
{
  size_t i;
  for (i = 0; i < 4; i++)
    file[offset + i] = (uint8_t)(value >> 8 * i);
}

size_t place_of(size_t samples, size_t column, size_t i)
{
  return HEADER_BYTES + 4 * (column * samples + i);
}

static void write_column(size_t samples, size_t column)
{
  size_t i;
  overwrite(OFFSETS_AT + 4 * column, (uint32_t)place_of(samples, column, 0));
  for (i = 0; i < samples; i++)
    overwrite(place_of(samples, column, i), value_of(column, i));
}

bytes recording_of(const scorve_header *header)
{
  bytes recording = {file, 0};
  size_t column;
  memset(file, 0, sizeof file);
  memcpy(file, "QSR1", 4);
  overwrite(UNITS_AT, header->units);
  overwrite(SAMPLES_AT, header->samples);
  overwrite(WIDTH_AT, header->n);
  overwrite(NEED_AT, header->need);
  overwrite(WORD_AT, header->word);
  for (column = 0; column <= header->units; column++)
    write_column(header->samples, column);
  recording.length = place_of(header->samples, header->units + 1, 0);
  return recording;
}
