/* The listing: the length of its buffer, what stays behind the text, and that it tells what the reader says. */
#include <stdio.h>
#include <string.h>

#include "recordings.h"

#define PLACES 60000
#define FLIPS 400

static uint8_t out_places[PLACES];

typedef struct listed {
  uint32_t refusal, refused;
  size_t written;
} listed;

/* Lists into a buffer of this length; all bytes behind the text stay. */
static listed list(bytes recording, size_t length)
{
  bytes out = {out_places, length};
  listed got;
  size_t text;
  make_dirty(out_places, sizeof out_places);
  make_dirty(&got, sizeof got);
  got.refusal = guarded_listing_list(recording, out, &got.written, &got.refused);
  text = got.refusal == SCORVE_OK && got.written <= length ? got.written : 0;
  check(is_dirty(out_places + text, sizeof out_places - text), "listing: a byte behind the text was changed");
  return got;
}

static void check_text(bytes recording, size_t length, const char *text, uint32_t refused)
{
  listed got = list(recording, length);
  check(got.refusal == SCORVE_OK && got.refused == refused, "listing: refusal %lu, refused %lu",
        (unsigned long)got.refusal, (unsigned long)got.refused);
  check(got.written == strlen(text) && memcmp(out_places, text, strlen(text)) == 0, "listing: not the text \"%.20s..\"",
        text);
}

static void check_too_short(bytes recording, size_t length)
{
  listed got = list(recording, length);
  check(got.refusal == SCORVE_BUFFER_TOO_SHORT, "listing: a buffer of %lu bytes, refusal %lu", (unsigned long)length,
        (unsigned long)got.refusal);
}

/* The recording of document 01's listing. */
static bytes papers_recording(void)
{
  static const scorve_header header = {1, 6, 2, 2, 0};
  static const uint32_t samples[] = {0, 1, 1, 3, 3, 3};
  bytes recording = recording_of(&header);
  size_t i;
  for (i = 0; i < 6; i++)
    overwrite(place_of(6, 1, i), samples[i]);
  return recording;
}

static const char papers_listing[] =
  "confirm 6 2 2\n"
  "0 00000000 H 00000001\n"
  "1 00000000 H 00000000\n"
  "2 00000000 H 00000001\n"
  "3 00000000 H 00000000\n"
  "4 00000000 H 00000001\n"
  "5 00000003 C 00000001\n";

/* The buffer's length is judged whatever the recording is. */
static void lengths_of_the_buffer(void)
{
  static const size_t too_short[] = {0, 1, 146, SCORVE_LONGEST_LISTING - 1};
  static const size_t enough[] = {SCORVE_LONGEST_LISTING, SCORVE_LONGEST_LISTING + 1, PLACES};
  bytes recording = papers_recording(), none = {recording.at, 0};
  size_t i;
  for (i = 0; i < sizeof too_short / sizeof *too_short; i++) {
    check_too_short(recording, too_short[i]);
    check_too_short(none, too_short[i]);
  }
  for (i = 0; i < sizeof enough / sizeof *enough; i++) {
    check_text(recording, enough[i], papers_listing, 0);
    check_text(none, enough[i], "refused 12 at 0\n", 1);
  }
}

/* The longest listing fills the shortest buffer to its last byte. */
static void longest_listings(void)
{
  static const uint32_t units[] = {1, 2, 4};
  static const size_t written[] = {SCORVE_LONGEST_LISTING, SCORVE_LONGEST_LISTING - 3, SCORVE_LONGEST_LISTING};
  size_t i;
  for (i = 0; i < 3; i++) {
    scorve_header header = {0, SCORVE_MAX_SAMPLES, SCORVE_MAX_WIDTH, SCORVE_MAX_COUNT, UINT32_MAX};
    listed got;
    header.units = units[i];
    got = list(recording_of(&header), SCORVE_LONGEST_LISTING);
    check(got.refusal == SCORVE_OK && got.refused == 0 && got.written == written[i], "listing: %lu bytes written",
          (unsigned long)got.written);
  }
}

static uint32_t read_alone(bytes recording, uint32_t *sample)
{
  static uint32_t places[COLUMNS][SCORVE_MAX_SAMPLES];
  slice slices[COLUMNS];
  scorve_header header;
  size_t i;
  for (i = 0; i < COLUMNS; i++) {
    slices[i].at = places[i];
    slices[i].length = SCORVE_MAX_SAMPLES;
    slices[i].size = sizeof **places;
  }
  make_dirty(&header, sizeof header);
  make_dirty(sample, sizeof *sample);
  return guarded_recording_read(recording, slices, &header, sample);
}

/* Some byte is changed: the listing is refused exactly if the reader refuses, with the same numbers. */
static void listings_tell_what_the_reader_says(void)
{
  static const scorve_header header = {4, 3, 4, 2, 7};
  char line[40];
  size_t i;
  for (i = 0; i < FLIPS; i++) {
    bytes recording = recording_of(&header);
    uint32_t refusal, sample;
    recording.at[chance_below((uint32_t)recording.length)] ^= (uint8_t)(1u << chance_below(8));
    checking("changed recording", (unsigned long)i);
    refusal = read_alone(recording, &sample);
    sprintf(line, "refused %lu at %lu\n", (unsigned long)refusal, (unsigned long)sample);
    if (refusal != SCORVE_OK)
      check_text(recording, SCORVE_LONGEST_LISTING, line, 1);
    else
      check(list(recording, SCORVE_LONGEST_LISTING).refused == 0, "listing: refused, though the reader takes it");
  }
}

void more_listings(void)
{
  checking("listing", 0);
  lengths_of_the_buffer();
  longest_listings();
  listings_tell_what_the_reader_says();
}
