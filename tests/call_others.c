/* The calls without a state: sizing, the threshold vote, the reader of recordings, the listing. */
#include <string.h>

#include "lines.h"

void sizing(line *in)
{
  uint32_t n = number(in), least_gap = number(in), greatest_gap = number(in), delay = number(in), refusal;
  scorve_sizing sized;
  end_of_line(in);
  make_dirty(&sized, sizeof sized);
  refusal = guarded_sizing_of(n, least_gap, greatest_gap, delay, &sized);
  begin_answer(refusal);
  put(refusal == SCORVE_OK ? sized.count : 0);
  put(refusal == SCORVE_OK ? sized.votes : 0);
  put(refusal == SCORVE_OK ? sized.age : 0);
  put(refusal == SCORVE_OK ? sized.quiet : 0);
}

/* A reading is written as its bits, which are copied: an assignment could change those of a NaN. */
static void take_reading(line *in, double *reading)
{
  uint64_t bits = number_up_to(in, UINT64_MAX);
  memcpy(reading, &bits, sizeof bits);
}

void threshold(line *in)
{
  scorve_readings readings;
  double agreed;
  uint64_t bits = 0;
  uint32_t mark, refusal;
  take_reading(in, &readings.x1);
  take_reading(in, &readings.x2);
  take_reading(in, &readings.x3);
  take_reading(in, &readings.tolerance);
  end_of_line(in);
  make_dirty(&agreed, sizeof agreed);
  make_dirty(&mark, sizeof mark);
  refusal = guarded_threshold_vote(&readings, &agreed, &mark);
  if (refusal == SCORVE_OK && mark == SCORVE_ALARM)
    check(is_dirty(&agreed, sizeof agreed), "threshold_vote: agreed was changed with an alarm");
  else if (refusal == SCORVE_OK)
    memcpy(&bits, &agreed, sizeof bits);
  begin_answer(refusal);
  put(refusal == SCORVE_OK ? mark : NO_MARK);
  put(bits);
}

void recording_read(line *in)
{
  static const scorve_header after_refusal = {.units = 0};
  bytes recording = byte_list(in);
  slice slices[COLUMNS];
  scorve_header header;
  uint32_t sample, refusal;
  size_t i;
  for (i = 0; i < COLUMNS; i++)
    slices[i] = lent_slice(in, sizeof(uint32_t));
  end_of_line(in);
  make_dirty(&header, sizeof header);
  make_dirty(&sample, sizeof sample);
  refusal = guarded_recording_read(recording, slices, &header, &sample);
  begin_answer(refusal);
  put(sample);
  put_numbers(refusal == SCORVE_OK ? &header : &after_refusal, sizeof header);
  for (i = 0; i < COLUMNS; i++)
    put_slice(slices[i]);
}

void listing(line *in)
{
  static uint8_t place[SCORVE_LONGEST_LISTING];
  bytes recording = byte_list(in), out = {place, sizeof place}, text = {place, 0};
  size_t written;
  uint32_t refused, refusal;
  end_of_line(in);
  make_dirty(place, sizeof place);
  make_dirty(&written, sizeof written);
  make_dirty(&refused, sizeof refused);
  refusal = guarded_listing_list(recording, out, &written, &refused);
  check(refusal == SCORVE_OK, "listing_list: refused with %lu", (unsigned long)refusal);
  check(written <= sizeof place, "listing_list: %lu bytes written", (unsigned long)written);
  if (refusal == SCORVE_OK && written <= sizeof place)
    text.length = written;
  check(is_dirty(place + text.length, sizeof place - text.length), "listing_list: a byte behind the text was changed");
  check(refused == (text.length > 7 && memcmp(place, "refused", 7) == 0), "listing_list: refused is %lu",
        (unsigned long)refused);
  put_text(text);
}
