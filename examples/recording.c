/* What the units showed at each alarm of a recording of two units, which its listing does not tell, and then the
 * listing: the reader, a run and the text. Reads the recording on standard input; samples/nuisance.qsr is one.
 * Build: cc -Iinclude examples/recording.c crates/scorvemaglio/out/libscorvemaglio.a */
#include <stdio.h>

#include "scorvemaglio.h"

#define SAMPLES SCORVE_MAX_SAMPLES
#define ALL(slice) slice, SAMPLES /* the reader wants all places of its slices */

static uint8_t recording[SCORVE_LONGEST_RECORDING + 1]; /* a longer one is none, and the reader says so */
static uint32_t times[SAMPLES], one[SAMPLES], two[SAMPLES], three[SAMPLES], four[SAMPLES];
static uint32_t words[SAMPLES], masks[SAMPLES], seconds[SAMPLES];
static uint8_t marks[SAMPLES], text[SCORVE_LONGEST_LISTING];

/* Of the signals that differ unit 2 shows the last agreed value of some, and unit 1 of the others; a one for each. */
static void print_alarm(size_t i)
{
  const uint32_t first = (one[i] ^ two[i]) & ~seconds[i];
  printf("alarm at sample %u, %u us: unit 1 shows %08x, unit 2 %08x; signals %08x, word %08x\n", (unsigned)i,
         (unsigned)times[i], (unsigned)one[i], (unsigned)two[i], (unsigned)masks[i], (unsigned)words[i]);
  printf("  of the signals that differ, unit 1 still shows the agreed value of %08x, unit 2 of %08x\n", (unsigned)first,
         (unsigned)seconds[i]);
}

/* Votes on the whole trace; every slice of a run has as many places as the trace has samples. A recording's need
 * serves the voters and the confirmation. */
static void print_alarms(const scorve_header *header)
{
  const size_t samples = header->samples;
  uint32_t sample, refusal = scorve_tuple_run(header->n, header->need, header->need, header->word, one, samples,
                                              two, samples, words, samples, masks, samples, marks, samples,
                                              seconds, samples, &sample);
  size_t i;
  if (refusal != SCORVE_OK) {
    printf("the run is refused with %u at sample %u\n", (unsigned)refusal, (unsigned)sample);
    return;
  }
  for (i = 0; i < samples; i++)
    if (marks[i] == SCORVE_ALARM)
      print_alarm(i);
}

/* The text has no terminating NUL, so its length is given. */
static int print_listing(size_t length)
{
  size_t written;
  uint32_t refused;
  if (scorve_listing_list(recording, length, text, sizeof text, &written, &refused) != SCORVE_OK)
    return 1; /* not with a text of SCORVE_LONGEST_LISTING places */
  printf("%.*s", (int)written, (const char *)text);
  return refused != 0;
}

int main(void)
{
  const size_t length = fread(recording, 1, sizeof recording, stdin);
  scorve_header header;
  uint32_t sample, refusal = scorve_recording_read(recording, length, ALL(times), ALL(one), ALL(two), ALL(three),
                                                   ALL(four), &header, &sample);
  if (refusal == SCORVE_OK && header.units == 2)
    print_alarms(&header);
  return print_listing(length); /* also tells a refusal */
}
