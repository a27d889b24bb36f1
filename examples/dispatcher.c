/* A lift dispatcher's cycle. Two units read the same three signals, each on its own clock, so for a while one shows a
 * change that the other has not seen yet. The tuple vote tells such a while from a fault: the dispatcher acts on the
 * confirmed word, and holds the car at an alarm.
 * Build: cc -Iinclude examples/dispatcher.c crates/scorvemaglio/out/libscorvemaglio.a */
#include <stdio.h>

#include "scorvemaglio.h"

/* A word has one bit for each signal. */
enum signal { KEY_TURNED = 1, DOORS_CLOSED = 2, RESERVED = 4 };
#define SIGNALS 3

/* Measured at the site, in microseconds: the gaps between samples, and how late a unit may show a signal. */
#define LEAST_GAP 9000
#define GREATEST_GAP 12000
#define GREATEST_DELAY 15000

/* What the units show in each cycle; a real dispatcher reads them here. */
static const struct { uint32_t unit_1, unit_2; } shown[] = {
  {4, 4}, {5, 4}, {5, 5}, {5, 5}, {5, 5}, {5, 5},         /* a reserved car; its key is turned, unit 1 sees it first */
  {7, 5}, {7, 5}, {7, 7}, {7, 7}, {7, 7}, {7, 7},         /* the doors close */
  {7, 3}, {7, 3}, {7, 3}, {7, 3}, {7, 7}, {7, 7}, {7, 7}, /* unit 2 loses the reservation, unit 1 does not */
  {7, 8}, {7, 7},                                         /* unit 2 shows a signal that is not there */
};
#define CYCLES (sizeof shown / sizeof *shown)

/* The counts follow from the clocks: one for the votes on each signal, so that sound units do not alarm, and one for
 * the confirmation. Two changes of one signal must lie further apart than the quiet gap. Returns 0 if the times are
 * refused. */
static int size_for_the_clocks(scorve_sizing *sizing)
{
  uint32_t refusal = scorve_sizing_of(SIGNALS, LEAST_GAP, GREATEST_GAP, GREATEST_DELAY, sizing);
  if (refusal != SCORVE_OK) {
    fprintf(stderr, "the measured times are refused with %u\n", (unsigned)refusal);
    return 0;
  }
  printf("votes %lu, count %lu, quiet gap %lu us\n", (unsigned long)sizing->votes, (unsigned long)sizing->count,
         (unsigned long)sizing->quiet);
  return 1;
}

/* The fresh state is made from the word that the units show while the car rests: from another one, the vote would show
 * a word that never was; from the default, all ones, the key would count as turned and the doors as closed, and the car
 * would run. Returns 0 if the units differ, or the vote is refused. */
static int start(scorve_tuple *vote, const scorve_sizing *sizing, uint32_t unit_1, uint32_t unit_2)
{
  uint32_t refusal;
  if (unit_1 != unit_2) {
    fprintf(stderr, "the units show %u and %u: wait until the car rests\n", (unsigned)unit_1, (unsigned)unit_2);
    return 0;
  }
  /* the sizing's counts are at most SCORVE_MAX_COUNT */
  refusal = scorve_tuple_from_word(vote, SIGNALS, (uint32_t)sizing->votes, (uint32_t)sizing->count, unit_1);
  if (refusal != SCORVE_OK)
    fprintf(stderr, "the vote is refused with %u\n", (unsigned)refusal);
  return refusal == SCORVE_OK;
}

/* What the car may do by a confirmed word. */
static const char *order_for(uint32_t word)
{
  const uint32_t both = KEY_TURNED | DOORS_CLOSED;
  return (word & both) == both ? "run the car" : "wait at the floor";
}

/* One cycle. An alarm ends by itself when the units agree again; a dispatcher that wants it to last has to remember
 * it. */
static void cycle(scorve_tuple *vote, uint32_t unit_1, uint32_t unit_2)
{
  scorve_tuple_answer answer;
  uint32_t refusal = scorve_tuple_step(vote, unit_1, unit_2, &answer);
  if (refusal != SCORVE_OK) /* the answer is not written, and the vote is as it was */
    printf("refused with %u: hold the car\n", (unsigned)refusal);
  else if (answer.mark == SCORVE_ALARM)
    printf("word %u, alarm of signals %u: hold the car\n", (unsigned)answer.word, (unsigned)answer.mask);
  else
    printf("word %u, %s: %s\n", (unsigned)answer.word, answer.mark == SCORVE_CONFIRMED ? "confirmed" : "held",
           order_for(answer.word));
}

int main(void)
{
  scorve_sizing sizing;
  scorve_tuple vote;
  size_t i;
  if (!size_for_the_clocks(&sizing) || !start(&vote, &sizing, shown[0].unit_1, shown[0].unit_2))
    return 1;
  for (i = 0; i < CYCLES; i++) {
    printf("cycle %2u, units %u and %u: ", (unsigned)i, (unsigned)shown[i].unit_1, (unsigned)shown[i].unit_2);
    cycle(&vote, shown[i].unit_1, shown[i].unit_2);
  }
  return 0;
}
