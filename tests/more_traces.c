/* Runs of all four voters: lengths at their limits, empty traces, refusals, and random traces taken step by step. */
#include <string.h>

#include "more.h"
#include "traces.h"

#define PLACES (SCORVE_MAX_SAMPLES + 2)
#define ROUNDS 120

static uint32_t unit_places[UNITS][PLACES], output_places[OUTPUTS][PLACES];

static void set_lengths(trace *t, size_t units, size_t outputs)
{
  size_t k;
  for (k = 0; k < UNITS; k++)
    t->units[k].length = units;
  for (k = 0; k < OUTPUTS; k++)
    t->outputs[k].length = outputs;
}

/* A trace of zeros, all slices of this length. */
static trace quiet_trace(const voter *v, size_t length)
{
  trace t = {.n = 3, .votes = 2, .need = 2, .word = 0};
  size_t k;
  memset(unit_places, 0, sizeof unit_places);
  for (k = 0; k < UNITS; k++)
    t.units[k].at = unit_places[k];
  for (k = 0; k < OUTPUTS; k++) {
    t.outputs[k].at = output_places[k];
    t.outputs[k].size = v->outputs[k].size;
  }
  set_lengths(&t, length, length);
  return t;
}

static void check_run(const voter *v, trace *t, uint32_t expected, uint32_t sample)
{
  uint32_t refusal;
  make_dirty(output_places, sizeof output_places);
  make_dirty(&t->sample, sizeof t->sample);
  refusal = guarded_run(v, t);
  check(refusal == expected, "%s: a run of %lu samples refused with %lu, not %lu", v->name,
        (unsigned long)t->units[0].length, (unsigned long)refusal, (unsigned long)expected);
  check(t->sample == sample, "%s: sample %lu, not %lu", v->name, (unsigned long)t->sample, (unsigned long)sample);
  if (refusal == SCORVE_OK && expected == SCORVE_OK)
    v->check_steps(v, t);
}

/* An empty trace is accepted, 2,048 samples too, 2,049 are not. */
static void limits_of_length(const voter *v)
{
  static const size_t lengths[] = {0, 1, 2047, 2048, 2049};
  size_t i;
  for (i = 0; i < sizeof lengths / sizeof *lengths; i++) {
    trace t = quiet_trace(v, lengths[i]);
    check_run(v, &t, lengths[i] > SCORVE_MAX_SAMPLES ? SCORVE_TOO_LONG : SCORVE_OK, 0);
  }
}

/* An empty trace does not hide a bad argument. */
static void damaged_empty_trace(const voter *v)
{
  trace t = quiet_trace(v, 0);
  t.word = 8;
  check_run(v, &t, SCORVE_BAD_WORD, 0);
  t.n = 33;
  check_run(v, &t, SCORVE_BAD_WIDTH, 0);
  t.need = 1001;
  check_run(v, &t, SCORVE_BAD_COUNT, 0);
  t.need = 2;
  t.votes = 1001;
  check_run(v, &t, v->two_counts ? SCORVE_BAD_COUNT : SCORVE_BAD_WIDTH, 0);
}

/* The units come first. */
static size_t *length_of(const voter *v, trace *t, size_t k)
{
  return k < v->units ? &t->units[k].length : &t->outputs[k - v->units].length;
}

static void check_other_length(const voter *v, size_t k, size_t length, size_t other)
{
  trace t = quiet_trace(v, length);
  int too_long = k < v->units && other > SCORVE_MAX_SAMPLES;
  *length_of(v, &t, k) = other;
  check_run(v, &t, too_long ? SCORVE_TOO_LONG : SCORVE_BAD_LENGTH, 0);
}

/* Each slice in turn is longer or shorter than the others, or empty, or alone not empty. */
static void one_slice_of_another_length(const voter *v)
{
  size_t k;
  for (k = 0; k < v->units + outputs_of(v); k++) {
    check_other_length(v, k, 5, 6);
    check_other_length(v, k, 5, 4);
    check_other_length(v, k, 5, 0);
    check_other_length(v, k, 0, 1);
    check_other_length(v, k, SCORVE_MAX_SAMPLES, SCORVE_MAX_SAMPLES + 1);
    check_other_length(v, k, SCORVE_MAX_SAMPLES, SCORVE_MAX_SAMPLES - 1);
  }
}

/* Everything is damaged, and mended one by one: the lowest number is given each time. */
static void damages_mended_one_by_one(const voter *v)
{
  trace t = quiet_trace(v, SCORVE_MAX_SAMPLES + 1);
  t.need = 0;
  t.n = 33;
  t.outputs[v->marks].length = 5;
  t.word = 8;
  unit_places[v->units - 1][3] = 8;
  check_run(v, &t, SCORVE_BAD_COUNT, 0);
  t.need = 2;
  t.votes = 0;
  check_run(v, &t, v->two_counts ? SCORVE_BAD_COUNT : SCORVE_BAD_WIDTH, 0);
  t.votes = 2;
  check_run(v, &t, SCORVE_BAD_WIDTH, 0);
  t.n = 3;
  check_run(v, &t, SCORVE_TOO_LONG, 0);
  set_lengths(&t, 7, 5);
  check_run(v, &t, SCORVE_BAD_LENGTH, 0);
  set_lengths(&t, 7, 7);
  check_run(v, &t, SCORVE_BAD_WORD, 0);
  t.word = 7;
  check_run(v, &t, SCORVE_BAD_SAMPLE, 3);
  unit_places[v->units - 1][3] = 7;
  check_run(v, &t, SCORVE_OK, 0);
}

/* The smallest number is told, whichever unit it belongs to. */
static void samples_outside(const voter *v)
{
  static const uint32_t numbers[] = {0, 1, 1000, 2046};
  size_t i;
  for (i = 0; i < sizeof numbers / sizeof *numbers * v->units; i++) {
    uint32_t smallest = numbers[i / v->units];
    trace t = quiet_trace(v, SCORVE_MAX_SAMPLES);
    unit_places[i % v->units][smallest] = 0x80000000;
    unit_places[(i + 1) % v->units][SCORVE_MAX_SAMPLES - 1] = 8;
    check_run(v, &t, SCORVE_BAD_SAMPLE, smallest);
    unit_places[i % v->units][smallest] = 0;
    check_run(v, &t, SCORVE_BAD_SAMPLE, SCORVE_MAX_SAMPLES - 1);
  }
}

/* The other units mostly show what the first one does, so that they agree and disagree for a while. */
static void others_by_chance(size_t i, uint32_t n)
{
  size_t unit;
  for (unit = 1; unit < UNITS; unit++)
    unit_places[unit][i] = chance_below(3) == 0 ? word_by_chance(n) : unit_places[0][i];
}

/* The first unit changes now and then. */
static trace trace_by_chance(const voter *v, size_t length)
{
  trace t = quiet_trace(v, length);
  size_t i;
  t.n = chance_below(2) == 0 ? 1 + chance_below(3) : 1 + chance_below(32);
  t.votes = chance_below(8) == 0 ? 1 + chance_below(1000) : 1 + chance_below(3);
  t.need = chance_below(8) == 0 ? 1 + chance_below(1000) : 1 + chance_below(3);
  t.word = word_by_chance(t.n);
  for (i = 0; i < length; i++) {
    unit_places[0][i] = i > 0 && chance_below(3) > 0 ? unit_places[0][i - 1] : word_by_chance(t.n);
    others_by_chance(i, t.n);
  }
  return t;
}

#define VALUES 4 /* as many as T-09's byte has; greater ones are not counted */

static void count_values(slice shown, unsigned long seen[VALUES])
{
  size_t i;
  for (i = 0; i < shown.length; i++)
    if (element(shown, i) < VALUES)
      seen[element(shown, i)]++;
}

static void check_all_seen(const voter *v, size_t k, const unsigned long seen[VALUES], uint32_t greatest)
{
  uint32_t value;
  for (value = 0; value <= greatest; value++)
    check(seen[value] > 0, "%s: %lu was never in %s", v->name, (unsigned long)value, v->outputs[k].name);
}

/* A run equals its steps; every mark was shown, and every unit told, so the comparison was not empty. */
static void runs_equal_their_steps(const voter *v)
{
  unsigned long marks[VALUES] = {0}, told[VALUES] = {0};
  size_t round;
  for (round = 0; round < ROUNDS; round++) {
    trace t = trace_by_chance(v, round == 0 ? SCORVE_MAX_SAMPLES : chance_below(60));
    checking(v->name, (unsigned long)round);
    check_run(v, &t, SCORVE_OK, 0);
    count_values(t.outputs[v->marks], marks);
    count_values(t.outputs[v->told], told);
  }
  check_all_seen(v, v->marks, marks, v->greatest_mark);
  if (v->greatest_told > 0)
    check_all_seen(v, v->told, told, v->greatest_told);
}

void more_traces(void)
{
  size_t i;
  for (i = 0; i < VOTERS; i++) {
    checking("traces of voter", (unsigned long)i);
    limits_of_length(&voters[i]);
    damaged_empty_trace(&voters[i]);
    one_slice_of_another_length(&voters[i]);
    damages_mended_one_by_one(&voters[i]);
    samples_outside(&voters[i]);
    runs_equal_their_steps(&voters[i]);
  }
}
