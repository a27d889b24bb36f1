/* The voters, straight from the rules. */
#include "plain.h"

#include <math.h>

#include "clauses.h"

/* ---- checks ---- */

static inline size_t longer(size_t a, size_t b)
{
  return a > b ? a : b;
}

/* Refusals 1 to 5; longest is the length of the longest trace. */
static uint32_t check_run(uint32_t n, uint32_t need, uint32_t word, size_t longest, int same_lengths)
{
  const uint32_t refusal = check_limits(n, need);
  if (refusal) return refusal;
  if (longest > SCORVE_MAX_SAMPLES) return SCORVE_TOO_LONG;
  if (!same_lengths) return SCORVE_BAD_LENGTH;
  return word & outside(n) ? SCORVE_BAD_WORD : SCORVE_OK;
}

/* Refusal 6 over four traces; with fewer units a trace is given more than once. */
static inline uint32_t check_samples(uint32_t n, const uint32_t *a, const uint32_t *b,
                                     const uint32_t *c, const uint32_t *d, size_t len, uint32_t *sample)
{
  const uint32_t high = outside(n);
  for (size_t i = 0; i < len; i++) {
    if ((a[i] | b[i] | c[i] | d[i]) & high) {
      *sample = (uint32_t)i;
      return SCORVE_BAD_SAMPLE;
    }
  }
  return SCORVE_OK;
}

/* ---- confirmation ---- */

uint32_t plain_confirm_step(scorve_confirm *state, uint32_t input, scorve_confirm_answer *answer)
{
  const uint32_t refusal = check_limits(state->n, state->need);
  if (refusal) return refusal;
  const uint32_t high = outside(state->n);
  if (input & high) return SCORVE_BAD_SAMPLE;
  if (state->count >= state->need || (state->input | state->output) & high) return SCORVE_BAD_STATE;
  answer->mark = confirm(state->need, &state->input, &state->output, &state->count, input);
  answer->word = state->output;
  return SCORVE_OK;
}

uint32_t plain_confirm_run(uint32_t n, uint32_t need, uint32_t word,
                           const uint32_t *samples, size_t samples_len,
                           uint32_t *words, size_t words_len,
                           uint8_t *marks, size_t marks_len,
                           uint32_t *counts, size_t counts_len,
                           uint32_t *sample)
{
  *sample = 0;
  const int same = words_len == samples_len && marks_len == samples_len && counts_len == samples_len;
  uint32_t refusal = check_run(n, need, word, samples_len, same);
  if (!refusal) refusal = check_samples(n, samples, samples, samples, samples, samples_len, sample);
  if (refusal) return refusal;
  uint32_t previous = word, output = word, count = 0;
  for (size_t i = 0; i < samples_len; i++) {
    marks[i] = (uint8_t)confirm(need, &previous, &output, &count, samples[i]);
    words[i] = output;
    counts[i] = count;
  }
  return SCORVE_OK;
}

/* ---- the vote of two words ---- */

uint32_t plain_vote_step(scorve_vote *state, uint32_t a, uint32_t b, uint32_t reset, scorve_vote_answer *answer)
{
  const uint32_t refusal = check_limits(state->n, state->need);
  if (refusal) return refusal;
  const uint32_t high = outside(state->n);
  if ((a | b) & high) return SCORVE_BAD_SAMPLE;
  if (state->count >= state->need || state->word & high) return SCORVE_BAD_STATE;
  answer->which = which_shows(state->word, a, b);
  answer->mark = vote(state->need, &state->word, &state->count, a, b, reset != 0);
  answer->word = state->word;
  return SCORVE_OK;
}

uint32_t plain_vote_run(uint32_t n, uint32_t need, uint32_t word,
                        const uint32_t *a, size_t a_len,
                        const uint32_t *b, size_t b_len,
                        uint32_t *words, size_t words_len,
                        uint8_t *marks, size_t marks_len,
                        uint8_t *which, size_t which_len,
                        uint32_t *sample)
{
  *sample = 0;
  const int same = b_len == a_len && words_len == a_len && marks_len == a_len && which_len == a_len;
  uint32_t refusal = check_run(n, need, word, longer(a_len, b_len), same);
  if (!refusal) refusal = check_samples(n, a, b, a, b, a_len, sample);
  if (refusal) return refusal;
  uint32_t agreed = word, count = 0;
  for (size_t i = 0; i < a_len; i++) {
    which[i] = (uint8_t)which_shows(agreed, a[i], b[i]);
    marks[i] = (uint8_t)vote(need, &agreed, &count, a[i], b[i], 0);
    words[i] = agreed;
  }
  return SCORVE_OK;
}

/* ---- the tuple vote ---- */

static int counts_fit(const scorve_tuple *state)
{
  for (uint32_t i = 0; i < SCORVE_MAX_WIDTH; i++) {
    if (state->counts[i] >= (i < state->n ? state->votes : 1)) return 0;
  }
  return 1;
}

uint32_t plain_tuple_step(scorve_tuple *state, uint32_t a, uint32_t b, scorve_tuple_answer *answer)
{
  if (bad_count(state->votes)) return SCORVE_BAD_COUNT;
  const uint32_t refusal = check_limits(state->n, state->need);
  if (refusal) return refusal;
  const uint32_t high = outside(state->n);
  if ((a | b) & high) return SCORVE_BAD_SAMPLE;
  if (state->count >= state->need || (state->input | state->output | state->agreed) & high) return SCORVE_BAD_STATE;
  if (!counts_fit(state)) return SCORVE_BAD_STATE;
  answer->second = second_shows(state->agreed, a, b);
  answer->mark = tuple_vote(state, a, b, &answer->mask);
  answer->word = state->output;
  return SCORVE_OK;
}

uint32_t plain_tuple_run(uint32_t n, uint32_t votes, uint32_t need, uint32_t word,
                         const uint32_t *a, size_t a_len,
                         const uint32_t *b, size_t b_len,
                         uint32_t *words, size_t words_len,
                         uint32_t *masks, size_t masks_len,
                         uint8_t *marks, size_t marks_len,
                         uint32_t *seconds, size_t seconds_len,
                         uint32_t *sample)
{
  *sample = 0;
  if (bad_count(votes)) return SCORVE_BAD_COUNT;
  const int same = b_len == a_len && words_len == a_len && masks_len == a_len && marks_len == a_len &&
                   seconds_len == a_len;
  uint32_t refusal = check_run(n, need, word, longer(a_len, b_len), same);
  if (!refusal) refusal = check_samples(n, a, b, a, b, a_len, sample);
  if (refusal) return refusal;
  scorve_tuple state = fresh_tuple(n, votes, need, word);
  for (size_t i = 0; i < a_len; i++) {
    seconds[i] = second_shows(state.agreed, a[i], b[i]);
    marks[i] = (uint8_t)tuple_vote(&state, a[i], b[i], &masks[i]);
    words[i] = state.output;
  }
  return SCORVE_OK;
}

/* ---- the reserve vote ---- */

uint32_t plain_reserve_step(scorve_reserve *state, uint32_t a, uint32_t b, uint32_t c, uint32_t d,
                            scorve_reserve_answer *answer)
{
  const uint32_t refusal = check_limits(state->n, state->need);
  if (refusal) return refusal;
  const uint32_t high = outside(state->n);
  if ((a | b | c | d) & high) return SCORVE_BAD_SAMPLE;
  if (state->count >= state->need || state->word & high || state->phase > SCORVE_RESERVE) return SCORVE_BAD_STATE;
  answer->pair = state->phase == SCORVE_PRIMARY ? 1 : 2;
  answer->which = reserve_shows(state->phase, state->word, a, b, c, d);
  answer->mark = reserve_vote(state->need, &state->phase, &state->word, &state->count, a, b, c, d);
  answer->word = state->word;
  return SCORVE_OK;
}

uint32_t plain_reserve_run(uint32_t n, uint32_t need, uint32_t word,
                           const uint32_t *a, size_t a_len,
                           const uint32_t *b, size_t b_len,
                           const uint32_t *c, size_t c_len,
                           const uint32_t *d, size_t d_len,
                           uint32_t *words, size_t words_len,
                           uint8_t *marks, size_t marks_len,
                           uint8_t *which, size_t which_len,
                           uint32_t *sample)
{
  *sample = 0;
  const int same = b_len == a_len && c_len == a_len && d_len == a_len && words_len == a_len && marks_len == a_len &&
                   which_len == a_len;
  uint32_t refusal = check_run(n, need, word, longer(longer(a_len, b_len), longer(c_len, d_len)), same);
  if (!refusal) refusal = check_samples(n, a, b, c, d, a_len, sample);
  if (refusal) return refusal;
  uint32_t phase = SCORVE_PRIMARY, agreed = word, count = 0;
  for (size_t i = 0; i < a_len; i++) {
    which[i] = (uint8_t)reserve_shows(phase, agreed, a[i], b[i], c[i], d[i]);
    marks[i] = (uint8_t)reserve_vote(need, &phase, &agreed, &count, a[i], b[i], c[i], d[i]);
    words[i] = agreed;
  }
  return SCORVE_OK;
}

/* ---- the threshold vote ---- */

static inline double lesser_reading(double a, double b)
{
  return a <= b ? a : b;
}

static inline double greater_reading(double a, double b)
{
  return a >= b ? a : b;
}

uint32_t plain_threshold_vote(const scorve_readings *readings, double *agreed, uint32_t *mark)
{
  const double x1 = readings->x1, x2 = readings->x2, x3 = readings->x3, tolerance = readings->tolerance;
  if (!isfinite(x1) || !isfinite(x2) || !isfinite(x3) || !isfinite(tolerance) || tolerance < 0) {
    return SCORVE_BAD_READING;
  }
  if (fabs(x2 - x1) <= tolerance || fabs(x3 - x2) <= tolerance || fabs(x1 - x3) <= tolerance) {
    const double lower = greater_reading(lesser_reading(x1, x2), lesser_reading(x2, x3));
    *agreed = greater_reading(lower, lesser_reading(x3, x1));
    *mark = SCORVE_AGREED;
  } else {
    *mark = SCORVE_ALARM;
  }
  return SCORVE_OK;
}
