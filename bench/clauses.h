/* What the plain C files share: the limits, a fresh tuple vote, and the clauses of the voters for one sample that has
 * been checked. */
#ifndef CLAUSES_H
#define CLAUSES_H

#include "scorvemaglio.h"

/* The bits at n and above, for n 1 to 32. */
static inline uint32_t outside(uint32_t n)
{
  return n < SCORVE_MAX_WIDTH ? ~UINT32_C(0) << n : 0;
}

static inline int bad_count(uint32_t need)
{
  return need == 0 || need > SCORVE_MAX_COUNT;
}

static inline uint32_t check_limits(uint32_t n, uint32_t need)
{
  if (bad_count(need)) return SCORVE_BAD_COUNT;
  if (n == 0 || n > SCORVE_MAX_WIDTH) return SCORVE_BAD_WIDTH;
  return SCORVE_OK;
}

/* One sample; the mark is returned and *output is the answer's word. */
static inline uint32_t confirm(uint32_t need, uint32_t *previous, uint32_t *output, uint32_t *count, uint32_t input)
{
  if (input != *previous) {
    *previous = input;
    *count = 0;
    return SCORVE_HELD;
  }
  if (*count < need - 1) {
    ++*count;
    return SCORVE_HELD;
  }
  *output = input;
  return SCORVE_CONFIRMED;
}

/* One sample; the mark is returned and *agreed is the answer's word. */
static inline uint32_t vote(uint32_t need, uint32_t *agreed, uint32_t *count, uint32_t a, uint32_t b, int reset)
{
  if (a == b) {
    *agreed = a;
    *count = 0;
    return SCORVE_AGREED;
  }
  if (reset) {
    *count = 0;
    return SCORVE_HELD;
  }
  if (*count < need - 1) {
    ++*count;
    return SCORVE_HELD;
  }
  return SCORVE_ALARM;
}

/* The unit that still shows the last agreed word; asked before the vote. */
static inline uint32_t which_shows(uint32_t agreed, uint32_t a, uint32_t b)
{
  if (a == b) return SCORVE_UNITS_AGREE;
  if (a == agreed) return SCORVE_FIRST;
  return b == agreed ? SCORVE_SECOND : SCORVE_NEITHER;
}

/* The same of every signal: a one where the two differ and the second is as agreed. */
static inline uint32_t second_shows(uint32_t agreed, uint32_t a, uint32_t b)
{
  return (a ^ b) & ~(b ^ agreed);
}

static inline scorve_tuple fresh_tuple(uint32_t n, uint32_t votes, uint32_t need, uint32_t word)
{
  return (scorve_tuple){.votes = votes, .n = n, .need = need, .input = word, .output = word, .agreed = word};
}

/* Every signal's vote takes a step; the mask of alarms is returned. */
static inline uint32_t vote_signals(scorve_tuple *state, uint32_t a, uint32_t b)
{
  const uint32_t n = state->n, last = state->votes - 1, differ = a ^ b;
  uint32_t mask = 0;
  for (uint32_t i = 0; i < n; i++) {
    if (!(differ >> i & 1)) state->counts[i] = 0;
    else if (state->counts[i] < last) state->counts[i]++;
    else mask |= UINT32_C(1) << i;
  }
  /* where the two are equal the signal is stored, elsewhere the stored one stays */
  state->agreed = (a & ~differ) | (state->agreed & differ);
  return mask;
}

/* One sample; the mark is returned and the state's output is the answer's word. */
static inline uint32_t tuple_vote(scorve_tuple *state, uint32_t a, uint32_t b, uint32_t *mask)
{
  *mask = vote_signals(state, a, b);
  if (*mask) return SCORVE_ALARM;
  return confirm(state->need, &state->input, &state->output, &state->count, state->agreed);
}

/* One sample; the mark is returned and *agreed is the answer's word. */
static inline uint32_t reserve_vote(uint32_t need, uint32_t *phase, uint32_t *agreed, uint32_t *count,
                                    uint32_t a, uint32_t b, uint32_t c, uint32_t d)
{
  if (*phase == SCORVE_PRIMARY) {
    const uint32_t mark = vote(need, agreed, count, a, b, 0);
    if (mark == SCORVE_ALARM) *phase = SCORVE_TAKING_OVER;
    return mark;
  }
  const int reset = *phase == SCORVE_TAKING_OVER;
  *phase = SCORVE_RESERVE;
  return vote(need, agreed, count, c, d, reset);
}

/* The unit of the pair in force. */
static inline uint32_t reserve_shows(uint32_t phase, uint32_t agreed, uint32_t a, uint32_t b, uint32_t c, uint32_t d)
{
  return phase == SCORVE_PRIMARY ? which_shows(agreed, a, b) : which_shows(agreed, c, d);
}

#endif
