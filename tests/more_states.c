/* Steps of confirmation and of the tuple vote on random states, good and damaged, against the papers' clauses. A tuple
 * state has a confirmation's fields among its own. */
#include <string.h>

#include "more.h"

#define ROUNDS 6000

/* A state that a step takes. */
static scorve_tuple state_by_chance(void)
{
  scorve_tuple state;
  size_t i;
  memset(&state, 0, sizeof state);
  state.n = chance_below(3) == 0 ? SCORVE_MAX_WIDTH - chance_below(2) : 1 + chance_below(4);
  state.votes = chance_below(8) == 0 ? SCORVE_MAX_COUNT : 1 + chance_below(3);
  state.need = chance_below(8) == 0 ? SCORVE_MAX_COUNT : 1 + chance_below(3);
  state.input = word_by_chance(state.n);
  state.output = word_by_chance(state.n);
  state.count = chance_below(state.need);
  state.agreed = word_by_chance(state.n);
  for (i = 0; i < state.n; i++)
    state.counts[i] = chance_below(2) == 0 ? state.votes - 1 : chance_below(state.votes);
  return state;
}

/* One of fourteen damages; some do no harm to some states, which the rule then says too. */
static void damage(scorve_tuple *state, uint32_t *a, uint32_t *b)
{
  uint32_t high = 1u << chance_below(SCORVE_MAX_WIDTH);
  switch (chance_below(14)) {
  case 0: state->need = 0; break;
  case 1: state->need = SCORVE_MAX_COUNT + 1; break;
  case 2: state->n = 0; break;
  case 3: state->n = SCORVE_MAX_WIDTH + 1; break;
  case 4: *a |= high; break;
  case 5: *b |= high; break;
  case 6: state->input |= high; break;
  case 7: state->output |= high; break;
  case 8: state->agreed |= high; break;
  case 9: state->count = state->need; break;
  case 10: state->counts[chance_below(SCORVE_MAX_WIDTH)] = state->votes; break;
  case 11: state->votes = 0; break;
  case 12: state->votes = SCORVE_MAX_COUNT + 1; break;
  default: state->counts[chance_below(SCORVE_MAX_WIDTH)] = 1; break;
  }
}

static uint32_t confirm_refusal(const scorve_tuple *state, uint32_t all)
{
  uint32_t refusal = width_and_count_refusal(state->n, state->need);
  if (refusal != SCORVE_OK)
    return refusal;
  if (is_outside(all, state->n))
    return SCORVE_BAD_SAMPLE;
  if (state->count > state->need - 1 || is_outside(state->input | state->output, state->n))
    return SCORVE_BAD_STATE;
  return SCORVE_OK;
}

/* Beside the confirmation's: the voters' count, counts below n up to votes - 1, nothing at n and above. */
static uint32_t tuple_refusal(const scorve_tuple *state, uint32_t all)
{
  uint32_t refusal = confirm_refusal(state, all);
  int bad = is_outside(state->agreed, state->n);
  size_t i;
  if (is_bad_count(state->votes))
    return SCORVE_BAD_COUNT;
  for (i = 0; i < SCORVE_MAX_WIDTH; i++)
    bad = bad || state->counts[i] > (i < state->n ? state->votes - 1 : 0);
  return refusal == SCORVE_OK && bad ? (uint32_t)SCORVE_BAD_STATE : refusal;
}

static uint32_t confirm_clauses(scorve_tuple *state, uint32_t input)
{
  if (input != state->input) {
    state->input = input;
    state->count = 0;
    return SCORVE_HELD;
  }
  if (state->count < state->need - 1) {
    state->count++;
    return SCORVE_HELD;
  }
  state->output = input;
  return SCORVE_CONFIRMED;
}

/* The bit of signal i, if its units differ and the second one shows the agreed bit. */
static uint32_t second_at(const scorve_tuple *state, uint32_t a, uint32_t b, size_t i)
{
  uint32_t bit = 1u << i;
  return (a & bit) != (b & bit) && (b & bit) == (state->agreed & bit) ? bit : 0;
}

/* The vote of signal i; returns its bit if it alarms. */
static uint32_t signal_clauses(scorve_tuple *state, uint32_t a, uint32_t b, size_t i)
{
  uint32_t bit = 1u << i;
  if (((a ^ b) & bit) == 0) {
    state->agreed = (state->agreed & ~bit) | (a & bit);
    state->counts[i] = 0;
    return 0;
  }
  if (state->counts[i] < state->votes - 1) {
    state->counts[i]++;
    return 0;
  }
  return bit;
}

/* An alarm leaves the confirmation as it is. */
static scorve_tuple_answer tuple_clauses(scorve_tuple *state, uint32_t a, uint32_t b)
{
  scorve_tuple_answer answer = {.mark = SCORVE_ALARM};
  size_t i;
  for (i = 0; i < state->n; i++) {
    answer.second |= second_at(state, a, b, i);
    answer.mask |= signal_clauses(state, a, b, i);
  }
  if (answer.mask == 0)
    answer.mark = confirm_clauses(state, state->agreed);
  answer.word = state->output;
  return answer;
}

static void check_confirm(const scorve_tuple *before, uint32_t input)
{
  scorve_tuple expected = *before;
  scorve_confirm state = {.n = before->n, .need = before->need, .input = before->input, .output = before->output,
                          .count = before->count};
  scorve_confirm_answer answer;
  uint32_t refusal, mark;
  make_dirty(&answer, sizeof answer);
  refusal = guarded_confirm_step(&state, input, &answer);
  check(refusal == confirm_refusal(before, input), "confirm_step: refused with %lu", (unsigned long)refusal);
  if (refusal != SCORVE_OK || confirm_refusal(before, input) != SCORVE_OK)
    return;
  mark = confirm_clauses(&expected, input);
  check(answer.word == expected.output && answer.mark == mark, "confirm_step: word %lu, mark %lu",
        (unsigned long)answer.word, (unsigned long)answer.mark);
  check(state.n == expected.n && state.need == expected.need && state.input == expected.input &&
        state.output == expected.output && state.count == expected.count, "confirm_step: another state");
}

static void check_tuple(const scorve_tuple *before, uint32_t a, uint32_t b)
{
  scorve_tuple state = *before, after = *before;
  scorve_tuple_answer answer, expected;
  uint32_t refusal;
  make_dirty(&answer, sizeof answer);
  refusal = guarded_tuple_step(&state, a, b, &answer);
  check(refusal == tuple_refusal(before, a | b), "tuple_step: refused with %lu, not %lu", (unsigned long)refusal,
        (unsigned long)tuple_refusal(before, a | b));
  if (refusal != SCORVE_OK || tuple_refusal(before, a | b) != SCORVE_OK)
    return;
  expected = tuple_clauses(&after, a, b);
  check(memcmp(&answer, &expected, sizeof answer) == 0, "tuple_step: word %lu, mark %lu, mask %lu, second %lu",
        (unsigned long)answer.word, (unsigned long)answer.mark, (unsigned long)answer.mask,
        (unsigned long)answer.second);
  check(memcmp(&state, &after, sizeof state) == 0, "tuple_step: another state");
}

/* The inputs are mostly near the state, so that all clauses are met. */
void more_states(void)
{
  unsigned long round;
  for (round = 0; round < ROUNDS; round++) {
    scorve_tuple state = state_by_chance();
    uint32_t a = chance_below(2) == 0 ? state.input : word_by_chance(state.n);
    uint32_t b = chance_below(2) == 0 ? a : a ^ (word_by_chance(state.n) & chance());
    uint32_t damages;
    if (chance_below(2) == 0)
      state.agreed = state.input;
    for (damages = chance_below(3); damages > 0; damages--)
      damage(&state, &a, &b);
    checking("random state", round);
    check_confirm(&state, a);
    check_tuple(&state, a, b);
  }
}
