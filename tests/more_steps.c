/* Steps on states that no line holds: phases above 2, resets above 1, each with every other damage. */
#include "more.h"

/* The clauses of a vote of two words, as the papers number them; returns the mark. */
static uint32_t vote_clauses(scorve_vote *state, uint32_t a, uint32_t b, int reset)
{
  if (a == b) {
    state->word = a;
    state->count = 0;
    return SCORVE_AGREED;
  }
  if (reset) {
    state->count = 0;
    return SCORVE_HELD;
  }
  if (state->count < state->need - 1) {
    state->count++;
    return SCORVE_HELD;
  }
  return SCORVE_ALARM;
}

/* The unit that still shows the word agreed on before the step. */
static uint32_t which_shows(uint32_t word, uint32_t a, uint32_t b)
{
  if (a == b)
    return SCORVE_UNITS_AGREE;
  if (a == word)
    return SCORVE_FIRST;
  return b == word ? SCORVE_SECOND : SCORVE_NEITHER;
}

/* all: the units' words, one laid over the other. */
static uint32_t step_refusal(const scorve_vote *state, uint32_t all)
{
  uint32_t refusal = width_and_count_refusal(state->n, state->need);
  if (refusal != SCORVE_OK)
    return refusal;
  if (is_outside(all, state->n))
    return SCORVE_BAD_SAMPLE;
  if (state->count > state->need - 1 || is_outside(state->word, state->n))
    return SCORVE_BAD_STATE;
  return SCORVE_OK;
}

static void check_vote(const scorve_vote *before, uint32_t a, uint32_t b, uint32_t reset)
{
  scorve_vote state = *before, expected = *before;
  scorve_vote_answer answer;
  uint32_t refusal, mark;
  make_dirty(&answer, sizeof answer);
  refusal = guarded_vote_step(&state, a, b, reset, &answer);
  check(refusal == step_refusal(before, a | b), "vote_step: refused with %lu", (unsigned long)refusal);
  if (refusal != SCORVE_OK || step_refusal(before, a | b) != SCORVE_OK)
    return;
  mark = vote_clauses(&expected, a, b, reset != 0);
  check(answer.mark == mark && answer.word == expected.word, "vote_step: reset %lu, word %lu, mark %lu",
        (unsigned long)reset, (unsigned long)answer.word, (unsigned long)answer.mark);
  check(answer.which == which_shows(before->word, a, b), "vote_step: unit %lu", (unsigned long)answer.which);
  check(state.n == before->n && state.need == before->need && state.word == expected.word &&
        state.count == expected.count, "vote_step: reset %lu, another state", (unsigned long)reset);
}

/* Every reset but 0 is one, also those whose last byte or half is 0. */
static void vote_resets(void)
{
  static const uint32_t resets[] = {0, 1, 2, 256, 65536, 0x80000000, UINT32_MAX};
  static const uint32_t widths[] = {0, 3, 32, 33}, needs[] = {0, 1, 3, 1000, 1001};
  static const uint32_t words_held[] = {0, 5, 8}, counts[] = {0, 2, 3, 999, 1000, UINT32_MAX};
  static const uint32_t samples[] = {0, 5, 8, UINT32_MAX};
  size_t i, rest = 0;
  for (i = 0; rest == 0; i++) {
    scorve_vote state;
    uint32_t a, b, reset;
    rest = i;
    reset = PICK(rest, resets);
    state.n = PICK(rest, widths);
    state.need = PICK(rest, needs);
    state.word = PICK(rest, words_held);
    state.count = PICK(rest, counts);
    a = PICK(rest, samples);
    b = PICK(rest, samples);
    checking("vote resets", (unsigned long)i);
    check_vote(&state, a, b, reset);
  }
}

static uint32_t next_phase(uint32_t phase, uint32_t mark)
{
  if (phase == SCORVE_PRIMARY)
    return mark == SCORVE_ALARM ? SCORVE_TAKING_OVER : SCORVE_PRIMARY;
  return SCORVE_RESERVE;
}

static scorve_vote vote_of(const scorve_reserve *state)
{
  scorve_vote vote = {.n = state->n, .need = state->need, .word = state->word, .count = state->count};
  return vote;
}

/* A phase above 2 is number 7, where no lower one applies. */
static uint32_t reserve_refusal(const scorve_reserve *state, const uint32_t units[UNITS])
{
  scorve_vote vote = vote_of(state);
  uint32_t refusal = step_refusal(&vote, units[0] | units[1] | units[2] | units[3]);
  return refusal == SCORVE_OK && state->phase > SCORVE_RESERVE ? (uint32_t)SCORVE_BAD_STATE : refusal;
}

static void check_reserve_taken(const scorve_reserve *before, const uint32_t units[UNITS], const scorve_reserve *state,
                                const scorve_reserve_answer *answer)
{
  scorve_vote vote = vote_of(before);
  size_t first = before->phase == SCORVE_PRIMARY ? 0 : 2;
  uint32_t mark = vote_clauses(&vote, units[first], units[first + 1], before->phase == SCORVE_TAKING_OVER);
  check(answer->word == vote.word && answer->mark == mark && answer->pair == first / 2 + 1,
        "reserve_step: word %lu, mark %lu, pair %lu", (unsigned long)answer->word, (unsigned long)answer->mark,
        (unsigned long)answer->pair);
  check(answer->which == which_shows(before->word, units[first], units[first + 1]), "reserve_step: unit %lu",
        (unsigned long)answer->which);
  check(state->phase == next_phase(before->phase, mark) && state->n == before->n && state->need == before->need &&
        state->word == vote.word && state->count == vote.count, "reserve_step: another state, phase %lu",
        (unsigned long)state->phase);
}

static void check_reserve(const scorve_reserve *before, const uint32_t units[UNITS])
{
  scorve_reserve state = *before;
  scorve_reserve_answer answer;
  uint32_t refusal, expected = reserve_refusal(before, units);
  make_dirty(&answer, sizeof answer);
  refusal = guarded_reserve_step(&state, units, &answer);
  check(refusal == expected, "reserve_step: phase %lu, refused with %lu, not %lu", (unsigned long)before->phase,
        (unsigned long)refusal, (unsigned long)expected);
  if (refusal == SCORVE_OK && expected == SCORVE_OK)
    check_reserve_taken(before, units, &state, &answer);
}

/* Also phases whose last byte or half is one of the three. */
static void reserve_phases(void)
{
  static const uint32_t phases[] = {0, 1, 2, 3, 4, 5, 255, 256, 257, 65536, 65538, 0x80000001, UINT32_MAX};
  static const uint32_t widths[] = {0, 3, 32, 33}, needs[] = {0, 1, 3, 1001}, counts[] = {0, 1, 2, 3, UINT32_MAX};
  static const uint32_t values[] = {0, 5, 8}, rows[] = {0, 1, 2, 3, 4, 5, 6, 7, 8};
  static const uint32_t units[][UNITS] = {
    {5, 5, 5, 5}, {5, 7, 5, 4}, {5, 7, 4, 4}, {4, 4, 5, 7}, {8, 0, 0, 0}, {0, 8, 0, 0}, {0, 0, 8, 0}, {0, 0, 0, 8},
    {UINT32_MAX, 0, UINT32_MAX, UINT32_MAX},
  };
  size_t i, rest = 0;
  for (i = 0; rest == 0; i++) {
    scorve_reserve state;
    rest = i;
    state.phase = PICK(rest, phases);
    state.n = PICK(rest, widths);
    state.need = PICK(rest, needs);
    state.word = PICK(rest, values);
    state.count = PICK(rest, counts);
    checking("reserve phases", (unsigned long)i);
    check_reserve(&state, units[PICK(rest, rows)]);
  }
}

void more_steps(void)
{
  vote_resets();
  reserve_phases();
}
