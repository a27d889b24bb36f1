/* The calls of the reserve vote. */
#include "lines.h"

static void answer_made(uint32_t refusal, const scorve_reserve *state)
{
  static const scorve_reserve after_refusal = {.phase = SCORVE_PRIMARY, .n = 1, .need = 1, .word = 0};
  begin_answer(refusal);
  put_numbers(refusal == SCORVE_OK ? state : &after_refusal, sizeof *state);
}

void reserve_new(line *in)
{
  uint32_t n = number(in), need = number(in);
  scorve_reserve state;
  end_of_line(in);
  make_dirty(&state, sizeof state);
  answer_made(guarded_reserve_new(&state, n, need), &state);
}

void reserve_from_word(line *in)
{
  uint32_t n = number(in), need = number(in), word = number(in);
  scorve_reserve state;
  end_of_line(in);
  make_dirty(&state, sizeof state);
  answer_made(guarded_reserve_from_word(&state, n, need, word), &state);
}

void reserve_step(line *in)
{
  scorve_reserve state;
  scorve_reserve_answer answer;
  uint32_t units[UNITS], refusal;
  take_numbers(in, &state, sizeof state);
  take_numbers(in, units, sizeof units);
  end_of_line(in);
  make_dirty(&answer, sizeof answer);
  refusal = guarded_reserve_step(&state, units, &answer);
  begin_answer(refusal);
  put(refusal == SCORVE_OK ? answer.word : 0);
  put(refusal == SCORVE_OK ? answer.mark : NO_MARK);
  put(refusal == SCORVE_OK ? answer.pair : 0);
  put(refusal == SCORVE_OK ? answer.which : 0);
  put_numbers(&state, sizeof state);
}

void reserve_run(line *in)
{
  answer_run(in, &voters[RESERVE]);
}
