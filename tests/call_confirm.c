/* The calls of confirmation. The other voters' files have the same order. */
#include "lines.h"

/* Beside a refusal the papers give the fresh state of n 1, N 1 and word 0. */
static void answer_made(uint32_t refusal, const scorve_confirm *state)
{
  static const scorve_confirm after_refusal = {.n = 1, .need = 1, .input = 0, .output = 0};
  begin_answer(refusal);
  put_numbers(refusal == SCORVE_OK ? state : &after_refusal, sizeof *state);
}

void confirm_new(line *in)
{
  uint32_t n = number(in), need = number(in);
  scorve_confirm state;
  end_of_line(in);
  make_dirty(&state, sizeof state);
  answer_made(guarded_confirm_new(&state, n, need), &state);
}

void confirm_from_word(line *in)
{
  uint32_t n = number(in), need = number(in), word = number(in);
  scorve_confirm state;
  end_of_line(in);
  make_dirty(&state, sizeof state);
  answer_made(guarded_confirm_from_word(&state, n, need, word), &state);
}

void confirm_step(line *in)
{
  scorve_confirm state;
  scorve_confirm_answer answer;
  uint32_t input, refusal;
  take_numbers(in, &state, sizeof state);
  input = number(in);
  end_of_line(in);
  make_dirty(&answer, sizeof answer);
  refusal = guarded_confirm_step(&state, input, &answer);
  begin_answer(refusal);
  put(refusal == SCORVE_OK ? answer.word : 0);
  put(refusal == SCORVE_OK ? answer.mark : NO_MARK);
  put_numbers(&state, sizeof state);
}

void confirm_run(line *in)
{
  answer_run(in, &voters[CONFIRM]);
}
