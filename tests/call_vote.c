/* The calls of the vote of two words. */
#include "lines.h"

static void answer_made(uint32_t refusal, const scorve_vote *state)
{
  static const scorve_vote after_refusal = {.n = 1, .need = 1, .word = 0};
  begin_answer(refusal);
  put_numbers(refusal == SCORVE_OK ? state : &after_refusal, sizeof *state);
}

void vote_new(line *in)
{
  uint32_t n = number(in), need = number(in);
  scorve_vote state;
  end_of_line(in);
  make_dirty(&state, sizeof state);
  answer_made(guarded_vote_new(&state, n, need), &state);
}

void vote_from_word(line *in)
{
  uint32_t n = number(in), need = number(in), word = number(in);
  scorve_vote state;
  end_of_line(in);
  make_dirty(&state, sizeof state);
  answer_made(guarded_vote_from_word(&state, n, need, word), &state);
}

void vote_step(line *in)
{
  scorve_vote state;
  scorve_vote_answer answer;
  uint32_t a, b, reset, refusal;
  take_numbers(in, &state, sizeof state);
  a = number(in);
  b = number(in);
  reset = number(in);
  end_of_line(in);
  make_dirty(&answer, sizeof answer);
  refusal = guarded_vote_step(&state, a, b, reset, &answer);
  begin_answer(refusal);
  put(refusal == SCORVE_OK ? answer.word : 0);
  put(refusal == SCORVE_OK ? answer.mark : NO_MARK);
  put(refusal == SCORVE_OK ? answer.which : 0);
  put_numbers(&state, sizeof state);
}

void vote_run(line *in)
{
  answer_run(in, &voters[VOTE]);
}
