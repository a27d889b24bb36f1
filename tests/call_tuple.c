/* The calls of the tuple vote. */
#include "lines.h"

static void answer_made(uint32_t refusal, const scorve_tuple *state)
{
  static const scorve_tuple after_refusal = {.votes = 1, .n = 1, .need = 1, .input = 0, .output = 0, .agreed = 0};
  begin_answer(refusal);
  put_numbers(refusal == SCORVE_OK ? state : &after_refusal, sizeof *state);
}

void tuple_new(line *in)
{
  uint32_t n = number(in), votes = number(in), need = number(in);
  scorve_tuple state;
  end_of_line(in);
  make_dirty(&state, sizeof state);
  answer_made(guarded_tuple_new(&state, n, votes, need), &state);
}

void tuple_from_word(line *in)
{
  uint32_t n = number(in), votes = number(in), need = number(in), word = number(in);
  scorve_tuple state;
  end_of_line(in);
  make_dirty(&state, sizeof state);
  answer_made(guarded_tuple_from_word(&state, n, votes, need, word), &state);
}

void tuple_step(line *in)
{
  scorve_tuple state;
  scorve_tuple_answer answer;
  uint32_t a, b, refusal;
  take_numbers(in, &state, sizeof state);
  a = number(in);
  b = number(in);
  end_of_line(in);
  make_dirty(&answer, sizeof answer);
  refusal = guarded_tuple_step(&state, a, b, &answer);
  begin_answer(refusal);
  put(refusal == SCORVE_OK ? answer.word : 0);
  put(refusal == SCORVE_OK ? answer.mask : 0);
  put(refusal == SCORVE_OK ? answer.mark : NO_MARK);
  put(refusal == SCORVE_OK ? answer.second : 0);
  put_numbers(&state, sizeof state);
}

void tuple_run(line *in)
{
  answer_run(in, &voters[TUPLE]);
}
