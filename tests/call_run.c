/* The runs, all alike: a voter's row says what is read and what is lent to be written. */
#include "lines.h"

void answer_run(line *in, const voter *v)
{
  trace t;
  size_t k;
  t.n = number(in);
  t.votes = v->two_counts ? number(in) : 0;
  t.need = number(in);
  t.word = number(in);
  for (k = 0; k < v->units; k++)
    t.units[k] = word_list(in);
  for (k = 0; k < outputs_of(v); k++)
    t.outputs[k] = lent_slice(in, v->outputs[k].size);
  end_of_line(in);
  make_dirty(&t.sample, sizeof t.sample);
  begin_answer(guarded_run(v, &t));
  put(t.sample);
  for (k = 0; k < outputs_of(v); k++)
    put_slice(t.outputs[k]);
}
