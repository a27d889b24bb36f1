/* The four voters' runs, and the same samples taken step by step from a fresh state. One output more of a run is told
 * three times here: in its call, in what its steps answer, and in its row at the end. */
#include "traces.h"

size_t outputs_of(const voter *v)
{
  size_t k = 0;
  while (k < OUTPUTS && v->outputs[k].name != NULL)
    k++;
  return k;
}

/* The run, made on lent copies of its slices. */
uint32_t guarded_run(const voter *v, trace *t)
{
  static const char *const names[UNITS] = {"unit 1", "unit 2", "unit 3", "unit 4"};
  lent_trace lent;
  size_t k;
  for (k = 0; k < v->units; k++)
    lent.units[k] = lend_words(names[k], t->units[k]);
  for (k = 0; k < outputs_of(v); k++)
    lent.outputs[k] = lend_slice(v->outputs[k].name, t->outputs[k]);
  lent.sample = lend_sample(&t->sample);
  return settle(v->name, v->call(t, &lent));
}

/* A slice as a call takes it: its place and its length. */
#define IN(k) lent->units[k], t->units[k].length
#define OUT(k) lent->outputs[k], t->outputs[k].length

static uint32_t run_confirm(const trace *t, const lent_trace *lent)
{
  return scorve_confirm_run(t->n, t->need, t->word, IN(0), OUT(0), OUT(1), OUT(2), lent->sample);
}

static uint32_t run_vote(const trace *t, const lent_trace *lent)
{
  return scorve_vote_run(t->n, t->need, t->word, IN(0), IN(1), OUT(0), OUT(1), OUT(2), lent->sample);
}

static uint32_t run_tuple(const trace *t, const lent_trace *lent)
{
  return scorve_tuple_run(t->n, t->votes, t->need, t->word, IN(0), IN(1), OUT(0), OUT(1), OUT(2), OUT(3),
                          lent->sample);
}

static uint32_t run_reserve(const trace *t, const lent_trace *lent)
{
  return scorve_reserve_run(t->n, t->need, t->word, IN(0), IN(1), IN(2), IN(3), OUT(0), OUT(1), OUT(2),
                            lent->sample);
}

static void check_made(uint32_t refusal)
{
  check(refusal == SCORVE_OK, "the fresh state was refused with %lu", (unsigned long)refusal);
}

/* What a step answered beside what the run wrote for this sample, in the order of its outputs. */
static void check_step(const voter *v, const trace *t, size_t i, uint32_t refusal, const uint32_t answered[OUTPUTS])
{
  size_t k;
  check(refusal == SCORVE_OK, "step %lu was refused with %lu", (unsigned long)i, (unsigned long)refusal);
  for (k = 0; k < outputs_of(v); k++)
    check(element(t->outputs[k], i) == answered[k], "step %lu answered %lu; the run: %lu in %s", (unsigned long)i,
          (unsigned long)answered[k], (unsigned long)element(t->outputs[k], i), v->outputs[k].name);
}

#define ANSWERED (const uint32_t[OUTPUTS])

static void step_confirm(const voter *v, const trace *t)
{
  scorve_confirm state;
  scorve_confirm_answer answer;
  size_t i;
  make_dirty(&state, sizeof state);
  check_made(guarded_confirm_from_word(&state, t->n, t->need, t->word));
  for (i = 0; i < t->units[0].length; i++) {
    uint32_t refusal;
    make_dirty(&answer, sizeof answer);
    refusal = guarded_confirm_step(&state, t->units[0].at[i], &answer);
    check_step(v, t, i, refusal, ANSWERED{answer.word, answer.mark, state.count});
  }
}

static void step_vote(const voter *v, const trace *t)
{
  scorve_vote state;
  scorve_vote_answer answer;
  size_t i;
  make_dirty(&state, sizeof state);
  check_made(guarded_vote_from_word(&state, t->n, t->need, t->word));
  for (i = 0; i < t->units[0].length; i++) {
    uint32_t refusal;
    make_dirty(&answer, sizeof answer);
    refusal = guarded_vote_step(&state, t->units[0].at[i], t->units[1].at[i], 0, &answer);
    check_step(v, t, i, refusal, ANSWERED{answer.word, answer.mark, answer.which});
  }
}

static void step_tuple(const voter *v, const trace *t)
{
  scorve_tuple state;
  scorve_tuple_answer answer;
  size_t i;
  make_dirty(&state, sizeof state);
  check_made(guarded_tuple_from_word(&state, t->n, t->votes, t->need, t->word));
  for (i = 0; i < t->units[0].length; i++) {
    uint32_t refusal;
    make_dirty(&answer, sizeof answer);
    refusal = guarded_tuple_step(&state, t->units[0].at[i], t->units[1].at[i], &answer);
    check_step(v, t, i, refusal, ANSWERED{answer.word, answer.mask, answer.mark, answer.second});
    check((answer.mask != 0) == (answer.mark == SCORVE_ALARM), "step %lu: the mask and the mark differ",
          (unsigned long)i);
  }
}

/* The second pair is voted on from the sample after the first alarm. */
static void step_reserve(const voter *v, const trace *t)
{
  scorve_reserve state;
  scorve_reserve_answer answer;
  uint32_t pair = 1;
  size_t i;
  make_dirty(&state, sizeof state);
  check_made(guarded_reserve_from_word(&state, t->n, t->need, t->word));
  for (i = 0; i < t->units[0].length; i++) {
    uint32_t now[UNITS] = {t->units[0].at[i], t->units[1].at[i], t->units[2].at[i], t->units[3].at[i]};
    uint32_t refusal;
    make_dirty(&answer, sizeof answer);
    refusal = guarded_reserve_step(&state, now, &answer);
    check_step(v, t, i, refusal, ANSWERED{answer.word, answer.mark, answer.which});
    check(answer.pair == pair, "step %lu: pair %lu", (unsigned long)i, (unsigned long)answer.pair);
    if (answer.mark == SCORVE_ALARM)
      pair = 2;
  }
}

#define WORDS(name) {name, sizeof(uint32_t)}
#define BYTES(name) {name, sizeof(uint8_t)}

const voter voters[VOTERS] = {
  {"confirm_run", 0, 1, {WORDS("words"), BYTES("marks"), WORDS("counts")}, 1, SCORVE_HELD, 0, 0, run_confirm,
   step_confirm},
  {"vote_run", 0, 2, {WORDS("words"), BYTES("marks"), BYTES("which")}, 1, SCORVE_ALARM, 2, SCORVE_NEITHER, run_vote,
   step_vote},
  {"tuple_run", 1, 2, {WORDS("words"), WORDS("masks"), BYTES("marks"), WORDS("seconds")}, 2, SCORVE_ALARM, 3, 1,
   run_tuple, step_tuple},
  {"reserve_run", 0, 4, {WORDS("words"), BYTES("marks"), BYTES("which")}, 1, SCORVE_ALARM, 2, SCORVE_NEITHER,
   run_reserve, step_reserve},
};
