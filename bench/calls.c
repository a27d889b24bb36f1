#include "calls.h"

#include "plain.h"

const struct side plain_side = {
  plain_confirm_run, plain_vote_run, plain_tuple_run, plain_reserve_run,
  plain_confirm_step, plain_vote_step, plain_tuple_step, plain_reserve_step,
  plain_threshold_vote, plain_recording_read, plain_listing_list,
};

const struct side library_side = {
  scorve_confirm_run, scorve_vote_run, scorve_tuple_run, scorve_reserve_run,
  scorve_confirm_step, scorve_vote_step, scorve_tuple_step, scorve_reserve_step,
  scorve_threshold_vote, scorve_recording_read, scorve_listing_list,
};

/* A slice as a run takes it: its place and its length. */
#define IN(k) in->unit[k], SAMPLES
#define WORDS(k) out->run[k].words, SAMPLES
#define BYTES(k) out->run[k].bytes, SAMPLES

void call_confirm_run(const struct side *side, const struct inputs *in, struct outputs *out)
{
  out->returned[0] = side->confirm_run(in->n, in->need, in->word, IN(0), WORDS(0), BYTES(1), WORDS(2), &out->sample);
}

void call_vote_run(const struct side *side, const struct inputs *in, struct outputs *out)
{
  out->returned[0] = side->vote_run(in->n, in->need, in->word, IN(0), IN(1), WORDS(0), BYTES(1), BYTES(2),
                                    &out->sample);
}

static void tuple_run(const struct side *side, uint32_t votes, const struct inputs *in, struct outputs *out)
{
  out->returned[0] = side->tuple_run(in->n, votes, in->need, in->word, IN(0), IN(1), WORDS(0), WORDS(1), BYTES(2),
                                     WORDS(3), &out->sample);
}

void call_tuple_run(const struct side *side, const struct inputs *in, struct outputs *out)
{
  tuple_run(side, in->need, in, out);
}

void call_tuple_run_apart(const struct side *side, const struct inputs *in, struct outputs *out)
{
  tuple_run(side, in->need + 1, in, out);
}

void call_reserve_run(const struct side *side, const struct inputs *in, struct outputs *out)
{
  out->returned[0] = side->reserve_run(in->n, in->need, in->word, IN(0), IN(1), IN(2), IN(3), WORDS(0), BYTES(1),
                                       BYTES(2), &out->sample);
}

void call_confirm_steps(const struct side *side, const struct inputs *in, struct outputs *out)
{
  __typeof__(side->confirm_step) step = side->confirm_step;
  out->confirm = (scorve_confirm){.n = in->n, .need = in->need, .input = in->word, .output = in->word};
  for (size_t i = 0; i < SAMPLES; i++) {
    out->returned[i] = step(&out->confirm, in->unit[0][i], &out->confirm_answers[i]);
  }
}

void call_vote_steps(const struct side *side, const struct inputs *in, struct outputs *out)
{
  __typeof__(side->vote_step) step = side->vote_step;
  out->vote = (scorve_vote){.n = in->n, .need = in->need, .word = in->word};
  for (size_t i = 0; i < SAMPLES; i++) {
    /* a reset now and then; unit 3 only gives the chance */
    const uint32_t reset = (in->unit[2][i] & 7) == 7;
    out->returned[i] = step(&out->vote, in->unit[0][i], in->unit[1][i], reset, &out->vote_answers[i]);
  }
}

static void tuple_steps(const struct side *side, uint32_t votes, const struct inputs *in, struct outputs *out)
{
  __typeof__(side->tuple_step) step = side->tuple_step;
  out->tuple = (scorve_tuple){.votes = votes, .n = in->n, .need = in->need, .input = in->word, .output = in->word,
                              .agreed = in->word};
  for (size_t i = 0; i < SAMPLES; i++) {
    out->returned[i] = step(&out->tuple, in->unit[0][i], in->unit[1][i], &out->tuple_answers[i]);
  }
}

void call_tuple_steps(const struct side *side, const struct inputs *in, struct outputs *out)
{
  tuple_steps(side, in->need, in, out);
}

void call_tuple_steps_apart(const struct side *side, const struct inputs *in, struct outputs *out)
{
  tuple_steps(side, in->need + 1, in, out);
}

void call_reserve_steps(const struct side *side, const struct inputs *in, struct outputs *out)
{
  __typeof__(side->reserve_step) step = side->reserve_step;
  out->reserve = (scorve_reserve){.phase = SCORVE_PRIMARY, .n = in->n, .need = in->need, .word = in->word};
  for (size_t i = 0; i < SAMPLES; i++) {
    out->returned[i] = step(&out->reserve, in->unit[0][i], in->unit[1][i], in->unit[2][i], in->unit[3][i],
                            &out->reserve_answers[i]);
  }
}

void call_threshold_votes(const struct side *side, const struct inputs *in, struct outputs *out)
{
  __typeof__(side->threshold_vote) vote = side->threshold_vote;
  for (size_t i = 0; i < SAMPLES; i++) {
    out->returned[i] = vote(&in->readings[i], &out->agreed[i], &out->agreed_marks[i]);
  }
}

void call_reader(const struct side *side, const struct inputs *in, struct outputs *out)
{
  out->returned[0] = side->recording_read(in->recording, in->recording_len, out->columns[0], SAMPLES,
                                          out->columns[1], SAMPLES, out->columns[2], SAMPLES,
                                          out->columns[3], SAMPLES, out->columns[4], SAMPLES,
                                          &out->header, &out->sample);
}

void call_listing(const struct side *side, const struct inputs *in, struct outputs *out)
{
  out->returned[0] = side->listing_list(in->recording, in->recording_len, out->text, sizeof out->text,
                                        &out->written, &out->refused);
}

void call_nothing(const struct side *side, const struct inputs *in, struct outputs *out)
{
  (void)side;
  (void)in;
  (void)out;
}
