/* The calls that are compared and timed, each with the same lent places for both sides. */
#ifndef CALLS_H
#define CALLS_H

#include "scorvemaglio.h"

#define SAMPLES SCORVE_MAX_SAMPLES

enum { UNITS = 4, COLUMNS = 1 + UNITS, RUN_OUTPUTS = 4 }; /* a run writes no more */

/* One side's functions; taken from the header, so that both sides have its signatures. */
struct side {
  __typeof__(scorve_confirm_run) *confirm_run;
  __typeof__(scorve_vote_run) *vote_run;
  __typeof__(scorve_tuple_run) *tuple_run;
  __typeof__(scorve_reserve_run) *reserve_run;
  __typeof__(scorve_confirm_step) *confirm_step;
  __typeof__(scorve_vote_step) *vote_step;
  __typeof__(scorve_tuple_step) *tuple_step;
  __typeof__(scorve_reserve_step) *reserve_step;
  __typeof__(scorve_threshold_vote) *threshold_vote;
  __typeof__(scorve_recording_read) *recording_read;
  __typeof__(scorve_listing_list) *listing_list;
};

extern const struct side plain_side, library_side;

struct inputs {
  uint32_t n, need, word;
  uint32_t unit[UNITS][SAMPLES];
  scorve_readings readings[SAMPLES];
  uint8_t recording[SCORVE_LONGEST_RECORDING];
  size_t recording_len;
};

/* What a run writes for each sample: words or bytes. */
union run_output {
  uint32_t words[SAMPLES];
  uint8_t bytes[SAMPLES];
};

/* Every place that any call writes, and what it returned. */
struct outputs {
  uint32_t returned[SAMPLES]; /* a run has one return value, steps have one each */
  uint32_t sample;
  union run_output run[RUN_OUTPUTS]; /* in the order of the run's arguments */
  scorve_confirm confirm;
  scorve_vote vote;
  scorve_tuple tuple;
  scorve_reserve reserve;
  scorve_confirm_answer confirm_answers[SAMPLES];
  scorve_vote_answer vote_answers[SAMPLES];
  scorve_tuple_answer tuple_answers[SAMPLES];
  scorve_reserve_answer reserve_answers[SAMPLES];
  double agreed[SAMPLES];
  uint32_t agreed_marks[SAMPLES];
  scorve_header header;
  uint32_t columns[COLUMNS][SAMPLES];
  uint8_t text[SCORVE_LONGEST_LISTING];
  size_t written;
  uint32_t refused;
};

/* Each call is worth SAMPLES samples, steps or votes. */
typedef void call_function(const struct side *side, const struct inputs *in, struct outputs *out);

call_function call_confirm_run, call_vote_run, call_tuple_run, call_reserve_run;
call_function call_confirm_steps, call_vote_steps, call_tuple_steps, call_reserve_steps;
call_function call_tuple_run_apart, call_tuple_steps_apart; /* the voters' count is one more than need */
call_function call_threshold_votes, call_reader, call_listing;
call_function call_nothing;

#endif
