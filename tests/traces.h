/* A run of any of the four voters: a row of the table says what it reads and writes, so that a test of one is a test of
 * all. */
#ifndef TRACES_H
#define TRACES_H

#include "tests.h"

#define OUTPUTS 4 /* at least as many as any run writes */

/* The arguments of a run; a voter uses the first slices, as many as it has. */
typedef struct trace {
  uint32_t n, votes, need, word, sample; /* votes: of a voter with two counts */
  words units[UNITS]; /* the samples */
  slice outputs[OUTPUTS];
} trace;

/* The copies of a trace's slices that are lent to one run. */
typedef struct lent_trace {
  const uint32_t *units[UNITS];
  void *outputs[OUTPUTS];
  uint32_t *sample;
} lent_trace;

/* What a run writes for each sample: its name, and the bytes of one element. */
typedef struct output {
  const char *name;
  size_t size;
} output;

typedef struct voter {
  const char *name;        /* of its run */
  int two_counts;          /* votes for the voters, and need */
  size_t units;            /* how many columns of samples the run reads */
  output outputs[OUTPUTS]; /* in the order of its arguments; the rest have no name */
  size_t marks;            /* the output that holds the marks */
  uint32_t greatest_mark;
  size_t told;             /* the output that tells of the units (T-09) */
  uint32_t greatest_told;  /* the values of it that a test has to meet, from 0 on; of a confirmation 0, it has none */
  uint32_t (*call)(const trace *t, const lent_trace *lent);
  void (*check_steps)(const struct voter *v, const trace *t); /* the run wrote what steps from a fresh state answer */
} voter;

enum { CONFIRM, VOTE, TUPLE, RESERVE, VOTERS };
extern const voter voters[VOTERS];

size_t outputs_of(const voter *v);
uint32_t guarded_run(const voter *v, trace *t);

#endif
