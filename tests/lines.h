/* Call lines and answer lines, in the form that second/README.md describes. */
#ifndef LINES_H
#define LINES_H

#include "traces.h"

/* What is still to be read of a call line. */
typedef struct line {
  const char *rest;
  unsigned long number;
} line;

/* parse.c: takes the next part of a line; a line that is not a call ends the program with 2. What a list or a lent
 * slice needs is kept until forget_slices(). */
void not_a_call(const line *in, const char *why);
uint64_t number_up_to(line *in, uint64_t greatest);
uint32_t number(line *in);
words word_list(line *in);
bytes byte_list(line *in);
slice lent_slice(line *in, size_t size);
void take_numbers(line *in, void *state, size_t size);
void end_of_line(const line *in);
void forget_slices(void);

#define NO_MARK 255 /* what an answer line of a refused call shows as its mark */

/* print.c: an answer line, part by part. */
void begin_answer(uint32_t refusal);
void put(uint64_t value);
void put_slice(slice s);
void put_numbers(const void *state, size_t size);
void put_text(bytes text);
void end_answer(void);

/* call_run.c: a run of any voter. */
void answer_run(line *in, const voter *v);

/* The calls: each reads its arguments, makes the call and prints the answer. */
void confirm_new(line *in);
void confirm_from_word(line *in);
void confirm_step(line *in);
void confirm_run(line *in);
void vote_new(line *in);
void vote_from_word(line *in);
void vote_step(line *in);
void vote_run(line *in);
void tuple_new(line *in);
void tuple_from_word(line *in);
void tuple_step(line *in);
void tuple_run(line *in);
void reserve_new(line *in);
void reserve_from_word(line *in);
void reserve_step(line *in);
void reserve_run(line *in);
void sizing(line *in);
void threshold(line *in);
void recording_read(line *in);
void listing(line *in);

#endif
