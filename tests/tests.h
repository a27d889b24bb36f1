/* What the test programs share: checks, lent places, and the boundary's calls made on guarded places. */
#ifndef TESTS_H
#define TESTS_H

#include "scorvemaglio.h"

/* check.c: counts the checks; a bad one is told on standard error, with the place that was named last. */
void checking(const char *place, unsigned long number);
void check(int good, const char *what, ...);
unsigned long checks_made(void);
unsigned long bad_checks(void);
void note_call(const char *function, uint32_t refusal);
void check_functions_were_met(char *const names[], size_t count);

/* What a call reads: words or bytes. */
typedef struct words {
  uint32_t *at;
  size_t length;
} words;

typedef struct bytes {
  uint8_t *at;
  size_t length;
} bytes;

/* What a call is lent to write: elements of one byte or of one word. */
typedef struct slice {
  void *at;
  size_t length, size; /* size: of one element */
} slice;

/* lent.c: what is lent to a call is a copy in memory of its own, between guard bytes. */
void lend_exactly(void);
void *allocate(size_t size);
void make_dirty(void *place, size_t size);
int is_dirty(const void *place, size_t size);
const void *lend_to_read(const char *name, const void *owner, size_t size);
const uint32_t *lend_words(const char *name, words list);
void *lend(const char *name, void *owner, size_t size);
void *lend_slice(const char *name, slice owner);
uint32_t element(slice s, size_t i);
uint32_t *lend_sample(uint32_t *owner);
uint32_t settle(const char *function, uint32_t refusal);

#define UNITS 4   /* the most that a call reads */
#define COLUMNS 5 /* of a recording: the times and the units */

/* guarded.c: each function of the boundary that can refuse, but the runs (traces.c), made on lent copies; the same
 * arguments and the same answer. */
__typeof__(scorve_confirm_from_word) guarded_confirm_from_word;
__typeof__(scorve_confirm_new) guarded_confirm_new;
__typeof__(scorve_confirm_step) guarded_confirm_step;
__typeof__(scorve_vote_from_word) guarded_vote_from_word;
__typeof__(scorve_vote_new) guarded_vote_new;
__typeof__(scorve_vote_step) guarded_vote_step;
__typeof__(scorve_tuple_from_word) guarded_tuple_from_word;
__typeof__(scorve_tuple_new) guarded_tuple_new;
__typeof__(scorve_tuple_step) guarded_tuple_step;
__typeof__(scorve_reserve_from_word) guarded_reserve_from_word;
__typeof__(scorve_reserve_new) guarded_reserve_new;
uint32_t guarded_reserve_step(scorve_reserve *state, const uint32_t units[UNITS], scorve_reserve_answer *answer);
__typeof__(scorve_sizing_of) guarded_sizing_of;
__typeof__(scorve_threshold_vote) guarded_threshold_vote;
uint32_t guarded_recording_read(bytes recording, const slice slices[COLUMNS], scorve_header *header, uint32_t *sample);
uint32_t guarded_listing_list(bytes recording, bytes out, size_t *written, uint32_t *refused);

#endif
