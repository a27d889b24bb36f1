/* What the parts of `more` share. */
#ifndef MORE_H
#define MORE_H

#include "tests.h"

/* more.c */
uint32_t chance(void);
uint32_t chance_below(uint32_t end);
uint32_t word_by_chance(uint32_t n);
int is_outside(uint32_t word, uint32_t n);
int is_bad_count(uint32_t count);
uint32_t width_and_count_refusal(uint32_t n, uint32_t need);
uint32_t pick(size_t *rest, const uint32_t *values, size_t count);
#define PICK(rest, values) pick(&(rest), values, sizeof(values) / sizeof *(values))

/* The parts, each in a file of its name. */
void more_makes(void);
void more_steps(void);
void more_states(void);
void more_traces(void);
void more_recordings(void);
void more_listings(void);
void more_numbers(void);

#endif
