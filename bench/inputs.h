/* Inputs that are the same in every run of the bench. */
#ifndef INPUTS_H
#define INPUTS_H

#include "calls.h"

/* Fills the traces or the readings of inputs whose n, need and word are set. */
typedef void make_function(struct inputs *in);

make_function make_quiet;     /* the units nearly always agree; rare changes */
make_function make_busy;      /* many changes and disagreements, many of them long */
make_function make_hand_over; /* busy, but the first pair alarms in the middle only */
make_function make_agreeing;  /* readings that agree */
make_function make_alarming;  /* readings that do not */

void seed_inputs(uint32_t seed);
/* The recording of the first units' traces. */
void make_recording(struct inputs *in, uint32_t units);

#endif
