/*
 * The same work as the library's, by a plain C program written from the rules;
 * each function has the signature, the checks and the answers of the scorve_
 * function of the same name.
 */
#ifndef PLAIN_H
#define PLAIN_H

#include "scorvemaglio.h"

__typeof__(scorve_confirm_step) plain_confirm_step;
__typeof__(scorve_confirm_run) plain_confirm_run;
__typeof__(scorve_vote_step) plain_vote_step;
__typeof__(scorve_vote_run) plain_vote_run;
__typeof__(scorve_tuple_step) plain_tuple_step;
__typeof__(scorve_tuple_run) plain_tuple_run;
__typeof__(scorve_reserve_step) plain_reserve_step;
__typeof__(scorve_reserve_run) plain_reserve_run;
__typeof__(scorve_threshold_vote) plain_threshold_vote;
__typeof__(scorve_recording_read) plain_recording_read;
__typeof__(scorve_listing_list) plain_listing_list;

#endif
