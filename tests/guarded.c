/* The functions of the boundary that can refuse, but the runs, each made on lent copies of its places, which settle()
 * then checks. */
#include "tests.h"

uint32_t guarded_confirm_from_word(scorve_confirm *state, uint32_t n, uint32_t need, uint32_t word)
{
  return settle("confirm_from_word", scorve_confirm_from_word(lend("state", state, sizeof *state), n, need, word));
}

uint32_t guarded_confirm_new(scorve_confirm *state, uint32_t n, uint32_t need)
{
  return settle("confirm_new", scorve_confirm_new(lend("state", state, sizeof *state), n, need));
}

uint32_t guarded_confirm_step(scorve_confirm *state, uint32_t input, scorve_confirm_answer *answer)
{
  uint32_t refusal = scorve_confirm_step(lend("state", state, sizeof *state), input,
                                         lend("answer", answer, sizeof *answer));
  return settle("confirm_step", refusal);
}

uint32_t guarded_vote_from_word(scorve_vote *state, uint32_t n, uint32_t need, uint32_t word)
{
  return settle("vote_from_word", scorve_vote_from_word(lend("state", state, sizeof *state), n, need, word));
}

uint32_t guarded_vote_new(scorve_vote *state, uint32_t n, uint32_t need)
{
  return settle("vote_new", scorve_vote_new(lend("state", state, sizeof *state), n, need));
}

uint32_t guarded_vote_step(scorve_vote *state, uint32_t a, uint32_t b, uint32_t reset, scorve_vote_answer *answer)
{
  uint32_t refusal = scorve_vote_step(lend("state", state, sizeof *state), a, b, reset,
                                      lend("answer", answer, sizeof *answer));
  return settle("vote_step", refusal);
}

uint32_t guarded_tuple_from_word(scorve_tuple *state, uint32_t n, uint32_t votes, uint32_t need, uint32_t word)
{
  uint32_t refusal = scorve_tuple_from_word(lend("state", state, sizeof *state), n, votes, need, word);
  return settle("tuple_from_word", refusal);
}

uint32_t guarded_tuple_new(scorve_tuple *state, uint32_t n, uint32_t votes, uint32_t need)
{
  return settle("tuple_new", scorve_tuple_new(lend("state", state, sizeof *state), n, votes, need));
}

uint32_t guarded_tuple_step(scorve_tuple *state, uint32_t a, uint32_t b, scorve_tuple_answer *answer)
{
  uint32_t refusal = scorve_tuple_step(lend("state", state, sizeof *state), a, b,
                                       lend("answer", answer, sizeof *answer));
  return settle("tuple_step", refusal);
}

uint32_t guarded_reserve_from_word(scorve_reserve *state, uint32_t n, uint32_t need, uint32_t word)
{
  return settle("reserve_from_word", scorve_reserve_from_word(lend("state", state, sizeof *state), n, need, word));
}

uint32_t guarded_reserve_new(scorve_reserve *state, uint32_t n, uint32_t need)
{
  return settle("reserve_new", scorve_reserve_new(lend("state", state, sizeof *state), n, need));
}

uint32_t guarded_reserve_step(scorve_reserve *state, const uint32_t units[UNITS], scorve_reserve_answer *answer)
{
  uint32_t refusal = scorve_reserve_step(lend("state", state, sizeof *state), units[0], units[1], units[2], units[3],
                                         lend("answer", answer, sizeof *answer));
  return settle("reserve_step", refusal);
}

uint32_t guarded_sizing_of(uint32_t n, uint32_t least_gap, uint32_t greatest_gap, uint32_t delay,
                           scorve_sizing *sizing)
{
  uint32_t refusal = scorve_sizing_of(n, least_gap, greatest_gap, delay, lend("sizing", sizing, sizeof *sizing));
  return settle("sizing_of", refusal);
}

uint32_t guarded_threshold_vote(const scorve_readings *readings, double *agreed, uint32_t *mark)
{
  uint32_t refusal = scorve_threshold_vote(lend_to_read("readings", readings, sizeof *readings),
                                           lend("agreed", agreed, sizeof *agreed), lend("mark", mark, sizeof *mark));
  return settle("threshold_vote", refusal);
}

uint32_t guarded_recording_read(bytes recording, const slice slices[COLUMNS], scorve_header *header, uint32_t *sample)
{
  uint32_t refusal = scorve_recording_read(lend_to_read("bytes", recording.at, recording.length), recording.length,
                                           lend_slice("times", slices[0]), slices[0].length,
                                           lend_slice("one", slices[1]), slices[1].length,
                                           lend_slice("two", slices[2]), slices[2].length,
                                           lend_slice("three", slices[3]), slices[3].length,
                                           lend_slice("four", slices[4]), slices[4].length,
                                           lend("header", header, sizeof *header), lend_sample(sample));
  return settle("recording_read", refusal);
}

uint32_t guarded_listing_list(bytes recording, bytes out, size_t *written, uint32_t *refused)
{
  uint32_t refusal = scorve_listing_list(lend_to_read("bytes", recording.at, recording.length), recording.length,
                                         lend("out", out.at, out.length), out.length,
                                         lend("written", written, sizeof *written),
                                         lend("refused", refused, sizeof *refused));
  return settle("listing_list", refusal);
}
