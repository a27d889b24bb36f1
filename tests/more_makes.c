/* The eight constructors, with every combination of good and bad arguments. */
#include <string.h>

#include "more.h"

static const uint32_t widths[] = {0,  1,  2,  3,  4,  5,  6,  7,  8,  9,  10, 11, 12, 13, 14, 15, 16, 17, 18,
                                  19, 20, 21, 22, 23, 24, 25, 26, 27, 28, 29, 30, 31, 32, 33, 256 + 1, 65536 + 1,
                                  UINT32_MAX};
static const uint32_t needs[] = {0, 1, 2, 999, 1000, 1001, 65536 + 1, UINT32_MAX};
static const uint32_t initials[] = {0, 1, 2, 3, 0x40000000, 0x80000000, UINT32_MAX};

static uint32_t refusal_of(uint32_t n, uint32_t need, uint32_t word)
{
  uint32_t refusal = width_and_count_refusal(n, need);
  return refusal == SCORVE_OK && is_outside(word, n) ? (uint32_t)SCORVE_BAD_WORD : refusal;
}

/* Of a constructor that takes none: all ones within the width. With a width that is refused no state is compared. */
static uint32_t default_word(uint32_t n)
{
  return n == 0 || n > SCORVE_MAX_WIDTH ? 0 : UINT32_MAX >> (SCORVE_MAX_WIDTH - n);
}

/* The number, and if it is 0 the fresh state that the papers describe. */
static void check_made(const char *voter, uint32_t given, uint32_t expected, const void *state, const void *fresh,
                       size_t size)
{
  check(given == expected, "%s: made with %lu, not %lu", voter, (unsigned long)given, (unsigned long)expected);
  if (expected == SCORVE_OK)
    check(memcmp(state, fresh, size) == 0, "%s: not the fresh state", voter);
}

static scorve_confirm fresh_confirm(uint32_t n, uint32_t need, uint32_t word)
{
  scorve_confirm state = {.n = n, .need = need, .input = word, .output = word};
  return state;
}

static void make_confirm(uint32_t n, uint32_t need, uint32_t word)
{
  scorve_confirm state, fresh = fresh_confirm(n, need, word), usual = fresh_confirm(n, need, default_word(n));
  make_dirty(&state, sizeof state);
  check_made("confirm", guarded_confirm_from_word(&state, n, need, word), refusal_of(n, need, word), &state, &fresh,
             sizeof state);
  make_dirty(&state, sizeof state);
  check_made("confirm", guarded_confirm_new(&state, n, need), width_and_count_refusal(n, need), &state, &usual,
             sizeof state);
}

static scorve_vote fresh_vote(uint32_t n, uint32_t need, uint32_t word)
{
  scorve_vote state = {.n = n, .need = need, .word = word};
  return state;
}

static void make_vote(uint32_t n, uint32_t need, uint32_t word)
{
  scorve_vote state, fresh = fresh_vote(n, need, word), usual = fresh_vote(n, need, default_word(n));
  make_dirty(&state, sizeof state);
  check_made("vote", guarded_vote_from_word(&state, n, need, word), refusal_of(n, need, word), &state, &fresh,
             sizeof state);
  make_dirty(&state, sizeof state);
  check_made("vote", guarded_vote_new(&state, n, need), width_and_count_refusal(n, need), &state, &usual,
             sizeof state);
}

static scorve_tuple fresh_tuple(uint32_t n, uint32_t votes, uint32_t need, uint32_t word)
{
  scorve_tuple state = {.votes = votes, .n = n, .need = need, .input = word, .output = word, .agreed = word};
  return state;
}

static void make_tuple(uint32_t n, uint32_t votes, uint32_t need, uint32_t word)
{
  scorve_tuple state, fresh = fresh_tuple(n, votes, need, word), usual = fresh_tuple(n, votes, need, default_word(n));
  uint32_t worse = is_bad_count(votes) ? votes : need; /* 1 covers both */
  make_dirty(&state, sizeof state);
  check_made("tuple", guarded_tuple_from_word(&state, n, votes, need, word), refusal_of(n, worse, word), &state,
             &fresh, sizeof state);
  make_dirty(&state, sizeof state);
  check_made("tuple", guarded_tuple_new(&state, n, votes, need), width_and_count_refusal(n, worse), &state, &usual,
             sizeof state);
}

static scorve_reserve fresh_reserve(uint32_t n, uint32_t need, uint32_t word)
{
  scorve_reserve state = {.phase = SCORVE_PRIMARY, .n = n, .need = need, .word = word};
  return state;
}

static void make_reserve(uint32_t n, uint32_t need, uint32_t word)
{
  scorve_reserve state, fresh = fresh_reserve(n, need, word), usual = fresh_reserve(n, need, default_word(n));
  make_dirty(&state, sizeof state);
  check_made("reserve", guarded_reserve_from_word(&state, n, need, word), refusal_of(n, need, word), &state, &fresh,
             sizeof state);
  make_dirty(&state, sizeof state);
  check_made("reserve", guarded_reserve_new(&state, n, need), width_and_count_refusal(n, need), &state, &usual,
             sizeof state);
}

/* The counts of the voters, with each combination of the rest. */
static void make_tuples(uint32_t n, uint32_t need, uint32_t word)
{
  size_t i;
  for (i = 0; i < sizeof needs / sizeof *needs; i++)
    make_tuple(n, needs[i], need, word);
}

void more_makes(void)
{
  size_t i, rest = 0;
  for (i = 0; rest == 0; i++) {
    uint32_t n, need, word;
    rest = i;
    n = PICK(rest, widths);
    need = PICK(rest, needs);
    word = PICK(rest, initials);
    checking("constructors", (unsigned long)i);
    make_confirm(n, need, word);
    make_vote(n, need, word);
    make_tuples(n, need, word);
    make_reserve(n, need, word);
  }
}
