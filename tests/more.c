/* What the stored calls cannot hold: damages combined, numbers that fit no line, lengths at their limits, random
 * traces step by step. Prints `N checks, M bad` and ends with 1 if one is bad.
 *   more guarded FUNCTION..   the functions that have to be met, accepted and refused: all that can refuse
 *   more exact FUNCTION..     the places stand without guards in blocks of their size, for valgrind */
#include <stdio.h>
#include <string.h>

#include "more.h"

/* A fixed sequence (xorshift), so that a bad check comes again. */
uint32_t chance(void)
{
  static uint32_t state = 20001031;
  state ^= state << 13;
  state ^= state >> 17;
  state ^= state << 5;
  return state;
}

uint32_t chance_below(uint32_t end)
{
  return chance() % end;
}

/* A word of n signals. */
uint32_t word_by_chance(uint32_t n)
{
  return n == SCORVE_MAX_WIDTH ? chance() : chance() & ((1u << n) - 1);
}

/* A shift by 32 is not defined, and no word is outside then. */
int is_outside(uint32_t word, uint32_t n)
{
  return n < SCORVE_MAX_WIDTH && word >> n != 0;
}

int is_bad_count(uint32_t count)
{
  return count == 0 || count > SCORVE_MAX_COUNT;
}

/* 1 and 2 stand before all other numbers. */
uint32_t width_and_count_refusal(uint32_t n, uint32_t need)
{
  if (is_bad_count(need))
    return SCORVE_BAD_COUNT;
  if (n == 0 || n > SCORVE_MAX_WIDTH)
    return SCORVE_BAD_WIDTH;
  return SCORVE_OK;
}

/* Takes one of the values, as the last digit of *rest says, and the digit away: a loop over a number and a PICK for
 * each list meets every combination; it is over when something is left of the number. */
uint32_t pick(size_t *rest, const uint32_t *values, size_t count)
{
  uint32_t value = values[*rest % count];
  *rest /= count;
  return value;
}

int main(int argc, char **argv)
{
  if (argc > 1 && strcmp(argv[1], "exact") == 0)
    lend_exactly();
  more_makes();
  more_steps();
  more_states();
  more_traces();
  more_recordings();
  more_listings();
  more_numbers();
  checking("version", 0);
  check(scorve_version() == SCORVE_VERSION, "the archive says %lu", (unsigned long)scorve_version());
  checking("functions", 0);
  check_functions_were_met(argv + 2, argc > 2 ? (size_t)argc - 2 : 0);
  printf("%lu checks, %lu bad\n", checks_made(), bad_checks());
  return bad_checks() > 0;
}
