/* Reads the parts of a call line. */
#include <ctype.h>
#include <errno.h>
#include <stdio.h>
#include <stdlib.h>
#include <string.h>

#include "lines.h"

#define MOST_SLICES 16

static void *kept[MOST_SLICES];
static size_t slices_kept;

void not_a_call(const line *in, const char *why)
{
  fprintf(stderr, "line %lu is not a call: %s before \"%.40s\"\n", in->number, why, in->rest);
  exit(2);
}

/* Only digits: strtoull alone would take a sign or spaces too. */
static uint64_t digits(line *in, uint64_t greatest)
{
  char *end;
  unsigned long long value;
  if (!isdigit((unsigned char)*in->rest))
    not_a_call(in, "no number");
  errno = 0;
  value = strtoull(in->rest, &end, 10);
  if (errno != 0 || value > greatest)
    not_a_call(in, "too great a number");
  in->rest = end;
  return value;
}

uint64_t number_up_to(line *in, uint64_t greatest)
{
  if (*in->rest != ' ')
    not_a_call(in, "no space");
  in->rest++;
  return digits(in, greatest);
}

uint32_t number(line *in)
{
  return (uint32_t)number_up_to(in, UINT32_MAX);
}

/* Memory for a slice until the call is over. */
static void *keep(size_t size)
{
  if (slices_kept == MOST_SLICES)
    exit(2);
  kept[slices_kept] = allocate(size);
  return kept[slices_kept++];
}

void forget_slices(void)
{
  while (slices_kept > 0)
    free(kept[--slices_kept]);
}

/* An element is written v, or v*t for t equal ones; t is at most what the list still lacks. */
static size_t times(line *in, size_t lacking)
{
  if (*in->rest != '*')
    return 1;
  in->rest++;
  return (size_t)digits(in, lacking);
}

static void fill(uint32_t *places, size_t count, uint32_t value)
{
  size_t i;
  for (i = 0; i < count; i++)
    places[i] = value;
}

static words elements(line *in, uint32_t greatest)
{
  words list;
  size_t filled = 0;
  list.length = number(in);
  list.at = keep(list.length * sizeof *list.at);
  while (filled < list.length) {
    uint32_t value = (uint32_t)number_up_to(in, greatest);
    size_t count = times(in, list.length - filled);
    fill(list.at + filled, count, value);
    filled += count;
  }
  return list;
}

static bytes narrow(words wide)
{
  bytes list;
  size_t i;
  list.length = wide.length;
  list.at = keep(list.length);
  for (i = 0; i < list.length; i++)
    list.at[i] = (uint8_t)wide.at[i];
  return list;
}

words word_list(line *in)
{
  return elements(in, UINT32_MAX);
}

bytes byte_list(line *in)
{
  return narrow(elements(in, UINT8_MAX));
}

/* All elements, bytes or words, have one value. */
slice lent_slice(line *in, size_t size)
{
  slice lent;
  lent.size = size;
  lent.length = number(in);
  lent.at = keep(lent.length * size);
  if (size == sizeof(uint8_t))
    memset(lent.at, (int)number_up_to(in, UINT8_MAX), lent.length);
  else
    fill(lent.at, lent.length, number(in));
  return lent;
}

/* A state is numbers, in the order of the header's fields. */
void take_numbers(line *in, void *state, size_t size)
{
  uint32_t *place = state;
  size_t i;
  for (i = 0; i < size / sizeof *place; i++)
    place[i] = number(in);
}

void end_of_line(const line *in)
{
  if (*in->rest != '\0')
    not_a_call(in, "something after the last argument,");
}
