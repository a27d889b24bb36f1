/* Prints the parts of an answer line. */
#include <inttypes.h>
#include <stdio.h>

#include "lines.h"

void begin_answer(uint32_t refusal)
{
  printf("%" PRIu32, refusal);
}

void put(uint64_t value)
{
  printf(" %" PRIu64, value);
}

void end_answer(void)
{
  putchar('\n');
}

static void put_run(uint32_t value, size_t times)
{
  put(value);
  if (times > 1)
    printf("*%zu", times);
}

/* The number of places, then the elements in the longest runs of equal ones. */
void put_slice(slice s)
{
  size_t i, start = 0;
  put(s.length);
  for (i = 1; i <= s.length; i++) {
    if (i == s.length || element(s, i) != element(s, start)) {
      put_run(element(s, start), i - start);
      start = i;
    }
  }
}

/* A state or a header: its numbers, in the order of its fields. */
void put_numbers(const void *state, size_t size)
{
  const uint32_t *place = state;
  size_t i;
  for (i = 0; i < size / sizeof *place; i++)
    put(place[i]);
}

/* The number of bytes, then the text with a bar for each newline. */
void put_text(bytes text)
{
  size_t i;
  printf("%zu ", text.length);
  for (i = 0; i < text.length; i++)
    putchar(text.at[i] == '\n' ? '|' : text.at[i]);
}
