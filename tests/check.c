/* Counts checks, and which functions were called with which success. */
#include <stdarg.h>
#include <stdio.h>
#include <stdlib.h>
#include <string.h>

#include "tests.h"

#define MOST_TOLD 20 /* bad checks that are told one by one; the cause is found by then */
#define MOST_FUNCTIONS 64

typedef struct met {
  const char *function;
  unsigned long accepted, refused;
} met;

static const char *place_now = "start";
static unsigned long number_now, checks, bad;
static met functions_met[MOST_FUNCTIONS];
static size_t functions_known;

/* Names the place that the next checks belong to, as "line 12". */
void checking(const char *place, unsigned long number)
{
  place_now = place;
  number_now = number;
}

void check(int good, const char *what, ...)
{
  va_list values;
  checks++;
  if (good)
    return;
  bad++;
  if (bad > MOST_TOLD)
    return;
  fprintf(stderr, "%s %lu: ", place_now, number_now);
  va_start(values, what);
  vfprintf(stderr, what, values);
  va_end(values);
  fputc('\n', stderr);
}

unsigned long checks_made(void)
{
  return checks;
}

unsigned long bad_checks(void)
{
  return bad;
}

static met *find_met(const char *function)
{
  size_t i = 0;
  while (i < functions_known && strcmp(functions_met[i].function, function) != 0)
    i++;
  if (i == MOST_FUNCTIONS) {
    fprintf(stderr, "more functions are called than check.c has room for\n");
    exit(2);
  }
  if (i == functions_known)
    functions_met[functions_known++].function = function;
  return &functions_met[i];
}

void note_call(const char *function, uint32_t refusal)
{
  met *known = find_met(function);
  if (refusal == SCORVE_OK)
    known->accepted++;
  else
    known->refused++;
}

/* These functions were called and no others, each at least once accepted and once refused. */
void check_functions_were_met(char *const names[], size_t count)
{
  size_t i;
  for (i = 0; i < count; i++) {
    const met *known = find_met(names[i]);
    check(known->accepted > 0 && known->refused > 0, "%s: accepted %lu times, refused %lu times", names[i],
          known->accepted, known->refused);
  }
  check(functions_known == count, "%lu functions were called, %lu named", (unsigned long)functions_known,
        (unsigned long)count);
}
