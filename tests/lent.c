/* Lent places: a call sees copies, each in a block of its own between guard bytes. After the call the guards are
 * compared, and what had to stay is compared with its owner's memory; what may be written goes back to its owner. */
#include <stdio.h>
#include <stdlib.h>
#include <string.h>

#include "tests.h"

#define MOST_PLACES 16
#define GUARD_BYTES 64
#define GUARD_BYTE 0xA7
#define DIRTY_BYTE 0xC5

typedef struct lent_place {
  const char *name;
  const void *before;   /* the owner's memory, which no call sees */
  void *owner;          /* the same, or null if the place is only read */
  size_t size;
  int stays_if_refused;
  unsigned char *block; /* guard, place, guard */
} lent_place;

static size_t guard = GUARD_BYTES;
static lent_place places[MOST_PLACES];
static size_t places_lent;

/* No guards from now on: a block is exactly the place, so that valgrind sees a read or write beyond it. */
void lend_exactly(void)
{
  guard = 0;
}

/* A place of no bytes has an address too: a lent pointer is never null. */
void *allocate(size_t size)
{
  void *block = malloc(size);
  if (block == NULL && size == 0)
    block = malloc(1);
  if (block == NULL) {
    fprintf(stderr, "no memory for %lu bytes\n", (unsigned long)size);
    exit(2);
  }
  return block;
}

/* Fills a place that a call should write, so that one it left is seen. */
void make_dirty(void *place, size_t size)
{
  memset(place, DIRTY_BYTE, size);
}

int is_dirty(const void *place, size_t size)
{
  const unsigned char *byte = place;
  size_t i = 0;
  while (i < size && byte[i] == DIRTY_BYTE)
    i++;
  return i == size;
}

static void *lend_place(const char *name, const void *before, void *owner, size_t size, int stays_if_refused)
{
  lent_place *p = &places[places_lent++];
  if (places_lent > MOST_PLACES) {
    fprintf(stderr, "more places are lent than lent.c has room for\n");
    exit(2);
  }
  p->name = name;
  p->before = before;
  p->owner = owner;
  p->size = size;
  p->stays_if_refused = stays_if_refused;
  p->block = allocate(size + 2 * guard);
  memset(p->block, GUARD_BYTE, guard);
  memset(p->block + guard + size, GUARD_BYTE, guard);
  memcpy(p->block + guard, before, size);
  return p->block + guard;
}

/* A place that the call only reads. */
const void *lend_to_read(const char *name, const void *owner, size_t size)
{
  return lend_place(name, owner, NULL, size, 1);
}

/* A place that the call may write, if it is accepted. */
void *lend(const char *name, void *owner, size_t size)
{
  return lend_place(name, owner, owner, size, 1);
}

const uint32_t *lend_words(const char *name, words list)
{
  return lend_to_read(name, list.at, list.length * sizeof *list.at);
}

void *lend_slice(const char *name, slice owner)
{
  return lend(name, owner.at, owner.length * owner.size);
}

uint32_t element(slice s, size_t i)
{
  return s.size == sizeof(uint8_t) ? ((const uint8_t *)s.at)[i] : ((const uint32_t *)s.at)[i];
}

/* The one place that a refused call writes too. */
uint32_t *lend_sample(uint32_t *owner)
{
  return lend_place("sample", owner, owner, sizeof *owner, 0);
}

static int is_guard(const unsigned char *byte)
{
  size_t i = 0;
  while (i < guard && byte[i] == GUARD_BYTE)
    i++;
  return i == guard;
}

static void settle_place(const char *function, const lent_place *p, uint32_t refusal)
{
  const unsigned char *after = p->block + guard;
  check(is_guard(p->block), "%s: the guard before %s is broken", function, p->name);
  check(is_guard(after + p->size), "%s: the guard behind %s is broken", function, p->name);
  if (p->owner == NULL)
    check(memcmp(after, p->before, p->size) == 0, "%s: %s, only lent to be read, was changed", function, p->name);
  else if (refusal != SCORVE_OK && p->stays_if_refused)
    check(memcmp(after, p->before, p->size) == 0, "%s: refused with %lu, but %s was changed", function,
          (unsigned long)refusal, p->name);
  if (p->owner != NULL)
    memcpy(p->owner, after, p->size);
  free(p->block);
}

/* Ends a call: checks all its places and gives them back; returns the refusal. */
uint32_t settle(const char *function, uint32_t refusal)
{
  size_t i;
  note_call(function, refusal);
  for (i = 0; i < places_lent; i++)
    settle_place(function, &places[i], refusal);
  places_lent = 0;
  return refusal;
}
