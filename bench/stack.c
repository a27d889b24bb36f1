#define _XOPEN_SOURCE 700
#include "stack.h"

#include <string.h>
#include <ucontext.h>

enum { PATTERN = 0xA5 };

static unsigned char lent[1 << 20];
static ucontext_t caller;

/* makecontext passes only ints, so the call stands here. */
static struct {
  call_function *call;
  const struct side *side;
  const struct inputs *in;
  struct outputs *out;
} job;

static void enter(void)
{
  job.call(job.side, job.in, job.out);
}

/* The stack grows down, so the lowest place that has changed tells the depth. */
static size_t touched(void)
{
  ucontext_t callee;
  size_t lowest = 0;
  memset(lent, PATTERN, sizeof lent);
  if (getcontext(&callee) != 0) return 0;
  callee.uc_stack.ss_sp = lent;
  callee.uc_stack.ss_size = sizeof lent;
  callee.uc_link = &caller;
  makecontext(&callee, enter, 0);
  if (swapcontext(&caller, &callee) != 0) return 0;
  while (lowest < sizeof lent && lent[lowest] == PATTERN) lowest++;
  return sizeof lent - lowest;
}

size_t stack_of(call_function *call, const struct side *side, const struct inputs *in, struct outputs *out)
{
  job.side = side;
  job.in = in;
  job.out = out;
  job.call = call_nothing;
  const size_t empty = touched();
  job.call = call;
  const size_t full = touched();
  return full > empty ? full - empty : 0;
}
