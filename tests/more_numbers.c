/* Sizing and the threshold vote, against the papers' formulas, with every combination of some values. */
#include <float.h>
#include <math.h>
#include <string.h>

#include "more.h"

/* floor(D / Tm) + 1, and ceil(D / Tm) + 1, which is one more where something is left. */
static uint32_t count_of(uint32_t least_gap, uint32_t delay)
{
  return delay / least_gap + 1;
}

static uint32_t votes_of(uint32_t least_gap, uint32_t delay)
{
  return count_of(least_gap, delay) + (delay % least_gap != 0);
}

static uint32_t sizing_refusal(uint32_t n, uint32_t least_gap, uint32_t greatest_gap, uint32_t delay)
{
  if (n == 0 || n > SCORVE_MAX_WIDTH)
    return SCORVE_BAD_WIDTH;
  if (least_gap == 0 || least_gap > greatest_gap || greatest_gap > 1000000 || delay > 10000000)
    return SCORVE_BAD_TIMES;
  if (count_of(least_gap, delay) > SCORVE_MAX_COUNT || votes_of(least_gap, delay) > SCORVE_MAX_COUNT)
    return SCORVE_COUNT_TOO_BIG;
  return SCORVE_OK;
}

static void check_sizing(uint32_t n, uint32_t least_gap, uint32_t greatest_gap, uint32_t delay)
{
  uint32_t refusal, expected = sizing_refusal(n, least_gap, greatest_gap, delay);
  uint64_t waiting;
  scorve_sizing sized;
  make_dirty(&sized, sizeof sized);
  refusal = guarded_sizing_of(n, least_gap, greatest_gap, delay, &sized);
  check(refusal == expected, "sizing: refused with %lu, not %lu", (unsigned long)refusal, (unsigned long)expected);
  if (refusal != SCORVE_OK || expected != SCORVE_OK)
    return;
  waiting = (uint64_t)n * count_of(least_gap, delay);
  check(sized.count == count_of(least_gap, delay) && sized.votes == votes_of(least_gap, delay) &&
        sized.age == waiting * greatest_gap + delay && sized.quiet == (waiting + 1) * greatest_gap + delay,
        "sizing: other numbers");
}

static void sizings(void)
{
  static const uint32_t widths[] = {0, 1, 3, 32, 33, UINT32_MAX};
  static const uint32_t gaps[] = {0, 1, 2, 10, 12, 10001, 999999, 1000000, 1000001, UINT32_MAX};
  static const uint32_t delays[] = {0, 9, 10, 25, 999, 1000, 1998, 1999, 9999, 10000, 9999999, 10000000, 10000001,
                                    UINT32_MAX};
  size_t i, rest = 0;
  for (i = 0; rest == 0; i++) {
    uint32_t n, least_gap, greatest_gap;
    rest = i;
    n = PICK(rest, widths);
    least_gap = PICK(rest, gaps);
    greatest_gap = PICK(rest, gaps);
    checking("sizing", (unsigned long)i);
    check_sizing(n, least_gap, greatest_gap, PICK(rest, delays));
  }
}

static double smaller(double a, double b)
{
  return a <= b ? a : b;
}

static double larger(double a, double b)
{
  return a >= b ? a : b;
}

static double median(const scorve_readings *r)
{
  return larger(larger(smaller(r->x1, r->x2), smaller(r->x2, r->x3)), smaller(r->x3, r->x1));
}

static int agree(const scorve_readings *r)
{
  return fabs(r->x2 - r->x1) <= r->tolerance || fabs(r->x3 - r->x2) <= r->tolerance ||
         fabs(r->x1 - r->x3) <= r->tolerance;
}

static int is_refused(const scorve_readings *r)
{
  return !(isfinite(r->x1) && isfinite(r->x2) && isfinite(r->x3) && isfinite(r->tolerance)) || r->tolerance < 0;
}

/* Bits and all: an agreed 0 and an agreed -0 differ. */
static void check_threshold(const scorve_readings *r)
{
  double agreed, expected = median(r);
  uint32_t mark, refusal;
  make_dirty(&agreed, sizeof agreed);
  make_dirty(&mark, sizeof mark);
  refusal = guarded_threshold_vote(r, &agreed, &mark);
  check(refusal == (is_refused(r) ? SCORVE_BAD_READING : SCORVE_OK), "threshold: refused with %lu",
        (unsigned long)refusal);
  if (refusal != SCORVE_OK)
    return;
  check(mark == (agree(r) ? SCORVE_AGREED : SCORVE_ALARM), "threshold: mark %lu", (unsigned long)mark);
  if (agree(r))
    check(memcmp(&agreed, &expected, sizeof agreed) == 0, "threshold: agreed on %g, not %g", agreed, expected);
  else
    check(is_dirty(&agreed, sizeof agreed), "threshold: agreed was written with an alarm");
}

static void thresholds(void)
{
  static const double values[] = {0.0, -0.0, 0.5, 1.0, 1.0 + DBL_EPSILON, -DBL_MAX, DBL_MAX, DBL_MIN / 4,
                                  INFINITY, -INFINITY, NAN};
  static const double tolerances[] = {0.0, -0.0, DBL_EPSILON, 0.5, DBL_MAX, -DBL_MIN / 4, -1.0, INFINITY, NAN};
  const size_t v = sizeof values / sizeof *values, t = sizeof tolerances / sizeof *tolerances;
  size_t i;
  for (i = 0; i < v * v * v * t; i++) {
    scorve_readings readings = {values[i % v], values[i / v % v], values[i / v / v % v], tolerances[i / v / v / v]};
    checking("threshold", (unsigned long)i);
    check_threshold(&readings);
  }
}

/* The logic has one NaN, so the contract does not tell the bits of a lent one: they stay, with an alarm and with a
 * refusal. */
static void lent_nan(void)
{
  static const scorve_readings unagreed[] = {{1.0, 2.0, 3.0, 0.5}, {NAN, 2.0, 3.0, 0.5}};
  static const uint64_t bits[] = {UINT64_C(0x7ff0000000000001), UINT64_C(0xfff8dead00000005)};
  size_t i;
  for (i = 0; i < 4; i++) {
    double agreed;
    uint32_t mark = 0;
    checking("lent NaN", (unsigned long)i);
    memcpy(&agreed, &bits[i / 2], sizeof agreed);
    guarded_threshold_vote(&unagreed[i % 2], &agreed, &mark);
    check(memcmp(&agreed, &bits[i / 2], sizeof agreed) == 0, "threshold: the bits of a lent NaN changed");
  }
}

void more_numbers(void)
{
  sizings();
  thresholds();
  lent_nan();
}
