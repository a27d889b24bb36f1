#include "inputs.h"

#include <string.h>

static uint32_t random_state;

void seed_inputs(uint32_t seed)
{
  random_state = 2463534242u ^ seed * 2654435769u;
}

static uint32_t random_word(void)
{
  random_state ^= random_state << 13;
  random_state ^= random_state >> 17;
  random_state ^= random_state << 5;
  return random_state;
}

static int one_in(uint32_t chances)
{
  return (random_word() >> 8) % chances == 0;
}

static double random_between(double low, double high)
{
  return low + (high - low) * (random_word() / 4294967296.0);
}

static uint32_t width(const struct inputs *in)
{
  return UINT32_MAX >> (32 - in->n);
}

void make_quiet(struct inputs *in)
{
  uint32_t word = in->word;
  for (size_t i = 0; i < SAMPLES; i++) {
    const uint32_t previous = word;
    if (one_in(128)) word ^= UINT32_C(1) << random_word() % in->n;
    in->unit[0][i] = in->unit[2][i] = word;
    in->unit[1][i] = in->unit[3][i] = previous; /* the second unit of a pair is a sample late */
  }
}

void make_busy(struct inputs *in)
{
  uint32_t word = in->word, noise[2] = {0, 0};
  for (size_t i = 0; i < SAMPLES; i++) {
    if (one_in(4)) word = random_word() & width(in);
    for (size_t pair = 0; pair < 2; pair++) {
      /* a disagreement stands for some samples, so that small counts alarm */
      if (one_in(4)) noise[pair] = one_in(2) ? random_word() & width(in) : 0;
      in->unit[2 * pair][i] = word;
      in->unit[2 * pair + 1][i] = word ^ noise[pair];
    }
  }
}

void make_hand_over(struct inputs *in)
{
  make_busy(in);
  for (size_t i = 0; i < SAMPLES / 2; i += in->need) in->unit[1][i] = in->unit[0][i];
  for (size_t i = SAMPLES / 2; i < SAMPLES / 2 + in->need; i++) in->unit[1][i] = in->unit[0][i] ^ 1;
}

void make_agreeing(struct inputs *in)
{
  for (size_t i = 0; i < SAMPLES; i++) {
    const double value = random_between(-100, 100);
    /* the first two agree most often, but not always */
    in->readings[i] = (scorve_readings){value + random_between(0, 0.6), value + random_between(0, 0.6),
                                        value + random_between(0, 0.6), 0.5};
  }
}

void make_alarming(struct inputs *in)
{
  for (size_t i = 0; i < SAMPLES; i++) {
    const double value = random_between(-100, 100), gap = one_in(2) ? 1 : -1;
    in->readings[i] = (scorve_readings){value, value + gap * random_between(1, 9),
                                        value - gap * random_between(1, 9), 0.5};
  }
}

static void put_number(uint8_t *bytes, uint32_t number)
{
  for (int i = 0; i < 4; i++) bytes[i] = (uint8_t)(number >> 8 * i);
}

static void put_column(uint8_t *bytes, const uint32_t *numbers)
{
  for (size_t i = 0; i < SAMPLES; i++) put_number(bytes + 4 * i, numbers[i]);
}

void make_recording(struct inputs *in, uint32_t units)
{
  const uint32_t fields[5] = {units, SAMPLES, in->n, in->need, in->word};
  uint32_t times[SAMPLES], end = 44;
  for (uint32_t i = 0; i < SAMPLES; i++) times[i] = 1000 * i;
  memcpy(in->recording, "QSR1", 4);
  for (uint32_t i = 0; i < 5; i++) put_number(in->recording + 4 + 4 * i, fields[i]);
  for (uint32_t which = 0; which <= 4; which++) {
    put_number(in->recording + 24 + 4 * which, which <= units ? end : 0);
    if (which > units) continue;
    put_column(in->recording + end, which == 0 ? times : in->unit[which - 1]);
    end += 4 * SAMPLES;
  }
  in->recording_len = end;
}
