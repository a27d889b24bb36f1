/*
 * Compares the library with plain C: first every place that a call writes and
 * every value it returns, then the time, the state's size and the stack.
 * Status 1 if an answer differs. With --quick the batches are short and few.
 * For bench/run --instructions: --rows prints the rows' names, and
 * --call ROW SIDE CALLS only calls, for who counts from outside.
 */
#define _POSIX_C_SOURCE 200809L
#include <stdio.h>
#include <stdlib.h>
#include <string.h>
#include <time.h>

#include "calls.h"
#include "inputs.h"
#include "stack.h"

/* Several traces for each row, lest the branch predictor learns the one by heart. */
enum { TRACES = 16, MAX_BATCHES = 75 };

struct row {
  const char *name;
  call_function *call;
  make_function *make;
  uint32_t n, need;
  uint32_t units; /* of the recording, 0 if none is needed */
};

static const struct row rows[] = {
  {"confirm run, quiet", call_confirm_run, make_quiet, 16, 3, 0},
  {"confirm run, busy", call_confirm_run, make_busy, 16, 2, 0},
  {"vote run, quiet", call_vote_run, make_quiet, 16, 3, 0},
  {"vote run, busy", call_vote_run, make_busy, 16, 2, 0},
  {"tuple run, n 1, quiet", call_tuple_run, make_quiet, 1, 3, 0},
  {"tuple run, n 1, busy", call_tuple_run, make_busy, 1, 2, 0},
  {"tuple run, n 8, quiet", call_tuple_run, make_quiet, 8, 3, 0},
  {"tuple run, n 8, busy", call_tuple_run, make_busy, 8, 2, 0},
  {"tuple run, n 32, quiet", call_tuple_run, make_quiet, 32, 3, 0},
  {"tuple run, n 32, busy", call_tuple_run, make_busy, 32, 2, 0},
  {"tuple run, n 32, busy, two counts", call_tuple_run_apart, make_busy, 32, 2, 0},
  {"reserve run, quiet", call_reserve_run, make_quiet, 16, 3, 0},
  {"reserve run, busy", call_reserve_run, make_busy, 16, 2, 0},
  {"reserve run, busy, hand-over in the middle", call_reserve_run, make_hand_over, 16, 3, 0},
  {"confirm step", call_confirm_steps, make_busy, 16, 2, 0},
  {"vote step", call_vote_steps, make_busy, 16, 2, 0},
  {"tuple step, n 8", call_tuple_steps, make_busy, 8, 2, 0},
  {"tuple step, n 32", call_tuple_steps, make_busy, 32, 2, 0},
  {"tuple step, n 32, two counts", call_tuple_steps_apart, make_busy, 32, 2, 0},
  {"reserve step", call_reserve_steps, make_hand_over, 16, 3, 0},
  {"threshold vote, agreeing", call_threshold_votes, make_agreeing, 1, 1, 0},
  {"threshold vote, alarming", call_threshold_votes, make_alarming, 1, 1, 0},
  {"reader, one unit", call_reader, make_busy, 16, 2, 1},
  {"reader, two units", call_reader, make_busy, 16, 2, 2},
  {"reader, four units", call_reader, make_busy, 16, 2, 4},
  {"listing, one unit", call_listing, make_busy, 16, 2, 1},
  {"listing, two units", call_listing, make_busy, 16, 2, 2},
  {"listing, four units", call_listing, make_hand_over, 16, 3, 4},
};

static const struct row stack_rows[] = {
  {"confirm run", call_confirm_run, make_busy, 32, 2, 0},
  {"vote run", call_vote_run, make_busy, 32, 2, 0},
  {"tuple run", call_tuple_run, make_busy, 32, 2, 0},
  {"reserve run", call_reserve_run, make_hand_over, 32, 3, 0},
  {"confirm step", call_confirm_steps, make_busy, 32, 2, 0},
  {"vote step", call_vote_steps, make_busy, 32, 2, 0},
  {"tuple step", call_tuple_steps, make_busy, 32, 2, 0},
  {"reserve step", call_reserve_steps, make_hand_over, 32, 3, 0},
  {"threshold vote", call_threshold_votes, make_agreeing, 1, 1, 0},
  {"reader, four units", call_reader, make_busy, 32, 2, 4},
  {"listing, one unit", call_listing, make_busy, 32, 2, 1},
  {"listing, two units", call_listing, make_busy, 32, 2, 2},
  {"listing, four units", call_listing, make_hand_over, 32, 3, 4},
};

static struct inputs inputs[TRACES];
static struct outputs plain_out, library_out;
static volatile uint32_t sink;

static void make_inputs(const struct row *row)
{
  for (uint32_t trace = 0; trace < TRACES; trace++) {
    seed_inputs(trace);
    inputs[trace].n = row->n;
    inputs[trace].need = row->need;
    inputs[trace].word = 0;
    row->make(&inputs[trace]);
    if (row->units) make_recording(&inputs[trace], row->units);
  }
}

static void fail(const struct row *row, const char *what)
{
  fprintf(stderr, "bench: %s: %s\n", row->name, what);
  exit(1);
}

static void compare(const struct row *row)
{
  for (size_t trace = 0; trace < TRACES; trace++) {
    memset(&plain_out, 0xA5, sizeof plain_out);
    memset(&library_out, 0xA5, sizeof library_out);
    row->call(&plain_side, &inputs[trace], &plain_out);
    row->call(&library_side, &inputs[trace], &library_out);
    if (plain_out.returned[0] != SCORVE_OK) fail(row, "the inputs are refused");
    if (memcmp(&plain_out, &library_out, sizeof plain_out)) fail(row, "plain C and the library answer differently");
  }
}

static double nanoseconds(void)
{
  struct timespec now;
  clock_gettime(CLOCK_MONOTONIC, &now);
  return 1e9 * (double)now.tv_sec + (double)now.tv_nsec;
}

/* Nanoseconds a call; both sides write the same places, so that neither has the better ones. */
static double time_batch(const struct row *row, const struct side *side, size_t calls)
{
  const double start = nanoseconds();
  for (size_t i = 0; i < calls; i++) row->call(side, &inputs[i % TRACES], &plain_out);
  const double end = nanoseconds();
  sink = plain_out.returned[0] + plain_out.run[0].words[SAMPLES - 1] + plain_out.text[0];
  return (end - start) / (double)calls;
}

static int ascending(const void *a, const void *b)
{
  const double x = *(const double *)a, y = *(const double *)b;
  return (x > y) - (x < y);
}

static double median(double *times, size_t len)
{
  qsort(times, len, sizeof *times, ascending);
  return times[len / 2];
}

static void time_row(const struct row *row, size_t batches, double batch_ns)
{
  double plain[MAX_BATCHES], library[MAX_BATCHES];
  const size_t calls = 1 + (size_t)(batch_ns / time_batch(row, &plain_side, TRACES));
  for (size_t i = 0; i < batches; i++) {
    plain[i] = time_batch(row, &plain_side, calls);
    library[i] = time_batch(row, &library_side, calls);
  }
  const double plain_ns = median(plain, batches) / SAMPLES, library_ns = median(library, batches) / SAMPLES;
  printf("| %s | %.2f | %.2f | %.2f |\n", row->name, plain_ns, library_ns, library_ns / plain_ns);
  fflush(stdout);
}

static void print_times(int quick)
{
  printf("| row | plain C ns | library ns | ratio |\n|---|---:|---:|---:|\n");
  for (size_t i = 0; i < sizeof rows / sizeof *rows; i++) {
    make_inputs(&rows[i]);
    compare(&rows[i]);
    if (quick) time_row(&rows[i], 9, 0.2e6);
    else time_row(&rows[i], MAX_BATCHES, 2e6);
  }
}

static void print_states(void)
{
  printf("\n| state | bytes |\n|---|---:|\n");
  printf("| confirm | %zu |\n", sizeof(scorve_confirm));
  printf("| vote | %zu |\n", sizeof(scorve_vote));
  printf("| tuple | %zu |\n", sizeof(scorve_tuple));
  printf("| reserve | %zu |\n", sizeof(scorve_reserve));
}

static void print_stacks(void)
{
  printf("\n| stack of one call | plain C bytes | library bytes |\n|---|---:|---:|\n");
  for (size_t i = 0; i < sizeof stack_rows / sizeof *stack_rows; i++) {
    const struct row *row = &stack_rows[i];
    make_inputs(row);
    compare(row); /* and the first calls of other libraries' functions are behind us */
    const size_t plain = stack_of(row->call, &plain_side, inputs, &plain_out);
    const size_t library = stack_of(row->call, &library_side, inputs, &library_out);
    printf("| %s | %zu | %zu |\n", row->name, plain, library);
  }
}

static void print_names(void)
{
  for (size_t i = 0; i < sizeof rows / sizeof *rows; i++) printf("%s\n", rows[i].name);
}

static void only_call(const struct row *row, const struct side *side, size_t calls)
{
  make_inputs(row);
  for (size_t i = 0; i < calls; i++) row->call(side, &inputs[i % TRACES], &plain_out);
}

int main(int argc, char **argv)
{
  if (argc == 2 && strcmp(argv[1], "--rows") == 0) {
    print_names();
    return 0;
  }
  if (argc == 5 && strcmp(argv[1], "--call") == 0 && strtoul(argv[2], NULL, 10) < sizeof rows / sizeof *rows) {
    const struct side *side = strcmp(argv[3], "library") == 0 ? &library_side : &plain_side;
    only_call(&rows[strtoul(argv[2], NULL, 10)], side, strtoul(argv[4], NULL, 10));
    return 0;
  }
  const int quick = argc == 2 && strcmp(argv[1], "--quick") == 0;
  if (argc > 2 || (argc == 2 && !quick)) {
    fprintf(stderr, "usage: %s [--quick]\n", argv[0]);
    return 2;
  }
  print_times(quick);
  print_states();
  print_stacks();
  return 0;
}
