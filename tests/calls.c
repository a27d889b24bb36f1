/* Reads call lines on standard input, makes each call through the boundary and prints its answer line. Ends with 1 if
 * a call broke a guard or changed a place that had to stay. With the argument "exact" the places stand without guards
 * in blocks of their size, for valgrind. */
#include <stdio.h>
#include <string.h>

#include "lines.h"

#define LONGEST_LINE (1 << 20)

typedef struct call {
  const char *name;
  void (*make)(line *in);
} call;

static const call calls[] = {
  {"confirm.new", confirm_new}, {"confirm.from_word", confirm_from_word},
  {"confirm.step", confirm_step}, {"confirm.run", confirm_run},
  {"vote.new", vote_new}, {"vote.from_word", vote_from_word},
  {"vote.step", vote_step}, {"vote.run", vote_run},
  {"tuple.new", tuple_new}, {"tuple.from_word", tuple_from_word},
  {"tuple.step", tuple_step}, {"tuple.run", tuple_run},
  {"reserve.new", reserve_new}, {"reserve.from_word", reserve_from_word},
  {"reserve.step", reserve_step}, {"reserve.run", reserve_run},
  {"sizing", sizing}, {"threshold", threshold},
  {"recording.read", recording_read}, {"listing", listing},
};

static const call *find_call(const char *name, size_t length)
{
  size_t i;
  for (i = 0; i < sizeof calls / sizeof *calls; i++)
    if (strlen(calls[i].name) == length && strncmp(calls[i].name, name, length) == 0)
      return &calls[i];
  return NULL;
}

static void answer(line *in)
{
  size_t length = strcspn(in->rest, " ");
  const call *found = find_call(in->rest, length);
  if (found == NULL)
    not_a_call(in, "no such name");
  in->rest += length;
  found->make(in);
  end_answer();
  forget_slices();
}

int main(int argc, char **argv)
{
  static char text[LONGEST_LINE];
  line in = {text, 0};
  if (argc > 1 && strcmp(argv[1], "exact") == 0)
    lend_exactly();
  while (fgets(text, sizeof text, stdin) != NULL) {
    char *end = strchr(text, '\n');
    in.rest = text;
    in.number++;
    if (end == NULL)
      not_a_call(&in, "no end of line");
    *end = '\0';
    checking("line", in.number);
    answer(&in);
  }
  return bad_checks() > 0;
}
