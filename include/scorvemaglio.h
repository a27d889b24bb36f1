/*
 * Scorvemaglio: a voting library for two units, or two pairs of units, that
 * read the same signals, each on its own clock.
 *
 * Link with libscorvemaglio.a. Every function behind this header is proved to
 * meet its contract; docs/BOUNDARY.md says what is promised.
 *
 * What a call does
 *
 *   - It returns 0, or the number of the refusal (enum scorve_refusal); only
 *     scorve_version tells something else. A refused call writes nothing, so a
 *     refused step leaves *answer as it was: uninitialised, if it was. Only a run
 *     and the reader tell the number of the sample, in *sample, with every call:
 *     0 except with SCORVE_BAD_SAMPLE.
 *   - An alarm is an answer and no error: the call returns 0, and the mark is 2,
 *     SCORVE_ALARM.
 *   - It checks every value: numbers, words, states. A state may come from
 *     anywhere; a step refuses one whose numbers are outside their limits.
 *   - It neither allocates, blocks nor prints, and keeps nothing between calls,
 *     so calls on different states may run on different threads.
 *   - The text of a listing has no terminating NUL; printf("%.*s", ..) prints it.
 *
 * What is left to the caller, as no call can check it
 *
 *   - The machine is x86-64, with the System V ABI, as Linux has it.
 *   - A pointer is valid for the places it stands for and aligned for their
 *     type, also if their number is 0 (then nothing is read, but it is not a
 *     null pointer), and no two places that are lent to one call overlap if one
 *     of them is written.
 *   - The threshold vote computes with doubles: it needs round to nearest and
 *     subnormals, no flush to zero. A program of gcc or clang starts so, unless
 *     it was linked with -ffast-math.
 *   - The program has a memset, which is all that the archive needs of it.
 *
 * A word is a tuple of n signals, signal i at bit i; n is 1 to 32, and the bits
 * at n and above are zero. need is the count N, 1 to 1,000; a tuple vote has
 * two: votes for its voters and need for its confirmation, in this order. A trace
 * has at most 2,048 samples, and all slices lent to a run have as many places as
 * it has samples.
 *
 * A constructor without a word, scorve_.._new, starts from all ones, a one for each
 * of the n signals: after a power failure each car counts as reserved. The word is
 * shown until the samples lead to another, in the vote of two words and the reserve
 * vote at the first agreement. Where a one is the wrong side of some signal, or the
 * plant is known to show another word, name a word with scorve_.._from_word
 * (docs/COMMISSIONING.md, 8).
 */
#ifndef SCORVEMAGLIO_H
#define SCORVEMAGLIO_H

#include <stddef.h>
#include <stdint.h>

/* Kept by the compiler, and by the linker where the compiler can ask it to. */
#if defined(__has_attribute)
#if __has_attribute(retain)
#define SCORVE_KEPT __attribute__((used, retain))
#endif
#endif
#ifndef SCORVE_KEPT
#define SCORVE_KEPT __attribute__((used))
#endif

#ifdef __cplusplus
extern "C" {
#endif

/* The version of the ABI: one more with each landing after which a program that
 * was right before may have to change; CHANGES.md says how. An object that was
 * compiled with another number than the archive's does not link: the number is
 * part of a name that every object with this header in it refers to, so each
 * needs the archive, also if it calls nothing. */
#define SCORVE_VERSION 5

/* The version of the archive, for those who do not compile this header. */
uint32_t scorve_version(void);

#define SCORVE_JOIN(name, number) name##number
#define SCORVE_NAMED(name, number) SCORVE_JOIN(name, number)
#define SCORVE_ABI SCORVE_NAMED(scorve_abi_, SCORVE_VERSION)

/* Does nothing; the reference to it stays whatever else the linker takes out. */
void SCORVE_ABI(void);
static void (*const scorve_abi)(void) SCORVE_KEPT = SCORVE_ABI;

#undef SCORVE_ABI
#undef SCORVE_NAMED
#undef SCORVE_JOIN
#undef SCORVE_KEPT

#define SCORVE_MAX_WIDTH 32      /* n, the signals of a word */
#define SCORVE_MAX_COUNT 1000    /* need, votes */
#define SCORVE_MAX_SAMPLES 2048  /* of a trace; the places of the reader's slices */
#define SCORVE_LONGEST_RECORDING 41004 /* bytes */
#define SCORVE_LONGEST_LISTING 50111   /* bytes; what a listing's buffer needs */

/* What a call returns. Where several apply, the lowest is given; the reader of
 * recordings has an order of its own. */
enum scorve_refusal {
  SCORVE_OK = 0,
  SCORVE_BAD_COUNT = 1,     /* need, or a tuple vote's votes, is 0 or above 1,000 */
  SCORVE_BAD_WIDTH = 2,     /* n is 0 or above 32 */
  SCORVE_TOO_LONG = 3,      /* a trace has more than 2,048 samples */
  SCORVE_BAD_LENGTH = 4,    /* slices of one run differ in length; a slice of the reader has not 2,048 places */
  SCORVE_BAD_WORD = 5,      /* the initial word has a bit at n or above */
  SCORVE_BAD_SAMPLE = 6,    /* a sample has such a bit; *sample is the smallest number of one */
  SCORVE_BAD_STATE = 7,     /* a count above need - 1, that of a tuple's voter above votes - 1, or above 0 at n and
                               above; a stored word outside the width; a phase above 2 */
  SCORVE_BAD_TIMES = 9,     /* sizing: a gap or the delay is outside its limits */
  SCORVE_COUNT_TOO_BIG = 10, /* sizing: either count would exceed 1,000 */
  SCORVE_BAD_READING = 11,  /* a reading or the tolerance is not finite, or the tolerance is below zero */
  SCORVE_NO_RECORDING = 12, /* the bytes are not a recording */
  SCORVE_BUFFER_TOO_SHORT = 100 /* the listing's buffer has fewer than SCORVE_LONGEST_LISTING bytes */
};

/* The mark of an answer. */
enum scorve_mark {
  SCORVE_CONFIRMED = 0, /* the word was confirmed by this sample */
  SCORVE_AGREED = 0,    /* the units agree on the word */
  SCORVE_HELD = 1,      /* the word is the previous one */
  SCORVE_ALARM = 2      /* the units disagree for too long; the word is the previous one */
};

/* Which unit still shows the last agreed word, on hold and alarm: a place in the pair
 * that was voted on. Before any agreement that word is the initial one. It does not say
 * which unit is wrong (docs/COMMISSIONING.md, 9). A run writes it for each sample. */
enum scorve_which {
  SCORVE_UNITS_AGREE = 0, /* nothing is asked: the units agree, on that word or on another */
  SCORVE_FIRST = 1,       /* the first does: unit 1, in the second pair unit 3 */
  SCORVE_SECOND = 2,      /* the second does: unit 2, in the second pair unit 4 */
  SCORVE_NEITHER = 3      /* none does; never with n 1 */
};

/* Which pair is in force in a reserve vote. */
enum scorve_phase {
  SCORVE_PRIMARY = 0,     /* units 1 and 2 */
  SCORVE_TAKING_OVER = 1, /* units 3 and 4 with a reset, for one step */
  SCORVE_RESERVE = 2      /* units 3 and 4, for ever */
};

/* Confirmation: a new word is shown at the sample after which it has stood for
 * need + 1 samples; a fresh state counts its initial word as one sample. */
typedef struct scorve_confirm {
  uint32_t n, need, input, output, count;
} scorve_confirm;

typedef struct scorve_confirm_answer {
  uint32_t word, mark; /* SCORVE_CONFIRMED or SCORVE_HELD */
} scorve_confirm_answer;

/* A fresh state from an initial word: 1, 2, 5. */
uint32_t scorve_confirm_from_word(scorve_confirm *state, uint32_t n, uint32_t need, uint32_t word);
/* The same from the default word, a one for each of the n signals: 1, 2. */
uint32_t scorve_confirm_new(scorve_confirm *state, uint32_t n, uint32_t need);
/* One sample: 1, 2, 6, 7. */
uint32_t scorve_confirm_step(scorve_confirm *state, uint32_t input, scorve_confirm_answer *answer);
/* A whole trace from a fresh state; per sample the word, the mark and the count after the step: 1 to 6. */
uint32_t scorve_confirm_run(uint32_t n, uint32_t need, uint32_t word,
                            const uint32_t *samples, size_t samples_len,
                            uint32_t *words, size_t words_len,
                            uint8_t *marks, size_t marks_len,
                            uint32_t *counts, size_t counts_len,
                            uint32_t *sample);

/* The vote of two words: an alarm at the need-th disagreement in a row. The
 * constructors, the step and the run refuse as those of the confirmation do. */
typedef struct scorve_vote {
  uint32_t n, need, word, count;
} scorve_vote;

typedef struct scorve_vote_answer {
  uint32_t word, mark; /* SCORVE_AGREED, SCORVE_HELD or SCORVE_ALARM */
  uint32_t which;      /* enum scorve_which */
} scorve_vote_answer;

uint32_t scorve_vote_from_word(scorve_vote *state, uint32_t n, uint32_t need, uint32_t word);
uint32_t scorve_vote_new(scorve_vote *state, uint32_t n, uint32_t need);
/* reset: 0 is none; with anything else a disagreement is held and the count is 0. */
uint32_t scorve_vote_step(scorve_vote *state, uint32_t a, uint32_t b, uint32_t reset, scorve_vote_answer *answer);
uint32_t scorve_vote_run(uint32_t n, uint32_t need, uint32_t word,
                         const uint32_t *a, size_t a_len,
                         const uint32_t *b, size_t b_len,
                         uint32_t *words, size_t words_len,
                         uint8_t *marks, size_t marks_len,
                         uint8_t *which, size_t which_len,
                         uint32_t *sample);

/* The tuple vote: a vote of its own for each signal, and a confirmation of the
 * voted word. A signal whose units disagree keeps its last agreed value until
 * it alarms, so a word may be confirmed meanwhile; at a sample that alarms the
 * confirmation takes no step. A signal alarms at its votes-th disagreement in a
 * row; need is the confirmation's. Either may be the greater, so no call can tell
 * that they are exchanged. Refusals as above. */
typedef struct scorve_tuple {
  uint32_t votes;                         /* the voters' N */
  uint32_t n, need, input, output, count; /* the confirmation's */
  uint32_t agreed;                        /* the voters' agreed signals, one word */
  uint32_t counts[SCORVE_MAX_WIDTH];      /* the voters' counts; 0 at n and above */
} scorve_tuple;

typedef struct scorve_tuple_answer {
  uint32_t word, mark; /* SCORVE_CONFIRMED, SCORVE_HELD or SCORVE_ALARM */
  uint32_t mask;       /* the signals that alarm, 0 for none */
  uint32_t second;     /* the signals that differ and of which unit 2 shows the last agreed value, whatever the mark;
                          of the others that differ, (a ^ b) & ~second, unit 1 does; a run's seconds are these */
} scorve_tuple_answer;

uint32_t scorve_tuple_from_word(scorve_tuple *state, uint32_t n, uint32_t votes, uint32_t need, uint32_t word);
uint32_t scorve_tuple_new(scorve_tuple *state, uint32_t n, uint32_t votes, uint32_t need);
uint32_t scorve_tuple_step(scorve_tuple *state, uint32_t a, uint32_t b, scorve_tuple_answer *answer);
uint32_t scorve_tuple_run(uint32_t n, uint32_t votes, uint32_t need, uint32_t word,
                          const uint32_t *a, size_t a_len,
                          const uint32_t *b, size_t b_len,
                          uint32_t *words, size_t words_len,
                          uint32_t *masks, size_t masks_len,
                          uint8_t *marks, size_t marks_len,
                          uint32_t *seconds, size_t seconds_len,
                          uint32_t *sample);

/* The reserve vote: units 1 and 2 are voted on until they alarm, units 3 and 4
 * from the next sample on. Refusals as above. */
typedef struct scorve_reserve {
  uint32_t phase; /* enum scorve_phase */
  uint32_t n, need, word, count;
} scorve_reserve;

typedef struct scorve_reserve_answer {
  uint32_t word, mark; /* SCORVE_AGREED, SCORVE_HELD or SCORVE_ALARM */
  uint32_t pair;       /* the pair that was voted on, 1 or 2 */
  uint32_t which;      /* enum scorve_which, of that pair's units: the word agreed on last, by whichever pair */
} scorve_reserve_answer;

uint32_t scorve_reserve_from_word(scorve_reserve *state, uint32_t n, uint32_t need, uint32_t word);
uint32_t scorve_reserve_new(scorve_reserve *state, uint32_t n, uint32_t need);
/* The words of all four units are checked, whichever pair is in force. */
uint32_t scorve_reserve_step(scorve_reserve *state, uint32_t a, uint32_t b, uint32_t c, uint32_t d,
                             scorve_reserve_answer *answer);
uint32_t scorve_reserve_run(uint32_t n, uint32_t need, uint32_t word,
                            const uint32_t *a, size_t a_len,
                            const uint32_t *b, size_t b_len,
                            const uint32_t *c, size_t c_len,
                            const uint32_t *d, size_t d_len,
                            uint32_t *words, size_t words_len,
                            uint8_t *marks, size_t marks_len,
                            uint8_t *which, size_t which_len,
                            uint32_t *sample);

/* Sizing: both counts, the age bound and the quiet gap from the least and the
 * greatest gap between samples and the greatest delay, in microseconds: 2, 9, 10.
 * The vote of two words and the reserve vote compare whole words: their need is
 * n * (votes - 1) + 1, worked out and not proved, which may exceed 1,000
 * (docs/COMMISSIONING.md, 2). */
typedef struct scorve_sizing {
  uint64_t count;      /* for confirmation: hand it over as need; a state's own count is another, which runs */
  uint64_t votes;      /* for votes on a signal: hand it over as a tuple vote's votes */
  uint64_t age, quiet; /* the bounds that hold with count for need */
} scorve_sizing;

uint32_t scorve_sizing_of(uint32_t n, uint32_t least_gap, uint32_t greatest_gap, uint32_t delay,
                          scorve_sizing *sizing);

/* The threshold vote on three readings: agreed if two of them differ by the
 * tolerance at most, and then *agreed is the median; with an alarm *agreed
 * stays. *mark is SCORVE_AGREED or SCORVE_ALARM. 11. */
typedef struct scorve_readings {
  double x1, x2, x3, tolerance;
} scorve_readings;

uint32_t scorve_threshold_vote(const scorve_readings *readings, double *agreed, uint32_t *mark);

/* What a recording's header says: units 1, 2 or 4; samples 0 to 2,048. */
typedef struct scorve_header {
  uint32_t units, samples, n, need, word;
} scorve_header;

/* Reads a recording: the times and the units' samples are written to the first
 * header->samples places of five slices of 2,048 places; the other places, and
 * the slices of units that are absent, stay as they are. 4, 12, 3, 12, 1, 2, 5, 6,
 * in this order. */
uint32_t scorve_recording_read(const uint8_t *bytes, size_t bytes_len,
                               uint32_t *times, size_t times_len,
                               uint32_t *one, size_t one_len,
                               uint32_t *two, size_t two_len,
                               uint32_t *three, size_t three_len,
                               uint32_t *four, size_t four_len,
                               scorve_header *header, uint32_t *sample);

/* Lists a recording as text, *written bytes at the start of out, which has at
 * least SCORVE_LONGEST_LISTING places; the places after the text stay as they
 * are. A recording that is refused is told in the text, one line, and *refused
 * is then 1, else 0. Only SCORVE_BUFFER_TOO_SHORT is refused with. The call
 * takes about 62,000 bytes of stack, every other one less than 2,000. */
uint32_t scorve_listing_list(const uint8_t *bytes, size_t bytes_len,
                             uint8_t *out, size_t out_len,
                             size_t *written, uint32_t *refused);

#ifdef __cplusplus
}
#endif

/* The library sees each struct as an array of so many numbers; in a tuple's state the counts are the last of them. */
#if defined(__cplusplus) && __cplusplus >= 201103L
#define SCORVE_CHECK(name, test) static_assert(test, #name " is not what the library takes it for")
#elif defined(__STDC_VERSION__) && __STDC_VERSION__ >= 201112L
#define SCORVE_CHECK(name, test) _Static_assert(test, #name " is not what the library takes it for")
#else
#define SCORVE_CHECK(name, test) typedef char name##_is_as_the_library_has_it[(test) ? 1 : -1]
#endif
#define SCORVE_ARRAY(type, number, count) SCORVE_CHECK(type, sizeof(type) == (count) * sizeof(number))
#define SCORVE_COUNTS_AT 7

SCORVE_ARRAY(scorve_confirm, uint32_t, 5);
SCORVE_ARRAY(scorve_confirm_answer, uint32_t, 2);
SCORVE_ARRAY(scorve_vote, uint32_t, 4);
SCORVE_ARRAY(scorve_vote_answer, uint32_t, 3);
SCORVE_ARRAY(scorve_tuple, uint32_t, SCORVE_COUNTS_AT + SCORVE_MAX_WIDTH);
SCORVE_CHECK(scorve_tuple_counts, offsetof(scorve_tuple, counts) == SCORVE_COUNTS_AT * sizeof(uint32_t));
SCORVE_ARRAY(scorve_tuple_answer, uint32_t, 4);
SCORVE_ARRAY(scorve_reserve, uint32_t, 5);
SCORVE_ARRAY(scorve_reserve_answer, uint32_t, 4);
SCORVE_ARRAY(scorve_sizing, uint64_t, 4);
SCORVE_ARRAY(scorve_readings, double, 4);
SCORVE_ARRAY(scorve_header, uint32_t, 5);

#undef SCORVE_COUNTS_AT
#undef SCORVE_ARRAY
#undef SCORVE_CHECK

#endif
