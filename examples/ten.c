#include <stdio.h>
#include "scorvemaglio.h"
int main(void) {
  static const uint32_t unit_1[] = {5, 5, 5}, unit_2[] = {5, 7, 7}; /* samples; a word has a bit for each signal */
  scorve_vote vote; scorve_vote_answer answer;
  if (scorve_vote_from_word(&vote, 3, 2, 0) != SCORVE_OK) return 1; /* 3 signals, alarm at 2nd disagreement, from 0 */
  for (int i = 0; i < 3; i++)
    if (scorve_vote_step(&vote, unit_1[i], unit_2[i], 0, &answer) == SCORVE_OK)
      printf("word %u, mark %u\n", (unsigned)answer.word, (unsigned)answer.mark); /* 0 agreed, 1 held, 2 alarm */
}
