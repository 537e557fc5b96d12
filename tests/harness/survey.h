/* A spread of patterns over all exponents and both signs. */
#ifndef SURVEY_H
#define SURVEY_H

#include "judge.h"

/* Some 4 million patterns, the same ones in every run, and with each the next
 * float up, so that order is judged between neighbours. */
struct tally survey(const struct function *f);

#endif
