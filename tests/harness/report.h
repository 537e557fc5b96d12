/* One line for each group of checks, and the count at the end. */
#ifndef REPORT_H
#define REPORT_H

#include <stdbool.h>

#include "judge.h"

__attribute__((format(printf, 2, 3))) void group(bool good, const char *format, ...);

/* One line for each way in which f could have broken its promise. */
void group_faults(const struct function *f, const struct tally *t);

/* Prints 'N passed, M failed' and returns the program's exit status. */
int verdict(void);

#endif
