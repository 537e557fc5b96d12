/* The worst error in each of some 300 stretches of a function's range, for pictures. */
#ifndef STRETCHES_H
#define STRETCHES_H

#include "judge.h"

enum { STRETCHES = 300 };

struct stretches {
    double worst[STRETCHES];
};

/* Keeps the error at x where it is the worst of its stretch: equal parts of x where the
 * range has both signs and is some hundreds wide, of the patterns of |x|, and so nearly
 * of its logarithm, else; of both signs from 2^-20 on. */
void keep_in_stretch(struct stretches *s, const struct function *f, float x, double error);
void add_stretches(struct stretches *sum, const struct stretches *s);

/* Writes build/errors/NAME.csv: where a stretch begins, its worst error, and in the head the bound;
 * a nearest float's is half a step, 2^-24. False where it could not. */
bool write_stretches(const struct stretches *s, const struct function *f, bool absolute);

#endif
