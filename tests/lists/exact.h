/*
 * Exact sums of products of floats: whole numbers of units of 2^-298, the
 * product of the least float with itself, in two's complement. 640 bits hold
 * 65,536 products of the greatest floats, 2^570 units, times a number of 64
 * bits, with room for the sign.
 */
#ifndef EXACT_H
#define EXACT_H

#include <stdbool.h>
#include <stdint.h>

enum { LIMBS = 10, UNIT = 298 };

struct exact {
    uint64_t limb[LIMBS]; /* the lowest first */
};

void exact_add(struct exact *sum, struct exact term);
void exact_negate(struct exact *x);
bool exact_negative(const struct exact *x);
struct exact exact_size(struct exact x);
struct exact exact_times(struct exact x, uint64_t factor); /* for x >= 0 */
bool exact_at_most(const struct exact *x, const struct exact *y);

/* x * y for finite floats, and x itself. */
struct exact exact_product(float x, float y);
struct exact exact_float(float x);

/* To double precision, in units of 2^0. */
double exact_value(struct exact x);

#endif
