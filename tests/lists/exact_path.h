/*
 * The exact path from a frame of 128 samples to a band's current, with 200 digits of
 * MPFR: products, transform, sizes, their sum over 64, and the map.
 */
#ifndef EXACT_PATH_H
#define EXACT_PATH_H

#include <stdint.h>

#include "earmath.h"

void open_path(void);

/* The sizes |X_k| of a frame under a window, for what is asked next. */
void exact_sizes(const float x[128], const float w[128]);

/* How far a step is from the exact current of a band of that frame. */
double exact_distance(const struct ear_band *band, uint32_t step);

#endif
