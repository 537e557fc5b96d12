/* What a chip with a single-precision float unit would use in place of our functions. */
#ifndef PEERS_H
#define PEERS_H

#include <stdint.h>

#include "earmath.h"

float newlib_sqrtf(float x); /* newlib's root in whole numbers: its own for this chip is the root instruction */
float reciprocal_root(float x);
float sine_of_pi(float x);
float cosine_of_pi(float x);
float plain_loop(const float *a, const float *b, uint32_t n);
uint32_t carrying_loop(const float *a, const float *b, uint32_t n, float *out); /* with the rounding errors carried along */
uint32_t softmax_in_c(const float *x, uint64_t n, float *p);
uint32_t softmax_of_e_in_c(const float *x, uint64_t n, float *p);
uint32_t map_in_c(float b, float m, uint32_t t, uint32_t c, float a, uint32_t *out);

/* The same map with what depends on the channel computed once, by fit_in_c. */
void fit_in_c(float b, float m, uint32_t t, uint32_t c);
uint32_t fitted_in_c(float a, uint32_t *out);

/* The transform in floats, with its turns computed once, by turns_in_c. */
void turns_in_c(void);
void transform_in_c(const float *x, float *re, float *im);

/* The whole path in floats. */
void currents_in_c(const float *x, const float *w, const struct ear_band *bands, uint32_t n, uint32_t *out);

#endif
