/*
 * The functions of one argument: a line for each. A new one is tested by
 * `spread`, `refusals` and `every` as soon as it stands here.
 */
#ifndef FUNCTIONS_H
#define FUNCTIONS_H

#include <float.h>
#include <math.h>
#include <stddef.h>

#include "earmath.h"
#include "judge.h"

static const struct function functions[] = {
    /* name, call, accepted from, to, exact value, check, bound, order, twin */
    {"ear_sqrt", ear_sqrt, 0.0f, FLT_MAX, sqrt, nearest_root, 0, RISES, sqrtf},
    {"ear_rsqrt", ear_rsqrt, 0x1p-149f, FLT_MAX, reciprocal_root, nearest_reciprocal_root, 0, FALLS, NULL},
    {"ear_exp2", ear_exp2, -126.0f, 127.0f, exp2, nearest_power, 0, RISES, NULL},
    {"ear_exp", ear_exp, -87.0f, 88.0f, exp, near_exponential, 515 * 0x1p-33, RISES, NULL},
    {"ear_log2", ear_log2, 0x1p-126f, FLT_MAX, binary_logarithm, nearest_logarithm, 0, RISES, NULL},
    {"ear_sinpi", ear_sinpi, -0x1.fffffep21f, 0x1.fffffep21f, sine_of_pi, near_wave_of_pi, 17 * 0x1p-29, ANY_ORDER, NULL},
    {"ear_cospi", ear_cospi, -0x1.fffffep21f, 0x1.fffffep21f, cosine_of_pi, near_wave_of_pi, 17 * 0x1p-29, ANY_ORDER, NULL},
    {"ear_sin", ear_sin, -FLT_MAX, FLT_MAX, sin, near_wave, 17 * 0x1p-29, ANY_ORDER, NULL},
    {"ear_cos", ear_cos, -FLT_MAX, FLT_MAX, cos, near_wave, 17 * 0x1p-29, ANY_ORDER, NULL},
};

enum { FUNCTIONS = sizeof functions / sizeof functions[0] };

static inline const struct function *line_of(single call)
{
    const struct function *f = functions;
    while (f->call != call)
        f++;
    return f;
}

#endif
