/*
 * Other libraries' functions, judged and measured as ours are: newlib's, which
 * are float-only, and glibc's, which use double precision. Each is asked only
 * where ours accepts, and held to the bound and the order that ours promises.
 */
#ifndef OTHERS_H
#define OTHERS_H

#include <float.h>
#include <math.h>
#include <stddef.h>

#include "earmath.h"
#include "judge.h"

float newlib_sqrtf(float x);
float newlib_powf(float x, float y);
float newlib_expf(float x);
float newlib_log2f(float x);
float newlib_sinf(float x);
float newlib_cosf(float x);

#define OTHER(name, low, high, value) \
    static uint32_t name(float x, float *out) \
    { \
        if (!(low <= x && x <= high)) \
            return EAR_OUT_OF_RANGE; \
        *out = value; \
        return EAR_OK; \
    }

OTHER(newlib_root, 0.0f, FLT_MAX, newlib_sqrtf(x))
OTHER(newlib_reciprocal, 0x1p-149f, FLT_MAX, 1 / newlib_sqrtf(x))
OTHER(glibc_reciprocal, 0x1p-149f, FLT_MAX, 1 / sqrtf(x))
OTHER(reciprocal_to_four, 1.0f, 0x1.fffffep1f, 1 / sqrtf(x))
OTHER(newlib_power, -126.0f, 127.0f, newlib_powf(2.0f, x))
OTHER(glibc_power, -126.0f, 127.0f, exp2f(x))
OTHER(newlib_exponential, -87.0f, 88.0f, newlib_expf(x))
OTHER(glibc_exponential, -87.0f, 88.0f, expf(x))
OTHER(newlib_logarithm, 0x1p-126f, FLT_MAX, newlib_log2f(x))
OTHER(glibc_logarithm, 0x1p-126f, FLT_MAX, log2f(x))
OTHER(newlib_sine, -FLT_MAX, FLT_MAX, newlib_sinf(x))
OTHER(glibc_sine, -FLT_MAX, FLT_MAX, sinf(x))
OTHER(newlib_cosine, -FLT_MAX, FLT_MAX, newlib_cosf(x))
OTHER(glibc_cosine, -FLT_MAX, FLT_MAX, cosf(x))

static const struct function functions[] = {
    /* name, call, accepted from, to, exact value, check, bound, order, twin */
    {"newlib sqrtf", newlib_root, 0.0f, FLT_MAX, sqrt, nearest_root, 0, RISES, NULL},
    {"newlib 1/sqrtf", newlib_reciprocal, 0x1p-149f, FLT_MAX, reciprocal_root, nearest_reciprocal_root, 0, FALLS, NULL},
    {"glibc 1/sqrtf", glibc_reciprocal, 0x1p-149f, FLT_MAX, reciprocal_root, nearest_reciprocal_root, 0, FALLS, NULL},
    {"1/sqrtf from 1 up to 4", reciprocal_to_four, 1.0f, 0x1.fffffep1f, reciprocal_root, nearest_reciprocal_root, 0, FALLS, NULL},
    {"newlib powf", newlib_power, -126.0f, 127.0f, exp2, nearest_power, 0, RISES, NULL},
    {"glibc exp2f", glibc_power, -126.0f, 127.0f, exp2, nearest_power, 0, RISES, NULL},
    {"newlib expf", newlib_exponential, -87.0f, 88.0f, exp, near_exponential, 515 * 0x1p-33, RISES, NULL},
    {"glibc expf", glibc_exponential, -87.0f, 88.0f, exp, near_exponential, 515 * 0x1p-33, RISES, NULL},
    {"newlib log2f", newlib_logarithm, 0x1p-126f, FLT_MAX, binary_logarithm, nearest_logarithm, 0, RISES, NULL},
    {"glibc log2f", glibc_logarithm, 0x1p-126f, FLT_MAX, binary_logarithm, nearest_logarithm, 0, RISES, NULL},
    {"newlib sinf", newlib_sine, -FLT_MAX, FLT_MAX, sin, near_wave, 17 * 0x1p-29, ANY_ORDER, NULL},
    {"glibc sinf", glibc_sine, -FLT_MAX, FLT_MAX, sin, near_wave, 17 * 0x1p-29, ANY_ORDER, NULL},
    {"newlib cosf", newlib_cosine, -FLT_MAX, FLT_MAX, cos, near_wave, 17 * 0x1p-29, ANY_ORDER, NULL},
    {"glibc cosf", glibc_cosine, -FLT_MAX, FLT_MAX, cos, near_wave, 17 * 0x1p-29, ANY_ORDER, NULL},
};

enum { FUNCTIONS = sizeof functions / sizeof functions[0] };

#endif
