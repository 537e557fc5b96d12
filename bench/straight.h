/*
 * Straightforward C: the same tests as in our functions, and the formula with some
 * library's log2f or exp2f, or with float arithmetic.
 */
#ifndef STRAIGHT_H
#define STRAIGHT_H

#include <stdbool.h>
#include <stddef.h>
#include <stdint.h>

#include "earmath.h"

struct channel {
    float b, m;
    uint32_t t, c;
};

/* The loudness map; rounding is by adding a half. */
static inline uint32_t straight_map(float (*log2_of)(float), struct channel k, float a, uint32_t *out)
{
    if (!(k.b >= 0x1p-24f && 2 * k.b <= k.m && k.m <= 1 && k.t <= k.c && k.c <= 255))
        return EAR_BAD_CHANNEL;
    if (!(a >= 0 && a <= 1))
        return EAR_OUT_OF_RANGE;
    float steps = (float)(k.c - k.t);
    if (a <= k.b)
        *out = k.t;
    else if (a >= k.m)
        *out = k.c;
    else
        *out = k.t + (uint32_t)(0.5f + steps * (log2_of(a) - log2_of(k.b)) / (log2_of(k.m) - log2_of(k.b)));
    return EAR_OK;
}

/* Softmax: a float sum of the powers, and one division each. */
static inline uint32_t straight_softmax(float (*exp2_of)(float), const float *x, uint64_t n, float *p)
{
    float sum = 0;
    if (n == 0 || n > 1024)
        return EAR_BAD_LENGTH;
    for (uint32_t i = 0; i < n; i++)
        if (!(x[i] >= -64 && x[i] <= 64))
            return EAR_OUT_OF_RANGE;
    for (uint32_t i = 0; i < n; i++)
        sum += p[i] = exp2_of(x[i]);
    for (uint32_t i = 0; i < n; i++)
        p[i] = p[i] / sum;
    return EAR_OK;
}

/* The transform of 128 floats, real and radix 2, with a table of turns made before. A block of n floats holds the
 * transform of n values: the real part k at k, up to n / 2, and the imaginary part k at n - k. */
struct turn {
    float c, s;
};

static inline void straight_turns(float (*cos_of)(float), float (*sin_of)(float), struct turn *turns)
{
    for (int j = 0; j < 32; j++)
        turns[j] = (struct turn){cos_of((float)j * 0.0490873852f), sin_of((float)j * 0.0490873852f)};
}

static void straight_blocks(const struct turn *turns, const float *x, uint32_t step, float *r, uint32_t n)
{
    uint32_t h = n / 2;
    if (n == 2) {
        r[0] = x[0] + x[step];
        r[1] = x[0] - x[step];
        return;
    }
    straight_blocks(turns, x, 2 * step, r, h);
    straight_blocks(turns, x + step, 2 * step, r + h, h);
    float even = r[0], odd = r[h];
    r[0] = even + odd;
    r[h] = even - odd;
    for (uint32_t k = 1; k < h / 2; k++) {
        struct turn t = turns[k * step];
        float er = r[k], ei = r[h - k], or = r[h + k], oi = r[n - k];
        float re = or * t.c + oi * t.s, im = oi * t.c - or * t.s;
        r[k] = er + re;
        r[h - k] = er - re;
        r[h + k] = im - ei;
        r[n - k] = im + ei;
    }
    r[h + h / 2] = -r[h + h / 2];
}

static inline void straight_transform(const struct turn *turns, const float *x, float *re, float *im)
{
    float r[128];
    straight_blocks(turns, x, 1, r, 128);
    im[0] = im[64] = 0;
    for (uint32_t k = 0; k <= 64; k++)
        re[k] = r[k];
    for (uint32_t k = 1; k < 64; k++)
        im[k] = r[128 - k];
}

/* The path in floats: window, transform, sizes by a root, sums and the map of each band; nothing is tested. */
static inline void straight_currents(const struct turn *turns, float (*root_of)(float), float (*log2_of)(float), const float *x, const float *w,
                                     const struct ear_band *bands, uint32_t n, uint32_t *out)
{
    float y[128], re[65], im[65];
    for (int i = 0; i < 128; i++)
        y[i] = x[i] * w[i];
    straight_transform(turns, y, re, im);
    for (int k = 0; k < 65; k++)
        re[k] = root_of(re[k] * re[k] + im[k] * im[k]);
    for (uint32_t i = 0; i < n; i++) {
        float sum = 0;
        for (uint32_t k = bands[i].lo; k <= bands[i].hi; k++)
            sum += re[k];
        float a = sum / 64, low = log2_of(bands[i].b), steps = (float)(bands[i].c - bands[i].t);
        if (a <= bands[i].b)
            out[i] = bands[i].t;
        else if (a >= bands[i].m)
            out[i] = bands[i].c;
        else
            out[i] = bands[i].t + (uint32_t)(0.5f + steps * (log2_of(a) - low) / (log2_of(bands[i].m) - low));
    }
}

/* ---- the dot product that carries its rounding errors along (Ogita, Rump, Oishi: Dot2) */
static inline bool straight_element(float x)
{
    return x == 0 || (__builtin_fabsf(x) >= 0x1p-40f && __builtin_fabsf(x) <= 0x1p40f);
}

/* x * y - p exactly, where p is the rounded product: both are split into halves of 12 digits. */
static inline float lost_by_product(float x, float y, float p)
{
    float t = 4097 * x, x1 = t - (t - x), x2 = x - x1;
    t = 4097 * y;
    float y1 = t - (t - y), y2 = y - y1;
    return x2 * y2 - (p - x1 * y1 - x2 * y1 - x1 * y2);
}

static inline uint32_t straight_carrying(const float *a, const float *b, size_t n, float *out)
{
    float s = 0, c = 0;
    if (n > 4096)
        return EAR_BAD_LENGTH;
    for (size_t i = 0; i < n; i++) {
        if (!straight_element(a[i]) || !straight_element(b[i]))
            return EAR_OUT_OF_RANGE;
        float p = a[i] * b[i], q = s + p, z = q - s;
        c += (s - (q - z)) + (p - z) + lost_by_product(a[i], b[i], p);
        s = q;
    }
    *out = s + c;
    return EAR_OK;
}

#endif
