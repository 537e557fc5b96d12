#include "peers.h"

#include <math.h>

#include "../straight.h"

#define PI 3.14159274f

float reciprocal_root(float x)
{
    return 1 / newlib_sqrtf(x);
}

/* newlib has no function of pi x: these take pi * x, rounded */
float sine_of_pi(float x)
{
    return sinf(PI * x);
}

float cosine_of_pi(float x)
{
    return cosf(PI * x);
}

uint32_t carrying_loop(const float *a, const float *b, uint32_t n, float *out)
{
    return straight_carrying(a, b, n, out);
}

uint32_t softmax_in_c(const float *x, uint64_t n, float *p)
{
    return straight_softmax(exp2f, x, n, p);
}

uint32_t softmax_of_e_in_c(const float *x, uint64_t n, float *p)
{
    return straight_softmax(expf, x, n, p);
}

uint32_t map_in_c(float b, float m, uint32_t t, uint32_t c, float a, uint32_t *out)
{
    return straight_map(log2f, (struct channel){b, m, t, c}, a, out);
}

static struct {
    struct channel channel;
    float log_b, slope;
} fitted;

void fit_in_c(float b, float m, uint32_t t, uint32_t c)
{
    fitted.channel = (struct channel){b, m, t, c};
    fitted.log_b = log2f(b);
    fitted.slope = (float)(c - t) / (log2f(m) - fitted.log_b);
}

uint32_t fitted_in_c(float a, uint32_t *out)
{
    if (!(a >= 0 && a <= 1))
        return EAR_OUT_OF_RANGE;
    if (a <= fitted.channel.b)
        *out = fitted.channel.t;
    else if (a >= fitted.channel.m)
        *out = fitted.channel.c;
    else
        *out = fitted.channel.t + (uint32_t)(0.5f + fitted.slope * (log2f(a) - fitted.log_b));
    return EAR_OK;
}

static struct turn turns[32];

void turns_in_c(void)
{
    straight_turns(cosf, sinf, turns);
}

void transform_in_c(const float *x, float *re, float *im)
{
    straight_transform(turns, x, re, im);
}

void currents_in_c(const float *x, const float *w, const struct ear_band *bands, uint32_t n, uint32_t *out)
{
    straight_currents(turns, newlib_sqrtf, log2f, x, w, bands, n, out);
}
