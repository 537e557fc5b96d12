/*
 * A first firmware program with Earmath: ask, look at the code, use the result.
 * Build: cc -Iinclude examples/roots.c build/libearmath.a
 */
#include <stdio.h>

#include "earmath.h"

static void root_of(const char *what, float x)
{
    float root = 7.0f;
    if (ear_sqrt(x, &root) == EAR_OK)
        printf("The square root of %s is %.9g: no float is nearer.\n", what, (double)root);
    else
        printf("A square root of %s is refused, and the result place still holds %.9g.\n", what, (double)root);
}

/* Three microphones' samples, scaled to a vector of length 1. One test covers
 * silence, overflow and a broken sample: the reciprocal root refuses them all. */
static uint32_t normalise(float v[3])
{
    float scale;
    uint32_t code = ear_rsqrt(v[0] * v[0] + v[1] * v[1] + v[2] * v[2], &scale);
    if (code == EAR_OK)
        for (int i = 0; i < 3; i++)
            v[i] *= scale;
    return code;
}

static void direction_of(const char *what, float a, float b, float c)
{
    float v[3] = {a, b, c};
    if (normalise(v) == EAR_OK)
        printf("The direction of %s is (%.7f, %.7f, %.7f).\n", what, (double)v[0], (double)v[1], (double)v[2]);
    else
        printf("The direction of %s is refused, and the samples are as they were.\n", what);
}

int main(void)
{
    float zero = 0.0f;
    root_of("2", 2.0f);
    root_of("5", 5.0f);
    root_of("-0", -zero);
    root_of("-1", -1.0f);
    root_of("NaN", zero / zero);
    direction_of("the samples (0.03, -0.04, 0.12)", 0.03f, -0.04f, 0.12f);
    direction_of("silence", 0.0f, 0.0f, 0.0f);
    return 0;
}
