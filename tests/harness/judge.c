#include "judge.h"

#include <math.h>
#include <stddef.h>
#include <string.h>

#include "earmath.h"

const char *const fault_names[FAULTS] = {
    "wrong code", "result place touched by a refusal", "wrong value",
    "unlike the reference's bits", "order broken",
};

/* The result place before each call: a NaN that no function returns. */
static const uint32_t sentinel = 0x7fa5a5a5;

float float_of(uint32_t bits)
{
    float x;
    memcpy(&x, &bits, sizeof x);
    return x;
}

uint32_t bits_of(float x)
{
    uint32_t bits;
    memcpy(&bits, &x, sizeof bits);
    return bits;
}

bool accepts(const struct function *f, float x)
{
    return f->low <= x && x <= f->high;
}

uint32_t pattern_at(uint32_t place)
{
    return place < 0x80000000 ? 0xffffffff - place : place - 0x80000000;
}

uint32_t place_of(uint32_t pattern)
{
    return pattern >= 0x80000000 ? 0xffffffff - pattern : pattern + 0x80000000;
}

double reciprocal_root(double x)
{
    return 1 / sqrt(x);
}

/* In the wider format, and rounded once: near 1 the logarithm is small, and its
 * error counts relatively there. */
double binary_logarithm(double x)
{
    return (double)log2l(x);
}

/* The sine after so many quarter turns and r half turns, |r| <= 1/4. Zero is +0. */
static double wave(long quarters, double r)
{
    static const double pi = 3.14159265358979323846;
    double size = quarters % 2 == 0 ? sin(pi * r) : cos(pi * r);
    return quarters % 4 < 2 ? size : 0 - size;
}

/* 2x to the nearest whole number, and the rest, are exact; from 2^24 on x is even. */
static double wave_of_pi(double x, long quarters)
{
    if (fabs(x) >= 0x1p24)
        return wave(quarters, 0);
    double nearest = rint(2 * x);
    return wave(((long)nearest + quarters) & 3, x - nearest / 2);
}

double sine_of_pi(double x)
{
    return wave_of_pi(x, 0) + 0.0;
}

double cosine_of_pi(double x)
{
    return wave_of_pi(x, 1) + 0.0;
}

bool near_wave(const struct function *f, float x, float result)
{
    return fabsf(result) <= 1 && within_absolute(f, x, result);
}

bool near_wave_of_pi(const struct function *f, float x, float result)
{
    if (2 * (double)x == rint(2 * (double)x))
        return bits_of(result) == bits_of((float)f->exact(x));
    return near_wave(f, x, result);
}

bool within_relative(const struct function *f, float x, float result)
{
    double exact = f->exact(x);
    return fabs(result - exact) <= f->bound * fabs(exact);
}

bool near_exponential(const struct function *f, float x, float result)
{
    return x == 0 ? result == 1 : within_relative(f, x, result);
}

bool within_absolute(const struct function *f, float x, float result)
{
    return fabs(result - f->exact(x)) <= f->bound;
}

struct deed deed_at(const struct function *f, uint32_t pattern)
{
    struct deed d = {.x = pattern, .result = float_of(sentinel)};
    d.code = f->call(float_of(pattern), &d.result);
    return d;
}

static void note(struct tally *t, enum fault fault, uint32_t pattern)
{
    if (t->seen[fault]++ == 0)
        t->first[fault] = pattern;
}

void judge(struct tally *t, const struct function *f, struct deed d)
{
    float x = float_of(d.x);
    if (!accepts(f, x)) {
        t->refused++;
        if (d.code != EAR_OUT_OF_RANGE)
            note(t, WRONG_CODE, d.x);
        if (bits_of(d.result) != sentinel)
            note(t, TOUCHED, d.x);
        return;
    }
    t->accepted++;
    if (d.code != EAR_OK)
        note(t, WRONG_CODE, d.x);
    if (!f->right(f, x, d.result))
        note(t, WRONG_VALUE, d.x);
    if (f->twin != NULL && bits_of(f->twin(x)) != bits_of(d.result))
        note(t, UNLIKE_TWIN, d.x);
}

void judge_order(struct tally *t, const struct function *f, struct deed lower, struct deed higher)
{
    if (!accepts(f, float_of(lower.x)) || !accepts(f, float_of(higher.x)))
        return;
    bool falls = lower.result > higher.result;
    bool rises = lower.result < higher.result;
    if ((f->order == RISES && falls) || (f->order == FALLS && rises))
        note(t, OUT_OF_ORDER, higher.x);
}

uint64_t faults_in(const struct tally *t)
{
    uint64_t sum = 0;
    for (int fault = 0; fault < FAULTS; fault++)
        sum += t->seen[fault];
    return sum;
}
