/*
 * What it means for a function of one float to keep its promise at one input.
 * The same judgement serves the spread, the sweep over every pattern and the
 * wrong programs, so a judge that misses a fault is itself caught.
 */
#ifndef JUDGE_H
#define JUDGE_H

#include <stdbool.h>
#include <stdint.h>

/* The shape of every function of one float in earmath.h. */
typedef uint32_t (*single)(float x, float *out);

enum order { FALLS = -1, ANY_ORDER = 0, RISES = 1 };

/* A function and its promise. */
struct function {
    const char *name;
    single call;
    float low, high;           /* accepted: low <= x <= high, so never a NaN */
    double (*exact)(double x); /* the exact value, to double precision */
    bool (*right)(const struct function *f, float x, float result);
    double bound;              /* for near_... and within_... */
    enum order order;          /* RISES: never falls as x grows */
    float (*twin)(float x);    /* other code that gives the same bits, or NULL */
};

/* Kinds of check, for the field `right`. The nearest float is decided exactly,
 * a root's in whole numbers, a power's and a logarithm's by MPFR; the bounds by
 * the field `exact`, whose own error of about 2^-52 is far below any of them. */
bool nearest_root(const struct function *f, float x, float result);
bool nearest_reciprocal_root(const struct function *f, float x, float result);
bool nearest_power(const struct function *f, float x, float result);
bool nearest_logarithm(const struct function *f, float x, float result); /* +0 at 1 */
bool near_exponential(const struct function *f, float x, float result); /* exactly 1 at 0 */
bool near_wave(const struct function *f, float x, float result); /* and from -1 to 1 */
bool near_wave_of_pi(const struct function *f, float x, float result); /* exact where 2x is whole, 0 is +0 */
bool within_relative(const struct function *f, float x, float result);
bool within_absolute(const struct function *f, float x, float result);

double reciprocal_root(double x);
double binary_logarithm(double x);
double sine_of_pi(double x);
double cosine_of_pi(double x);

/* What a function did at one input. */
struct deed {
    uint32_t x; /* bit pattern of the input */
    uint32_t code;
    float result; /* what the result place held afterwards */
};

/* The ways to break a promise. */
enum fault { WRONG_CODE, TOUCHED, WRONG_VALUE, UNLIKE_TWIN, OUT_OF_ORDER, FAULTS };

/* How often each was seen, and where first. */
struct tally {
    uint64_t accepted, refused;
    uint64_t seen[FAULTS];
    uint32_t first[FAULTS];
};

extern const char *const fault_names[FAULTS];

float float_of(uint32_t bits);
uint32_t bits_of(float x);
bool accepts(const struct function *f, float x);

/* The patterns of all floats in the order of their values: NaNs with the sign
 * bit, -infinity, ..., -0, +0, ..., +infinity, the other NaNs. */
uint32_t pattern_at(uint32_t place);
uint32_t place_of(uint32_t pattern);

struct deed deed_at(const struct function *f, uint32_t pattern);
void judge(struct tally *t, const struct function *f, struct deed d);
void judge_order(struct tally *t, const struct function *f, struct deed lower, struct deed higher);
uint64_t faults_in(const struct tally *t);

#endif
