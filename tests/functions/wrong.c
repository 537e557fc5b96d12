/*
 * Wrong programs, which the checks must reject: document 01's section 9, and
 * some that break one clause each. A check that lets one of them pass fails.
 */
#include <inttypes.h>

#include "functions.h"
#include "report.h"
#include "section8.h"
#include "survey.h"

/* Section 9, 1: the greatest float not above the root. The square of a float
 * is exact in double precision. */
static uint32_t cuts_off(float x, float *out)
{
    if (!(x >= 0 && x <= FLT_MAX))
        return EAR_OUT_OF_RANGE;
    float root = sqrtf(x);
    *out = (double)root * root > x ? nextafterf(root, 0) : root;
    return EAR_OK;
}

static uint32_t accepts_negatives(float x, float *out)
{
    return ear_sqrt(fabsf(x), out);
}

static uint32_t writes_before_it_refuses(float x, float *out)
{
    *out = 0;
    return ear_sqrt(x, out);
}

static uint32_t loses_the_sign_of_zero(float x, float *out)
{
    return ear_sqrt(x == 0 ? 0.0f : x, out);
}

static uint32_t swaps_neighbours(float x, float *out)
{
    return ear_sqrt(float_of(bits_of(x) ^ 1), out);
}

static uint32_t one_unit_up(float x, float *out)
{
    uint32_t code = ear_rsqrt(x, out);
    if (code == EAR_OK)
        *out = nextafterf(*out, INFINITY);
    return code;
}

/* Within document 01's 2^-22, but not the nearest: two roundings. */
static uint32_t one_over_the_root(float x, float *out)
{
    if (!(x > 0 && x <= FLT_MAX))
        return EAR_OUT_OF_RANGE;
    *out = 1 / sqrtf(x);
    return EAR_OK;
}

/* Section 9, 2: x split into a whole part and a fraction, and the fraction's
 * power up to 2^-23 too great, so within 2^-22; but it is 1 at 0. */
static uint32_t pieces_that_do_not_meet(float x, float *out)
{
    if (!(x >= -126 && x <= 127))
        return EAR_OUT_OF_RANGE;
    float whole = floorf(x), power = 1;
    if (x != whole)
        power = (float)(exp2((double)x - whole) * (1 + 0x1p-23));
    *out = ldexpf(power, (int)whole);
    return EAR_OK;
}

static uint32_t power_cut_off(float x, float *out)
{
    uint32_t code = ear_exp2(x, out);
    if (code == EAR_OK && *out > exp2(x))
        *out = nextafterf(*out, 0);
    return code;
}

/* Off by 2^-33 before it is rounded: within 2^-23.99, but not the nearest. */
static uint32_t power_a_little_off(float x, float *out)
{
    uint32_t code = ear_exp2(x, out);
    if (code == EAR_OK && x != floorf(x))
        *out = (float)(exp2(x) * (1 + 0x1p-33));
    return code;
}

static uint32_t accepts_127_and_a_half(float x, float *out)
{
    return ear_exp2(x > 127 && x < 128 ? 127 : x, out);
}

/* 2^(x log2 e), and the product rounded to a float: off by up to 2^-18, but exact at 0 and in order. */
static uint32_t product_as_a_float(float x, float *out)
{
    uint32_t code = ear_exp(x, out);
    if (code == EAR_OK)
        *out = exp2f(x * 1.44269502f);
    return code;
}

/* e cut off after 24 digits. */
static uint32_t another_base(float x, float *out)
{
    uint32_t code = ear_exp(x, out);
    if (code == EAR_OK)
        *out = (float)pow(2.71828175f, x);
    return code;
}

static uint32_t accepts_88_and_a_half(float x, float *out)
{
    return ear_exp(x > 88 && x < 89 ? 88 : x, out);
}

static uint32_t minus_zero_at_one(float x, float *out)
{
    uint32_t code = ear_log2(x, out);
    if (code == EAR_OK && x == 1)
        *out = -0.0f;
    return code;
}

/* Two pieces, of which the lower one is 2^-22 too great: the result falls at
 * 3/2 times a power of two. */
static uint32_t logarithms_that_do_not_meet(float x, float *out)
{
    uint32_t code = ear_log2(x, out);
    int exponent;
    float fraction = frexpf(x, &exponent);
    if (code == EAR_OK && fraction != 0.5f && fraction < 0.75f)
        *out = (float)(log2(x) + 0x1p-22);
    return code;
}

/* Cut off to steps of 2^-22, as document 01's absolute bound allows: next to 1
 * nothing is left of it. */
static uint32_t logarithm_cut_off(float x, float *out)
{
    uint32_t code = ear_log2(x, out);
    if (code == EAR_OK)
        *out = (float)(trunc(binary_logarithm(x) * 0x1p22) * 0x1p-22) + 0.0f;
    return code;
}

/* 2^-22 too great where it is not whole: next to 1 it has the wrong sign. */
static uint32_t logarithm_with_a_constant(float x, float *out)
{
    uint32_t code = ear_log2(x, out);
    if (code == EAR_OK && *out != floorf(*out))
        *out = (float)(binary_logarithm(x) + 0x1p-22);
    return code;
}

static uint32_t fraction_turned(float x, float *out)
{
    int exponent;
    float fraction = frexpf(x, &exponent);
    uint32_t code = ear_log2(x, out);
    if (code == EAR_OK)
        *out = (float)(exponent - 1 - log2(2 * fraction));
    return code;
}

static uint32_t accepts_subnormals(float x, float *out)
{
    return ear_log2(x > 0 && x < 0x1p-126f ? 0x1p-126f : x, out);
}

/* Section 9, 5: quarter turns taken off with pi/2 as one float. */
static uint32_t quarter_as_one_float(float x, float *out)
{
    if (!(fabsf(x) <= 8192))
        return ear_sin(x, out);
    const double quarter = 1.57079637f; /* the float next to pi/2 */
    double quarters = rint(x / quarter);
    double rest = x - quarters * quarter;
    static double (*const size[])(double) = {sin, cos};
    double wave = size[(long)quarters & 1](rest);
    *out = (float)((long)quarters & 2 ? 0 - wave : wave);
    return EAR_OK;
}

static uint32_t exchanged_in_one_quadrant(float x, float *out)
{
    uint32_t code = ear_sinpi(x, out);
    double place = x - 2 * floor(x / 2.0);
    if (code == EAR_OK && place > 0.5 && place < 1)
        code = ear_cospi(x, out);
    return code;
}

static uint32_t minus_zero_at_whole_numbers(float x, float *out)
{
    uint32_t code = ear_sinpi(x, out);
    if (code == EAR_OK && *out == 0 && x < 0)
        *out = -0.0f;
    return code;
}

/* As a polynomial does that is a little too great at the quarter's end. */
static uint32_t above_one(float x, float *out)
{
    uint32_t code = ear_cos(x, out);
    if (code == EAR_OK && *out == 1)
        *out = nextafterf(*out, 2);
    return code;
}

/* The nearest float of a sine that is cut off to 24 digits first. */
static uint32_t wave_cut_off(float x, float *out)
{
    uint32_t code = ear_cospi(x, out);
    if (code == EAR_OK)
        *out = (float)(trunc(cosine_of_pi(x) * 0x1p24) * 0x1p-24);
    return code;
}

static uint32_t accepts_infinity(float x, float *out)
{
    return ear_sin(isinf(x) ? FLT_MAX : x, out);
}

/* As before Q4. */
static uint32_t refuses_above_8192(float x, float *out)
{
    return fabsf(x) <= 8192 ? ear_sin(x, out) : EAR_OUT_OF_RANGE;
}

/* Whole turns taken off with the 53 digits of a double, which is enough up to 2^27 or so. */
static uint32_t turn_as_one_double(float x, float *out)
{
    uint32_t code = ear_sin(x, out);
    if (code == EAR_OK)
        *out = (float)sin(fmod(x, 6.283185307179586));
    return code;
}

static const struct wrong {
    const char *what;
    single call, poses_as;
    uint32_t shown_at;
    enum fault fault;
} wrongs[] = {
    {"a root that cuts off instead of rounding", cuts_off, ear_sqrt, 0x40a00000, WRONG_VALUE},
    {"a root that accepts -1", accepts_negatives, ear_sqrt, 0xbf800000, WRONG_CODE},
    {"a root that writes before it refuses", writes_before_it_refuses, ear_sqrt, 0xbf800000, TOUCHED},
    {"a root that loses the sign of -0", loses_the_sign_of_zero, ear_sqrt, 0x80000000, WRONG_VALUE},
    {"a root that falls between neighbours", swaps_neighbours, ear_sqrt, 0x00000003, OUT_OF_ORDER},
    {"a reciprocal root one unit too great", one_unit_up, ear_rsqrt, 0x40a00000, WRONG_VALUE},
    {"a reciprocal root rounded twice", one_over_the_root, ear_rsqrt, 0x3f800003, WRONG_VALUE},
    {"a 2^x whose pieces do not meet", pieces_that_do_not_meet, ear_exp2, 0x3f800000, OUT_OF_ORDER},
    {"a 2^x that cuts off instead of rounding", power_cut_off, ear_exp2, 0x3f800001, WRONG_VALUE},
    {"a 2^x that is 2^-33 off before it is rounded", power_a_little_off, ear_exp2, 0x3f8004a4, WRONG_VALUE},
    {"a 2^x that accepts 127.5", accepts_127_and_a_half, ear_exp2, 0x42ff0000, WRONG_CODE},
    {"an e^x whose x log2 e is a float", product_as_a_float, ear_exp, 0x42af0001, WRONG_VALUE},
    {"an e^x with e as one float", another_base, ear_exp, 0x42af0000, WRONG_VALUE},
    {"an e^x that accepts 88.5", accepts_88_and_a_half, ear_exp, 0x42b10000, WRONG_CODE},
    {"a log2 that is -0 at 1", minus_zero_at_one, ear_log2, 0x3f800000, WRONG_VALUE},
    {"a log2 that is cut off next to 1", logarithm_cut_off, ear_log2, 0x3f800001, WRONG_VALUE},
    {"a log2 with 2^-22 added", logarithm_with_a_constant, ear_log2, 0x3f7fffff, WRONG_VALUE},
    {"a log2 whose pieces do not meet", logarithms_that_do_not_meet, ear_log2, 0x3fc00000, OUT_OF_ORDER},
    {"a log2 with its fraction's sign turned", fraction_turned, ear_log2, 0x3fc00000, WRONG_VALUE},
    {"a log2 that accepts subnormals", accepts_subnormals, ear_log2, 0x007fffff, WRONG_CODE},
    {"a sin x with pi/2 as one float", quarter_as_one_float, ear_sin, 0x46000000, WRONG_VALUE},
    {"a sin(pi x) that is the cosine in one quadrant", exchanged_in_one_quadrant, ear_sinpi, 0x3f400001, WRONG_VALUE},
    {"a sin(pi x) that is -0 at -1", minus_zero_at_whole_numbers, ear_sinpi, 0xbf800000, WRONG_VALUE},
    {"a cos x that is above 1 at 0", above_one, ear_cos, 0x00000000, WRONG_VALUE},
    {"a cos(pi x) that is cut off", wave_cut_off, ear_cospi, 0x3e4ccccd, WRONG_VALUE},
    {"a sin x that accepts infinity", accepts_infinity, ear_sin, 0x7f800000, WRONG_CODE},
    {"a sin x that refuses above 8192", refuses_above_8192, ear_sin, 0x46000001, WRONG_CODE},
    {"a sin x with 2 pi as one double", turn_as_one_double, ear_sin, 0x7f7fffff, WRONG_VALUE},
};

enum { WRONGS = sizeof wrongs / sizeof wrongs[0] };

static void reject(const struct wrong *w)
{
    struct function posing = *line_of(w->poses_as);
    posing.call = w->call;
    struct deed here = deed_at(&posing, w->shown_at);
    struct deed below = deed_at(&posing, pattern_at(place_of(w->shown_at) - 1));
    struct tally one = {0}, many = survey(&posing);
    judge(&one, &posing, here);
    judge_order(&one, &posing, below, here);
    group(one.seen[w->fault] > 0 && many.seen[w->fault] > 0,
          "%s: rejected at %08" PRIx32 " and %" PRIu64 " times in the spread (%s)", w->what, w->shown_at,
          many.seen[w->fault], fault_names[w->fault]);
}

/* So that the wrong program is the one that the document means. */
static void cuts_as_document_01_says(void)
{
    int same = 0;
    for (int i = 0; i < ROOT_ROWS; i++) {
        float result;
        same += cuts_off(float_of(root_rows[i].x), &result) == EAR_OK && bits_of(result) == root_rows[i].cut;
    }
    group(same == ROOT_ROWS, "the root that cuts off gives document 01's third column, %d of %d", same, ROOT_ROWS);
}

/* log2 as document 01 had it, before Q2: exact at powers of two, +0 at 1. */
static bool within_first_bound(const struct function *f, float x, float result)
{
    double exact = f->exact(x);
    if (exact == rint(exact))
        return bits_of(result) == bits_of((float)exact);
    return fabs(result - exact) <= 0x1p-21 * fmax(1, fabs(exact));
}

/* A judge that rejects everything would pass all of the above. */
static void bounds_are_not_too_tight(void)
{
    struct function posing = *line_of(ear_rsqrt);
    posing.call = one_over_the_root;
    posing.right = within_relative;
    posing.bound = 0x1p-22;
    struct tally t = survey(&posing);
    group(faults_in(&t) == 0, "the reciprocal root rounded twice keeps the weaker bound 2^-22");
    posing = *line_of(ear_log2);
    posing.call = logarithm_cut_off;
    posing.right = within_first_bound;
    t = survey(&posing);
    group(faults_in(&t) == 0, "the log2 that is cut off keeps document 01's bound, 2^-21 max(1, |log2 x|), and the order");
}

int main(void)
{
    cuts_as_document_01_says();
    for (int i = 0; i < WRONGS; i++)
        reject(&wrongs[i]);
    bounds_are_not_too_tight();
    return verdict();
}
