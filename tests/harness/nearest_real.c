/*
 * Whether a float is the nearest one to 2^x, or to log2 x: a double says it,
 * unless the exact value is so near to a halfway point that its own error
 * counts; there MPFR does, by bounds with 200 digits from below and from above.
 */
#include <float.h>
#include <math.h>
#include <mpfr.h>

#include "judge.h"

typedef int (*real)(mpfr_ptr value, mpfr_srcptr x, mpfr_rnd_t side);

/* Halfway to a neighbour, exactly: floats and their sums fit a double. Above the greatest float stands 2^128. */
static double halfway(float result, float towards)
{
    double next = nextafterf(result, towards);
    return ((double)result + (isinf(next) ? copysign(0x1p128, next) : next)) / 2;
}

static bool between(double low, real value, float x, double high)
{
    mpfr_t argument, below, above;
    mpfr_init2(argument, 24);
    mpfr_inits2(200, below, above, (mpfr_ptr)NULL);
    mpfr_set_flt(argument, x, MPFR_RNDN);
    value(below, argument, MPFR_RNDD);
    value(above, argument, MPFR_RNDU);
    bool inside = mpfr_cmp_d(below, low) > 0 && mpfr_cmp_d(above, high) < 0;
    mpfr_clears(argument, below, above, (mpfr_ptr)NULL);
    return inside;
}

static bool nearest_to(const struct function *f, real value, float x, float result)
{
    if (!(fabsf(result) <= FLT_MAX))
        return false;
    double low = halfway(result, -INFINITY), high = halfway(result, INFINITY), exact = f->exact(x);
    double error = fabs(exact) * 0x1p-50;
    if (exact + error < low || high < exact - error)
        return false;
    return (low < exact - error && exact + error < high) || between(low, value, x, high);
}

bool nearest_power(const struct function *f, float x, float result)
{
    return nearest_to(f, mpfr_exp2, x, result);
}

bool nearest_logarithm(const struct function *f, float x, float result)
{
    return nearest_to(f, mpfr_log2, x, result) && (x != 1 || bits_of(result) == 0);
}
