/*
 * sin x and cos x of floats of every exponent and both signs against MPFR, which
 * takes as many digits of pi as an argument needs. The double precision that
 * `spread` and `every` judge by is held against MPFR at the same floats.
 */
#include <inttypes.h>
#include <math.h>
#include <mpfr.h>
#include <stdio.h>

#include "earmath.h"
#include "judge.h"
#include "report.h"

enum { EXPONENTS = 255, DRAWS = 500, PRECISION = 96 };

/* Fractions at the ends of a binade; the others are drawn. */
static const uint32_t edges[] = {0x000000, 0x000001, 0x3fffff, 0x400000, 0x7fffff};

enum { EDGES = sizeof edges / sizeof edges[0] };

/* Floats next to multiples of pi/2: the first is the closest of all, 2^-29.2 from an odd one, and the second 2^-28.2 from an even one. */
static const uint32_t close_ones[] = {0x6f79be45, 0x6ff9be45, 0x50a3e87f};

enum { CLOSE_ONES = sizeof close_ones / sizeof close_ones[0] };

static const struct wave {
    const char *name;
    single call;
    int (*exact)(mpfr_t out, const mpfr_t x, mpfr_rnd_t rounding);
    double (*judge)(double x);
} waves[] = {
    {"ear_sin", ear_sin, mpfr_sin, sin},
    {"ear_cos", ear_cos, mpfr_cos, cos},
};

/* The worst errors of a function and of its judge. */
struct errors {
    int asked, accepted;
    double ours, judge;
    uint32_t at;
};

static mpfr_t argument, exact, gap;

static double error_of(double value)
{
    mpfr_sub_d(gap, exact, value, MPFR_RNDA);
    return fabs(mpfr_get_d(gap, MPFR_RNDA));
}

static void look(const struct wave *w, uint32_t pattern, struct errors *e)
{
    float x = float_of(pattern), result = float_of(0x7fa5a5a5);
    e->asked++;
    e->accepted += w->call(x, &result) == EAR_OK;
    mpfr_set_flt(argument, x, MPFR_RNDN);
    w->exact(exact, argument, MPFR_RNDN);
    double error = error_of(result);
    if (!(error <= e->ours)) {
        e->ours = error;
        e->at = pattern;
    }
    e->judge = fmax(e->judge, error_of(w->judge(x)));
}

static struct errors over_all_exponents(const struct wave *w)
{
    struct errors e = {0};
    uint64_t state = 4;
    for (uint32_t signs = 0; signs < 2; signs++)
        for (uint32_t exponent = 0; exponent < EXPONENTS; exponent++)
            for (int i = 0; i < EDGES + DRAWS; i++) {
                state = state * 6364136223846793005u + 1442695040888963407u;
                uint32_t fraction = i < EDGES ? edges[i] : (uint32_t)(state >> 41);
                look(w, signs << 31 | exponent << 23 | fraction, &e);
            }
    for (int i = 0; i < CLOSE_ONES; i++)
        look(w, close_ones[i], &e);
    return e;
}

int main(void)
{
    mpfr_inits2(PRECISION, argument, exact, gap, (mpfr_ptr)NULL);
    for (int i = 0; i < 2; i++) {
        struct errors e = over_all_exponents(&waves[i]);
        group(e.accepted == e.asked, "%s: %d of %d finite floats of every exponent accepted", waves[i].name, e.accepted, e.asked);
        group(e.ours <= 17 * 0x1p-29, "%s: within 2^%.3f of MPFR there, worst at %08" PRIx32, waves[i].name, log2(e.ours), e.at);
        group(e.judge <= 0x1p-52, "%s: the double precision that judges it elsewhere is within 2^%.1f", waves[i].name, log2(e.judge));
    }
    mpfr_clears(argument, exact, gap, (mpfr_ptr)NULL);
    mpfr_free_cache();
    return verdict();
}
