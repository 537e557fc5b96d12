#include "exact_path.h"

#include <math.h>
#include <mpfr.h>

enum { N = 128, PARTS = 65, DIGITS = 200 };

static mpfr_t cosine[N], sine[N], moduli[PARTS], product[N], re, im, sum, exact, log_b, t;

void open_path(void)
{
    mpfr_inits2(DIGITS, re, im, sum, exact, log_b, t, (mpfr_ptr)0);
    for (int j = 0; j < N; j++) {
        mpfr_inits2(DIGITS, cosine[j], sine[j], product[j], (mpfr_ptr)0);
        mpfr_const_pi(t, MPFR_RNDN);
        mpfr_mul_si(t, t, j, MPFR_RNDN);
        mpfr_div_si(t, t, 64, MPFR_RNDN);
        mpfr_sin_cos(sine[j], cosine[j], t, MPFR_RNDN);
    }
    for (int k = 0; k < PARTS; k++)
        mpfr_init2(moduli[k], DIGITS);
}

void exact_sizes(const float x[N], const float w[N])
{
    for (int n = 0; n < N; n++) {
        mpfr_set_flt(product[n], x[n], MPFR_RNDN);
        mpfr_mul_d(product[n], product[n], (double)w[n], MPFR_RNDN);
    }
    for (int k = 0; k < PARTS; k++) {
        mpfr_set_zero(re, 1);
        mpfr_set_zero(im, 1);
        for (int n = 0; n < N; n++) {
            mpfr_fma(re, product[n], cosine[k * n % N], re, MPFR_RNDN);
            mpfr_fma(im, product[n], sine[k * n % N], im, MPFR_RNDN);
        }
        mpfr_hypot(moduli[k], re, im, MPFR_RNDN);
    }
}

double exact_distance(const struct ear_band *f, uint32_t step)
{
    mpfr_set_zero(sum, 1);
    for (uint32_t k = f->lo; k <= f->hi; k++)
        mpfr_add(sum, sum, moduli[k], MPFR_RNDN);
    mpfr_div_ui(sum, sum, 64, MPFR_RNDN);
    if (mpfr_cmp_d(sum, (double)f->b) <= 0)
        return step - (double)f->t;
    if (mpfr_cmp_d(sum, (double)f->m) >= 0)
        return f->c - (double)step;
    mpfr_set_flt(t, f->b, MPFR_RNDN);
    mpfr_log2(log_b, t, MPFR_RNDN);
    mpfr_log2(exact, sum, MPFR_RNDN);
    mpfr_sub(exact, exact, log_b, MPFR_RNDN);
    mpfr_set_flt(t, f->m, MPFR_RNDN);
    mpfr_log2(t, t, MPFR_RNDN);
    mpfr_sub(t, t, log_b, MPFR_RNDN);
    mpfr_div(exact, exact, t, MPFR_RNDN);
    mpfr_mul_ui(exact, exact, f->c - f->t, MPFR_RNDN);
    mpfr_add_ui(exact, exact, f->t, MPFR_RNDN);
    mpfr_sub_ui(exact, exact, step, MPFR_RNDN);
    return fabs(mpfr_get_d(exact, MPFR_RNDN));
}
