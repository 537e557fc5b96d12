/*
 * The transform of 128 values against exact sums (MPFR, 200 digits): the bound of
 * each part, the sum of squares, +0, codes and untouched results.
 */
#include <math.h>
#include <mpfr.h>
#include <stdint.h>
#include <string.h>

#include "earmath.h"
#include "report.h"

enum { N = 128, PARTS = 65, DIGITS = 200, FRAMES = 60 };

static float x[N], re[PARTS + 1], im[PARTS + 1];
static mpfr_t cosine[N], sine[N], sum, error, bound, largest, errors, sizes, t;

/* Knuth's generator, from a fixed start, so that a failure can be seen again. */
static uint64_t state = 1;

static uint32_t draw(void)
{
    state = state * 6364136223846793005u + 1442695040888963407u;
    return (uint32_t)(state >> 32);
}

static uint32_t bits(float f)
{
    uint32_t b;
    memcpy(&b, &f, sizeof b);
    return b;
}

static float of_bits(uint32_t b)
{
    float f;
    memcpy(&f, &b, sizeof f);
    return f;
}

static void prepare(void)
{
    mpfr_inits2(DIGITS, sum, error, bound, largest, errors, sizes, t, (mpfr_ptr)0);
    for (int j = 0; j < N; j++) {
        mpfr_inits2(DIGITS, cosine[j], sine[j], (mpfr_ptr)0);
        mpfr_const_pi(t, MPFR_RNDN);
        mpfr_mul_si(t, t, j, MPFR_RNDN);
        mpfr_div_si(t, t, 64, MPFR_RNDN);
        mpfr_sin_cos(sine[j], cosine[j], t, MPFR_RNDN);
    }
}

/* The error of one part over its bound; squares go to the two sums. */
static double judge_part(float out, int k, mpfr_t *table, int sign)
{
    mpfr_set_zero(sum, 1);
    for (int n = 0; n < N; n++) {
        mpfr_mul_d(t, table[k * n % N], sign * (double)x[n], MPFR_RNDN);
        mpfr_add(sum, sum, t, MPFR_RNDN);
    }
    mpfr_sub_d(error, sum, (double)out, MPFR_RNDN);
    mpfr_abs(error, error, MPFR_RNDN);
    mpfr_abs(bound, sum, MPFR_RNDN);
    mpfr_sqr(t, bound, MPFR_RNDN);
    mpfr_add(sizes, sizes, t, MPFR_RNDN);
    mpfr_mul_2si(bound, bound, -24, MPFR_RNDN);
    mpfr_mul_2si(t, largest, -42, MPFR_RNDN);
    mpfr_add(bound, bound, t, MPFR_RNDN);
    mpfr_add_d(bound, bound, 0x1p-150, MPFR_RNDN);
    mpfr_sqr(t, error, MPFR_RNDN);
    mpfr_add(errors, errors, t, MPFR_RNDN);
    mpfr_div(t, error, bound, MPFR_RNDN);
    return mpfr_get_d(t, MPFR_RNDU);
}

struct seen {
    double part, all;
    int codes, minus_zeros;
};

static void judge_frame(struct seen *s)
{
    s->codes += ear_transform128(x, N, re, PARTS, im, PARTS) != EAR_OK;
    mpfr_set_zero(largest, 1);
    for (int n = 0; n < N; n++)
        if (mpfr_cmp_d(largest, fabs((double)x[n])) < 0)
            mpfr_set_d(largest, fabs((double)x[n]), MPFR_RNDN);
    mpfr_set_zero(errors, 1);
    mpfr_set_zero(sizes, 1);
    for (int k = 0; k < PARTS; k++) {
        s->part = fmax(s->part, judge_part(re[k], k, cosine, 1));
        s->part = fmax(s->part, judge_part(im[k], k, sine, -1));
        s->minus_zeros += (bits(re[k]) == 0x80000000u) + (bits(im[k]) == 0x80000000u);
    }
    mpfr_sqrt(errors, errors, MPFR_RNDN);
    mpfr_sqrt(sizes, sizes, MPFR_RNDN);
    mpfr_mul_d(sizes, sizes, 1e-7, MPFR_RNDN);
    mpfr_add_d(sizes, sizes, 0x1p-146, MPFR_RNDN);
    mpfr_div(t, errors, sizes, MPFR_RNDN);
    s->all = fmax(s->all, mpfr_get_d(t, MPFR_RNDU));
}

static double uniform(void)
{
    return (double)(int32_t)draw() * 0x1p-31;
}

static const char *const kinds[] = {"noise",          "impulses",          "tones on a bin",      "tones between bins",
                                    "full alternation", "one large among tiny", "values of all sizes", "subnormal frames",
                                    "zeros"};

static float value(int kind, int frame, int n)
{
    switch (kind) {
    case 0: return (float)uniform();
    case 1: return n == frame * 2 % N ? 0x1.fffffep119f : 0;
    case 2: return (float)cos(6.283185307179586 * n * (frame % PARTS) / N);
    case 3: return (float)ldexp(sin(0.37 * n * (1 + frame % 17) + frame), 100 - 4 * frame);
    case 4: return n % 2 == 0 ? 0x1.fffffep119f : -0x1.fffffep119f;
    case 5: return n == frame ? 1.0f : (float)(uniform() * 0x1p-30);
    case 6: return (float)ldexp(uniform(), -(int)(draw() % 100));
    case 7: return of_bits(draw() % (2u << frame % 23) + (draw() % 2 << 31));
    default: return n % 2 == 0 ? 0.0f : -0.0f;
    }
}

static void frames(int kind)
{
    struct seen s = {0};
    for (int f = 0; f < FRAMES; f++) {
        for (int n = 0; n < N; n++)
            x[n] = value(kind, f, n);
        judge_frame(&s);
    }
    group(s.codes == 0 && s.minus_zeros == 0 && s.part <= 1 && s.all <= 1,
          "transform of %s: a part is off by %.4f of its bound at worst, all together by %.4f of theirs", kinds[kind], s.part, s.all);
}

/* Refused with this code, and nothing written. */
static bool refused(uint32_t code, size_t nx, size_t nre, size_t nim)
{
    for (int k = 0; k <= PARTS; k++) {
        re[k] = of_bits(0x7fa00000u + (uint32_t)k);
        im[k] = of_bits(0xffa00000u + (uint32_t)k);
    }
    bool good = ear_transform128(x, nx, re, nre, im, nim) == code;
    for (int k = 0; k <= PARTS; k++)
        good = good && bits(re[k]) == 0x7fa00000u + (uint32_t)k && bits(im[k]) == 0xffa00000u + (uint32_t)k;
    return good;
}

static void refusals(void)
{
    static const uint32_t wrong[] = {0x7b800000u, 0xfb800000u, 0x7f800000u, 0xff800000u, 0x7fc00000u, 0x7f800001u, 0xffffffffu};
    bool elements = true, lengths = true;
    for (int n = 0; n < N; n++)
        x[n] = 1;
    for (size_t i = 0; i < sizeof wrong / sizeof wrong[0]; i++)
        for (int n = 0; n < N; n++) {
            x[n] = of_bits(wrong[i]);
            elements = elements && refused(EAR_OUT_OF_RANGE, N, PARTS, PARTS);
            lengths = lengths && refused(EAR_BAD_LENGTH, N, PARTS, PARTS - 1);
            x[n] = 1;
        }
    group(elements, "transform refuses 2^120, infinities and NaNs at every place, and writes nothing");
    for (size_t d = 0; d <= N; d++) {
        lengths = lengths && (d == N || refused(EAR_BAD_LENGTH, d, PARTS, PARTS));
        lengths = lengths && (d >= PARTS || (refused(EAR_BAD_LENGTH, N, d, PARTS) && refused(EAR_BAD_LENGTH, N, PARTS, d)));
    }
    group(lengths && refused(EAR_BAD_LENGTH, N, PARTS + 1, PARTS) && refused(EAR_BAD_LENGTH, N, PARTS, PARTS + 1),
          "transform refuses other lengths first, and writes nothing");
}

int main(void)
{
    prepare();
    for (size_t kind = 0; kind < sizeof kinds / sizeof kinds[0]; kind++)
        frames((int)kind);
    refusals();
    return verdict();
}
