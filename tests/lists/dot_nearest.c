/*
 * The dot product that is the nearest float, against exact sums in MPFR rounded
 * once: adversarial lists, refusals and the untouched result place, any order of
 * adding; then wrong programs, which the same judgement must reject.
 */
#include <inttypes.h>
#include <math.h>
#include <mpfr.h>
#include <string.h>

#include "earmath.h"
#include "judge.h"
#include "report.h"

typedef uint32_t (*dot)(const float *a, uint64_t na, const float *b, uint64_t nb, float *out);

enum { MOST = 4096, LOW = 87, HIGH = 166, LISTS = 15000, DIGITS = 640 };

static float a[MOST + 1], b[MOST + 1];

/* Knuth's generator, from a fixed start, so that a failure can be seen again. */
static uint64_t state = 1;

static uint32_t draw(void)
{
    state = state * 6364136223846793005u + 1442695040888963407u;
    return (uint32_t)(state >> 32);
}

/* A float of either sign whose exponent field is from `low` to `high`. */
static float drawn(uint32_t low, uint32_t high)
{
    return float_of((draw() & 0x807fffff) | (low + draw() % (high - low + 1)) << 23);
}

/* ---- what is due */
static bool accepted(float x)
{
    return x == 0 || (fabsf(x) >= 0x1p-40f && fabsf(x) <= 0x1p40f);
}

static uint32_t due_code(const float *x, uint64_t nx, const float *y, uint64_t ny)
{
    if (nx != ny || nx > MOST)
        return EAR_BAD_LENGTH;
    for (uint64_t i = 0; i < nx; i++)
        if (!accepted(x[i]) || !accepted(y[i]))
            return EAR_OUT_OF_RANGE;
    return EAR_OK;
}

/* Sums below 2^93 of multiples of 2^-126 are exact in 640 digits; the one rounding
 * is to nearest, ties to even. MPFR's sum of two opposite numbers is +0. */
static float due_value(const float *x, const float *y, uint64_t n)
{
    mpfr_t sum, term;
    mpfr_init2(sum, DIGITS);
    mpfr_init2(term, DIGITS);
    mpfr_set_zero(sum, 1);
    for (uint64_t i = 0; i < n; i++) {
        mpfr_set_flt(term, x[i], MPFR_RNDN);
        mpfr_mul_d(term, term, y[i], MPFR_RNDN);
        mpfr_add(sum, sum, term, MPFR_RNDN);
    }
    float value = mpfr_zero_p(sum) ? 0 : mpfr_get_flt(sum, MPFR_RNDN);
    mpfr_clear(term);
    mpfr_clear(sum);
    return value;
}

/* Every bit counts, the sign of zero too. */
static bool keeps(dot call, const float *x, uint64_t nx, const float *y, uint64_t ny)
{
    const uint32_t before = 0x7fa12345;
    uint32_t after = before, due = due_code(x, nx, y, ny);
    float place;
    memcpy(&place, &before, sizeof place);
    uint32_t code = call(x, nx, y, ny, &place);
    memcpy(&after, &place, sizeof after);
    if (code != due)
        return false;
    return after == (due == EAR_OK ? bits_of(due_value(x, y, nx)) : before);
}

/* ---- adversarial lists */
static void every_exponent(size_t n)
{
    for (size_t i = 0; i < n; i++)
        a[i] = drawn(LOW, HIGH), b[i] = drawn(LOW, HIGH);
}

static void near_one(size_t n)
{
    for (size_t i = 0; i < n; i++)
        a[i] = drawn(120, 133), b[i] = drawn(120, 133);
}

static void with_zeros(size_t n)
{
    every_exponent(n);
    for (size_t i = 0; i < n; i++)
        if (draw() % 2)
            (draw() % 2 ? a : b)[i] = draw() % 2 ? 0.0f : -0.0f;
}

/* Every second product is the one before with the other sign, but for the last digit. */
static void nearly_cancelling(size_t n)
{
    for (size_t i = 0; i < n; i++) {
        bool pair = i % 2 == 1;
        a[i] = pair ? -a[i - 1] : drawn(LOW, HIGH);
        b[i] = pair ? float_of(bits_of(b[i - 1]) ^ (draw() & 1)) : drawn(LOW, HIGH);
    }
}

/* All products cancel but the last one, which may be the least: one unit. */
static void cancelling_to_one_unit(size_t n)
{
    for (size_t i = 0; i < n; i++) {
        bool pair = i % 2 == 1;
        a[i] = pair ? -a[i - 1] : drawn(LOW, HIGH);
        b[i] = pair ? b[i - 1] : drawn(LOW, HIGH);
    }
    if (n % 2 == 1)
        a[n - 1] = draw() % 2 ? 0x1p-40f : -0x1p-40f, b[n - 1] = 0x1p-40f;
}

/* A number of 25 digits whose last is set, and now and then a speck that decides: up or down by the least product. */
static void ties(size_t n)
{
    for (size_t i = 0; i < n; i++)
        a[i] = b[i] = 0;
    if (n < 3)
        return;
    int shift = (int)(draw() % 56) - 40;
    uint32_t digits = (draw() & 0x7fffff) | 0x800000;
    a[0] = ldexpf((float)digits, shift), b[0] = draw() % 2 ? 2 : -2;
    a[1] = ldexpf(1, shift), b[1] = copysignf(1, b[0]);
    if (draw() % 3 == 0)
        a[2] = draw() % 2 ? 0x1p-40f : -0x1p-40f, b[2] = 0x1p-40f;
}

static void of_one_sign(size_t n)
{
    for (size_t i = 0; i < n; i++)
        a[i] = fabsf(drawn(LOW, HIGH)), b[i] = fabsf(drawn(LOW, HIGH));
}

static const struct kind {
    const char *words;
    void (*fill)(size_t n);
} kinds[] = {
    {"every exponent", every_exponent},
    {"sizes near 1", near_one},
    {"zeros of both signs among them", with_zeros},
    {"nearly cancelling", nearly_cancelling},
    {"cancelling to one unit", cancelling_to_one_unit},
    {"ties, and ties but for a speck", ties},
    {"products of one sign", of_one_sign},
};

enum { KINDS = sizeof kinds / sizeof kinds[0] };

static uint64_t broken(dot call, const struct kind *k, int lists)
{
    uint64_t wrong = 0;
    for (int i = 0; i < lists; i++) {
        size_t n = i % 500 == 0 ? MOST : draw() % 40;
        k->fill(n);
        wrong += due_code(a, n, b, n) != EAR_OK || !keeps(call, a, n, b, n);
    }
    return wrong;
}

static void of_lists(void)
{
    for (int i = 0; i < KINDS; i++) {
        uint64_t wrong = broken(ear_dot_nearest, &kinds[i], LISTS);
        group(wrong == 0, "%s: %d lists, %" PRIu64 " not the nearest float", kinds[i].words, LISTS, wrong);
    }
}

/* 4,096 products of the greatest and of the least size, of one sign and cancelling. */
static void of_longest_lists(void)
{
    static const float sizes[] = {0x1p40f, 0x1.fffffep39f, 0x1p-40f, 0x1.fffffep-40f, 1};
    bool good = true;
    for (size_t k = 0; k < sizeof sizes / sizeof sizes[0]; k++)
        for (int sign = 0; sign < 3; sign++) {
            for (size_t i = 0; i < MOST; i++)
                a[i] = sign == 1 || (sign == 2 && i % 2) ? -sizes[k] : sizes[k], b[i] = sizes[k];
            good &= keeps(ear_dot_nearest, a, MOST, b, MOST);
            good &= keeps(ear_dot_nearest, a, MOST - 1, b, MOST - 1);
        }
    group(good, "4,096 products of the greatest and of the least size, of one sign and cancelling");
}

/* One bin full to its last digit, and a carry through all the others. */
static void of_carries(void)
{
    bool good = true;
    for (uint32_t e = LOW; e <= HIGH; e++) {
        for (size_t i = 0; i < MOST; i++)
            a[i] = float_of(e << 23 | 0x7fffff), b[i] = float_of((e + i % 4 <= HIGH ? e + i % 4 : e) << 23 | 0x7fffff);
        good &= keeps(ear_dot_nearest, a, MOST, b, MOST);
        a[0] = -0x1p40f, b[0] = 0x1p40f;
        good &= keeps(ear_dot_nearest, a, 2, b, 2);
    }
    group(good, "full bins of every exponent");
}

/* ---- single lists by name */
static void of_cancellation(void)
{
    const float x[] = {1e8f, 1, -1e8f, 1}, one[] = {1, 1, 1, 1};
    float result = 0;
    group(ear_dot_nearest(x, 4, one, 4, &result) == EAR_OK && result == 2, "(1e8, 1, -1e8, 1) times ones gives 2");
}

static void of_zero(void)
{
    const float x[] = {3, -3, -0.0f}, y[] = {5, 5, 7};
    float empty = -1, none = -1;
    bool good = ear_dot_nearest(x, 0, y, 0, &empty) == EAR_OK && bits_of(empty) == 0;
    good &= ear_dot_nearest(x, 3, y, 3, &none) == EAR_OK && bits_of(none) == 0;
    group(good, "n = 0 and a sum of 0 give +0");
}

static void of_order(void)
{
    bool good = true;
    for (int i = 0; i < 2000; i++) {
        size_t n = 2 + draw() % 60;
        kinds[i % KINDS].fill(n);
        float first = 0, second = 0;
        good &= ear_dot_nearest(a, n, b, n, &first) == EAR_OK;
        for (size_t k = n; k-- > 1;) {
            size_t j = draw() % (k + 1);
            float x = a[k], y = b[k];
            a[k] = a[j], b[k] = b[j], a[j] = x, b[j] = y;
        }
        good &= ear_dot_nearest(a, n, b, n, &second) == EAR_OK && bits_of(first) == bits_of(second);
    }
    group(good, "2,000 lists and their elements in another order: the same bits");
}

static void of_lengths(void)
{
    bool good = true;
    near_one(MOST + 1);
    for (size_t n = 0; n < 9; n++)
        for (size_t m = 0; m < 9; m++)
            good &= keeps(ear_dot_nearest, a, n, b, m);
    good &= keeps(ear_dot_nearest, a, MOST, b, MOST) && keeps(ear_dot_nearest, a, MOST + 1, b, MOST + 1);
    good &= keeps(ear_dot_nearest, a, MOST, b, MOST + 1) && keeps(ear_dot_nearest, a, MOST + 1, b, MOST);
    group(good, "lengths: 0 to 8 in pairs, 4,096 accepted, 4,097 refused with code 2");
}

static void of_elements(void)
{
    static const uint32_t edges[] = {
        0x53800000, 0x53800001, 0x54000000, 0x2b800000, 0x2b7fffff, 0x00000001, 0x007fffff, 0x00800000,
        0x7f7fffff, 0x7f800000, 0x7fc00000, 0x7f800001, 0x7fffffff, 0x00000000,
    };
    bool alone = true, longer = true;
    for (size_t i = 0; i < sizeof edges / sizeof edges[0]; i++)
        for (uint32_t sign = 0; sign < 2; sign++)
            for (size_t place = 0; place < 10; place++) {
                near_one(6);
                *(place < 5 ? &a[place] : &b[place - 5]) = float_of(edges[i] | sign << 31);
                alone &= keeps(ear_dot_nearest, a, 5, b, 5);
                *(place < 5 ? &b[place] : &a[place - 5]) = 0;
                alone &= keeps(ear_dot_nearest, a, 5, b, 5);
                longer &= keeps(ear_dot_nearest, a, 5, b, 6);
            }
    group(alone, "elements at the edges of what is accepted, NaNs and infinities, at every place, also beside 0");
    group(longer, "code 2 comes before code 1");
}

/* ---- wrong programs */
static uint32_t judged(const float *x, uint64_t nx, const float *y, uint64_t ny, double (*sum)(double, double), float *out)
{
    uint32_t code = due_code(x, nx, y, ny);
    double s = 0;
    for (uint64_t i = 0; code == EAR_OK && i < nx; i++)
        s = sum(s, (double)x[i] * y[i]);
    if (code == EAR_OK)
        *out = (float)s;
    return code;
}

static double in_double(double s, double t)
{
    return s + t;
}

static double in_float(double s, double t)
{
    return (float)((float)s + (float)t);
}

static uint32_t adds_doubles(const float *x, uint64_t nx, const float *y, uint64_t ny, float *out)
{
    return judged(x, nx, y, ny, in_double, out);
}

static uint32_t adds_floats(const float *x, uint64_t nx, const float *y, uint64_t ny, float *out)
{
    return judged(x, nx, y, ny, in_float, out);
}

/* Ties away from zero: the sum with a speck more of its own sign. */
static uint32_t away_from_zero(const float *x, uint64_t nx, const float *y, uint64_t ny, float *out)
{
    static float more[MOST + 1], by[MOST + 1];
    float result = 0;
    if (due_code(x, nx, y, ny) != EAR_OK || nx == MOST)
        return ear_dot_nearest(x, nx, y, ny, out);
    ear_dot_nearest(x, nx, y, ny, &result);
    memcpy(more, x, nx * sizeof *x);
    memcpy(by, y, ny * sizeof *y);
    more[nx] = copysignf(0x1p-40f, result), by[nx] = result == 0 ? 0 : 0x1p-40f;
    return ear_dot_nearest(more, nx + 1, by, ny + 1, out);
}

static uint32_t leaves_out_the_last(const float *x, uint64_t nx, const float *y, uint64_t ny, float *out)
{
    bool shorter = nx == ny && nx > 1;
    return ear_dot_nearest(x, nx - shorter, y, ny - shorter, out);
}

static uint32_t minus_zero(const float *x, uint64_t nx, const float *y, uint64_t ny, float *out)
{
    uint32_t code = ear_dot_nearest(x, nx, y, ny, out);
    if (code == EAR_OK && *out == 0)
        *out = -0.0f;
    return code;
}

static const struct wrong {
    const char *what;
    dot call;
} wrongs[] = {
    {"one that adds in double precision", adds_doubles},
    {"one that adds floats", adds_floats},
    {"one that rounds ties away from zero", away_from_zero},
    {"one that leaves out the last element", leaves_out_the_last},
    {"one that gives -0 for 0", minus_zero},
};

static void of_wrong_programs(void)
{
    for (size_t i = 0; i < sizeof wrongs / sizeof wrongs[0]; i++) {
        uint64_t wrong = 0;
        for (int k = 0; k < KINDS; k++)
            wrong += broken(wrongs[i].call, &kinds[k], 400);
        group(wrong > 0, "%s: rejected %" PRIu64 " times of %d", wrongs[i].what, wrong, 400 * KINDS);
    }
}

int main(void)
{
    of_lists();
    of_longest_lists();
    of_carries();
    of_cancellation();
    of_zero();
    of_order();
    of_lengths();
    of_elements();
    of_wrong_programs();
    return verdict();
}
