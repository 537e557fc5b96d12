#include "softmaxes.h"

#include <math.h>
#include <mpfr.h>
#include <stdlib.h>
#include <string.h>

#include "earmath.h"
#include "judge.h"

/* Bits of each number here: a quotient is then enclosed within 2^-80 of itself,
 * and a sum of at most 1,024 floats from 0 to 1 is exact. */
enum { PRECISION = 192, GUARD = 2 };

static const uint32_t sentinel = 0xa5a5a5a5;

const char *const softmax_fault_names[SOFTMAX_FAULTS] = {
    "a wrong code",
    "memory that was touched",
    "an output outside of 0 to 1",
    "an output too far from the quotient",
    "a larger input with a smaller output",
    "equal inputs with different outputs",
    "a sum too far from 1",
};

const struct softmax_limits proved = {273 * 0x1p-32, 1, 263 * 0x1p-32};
const struct softmax_limits asked = {0x1p-17, 0x1p49, 0x1p-20};

static struct between {
    mpfr_t low, high;
} powers[LONGEST], total, quotient;

static mpfr_t sum, gap;

static int (*power)(mpfr_t to, const mpfr_t from, mpfr_rnd_t way) = mpfr_exp2;

void use_base(bool natural)
{
    power = natural ? mpfr_exp : mpfr_exp2;
}

static void open_between(struct between *x)
{
    mpfr_init2(x->low, PRECISION);
    mpfr_init2(x->high, PRECISION);
}

static void close_between(struct between *x)
{
    mpfr_clear(x->low);
    mpfr_clear(x->high);
}

void open_softmaxes(void)
{
    for (int i = 0; i < LONGEST; i++)
        open_between(&powers[i]);
    open_between(&total);
    open_between(&quotient);
    mpfr_init2(sum, PRECISION);
    mpfr_init2(gap, PRECISION);
}

void close_softmaxes(void)
{
    for (int i = 0; i < LONGEST; i++)
        close_between(&powers[i]);
    close_between(&total);
    close_between(&quotient);
    mpfr_clear(sum);
    mpfr_clear(gap);
    mpfr_free_cache();
}

/* The powers of all elements, and their sum. */
static void enclose(const float *x, size_t n)
{
    mpfr_set_ui(total.low, 0, MPFR_RNDD);
    mpfr_set_ui(total.high, 0, MPFR_RNDU);
    for (size_t i = 0; i < n; i++) {
        mpfr_set_flt(gap, x[i], MPFR_RNDN);
        bool exact = power(powers[i].low, gap, MPFR_RNDD) == 0;
        mpfr_set(powers[i].high, powers[i].low, MPFR_RNDU);
        if (!exact)
            mpfr_nextabove(powers[i].high);
        mpfr_add(total.low, total.low, powers[i].low, MPFR_RNDD);
        mpfr_add(total.high, total.high, powers[i].high, MPFR_RNDU);
    }
}

/* The quotient of one element. */
static void divide(size_t i)
{
    mpfr_div(quotient.low, powers[i].low, total.high, MPFR_RNDD);
    mpfr_div(quotient.high, powers[i].high, total.low, MPFR_RNDU);
}

void quotient_digits(char *text, size_t size, const float *x, size_t n, size_t i, int digits)
{
    enclose(x, n);
    divide(i);
    mpfr_snprintf(text, size, "%.*RDg", digits, quotient.low);
}

/* p is at most (1 + e) q and at least (1 - e) q less some units: whatever the
 * quotient within its enclosure is. */
static bool near(float p, const struct softmax_limits *limits)
{
    mpfr_mul_d(gap, quotient.low, 1 + limits->relative, MPFR_RNDU);
    mpfr_add_d(gap, gap, limits->units > 1 ? 0x1p-149 * limits->units : 0, MPFR_RNDU);
    bool below = mpfr_cmp_d(gap, p) >= 0;
    mpfr_mul_d(gap, quotient.high, 1 - limits->relative, MPFR_RNDU);
    mpfr_sub_d(gap, gap, 0x1p-149 * limits->units, MPFR_RNDU);
    return below && mpfr_cmp_d(gap, p) <= 0;
}

static void judge_near(struct softmax_tally *t, size_t i, float p, const struct softmax_limits *limits)
{
    divide(i);
    t->seen[SOFTMAX_NEAR] += !near(p, limits);
    mpfr_sub_d(gap, quotient.low, p, MPFR_RNDN);
    mpfr_abs(gap, gap, MPFR_RNDN);
    if (mpfr_cmp_d(quotient.low, 0x1p-125) >= 0) {
        mpfr_div(gap, gap, quotient.low, MPFR_RNDU);
        t->worst = fmax(t->worst, mpfr_get_d(gap, MPFR_RNDU));
    } else {
        t->worst_units = fmax(t->worst_units, mpfr_get_d(gap, MPFR_RNDU) * 0x1p149);
    }
}

struct pair {
    float x, p;
};

static int by_input(const void *left, const void *right)
{
    float x = ((const struct pair *)left)->x, y = ((const struct pair *)right)->x;
    return (x > y) - (x < y);
}

static void judge_pairs(struct softmax_tally *t, const float *x, const float *p, size_t n)
{
    struct pair pairs[LONGEST];
    for (size_t i = 0; i < n; i++)
        pairs[i] = (struct pair){x[i], p[i]};
    qsort(pairs, n, sizeof pairs[0], by_input);
    for (size_t i = 1; i < n; i++) {
        t->seen[SOFTMAX_ORDER] += pairs[i - 1].p > pairs[i].p;
        t->seen[SOFTMAX_EQUAL] += pairs[i - 1].x == pairs[i].x && bits_of(pairs[i - 1].p) != bits_of(pairs[i].p);
    }
}

static void judge_whole(struct softmax_tally *t, const float *p, size_t n, const struct softmax_limits *limits)
{
    mpfr_set_si(sum, -1, MPFR_RNDN);
    for (size_t i = 0; i < n; i++)
        mpfr_add_d(sum, sum, p[i], MPFR_RNDN);
    double off = fabs(mpfr_get_d(sum, MPFR_RNDA));
    t->seen[SOFTMAX_WHOLE] += off > limits->whole;
    t->worst_whole = fmax(t->worst_whole, off);
}

static uint32_t due_code(const float *x, uint64_t nx, uint64_t np)
{
    if (nx != np || nx == 0 || nx > LONGEST)
        return EAR_BAD_LENGTH;
    for (size_t i = 0; i < nx; i++)
        if (!(fabsf(x[i]) <= 64))
            return EAR_OUT_OF_RANGE;
    return EAR_OK;
}

/* Everything but the first `written` places of the output holds the sentinel. */
static bool untouched(const uint32_t *memory, size_t places, size_t written)
{
    for (size_t i = 0; i < places + 2 * GUARD; i++)
        if ((i < GUARD || i >= GUARD + written) && memory[i] != sentinel)
            return false;
    return true;
}

static void judge_outputs(struct softmax_tally *t, const float *x, const float *p, size_t n,
                          const struct softmax_limits *limits)
{
    enclose(x, n);
    for (size_t i = 0; i < n; i++) {
        t->seen[SOFTMAX_INSIDE] += !(p[i] >= 0 && p[i] <= 1);
        judge_near(t, i, p[i], limits);
    }
    t->outputs += n;
    judge_pairs(t, x, p, n);
    judge_whole(t, p, n, limits);
}

void judge_softmax(struct softmax_tally *t, softmax call, const float *x, uint64_t nx, uint64_t np,
                   const struct softmax_limits *limits)
{
    static uint32_t memory[LONGEST + 1 + 2 * GUARD];
    static float p[LONGEST];
    for (size_t i = 0; i < np + 2 * GUARD; i++)
        memory[i] = sentinel;
    uint32_t due = due_code(x, nx, np), code = call(x, nx, (float *)(memory + GUARD), np);
    t->calls++;
    t->codes[due]++;
    t->seen[SOFTMAX_CODE] += code != due;
    t->seen[SOFTMAX_TOUCHED] += !untouched(memory, np, due == EAR_OK ? np : 0);
    if (code != EAR_OK || due != EAR_OK)
        return;
    memcpy(p, memory + GUARD, np * sizeof p[0]);
    judge_outputs(t, x, p, nx, limits);
}

uint64_t softmax_faults_in(const struct softmax_tally *t)
{
    uint64_t all = 0;
    for (int fault = 0; fault < SOFTMAX_FAULTS; fault++)
        all += t->seen[fault];
    return all;
}
