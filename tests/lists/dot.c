/*
 * The dot product against exact sums in whole numbers: codes, the untouched
 * result place, the bound, and the value in the stated order; then wrong
 * programs, which the same judgement must reject.
 */
#include <float.h>
#include <inttypes.h>
#include <math.h>
#include <stdio.h>
#include <string.h>

#include "dots.h"
#include "earmath.h"
#include "exact.h"
#include "hardest.h"
#include "judge.h"
#include "report.h"

static float a[MOST + 1], b[MOST + 1];

/* Knuth's generator, from a fixed start, so that a failure can be seen again. */
static uint64_t state = 1;

static uint32_t draw(void)
{
    state = state * 6364136223846793005u + 1442695040888963407u;
    return (uint32_t)(state >> 32);
}

/* A float of either sign whose exponent field is one of `many` from `low` on. */
static float drawn(uint32_t low, uint32_t many)
{
    return float_of((draw() & 0x807fffff) | (low + draw() % many) << 23);
}

/* Kinds of lists: the exponents of the elements, and what is done to them. */
static const struct kind {
    const char *words;
    uint32_t low, many;
    bool cancels;
} kinds[] = {
    {"sizes near 1", 120, 14, false},
    {"every exponent", 0, 255, false},
    {"huge: products near the greatest float", 185, 8, false},
    {"tiny: products at the least normal", 55, 16, false},
    {"subnormal products", 40, 24, false},
    {"products that are lost: below the least float", 0, 52, false},
    {"subnormal elements", 0, 1, false},
    {"cancellation: near 1", 120, 14, true},
    {"cancellation: huge", 185, 8, true},
    {"cancellation: tiny", 40, 30, true},
};

enum { KINDS = sizeof kinds / sizeof kinds[0], LISTS = 4000 };

/* Every second product is the one before with the other sign, but for the last
 * digit of a factor. */
static void fill(const struct kind *k, size_t n)
{
    for (size_t i = 0; i < n; i++) {
        bool pair = k->cancels && i % 2 == 1;
        a[i] = pair ? -a[i - 1] : drawn(k->low, k->many);
        b[i] = pair ? float_of(bits_of(b[i - 1]) ^ (draw() & 1)) : drawn(k->low, k->many);
    }
}

/* A large product, and small ones that a plain loop loses to one side. */
static void drift(size_t n)
{
    for (size_t i = 0; i < n; i++)
        a[i] = i == 0 ? 0x1p20f : 0x1.fffffep-5f, b[i] = 1;
}

static struct dot_tally random_lists(dot call, const struct kind *k)
{
    struct dot_tally t = {0};
    for (int i = 0; i < LISTS; i++) {
        size_t n = draw() % (i % 100 == 0 ? 2000 : 66);
        fill(k, n);
        judge_dot(&t, call, a, n, b, n);
    }
    return t;
}

static uint64_t faults(const struct dot_tally *t)
{
    uint64_t all = 0;
    for (int fault = 0; fault < DOT_FAULTS; fault++)
        all += t->seen[fault];
    return all;
}

static void report_lists(const char *words, const struct dot_tally *t)
{
    group(faults(t) == 0,
          "%s: %" PRIu64 " lists, %" PRIu64 " sums and %" PRIu64 " overflows, error at most %.3f of the bound", words,
          t->calls, t->codes[EAR_OK], t->codes[EAR_OVERFLOW], t->worst);
}

/* The exact sums themselves, where 64 bits hold them too. */
static void of_exact_sums(void)
{
    struct exact sum = {{0}};
    int64_t whole = 0;
    bool good = true;
    for (int i = 0; i < 1000; i++) {
        int32_t x = (int32_t)draw() >> 8, y = (int32_t)draw() >> 16;
        exact_add(&sum, exact_product((float)x * 0x1p-100f, (float)y * 0x1p100f));
        whole += (int64_t)x * y;
        good &= exact_value(sum) == (double)whole;
    }
    group(good, "exact sums agree with whole numbers of 64 bits");
}

static void of_random_lists(void)
{
    for (int i = 0; i < KINDS; i++) {
        struct dot_tally t = random_lists(ear_dot, &kinds[i]);
        report_lists(kinds[i].words, &t);
    }
}

/* The longest lists: random ones, and one whose additions all round the same way in a plain loop. */
static void of_longest_lists(void)
{
    struct dot_tally t = {0};
    for (int i = 0; i < KINDS; i++) {
        fill(&kinds[i], MOST);
        judge_dot(&t, ear_dot, a, MOST, b, MOST);
    }
    drift(MOST);
    judge_dot(&t, ear_dot, a, MOST, b, MOST);
    report_lists("n = 65,536", &t);
}

/* Every length up to 1,100, so every shape of the last blocks, and those next to larger powers of two. */
static void of_every_length(void)
{
    struct dot_tally t = {0};
    for (size_t n = 1; n <= 1100; n++) {
        fill(&kinds[n % KINDS], n);
        judge_dot(&t, ear_dot, a, n, b, n);
    }
    for (size_t power = 2048; power <= MOST; power *= 2)
        for (size_t n = power - 1; n <= power + 1 && n <= MOST; n++) {
            fill(&kinds[0], n);
            judge_dot(&t, ear_dot, a, n, b, n);
        }
    report_lists("every n up to 1,100, and about larger powers of two", &t);
}

/* Lists whose errors add up: the bound is nearly reached for two products, and two thirds of it for any number of levels. */
static void of_hardest_lists(void)
{
    uint64_t seen = 0;
    double least = 1;
    printf("     errors that add up, as parts of the bound, n = 1, 2, 4, .. 65,536:");
    for (int levels = 0; levels <= MOST_LEVELS; levels++) {
        struct dot_tally t = {0};
        size_t n = (size_t)1 << levels;
        hardest(a, b, levels);
        judge_dot(&t, ear_dot, a, n, b, n);
        seen += faults(&t);
        least = fmin(least, t.worst);
        printf(" %.3f", t.worst);
    }
    printf("\n");
    group(seen == 0 && least > 0.66, "lists made so that errors add up keep the bound, and use %.3f of it or more", least);
}

/* ---- single lists by name */
static bool says(const float *x, uint64_t nx, const float *y, uint64_t ny, uint32_t code)
{
    struct dot_tally t = {0};
    judge_dot(&t, ear_dot, x, nx, y, ny);
    return faults(&t) == 0 && t.codes[code] == 1;
}

static void ones(size_t n)
{
    for (size_t i = 0; i < n; i++)
        a[i] = b[i] = 1;
}

static void of_lengths(void)
{
    float result = -1;
    bool empty = ear_dot(a, 0, b, 0, &result) == EAR_OK && bits_of(result) == 0;
    group(empty && says(a, 0, b, 0, EAR_OK), "n = 0 gives +0");
    a[0] = -3, b[0] = 0x1.555556p-2f;
    group(says(a, 1, b, 1, EAR_OK), "n = 1 gives the rounded product");
    bool negative = true;
    for (size_t n = 1; n <= 300; n++) {
        a[n - 1] = -0.0f, b[n - 1] = 1;
        negative &= says(a, n, b, n, EAR_OK) && ear_dot(a, n, b, n, &result) == EAR_OK && bits_of(result) == 0x80000000;
    }
    group(negative, "products that are all -0 give -0, for n = 1 to 300");
    ones(MOST + 1);
    group(says(a, MOST, b, MOST, EAR_OK) && says(a, MOST + 1, b, MOST + 1, EAR_BAD_LENGTH),
          "65,536 elements are accepted, 65,537 are refused with code 2");
    bool good = true;
    for (size_t n = 0; n < 9; n++)
        for (size_t m = 0; m < 9; m++)
            good &= says(a, n, b, m, n == m ? EAR_OK : EAR_BAD_LENGTH);
    good &= says(a, MOST, b, MOST + 1, EAR_BAD_LENGTH) && says(a, MOST + 1, b, MOST, EAR_BAD_LENGTH);
    good &= says(a, MOST, b, MOST - 1, EAR_BAD_LENGTH) && says(a, 0, b, MOST, EAR_BAD_LENGTH);
    group(good, "lists of different lengths are refused with code 2");
}

static void of_overflows(void)
{
    static const float big = 0x1p100f, top = FLT_MAX;
    const float product[] = {1, big, 1}, sum[] = {top, top, -top}, last[] = {0x1p126f, 0x1p126f, 0x1p127f};
    const float stays[] = {top, 0x1p-149f, 0x1p102f}, passes[] = {top, 0x1p103f}, back[] = {big, -big};
    const float one[] = {1, 1, 1, 1};
    group(says(product, 3, product, 3, EAR_OVERFLOW), "an overflow in a product has code 3");
    group(says(sum, 3, one, 3, EAR_OVERFLOW), "an overflow in a sum has code 3, though the exact sum is finite");
    group(says(last, 3, one, 3, EAR_OVERFLOW) && says(last, 2, one, 2, EAR_OK),
          "an overflow only in the final sum has code 3");
    group(says(back, 2, product + 1, 2, EAR_OVERFLOW) && says(back, 2, (float[]){big, big}, 2, EAR_OVERFLOW),
          "infinities of two signs, whose sum is a NaN, have code 3");
    const float loop_only[] = {0x1p127f, 0, 0x1p127f, -0x1p127f}, pairs_only[] = {-0x1p127f, 0, 0x1p127f, 0x1p127f};
    group(says(loop_only, 4, one, 4, EAR_OK) && says(pairs_only, 4, one, 4, EAR_OVERFLOW),
          "the order decides: what overflows in a plain loop alone is a sum, what does in pairs alone has code 3");
    group(says(stays, 3, one, 3, EAR_OK) && says(passes, 2, one, 2, EAR_OVERFLOW),
          "what rounds to the greatest float is a sum, what rounds past it has code 3");
}

/* A NaN or an infinity at each place of either list, in lists whose sum is
 * fine, in lists that overflow besides, and in lists of a bad length. */
static void of_elements(void)
{
    static const uint32_t bad[] = {
        0x7f800000, 0xff800000, 0x7fc00000, 0xffc00000, 0x7f800001, 0xffbfffff, 0x7fffffff,
    };
    static const size_t lengths[] = {1, 2, 3, 4, 5, 8, 16, 63, 64, 65};
    bool alone = true, besides = true, longer = true;
    for (size_t i = 0; i < sizeof bad / sizeof bad[0]; i++)
        for (size_t j = 0; j < sizeof lengths / sizeof lengths[0]; j++)
            for (size_t place = 0; place < 2 * lengths[j]; place++) {
                size_t n = lengths[j];
                float *at = place < n ? &a[place] : &b[place - n], *with = place < n ? &b[place] : &a[place - n];
                ones(n + 1);
                *at = float_of(bad[i]);
                alone &= says(a, n, b, n, EAR_OUT_OF_RANGE);
                *with = 0;
                alone &= says(a, n, b, n, EAR_OUT_OF_RANGE);
                *with = float_of(bad[(i + 3) % 7]);
                alone &= says(a, n, b, n, EAR_OUT_OF_RANGE);
                longer &= says(a, n, b, n + 1, EAR_BAD_LENGTH);
                a[n] = b[n] = 0x1p127f;
                besides &= says(a, n + 1, b, n + 1, EAR_OUT_OF_RANGE);
            }
    group(alone, "a NaN or an infinity has code 1 at every place of either list, beside 1, 0 and another one");
    group(besides, "code 1 comes before code 3");
    group(longer, "code 2 comes before code 1");
}

/* The sum of document 02, Q10, whose terms cancel: the bound allows 0 for 2. */
static void of_cancellation(void)
{
    const float x[] = {1e8f, 1, -1e8f, 1}, one[] = {1, 1, 1, 1};
    float result;
    group(says(x, 4, one, 4, EAR_OK) && ear_dot(x, 4, one, 4, &result) == EAR_OK && result == 0,
          "(1e8, 1, -1e8, 1) times ones gives 0 where the exact sum is 2, within the bound");
}

/* ---- wrong programs */
static uint32_t leaves_out_the_last(const float *x, uint64_t nx, const float *y, uint64_t ny, float *out)
{
    bool shorter = nx == ny && nx > 1;
    return ear_dot(x, nx - shorter, y, ny - shorter, out);
}

static uint32_t subtracts(const float *x, uint64_t nx, const float *y, uint64_t ny, float *out)
{
    uint32_t code = ear_dot(x, nx, y, ny, out);
    if (code == EAR_OK)
        *out = -*out;
    return code;
}

static uint32_t hides_overflow(const float *x, uint64_t nx, const float *y, uint64_t ny, float *out)
{
    uint32_t code = ear_dot(x, nx, y, ny, out);
    if (code == EAR_OVERFLOW)
        *out = INFINITY;
    return code == EAR_OVERFLOW ? EAR_OK : code;
}

static uint32_t writes_before_it_refuses(const float *x, uint64_t nx, const float *y, uint64_t ny, float *out)
{
    *out = 0;
    return ear_dot(x, nx, y, ny, out);
}

static uint32_t takes_the_shorter(const float *x, uint64_t nx, const float *y, uint64_t ny, float *out)
{
    size_t n = nx < ny ? nx : ny;
    return ear_dot(x, n, y, n, out);
}

static uint32_t one_code_for_both(const float *x, uint64_t nx, const float *y, uint64_t ny, float *out)
{
    uint32_t code = ear_dot(x, nx, y, ny, out);
    return code == EAR_OVERFLOW ? EAR_OUT_OF_RANGE : code;
}

static uint32_t adds_from_the_end(const float *x, uint64_t nx, const float *y, uint64_t ny, float *out)
{
    static float from[MOST + 1], with[MOST + 1];
    for (size_t i = 0; i < nx; i++)
        from[i] = x[nx - 1 - i];
    for (size_t i = 0; i < ny; i++)
        with[i] = y[ny - 1 - i];
    return ear_dot(from, nx, with, ny, out);
}

/* The order of before: each product in turn. */
static uint32_t adds_in_turn(const float *x, uint64_t nx, const float *y, uint64_t ny, float *out)
{
    float sum = 0;
    if (due_code(x, nx, y, ny) != EAR_OK)
        return due_code(x, nx, y, ny);
    for (size_t i = 0; i < nx; i++)
        sum += x[i] * y[i];
    *out = sum;
    return EAR_OK;
}

static const struct wrong {
    const char *what;
    dot call;
    enum dot_fault fault;
} wrongs[] = {
    {"a dot product that leaves out the last element", leaves_out_the_last, DOT_BOUND},
    {"one that subtracts", subtracts, DOT_BOUND},
    {"one that takes an overflow for a result", hides_overflow, DOT_CODE},
    {"one that writes before it refuses", writes_before_it_refuses, DOT_TOUCHED},
    {"one that takes the shorter length", takes_the_shorter, DOT_CODE},
    {"one with code 1 for code 3", one_code_for_both, DOT_CODE},
    {"one that adds in pairs from the end", adds_from_the_end, DOT_VALUE},
    {"one that adds in turn", adds_in_turn, DOT_VALUE},
    {"and with an error that grows with n", adds_in_turn, DOT_BOUND},
};

enum { WRONGS = sizeof wrongs / sizeof wrongs[0] };

static void reject(const struct wrong *w)
{
    struct dot_tally t = {0};
    for (int i = 0; i < KINDS; i++) {
        struct dot_tally kind = random_lists(w->call, &kinds[i]);
        t.calls += kind.calls;
        t.seen[w->fault] += kind.seen[w->fault];
    }
    ones(3);
    judge_dot(&t, w->call, a, 2, b, 3);
    drift(MOST);
    judge_dot(&t, w->call, a, MOST, b, MOST);
    group(t.seen[w->fault] > 0, "%s: rejected %" PRIu64 " times of %" PRIu64 " (%s)", w->what, t.seen[w->fault],
          t.calls, dot_fault_names[w->fault]);
}

/* A judgement that rejects everything would pass all of the above. */
static void the_bound_is_not_too_tight(void)
{
    struct dot_tally t = random_lists(adds_from_the_end, &kinds[0]);
    group(t.seen[DOT_BOUND] == 0, "one that adds in pairs from the end keeps the bound, which holds for every order of so many levels");
}

int main(void)
{
    of_exact_sums();
    of_random_lists();
    of_longest_lists();
    of_every_length();
    of_hardest_lists();
    of_lengths();
    of_overflows();
    of_elements();
    of_cancellation();
    for (int i = 0; i < WRONGS; i++)
        reject(&wrongs[i]);
    the_bound_is_not_too_tight();
    return verdict();
}
