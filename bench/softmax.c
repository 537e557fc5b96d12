/*
 * Softmax beside straightforward C on two libraries' functions: nanoseconds for
 * an element, the worst relative error, and how often order or equality is
 * broken. Straightforward is a float sum of the powers and one division each.
 * All take turns in every round, and the best round counts.
 */
#include <math.h>
#include <stdint.h>
#include <stdio.h>
#include <stdlib.h>

#include "clock.h"
#include "earmath.h"
#include "straight.h"

float newlib_powf(float x, float y);
float newlib_expf(float x);

enum { LONGEST = 1024, ROUNDS = 200, CALLS = 40, LISTS = 2000, CONTESTANTS = 3 };

static float newlib_exp2f(float x)
{
    return newlib_powf(2, x);
}

typedef uint32_t (*contestant)(const float *x, size_t n, float *p);

#define CONTESTANT(name, call) \
    static uint32_t name(const float *x, size_t n, float *p) \
    { \
        return call; \
    }

CONTESTANT(ours_2, ear_softmax2(x, n, p, n))
CONTESTANT(newlib_2, straight_softmax(newlib_exp2f, x, n, p))
CONTESTANT(glibc_2, straight_softmax(exp2f, x, n, p))
CONTESTANT(ours_e, ear_softmax(x, n, p, n))
CONTESTANT(newlib_e, straight_softmax(newlib_expf, x, n, p))
CONTESTANT(glibc_e, straight_softmax(expf, x, n, p))

/* The two bases: ours, newlib and glibc, and the exact power. */
static const struct base {
    const char *name;
    contestant contestants[CONTESTANTS];
    long double (*power)(long double x);
} bases[] = {
    {"ear_softmax2", {ours_2, newlib_2, glibc_2}, exp2l},
    {"ear_softmax", {ours_e, newlib_e, glibc_e}, expl},
};

enum { BASES = sizeof bases / sizeof bases[0] };

static float x[LONGEST], p[LONGEST];

/* Elements spread evenly about 0. */
static void fill(size_t n, float spread)
{
    static uint64_t state = 1;
    for (size_t i = 0; i < n; i++) {
        state = state * 6364136223846793005u + 1442695040888963407u;
        x[i] = (float)(int32_t)(state >> 32) * 0x1p-32f * spread;
    }
}

static void speed(const struct base *b, size_t n)
{
    double best[CONTESTANTS] = {INFINITY, INFINITY, INFINITY};
    for (int round = 0; round < ROUNDS; round++) {
        fill(n, 20);
        for (int who = 0; who < CONTESTANTS; who++) {
            double start = now();
            for (int i = 0; i < CALLS; i++) {
                b->contestants[who](x, n, p);
                x[i] = p[i]; /* each call waits for the one before */
            }
            best[who] = fmin(best[who], (now() - start) / CALLS / (double)n);
        }
    }
    printf("%-12s, n = %-5zu %10.2f %10.2f %10.2f %12.2f %12.2f\n", b->name, n, best[0], best[1], best[2], best[1] / best[0],
           best[2] / best[0]);
}

struct pair {
    float x, p;
};

static int by_input(const void *left, const void *right)
{
    float a = ((const struct pair *)left)->x, b = ((const struct pair *)right)->x;
    return (a > b) - (a < b);
}

struct score {
    uint32_t outputs, broken;
    double worst;
};

/* Where the quotient is at least 2^-100; long double's own error is 2^-60. */
static void score(struct score *s, const struct base *b, int who, size_t n)
{
    struct pair pairs[LONGEST];
    long double sum = 0;
    b->contestants[who](x, n, p);
    for (size_t i = 0; i < n; i++)
        sum += b->power(x[i]);
    for (size_t i = 0; i < n; i++) {
        long double exact = b->power(x[i]) / sum;
        if (exact >= 0x1p-100L)
            s->worst = fmax(s->worst, (double)(fabsl(p[i] - exact) / exact));
        pairs[i] = (struct pair){x[i], p[i]};
    }
    qsort(pairs, n, sizeof pairs[0], by_input);
    for (size_t i = 1; i < n; i++)
        s->broken += pairs[i - 1].p > pairs[i].p || (pairs[i - 1].x == pairs[i].x && pairs[i - 1].p != pairs[i].p);
    s->outputs += (uint32_t)n;
}

static void quality(const struct base *b, size_t n, float spread)
{
    struct score s[CONTESTANTS] = {{0}};
    for (int list = 0; list < LISTS; list++) {
        fill(n, spread);
        for (int who = 0; who < CONTESTANTS; who++)
            score(&s[who], b, who, n);
    }
    printf("%-12s %5zu %10g %10u  2^%.3f 2^%.3f 2^%.3f        %u %u %u\n", b->name, n, (double)spread, (unsigned)s[0].outputs,
           log2(s[0].worst), log2(s[1].worst), log2(s[2].worst), (unsigned)s[0].broken, (unsigned)s[1].broken,
           (unsigned)s[2].broken);
}

int main(void)
{
    puts("\nNanoseconds for an element beside straightforward C on newlib's and glibc's functions.\n");
    printf("%-23s %10s %10s %10s %12s %12s\n", "", "ours", "newlib", "glibc", "newlib/ours", "glibc/ours");
    for (int i = 0; i < BASES; i++) {
        speed(&bases[i], 64);
        speed(&bases[i], 1024);
    }
    puts("\nThe worst relative error where the quotient is at least 2^-100, and outputs out of order.\n");
    printf("%-12s %5s %10s %10s  %-27s %s\n", "", "n", "spread", "outputs", "worst: ours, newlib, glibc",
           "broken: ours, newlib, glibc");
    for (int i = 0; i < BASES; i++) {
        quality(&bases[i], 64, 0x1p-12f);
        quality(&bases[i], 64, 20);
        quality(&bases[i], 64, 120);
        quality(&bases[i], 1024, 20);
    }
    return 0;
}
