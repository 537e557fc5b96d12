/*
 * Every one of the 2^32 patterns through every function of one argument, or
 * through those that are named on the command line. Patterns are taken in the
 * order of their values, so that order is judged across the whole range. Built
 * with the table others.h it judges and measures other libraries' functions in
 * the same way.
 */
#include <inttypes.h>
#include <stdio.h>
#include <string.h>

#ifndef TABLE
#define TABLE "functions.h"
#endif

#include "blocks.h"
#include TABLE
#include "report.h"
#include "stretches.h"

struct worst {
    double error;
    uint32_t at;
};

struct share {
    const struct function *f;
    struct tally tally;
    struct worst ulps, relative, absolute;
    struct stretches stretches;
};

/* Of equal errors the least pattern, so that two runs print the same one. */
static void keep_worse(struct worst *w, double error, uint32_t at)
{
    if (!(error <= w->error) || (error == w->error && at < w->at))
        *w = (struct worst){error, at};
}

/* The distance of neighbouring floats around a value; subnormals share one. */
static double spacing_at(double value)
{
    int exponent;
    frexp(value, &exponent);
    return ldexp(1, (exponent < -125 ? -125 : exponent) - 24);
}

/* A bound on the absolute error alone: relatively, and in ulp, a result near zero may be anything. */
static bool absolute_only(const struct function *f)
{
    return f->right == near_wave || f->right == near_wave_of_pi;
}

static void measure(struct share *s, struct deed d)
{
    float x = float_of(d.x);
    double exact = accepts(s->f, x) ? s->f->exact(x) : 0;
    if (exact == 0)
        return;
    double error = fabs(d.result - exact), relative = error / fabs(exact);
    keep_worse(&s->relative, relative, d.x);
    keep_worse(&s->absolute, error, d.x);
    keep_in_stretch(&s->stretches, s->f, x, absolute_only(s->f) ? error : relative);
    /* for normal results an error in ulp is below 2^24 times the relative one:
     * a test that spares most of the calls of frexp and ldexp */
    if (relative * 0x1p24 < s->ulps.error && fabs(exact) >= 0x1p-126)
        return;
    keep_worse(&s->ulps, error / spacing_at(exact), d.x);
}

static void sweep_block(void *share, uint32_t from)
{
    struct share *s = share;
    struct deed before = deed_at(s->f, pattern_at(from == 0 ? 0 : from - 1));
    for (uint32_t i = 0; i < BLOCK; i++) {
        struct deed here = deed_at(s->f, pattern_at(from + i));
        judge(&s->tally, s->f, here);
        judge_order(&s->tally, s->f, before, here);
        measure(s, here);
        before = here;
    }
}

static void add(struct share *sum, const struct share *s)
{
    sum->tally.accepted += s->tally.accepted;
    sum->tally.refused += s->tally.refused;
    for (int fault = 0; fault < FAULTS; fault++) {
        if (sum->tally.seen[fault] == 0)
            sum->tally.first[fault] = s->tally.first[fault];
        sum->tally.seen[fault] += s->tally.seen[fault];
    }
    keep_worse(&sum->ulps, s->ulps.error, s->ulps.at);
    keep_worse(&sum->relative, s->relative.error, s->relative.at);
    keep_worse(&sum->absolute, s->absolute.error, s->absolute.at);
    add_stretches(&sum->stretches, &s->stretches);
}

static void say(const struct share *s)
{
    const char *name = s->f->name;
    const struct tally *t = &s->tally;
    group(t->accepted + t->refused == UINT64_C(1) << 32,
          "%s: all 2^32 patterns, %" PRIu64 " accepted, %" PRIu64 " refused", name, t->accepted, t->refused);
    group_faults(s->f, t);
    fflush(stdout); /* in a log, before the next function's progress */
}

static struct share every(const struct function *f)
{
    struct share shares[MOST_THREADS];
    for (int i = 0; i < threads(); i++)
        shares[i] = (struct share){.f = f};
    all_blocks(f->name, sweep_block, shares, sizeof shares[0]);
    for (int i = 1; i < threads(); i++)
        add(&shares[0], &shares[i]);
    say(&shares[0]);
    if (!write_stretches(&shares[0].stretches, f, absolute_only(f)))
        group(false, "%s: build/errors is not a folder to write to", f->name);
    return shares[0];
}

/* The worst errors in powers of two, each with its input's pattern. */
static void table(const struct share *shares, int count)
{
    printf("\n%-15s %-17s %-19s %-19s %12s %13s\n", "worst error", "in ulp, at", "relative, at", "absolute, at",
           "beyond bound", "order broken");
    for (int i = 0; i < count; i++) {
        const struct share *s = &shares[i];
        if (absolute_only(s->f))
            printf("%-15s %-17s %-19s", s->f->name, "-", "-");
        else
            printf("%-15s %.4f %08" PRIx32 "   2^%-8.3f %08" PRIx32, s->f->name, s->ulps.error, s->ulps.at,
                   log2(s->relative.error), s->relative.at);
        printf(" 2^%-8.3f %08" PRIx32 " %12" PRIu64, log2(s->absolute.error), s->absolute.at, s->tally.seen[WRONG_VALUE]);
        if (s->f->order == ANY_ORDER)
            printf(" %13s\n", "-");
        else
            printf(" %13" PRIu64 "\n", s->tally.seen[OUT_OF_ORDER]);
    }
    putchar('\n');
}

static bool named(const struct function *f, int count, char **names)
{
    bool found = count == 0;
    for (int i = 0; i < count; i++)
        found |= strcmp(names[i], f->name) == 0;
    return found;
}

int main(int count, char **words)
{
    struct share shares[FUNCTIONS];
    int done = 0;
    for (int i = 0; i < FUNCTIONS; i++)
        if (named(&functions[i], count - 1, words + 1))
            shares[done++] = every(&functions[i]);
    table(shares, done);
    return verdict();
}
