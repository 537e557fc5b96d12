/*
 * Whatever state the float unit is in: every function that does not compute with
 * floats gives the same bits under each rounding mode, with subnormals kept or
 * flushed to zero, as arguments and as results.
 */
#include <inttypes.h>
#include <stdio.h>
#include <string.h>
#include <xmmintrin.h>

#include "answers.h"
#include "report.h"

/* The bits of MXCSR, and all states of rounding and flushing, the usual one the first. */
enum { USUAL = 0x1f80, ROUNDING = 1 << 13, RESULTS_FLUSHED = 1 << 15, ARGUMENTS_FLUSHED = 1 << 6, STATES = 16, DRAWS = 100 };

static struct answer usual, other;

static bool same(void)
{
    return usual.code == other.code &&
           memcmp(usual.after, other.after, (usual.places + 2 * GUARD) * sizeof usual.after[0]) == 0;
}

static void ask_in(uint32_t state, const struct asked *f, uint32_t pattern, struct answer *a)
{
    _mm_setcsr(state);
    ask(f, pattern, a);
    _mm_setcsr(USUAL);
}

/* Whether every answer is the usual state's. Ends at the first that is not, with both answers kept. */
static bool steady_in(uint32_t state, const struct asked *f, uint32_t *pattern)
{
    for (uint32_t block = 0; block < SPREAD_BLOCKS; block++)
        for (uint32_t i = 0, size = spread_size(f, block, DRAWS); i < size; i++) {
            *pattern = spread_pattern(block, i);
            ask_in(USUAL, f, *pattern, &usual);
            ask_in(state, f, *pattern, &other);
            if (!same())
                return false;
        }
    return true;
}

static uint32_t state_at(int i)
{
    uint32_t results = i & 1 ? RESULTS_FLUSHED : 0, arguments = i & 2 ? ARGUMENTS_FLUSHED : 0;
    return USUAL | results | arguments | (uint32_t)(i / 4) * ROUNDING;
}

static void steady(const struct asked *f)
{
    int good = 0;
    uint32_t pattern;
    for (int i = 1; i < STATES; i++)
        if (steady_in(state_at(i), f, &pattern))
            good++;
        else if (good == i - 1) /* the first one */
            printf("      %s of %08" PRIx32 ": code %" PRIu32 ", %08" PRIx32 "; with MXCSR %04" PRIx32 " code %" PRIu32
                   ", %08" PRIx32 "\n", f->name, pattern, usual.code, usual.after[GUARD].bits, state_at(i), other.code,
                   other.after[GUARD].bits);
    group(good == STATES - 1, "%s: the same bits in %d of %d other states of the float unit", f->name, good, STATES - 1);
}

/* A function that computes with floats has to come out otherwise, or nothing is shown by those that do not. */
static void in_force(const struct asked *f)
{
    int seen = 0;
    uint32_t pattern;
    for (int i = 1; i < STATES; i++)
        seen += !steady_in(state_at(i), f, &pattern);
    group(seen == STATES - 1, "%s gives other results in %d of %d other states, so they are in force", f->name, seen,
          STATES - 1);
}

int main(void)
{
    for (int i = 0; i < function_count; i++)
        (every_function[i].rounds ? in_force : steady)(&every_function[i]);
    return verdict();
}
