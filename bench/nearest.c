/*
 * The dot product that is the nearest float beside a loop in C that carries its rounding errors along (Ogita, Rump, Oishi:
 * Dot2). Both test the elements. A window of n taps moves along a signal, a sample for each call; they take turns in every
 * round, and the best round counts.
 */
#include <math.h>
#include <stdint.h>
#include <stdio.h>

#include "clock.h"
#include "earmath.h"
#include "straight.h"

enum { LONGEST = 1024, SAMPLES = 256, ROUNDS = 400, OURS = 0, CARRYING, CONTESTANTS };

static float taps[LONGEST], signal[SAMPLES + LONGEST], output[SAMPLES];

/* Not static, so that the compiler cannot fit it to its one caller. */
__attribute__((noinline)) uint32_t carrying_loop(const float *a, const float *b, size_t n, float *out)
{
    return straight_carrying(a, b, n, out);
}

static void ours(size_t n)
{
    for (size_t i = 0; i < SAMPLES; i++)
        ear_dot_nearest(taps, n, signal + i, n, &output[i]);
}

static void carrying(size_t n)
{
    for (size_t i = 0; i < SAMPLES; i++)
        carrying_loop(taps, signal + i, n, &output[i]);
}

static void (*const loops[CONTESTANTS])(size_t n) = {ours, carrying};

/* Sizes near 1. */
static void fill(float *list, size_t n)
{
    static uint64_t state = 1;
    for (size_t i = 0; i < n; i++) {
        state = state * 6364136223846793005u + 1442695040888963407u;
        list[i] = (float)(int32_t)(state >> 32) * 0x1p-31f;
    }
}

static void contest(size_t n)
{
    double best[CONTESTANTS] = {INFINITY, INFINITY};
    for (int round = 0; round < ROUNDS; round++)
        for (int who = 0; who < CONTESTANTS; who++) {
            double start = now();
            loops[who](n);
            double each = (now() - start) / SAMPLES;
            best[who] = each < best[who] ? each : best[who];
        }
    printf("nearest, n = %-9zu %10.1f %10.1f %10.2f\n", n, best[OURS], best[CARRYING], best[CARRYING] / best[OURS]);
}

int main(void)
{
    fill(taps, LONGEST);
    fill(signal, SAMPLES + LONGEST);
    puts("\nNanoseconds for a call of the nearest dot product beside a loop in C that carries its rounding errors along,");
    puts("clang -O2 -ffp-contract=off.\n");
    printf("%-22s %10s %10s %10s\n", "", "ours", "C loop", "C/ours");
    contest(64);
    contest(1024);
    return 0;
}
