/*
 * From microphone to electrode beside a plain path in floats on newlib's log2f and
 * root: nanoseconds for a frame of 22 bands, and the greatest distance from the exact
 * path's current, in steps, over frames of a soft tone beside a full-scale one.
 */
#include <math.h>
#include <stdint.h>
#include <stdio.h>

#include "clock.h"
#include "earmath.h"
#include "straight.h"

float newlib_log2f(float x), newlib_sqrtf(float x);

enum { VALUES = 128, BANDS = 22, ROUNDS = 200, CALLS = 50, FRAMES = 2000, OURS = 0, PLAIN, CONTESTANTS };

static struct turn turns[32];
static float x[VALUES], w[VALUES];
static struct ear_band bands[BANDS];
static uint32_t out[BANDS];

static void ours(void)
{
    ear_currents(1023, x, VALUES, w, VALUES, bands, 6 * BANDS, out, BANDS);
}

static void plain(void)
{
    straight_currents(turns, newlib_sqrtf, newlib_log2f, x, w, bands, BANDS, out);
}

static void (*const contestants[CONTESTANTS])(void) = {ours, plain};

static uint64_t state = 1;

static double uniform(void)
{
    state = state * 6364136223846793005u + 1442695040888963407u;
    return (double)(int32_t)(state >> 32) * 0x1p-31;
}

/* Bands as they are used: wider and wider from bin 2 on. */
static void make_bands(float b, float m, uint32_t c)
{
    for (uint32_t i = 0; i < BANDS; i++)
        bands[i] = (struct ear_band){2 + i * i / 8, 2 + (i + 1) * (i + 1) / 8, b, m, 0, c};
}

/* A full-scale tone, and a soft one between b and m. */
static void fill(float b, float m)
{
    double loud = 2 + fabs(uniform()) * 60, soft = 2 + fabs(uniform()) * 60, size = b * pow(m / b, fabs(uniform()));
    for (int n = 0; n < VALUES; n++) {
        double turn = 6.283185307179586 * n / VALUES;
        x[n] = (float)((1 - size) * cos(turn * round(loud)) + size * cos(turn * soft));
        w[n] = (float)(0.5 - 0.5 * cos(turn));
    }
}

static long double sizes[65];

/* In long double, whose own error is far below. */
static void transform(void)
{
    static long double c[VALUES], s[VALUES];
    for (int j = 0; c[0] == 0 && j < VALUES; j++) {
        long double angle = 3.14159265358979323846264338327950288L * (VALUES - 1 - j) / 64;
        c[VALUES - 1 - j] = cosl(angle);
        s[VALUES - 1 - j] = sinl(angle);
    }
    for (int k = 0; k <= 64; k++) {
        long double re = 0, im = 0;
        for (int n = 0; n < VALUES; n++) {
            long double y = (long double)x[n] * w[n];
            re += y * c[k * n % VALUES];
            im += y * s[k * n % VALUES];
        }
        sizes[k] = hypotl(re, im);
    }
}

static double distance_of(const struct ear_band *f, uint32_t step)
{
    long double a = 0;
    for (uint32_t k = f->lo; k <= f->hi; k++)
        a += sizes[k];
    a = fminl(fmaxl(a / 64, f->b), f->m);
    return (double)fabsl(f->t + (f->c - f->t) * log2l(a / f->b) / log2l((long double)f->m / f->b) - step);
}

static void quality(float b, float m, uint32_t c)
{
    double worst[CONTESTANTS] = {0};
    make_bands(b, m, c);
    for (int frame = 0; frame < FRAMES; frame++) {
        fill(b, m);
        transform();
        for (int who = 0; who < CONTESTANTS; who++) {
            contestants[who]();
            for (int i = 0; i < BANDS; i++)
                worst[who] = fmax(worst[who], distance_of(&bands[i], out[i]));
        }
    }
    printf("2^%-5g 2^%-5g %6u %12.6f %12.6f\n", log2(b), log2(m), (unsigned)c, worst[OURS], worst[PLAIN]);
}

int main(void)
{
    double best[CONTESTANTS] = {INFINITY, INFINITY};
    straight_turns(cosf, sinf, turns);
    make_bands(0x1p-10f, 1, 200);
    fill(0x1p-10f, 1);
    for (int round = 0; round < ROUNDS; round++)
        for (int who = 0; who < CONTESTANTS; who++) {
            double start = now();
            for (int i = 0; i < CALLS; i++) {
                contestants[who]();
                x[i] = (float)out[i % BANDS] * 0x1p-10f; /* each call waits for the one before */
            }
            best[who] = fmin(best[who], (now() - start) / CALLS);
        }
    puts("\nFrom microphone to electrode, a frame of 22 bands, beside a plain path in floats on newlib's log2f and root: nanoseconds,");
    puts("and the greatest distance from the exact path's current, in steps, over 2,000 frames of a soft tone beside a full-scale one.\n");
    printf("ns: ours %.0f, plain floats %.0f\n\n", best[OURS], best[PLAIN]);
    printf("%-7s %-7s %6s %12s %12s\n", "b", "m", "steps", "ours", "plain floats");
    for (int wide = 0; wide < 2; wide++) {
        uint32_t c = wide ? 1023 : 255;
        quality(0x1p-24f, 0x1p-23f, c);
        quality(0x1p-16f, 0x1p-15f, c);
        quality(0x1p-10f, 0x1p-2f, c);
        quality(0x1p-24f, 1, c);
    }
    return 0;
}
