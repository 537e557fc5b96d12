/*
 * The transform of 128 values beside a plain one in floats: nanoseconds for a
 * frame, and the worst errors, of a part over the frame's largest value and of all
 * parts by sums of squares. Both take turns in every round, and the best round counts.
 */
#include <math.h>
#include <stdint.h>
#include <stdio.h>

#include "clock.h"
#include "earmath.h"
#include "straight.h"

enum { VALUES = 128, PARTS = 65, ROUNDS = 400, CALLS = 100, FRAMES = 200, OURS = 0, PLAIN, CONTESTANTS };

static struct turn turns[32];
static float x[VALUES], re[PARTS], im[PARTS];

static void ours(void)
{
    ear_transform128(x, VALUES, re, PARTS, im, PARTS);
}

static void plain(void)
{
    straight_transform(turns, x, re, im);
}

static void (*const contestants[CONTESTANTS])(void) = {ours, plain};

static void fill(void)
{
    static uint64_t state = 1;
    for (int n = 0; n < VALUES; n++) {
        state = state * 6364136223846793005u + 1442695040888963407u;
        x[n] = (float)(int32_t)(state >> 32) * 0x1p-31f;
    }
}

struct score {
    double part, all;
};

/* long double's own error is 2^-57 or so. */
static void judge(struct score *s)
{
    long double errors = 0, sizes = 0, worst = 0, largest = 0;
    for (int n = 0; n < VALUES; n++)
        largest = fmaxl(largest, fabsl(x[n]));
    for (int k = 0; k < PARTS; k++) {
        long double c = 0, d = 0;
        for (int n = 0; n < VALUES; n++) {
            long double angle = 3.14159265358979323846264338327950288L * (k * n % VALUES) / 64;
            c += x[n] * cosl(angle);
            d -= x[n] * sinl(angle);
        }
        long double e = fabsl(re[k] - c), f = fabsl(im[k] - d);
        worst = fmaxl(worst, fmaxl(e, f));
        errors += e * e + f * f;
        sizes += c * c + d * d;
    }
    s->part = fmax(s->part, (double)(worst / largest));
    s->all = fmax(s->all, (double)sqrtl(errors / sizes));
}

int main(void)
{
    double best[CONTESTANTS] = {INFINITY, INFINITY};
    struct score s[CONTESTANTS] = {{0}};
    straight_turns(cosf, sinf, turns);
    fill();
    for (int round = 0; round < ROUNDS; round++)
        for (int who = 0; who < CONTESTANTS; who++) {
            double start = now();
            for (int i = 0; i < CALLS; i++) {
                contestants[who]();
                x[i] = re[i % PARTS] * 0x1p-7f; /* each call waits for the one before */
            }
            best[who] = fmin(best[who], (now() - start) / CALLS);
        }
    for (int frame = 0; frame < FRAMES; frame++) {
        fill();
        for (int who = 0; who < CONTESTANTS; who++) {
            contestants[who]();
            judge(&s[who]);
        }
    }
    puts("\nThe transform of 128 values beside a plain one in floats, radix 2: nanoseconds for a frame; over 200 frames of noise the worst");
    puts("error of a part over the largest value, and of all parts together (root of the sum of squares, relative).\n");
    printf("%-14s %10s %12s %12s\n", "", "ns", "a part", "all parts");
    for (int who = 0; who < CONTESTANTS; who++)
        printf("%-14s %10.0f %12.2e %12.2e\n", who == OURS ? "ours" : "plain floats", best[who], s[who].part, s[who].all);
    return 0;
}
