/*
 * How far the loudness map and straightforward C on two libraries' log2f get
 * from the exact map, and how often they fall as the envelope grows: at runs of
 * neighbouring floats around every half step of the exact map, where the step
 * changes, and at a spread of other pairs of neighbours.
 */
#include <math.h>
#include <stdio.h>

#include "straight.h"

float newlib_log2f(float x);

enum { RUN = 2048, PAIRS = 1 << 18, CONTESTANTS = 3 };

/* The widest, a usual one, two that are steep. The exact map is straight in the
 * logarithm, so a steep channel asks most of it. */
static const struct channel channels[] = {
    {0x1p-24f, 1, 0, 255},
    {0.001f, 0.316227766f, 100, 200},
    {0.0001f, 0.001f, 0, 255},
    {0x1.6a09e6p-23f, 0x1.6a09e6p-22f, 0, 255},
};

enum { CHANNELS = sizeof channels / sizeof channels[0] };

union word {
    float value;
    uint32_t bits;
};

struct score {
    uint32_t calls, falls;
    double worst;
};

static uint32_t step_of(int who, struct channel k, float a)
{
    uint32_t step = 0;
    if (who == 0)
        ear_loudness(k.b, k.m, k.t, k.c, a, &step);
    else
        straight_map(who == 1 ? newlib_log2f : log2f, k, a, &step);
    return step;
}

/* The exact map; long double's own error is some 2^-48. */
static long double exact(struct channel k, float a)
{
    if (a <= k.b || a >= k.m)
        return a <= k.b ? k.t : k.c;
    return k.t + (k.c - k.t) * (log2l(a) - log2l(k.b)) / (log2l(k.m) - log2l(k.b));
}

/* `count` neighbouring floats, the first by its pattern. */
static void run(struct score scores[CONTESTANTS], struct channel k, uint32_t pattern, uint32_t count)
{
    uint32_t before[CONTESTANTS] = {0};
    for (uint32_t i = 0; i < count; i++) {
        union word a = {.bits = pattern + i};
        long double wanted = exact(k, a.value);
        for (int who = 0; who < CONTESTANTS; who++) {
            uint32_t step = step_of(who, k, a.value);
            double far = (double)fabsl(step - wanted);
            scores[who].calls++;
            scores[who].worst = far > scores[who].worst ? far : scores[who].worst;
            scores[who].falls += step < before[who];
            before[who] = step;
        }
    }
}

static void score(struct score scores[CONTESTANTS], struct channel k)
{
    union word from = {.value = k.b}, to = {.value = k.m};
    uint64_t state = 1;
    for (uint32_t i = 0; i < k.c - k.t; i++) {
        long double share = (i + 0.5L) / (k.c - k.t);
        union word half = {.value = (float)exp2l(log2l(k.b) + share * (log2l(k.m) - log2l(k.b)))};
        run(scores, k, half.bits - RUN / 2, RUN);
    }
    for (int i = 0; i < PAIRS; i++) {
        state = state * 6364136223846793005u + 1442695040888963407u;
        run(scores, k, from.bits + (uint32_t)((state >> 32) * (to.bits - from.bits) >> 32), 2);
    }
}

int main(void)
{
    puts("\nThe loudness map beside straightforward C on newlib's and glibc's log2f: the greatest distance");
    puts("|I - exact|, and how often a step is below that of the float before.\n");
    printf("%-12s %-12s %3s %3s %8s  %-29s %s\n", "b", "m", "T", "C", "calls", "worst: ours, newlib, glibc",
           "falls: ours, newlib, glibc");
    for (int i = 0; i < CHANNELS; i++) {
        struct channel k = channels[i];
        struct score s[CONTESTANTS] = {{0}};
        score(s, k);
        printf("%-12.6g %-12.6g %3u %3u %8u  %.7f %.7f %.7f %u %u %u\n", (double)k.b, (double)k.m, (unsigned)k.t,
               (unsigned)k.c, (unsigned)s[0].calls, s[0].worst, s[1].worst, s[2].worst, (unsigned)s[0].falls,
               (unsigned)s[1].falls, (unsigned)s[2].falls);
    }
    return 0;
}
