/*
 * How far the currents of a sound are from the exact path's, in steps, and how far
 * those of a plain path in floats are: raw 16-bit samples at 16 kHz on standard input.
 * Bands and channels are those of examples/electrodogram.c.
 */
#include <math.h>
#include <stdint.h>
#include <stdio.h>
#include <stdlib.h>

#include "earmath.h"
#include "exact_path.h"
#include "straight.h"

enum { FRAME = 128, STEP = 16, BANDS = 22, LONGEST = 16000 * 60 };

static const uint32_t bins[BANDS] = {1, 1, 1, 1, 1, 1, 1, 1, 1, 2, 2, 2, 2, 3, 3, 4, 4, 5, 5, 6, 7, 8};
static struct ear_band bands[BANDS];
static float sound[LONGEST], window[FRAME];
static struct turn turns[32];

struct far {
    double worst, sum;
    uint32_t other; /* steps that are not the nearest to the exact current */
};

static void keep(struct far *f, double distance)
{
    f->worst = fmax(f->worst, distance);
    f->sum += distance;
    f->other += distance > 0.5001;
}

static void prepare(void)
{
    uint32_t bin = 2;
    for (int i = 0; i < BANDS; bin += bins[i], i++)
        bands[i] = (struct ear_band){bin, bin + bins[i] - 1, 4 / 256.0f, 150 / 256.0f, 100, 200};
    for (int i = 0; i < FRAME; i++)
        window[i] = (float)(0.5 - 0.5 * cos(3.14159265358979 * i / 64));
    straight_turns(cosf, sinf, turns);
    open_path();
}

int main(void)
{
    int16_t sample;
    uint32_t count = 0, frames = 0, ours[BANDS], theirs[BANDS];
    struct far near = {0, 0, 0}, plain = {0, 0, 0};
    prepare();
    while (count < LONGEST && fread(&sample, sizeof sample, 1, stdin) == 1)
        sound[count++] = (float)sample / 32768;
    for (uint32_t from = 0; from + FRAME <= count; from += STEP, frames++) {
        if (ear_currents(255, sound + from, FRAME, window, FRAME, bands, 6 * BANDS, ours, BANDS) != EAR_OK)
            return 1;
        straight_currents(turns, sqrtf, log2f, sound + from, window, bands, BANDS, theirs);
        exact_sizes(sound + from, window);
        for (int i = 0; i < BANDS; i++) {
            keep(&near, exact_distance(&bands[i], ours[i]));
            keep(&plain, exact_distance(&bands[i], theirs[i]));
        }
    }
    printf("%u frames of %d bands: distance from the exact path's current, in steps\n", frames, BANDS);
    printf("ours          worst %.6f, mean %.6f, not the nearest step %u times\n", near.worst, near.sum / (frames ? frames : 1) / BANDS, near.other);
    printf("plain floats  worst %.6f, mean %.6f, not the nearest step %u times\n", plain.worst, plain.sum / (frames ? frames : 1) / BANDS, plain.other);
    return 0;
}
