/*
 * A filter over a signal is a dot product for each sample: the taps, and a window that moves along the samples. Here 64
 * taps let pass what lies below 1 kHz of a second of sound at 16 kHz, a tone of 440 Hz and one of 6 kHz.
 *
 *   filter           what came out, its error beside what is promised, and samples per second beside a plain loop
 *   filter --exact   without the speed: what is the same on every machine whose compiler fuses no product with a sum
 *
 * Samples are whole numbers of 2^-15, as a converter gives them, and taps whole numbers of 2^-24. A product is then a
 * whole number of 2^-39, and so are its rounded value and all sums: an exact sum of 64 fits into 64 bits.
 * Build: cc -Iinclude examples/filter.c build/libearmath.a
 */
#include <stdio.h>
#include <stdlib.h>
#include <string.h>
#include <time.h>

#include "earmath.h"

enum { TAPS = 64, RATE = 16000, LEVELS = 6, SECONDS = 400 };

static float taps[TAPS], sound[TAPS - 1 + RATE], out[RATE];

/* Where a code is not EAR_OK the result place would be as it was. Nothing is refused here. */
static void expect(uint32_t code)
{
    if (code != EAR_OK) {
        printf("refused with code %u\n", (unsigned)code);
        exit(1);
    }
}

static float sine_of_turns(float turns)
{
    float sine;
    expect(ear_sinpi(2 * turns, &sine));
    return sine;
}

/* To whole numbers of 1 / parts, at most 2^24 of them. */
static float cut(float x, float parts)
{
    return (float)(int32_t)(x * parts) / parts;
}

/* Silence for the first window, then the second of sound: the two tones, and a little noise. */
static void make_sound(void)
{
    uint32_t state = 1;
    for (int i = 0; i < RATE; i++) {
        state = state * 1664525u + 1013904223u;
        float low = sine_of_turns((float)(440 * i % RATE) / RATE), high = sine_of_turns((float)(6000 * i % RATE) / RATE);
        float noise = (float)(state >> 16) / 65536 - 0.5f;
        sound[TAPS - 1 + i] = cut(0.45f * low + 0.45f * high + 0.1f * noise, 32768);
    }
}

/* sin(2 pi f t) / (pi t) for the cut at f, by half of a cosine's wave as window; the tap k stands t = k - 31.5 from the middle. */
static void make_taps(void)
{
    const float f = 1000.0f / RATE, pi = 3.14159265f;
    for (int k = 0; k < TAPS; k++) {
        float t = (float)k - 31.5f, window;
        expect(ear_cospi(t / TAPS, &window));
        taps[k] = cut(sine_of_turns(f * t) / (pi * t) * window, 16777216);
    }
}

/* ---- the filter: ours, and the plain loop */
static void ours(void)
{
    for (int i = 0; i < RATE; i++)
        expect(ear_dot(taps, TAPS, sound + i, TAPS, &out[i]));
}

static float plain_loop(const float *a, const float *b, int n)
{
    float sum = 0;
    for (int i = 0; i < n; i++)
        sum += a[i] * b[i];
    return sum;
}

/* By a pointer that may change, so that the compiler cannot fit the loop to its one caller: ours is not fitted either. */
static float (*volatile called)(const float *a, const float *b, int n) = plain_loop;

static void plain(void)
{
    for (int i = 0; i < RATE; i++)
        out[i] = called(taps, sound + i, TAPS);
}

/* ---- the error of every sample, in whole numbers of 2^-39 */
static int64_t units(float x)
{
    return (int64_t)(x * 549755813888.0f);
}

/* |result - exact| as a part of G (sum of |a_i b_i|), G = 7 u / (1 - 7 u) = 7 / (2^24 - 7). (64 * 2^-149 more is allowed.) */
static double part_of_promise(int i)
{
    int64_t exact = 0, sizes = 0;
    for (int k = 0; k < TAPS; k++) {
        int64_t product = (int64_t)(taps[k] * 16777216) * (int64_t)(sound[i + k] * 32768);
        exact += product;
        sizes += product < 0 ? -product : product;
    }
    int64_t error = units(out[i]) - exact, allowed = (LEVELS + 1) * sizes;
    error = (error < 0 ? -error : error) * (16777216 - (LEVELS + 1));
    return allowed > 0 ? (double)error / (double)allowed : (double)(error > 0);
}

static double worst_part(void)
{
    double worst = 0;
    for (int i = 0; i < RATE; i++) {
        double part = part_of_promise(i);
        worst = part > worst ? part : worst;
    }
    return worst;
}

/* ---- what is heard */
static float loudest(const float *list, int from, int to)
{
    float most = 0;
    for (int i = from; i < to; i++) {
        float size = list[i] < 0 ? -list[i] : list[i];
        most = size > most ? size : most;
    }
    return most;
}

/* A number for all bits of the output: one that differs anywhere is another one. */
static uint32_t bits_of_all(void)
{
    uint32_t sum = 0, bits;
    for (int i = 0; i < RATE; i++) {
        memcpy(&bits, &out[i], sizeof bits);
        sum = (sum ^ bits) * 16777619u;
    }
    return sum;
}

static double samples_per_second(void (*filter)(void))
{
    clock_t start = clock();
    for (int i = 0; i < SECONDS; i++)
        filter();
    return (double)SECONDS * RATE * CLOCKS_PER_SEC / (double)(clock() - start);
}

int main(int count, char **words)
{
    make_sound();
    make_taps();
    ours();
    double worst = worst_part();
    printf("%d samples through %d taps: loudest %.4f before and %.4f after, bits %08lx\n", RATE, TAPS,
           (double)loudest(sound, 2 * TAPS, RATE), (double)loudest(out, 2 * TAPS, RATE), (unsigned long)bits_of_all());
    printf("worst error of a sample: %.3f of what is promised\n", worst);
    if (count < 2 || strcmp(words[1], "--exact") != 0) {
        double fast = samples_per_second(ours), simple = samples_per_second(plain);
        printf("samples per second: %.1f million, a plain loop %.1f million; ours %.2f times as fast\n", fast / 1e6, simple / 1e6,
               fast / simple);
    }
    return worst <= 1 ? 0 : 1;
}
