/*
 * The dot product beside the same loop in C: one running sum, as the compiler has to keep it. Three readings:
 *
 *   apart            calls that need nothing of each other: the window of n taps moves along a signal, a sample for each call
 *   waiting, first   a recursive filter: each call's result, with a sample added, is the next call's first element
 *   waiting, last    the same, with the newest element last: a plain loop may then begin before it is there
 *
 * Both take turns in every round. Of each the best round counts, which is a quiet machine's, and the median, which is
 * this machine's as it was. The C loop tests nothing; ours tests lengths and finiteness.
 */
#include <stdint.h>
#include <stdio.h>
#include <stdlib.h>

#include "clock.h"
#include "earmath.h"

enum { LONGEST = 65536, SAMPLES = 1024, WORK = 1 << 18, ROUNDS = 200, OURS = 0, PLAIN, CONTESTANTS };

static float taps[LONGEST], input[SAMPLES], line[SAMPLES + LONGEST];

/* Not static, so that the compiler cannot fit it to its one caller. */
__attribute__((noinline)) float plain_loop(const float *a, const float *b, size_t n)
{
    float s = 0;
    for (size_t i = 0; i < n; i++)
        s += a[i] * b[i];
    return s;
}

static inline float called(int who, size_t n, const float *list)
{
    float sum = 0;
    if (who == PLAIN)
        return plain_loop(taps, list, n);
    ear_dot(taps, n, list, n, &sum);
    return sum;
}

static volatile float heard;

static inline void apart(int who, size_t n, size_t calls)
{
    for (size_t i = 0; i < calls; i++)
        heard = called(who, n, line + i);
}

/* The line is filled from its end down, so that the newest element is the first of the next list. */
static inline void waiting_first(int who, size_t n, size_t calls)
{
    for (size_t i = calls; i-- > 0;)
        line[i] = input[i] + called(who, n, line + i + 1);
}

static inline void waiting_last(int who, size_t n, size_t calls)
{
    for (size_t i = 0; i < calls; i++)
        line[n + i] = input[i] + called(who, n, line + i);
}

/* One loop for each contestant and reading, with nothing in it that chooses. */
#define LOOPS(reading) \
    static void ours_##reading(size_t n, size_t calls) { reading(OURS, n, calls); } \
    static void plain_##reading(size_t n, size_t calls) { reading(PLAIN, n, calls); }

LOOPS(apart)
LOOPS(waiting_first)
LOOPS(waiting_last)

static const struct reading {
    const char *words;
    void (*loops[CONTESTANTS])(size_t n, size_t calls);
} readings[] = {
    {"apart", {ours_apart, plain_apart}},
    {"waiting, first", {ours_waiting_first, plain_waiting_first}},
    {"waiting, last", {ours_waiting_last, plain_waiting_last}},
};

static void fill(float *list, size_t n, float scale)
{
    static uint64_t state = 1;
    for (size_t i = 0; i < n; i++) {
        state = state * 6364136223846793005u + 1442695040888963407u;
        list[i] = (float)(int32_t)(state >> 32) * 0x1p-31f * scale;
    }
}

static int by_size(const void *left, const void *right)
{
    double x = *(const double *)left, y = *(const double *)right;
    return (x > y) - (x < y);
}

/* Taps so small that the recursion neither grows nor dies away: no sum overflows, and none is slowed by subnormals. */
static void contest(const struct reading *r, size_t n)
{
    static double each[CONTESTANTS][ROUNDS];
    size_t calls = WORK / n < SAMPLES ? WORK / n : SAMPLES;
    fill(taps, n, 1 / (float)n);
    for (int round = 0; round < ROUNDS; round++)
        for (int who = 0; who < CONTESTANTS; who++) {
            fill(line, calls + n, 1);
            double start = now();
            r->loops[who](n, calls);
            each[who][round] = (now() - start) / (double)calls;
        }
    for (int who = 0; who < CONTESTANTS; who++)
        qsort(each[who], ROUNDS, sizeof each[who][0], by_size);
    double middle[CONTESTANTS] = {each[OURS][ROUNDS / 2], each[PLAIN][ROUNDS / 2]};
    printf("%5zu  %-15s %10.1f %10.1f %8.2f %10.1f %10.1f %8.2f\n", n, r->words, each[OURS][0], each[PLAIN][0],
           each[PLAIN][0] / each[OURS][0], middle[OURS], middle[PLAIN], middle[PLAIN] / middle[OURS]);
}

int main(void)
{
    static const size_t lengths[] = {16, 63, 64, 1024, 65536};
    fill(input, SAMPLES, 1);
    puts("\nDot product: nanoseconds for a call beside the same loop in C, clang -O2 -ffp-contract=off; above 1 ours is the");
    puts("faster. Apart: calls that need nothing of each other. Waiting: a recursive filter, each result being an element of");
    puts("the next call, the first or the last.\n");
    printf("%5s  %-15s %10s %10s %8s %10s %10s %8s\n", "n", "calls", "ours best", "C best", "C/ours", "median", "C median", "C/ours");
    for (size_t i = 0; i < sizeof lengths / sizeof lengths[0]; i++)
        for (size_t j = 0; j < sizeof readings / sizeof readings[0]; j++)
            contest(&readings[j], lengths[i]);
    return 0;
}
