/*
 * Nanoseconds for a call, in two loops. Latency: each call's input waits for the
 * result before. Throughput: calls over an array, none of which waits. All
 * contestants take turns in every round, and the best round counts, so that a
 * busy machine harms all alike. The figures include the loop and the call.
 */
#include <float.h>
#include <math.h>
#include <stdint.h>
#include <stdio.h>

#include "clock.h"
#include "earmath.h"
#include "straight.h"

float newlib_sqrtf(float x);
float newlib_log2f(float x);
float newlib_powf(float x, float y);
float newlib_expf(float x);
float newlib_sinf(float x);
float newlib_cosf(float x);

/* Where inputs come from: evenly over the bit patterns from one float to
 * another, and so over the exponents between them, or evenly over the values. */
enum evenly { OVER_PATTERNS, OVER_VALUES };

#define EVERY_NORMAL {"normal x > 0", OVER_PATTERNS, FLT_MIN, FLT_MAX}
#define ONE_TO_FOUR {"x from 1 to 4", OVER_VALUES, 1, 4}
#define BETWEEN {"a from b to m", OVER_PATTERNS, 0.001f, 0.316227766f}
#define UP_TO_ONE {"a from 0 to 1", OVER_VALUES, 0, 1}
#define EVERY_POWER {"x from -126 to 127", OVER_VALUES, -126, 127}
#define EVERY_EXPONENT {"x from -87 to 88", OVER_VALUES, -87, 88}
#define AROUND_ZERO {"x from -1 to 1", OVER_VALUES, -1, 1}
#define EVERY_ANGLE {"-8192 <= x <= 8192", OVER_VALUES, -8192, 8192}
#define SINCE_POWER_ON {"8192 <= x <= 1e8", OVER_VALUES, 8192, 1e8f}
#define EVERY_LARGE {"x >= 8192", OVER_PATTERNS, 8192, FLT_MAX}

/* For rivals without a function of pi x; the product is rounded, so theirs are not the sines of pi x. */
#define PI 3.14159274f

/* The contests, a line for each function: its name, our call from x to *out,
 * what newlib's and glibc's code give, and two kinds of inputs. */
#define CONTESTS(LINE) \
    LINE(square_root, ear_sqrt(x, out), newlib_sqrtf(x), sqrtf(x), EVERY_NORMAL, ONE_TO_FOUR) \
    LINE(reciprocal_root, ear_rsqrt(x, out), 1.0f / newlib_sqrtf(x), 1.0f / sqrtf(x), EVERY_NORMAL, ONE_TO_FOUR) \
    LINE(power_of_two, ear_exp2(x, out), newlib_powf(2.0f, x), exp2f(x), EVERY_POWER, AROUND_ZERO) \
    LINE(exponential, ear_exp(x, out), newlib_expf(x), expf(x), EVERY_EXPONENT, AROUND_ZERO) \
    LINE(logarithm, ear_log2(x, out), newlib_log2f(x), log2f(x), EVERY_NORMAL, ONE_TO_FOUR) \
    LINE(sine, ear_sin(x, out), newlib_sinf(x), sinf(x), EVERY_ANGLE, AROUND_ZERO) \
    LINE(cosine, ear_cos(x, out), newlib_cosf(x), cosf(x), EVERY_ANGLE, AROUND_ZERO) \
    LINE(large_sine, ear_sin(x, out), newlib_sinf(x), sinf(x), SINCE_POWER_ON, EVERY_LARGE) \
    LINE(large_cosine, ear_cos(x, out), newlib_cosf(x), cosf(x), SINCE_POWER_ON, EVERY_LARGE) \
    LINE(sine_of_pi_x, ear_sinpi(x, out), newlib_sinf(PI * x), sinf(PI * x), EVERY_ANGLE, AROUND_ZERO) \
    LINE(cosine_of_pi_x, ear_cospi(x, out), newlib_cosf(PI * x), cosf(PI * x), EVERY_ANGLE, AROUND_ZERO) \
    LINE(loudness_map, loudness(x, out), straight(newlib_log2f, x), straight(log2f, x), BETWEEN, UP_TO_ONE)

enum { INPUTS = 8192, ROUNDS = 200, OURS = 0, NEWLIB, GLIBC, CONTESTANTS };

static float input[INPUTS], output[INPUTS];
static volatile uint32_t zero; /* 0, but the compiler cannot tell */

/* A float and its bits. Not by memcpy, which would be a call here: the build
 * forbids the compiler to know the library's functions. */
union word {
    float value;
    uint32_t bits;
};

/* A usual channel; not static, so that the compiler must look at it. */
struct channel channel = {0.001f, 0.316227766f, 100, 200};

/* The step's bits as a float's, since the loops below are for floats. */
static inline void loudness(float a, float *out)
{
    union word step = {.bits = 0};
    ear_loudness(channel.b, channel.m, channel.t, channel.c, a, &step.bits);
    *out = step.value;
}

static inline float straight(float (*log2_of)(float), float a)
{
    union word step = {.bits = 0};
    straight_map(log2_of, channel, a, &step.bits);
    return step.value;
}

/* x, known only once r is: r's bits, masked to nothing, are mixed in. */
static inline float after(float r, float x, uint32_t nothing)
{
    union word before = {.value = r}, word = {.value = x};
    word.bits ^= before.bits & nothing;
    return word.value;
}

/* The two loops around a statement that takes x to *out. A macro and not a
 * function pointer, so that every contestant is called directly. */
#define LOOPS(name, statement) \
    static void name##_latency(void) \
    { \
        uint32_t nothing = zero; \
        float r = 0; \
        for (int i = 0; i < INPUTS; i++) { \
            float x = after(r, input[i], nothing), *out = &r; \
            statement; \
        } \
        output[0] = r; \
    } \
    static void name##_throughput(void) \
    { \
        for (int i = 0; i < INPUTS; i++) { \
            float x = input[i], *out = &output[i]; \
            statement; \
        } \
    }

#define LOOPS_OF(name, ours, newlib, glibc, wide, narrow) \
    LOOPS(name##_ours, ours) \
    LOOPS(name##_newlib, *out = newlib) \
    LOOPS(name##_glibc, *out = glibc)

CONTESTS(LOOPS_OF)

struct inputs {
    const char *words;
    enum evenly evenly;
    float from, to;
};

typedef void (*loop)(void);

struct contest {
    const char *name;
    loop loops[CONTESTANTS][2]; /* latency, throughput */
    struct inputs inputs[2];
};

#define BOTH(name) {name##_latency, name##_throughput}
#define LINE_OF(name, ours, newlib, glibc, wide, narrow) \
    {#name, {BOTH(name##_ours), BOTH(name##_newlib), BOTH(name##_glibc)}, {wide, narrow}},

static const struct contest contests[] = {CONTESTS(LINE_OF)};

enum { COUNT = sizeof contests / sizeof contests[0] };

/* The same inputs in every round and for every contestant. */
static void fill(const struct inputs *inputs)
{
    uint64_t state = 1;
    union word from = {.value = inputs->from}, to = {.value = inputs->to};
    for (int i = 0; i < INPUTS; i++) {
        state = state * 6364136223846793005u + 1442695040888963407u;
        union word drawn = {.bits = from.bits + (uint32_t)((state >> 32) * (to.bits - from.bits) >> 32)};
        if (inputs->evenly == OVER_VALUES)
            drawn.value = from.value + (to.value - from.value) * (float)(state >> 40) * 0x1p-24f;
        input[i] = drawn.value;
    }
}

static void measure(const struct contest *c, double best[CONTESTANTS][2])
{
    for (int who = 0; who < CONTESTANTS; who++)
        for (int kind = 0; kind < 2; kind++)
            best[who][kind] = INFINITY;
    for (int round = 0; round < ROUNDS; round++)
        for (int who = 0; who < CONTESTANTS; who++)
            for (int kind = 0; kind < 2; kind++) {
                double start = now();
                c->loops[who][kind]();
                double each = (now() - start) / INPUTS;
                best[who][kind] = each < best[who][kind] ? each : best[who][kind];
            }
}

static void contest(const struct contest *c, const struct inputs *inputs)
{
    static const char *const kinds[] = {"latency", "throughput"};
    double best[CONTESTANTS][2];
    fill(inputs);
    measure(c, best);
    for (int kind = 0; kind < 2; kind++) {
        double ours = best[OURS][kind], newlib = best[NEWLIB][kind], glibc = best[GLIBC][kind];
        printf("%-16s %-19s %-11s %7.1f %7.1f %7.1f %12.2f %11.2f\n", c->name, inputs->words, kinds[kind], ours,
               newlib, glibc, newlib / ours, glibc / ours);
    }
}

int main(void)
{
    puts("Nanoseconds for a call, best of all rounds; a ratio above 1 means that ours is the faster.");
    puts("glibc's sqrtf is called in the library, whose code is the processor's root instruction;");
    puts("the reciprocal root's rivals are 1.0f / sqrtf(x), which is not always the nearest float;");
    puts("newlib's exp2f without double precision is powf(2, x), its log2f is logf(x) / ln 2, and glibc's three, expf among them, compute");
    puts("in double precision, as its sinf and cosf do; neither has a function of pi x, so there they take pi * x, rounded;");
    puts("the loudness map's are straightforward C on their log2f, with three logarithms in a call.\n");
    printf("%-16s %-19s %-11s %7s %7s %7s %12s %11s\n", "function", "inputs", "measure", "ours", "newlib", "glibc",
           "newlib/ours", "glibc/ours");
    for (int i = 0; i < COUNT; i++)
        for (int kind = 0; kind < 2; kind++)
            contest(&contests[i], &contests[i].inputs[kind]);
    return 0;
}
