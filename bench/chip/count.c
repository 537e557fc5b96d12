/*
 * Instructions of a call on the emulated chip, where every instruction takes 1,024 ns
 * of the board's time (-icount shift=10), 25.6 ticks of its timer. What is counted
 * around a call, besides the function itself, is known from a second program: the same
 * object linked with functions that do nothing. bench/chip/run takes that off.
 */
#include <float.h>
#include <inttypes.h>
#include <math.h>
#include <stdbool.h>
#include <stdio.h>
#include <string.h>

#include "earmath.h"
#include "peers.h"

enum {
    LONGEST = 65536, VALUES = 128, PARTS = 65, BANDS = 22, INPUTS = 2000, LISTS = 8, TRACED = 32, TRACED_LISTS = 2, DEEPEST = 1536,
    PAINT = 0x5a5a5a5a
};

union word {
    uint32_t bits;
    float value;
};

/* Where inputs come from: evenly over the bit patterns from one float to another, or over the values. */
enum evenly { OVER_PATTERNS, OVER_VALUES, IN_LISTS };

#define EVERY_NORMAL {"normal x > 0", OVER_PATTERNS, FLT_MIN, FLT_MAX, 0}
#define EVERY_POWER {"-126 <= x <= 127", OVER_VALUES, -126, 127, 0}
#define EVERY_EXPONENT {"-87 <= x <= 88", OVER_VALUES, -87, 88, 0}
#define EVERY_ANGLE {"-8192 <= x <= 8192", OVER_VALUES, -8192, 8192, 0}
#define AROUND_ZERO {"-1 <= x <= 1", OVER_VALUES, -1, 1, 0}
#define EVERY_LARGE {"x >= 8192", OVER_PATTERNS, 8192, FLT_MAX, 0}
#define BETWEEN {"a from b to m", OVER_PATTERNS, 0.001f, 0.316227766f, 0}
#define BETWEEN_FITTED {"a from b to m; both fitted", OVER_PATTERNS, 0.001f, 0.316227766f, 0}
#define CHANNEL 0.001f, 0.316227766f, 100, 200
#define FRAMES {"a frame", IN_LISTS, -1, 1, VALUES}
#define FRAMES_OF_22 {"a frame, 22 bands", IN_LISTS, -1, 1, VALUES}
#define LISTS_OF(n) {"n = " #n, IN_LISTS, -4, 4, n}

/* A dot product beside the plain loop in C, of any length. */
#define DOT(LINE, n) \
    LINE(dot_##n, ear_dot, ear_dot(list, length, other, length, &y), "plain_loop", y = plain_loop(list, other, length), LISTS_OF(n))

/* Its nearest float beside a loop that carries its rounding errors along. */
#define NEAREST(LINE, n) \
    LINE(nearest_##n, ear_dot_nearest, ear_dot_nearest(list, length, other, length, &y), "carrying_loop", \
         carrying_loop(list, other, length, &y), LISTS_OF(n))

/* The contests, a line for each: a name, our function and its call, the rival and its call, the inputs. */
#define CONTESTS(LINE) \
    LINE(square_root, ear_sqrt, ear_sqrt(x, &y), "newlib_sqrtf", y = newlib_sqrtf(x), EVERY_NORMAL) \
    LINE(reciprocal, ear_rsqrt, ear_rsqrt(x, &y), "reciprocal_root", y = reciprocal_root(x), EVERY_NORMAL) \
    LINE(power_of_two, ear_exp2, ear_exp2(x, &y), "exp2f", y = exp2f(x), EVERY_POWER) \
    LINE(exponential, ear_exp, ear_exp(x, &y), "expf", y = expf(x), EVERY_EXPONENT) \
    LINE(logarithm, ear_log2, ear_log2(x, &y), "log2f", y = log2f(x), EVERY_NORMAL) \
    LINE(sine, ear_sin, ear_sin(x, &y), "sinf", y = sinf(x), EVERY_ANGLE) \
    LINE(small_sine, ear_sin, ear_sin(x, &y), "sinf", y = sinf(x), AROUND_ZERO) \
    LINE(large_sine, ear_sin, ear_sin(x, &y), "sinf", y = sinf(x), EVERY_LARGE) \
    LINE(cosine, ear_cos, ear_cos(x, &y), "cosf", y = cosf(x), EVERY_ANGLE) \
    LINE(small_cosine, ear_cos, ear_cos(x, &y), "cosf", y = cosf(x), AROUND_ZERO) \
    LINE(large_cosine, ear_cos, ear_cos(x, &y), "cosf", y = cosf(x), EVERY_LARGE) \
    LINE(sine_of_pi_x, ear_sinpi, ear_sinpi(x, &y), "sine_of_pi", y = sine_of_pi(x), EVERY_ANGLE) \
    LINE(cosine_of_pi_x, ear_cospi, ear_cospi(x, &y), "cosine_of_pi", y = cosine_of_pi(x), EVERY_ANGLE) \
    DOT(LINE, 16) DOT(LINE, 64) DOT(LINE, 1024) DOT(LINE, 65536) \
    NEAREST(LINE, 64) NEAREST(LINE, 1024) \
    LINE(softmax, ear_softmax2, ear_softmax2(list, length, out, length), "softmax_in_c", softmax_in_c(list, length, out), \
         LISTS_OF(64)) \
    LINE(softmax_of_e, ear_softmax, ear_softmax(list, length, out, length), "softmax_of_e_in_c", \
         softmax_of_e_in_c(list, length, out), LISTS_OF(64)) \
    LINE(transform, ear_transform128, ear_transform128(list, VALUES, out, PARTS, other, PARTS), "transform_in_c", \
         transform_in_c(list, out, other), FRAMES) \
    LINE(path, ear_currents, ear_currents(255, list, VALUES, other, VALUES, bands, 6 * BANDS, steps, BANDS), "currents_in_c", \
         currents_in_c(list, other, bands, BANDS, steps), FRAMES_OF_22) \
    LINE(loudness_map, ear_loudness, ear_loudness(CHANNEL, x, &step), "map_in_c", map_in_c(CHANNEL, x, &step), BETWEEN) \
    LINE(fitted_map, ear_step, ear_step(fitted, EAR_FITTED_WORDS, x, &step), "fitted_in_c", fitted_in_c(x, &step), \
         BETWEEN_FITTED)

static float list[LONGEST], other[LONGEST], out[LONGEST];
static uint32_t fitted[EAR_FITTED_WORDS];
static uint32_t length;
static volatile float y_sink;
static struct ear_band bands[BANDS];
static uint32_t steps[BANDS];

/* Bands as they are used: wider and wider from bin 2 on, over all bins up to 64. */
static void make_bands(void)
{
    for (uint32_t i = 0; i < BANDS; i++)
        bands[i] = (struct ear_band){2 + i * i / 8, 2 + (i + 1) * (i + 1) / 8, 0x1p-10f, 1, 100, 200};
}

static inline uint32_t now(void)
{
    return *(volatile uint32_t *)0x40000004;
}

/* Ticks around one call. Results go to places that the compiler has to write. */
#define TIMED(name, call) \
    static uint32_t name(float x) \
    { \
        float y = 0; \
        uint32_t step = 0, start = now(); \
        (void)x, call; \
        uint32_t ticks = start - now(); \
        y_sink = y + (float)step; \
        return ticks; \
    }

#define BOTH(id, ours, call, theirs, rival, inputs) \
    TIMED(ours_##id, call) \
    TIMED(theirs_##id, rival)

CONTESTS(BOTH)

struct contest {
    const char *names[2];
    uint32_t (*calls[2])(float x);
    struct inputs {
        const char *words;
        enum evenly evenly;
        float from, to;
        uint32_t length;
    } inputs;
};

#define ROW(id, ours, call, theirs, rival, inputs) \
    {{#ours, theirs}, {ours_##id, theirs_##id}, inputs},

static const struct contest contests[] = {CONTESTS(ROW)};

enum { CONTESTS_HELD = sizeof contests / sizeof contests[0] };

static uint64_t state;

static float drawn(enum evenly evenly, float low, float high)
{
    union word from = {.value = low}, to = {.value = high};
    state = state * 6364136223846793005u + 1442695040888963407u;
    if (evenly == OVER_PATTERNS)
        return (union word){.bits = from.bits + (uint32_t)((state >> 32) * (to.bits - from.bits) >> 32)}.value;
    return low + (high - low) * (float)(uint32_t)(state >> 40) * 0x1p-24f;
}

#ifndef TRACE
#define TRACE false /* true: a program that runs a few calls for a trace, and prints nothing */
#endif

/* The next input; of lists, the next lists, which stay as they are behind the first 128 where all is traced. */
static float next(const struct inputs *in)
{
    length = in->length;
    for (uint32_t i = 0; in->evenly == IN_LISTS && i < (TRACE && length > VALUES ? VALUES : length); i++) {
        list[i] = drawn(OVER_VALUES, in->from, in->to);
        other[i] = drawn(OVER_VALUES, in->from, in->to);
    }
    return drawn(in->evenly, in->from, in->to);
}

/* How far below this call's frame the stack was written. */
static __attribute__((noinline)) uint32_t depth(uint32_t (*call)(float), float x)
{
    volatile uint32_t *top;
    __asm__ volatile("mov %0, sp" : "=r"(top));
    for (int i = 1; i <= DEEPEST; i++)
        top[-i] = PAINT;
    call(x);
    int i = DEEPEST;
    while (i > 0 && top[-i] == PAINT)
        i--;
    return (uint32_t)i * 4;
}

/* 25.6 ticks are one instruction. */
static uint32_t instructions(uint32_t ticks)
{
    return (ticks * 5 + 64) / 128;
}

static void held(const struct contest *c, int who)
{
    uint32_t most = 0, deepest = 0, calls = c->inputs.evenly == IN_LISTS ? LISTS : INPUTS;
    uint64_t sum = 0;
    state = 1;
    for (uint32_t i = 0; i < calls; i++) {
        float x = next(&c->inputs);
        uint32_t count = instructions(c->calls[who](x));
        /* and where a call takes more than any before, since a rare way may go deeper */
        uint32_t deep = i < LISTS || count > most ? depth(c->calls[who], x) : 0;
        sum += count;
        most = count > most ? count : most;
        deepest = deep > deepest ? deep : deepest;
    }
    printf("%s|%s|%s|%lu|%lu|%lu|%lu\n", who == 0 ? "ours" : "other", c->names[who], c->inputs.words, (unsigned long)sum,
           (unsigned long)calls, (unsigned long)most, (unsigned long)deepest);
}

/* The most over all bit patterns, refused ones among them: some of each sign and exponent. */
static void most_of_all(const struct contest *c)
{
    uint32_t most = 0;
    state = 1;
    for (uint32_t i = 0; i < 512 * 40; i++) {
        state = state * 6364136223846793005u + 1442695040888963407u;
        union word x = {.bits = i / 40 << 23 | (i % 40 < 2 ? i % 40 * 0x7fffff : (uint32_t)(state >> 41))};
        uint32_t count = instructions(c->calls[0](x.value));
        most = count > most ? count : most;
    }
    printf("all|%s|all patterns|0|1|%lu|0\n", c->names[0], (unsigned long)most);
}

/* Between two marks are the instructions of one contestant, and the loop's. */
__attribute__((noinline)) void mark(void)
{
    __asm__ volatile("");
}

static void traced(const struct contest *c, int who)
{
    state = 1;
    mark();
    for (int i = 0; i < (c->inputs.evenly == IN_LISTS ? TRACED_LISTS : TRACED); i++)
        c->calls[who](next(&c->inputs));
}

int main(void)
{
    *(volatile uint32_t *)0x40000008 = 0xffffffff; /* the timer's reload */
    *(volatile uint32_t *)0x40000000 = 1;
    fit_in_c(CHANNEL);
    ear_fit(255, CHANNEL, fitted, EAR_FITTED_WORDS);
    turns_in_c();
    make_bands();
    for (int i = 0; i < CONTESTS_HELD; i++)
        for (int who = 0; who < 2; who++) {
            (TRACE ? traced : held)(&contests[i], who);
            if (!TRACE && who == 0 && contests[i].inputs.evenly != IN_LISTS)
                most_of_all(&contests[i]);
        }
    mark();
    return 0;
}
