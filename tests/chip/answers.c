#include "answers.h"

#include <string.h>

#include "earmath.h"

/* A well mixed number for each number: whole numbers only, so the same everywhere. */
static uint32_t mix(uint32_t x)
{
    x = (x ^ x >> 16) * 0x85ebca6b;
    x = (x ^ x >> 13) * 0xc2b2ae35;
    return x ^ x >> 16;
}

/* The next number of a sequence. */
static uint32_t draw(uint32_t *state)
{
    return mix(*state += 0x9e3779b9);
}

static void preset(struct answer *a, uint32_t places, uint32_t pattern)
{
    a->places = places;
    for (uint32_t i = 0; i < places + 2 * GUARD; i++)
        a->before[i].bits = a->after[i].bits = mix(pattern + i) | 0x7f800000;
}

static union word word(uint32_t bits)
{
    return (union word){.bits = bits};
}

/* Of either sign, with an exponent from `lowest` on. */
static union word drawn_float(uint32_t *state, uint32_t lowest, uint32_t count)
{
    uint32_t exponent = lowest + draw(state) % count;
    return word(exponent << 23 | (draw(state) & 0x807fffff));
}

static void ask_single(const struct asked *f, uint32_t pattern, struct answer *a)
{
    preset(a, 1, pattern);
    a->code = f->call.single(word(pattern).value, &a->after[GUARD].value);
}

/* Lengths: mostly alike, from `least` to 41 more; one time in 16 different, too short or above `most`. */
static void draw_lengths(uint32_t *state, uint64_t least, uint64_t most, uint64_t *n, uint64_t *m)
{
    static const uint64_t off[] = {1, 0x80000000, 0x100000000, 0xffffffffffffffff};
    const uint64_t beyond[] = {most + 1, 0x80000000, 0x100000000, 0xffffffffffffffff};
    uint32_t way = draw(state);
    *n = *m = least + draw(state) % 42;
    switch (way % 64) {
    case 0: *m += off[way / 64 % 4]; break;
    case 1: *n += off[way / 64 % 4]; break;
    case 2: *n = *m = beyond[way / 64 % 4]; break;
    case 3: *n = *m = least == 0 ? beyond[0] : least - 1; break;
    default: break;
    }
}

enum { LONGEST_DRAWN = 42, MORE = 640 };

/* One time in 32 the lists are longer, for the blocks of 64 and their counter. */
static uint32_t draw_more(uint32_t *state, uint64_t nx, uint64_t ny)
{
    bool longer = draw(state) % 32 == 0 && nx == ny && nx <= LONGEST_DRAWN;
    return longer ? draw(state) % MORE : 0;
}

/* Four ways to draw exponents: the lowest, and how many there are. */
struct exponents {
    uint32_t lowest[4], count[4];
};

static void ask_lists(const struct asked *f, uint32_t pattern, struct answer *a, const struct exponents *e, uint64_t longest)
{
    static union word x[LONGEST_DRAWN + MORE], y[LONGEST_DRAWN + MORE];
    uint32_t state = pattern, way = draw(&state);
    uint64_t nx, ny;
    draw_lengths(&state, 0, longest, &nx, &ny);
    uint32_t more = draw_more(&state, nx, ny);
    for (uint32_t i = 0; i <= LONGEST_DRAWN + more; i++) {
        x[i] = drawn_float(&state, e->lowest[way % 4], e->count[way % 4]);
        y[i] = drawn_float(&state, e->lowest[way % 4], e->count[way % 4]);
    }
    if (way % 64 == 63)
        (way & 64 ? x : y)[way / 128 % LONGEST_DRAWN].bits |= 0x7f800000;
    preset(a, 1, pattern);
    a->code = f->call.dot(&x[0].value, nx + more, &y[0].value, ny + more, &a->after[GUARD].value);
}

static void ask_dot(const struct asked *f, uint32_t pattern, struct answer *a)
{
    /* all that are finite; or such that sums and products overflow; or products are subnormal; or near 0 */
    static const struct exponents e = {{0, 187, 58, 110}, {255, 4, 8, 30}};
    ask_lists(f, pattern, a, &e, 65536);
}

static void ask_nearest(const struct asked *f, uint32_t pattern, struct answer *a)
{
    /* all that are accepted; one more on either side; sizes near each other; one exponent */
    static const struct exponents e = {{87, 86, 120, 127}, {80, 82, 8, 1}};
    ask_lists(f, pattern, a, &e, 4096);
}

static void ask_softmax(const struct asked *f, uint32_t pattern, struct answer *a)
{
    static union word x[PLACES];
    uint32_t state = pattern, way = draw(&state);
    uint64_t nx, np;
    draw_lengths(&state, 1, PLACES, &nx, &np);
    if (way % 1024 == 0)
        nx = np = PLACES;
    uint32_t drawn = nx == PLACES ? PLACES : LONGEST_DRAWN + 1;
    /* from -64 to 64, of sizes near each other or over all exponents */
    uint32_t lowest = way & 1 ? 0 : 120;
    for (uint32_t i = 0; i < drawn; i++)
        x[i] = drawn_float(&state, lowest, 133 - lowest);
    if (way % 32 == 31)
        x[way / 32 % LONGEST_DRAWN].bits = draw(&state);
    if (way % 32 == 30)
        x[way / 32 % LONGEST_DRAWN].bits = 0x42800000 + (way >> 16 & 1);
    preset(a, nx == np && nx <= drawn ? (uint32_t)nx : drawn, pattern);
    a->code = f->call.softmax(&x[0].value, nx, &a->after[GUARD].value, np);
}

/* The real parts, a place between, and the imaginary parts. */
static void ask_transform(const struct asked *f, uint32_t pattern, struct answer *a)
{
    enum { VALUES = 128, PARTS = 65 };
    static union word x[VALUES];
    /* exponents: all that are accepted; or subnormal and next to it; or of sounds; or next to the greatest */
    static const uint32_t lowest[] = {0, 0, 100, 239}, count[] = {247, 2, 28, 8};
    uint32_t state = pattern, way = draw(&state);
    for (int i = 0; i < VALUES; i++)
        x[i] = drawn_float(&state, lowest[way % 4], count[way % 4]);
    if (way % 64 == 63)
        x[way / 64 % VALUES].bits = draw(&state) | 0x7b800000;
    preset(a, 2 * PARTS + 1, pattern);
    float *re = &a->after[GUARD].value, *im = &a->after[GUARD + PARTS + 1].value;
    uint32_t more = way / 1024 % 2;
    switch (way % 64) {
    case 0: a->code = f->call.transform(&x[0].value, VALUES - 1 + 2 * more, re, PARTS, im, PARTS); break;
    case 1: a->code = f->call.transform(&x[0].value, VALUES, re, PARTS - 1 + 2 * more, im, PARTS); break;
    case 2: a->code = f->call.transform(&x[0].value, VALUES, re, PARTS, im, PARTS - 1 + 2 * more); break;
    default: a->code = f->call.transform(&x[0].value, VALUES, re, PARTS, im, PARTS); break;
    }
}

struct channel {
    uint32_t b, m, t, c;
};

/* Channels as they are used, as steep and as wide as may be, and with one value. */
static const struct channel channels[] = {
    {0x3a83126f, 0x3ea1e89b, 100, 200}, {0x3e800000, 0x3f000000, 0, 255}, {0x33800000, 0x3f800000, 0, 255},
    {0x33800000, 0x34000000, 3, 250},   {0x3ccccccd, 0x3f800000, 17, 17}, {0x3f000000, 0x3f800000, 254, 255},
};

/* Some channel; one time in 8 drawn at random, mostly in order. */
static struct channel draw_channel(uint32_t *state)
{
    uint32_t way = draw(state);
    struct channel k = channels[way / 16 % 6];
    if (way % 8 == 0) {
        k = (struct channel){0x33800000 + draw(state) % 0x0b800000, 0, draw(state) % 128, 127 + draw(state) % 129};
        k.m = k.b + 0x00800000 + draw(state) % (0x3f800000 - k.b);
    }
    switch (way % 256) {
    case 16: k.b = draw(state); break;
    case 17: k.m = draw(state); break;
    case 18: k.m = k.b + 0x00800000 - draw(state) % 2; break;
    case 19: k.c = 256 + draw(state) % 2; break;
    case 20: k.t = k.c + 1; break;
    case 21: k.b = 0x33800000 - draw(state) % 2; break;
    default: break;
    }
    return k;
}

static void ask_map(const struct asked *f, uint32_t pattern, struct answer *a)
{
    uint32_t state = pattern;
    struct channel k = draw_channel(&state);
    preset(a, 1, pattern);
    a->code = f->call.map(word(k.b).value, word(k.m).value, k.t, k.c, word(pattern).value, &a->after[GUARD].bits);
}

/* The words of some channel, of a bad one words that no fit wrote; now and then one of them is changed, or their number is another. */
static void ask_step(const struct asked *f, uint32_t pattern, struct answer *a)
{
    uint32_t state = pattern, words[EAR_FITTED_KNEE_WORDS];
    struct channel k = draw_channel(&state);
    uint32_t way = draw(&state), n = way & 1 ? EAR_FITTED_WORDS : EAR_FITTED_KNEE_WORDS, middle = k.b + (k.m - k.b) / 2;
    for (uint32_t i = 0; i < EAR_FITTED_KNEE_WORDS; i++)
        words[i] = draw(&state);
    if (way & 1)
        ear_fit(255, word(k.b).value, word(k.m).value, k.t, k.c, words, n);
    else
        ear_fit_knee(255, word(k.b).value, word(middle).value, word(k.m).value, k.t, (k.t + k.c) / 2, k.c, words, n);
    if (way % 64 / 2 == 0)
        words[draw(&state) % n] ^= draw(&state);
    preset(a, 1, pattern);
    a->code = f->call.step(words, way % 64 / 2 == 1 ? draw(&state) % EAR_FITTED_WORDS : n, word(pattern).value, &a->after[GUARD].bits);
}

/* Bands of all kinds over one frame; one time in 16 something in them is refused. */
static void ask_currents(const struct asked *f, uint32_t pattern, struct answer *a)
{
    enum { VALUES = 128 };
    static union word x[VALUES], w[VALUES];
    static struct ear_band bands[66];
    static const uint32_t lowest[] = {0, 100, 120}, count[] = {127, 27, 7}; /* exponents: up to 1, near it */
    uint32_t state = pattern, way = draw(&state), n = 1 + draw(&state) % 24, top = way & 64 ? 1023 : 255;
    for (int i = 0; i < VALUES; i++) {
        x[i] = drawn_float(&state, lowest[way % 3], count[way % 3]);
        w[i] = drawn_float(&state, lowest[way / 4 % 3], count[way / 4 % 3]);
    }
    for (uint32_t i = 0; i < n; i++) {
        struct channel k = draw_channel(&state);
        uint32_t lo = draw(&state) % 65;
        bands[i] = (struct ear_band){lo, lo + draw(&state) % (65 - lo), word(k.b).value, word(k.m).value, k.t, k.c};
    }
    if (way >> 8 & 15) /* else drawn channels may break their conditions */
        for (uint32_t i = 0; i < n; i++)
            bands[i] = (struct ear_band){bands[i].lo, bands[i].hi, 0x1p-20f, 0.5f, 3, 200};
    if ((way >> 12 & 63) == 0)
        x[way >> 20 & 127].bits = draw(&state);
    preset(a, n, pattern);
    a->code = f->call.currents(top, &x[0].value, VALUES - (way >> 18 == 5), &w[0].value, VALUES, bands, 6 * n + (way >> 18 == 6), &a->after[GUARD].bits, n);
}

#define SINGLE(function) {#function, ask_single, {.single = function}, 1 << EAR_OK | 1 << EAR_OUT_OF_RANGE, 1, false}

const struct asked every_function[] = {
    SINGLE(ear_sqrt),
    SINGLE(ear_rsqrt),
    SINGLE(ear_exp2),
    SINGLE(ear_exp),
    SINGLE(ear_log2),
    SINGLE(ear_sinpi),
    SINGLE(ear_cospi),
    SINGLE(ear_sin),
    SINGLE(ear_cos),
    /* name, how it is asked, call, codes, its share of the patterns, whether it rounds */
    {"ear_dot", ask_dot, {.dot = ear_dot},
     1 << EAR_OK | 1 << EAR_OUT_OF_RANGE | 1 << EAR_BAD_LENGTH | 1 << EAR_OVERFLOW, 16, true},
    {"ear_dot_nearest", ask_nearest, {.dot = ear_dot_nearest},
     1 << EAR_OK | 1 << EAR_OUT_OF_RANGE | 1 << EAR_BAD_LENGTH, 16, false},
    {"ear_softmax2", ask_softmax, {.softmax = ear_softmax2},
     1 << EAR_OK | 1 << EAR_OUT_OF_RANGE | 1 << EAR_BAD_LENGTH, 16, false},
    {"ear_softmax", ask_softmax, {.softmax = ear_softmax},
     1 << EAR_OK | 1 << EAR_OUT_OF_RANGE | 1 << EAR_BAD_LENGTH, 16, false},
    {"ear_transform128", ask_transform, {.transform = ear_transform128},
     1 << EAR_OK | 1 << EAR_OUT_OF_RANGE | 1 << EAR_BAD_LENGTH, 64, false},
    {"ear_currents", ask_currents, {.currents = ear_currents},
     1 << EAR_OK | 1 << EAR_OUT_OF_RANGE | 1 << EAR_BAD_LENGTH | 1 << EAR_BAD_CHANNEL, 64, false},
    {"ear_loudness", ask_map, {.map = ear_loudness}, 1 << EAR_OK | 1 << EAR_OUT_OF_RANGE | 1 << EAR_BAD_CHANNEL, 1, false},
    {"ear_step", ask_step, {.step = ear_step},
     1 << EAR_OK | 1 << EAR_OUT_OF_RANGE | 1 << EAR_BAD_LENGTH | 1 << EAR_BAD_CHANNEL, 4, false},
};

const int function_count = sizeof every_function / sizeof every_function[0];

bool ask(const struct asked *f, uint32_t pattern, struct answer *a)
{
    f->ask(f, pattern, a);
    uint32_t end = a->places + GUARD;
    if (a->code != EAR_OK)
        return a->code < 32 && f->codes >> a->code & 1 &&
               memcmp(a->before, a->after, (end + GUARD) * sizeof a->after[0]) == 0;
    return a->before[0].bits == a->after[0].bits && a->before[end].bits == a->after[end].bits;
}

uint32_t mixed(uint32_t sum, const struct answer *a)
{
    sum = (sum ^ a->code) * 0x01000193;
    for (uint32_t i = 0; i < a->places; i++) {
        sum = (sum ^ a->after[GUARD + i].bits) * 0x01000193;
        sum ^= sum >> 15;
    }
    return sum;
}

uint32_t spread_size(const struct asked *f, uint32_t block, uint32_t draws)
{
    uint32_t exponent = block % 256;
    return EDGES + draws * (102 <= exponent && exponent < 135 ? 8 : 1) / f->share;
}

uint32_t spread_pattern(uint32_t block, uint32_t i)
{
    /* the ends of an exponent's floats, where a carry or a halved spacing shows */
    static const uint32_t edges[EDGES] = {0x000000, 0x000001, 0x000002, 0x3fffff, 0x400000, 0x7ffffe, 0x7fffff};
    return block << 23 | (i < EDGES ? edges[i] : mix(block << 20 | i) & 0x7fffff);
}
