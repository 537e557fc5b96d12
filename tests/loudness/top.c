/*
 * The map of a stimulator with more steps, against exact arithmetic: around every
 * half step of channels with 1,023 steps, with 255 the same as ear_loudness, and
 * what is refused.
 */
#include <math.h>
#include <stddef.h>

#include "earmath.h"
#include "exact_map.h"
#include "judge.h"
#include "report.h"

#define LIMIT 0.500004

enum { DRAWN = 200000, AROUND = 4, KEPT = 0xa5a5a5a5 };

static const struct channel long_channels[] = {
    {0x1p-24f, 1, 0, 1023}, {0.25f, 0.5f, 0, 1023}, {0x1p-24f, 0x1p-23f, 0, 1023}, {0.001f, 0.316227766f, 100, 900}, {0.5f, 1, 7, 7},
};

#define COUNT(list) (sizeof list / sizeof list[0])

static uint32_t state = 1;

static uint32_t draw(void)
{
    state ^= state << 13;
    state ^= state >> 17;
    return state ^= state << 5;
}

/* What is wrong with the step at a: 0 where nothing is. The lower step never exceeds it. */
static int wrong_at(struct exact_map *map, struct channel k, float a, uint32_t *lower, double *worst)
{
    uint32_t step = KEPT;
    uint32_t code = ear_loudness_top(1023, k.b, k.m, k.t, k.c, a, &step);
    if (code != EAR_OK || step < k.t || k.c < step || step < *lower)
        return 1;
    *lower = step;
    if (a <= k.b || a >= k.m)
        return step != (a <= k.b ? k.t : k.c);
    double far = distance(map, a, step);
    *worst = fmax(*worst, far);
    return far > LIMIT;
}

/* Every edge of a step, with the floats around it, from below. */
static void long_steps(void)
{
    double worst = 0;
    int wrong = 0, asked = 0;
    for (size_t i = 0; i < COUNT(long_channels); i++) {
        struct channel k = long_channels[i];
        struct exact_map map;
        uint32_t lower = 0;
        open_map(&map);
        fit(&map, k);
        wrong += wrong_at(&map, k, 0, &lower, &worst) + wrong_at(&map, k, k.b, &lower, &worst);
        for (uint32_t step = 0; step < k.c - k.t; step++) {
            uint32_t edge = bits_of(half_step(&map, step));
            for (uint32_t bits = edge - AROUND; bits <= edge + AROUND; bits++, asked++)
                if (bits > bits_of(k.b) && bits < bits_of(k.m))
                    wrong += wrong_at(&map, k, float_of(bits), &lower, &worst);
        }
        wrong += wrong_at(&map, k, k.m, &lower, &worst) + wrong_at(&map, k, 1, &lower, &worst);
        close_map(&map);
    }
    group(wrong == 0, "ear_loudness_top: %d wrong of %d around the edges of 1,023 steps, worst distance %.9f", wrong, asked, worst);
}

/* With top = 255 it is ear_loudness. */
static void short_steps(void)
{
    int other = 0;
    for (int i = 0; i < DRAWN; i++) {
        uint32_t b = 0x33800000 + draw() % 0x0b800000, m = b + 0x00800000 + draw() % (0x3f800000 - b), t = draw() % 130, c = draw() % 260;
        uint32_t one = KEPT, two = KEPT, a = i % 4 ? draw() % 0x3f800002 : draw();
        uint32_t code = ear_loudness(float_of(b), float_of(m), t, c, float_of(a), &one);
        other += code != ear_loudness_top(255, float_of(b), float_of(m), t, c, float_of(a), &two) || one != two;
    }
    group(other == 0, "ear_loudness_top: with top = 255 the same as ear_loudness, %d other of %d", other, DRAWN);
}

static const struct refused {
    uint32_t top;
    struct channel channel;
    float a;
    uint32_t code;
} refused[] = {
    {1023, {0.25f, 1, 0, 1024}, 0.5f, EAR_BAD_CHANNEL}, {255, {0.25f, 1, 0, 256}, 0.5f, EAR_BAD_CHANNEL},
    {1024, {0.25f, 1, 0, 100}, 0.5f, EAR_BAD_CHANNEL}, {UINT32_MAX, {0.25f, 1, 0, 100}, 0.5f, EAR_BAD_CHANNEL},
    {0, {0.25f, 1, 0, 1}, 0.5f, EAR_BAD_CHANNEL}, {1023, {0.25f, 1, 901, 900}, 0.5f, EAR_BAD_CHANNEL},
    {1023, {0x1.fffffep-25f, 1, 0, 900}, 0.5f, EAR_BAD_CHANNEL}, {1023, {0.5f, 0x1.fffffep-1f, 0, 900}, 0.5f, EAR_BAD_CHANNEL},
    {1023, {0.25f, 0x1.000002p0f, 0, 900}, NAN, EAR_BAD_CHANNEL}, {1023, {0.25f, 1, 0, 900}, NAN, EAR_OUT_OF_RANGE},
    {1023, {0.25f, 1, 0, 900}, 0x1.000002p0f, EAR_OUT_OF_RANGE}, {1023, {0.25f, 1, 0, 900}, -0x1p-149f, EAR_OUT_OF_RANGE},
};

static void refusals(void)
{
    int good = 0;
    for (size_t i = 0; i < COUNT(refused); i++) {
        struct channel k = refused[i].channel;
        uint32_t place = KEPT;
        good += ear_loudness_top(refused[i].top, k.b, k.m, k.t, k.c, refused[i].a, &place) == refused[i].code && place == KEPT;
    }
    group(good == COUNT(refused), "ear_loudness_top: %d of %d refusals, each with its code and the place kept", good, (int)COUNT(refused));
}

int main(void)
{
    long_steps();
    short_steps();
    refusals();
    return verdict();
}
