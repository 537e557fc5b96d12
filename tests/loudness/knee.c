/*
 * The map with a knee: on either side of it the straight map of that segment, the
 * ends and the knee exact, never falling over a spread of all floats from 0 to 1;
 * what is refused, each condition alone; and channels without a knee, which map as
 * they did before there was one.
 */
#include <inttypes.h>
#include <math.h>
#include <stddef.h>

#include "earmath.h"
#include "judge.h"
#include "report.h"

enum { STRIDE = 61, KEPT = 0xa5a5a5a5, ONE = 0x3f800000 };

struct bent {
    uint32_t top;
    float b, k, m;
    uint32_t t, kk, c;
};

static const struct bent bent_channels[] = {
    {255, 0.001f, 0.05f, 0.5f, 80, 180, 220}, {1023, 0x1p-24f, 0x1p-12f, 1, 0, 1000, 1023}, {1023, 0x1p-24f, 0x1p-23f, 0x1p-22f, 0, 511, 1023},
    {255, 0.25f, 0.5f, 1, 10, 10, 200},
};

#define COUNT(list) (sizeof list / sizeof list[0])

static uint32_t ask(struct bent k, float a, uint32_t *out)
{
    return ear_loudness_knee(k.top, k.b, k.k, k.m, k.t, k.kk, k.c, a, out);
}

/* The step that the segment's straight map gives. */
static uint32_t straight(struct bent k, float a)
{
    uint32_t step = KEPT;
    if (a <= k.k)
        ear_loudness_top(k.top, k.b, k.k, k.t, k.kk, a, &step);
    else
        ear_loudness_top(k.top, k.k, k.m, k.kk, k.c, a, &step);
    return step;
}

static void segments(struct bent k)
{
    uint32_t lower = 0, asked = 0, wrong = 0, step = KEPT;
    for (uint32_t a = 0; a <= ONE; a += STRIDE, asked++) {
        wrong += ask(k, float_of(a), &step) != EAR_OK || step != straight(k, float_of(a)) || step < lower || step < k.t || k.c < step;
        lower = step;
    }
    wrong += ask(k, k.b, &step) != EAR_OK || step != k.t;
    wrong += ask(k, k.k, &step) != EAR_OK || step != k.kk;
    wrong += ask(k, k.m, &step) != EAR_OK || step != k.c;
    wrong += ask(k, 1, &step) != EAR_OK || step != k.c;
    group(wrong == 0, "ear_loudness_knee: %u wrong of %u, K = %u of %u to %u", wrong, asked, k.kk, k.t, k.c);
}

static const struct refused {
    struct bent channel;
    float a;
    uint32_t code;
} refused[] = {
    {{1024, 0.1f, 0.25f, 1, 0, 5, 9}, 0.5f, EAR_BAD_CHANNEL}, {{255, 0.1f, 0.25f, 1, 0, 5, 256}, 0.5f, EAR_BAD_CHANNEL},
    {{255, 0x1.fffffep-25f, 0.25f, 1, 0, 5, 9}, 0.5f, EAR_BAD_CHANNEL}, {{255, 0.25f, 0x1.fffffep-2f, 1, 0, 5, 9}, 0.5f, EAR_BAD_CHANNEL},
    {{255, 0.1f, 0.5f, 0x1.fffffep-1f, 0, 5, 9}, 0.5f, EAR_BAD_CHANNEL}, {{255, 0.1f, 0.25f, 0x1.000002p0f, 0, 5, 9}, 0.5f, EAR_BAD_CHANNEL},
    {{255, 0.1f, 0.25f, 1, 6, 5, 9}, 0.5f, EAR_BAD_CHANNEL}, {{255, 0.1f, 0.25f, 1, 0, 10, 9}, 0.5f, EAR_BAD_CHANNEL},
    {{255, NAN, 0.25f, 1, 0, 5, 9}, NAN, EAR_BAD_CHANNEL}, {{255, 0.1f, NAN, 1, 0, 5, 9}, 0.5f, EAR_BAD_CHANNEL},
    {{255, 0.1f, 0.25f, NAN, 0, 5, 9}, 0.5f, EAR_BAD_CHANNEL}, {{255, 0.1f, 0.25f, 1, 0, 5, 9}, NAN, EAR_OUT_OF_RANGE},
    {{255, 0.1f, 0.25f, 1, 0, 5, 9}, 0x1.000002p0f, EAR_OUT_OF_RANGE}, {{255, 0.1f, 0.25f, 1, 0, 5, 9}, -1, EAR_OUT_OF_RANGE},
};

static void refusals(void)
{
    int good = 0;
    for (size_t i = 0; i < COUNT(refused); i++) {
        uint32_t place = KEPT;
        good += ask(refused[i].channel, refused[i].a, &place) == refused[i].code && place == KEPT;
    }
    group(good == COUNT(refused), "ear_loudness_knee: %d of %d refusals, each with its code and the place kept", good, (int)COUNT(refused));
}

/* What ear_loudness answered before there was a knee, as one number: channels and
 * envelope values drawn, one in four of any pattern. */
enum { DRAWN = 1000000 };
static const uint64_t answers_before = 0x4cf96668231b1710;

static uint32_t state = 2463534242;

static uint32_t draw(void)
{
    state ^= state << 13;
    state ^= state >> 17;
    return state ^= state << 5;
}

static void old_channels(void)
{
    uint64_t sum = 0;
    for (int i = 0; i < DRAWN; i++) {
        uint32_t b = 0x33800000 + draw() % 0x0b800000, m = b + 0x00800000 + draw() % (0x3f800000 - b), step = KEPT;
        uint32_t t = draw() % 130, c = draw() % 260, a = i % 4 ? draw() % 0x3f800002 : draw();
        uint32_t code = ear_loudness(float_of(b), float_of(m), t, c, float_of(a), &step);
        sum = (sum ^ code ^ (uint64_t)step << 3) * 0x9e3779b97f4a7c15;
    }
    group(sum == answers_before, "ear_loudness: %d answers as before there was a knee, %016" PRIx64, DRAWN, sum);
}

int main(void)
{
    old_channels();
    for (size_t i = 0; i < COUNT(bent_channels); i++)
        segments(bent_channels[i]);
    refusals();
    return verdict();
}
