#include "map_survey.h"

#include <math.h>
#include <stdlib.h>

#include "judge.h"

enum { DRAWS = 48, AROUND = 3, MOST = 256 * (2 * AROUND + 1) + 2 * DRAWS + 64 };

static const uint32_t sentinel = 0xa5a5a5a5;

/* Bit patterns of envelope values, to be sorted by value. */
struct values {
    int count;
    uint32_t a[MOST];
};

/* Knuth's 64-bit linear congruential generator, from a fixed start: a number
 * from `low` to `high`, both included. */
static uint32_t draw(uint64_t *state, uint32_t low, uint32_t high)
{
    *state = *state * 6364136223846793005u + 1442695040888963407u;
    return low + (uint32_t)((*state >> 32) * ((uint64_t)high - low + 1) >> 32);
}

/* The floats from `below` before to `above` after the one at a pattern. */
static void take_around(struct values *v, uint32_t pattern, uint32_t below, uint32_t above)
{
    uint32_t place = place_of(pattern);
    for (uint32_t at = place - below; at != place + above + 1; at++)
        v->a[v->count++] = pattern_at(at);
}

static int by_value(const void *left, const void *right)
{
    uint32_t x = place_of(*(const uint32_t *)left), y = place_of(*(const uint32_t *)right);
    return (x > y) - (x < y);
}

/* Around b and m; -0, 0 and the subnormals and negatives next to them; around 1;
 * and what is no envelope value at all. */
static void take_joints(struct values *v, struct channel channel)
{
    static const uint32_t others[] = {
        0x7f800000, 0xff800000, 0x7fc00000, 0xffc00000, 0x7f800001,
        0xffffffff, 0xbf800000, 0x7f7fffff, 0x007fffff, 0x00800000,
    };
    take_around(v, bits_of(channel.b), AROUND, AROUND);
    take_around(v, bits_of(channel.m), AROUND, AROUND);
    take_around(v, 0x00000000, 2, 1);
    take_around(v, 0x3f800000, 1, 1);
    for (size_t i = 0; i < sizeof others / sizeof others[0]; i++)
        take_around(v, others[i], 0, 0);
}

static void take_half_steps(struct values *v, struct exact_map *map)
{
    for (uint32_t k = 0; k < map->channel.c - map->channel.t; k++)
        take_around(v, bits_of(half_step(map, k)), AROUND, AROUND);
}

/* Over the patterns from b to m, each with the next float, and a few outside. */
static void take_spread(struct values *v, struct channel channel)
{
    uint64_t state = bits_of(channel.b) ^ (uint64_t)bits_of(channel.m) << 32;
    for (int i = 0; i < DRAWS; i++)
        take_around(v, draw(&state, bits_of(channel.b), bits_of(channel.m)), 0, 1);
    for (int i = 0; i < 4; i++)
        take_around(v, draw(&state, 0, bits_of(1)), 0, 0);
}

void survey_channel(struct map_tally *t, loudness_map call, struct exact_map *map, enum thoroughness how, double limit)
{
    struct values v = {0};
    take_joints(&v, map->channel);
    take_spread(&v, map->channel);
    if (how == EVERY_HALF_STEP)
        take_half_steps(&v, map);
    qsort(v.a, (size_t)v.count, sizeof v.a[0], by_value);
    struct map_deed before = {0};
    for (int i = 0; i < v.count; i++) {
        struct map_deed here = map_deed_at(call, map->channel, v.a[i], sentinel);
        judge_step(t, map, here, limit);
        if (i > 0)
            judge_rise(t, map->channel, before, here);
        before = here;
    }
}

bool edge_channel(int index, struct channel *channel)
{
    static const float lows[] = {
        0x1p-24f, 0x1.000002p-24f, 0x1.fffffep-24f, 0x1.555556p-13f, 0x1p-2f, 0x1.fffffep-2f, 0x1p-1f,
    };
    static const uint32_t steps[][2] = {{0, 255}, {0, 0}, {255, 255}, {254, 255}, {0, 1}, {100, 200}, {7, 7}};
    enum { HIGHS = 4, LOWS = sizeof lows / sizeof lows[0], STEPS = sizeof steps / sizeof steps[0] };
    if (index >= LOWS * HIGHS * STEPS)
        return false;
    float b = lows[index % LOWS];
    float highs[HIGHS] = {2 * b, nextafterf(2 * b, 2), nextafterf(1, 0), 1};
    const uint32_t *ends = steps[index / LOWS % STEPS];
    *channel = (struct channel){b, highs[index / LOWS / STEPS], ends[0], ends[1]};
    return true;
}

static struct channel drawn_channel(uint64_t *state)
{
    struct channel channel;
    channel.b = float_of(draw(state, bits_of(0x1p-24f), bits_of(0.5f)));
    channel.m = float_of(draw(state, bits_of(2 * channel.b), bits_of(1)));
    channel.c = draw(state, 0, 255);
    channel.t = draw(state, 0, channel.c);
    return channel;
}

int survey_channels(struct map_tally *t, loudness_map call, int drawn, double limit)
{
    struct exact_map map;
    struct channel channel;
    uint64_t state = 1;
    int count = 0;
    open_map(&map);
    for (int i = 0; edge_channel(i, &channel); i++)
        if (fits(channel)) {
            fit(&map, channel);
            survey_channel(t, call, &map, EVERY_HALF_STEP, limit);
            count++;
        }
    for (int i = 0; i < drawn; i++) {
        fit(&map, drawn_channel(&state));
        survey_channel(t, call, &map, i % 16 == 0 ? EVERY_HALF_STEP : SPREAD, limit);
        count++;
    }
    close_map(&map);
    return count;
}
