/*
 * Every float from b to m as the envelope value, for three channels of
 * ear_loudness, three with 1,023 steps, and the two segments of three channels
 * with a knee. The exact map is taken in long double, whose own error here is far
 * below 2^-40; MPFR decides what is nearer than that to the limit.
 */
#include <inttypes.h>
#include <math.h>
#include <stdio.h>

#include "blocks.h"
#include "earmath.h"
#include "judge.h"
#include "map_judge.h"
#include "report.h"

/* What 1,023 steps may be away from the exact map. */
#define LONG_LIMIT 0.500004

struct bent {
    uint32_t top;
    float b, k, m;
    uint32_t t, kk, c;
};

/* A usual one, the longest, and the steepest, with the knee two thirds up. */
static const struct bent bent_channels[] = {
    {255, 0.001f, 0.05f, 0.5f, 80, 180, 220},
    {1023, 0x1p-24f, 0x1p-12f, 1, 0, 1000, 1023},
    {1023, 0x1.6a09e6p-7f, 0x1.6a09e6p-6f, 0x1.6a09e6p-5f, 0, 682, 1023},
};

static const struct bent *bent; /* the one that is swept */

static uint32_t long_map(float b, float m, uint32_t t, uint32_t c, float a, uint32_t *out)
{
    return ear_loudness_top(1023, b, m, t, c, a, out);
}

/* The whole bent map, of which a segment is judged. */
static uint32_t bent_map(float b, float m, uint32_t t, uint32_t c, float a, uint32_t *out)
{
    (void)b, (void)m, (void)t, (void)c;
    return ear_loudness_knee(bent->top, bent->b, bent->k, bent->m, bent->t, bent->kk, bent->c, a, out);
}

/* A channel, or a segment of one with a knee, of which the floats `from` to `to` are asked. */
struct sweep {
    loudness_map call;
    struct channel channel;
    float from, to;
    double limit;
};

/* The widest one, a usual one, and the steepest with b and m between powers. */
static const struct sweep sweeps[] = {
    {ear_loudness, {0x1p-24f, 1, 0, 255}, 0, 1, MAP_LIMIT},
    {ear_loudness, {0.001f, 0.316227766f, 100, 200}, 0, 1, MAP_LIMIT},
    {ear_loudness, {0x1.6a09e6p-7f, 0x1.6a09e6p-6f, 0, 255}, 0, 1, MAP_LIMIT},
    {long_map, {0x1p-24f, 1, 0, 1023}, 0, 1, LONG_LIMIT},
    {long_map, {0.001f, 0.316227766f, 200, 900}, 0, 1, LONG_LIMIT},
    {long_map, {0x1.6a09e6p-7f, 0x1.6a09e6p-6f, 0, 1023}, 0, 1, LONG_LIMIT},
};

struct share {
    struct sweep sweep;
    struct exact_map map;
    long double log_b, slope; /* steps for one doubling of a */
    struct map_tally tally;
};

static double distance_of(struct share *s, float a, uint32_t step)
{
    long double exact = s->map.channel.t + s->slope * (log2l(a) - s->log_b);
    double far = (double)fabsl(step - exact);
    return far < s->sweep.limit - 0x1p-40 ? far : distance(&s->map, a, step);
}

/* A block that lies wholly below b or above m is left out. */
static void sweep_block(void *share, uint32_t from)
{
    struct share *s = share;
    struct channel channel = s->sweep.channel;
    if (from + (BLOCK - 1) < place_of(bits_of(channel.b)) || from > place_of(bits_of(channel.m)))
        return;
    struct map_deed before = map_deed_at(s->sweep.call, channel, pattern_at(from == 0 ? 0 : from - 1), 0xa5a5a5a5);
    for (uint32_t i = 0; i < BLOCK; i++) {
        struct map_deed here = map_deed_at(s->sweep.call, channel, pattern_at(from + i), 0xa5a5a5a5);
        float a = float_of(here.a);
        if (s->sweep.from <= a && a <= s->sweep.to) {
            judge_form(&s->tally, channel, here);
            judge_rise(&s->tally, channel, before, here);
            if (sloping(channel, a))
                judge_distance(&s->tally, channel, here, distance_of(s, a, here.memory[1]), s->sweep.limit);
        }
        before = here;
    }
}

static void open_share(struct share *s, struct sweep sweep)
{
    struct channel channel = sweep.channel;
    *s = (struct share){.sweep = sweep, .log_b = log2l(channel.b)};
    s->slope = (channel.c - channel.t) / (log2l(channel.m) - s->log_b);
    open_map(&s->map);
    fit(&s->map, channel);
}

static void every(const char *name, struct sweep sweep)
{
    struct share shares[MOST_THREADS];
    struct map_tally sum = {0};
    for (int i = 0; i < threads(); i++)
        open_share(&shares[i], sweep);
    all_blocks(name, sweep_block, shares, sizeof shares[0]);
    for (int i = 0; i < threads(); i++) {
        add_tally(&sum, &shares[i].tally);
        close_map(&shares[i].map);
    }
    uint32_t wanted = bits_of(sweep.channel.m) - bits_of(sweep.channel.b) + 1;
    group(sum.accepted >= wanted, "%s: all %" PRIu32 " floats from b to m, and %" PRIu64 " beside them", name, wanted,
          sum.accepted + sum.refused - wanted);
    group_map_faults(name, &sum);
    fflush(stdout); /* in a log, before the next channel's progress */
}

int main(void)
{
    char name[64];
    for (size_t i = 0; i < sizeof sweeps / sizeof sweeps[0]; i++) {
        snprintf(name, sizeof name, i < 3 ? "ear_loudness, channel %zu" : "ear_loudness_top, channel %zu", i % 3 + 1);
        highest_step = i < 3 ? 255 : 1023;
        every(name, sweeps[i]);
    }
    for (size_t i = 0; i < sizeof bent_channels / sizeof bent_channels[0]; i++) {
        bent = &bent_channels[i];
        highest_step = bent->top;
        double limit = bent->top == 255 ? MAP_LIMIT : LONG_LIMIT;
        snprintf(name, sizeof name, "ear_loudness_knee, channel %zu up to the knee", i + 1);
        every(name, (struct sweep){bent_map, {bent->b, bent->k, bent->t, bent->kk}, 0, bent->k, limit});
        snprintf(name, sizeof name, "ear_loudness_knee, channel %zu from the knee on", i + 1);
        every(name, (struct sweep){bent_map, {bent->k, bent->m, bent->kk, bent->c}, bent->k, 1, limit});
    }
    return verdict();
}
