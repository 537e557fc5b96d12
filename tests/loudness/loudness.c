/*
 * The loudness map against exact arithmetic: channels at the edges and drawn
 * ones, and what is refused.
 */
#include <inttypes.h>
#include <math.h>

#include "earmath.h"
#include "judge.h"
#include "map_survey.h"
#include "report.h"

enum { DRAWN = 4000 };

static const uint32_t sentinels[] = {0x00000000, 0xffffffff, 0xa5a5a5a5, 100};

/* Good ones, and some of each kind that is refused. */
static const uint32_t envelopes[] = {
    0x00000000, 0x80000000, 0x3f000000, 0x3f800000, 0x00000001,             /* 0, -0, a half, 1, a subnormal */
    0x80000001, 0xbf800000, 0x3f800001, 0x7f7fffff, 0x7f800000, 0xff800000, /* below 0, above 1 */
    0x7fc00000, 0xffc00000, 0x7f800001, 0xff800001, 0x7fffffff, 0xffffffff, /* NaNs */
};
enum { GOOD = 5 };

#define COUNT(list) (sizeof list / sizeof list[0])

/* One channel with some of the envelopes; the code and the memory are judged. */
static void try(struct map_tally *t, struct channel channel, size_t from)
{
    for (size_t i = from; i < COUNT(envelopes); i++)
        for (size_t j = 0; j < COUNT(sentinels); j++)
            judge_form(t, channel, map_deed_at(ear_loudness, channel, envelopes[i], sentinels[j]));
}

static void group_refused(struct map_tally t, const char *what)
{
    group(map_faults_in(&t) == 0 && t.refused > 0 && t.accepted == 0,
          "ear_loudness: refuses %s, and touches nothing: %" PRIu64 " calls", what, t.refused);
    if (map_faults_in(&t) != 0)
        group_map_faults("ear_loudness", &t);
}

/* A channel that fits, with one of its conditions broken as narrowly as can be. */
static const struct broken {
    const char *what;
    struct channel channel;
} broken[] = {
    {"b one float below 2^-24", {0x1.fffffep-25f, 1, 0, 255}},
    {"m one float below 2 b", {0x1p-24f, 0x1.fffffep-24f, 0, 255}},
    {"m one float below 2 b", {0x1.555556p-3f, 0x1.555554p-2f, 0, 255}},
    {"m one float below 2 b", {0.5f, 0x1.fffffep-1f, 0, 255}},
    {"2 b one float above m", {0x1.000002p-1f, 1, 0, 255}},
    {"m below b", {0.25f, 0.125f, 0, 255}},
    {"m one float above 1", {0.25f, 0x1.000002p0f, 0, 255}},
    {"m the greatest float", {0.25f, 0x1.fffffep127f, 0, 255}},
    {"b = 0", {0.0f, 1, 0, 255}},
    {"b = -0", {-0.0f, 1, 0, 255}},
    {"b the least subnormal", {0x1p-149f, 1, 0, 255}},
    {"b below 0", {-0x1p-10f, 1, 0, 255}},
    {"m below 0", {0x1p-10f, -1, 0, 255}},
    {"b and m below 0", {-0.5f, -0.25f, 0, 255}},
    {"b infinite", {INFINITY, 1, 0, 255}},
    {"b -infinite", {-INFINITY, 1, 0, 255}},
    {"m infinite", {0.25f, INFINITY, 0, 255}},
    {"m -infinite", {0.25f, -INFINITY, 0, 255}},
    {"both infinite", {INFINITY, INFINITY, 0, 255}},
    {"b a NaN", {NAN, 1, 0, 255}},
    {"m a NaN", {0.25f, NAN, 0, 255}},
    {"b a NaN with its sign set", {-NAN, 1, 0, 255}},
    {"both NaNs", {NAN, NAN, 0, 255}},
    {"T one above C", {0.25f, 1, 101, 100}},
    {"T one above C", {0.25f, 1, 1, 0}},
    {"T = 256", {0.25f, 1, 256, 255}},
    {"T = 2^32 - 1", {0.25f, 1, UINT32_MAX, 255}},
    {"C = 256", {0.25f, 1, 0, 256}},
    {"T = C = 256", {0.25f, 1, 256, 256}},
    {"C = 2^31", {0.25f, 1, 0, UINT32_C(1) << 31}},
    {"C = 2^32 - 1", {0.25f, 1, 0, UINT32_MAX}},
    {"T = C = 2^32 - 1", {0.25f, 1, UINT32_MAX, UINT32_MAX}},
};

/* Each is refused with 4, whatever a is: the table's own conditions count, so
 * that a wrong `fits` would show. */
static void bad_channels(void)
{
    struct map_tally t = {0};
    for (size_t i = 0; i < COUNT(broken); i++) {
        bool good = true;
        for (size_t j = 0; j < COUNT(envelopes); j++) {
            struct map_deed d = map_deed_at(ear_loudness, broken[i].channel, envelopes[j], sentinels[0]);
            good &= d.code == EAR_BAD_CHANNEL;
        }
        if (!good)
            group(false, "ear_loudness: code 4 for a channel with %s", broken[i].what);
        try(&t, broken[i].channel, 0);
    }
    group_refused(t, "channels with one condition broken, also where a is bad too");
}

/* Of the channels at the edges, the neighbours of b and m that are outside. */
static void bad_neighbours(void)
{
    struct map_tally t = {0};
    struct channel channel;
    for (int i = 0; edge_channel(i, &channel); i++) {
        float b = channel.b, m = channel.m;
        struct channel all[] = {
            {nextafterf(m / 2, 2), m, channel.t, channel.c}, {b, nextafterf(2 * b, 0), channel.t, channel.c},
            {0x1.fffffep-25f, m, channel.t, channel.c},      {b, 0x1.000002p0f, channel.t, channel.c},
            {b, m, channel.c + 1, channel.c},                {b, m, channel.t, 256},
        };
        for (size_t j = 0; j < COUNT(all); j++)
            try(&t, all[j], 0);
    }
    group_refused(t, "every channel at the edges once a value is put one float or one step outside");
}

static void bad_envelopes(void)
{
    struct map_tally t = {0};
    struct channel channel;
    for (int i = 0; edge_channel(i, &channel); i++)
        if (fits(channel))
            try(&t, channel, GOOD);
    group_refused(t, "a below 0, above 1, infinite or NaN, for every channel at the edges");
}

static void values(void)
{
    struct map_tally t = {0};
    int channels = survey_channels(&t, ear_loudness, DRAWN, MAP_LIMIT);
    group(t.accepted > 300000, "ear_loudness: %d channels, %" PRIu64 " envelope values accepted, %" PRIu64 " refused",
          channels, t.accepted, t.refused);
    group_map_faults("ear_loudness", &t);
}

int main(void)
{
    values();
    bad_channels();
    bad_neighbours();
    bad_envelopes();
    return verdict();
}
