#include "map_judge.h"

#include <inttypes.h>
#include <stdio.h>

#include "earmath.h"
#include "judge.h"
#include "report.h"

const char *const map_fault_names[MAP_FAULTS] = {
    "wrong code",
    "memory touched that was not to be",
    "a step outside T to C",
    "not T up to b, or not C from m on",
    "too far from the exact map",
    "order broken",
};

uint32_t code_for(struct channel channel, float a)
{
    if (!fits(channel))
        return EAR_BAD_CHANNEL;
    return a >= 0 && a <= 1 ? EAR_OK : EAR_OUT_OF_RANGE;
}

bool sloping(struct channel channel, float a)
{
    return channel.b < a && a < channel.m;
}

struct map_deed map_deed_at(loudness_map call, struct channel channel, uint32_t a, uint32_t sentinel)
{
    struct map_deed d = {.a = a, .sentinel = sentinel, .memory = {sentinel, sentinel, sentinel}};
    d.code = call(channel.b, channel.m, channel.t, channel.c, float_of(a), &d.memory[1]);
    return d;
}

static void note(struct map_tally *t, enum map_fault fault, struct channel channel, uint32_t a)
{
    if (t->seen[fault]++ == 0) {
        t->first_channel[fault] = channel;
        t->first_a[fault] = a;
    }
}

void judge_form(struct map_tally *t, struct channel channel, struct map_deed d)
{
    uint32_t code = code_for(channel, float_of(d.a)), step = d.memory[1];
    bool touched = d.memory[0] != d.sentinel || d.memory[2] != d.sentinel;
    *(code == EAR_OK ? &t->accepted : &t->refused) += 1;
    if (d.code != code)
        note(t, CODE_WRONG, channel, d.a);
    if (touched || (code != EAR_OK && step != d.sentinel))
        note(t, MEMORY_TOUCHED, channel, d.a);
    if (code != EAR_OK)
        return;
    if (step < channel.t || step > channel.c)
        note(t, OUTSIDE, channel, d.a);
    float a = float_of(d.a);
    if ((a <= channel.b && step != channel.t) || (a >= channel.m && step != channel.c))
        note(t, END_MISSED, channel, d.a);
}

/* Of equal distances the least pattern, so that two runs print the same one. */
static void keep_worse(struct map_tally *t, double far, struct channel channel, uint32_t a)
{
    if (!(far <= t->worst) || (far == t->worst && a < t->worst_a)) {
        t->worst = far;
        t->worst_channel = channel;
        t->worst_a = a;
    }
}

void judge_distance(struct map_tally *t, struct channel channel, struct map_deed d, double far, double limit)
{
    if (!(far <= limit))
        note(t, TOO_FAR, channel, d.a);
    keep_worse(t, far, channel, d.a);
}

void judge_step(struct map_tally *t, struct exact_map *map, struct map_deed d, double limit)
{
    float a = float_of(d.a);
    judge_form(t, map->channel, d);
    if (sloping(map->channel, a))
        judge_distance(t, map->channel, d, distance(map, a, d.memory[1]), limit);
}

void judge_rise(struct map_tally *t, struct channel channel, struct map_deed lower, struct map_deed higher)
{
    if (code_for(channel, float_of(lower.a)) != EAR_OK || code_for(channel, float_of(higher.a)) != EAR_OK)
        return;
    if (lower.memory[1] > higher.memory[1])
        note(t, FALLEN, channel, higher.a);
}

void add_tally(struct map_tally *sum, const struct map_tally *t)
{
    sum->accepted += t->accepted;
    sum->refused += t->refused;
    keep_worse(sum, t->worst, t->worst_channel, t->worst_a);
    for (int fault = 0; fault < MAP_FAULTS; fault++) {
        if (sum->seen[fault] == 0) {
            sum->first_channel[fault] = t->first_channel[fault];
            sum->first_a[fault] = t->first_a[fault];
        }
        sum->seen[fault] += t->seen[fault];
    }
}

uint64_t map_faults_in(const struct map_tally *t)
{
    uint64_t sum = 0;
    for (int fault = 0; fault < MAP_FAULTS; fault++)
        sum += t->seen[fault];
    return sum;
}

/* Where something was seen: the bit patterns of a, b and m, and the steps. */
static const char *place(char words[80], struct channel channel, uint32_t a)
{
    snprintf(words, 80, "a %08" PRIx32 ", b %08" PRIx32 ", m %08" PRIx32 ", T %" PRIu32 ", C %" PRIu32, a,
             bits_of(channel.b), bits_of(channel.m), channel.t, channel.c);
    return words;
}

void group_map_faults(const char *name, const struct map_tally *t)
{
    char words[80];
    for (int fault = 0; fault < MAP_FAULTS; fault++) {
        const char *first = t->seen[fault] == 0 ? "" : place(words, t->first_channel[fault], t->first_a[fault]);
        group(t->seen[fault] == 0, "%s: %s: %" PRIu64 "%s%s", name, map_fault_names[fault], t->seen[fault],
              *first ? ", one at " : "", first);
    }
    if (t->worst > 0)
        printf("      %s: worst |I - exact| %.9f at %s\n", name, t->worst,
               place(words, t->worst_channel, t->worst_a));
}
