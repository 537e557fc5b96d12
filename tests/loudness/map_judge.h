/*
 * What it means for a loudness map to keep its promise at one channel and one
 * envelope value. As with the functions of one float, the same judgement serves
 * the archive's function and the wrong ones.
 */
#ifndef MAP_JUDGE_H
#define MAP_JUDGE_H

#include "exact_map.h"

/* The most that a step may be away from the exact map: the proved constant.
 * Document 01 asks for 0.55, which follows. */
#define MAP_LIMIT 0.500001
#define ASKED_LIMIT 0.55

/* The shape of ear_loudness. */
typedef uint32_t (*loudness_map)(float b, float m, uint32_t t, uint32_t c, float a, uint32_t *out);

/* What a map did: its code, and what the result place and its two neighbours
 * held afterwards, where `sentinel` had stood. */
struct map_deed {
    uint32_t a; /* bit pattern of the envelope value */
    uint32_t sentinel, code, memory[3];
};

enum map_fault { CODE_WRONG, MEMORY_TOUCHED, OUTSIDE, END_MISSED, TOO_FAR, FALLEN, MAP_FAULTS };

extern const char *const map_fault_names[MAP_FAULTS];

struct map_tally {
    uint64_t accepted, refused;
    double worst; /* the greatest |step - exact| */
    struct channel worst_channel;
    uint32_t worst_a;
    uint64_t seen[MAP_FAULTS];
    struct channel first_channel[MAP_FAULTS];
    uint32_t first_a[MAP_FAULTS];
};

/* Code 4 before code 1, and 0 where neither applies. */
uint32_t code_for(struct channel channel, float a);

/* An envelope value strictly between b and m of a channel that fits. */
bool sloping(struct channel channel, float a);

struct map_deed map_deed_at(loudness_map call, struct channel channel, uint32_t a, uint32_t sentinel);

/* Everything but the distance from the exact map. */
void judge_form(struct map_tally *t, struct channel channel, struct map_deed d);
void judge_distance(struct map_tally *t, struct channel channel, struct map_deed d, double far, double limit);

/* Both, with the exact map that was fitted to the channel. */
void judge_step(struct map_tally *t, struct exact_map *map, struct map_deed d, double limit);
void judge_rise(struct map_tally *t, struct channel channel, struct map_deed lower, struct map_deed higher);

void add_tally(struct map_tally *sum, const struct map_tally *t);
uint64_t map_faults_in(const struct map_tally *t);

/* One line for each way to break the promise, and the worst distance. */
void group_map_faults(const char *name, const struct map_tally *t);

#endif
