/*
 * The exact loudness map of document 01, section 6, enclosed by MPFR. Every
 * operation is rounded down for the lower and up for the upper end, so what is
 * said of a distance is certain.
 */
#ifndef EXACT_MAP_H
#define EXACT_MAP_H

#include <mpfr.h>
#include <stdbool.h>
#include <stdint.h>

/* b and m are levels of the envelope, t and c whole current steps. */
struct channel {
    float b, m;
    uint32_t t, c;
};

/* Two ends of an enclosure. */
struct between {
    mpfr_t low, high;
};

struct exact_map {
    struct channel channel;
    struct between log_b, span; /* of log2 b, and of log2 m - log2 b */
    struct between value;       /* room for work */
};

/* The highest step of the stimulator whose channels are judged: 255, unless a test says another. */
extern uint32_t highest_step;

/* Whether a channel keeps its conditions. Nothing rounds here: twice a float is
 * a float, or infinite and then above m. */
bool fits(struct channel channel);

void open_map(struct exact_map *map);
void fit(struct exact_map *map, struct channel channel);
void close_map(struct exact_map *map);

/* For b < a < m: a double not below |step - exact(a)|, above it by at most one
 * unit in the last place. */
double distance(struct exact_map *map, float a, uint32_t step);

/* The float nearest to where the exact map passes t + k + 1/2. */
float half_step(struct exact_map *map, uint32_t k);

#endif
