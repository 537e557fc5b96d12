/* Channels and envelope values for a loudness map, the same in every run. */
#ifndef MAP_SURVEY_H
#define MAP_SURVEY_H

#include "map_judge.h"

/* How much of a channel is tried. */
enum thoroughness { SPREAD, EVERY_HALF_STEP };

/* One channel: the joints, envelope values outside the range, a spread over
 * [0, 1], and with EVERY_HALF_STEP the floats around each half step of the exact
 * map, all in the order of their values, so that order is judged throughout. */
void survey_channel(struct map_tally *t, loudness_map call, struct exact_map *map, enum thoroughness how, double limit);

/* All channels at the edges of what is allowed, each half step of them, and
 * `drawn` others, of which one in 16 with each half step. Returns their number. */
int survey_channels(struct map_tally *t, loudness_map call, int drawn, double limit);

/* The channels at the edges, one by one, until it gives false. */
bool edge_channel(int index, struct channel *channel);

#endif
