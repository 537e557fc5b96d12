/* Lists whose errors add up when they are added in pairs. */
#ifndef HARDEST_H
#define HARDEST_H

enum { MOST_LEVELS = 16 };

/* 2^levels elements of each list. */
void hardest(float *x, float *y, int levels);

#endif
