/* Counts the steps of the loops behind the roots' first guesses; see tools/root_steps. */
#include <inttypes.h>
#include <stdint.h>
#include <stdio.h>

#include "rows.h"

static const uint32_t *row(const uint32_t rows[32][4], uint32_t m, uint32_t e)
{
    return rows[m / 524288 % 16 + e % 2 * 16];
}

static uint32_t upper(uint64_t product)
{
    return (uint32_t)(product >> 32);
}

static uint32_t rest(const uint32_t *t, uint32_t m)
{
    uint32_t v = ~(m << 13), y = upper((uint64_t)v * v), p = t[2] + upper((uint64_t)t[3] * v);
    return upper((uint64_t)t[1] * v + (uint64_t)p * y);
}

static uint64_t guess_root(uint32_t m, uint32_t e)
{
    const uint32_t *t = row(root_rows, m, e);
    return ((t[0] - rest(t, m)) / 128 + 1) / 2;
}

static uint64_t guess_reciprocal(uint32_t m, uint32_t e)
{
    const uint32_t *t = row(reciprocal_rows, m, e);
    return ((t[0] + rest(t, m)) / 128 + 1) / 2;
}

static unsigned steps_root(uint32_t m, uint32_t e)
{
    uint64_t n = (uint64_t)m << (23 + e % 2), s = guess_root(m, e);
    unsigned steps = 0;
    for (; s * s + s < n; s++)
        steps++;
    for (; n + s <= s * s; s--)
        steps++;
    return steps;
}

static unsigned __int128 odd_square(uint64_t h, uint32_t m)
{
    return (unsigned __int128)(2 * h + 1) * (2 * h + 1) * m >> 32;
}

static unsigned steps_reciprocal(uint32_t m, uint32_t e)
{
    uint64_t t = UINT64_C(1) << (40 + (401 - e) % 2), h = guess_reciprocal(m, e);
    unsigned steps = 0;
    for (; odd_square(h, m) < t; h++)
        steps++;
    for (; t <= odd_square(h - 1, m); h--)
        steps++;
    return steps;
}

static void survey(const char *name, unsigned (*steps_of)(uint32_t, uint32_t))
{
    unsigned most = 0;
    uint64_t some = 0;
    for (uint32_t e = 0; e < 2; e++)
        for (uint32_t m = 8388608; m < 16777216; m++) {
            unsigned steps = steps_of(m, e);
            most = steps > most ? steps : most;
            some += steps > 0;
        }
    printf("%s: at most %u steps; some for %.2f %% of all significands\n", name, most, 100.0 * (double)some / 16777216);
}

int main(void)
{
    survey("square root", steps_root);
    survey("reciprocal root", steps_reciprocal);
}
