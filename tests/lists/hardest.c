#include "hardest.h"

#include <stddef.h>
#include <stdint.h>

/* Factors whose product lies as closely as a search finds below the middle of
 * 1 + m 2^-23 and the next float, so that it is rounded down by nearly half a step. */
static void factors_below(uint32_t m, float *x, float *y)
{
    double middle = 1 + (m + 0.5) * 0x1p-23, best = 0;
    uint64_t state = 1;
    for (int i = 0; i < 20000; i++) {
        state = state * 6364136223846793005u + 1442695040888963407u;
        float first = 1 + (float)(uint32_t)(state >> 41) * 0x1p-23f, second = (float)(middle / first);
        double product = (double)first * second;
        if (product < middle && product > best) {
            best = product;
            *x = first;
            *y = second;
        }
    }
}

/* The sum in pairs is 2^levels (1 + m 2^-23): for an even m its halves have m and m + 1, which is a tie and goes down
 * to m; for an odd one m - 1 and m + 1, which is exact. So two thirds of all sums, and every product, lose half a step or
 * nearly that, all to one side. */
static void losing(float *x, float *y, int levels, uint32_t m)
{
    static float found[MOST_LEVELS + 2][2];
    if (levels == 0) {
        if (found[m][0] == 0)
            factors_below(m, &found[m][0], &found[m][1]);
        *x = found[m][0];
        *y = found[m][1];
        return;
    }
    size_t half = (size_t)1 << (levels - 1);
    losing(x, y, levels - 1, m - m % 2);
    losing(x + half, y + half, levels - 1, m + 1);
}

void hardest(float *x, float *y, int levels)
{
    losing(x, y, levels, 0);
}
