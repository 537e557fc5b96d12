/*
 * Whether a float is the nearest one to a root, decided in whole numbers.
 *
 * A positive finite float is whole * 2^power. The float r is the nearest to a
 * value v exactly if v lies between the halfway points from r to its two
 * neighbours; for v a root or a reciprocal root, squaring turns that into a
 * comparison of whole numbers. v never is a halfway point itself: that has 25
 * significant bits, and its square is then no float, nor one over a float.
 */
#include <float.h>

#include "judge.h"

__extension__ typedef unsigned __int128 wide;

struct scaled {
    wide whole;
    int power;
};

static struct scaled parts(float x)
{
    uint32_t bits = bits_of(x);
    uint32_t exponent = bits >> 23, fraction = bits & 0x7fffff;
    if (exponent == 0)
        return (struct scaled){fraction, -149};
    return (struct scaled){fraction | 0x800000, (int)exponent - 150};
}

static struct scaled times(struct scaled a, struct scaled b)
{
    return (struct scaled){a.whole * b.whole, a.power + b.power};
}

static int length(wide n)
{
    uint64_t high = (uint64_t)(n >> 64), low = (uint64_t)n;
    if (high != 0)
        return 128 - __builtin_clzll(high);
    return low != 0 ? 64 - __builtin_clzll(low) : 0;
}

/* Whether a < b, both above 0. Where the leading bits stand level, the number
 * with the greater power is shifted, and stays within the other's length. */
static bool less(struct scaled a, struct scaled b)
{
    int a_top = length(a.whole) + a.power, b_top = length(b.whole) + b.power;
    if (a_top != b_top)
        return a_top < b_top;
    if (a.power > b.power)
        return a.whole << (a.power - b.power) < b.whole;
    return a.whole < b.whole << (b.power - a.power);
}

static struct scaled halfway_up(float r)
{
    struct scaled p = parts(r);
    return (struct scaled){2 * p.whole + 1, p.power - 1};
}

static struct scaled halfway_down(float r)
{
    struct scaled p = parts(r);
    /* below a power of two the floats stand twice as close */
    if (p.whole == 0x800000 && p.power > -149)
        return (struct scaled){4 * p.whole - 1, p.power - 2};
    return (struct scaled){2 * p.whole - 1, p.power - 1};
}

bool nearest_root(const struct function *f, float x, float result)
{
    (void)f;
    if (x == 0)
        return bits_of(result) == bits_of(x);
    if (!(result > 0 && result <= FLT_MAX))
        return false;
    struct scaled down = halfway_down(result), up = halfway_up(result);
    return less(times(down, down), parts(x)) && less(parts(x), times(up, up));
}

bool nearest_reciprocal_root(const struct function *f, float x, float result)
{
    (void)f;
    if (!(result > 0 && result <= FLT_MAX))
        return false;
    struct scaled one = {1, 0}, down = halfway_down(result), up = halfway_up(result);
    return less(times(times(down, down), parts(x)), one)
        && less(one, times(times(up, up), parts(x)));
}
