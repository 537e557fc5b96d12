#include "exact.h"

#include <math.h>

#include "judge.h"

__extension__ typedef unsigned __int128 wide;

void exact_add(struct exact *sum, struct exact term)
{
    wide carry = 0;
    for (int i = 0; i < LIMBS; i++) {
        carry += (wide)sum->limb[i] + term.limb[i];
        sum->limb[i] = (uint64_t)carry;
        carry >>= 64;
    }
}

void exact_negate(struct exact *x)
{
    struct exact one = {{1}};
    for (int i = 0; i < LIMBS; i++)
        x->limb[i] = ~x->limb[i];
    exact_add(x, one);
}

bool exact_negative(const struct exact *x)
{
    return x->limb[LIMBS - 1] >> 63 != 0;
}

struct exact exact_size(struct exact x)
{
    if (exact_negative(&x))
        exact_negate(&x);
    return x;
}

struct exact exact_times(struct exact x, uint64_t factor)
{
    wide carry = 0;
    for (int i = 0; i < LIMBS; i++) {
        carry += (wide)x.limb[i] * factor;
        x.limb[i] = (uint64_t)carry;
        carry >>= 64;
    }
    return x;
}

bool exact_at_most(const struct exact *x, const struct exact *y)
{
    struct exact difference = *x;
    exact_negate(&difference);
    exact_add(&difference, *y);
    return !exact_negative(&difference);
}

/* A finite float is whole * 2^power, whatever its sign. */
static uint64_t whole_of(float x, int *power)
{
    uint32_t exponent = bits_of(x) >> 23 & 0xff, fraction = bits_of(x) & 0x7fffff;
    *power = exponent == 0 ? -149 : (int)exponent - 150;
    return exponent == 0 ? fraction : fraction | 0x800000;
}

struct exact exact_product(float x, float y)
{
    int px, py;
    wide whole = (wide)whole_of(x, &px) * whole_of(y, &py);
    int shift = px + py + UNIT;
    struct exact product = {{0}};
    whole <<= shift % 64;
    product.limb[shift / 64] = (uint64_t)whole;
    product.limb[shift / 64 + 1] = (uint64_t)(whole >> 64);
    if ((bits_of(x) ^ bits_of(y)) >> 31)
        exact_negate(&product);
    return product;
}

struct exact exact_float(float x)
{
    return exact_product(x, 1.0f);
}

double exact_value(struct exact x)
{
    struct exact size = exact_size(x);
    double value = 0;
    for (int i = 0; i < LIMBS; i++)
        value += ldexp((double)size.limb[i], 64 * i - UNIT);
    return exact_negative(&x) ? -value : value;
}
