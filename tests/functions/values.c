/* Document 01's values, and those of the change requests, by bit pattern. */
#include <inttypes.h>
#include <math.h>
#include <stdio.h>

#include "earmath.h"
#include "judge.h"
#include "report.h"
#include "section8.h"

static bool gives(const char *name, single call, uint32_t x, uint32_t want)
{
    float result = float_of(0x7fa5a5a5);
    uint32_t code = call(float_of(x), &result);
    if (code == EAR_OK && bits_of(result) == want)
        return true;
    printf("      %s of %08" PRIx32 ": code %" PRIu32 ", result %08" PRIx32 ", and not %08" PRIx32 "\n",
           name, x, code, bits_of(result), want);
    return false;
}

/* Roots that need no rounding, and both zeros, whose sign is kept. */
static const uint32_t exact_roots[][2] = {
    {0x00000000, 0x00000000}, {0x80000000, 0x80000000}, {0x3f800000, 0x3f800000},
    {0x40800000, 0x40000000}, {0x00000008, 0x1b000000}, {0x7e800000, 0x5f000000},
};

enum { EXACT_ROOTS = sizeof exact_roots / sizeof exact_roots[0] };

/* Powers that need no rounding, up to both ends of the range, and the floats
 * next to whole numbers and next to zero, where pieces have to meet. */
static const uint32_t edge_powers[][2] = {
    {0x00000000, 0x3f800000}, {0x80000000, 0x3f800000}, {0x3f800000, 0x40000000}, {0x41200000, 0x44800000},
    {0xc2fc0000, 0x00800000}, {0x42fe0000, 0x7f000000}, {0x00000001, 0x3f800000}, {0x80000001, 0x3f800000},
    {0x3f7fffff, 0x3fffffff}, {0x3f800001, 0x40000001}, {0xbf7fffff, 0x3f000000}, {0xc2fbffff, 0x0080002c},
    {0x33800000, 0x3f800000}, {0xb3000000, 0x3f800000}, {0x3f000000, 0x3fb504f3}, {0xc1200001, 0x3a7ffff5},
};

enum { EDGE_POWERS = sizeof edge_powers / sizeof edge_powers[0] };

/* The five powers that are nearest to the middle of two floats, 2^-58 to 2^-52 away: the second and the third are beyond a double. */
static const uint32_t hardest_powers[][2] = {
    {0xb52d1f9a, 0x3f7ffff8}, {0xbcf3a937, 0x3f7ac6b1}, {0x3b429d37, 0x3f804385}, {0xb8d3d026, 0x3f7ffb69},
    {0xbaec2b40, 0x3f7fae34},
};

enum { HARDEST_POWERS = sizeof hardest_powers / sizeof hardest_powers[0] };

static void powers(void)
{
    int rows = 0, edges = 0, hardest = 0;
    for (int i = 0; i < POWER_ROWS; i++)
        rows += gives("ear_exp2", ear_exp2, power_rows[i][0], power_rows[i][1]);
    for (int i = 0; i < EDGE_POWERS; i++)
        edges += gives("ear_exp2", ear_exp2, edge_powers[i][0], edge_powers[i][1]);
    for (int i = 0; i < HARDEST_POWERS; i++)
        hardest += gives("ear_exp2", ear_exp2, hardest_powers[i][0], hardest_powers[i][1]);
    group(rows == POWER_ROWS, "ear_exp2: %d of %d values of document 01, section 8", rows, POWER_ROWS);
    group(edges == EDGE_POWERS, "ear_exp2: %d of %d powers at and next to whole numbers", edges, EDGE_POWERS);
    group(hardest == HARDEST_POWERS, "ear_exp2: %d of %d powers that are nearest to the middle of two floats", hardest, HARDEST_POWERS);
}

/* e^x at both zeros and next to them, at and next to both ends of the range, and at the float next to ln 2: the nearest floats. */
static const uint32_t exponentials[][2] = {
    {0x00000000, 0x3f800000}, {0x80000000, 0x3f800000}, {0x00000001, 0x3f800000}, {0x80000001, 0x3f800000},
    {0x3f800000, 0x402df854}, {0xbf800000, 0x3ebc5ab2}, {0x42b00000, 0x7ef882b7}, {0xc2ae0000, 0x00b33687},
    {0x3f317218, 0x40000000}, {0xbf317218, 0x3f000000}, {0x34000000, 0x3f800001}, {0xb3800000, 0x3f7fffff},
    {0x3f000000, 0x3fd3094c}, {0x41200000, 0x46ac14ee}, {0x42afffff, 0x7ef8823b}, {0xc2adffff, 0x00b336e0},
};

enum { EXPONENTIALS = sizeof exponentials / sizeof exponentials[0] };

static void natural_powers(void)
{
    int right = 0;
    for (int i = 0; i < EXPONENTIALS; i++)
        right += gives("ear_exp", ear_exp, exponentials[i][0], exponentials[i][1]);
    group(right == EXPONENTIALS, "ear_exp: %d of %d powers at the ends, at 0 and next to it", right, EXPONENTIALS);
}

/* The floats next to 1, to a half and to the cut between two pieces. */
static const uint32_t edge_logarithms[][2] = {
    {0x3f7fffff, 0xb3b8aa3c}, {0x3f800001, 0x3438aa3a}, {0x3effffff, 0xbf800001}, {0x3f000001, 0xbf7ffffd},
    {0x3fb7ffff, 0x3f060826}, {0x3fb80000, 0x3f060828}, {0x3f37ffff, 0xbef3efb4}, {0x3f380000, 0xbef3efb0},
};

enum { EDGE_LOGARITHMS = sizeof edge_logarithms / sizeof edge_logarithms[0], NORMAL_EXPONENTS = 254 };

/* Logarithms whose middle of two floats, as a power, comes nearest to x, 2^-53 to 2^-50 away; the first is in ulp the hardest of all. */
static const uint32_t hardest_logarithms[][2] = {
    {0x40207ab9, 0x3fa9c25e}, {0x3f7e3274, 0xbc270e8b}, {0x3f7fffff, 0xb3b8aa3c}, {0x3f7fff99, 0xb714991a},
    {0x3f800001, 0x3438aa3a},
};

enum { HARDEST_LOGARITHMS = sizeof hardest_logarithms / sizeof hardest_logarithms[0] };

static void logarithms(void)
{
    int rows = 0, edges = 0, whole = 0;
    for (int i = 0; i < LOGARITHM_ROWS; i++)
        rows += gives("ear_log2", ear_log2, logarithm_rows[i][0], logarithm_rows[i][1]);
    for (int i = 0; i < EDGE_LOGARITHMS; i++)
        edges += gives("ear_log2", ear_log2, edge_logarithms[i][0], edge_logarithms[i][1]);
    for (int exponent = 1; exponent <= NORMAL_EXPONENTS; exponent++)
        whole += gives("ear_log2", ear_log2, (uint32_t)exponent << 23, bits_of((float)(exponent - 127)));
    int hardest = 0;
    for (int i = 0; i < HARDEST_LOGARITHMS; i++)
        hardest += gives("ear_log2", ear_log2, hardest_logarithms[i][0], hardest_logarithms[i][1]);
    group(hardest == HARDEST_LOGARITHMS, "ear_log2: %d of %d logarithms that are nearest to the middle of two floats", hardest,
          HARDEST_LOGARITHMS);
    group(rows == LOGARITHM_ROWS, "ear_log2: %d of %d values of document 01, section 8", rows, LOGARITHM_ROWS);
    group(edges == EDGE_LOGARITHMS, "ear_log2: %d of %d logarithms next to 1, 1/2 and the cut", edges, EDGE_LOGARITHMS);
    group(whole == NORMAL_EXPONENTS, "ear_log2: exact at %d of %d powers of two, +0 at 1", whole, NORMAL_EXPONENTS);
}

/* Bit patterns of x and of sin(pi x) and cos(pi x) where 2x is a whole number: the greatest of them that are
 * accepted, 4194303.5 and 4194303, both zeros, quarters and halves of a turn in both directions. */
static const uint32_t whole_waves[][3] = {
    {0x4a7ffffe, 0xbf800000, 0x00000000}, {0xca7ffffe, 0x3f800000, 0x00000000}, {0x00000000, 0x00000000, 0x3f800000},
    {0x80000000, 0x00000000, 0x3f800000}, {0x3f000000, 0x3f800000, 0x00000000}, {0xbf000000, 0xbf800000, 0x00000000},
    {0x3f800000, 0x00000000, 0xbf800000}, {0xbf800000, 0x00000000, 0xbf800000}, {0x3fc00000, 0xbf800000, 0x00000000},
    {0x40000000, 0x00000000, 0x3f800000}, {0x4a7ffffc, 0x00000000, 0xbf800000}, {0xca7ffffc, 0x00000000, 0xbf800000},
};

enum { WHOLE_WAVES = sizeof whole_waves / sizeof whole_waves[0] };

/* A phase that large is a mistake: 2^22, document 01's 8388606.5, the greatest float, and their opposites. */
static const uint32_t large_phases[] = {0x4a800000, 0xca800000, 0x4afffffd, 0xcafffffd, 0x7f7fffff, 0xff7fffff};

enum { LARGE_PHASES = sizeof large_phases / sizeof large_phases[0] };

static bool refuses(single call, uint32_t pattern)
{
    float result = float_of(0x7fa5a5a5);
    return call(float_of(pattern), &result) == EAR_OUT_OF_RANGE && bits_of(result) == 0x7fa5a5a5;
}

static bool begins(const struct wave_row *row)
{
    float result = float_of(0x7fa5a5a5);
    uint32_t code = row->call(float_of(row->x), &result);
    return code == EAR_OK && fabs(result - row->digits) <= 17 * 0x1p-29;
}

static void waves(void)
{
    int rows = 0, whole = 0, large = 0;
    for (int i = 0; i < LARGE_PHASES; i++)
        large += refuses(ear_sinpi, large_phases[i]) && refuses(ear_cospi, large_phases[i]);
    group(large == LARGE_PHASES, "ear_sinpi, ear_cospi: %d of %d phases from 2^22 on refused", large, LARGE_PHASES);
    for (int i = 0; i < WAVE_ROWS; i++)
        rows += begins(&wave_rows[i]);
    for (int i = 0; i < WHOLE_WAVES; i++) {
        whole += gives("ear_sinpi", ear_sinpi, whole_waves[i][0], whole_waves[i][1]);
        whole += gives("ear_cospi", ear_cospi, whole_waves[i][0], whole_waves[i][2]);
    }
    group(rows == WAVE_ROWS, "sin and cos: %d of %d values of document 01, section 8, and document 02, Q4, within 17 * 2^-29", rows, WAVE_ROWS);
    group(whole == 2 * WHOLE_WAVES, "ear_sinpi, ear_cospi: %d of %d exact values where 2x is whole, +0 among them", whole,
          2 * WHOLE_WAVES);
}

static void roots_of_section_8(void)
{
    int roots = 0, reciprocals = 0, exact = 0;
    for (int i = 0; i < ROOT_ROWS; i++) {
        const struct root_row *row = &root_rows[i];
        roots += gives("ear_sqrt", ear_sqrt, row->x, row->root);
        reciprocals += gives("ear_rsqrt", ear_rsqrt, row->x, row->reciprocal);
    }
    for (int i = 0; i < EXACT_ROOTS; i++)
        exact += gives("ear_sqrt", ear_sqrt, exact_roots[i][0], exact_roots[i][1]);
    group(roots == ROOT_ROWS, "ear_sqrt: %d of %d values of document 01, section 8", roots, ROOT_ROWS);
    group(reciprocals == ROOT_ROWS, "ear_rsqrt: %d of %d values of document 01, section 8", reciprocals, ROOT_ROWS);
    group(exact == EXACT_ROOTS, "ear_sqrt: %d of %d exact roots, of +0 and -0 among them", exact, EXACT_ROOTS);
}

/* Section 5's digits, and section 9's three equal inputs. */
static void softmax(void)
{
    static const float inputs[4] = {0, 1, 2, -3.5f}, equal[3] = {7, 7, 7};
    static const double digits[4] = {0.141075791979, 0.282151583958, 0.564303167916, 0.0124694561462};
    static const double natural[4] = {0.0897864717905, 0.244064934709, 0.663437276985, 0.0027113165147};
    float p[4] = {0}, q[3] = {0}, e[4] = {0};
    int near = 0, thirds = 0, near_e = 0;
    uint32_t code = ear_softmax2(inputs, 4, p, 4), code_of_equal = ear_softmax2(equal, 3, q, 3);
    uint32_t code_of_e = ear_softmax(inputs, 4, e, 4);
    for (int i = 0; i < 4; i++)
        near_e += code_of_e == EAR_OK && fabs(e[i] - natural[i]) <= 273 * 0x1p-32 * natural[i] + 1e-12;
    for (int i = 0; i < 4; i++)
        near += code == EAR_OK && fabs(p[i] - digits[i]) <= 273 * 0x1p-32 * digits[i] + 1e-12;
    for (int i = 0; i < 3; i++)
        thirds += code_of_equal == EAR_OK && bits_of(q[i]) == 0x3eaaaaab;
    group(near == 4, "ear_softmax2: %d of 4 values of document 01, section 5, within 273 * 2^-32", near);
    group(near_e == 4, "ear_softmax: %d of 4 values of the same inputs, base e, within 273 * 2^-32", near_e);
    group(thirds == 3, "ear_softmax2: %d of 3 equal inputs get the float next to a third", thirds);
}

int main(void)
{
    roots_of_section_8();
    powers();
    natural_powers();
    logarithms();
    waves();
    softmax();
    return verdict();
}
