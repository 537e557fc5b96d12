/*
 * What each function refuses: the code is 1, and the result place and the
 * memory on both sides of it are, bit for bit, what they were.
 */
#include <inttypes.h>
#include <stdio.h>
#include <string.h>

#include "functions.h"
#include "report.h"

/* Inputs at the edges of things. Each function refuses those outside its range. */
static const uint32_t not_finite[] = {
    0x7f800000, 0xff800000, /* infinities */
    0x7fc00000, 0xffc00000, /* quiet NaNs */
    0x7f800001, 0xff800001, /* signalling NaNs, least payload */
    0x7fbfffff, 0xffbfffff, /* signalling, greatest payload */
    0x7fffffff, 0xffffffff, /* quiet, greatest payload */
    0x7fc12345, 0xffa5a5a5, /* some other payloads */
};
static const uint32_t edge_cases[] = {
    0x80000000, 0x00000000, 0x80000001, 0x00000001, 0x807fffff, 0x007fffff, /* zeros, subnormals */
    0x80800000, 0x00800000, 0xb3800000, 0x33800000, 0xbf7fffff, 0x3f7fffff, /* up to 1 */
    0xbf800000, 0x3f800000, 0xbf800001, 0x3f800001, 0xc0a00000, 0x40a00000, /* from 1 on */
    0xff7fffff, 0x7f7fffff, 0xff000000, 0x7f000000,                         /* the greatest */
};
static const uint32_t sentinels[] = {0x00000000, 0xffffffff, 0x7fa5a5a5, 0x3f800000};

#define COUNT(list) (sizeof list / sizeof list[0])

struct guarded {
    uint32_t before;
    float place;
    uint32_t after;
};

static bool refused_at(const struct function *f, uint32_t x)
{
    for (size_t i = 0; i < COUNT(sentinels); i++) {
        struct guarded memory, copy;
        for (size_t at = 0; at < sizeof memory; at += sizeof sentinels[i])
            memcpy((char *)&memory + at, &sentinels[i], sizeof sentinels[i]);
        memcpy(&copy, &memory, sizeof memory);
        uint32_t code = f->call(float_of(x), &memory.place);
        if (code == EAR_OUT_OF_RANGE && memcmp(&copy, &memory, sizeof memory) == 0)
            continue;
        printf("      %s of %08" PRIx32 ": code %" PRIu32 ", place %08" PRIx32 " where %08" PRIx32 " stood\n",
               f->name, x, code, bits_of(memory.place), sentinels[i]);
        return false;
    }
    return true;
}

/* The first float outside the range, going down or up from one of its ends.
 * From +0 it takes two steps down, since -0 is equal to it. */
static uint32_t outside(const struct function *f, float end, int step)
{
    uint32_t place = place_of(bits_of(end));
    while (accepts(f, float_of(pattern_at(place))))
        place += (uint32_t)step;
    return pattern_at(place);
}

static void refusals_of(const struct function *f)
{
    bool good = true;
    for (size_t i = 0; i < COUNT(not_finite); i++)
        good &= refused_at(f, not_finite[i]);
    group(good, "%s: refuses %zu NaNs and infinities, and touches nothing", f->name, COUNT(not_finite));

    good = true;
    int refused = 0;
    for (size_t i = 0; i < COUNT(edge_cases); i++)
        if (!accepts(f, float_of(edge_cases[i]))) {
            good &= refused_at(f, edge_cases[i]);
            refused++;
        }
    group(good, "%s: refuses %d finite edge cases outside its range, and touches nothing", f->name, refused);

    uint32_t below = outside(f, f->low, -1), above = outside(f, f->high, 1);
    good = refused_at(f, below) && refused_at(f, above);
    group(good, "%s: refuses the floats next to its range, %08" PRIx32 " and %08" PRIx32 ", and touches nothing",
          f->name, below, above);
}

/* By name, since a wrong range in the table would pass unseen above. */
static void document_01(void)
{
    const struct function *root = line_of(ear_sqrt), *reciprocal = line_of(ear_rsqrt);
    bool good = refused_at(root, 0xbf800000) && refused_at(root, 0x80000001);
    group(good && refused_at(reciprocal, 0x00000000) && refused_at(reciprocal, 0x80000000),
          "the root refuses -1 and the negative next to zero, the reciprocal root both zeros");
    const struct function *power = line_of(ear_exp2);
    group(refused_at(power, 0x42ff0000) && refused_at(power, 0xc2fd0000), "2^x refuses 127.5 and -126.5");
    const struct function *exponential = line_of(ear_exp);
    group(refused_at(exponential, 0x42b00001) && refused_at(exponential, 0xc2ae0001), "e^x refuses the floats next to 88 and -87");
    const struct function *logarithm = line_of(ear_log2);
    good = refused_at(logarithm, 0x007fffff) && refused_at(logarithm, 0x00000000) && refused_at(logarithm, 0x80000000);
    group(good && refused_at(logarithm, 0xbf800000), "log2 refuses the greatest subnormal, both zeros and -1");

}

/* Since Q4. */
static void any_phase(void)
{
    int accepted = 0;
    for (size_t i = 0; i < COUNT(edge_cases); i++) {
        float sine, cosine, x = float_of(edge_cases[i]);
        accepted += ear_sin(x, &sine) == EAR_OK && ear_cos(x, &cosine) == EAR_OK;
    }
    bool good = refused_at(line_of(ear_sin), 0x7f800000) && refused_at(line_of(ear_sin), 0xff800000);
    good &= refused_at(line_of(ear_cos), 0x7f800000) && refused_at(line_of(ear_cos), 0xff800000);
    group(good && accepted == COUNT(edge_cases), "sin x and cos x refuse both infinities, and accept %d of %zu finite edge cases",
          accepted, COUNT(edge_cases));
}

int main(void)
{
    for (int i = 0; i < FUNCTIONS; i++)
        refusals_of(&functions[i]);
    document_01();
    any_phase();
    return verdict();
}
