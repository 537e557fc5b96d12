/* Document 01, section 8, and document 02, Q4. */
#ifndef SECTION8_H
#define SECTION8_H

#include <stdint.h>

#include "earmath.h"
#include "judge.h"

/* Bit patterns of x, of its nearest root, of its root cut off instead of
 * rounded, and of the nearest float to 1 over its root. */
static const struct root_row {
    uint32_t x, root, cut, reciprocal;
} root_rows[] = {
    {0x00000001, 0x1a3504f3, 0x1a3504f3, 0x64b504f3},
    {0x007fffff, 0x1fffffff, 0x1ffffffe, 0x5f000001},
    {0x00800000, 0x20000000, 0x20000000, 0x5f000000},
    {0x3f7fffff, 0x3f7fffff, 0x3f7fffff, 0x3f800000},
    {0x3f800001, 0x3f800000, 0x3f800000, 0x3f7fffff},
    {0x40a00000, 0x400f1bbd, 0x400f1bbc, 0x3ee4f92e},
    {0x7f7fffff, 0x5f7fffff, 0x5f7fffff, 0x1f800000},
};

enum { ROOT_ROWS = sizeof root_rows / sizeof root_rows[0] };

/* Bit patterns of x and of the float nearest to 2^x, by the document's digits. */
static const uint32_t power_rows[][2] = {
    {0x42fdffff, 0x7effffa7}, /* 1.7014028370637e38 */
    {0xb3800000, 0x3f7fffff}, /* 0.99999995868521 */
    {0x40490fdb, 0x410d331d}, /* 8.8249783618422 */
};

enum { POWER_ROWS = sizeof power_rows / sizeof power_rows[0] };

/* Bit patterns of x and of the float nearest to log2 x, by the document's digits. */
static const uint32_t logarithm_rows[][2] = {
    {0x3f800001, 0x3438aa3a}, /* 1.7198264061184e-7 */
    {0x7f7fffff, 0x43000000}, /* 127.99999991401 */
    {0x3dcccccd, 0xc0549a78}, /* -3.3219280733895 */
};

enum { LOGARITHM_ROWS = sizeof logarithm_rows / sizeof logarithm_rows[0] };

/* The digits of sin(pi x), sin x and cos x, where they are not exactly 0 or 1. Those of the greatest floats are document 02's, Q4. */
static const struct wave_row {
    const char *name;
    single call;
    uint32_t x;
    double digits;
} wave_rows[] = {
    {"ear_sinpi", ear_sinpi, 0x3eaaaaab, 0.8660254193889},
    {"ear_sin", ear_sin, 0x40490fdb, -8.7422780003725e-8},
    {"ear_sin", ear_sin, 0x46000000, -0.95617315284315},
    {"ear_cos", ear_cos, 0x46000000, 0.2928018131467},
    {"ear_sin", ear_sin, 0x7f7fffff, -0.52187652333366},
    {"ear_cos", ear_cos, 0x7f7fffff, 0.8530210398303},
    {"ear_sin", ear_sin, 0xff7fffff, 0.52187652333366},
    {"ear_cos", ear_cos, 0xff7fffff, 0.8530210398303},
};

enum { WAVE_ROWS = sizeof wave_rows / sizeof wave_rows[0] };

#endif
