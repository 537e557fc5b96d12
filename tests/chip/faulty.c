/*
 * Wrong functions for the chip's sweep, each in the place of one of ours: that the
 * comparison with the host finds each is what tests/chip/same --self-test shows.
 */
#include "answers.h"
#include "earmath.h"

/* The linker's --wrap gives the sweep __wrap_f for each f here, and f itself the name __real_f. */
#define FAULTY(f) \
    uint32_t __real_##f(float x, float *out); \
    uint32_t __wrap_##f(float x, float *out); \
    uint32_t __wrap_##f(float x, float *out)

/* off by one unit in the last place at one float */
FAULTY(ear_sqrt)
{
    union word y;
    uint32_t code = __real_ear_sqrt(x, &y.value);
    if (code == EAR_OK)
        *out = (y.bits += x == 0x1.000002p0f, y.value);
    return code;
}

/* a refusal turns the NaN in the result place into another */
FAULTY(ear_rsqrt)
{
    uint32_t code = __real_ear_rsqrt(x, out);
    if (code != EAR_OK && *out != *out)
        ((union word *)out)->bits ^= 1;
    return code;
}

/* right in the usual state, and no other: the sum is rounded */
FAULTY(ear_exp2)
{
    volatile float little = 0x1p-100f, y;
    uint32_t code = __real_ear_exp2(x, (float *)&y);
    if (code == EAR_OK)
        *out = x > -60 ? y + little : y;
    return code;
}

/* right where subnormals are kept */
FAULTY(ear_log2)
{
    volatile float tiny = 0x1p-149f;
    return tiny == 0 ? EAR_OUT_OF_RANGE : __real_ear_log2(x, out);
}

/* leaves the float unit in another state */
FAULTY(ear_sinpi)
{
    __asm__ volatile("vmsr fpscr, %0" : : "r"(1 << 24));
    return __real_ear_sinpi(x, out);
}

/* writes behind its place */
FAULTY(ear_cospi)
{
    if (x == 3.0f)
        out[1] = 0;
    return __real_ear_cospi(x, out);
}
