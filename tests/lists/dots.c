#include "dots.h"

#include <math.h>
#include <string.h>

#include "earmath.h"
#include "exact.h"
#include "judge.h"

const char *const dot_fault_names[DOT_FAULTS] = {
    "wrong code", "memory touched that is not the result's", "beyond the bound", "not the sum of the stated order",
};

/* The stated order: the rounded products in a row, then neighbours added in pairs,
 * the first and the second, the third and the fourth, and so on, until one number
 * is left; of an odd number the last stays as it is. Says whether every
 * intermediate result is finite. */
static bool in_pairs(const float *a, const float *b, size_t n, float *sum)
{
    static float row[MOST];
    bool finite = true;
    for (size_t i = 0; i < n; i++) {
        row[i] = a[i] * b[i];
        finite &= isfinite(row[i]);
    }
    for (size_t many = n; many > 1; many = (many + 1) / 2) {
        for (size_t i = 0; i < many / 2; i++) {
            row[i] = row[2 * i] + row[2 * i + 1];
            finite &= isfinite(row[i]);
        }
        if (many % 2 == 1)
            row[many / 2] = row[many - 1];
    }
    *sum = n == 0 ? 0 : row[0];
    return finite;
}

static bool all_finite(const float *x, size_t n)
{
    for (size_t i = 0; i < n; i++)
        if (!isfinite(x[i]))
            return false;
    return true;
}

uint32_t due_code(const float *a, uint64_t na, const float *b, uint64_t nb)
{
    float sum;
    if (na != nb || na > MOST)
        return EAR_BAD_LENGTH;
    if (!all_finite(a, na) || !all_finite(b, nb))
        return EAR_OUT_OF_RANGE;
    return in_pairs(a, b, na, &sum) ? EAR_OK : EAR_OVERFLOW;
}

/* The least whole number h with 2^h >= n. */
static uint64_t levels(size_t n)
{
    uint64_t h = 0;
    while ((size_t)1 << h < n)
        h++;
    return h;
}

/* |result - exact| (2^24 - k) <= k (sum of |a_i b_i|) + n 2^-149 (2^24 - k) with
 * k = h + 1, in whole numbers on both sides. */
static bool within_bound(const float *a, const float *b, size_t n, float result, double *part)
{
    uint64_t k = levels(n) + 1, less = ((uint64_t)1 << 24) - k;
    struct exact error = exact_float(result), sizes = {{0}}, least = exact_float(0x1p-149f);
    for (size_t i = 0; i < n; i++) {
        struct exact product = exact_product(a[i], b[i]);
        exact_add(&sizes, exact_size(product));
        exact_negate(&product);
        exact_add(&error, product);
    }
    struct exact left = exact_times(exact_size(error), less);
    struct exact right = exact_times(sizes, k);
    exact_add(&right, exact_times(least, n * less));
    double allowed = exact_value(right);
    *part = allowed > 0 ? exact_value(left) / allowed : 0;
    return exact_at_most(&left, &right);
}

static void judge_result(struct dot_tally *t, const float *a, const float *b, size_t n, float result)
{
    float sum;
    double part;
    if (!isfinite(result)) {
        t->seen[DOT_BOUND]++;
        return;
    }
    in_pairs(a, b, n, &sum);
    t->seen[DOT_VALUE] += bits_of(sum) != bits_of(result);
    t->seen[DOT_BOUND] += !within_bound(a, b, n, result, &part);
    t->worst = fmax(t->worst, part);
}

void judge_dot(struct dot_tally *t, dot call, const float *a, uint64_t na, const float *b, uint64_t nb)
{
    static const uint32_t sentinel = 0x7fa5a5a5;
    uint32_t memory[3] = {sentinel, sentinel, sentinel}, due = due_code(a, na, b, nb);
    uint32_t code = call(a, na, b, nb, (float *)(void *)&memory[1]);
    bool beside = memory[0] != sentinel || memory[2] != sentinel;
    t->calls++;
    t->codes[due]++;
    t->seen[DOT_CODE] += code != due;
    t->seen[DOT_TOUCHED] += beside || (code != EAR_OK && memory[1] != sentinel);
    if (code == EAR_OK && due == EAR_OK)
        judge_result(t, a, b, na, float_of(memory[1]));
}
