/*
 * Softmax against exact quotients: codes, the untouched output, the bound, order
 * and the sum; then wrong programs, which the same judgement must reject. All of
 * it for base two, and again for base e.
 */
#include <inttypes.h>
#include <math.h>
#include <string.h>

#include "earmath.h"
#include "judge.h"
#include "report.h"
#include "softmaxes.h"

/* What differs between the bases: the functions, what section 5's example begins
 * with, its nearest floats, the outputs of -64 beside one 64 and among 64s, and
 * what has a power just too small to change a float sum beside that of 20. */
static const struct base {
    const char *name;
    softmax call;
    float (*power)(float x);
    const char *begins[4];
    uint32_t patterns[4];
    float far, farther, faint;
} bases[] = {
    {"ear_softmax2", ear_softmax2, exp2f,
     {"0.141075791979", "0.282151583958", "0.564303167916", "0.0124694561462"},
     {0x3e10762c, 0x3e90762c, 0x3f10762c, 0x3c4c4cb1}, 0x1p-128f - 0x1p-149f, 2050 * 0x1p-149f, -4.001f},
    {"ear_softmax", ear_softmax, expf,
     {"0.0897864717905", "0.244064934709", "0.663437276985", "0.0027113165147"},
     {0x3db7e1f8, 0x3e79ec29, 0x3f29d706, 0x3b31b058}, 0, 0, 2.77f},
};

static const struct base *base;

static float x[LONGEST + 1], p[LONGEST + 1], q[LONGEST + 1];

/* Knuth's generator, from a fixed start, so that a failure can be seen again. */
static uint64_t state = 1;

static uint32_t draw(void)
{
    state = state * 6364136223846793005u + 1442695040888963407u;
    return (uint32_t)(state >> 32);
}

/* Kinds of lists: how far the elements are spread, about which middle, and how
 * many different ones there are at most. */
static const struct kind {
    const char *words;
    float middle, spread;
    uint32_t different;
} kinds[] = {
    {"nearly equal", 3, 0x1p-16f, 0},       {"spread by 2", 0, 2, 0},
    {"spread by 16", -5, 16, 0},            {"the whole range", 0, 128, 0},
    {"few different ones", 10, 20, 5},      {"whole numbers", 0, 128, 129},
    {"about -64", -63, 2, 0},               {"about 64, and some far below", 0, 128, 3},
    {"tiny: the powers are all but 1", 0, 0x1p-20f, 0},
};

enum { KINDS = sizeof kinds / sizeof kinds[0], LISTS = 1500 };

static float drawn(const struct kind *k)
{
    float part = k->different == 0 ? (float)(draw() >> 8) * 0x1p-24f
                                   : (float)(draw() % k->different) / (float)(k->different - 1);
    return k->middle + k->spread * (part - 0.5f);
}

static void fill(const struct kind *k, size_t n)
{
    for (size_t i = 0; i < n; i++)
        x[i] = drawn(k);
}

static void judge_lists(struct softmax_tally *t, softmax call, const struct kind *k, int lists,
                        const struct softmax_limits *limits)
{
    for (int i = 0; i < lists; i++) {
        size_t n = i % 100 == 0 ? LONGEST : 1 + draw() % 40;
        fill(k, n);
        judge_softmax(t, call, x, n, n, limits);
    }
}

static struct softmax_tally random_lists(softmax call, const struct kind *k, int lists,
                                         const struct softmax_limits *limits)
{
    struct softmax_tally t = {0};
    judge_lists(&t, call, k, lists, limits);
    return t;
}

static void of_random_lists(void)
{
    for (int i = 0; i < KINDS; i++) {
        struct softmax_tally t = random_lists(base->call, &kinds[i], LISTS, &proved);
        group(softmax_faults_in(&t) == 0,
              "%s, %s: %" PRIu64 " outputs, worst rel 2^%.3f, below 2^-125 %.3f least floats, sum within 2^%.2f of 1",
              base->name, kinds[i].words, t.outputs, log2(t.worst), t.worst_units, log2(t.worst_whole));
    }
}

/* ---- single lists by name */
static bool says(uint64_t nx, uint64_t np, uint32_t code)
{
    struct softmax_tally t = {0};
    judge_softmax(&t, base->call, x, nx, np, &proved);
    return softmax_faults_in(&t) == 0 && t.codes[code] == 1;
}

static void all(size_t n, float value)
{
    for (size_t i = 0; i < n; i++)
        x[i] = value;
}

/* n equal inputs get one float each, the one nearest to 1 / n. */
static bool equal_share(size_t n, float value)
{
    all(n, value);
    bool good = says(n, n, EAR_OK) && base->call(x, n, p, n) == EAR_OK;
    for (size_t i = 0; i < n; i++)
        good &= bits_of(p[i]) == bits_of(1 / (float)n);
    return good;
}

static void of_equal_inputs(void)
{
    static const float values[] = {0, -0.0f, 64, -64, 0.3f, -17.7f, 0x1p-149f, 63.999996f};
    static const size_t lengths[] = {1, 2, 3, 4, 7, 64, 1000, 1024};
    bool good = true;
    for (size_t i = 0; i < sizeof values / sizeof values[0]; i++)
        for (size_t j = 0; j < sizeof lengths / sizeof lengths[0]; j++)
            good &= equal_share(lengths[j], values[i]);
    group(good, "%s: n equal inputs, n = 1 (exactly 1), 2, 3 (3eaaaaab each) to 1,024: the float nearest to 1 / n", base->name);
}

/* Document 01, section 5. */
static void of_document(void)
{
    bool digits = true, floats = true;
    memcpy(x, (float[]){0, 1, 2, -3.5f}, 4 * sizeof x[0]);
    floats &= says(4, 4, EAR_OK) && base->call(x, 4, p, 4) == EAR_OK;
    for (size_t i = 0; i < 4; i++) {
        char text[40];
        quotient_digits(text, sizeof text, x, 4, i, 12);
        digits &= strncmp(text, base->begins[i], strlen(base->begins[i])) == 0;
        floats &= bits_of(p[i]) == base->patterns[i];
    }
    group(digits, "%s: section 5's inputs, the exact quotients begin with %s", base->name, base->begins[0]);
    group(floats, "%s: and the outputs are the floats nearest to them", base->name);
}

static void of_extremes(void)
{
    bool good = true;
    for (size_t place = 0; place < LONGEST; place += 341) {
        all(LONGEST, -64);
        x[place] = 64;
        good &= says(LONGEST, LONGEST, EAR_OK) && base->call(x, LONGEST, p, LONGEST) == EAR_OK;
        for (size_t i = 0; i < LONGEST; i++)
            good &= p[i] == (i == place ? 1 : base->far);
    }
    group(good, "%s: 1,024 elements, all at -64 but one at 64: 1, and %g", base->name, base->far);
    all(LONGEST, 64);
    x[7] = -64;
    good = says(LONGEST, LONGEST, EAR_OK) && base->call(x, LONGEST, p, LONGEST) == EAR_OK;
    group(good && p[7] == base->farther, "%s: all at 64 but one at -64: %g for it", base->name, base->farther);
}

/* The outputs of a list in another order are the outputs in that order. */
static void of_permutations(void)
{
    bool good = true;
    for (int i = 0; i < 400; i++) {
        size_t n = i % 20 == 0 ? LONGEST : 2 + draw() % 60, places[LONGEST];
        fill(&kinds[i % KINDS], n);
        base->call(x, n, p, n);
        for (size_t j = 0; j < n; j++)
            places[j] = j;
        for (size_t j = n - 1; j > 0; j--) {
            size_t other = draw() % (j + 1), kept = places[j];
            places[j] = places[other];
            places[other] = kept;
        }
        float shuffled[LONGEST];
        for (size_t j = 0; j < n; j++)
            shuffled[j] = x[places[j]];
        base->call(shuffled, n, q, n);
        for (size_t j = 0; j < n; j++)
            good &= bits_of(q[j]) == bits_of(p[places[j]]);
    }
    group(good, "%s: a permuted list gets the permuted outputs, bit for bit", base->name);
}

static void of_lengths(void)
{
    bool good = true;
    all(LONGEST + 1, 1);
    for (size_t n = 0; n < 9; n++)
        for (size_t m = 0; m < 9; m++)
            good &= says(n, m, n == m && n > 0 ? EAR_OK : EAR_BAD_LENGTH);
    good &= says(LONGEST, LONGEST, EAR_OK) && says(LONGEST + 1, LONGEST + 1, EAR_BAD_LENGTH);
    good &= says(LONGEST, LONGEST + 1, EAR_BAD_LENGTH) && says(LONGEST, LONGEST - 1, EAR_BAD_LENGTH);
    x[0] = NAN;
    good &= says(1, 2, EAR_BAD_LENGTH) && says(LONGEST + 1, LONGEST + 1, EAR_BAD_LENGTH);
    group(good, "%s: different lengths, 0 and 1,025 are refused with code 2, before a NaN is; 1 and 1,024 are accepted",
          base->name);
}

static void of_elements(void)
{
    static const uint32_t bad[] = {
        0x7f800000, 0xff800000, 0x7fc00000, 0xffc00000, 0x7f800001, 0xffffffff, 0x42800001, 0xc2800001, 0x7f7fffff,
    };
    static const size_t lengths[] = {1, 2, 3, 64, 1024};
    bool good = true;
    for (size_t i = 0; i < sizeof bad / sizeof bad[0]; i++)
        for (size_t j = 0; j < sizeof lengths / sizeof lengths[0]; j++)
            for (size_t n = lengths[j], place = 0; place < n; place += n < 65 ? 1 : 93) {
                fill(&kinds[2], n);
                x[place] = float_of(bad[i]);
                good &= says(n, n, EAR_OUT_OF_RANGE);
            }
    group(good, "%s: a NaN, an infinity, the floats next to 64 and -64 at any place have code 1, and nothing is written",
          base->name);
    fill(&kinds[2], LONGEST);
    x[LONGEST - 1] = NAN;
    bool kept = says(LONGEST, LONGEST, EAR_OUT_OF_RANGE);
    x[LONGEST - 1] = 64;
    group(kept && says(LONGEST, LONGEST, EAR_OK), "%s: a NaN at the end of 1,024 leaves all outputs as they were",
          base->name);
}

static void all_outputs(size_t n, uint32_t pattern)
{
    for (size_t i = 0; i < n; i++)
        memcpy(&p[i], &pattern, sizeof pattern);
}

/* The output list is the program's notebook between the sum and the weights: what it held before must not matter. */
static void of_old_outputs(void)
{
    static const uint32_t olds[] = {0, 0x80000000, 0x3f800000, 0x7f800001, 0xffc00000, 0xffffffff};
    bool same = true, kept = true;
    for (size_t i = 0; i < sizeof olds / sizeof olds[0]; i++)
        for (int j = 0; j < KINDS; j++) {
            size_t n = 1 + draw() % LONGEST;
            fill(&kinds[j], n);
            same &= base->call(x, n, q, n) == EAR_OK;
            all_outputs(n, olds[i]);
            same &= base->call(x, n, p, n) == EAR_OK && memcmp(p, q, n * sizeof p[0]) == 0;
            x[n - 1] = NAN;
            kept &= base->call(x, n, q, n) == EAR_OUT_OF_RANGE && memcmp(p, q, n * sizeof p[0]) == 0;
            all_outputs(n, olds[i]);
            memcpy(q, p, n * sizeof p[0]);
            kept &= base->call(x, n, p, n) == EAR_OUT_OF_RANGE && memcmp(p, q, n * sizeof p[0]) == 0;
        }
    group(same, "%s: outputs are the same bits whatever the list held before: zeros, NaNs, ones, other outputs", base->name);
    group(kept, "%s: and a refusal leaves all of that as it was", base->name);
}

/* ---- wrong programs */
static uint32_t last_takes_the_rest(const float *from, uint64_t n, float *to, uint64_t m)
{
    uint32_t code = base->call(from, n, to, m);
    float others = 0;
    for (size_t i = 0; code == EAR_OK && i + 1 < n; i++)
        others += to[i];
    if (code == EAR_OK)
        to[n - 1] = 1 - others;
    return code;
}

/* With a sum that leaves out the last term. */
static uint32_t leaves_out_the_last(const float *from, uint64_t n, float *to, uint64_t m)
{
    uint32_t code = base->call(from, n, to, m);
    for (size_t i = 0; code == EAR_OK && i < n && n > 1; i++)
        to[i] /= 1 - to[n - 1];
    return code;
}

static uint32_t writes_as_it_judges(const float *from, uint64_t n, float *to, uint64_t m)
{
    for (size_t i = 0; i < n && i < m && fabsf(from[i]) <= 64; i++)
        to[i] = base->power(from[i]);
    return base->call(from, n, to, m);
}

static uint32_t turned(const float *from, uint64_t n, float *to, uint64_t m)
{
    float opposite[LONGEST];
    for (size_t i = 0; i < n && i < LONGEST; i++)
        opposite[i] = -from[i];
    return base->call(n > LONGEST ? from : opposite, n, to, m);
}

/* Every second output one float larger. */
static uint32_t by_place(const float *from, uint64_t n, float *to, uint64_t m)
{
    uint32_t code = base->call(from, n, to, m);
    for (size_t i = 0; code == EAR_OK && i + 1 < n; i += 2)
        to[i] = nextafterf(to[i], 2);
    return code;
}

static uint32_t accepts_65(const float *from, uint64_t n, float *to, uint64_t m)
{
    float cut[LONGEST];
    for (size_t i = 0; i < n && i < LONGEST; i++)
        cut[i] = from[i] > 64 && from[i] < 65 ? 64 : from[i];
    return base->call(n > LONGEST ? from : cut, n, to, m);
}

/* Straightforward C: a float sum of exp2f or expf, by one of two functions, and one division each. */
static uint32_t straightforward(const float *from, uint64_t n, float *to, uint64_t m, float (*sum_of)(const float *, size_t))
{
    uint32_t code = base->call(from, n, to, m);
    if (code != EAR_OK)
        return code;
    for (size_t i = 0; i < n; i++)
        to[i] = base->power(from[i]);
    float sum = sum_of(to, n);
    for (size_t i = 0; i < n; i++)
        to[i] /= sum;
    return code;
}

static float sum_in_turn(const float *list, size_t n)
{
    float sum = 0;
    for (size_t i = 0; i < n; i++)
        sum += list[i];
    return sum;
}

static float sum_in_pairs(const float *list, size_t n)
{
    size_t first = 1;
    while (2 * first < n)
        first *= 2;
    return n == 1 ? list[0] : sum_in_pairs(list, first) + sum_in_pairs(list + first, n - first);
}

static uint32_t in_turn(const float *from, uint64_t n, float *to, uint64_t m)
{
    return straightforward(from, n, to, m, sum_in_turn);
}

static uint32_t in_pairs(const float *from, uint64_t n, float *to, uint64_t m)
{
    return straightforward(from, n, to, m, sum_in_pairs);
}

static const struct wrong {
    const char *what;
    softmax call;
    enum softmax_fault fault;
} wrongs[] = {
    {"a softmax whose last output is 1 less the others", last_takes_the_rest, SOFTMAX_EQUAL},
    {"one whose sum leaves out the last term", leaves_out_the_last, SOFTMAX_NEAR},
    {"one that writes before a bad input is found", writes_as_it_judges, SOFTMAX_TOUCHED},
    {"one of the opposites", turned, SOFTMAX_ORDER},
    {"one that favours every second place", by_place, SOFTMAX_EQUAL},
    {"one that takes 64.5 for 64", accepts_65, SOFTMAX_CODE},
    {"straightforward C on exp2f or expf", in_turn, SOFTMAX_NEAR},
};

enum { WRONGS = sizeof wrongs / sizeof wrongs[0], TRIED = 200 };

static void reject(const struct wrong *w)
{
    struct softmax_tally t = {0};
    for (int i = 0; i < KINDS; i++) {
        struct softmax_tally kind = random_lists(w->call, &kinds[i], TRIED, &proved);
        t.calls += kind.calls;
        t.seen[w->fault] += kind.seen[w->fault];
    }
    memcpy(x, (float[]){0, 1, 64.5f}, 3 * sizeof x[0]);
    judge_softmax(&t, w->call, x, 3, 3, &proved);
    group(t.seen[w->fault] > 0, "%s: %s: rejected %" PRIu64 " times in %" PRIu64 " lists (%s)", base->name, w->what, t.seen[w->fault],
          t.calls, softmax_fault_names[w->fault]);
}

/* Document 01, section 9, 4: of three equal inputs the last gets another float. */
static void of_section_9(void)
{
    struct softmax_tally t = {0};
    all(3, 1);
    judge_softmax(&t, last_takes_the_rest, x, 3, 3, &asked);
    last_takes_the_rest(x, 3, p, 3);
    group(t.seen[SOFTMAX_EQUAL] > 0 && t.seen[SOFTMAX_WHOLE] == 0 && bits_of(p[0]) == 0x3eaaaaab &&
              bits_of(p[2]) == 0x3eaaaaaa,
          "%s: section 9, 4: of three equal inputs the last gets %08" PRIx32 ", the others %08" PRIx32 ": rejected",
          base->name, bits_of(p[2]), bits_of(p[0]));
}

/* Straightforward C by what is asked: over all kinds, and over a list whose small terms a sum in turn loses. */
static struct softmax_tally judged_as_asked(softmax call)
{
    struct softmax_tally t = {0};
    for (int i = 0; i < KINDS; i++)
        judge_lists(&t, call, &kinds[i], TRIED, &asked);
    all(LONGEST, base->faint);
    x[0] = 20;
    judge_softmax(&t, call, x, LONGEST, LONGEST, &asked);
    return t;
}

/* A judgement that rejects everything would pass all of the above. What is asked since change request Q3, rel 2^-17 and
 * 2^-20 for the sum, tells a sum in pairs from a sum in turn. */
static void the_limits_are_not_too_tight(void)
{
    struct softmax_tally pairs = judged_as_asked(in_pairs), turn = judged_as_asked(in_turn);
    group(softmax_faults_in(&pairs) == 0,
          "%s: straightforward C with a sum in pairs keeps what is asked, rel 2^-17 and 2^-20: worst 2^%.2f and 2^%.2f",
          base->name, log2(pairs.worst), log2(pairs.worst_whole));
    group(turn.seen[SOFTMAX_NEAR] > 0 && turn.seen[SOFTMAX_WHOLE] > 0,
          "%s: and with a sum in turn it does not: worst 2^%.2f and 2^%.2f", base->name, log2(turn.worst), log2(turn.worst_whole));
}

static void all_of_it(void)
{
    of_document();
    of_equal_inputs();
    of_extremes();
    of_random_lists();
    of_permutations();
    of_lengths();
    of_elements();
    of_old_outputs();
    for (int i = 0; i < WRONGS; i++)
        reject(&wrongs[i]);
    of_section_9();
    the_limits_are_not_too_tight();
}

/* One function in the place of the other. */
static uint32_t of_the_other_base(const float *from, uint64_t n, float *to, uint64_t m)
{
    return (base == &bases[0] ? bases[1] : bases[0]).call(from, n, to, m);
}

static void bases_are_told_apart(void)
{
    struct softmax_tally t = random_lists(of_the_other_base, &kinds[1], TRIED, &proved);
    group(t.seen[SOFTMAX_NEAR] > 0, "%s: the other base is rejected %" PRIu64 " times", base->name, t.seen[SOFTMAX_NEAR]);
}

int main(void)
{
    open_softmaxes();
    for (base = bases; base < bases + 2; base++) {
        use_base(base == &bases[1]);
        state = 1; /* both see the same lists */
        all_of_it();
        bases_are_told_apart();
    }
    close_softmaxes();
    return verdict();
}
