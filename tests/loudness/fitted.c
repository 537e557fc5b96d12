/*
 * Fitted channels: the step of the map that is fitted in each call, over a spread of all
 * floats; each word changed, bit by bit and at random; words that no fit wrote, with
 * checks that hold; and what is refused, with the places kept.
 */
#include <math.h>
#include <stddef.h>
#include <string.h>

#include "earmath.h"
#include "judge.h"
#include "report.h"

enum { STRIDE = 997, KEPT = 0xa5a5a5a5, ONE = 0x3f800000, CHECK = 0xeaeaeaea, DRAWS = 200000, WORDS = EAR_FITTED_KNEE_WORDS };

/* k = 0: a straight channel */
struct channel {
    uint32_t top;
    float b, k, m;
    uint32_t t, kk, c;
};

static const struct channel channels[] = {
    {255, 0.001f, 0, 0.316227766f, 100, 0, 200},     {1023, 0x1p-24f, 0, 1, 0, 0, 1023},
    {1023, 0x1p-24f, 0, 0x1p-23f, 3, 0, 1020},       {255, 0.25f, 0, 1, 17, 0, 17},
    {255, 0.001f, 0.05f, 0.5f, 80, 180, 220},        {1023, 0x1p-24f, 0x1p-12f, 1, 0, 1000, 1023},
    {1023, 0x1p-24f, 0x1p-23f, 0x1p-22f, 0, 511, 1023}, {255, 0.25f, 0.5f, 1, 10, 10, 200},
};

#define COUNT(list) (sizeof list / sizeof list[0])

static uint64_t state = 1;

static uint32_t draw(void)
{
    state = state * 6364136223846793005u + 1442695040888963407u;
    return (uint32_t)(state >> 32);
}

static uint32_t fit(struct channel k, uint32_t *words, uint64_t n)
{
    return k.k == 0 ? ear_fit(k.top, k.b, k.m, k.t, k.c, words, n) : ear_fit_knee(k.top, k.b, k.k, k.m, k.t, k.kk, k.c, words, n);
}

static uint32_t mapped(struct channel k, float a, uint32_t *out)
{
    return k.k == 0 ? ear_loudness_top(k.top, k.b, k.m, k.t, k.c, a, out)
                    : ear_loudness_knee(k.top, k.b, k.k, k.m, k.t, k.kk, k.c, a, out);
}

static uint64_t length(struct channel k)
{
    return k.k == 0 ? EAR_FITTED_WORDS : EAR_FITTED_KNEE_WORDS;
}

/* The same code and the same step as the map's, of every kind of pattern. */
static void same(struct channel k)
{
    uint32_t words[WORDS], asked = 0, wrong = fit(k, words, length(k)) != EAR_OK;
    for (uint64_t a = 0; a < 0x100000000; a += a < ONE + 2 * STRIDE ? STRIDE : 0x10001, asked++) {
        uint32_t step = KEPT, other = KEPT;
        uint32_t code = ear_step(words, length(k), float_of((uint32_t)a), &step);
        wrong += code != mapped(k, float_of((uint32_t)a), &other) || step != other;
    }
    const float ends[] = {k.b, k.k, k.m, 0, -0.0f, 1, nextafterf(k.b, 1), nextafterf(k.m, 0), NAN};
    for (size_t i = 0; i < COUNT(ends); i++, asked++) {
        uint32_t step = KEPT, other = KEPT;
        wrong += ear_step(words, length(k), ends[i], &step) != mapped(k, ends[i], &other) || step != other;
    }
    group(wrong == 0, "ear_step: %u of %u answers unlike the map's, T = %u, C = %u, %u words", wrong, asked, k.t, k.c, (unsigned)length(k));
}

/* One word changed: refused, and nothing written. */
static void changed(struct channel k)
{
    uint32_t words[WORDS], bits = 0, wrong = fit(k, words, length(k)) != EAR_OK;
    for (uint64_t i = 0; i < length(k); i++)
        for (uint32_t j = 0; j < 32 + 64; j++, bits++) {
            uint32_t was = words[i], step = KEPT;
            words[i] = j < 32 ? was ^ 1u << j : draw();
            if (words[i] != was)
                wrong += ear_step(words, length(k), 0.1f, &step) != EAR_BAD_CHANNEL || step != KEPT;
            words[i] = was;
        }
    group(wrong == 0, "ear_step: %u of %u changed words are not refused", wrong, bits);
}

/* Words that no fit wrote, with checks that hold: a step between T and C, or a refusal. */
static void any_words(uint64_t n)
{
    uint32_t wrong = 0, stepped = 0, words[WORDS];
    for (int i = 0; i < DRAWS; i++) {
        for (uint64_t j = 0; j < n; j++)
            words[j] = draw() >> draw() % 16 * (j % EAR_FITTED_WORDS >= 3); /* small powers, so that many rises are words */
        for (uint64_t half = 0; half < n; half += EAR_FITTED_WORDS) {
            words[half + 5] = CHECK;
            for (uint64_t j = 0; j < EAR_FITTED_WORDS - 1; j++)
                words[half + 5] -= words[half + j];
        }
        uint32_t step = KEPT, code = ear_step(words, n, float_of(draw() % (ONE + 1)), &step);
        stepped += code == EAR_OK;
        wrong += code == EAR_OK ? step < words[0] >> 22 || step > (words[n - 6] >> 22) + (words[n - 6] >> 12 & 1023) : code != EAR_BAD_CHANNEL || step != KEPT;
    }
    group(wrong == 0 && stepped > 0, "ear_step: %u of %d lists of any %u words answered outside of T to C; %u gave a step", wrong, DRAWS,
          (unsigned)n, stepped);
}

static void refusals(void)
{
    const struct channel good = channels[0], bent = channels[4];
    const struct channel bad[] = {
        {1024, 0.1f, 0, 1, 0, 0, 9},   {255, 0.1f, 0, 1, 0, 0, 256},    {255, 0x1.fffffep-25f, 0, 1, 0, 0, 9}, {255, 0.25f, 0, 0x1.fffffep-2f, 0, 0, 9},
        {255, 0.1f, 0, 1.5f, 0, 0, 9}, {255, 0.1f, 0, 1, 10, 0, 9},     {255, NAN, 0, 1, 0, 0, 9},             {255, 0.1f, 0, NAN, 0, 0, 9},
        {255, 0.1f, 0.15f, 1, 0, 5, 9}, {255, 0.1f, 0.6f, 1, 0, 5, 9}, {255, 0.1f, 0.25f, 1, 6, 5, 9},        {255, 0.1f, 0.25f, 1, 0, 10, 9},
    };
    const uint64_t lengths[] = {0, 1, 5, 7, 11, 13, 0x100000006, 0x10000000c, 0xffffffffffffffff};
    uint32_t before[WORDS], words[WORDS], fitted[WORDS], asked = 0, wrong = 0;
    for (int i = 0; i < WORDS; i++)
        before[i] = words[i] = draw();
    for (size_t i = 0; i < COUNT(bad); i++, asked++)
        wrong += fit(bad[i], words, length(bad[i])) != EAR_BAD_CHANNEL || memcmp(before, words, sizeof words) != 0;
    for (size_t i = 0; i < COUNT(lengths); i++, asked += 3) {
        uint32_t step = KEPT;
        fit(good, fitted, EAR_FITTED_WORDS);
        wrong += fit(good, words, lengths[i]) != EAR_BAD_LENGTH || memcmp(before, words, sizeof words) != 0;
        wrong += fit(bent, words, lengths[i]) != EAR_BAD_LENGTH || memcmp(before, words, sizeof words) != 0;
        wrong += ear_step(fitted, lengths[i], NAN, &step) != EAR_BAD_LENGTH || step != KEPT;
    }
    wrong += fit(good, words, EAR_FITTED_KNEE_WORDS) != EAR_BAD_LENGTH || fit(bent, words, EAR_FITTED_WORDS) != EAR_BAD_LENGTH;
    group(wrong == 0, "ear_fit, ear_fit_knee, ear_step: %u of %u refusals wrong", wrong, asked + 2);
}

int main(void)
{
    for (size_t i = 0; i < COUNT(channels); i++)
        same(channels[i]);
    for (size_t i = 0; i < COUNT(channels); i++)
        changed(channels[i]);
    any_words(EAR_FITTED_WORDS);
    any_words(EAR_FITTED_KNEE_WORDS);
    refusals();
    return verdict();
}
