/*
 * The path from samples to currents against the exact one (MPFR, 200 digits): how far
 * each current is, silence, one band alone, a frame played louder, codes and untouched
 * results.
 */
#include <math.h>
#include <stdint.h>
#include <string.h>

#include "earmath.h"
#include "exact_path.h"
#include "report.h"

enum { N = 128, PARTS = 65, FRAMES = 200, CHANNELS = 5, MOST = 65, WORDS = 6, TOP = 1023, KEPT = 0x5a5a5a5a };

static float x[N], w[N];
static struct ear_band bands[MOST];
static uint32_t out[MOST + 1];

/* The steepest that are accepted, some in use, the widest. */
static const struct {
    float b, m;
} channels[CHANNELS] = {{0x1p-24f, 0x1p-23f}, {0x1p-16f, 0x1p-15f}, {0x1p-10f, 0x1p-2f}, {0x1p-24f, 1}, {0.25f, 0.9f}};

/* Knuth's generator, from a fixed start, so that a failure can be seen again. */
static uint64_t state = 1;

static uint32_t draw(void)
{
    state = state * 6364136223846793005u + 1442695040888963407u;
    return (uint32_t)(state >> 32);
}

static double uniform(void)
{
    return (double)(int32_t)draw() * 0x1p-31;
}

static float of_bits(uint32_t b)
{
    float f;
    memcpy(&f, &b, sizeof f);
    return f;
}

/* Bands that cover the bins in several ways; the kind of channel and the steps go round. */
static uint32_t draw_bands(uint32_t top)
{
    uint32_t n = 1 + draw() % MOST;
    for (uint32_t i = 0; i < n; i++) {
        uint32_t lo = draw() % 65, hi = lo + draw() % (65 - lo), which = draw() % CHANNELS;
        if (i == 0)
            lo = 0, hi = 64;
        if (draw() % 2)
            hi = lo;
        uint32_t from = draw() % 8 == 0 ? draw() % (top + 1) : 0;
        bands[i] = (struct ear_band){lo, hi, channels[which].b, channels[which].m, from, top};
    }
    return n;
}

static const char *const kinds[] = {"noise",           "tones on a bin",       "tones between bins", "a soft tone beside a full one",
                                    "clicks",          "speech-like noise",    "full alternation",   "soft noise",
                                    "silence"};

static float value(int kind, int frame, int n)
{
    double turn = 6.283185307179586 * n / N;
    switch (kind) {
    case 0: return (float)uniform();
    case 1: return (float)cos(turn * (frame % PARTS));
    case 2: return (float)(0.9 * sin(turn * (3.3 + 2.1 * frame) + frame));
    case 3: return (float)(0.999 * cos(turn * (frame % 40)) + ldexp(cos(turn * (frame % 40 + 15)), -12 - frame % 12));
    case 4: return n == frame * 5 % N ? 1.0f : 0.0f;
    case 5: return (float)(uniform() * exp(-n / 40.0) * (0.5 + 0.5 * cos(turn * 7)));
    case 6: return n % 2 ? -1.0f : 1.0f;
    case 7: return (float)ldexp(uniform(), -20 - frame % 60);
    default: return n % 2 ? -0.0f : 0.0f;
    }
}

static void fill(int kind, int frame)
{
    for (int n = 0; n < N; n++) {
        x[n] = value(kind, frame, n);
        w[n] = frame % 3 == 0 ? 1.0f : frame % 3 == 1 ? (float)(0.5 - 0.5 * cos(6.283185307179586 * n / N)) : (float)uniform();
    }
}

static uint32_t call(uint32_t top, uint32_t n)
{
    return ear_currents(top, x, N, w, N, bands, WORDS * (uint64_t)n, out, n);
}

static void frames(int kind)
{
    double worst[2] = {0, 0};
    bool good = true;
    for (int f = 0; f < FRAMES; f++) {
        int wide = f % 2;
        uint32_t top = wide ? TOP : 255, n = (fill(kind, f), draw_bands(top));
        good = good && call(top, n) == EAR_OK;
        exact_sizes(x, w);
        for (uint32_t i = 0; i < n; i++) {
            good = good && bands[i].t <= out[i] && out[i] <= bands[i].c && (kind != 8 || out[i] == bands[i].t);
            worst[wide] = fmax(worst[wide], exact_distance(&bands[i], out[i]));
        }
    }
    group(good && worst[0] <= 0.501 && worst[1] <= 0.504, "currents of %s: at worst %.6f of a step, and %.6f of 1,023 steps", kinds[kind],
          worst[0], worst[1]);
}

/* Each band asked by itself gives the current that it has among the others. */
static void alone(void)
{
    bool good = true;
    for (int f = 0; f < FRAMES; f++) {
        uint32_t n = (fill(f % 8, f), draw_bands(TOP)), all[MOST];
        call(TOP, n);
        memcpy(all, out, sizeof all);
        struct ear_band kept[MOST];
        memcpy(kept, bands, sizeof kept);
        for (uint32_t i = 0; i < n; i++) {
            bands[0] = kept[i];
            good = good && call(TOP, 1) == EAR_OK && out[0] == all[i];
        }
    }
    group(good, "currents: a band alone gets the current that it has among others");
}

/* The frame times 2^-j for j from 16 down to 0: exact, so one sound played louder and louder. */
static void louder(void)
{
    uint32_t falls = 0, steps = 0;
    bool good = true;
    for (int f = 0; f < FRAMES; f++) {
        uint32_t n = (fill(f % 8, f), draw_bands(TOP)), before[MOST] = {0};
        float frame[N];
        memcpy(frame, x, sizeof frame);
        for (int j = 16; j >= 0; j--) {
            for (int i = 0; i < N; i++)
                x[i] = (float)ldexp((double)frame[i], -j);
            call(TOP, n);
            for (uint32_t i = 0; i < n; i++, steps++) {
                falls += out[i] < before[i];
                good = good && before[i] <= out[i] + 1;
                before[i] = out[i];
            }
        }
    }
    group(good, "currents: a frame played louder lowers none by more than one step (%u of %u fell)", falls, steps);
}

/* Refused with this code, and nothing written. */
static bool refused(uint32_t code, uint32_t top, uint64_t nx, uint64_t nw, uint64_t words, uint64_t nout)
{
    for (int i = 0; i <= MOST; i++)
        out[i] = KEPT;
    bool good = ear_currents(top, x, nx, w, nw, bands, words, out, nout) == code;
    for (int i = 0; i <= MOST; i++)
        good = good && out[i] == KEPT;
    return good;
}

static void lengths(void)
{
    bool good = true;
    fill(0, 1);
    for (int i = 0; i < MOST; i++)
        bands[i] = (struct ear_band){0, 64, 0.25f, 0.5f, 0, 255};
    for (uint64_t n = 0; n <= N + 1; n++)
        good = good && (n == N || (refused(EAR_BAD_LENGTH, TOP, n, N, 6, 1) && refused(EAR_BAD_LENGTH, TOP, N, n, 6, 1)));
    for (uint64_t n = 0; n <= 6 * MOST; n++)
        good = good && (n == 12 || refused(EAR_BAD_LENGTH, TOP, N, N, n, 2));
    group(good && refused(EAR_BAD_LENGTH, TOP, N, N, 0, 0) && refused(EAR_BAD_LENGTH, TOP, N, N, 6 * 66, 66) &&
              refused(EAR_BAD_LENGTH, TOP, N, N, 0xffffffffffffffff, 0x2aaaaaaaaaaaaaaa) && call(TOP, MOST) == EAR_OK,
          "currents: other lengths are refused first");
}

static void conditions(void)
{
    static const struct ear_band wrong[] = {
        {1, 0, 0.25f, 0.5f, 0, 9},        {0, 65, 0.25f, 0.5f, 0, 9},          {0, 0xffffffff, 0.25f, 0.5f, 0, 9},
        {65, 65, 0.25f, 0.5f, 0, 9},      {0, 9, 0x1.fffffep-25f, 0.5f, 0, 9}, {0, 9, 0.25f, 0x1.fffffep-2f, 0, 9},
        {0, 9, 0.5f, 0x1.000002p0f, 0, 9}, {0, 9, 0.25f, 0.5f, 10, 9},         {0, 9, 0.25f, 0.5f, 0, 256},
        {0, 9, -0.25f, 0.5f, 0, 9},       {0, 9, 0.25f, -0.5f, 0, 9},          {0, 9, 0.0f, 0.5f, 0, 9},
    };
    static const uint32_t nans[] = {0x7fc00000, 0x7f800001, 0xffffffff, 0x7f800000, 0xff800000};
    bool good = true;
    for (uint32_t i = 0; i < 3; i++) {
        const struct ear_band right = {0, 64, 0.25f, 0.5f, 0, 255};
        for (uint32_t j = 0; j < 3; j++)
            bands[j] = right;
        x[5] = of_bits(0x7fc00000); /* the bands are judged before */
        for (size_t j = 0; j < sizeof wrong / sizeof wrong[0]; j++) {
            bands[i] = wrong[j];
            good = good && refused(EAR_BAD_CHANNEL, 255, N, N, 18, 3);
        }
        for (size_t j = 0; j < sizeof nans / sizeof nans[0]; j++) {
            bands[i] = right;
            bands[i].b = of_bits(nans[j]);
            good = good && refused(EAR_BAD_CHANNEL, 255, N, N, 18, 3);
            bands[i] = right;
            bands[i].m = of_bits(nans[j]);
            good = good && refused(EAR_BAD_CHANNEL, 255, N, N, 18, 3);
        }
        bands[i] = right;
        x[5] = 0;
        good = good && refused(EAR_BAD_CHANNEL, 1024, N, N, 18, 3) && refused(EAR_BAD_CHANNEL, 254, N, N, 18, 3) && call(255, 3) == EAR_OK;
    }
    group(good, "currents: each condition of a band, at each place, is refused next");
}

static void samples(void)
{
    static const uint32_t wrong[] = {0x3f800001, 0xbf800001, 0x7f800000, 0xff800000, 0x7fc00000, 0x7f800001, 0xffffffff, 0x40000000};
    bool good = true;
    fill(0, 1);
    for (int n = 0; n < N; n++)
        for (size_t i = 0; i < sizeof wrong / sizeof wrong[0]; i++) {
            float right = x[n], of_window = w[n];
            x[n] = of_bits(wrong[i]);
            good = good && refused(EAR_OUT_OF_RANGE, 255, N, N, 18, 3);
            x[n] = right;
            w[n] = of_bits(wrong[i]);
            good = good && refused(EAR_OUT_OF_RANGE, 255, N, N, 18, 3);
            w[n] = of_window;
        }
    group(good, "currents: samples and windows above 1 in size, infinities and NaNs are refused at every place");
}

int main(void)
{
    open_path();
    for (size_t kind = 0; kind < sizeof kinds / sizeof kinds[0]; kind++)
        frames((int)kind);
    alone();
    louder();
    lengths();
    conditions();
    samples();
    return verdict();
}
