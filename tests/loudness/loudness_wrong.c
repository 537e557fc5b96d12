/*
 * Wrong loudness maps, which the checks of `loudness` must reject. Each breaks
 * one clause; a check that lets one of them pass fails.
 */
#include <inttypes.h>
#include <math.h>

#include "earmath.h"
#include "judge.h"
#include "map_survey.h"
#include "report.h"

enum { DRAWN = 64 };

/* log2(a / b) / log2(m / b), good to some 2^-58: the wrong maps' common part. */
static long double share(float b, float m, float a)
{
    return (log2l(a) - log2l(b)) / (log2l(m) - log2l(b));
}

/* A map with the tests around it that the promise asks for, and in the middle
 * an expression that gives the step. */
#define MAP(name, middle) \
    static uint32_t name(float b, float m, uint32_t t, uint32_t c, float a, uint32_t *out) \
    { \
        uint32_t code = code_for((struct channel){b, m, t, c}, a); \
        if (code == EAR_OK) \
            *out = a <= b ? t : a >= m ? c : (uint32_t)(middle); \
        return code; \
    }

MAP(rounds_down, t + (c - t) * share(b, m, a))
MAP(rounds_late, t + 0.49998L + (c - t) * share(b, m, a))
MAP(straight_in_the_envelope, t + 0.5L + (c - t) * ((long double)a - b) / ((long double)m - b))
MAP(straightforward_floats, t + 0.5f + (float)(c - t) * (log2f(a) - log2f(b)) / (log2f(m) - log2f(b)))

/* A logarithm in pieces that don't meet: 0.0001 too great just below a power of
 * two, and as much too small at the power. */
static float piecewise_log2(float x)
{
    int exponent;
    float fraction = 2 * frexpf(x, &exponent) - 1;
    return log2f(x) + 0.0002f * (fraction - 0.5f);
}

MAP(falls_at_powers, t + 0.5f + (float)(c - t) * (piecewise_log2(a) - log2f(b)) / (log2f(m) - log2f(b)))

static uint32_t exchanges_the_ends(float b, float m, uint32_t t, uint32_t c, float a, uint32_t *out)
{
    uint32_t code = ear_loudness(b, m, t, c, a, out);
    if (code == EAR_OK)
        *out = c - (*out - t);
    return code;
}

/* Logarithms in units of 2^-20, cut off below for a and above for b, so that
 * log2 of a / b is never taken too great. At a = b it is then one unit below 0,
 * and the test must keep that out: a < b does not. */
static uint32_t tests_below_b_only(float b, float m, uint32_t t, uint32_t c, float a, uint32_t *out)
{
    uint32_t code = code_for((struct channel){b, m, t, c}, a);
    if (code != EAR_OK)
        return code;
    uint32_t from = (uint32_t)(int32_t)ceill(0x1p20L * log2l(b)), at = (uint32_t)(int32_t)floorl(0x1p20L * log2l(a));
    long double step = t + 0.5L + (c - t) * (at - from) / (0x1p20L * log2l(m / b));
    *out = a < b ? t : a >= m || step >= c ? c : (uint32_t)step;
    return EAR_OK;
}

static uint32_t drops_the_clamp(float b, float m, uint32_t t, uint32_t c, float a, uint32_t *out)
{
    uint32_t code = code_for((struct channel){b, m, t, c}, a);
    if (code == EAR_OK)
        *out = a <= b ? t : (uint32_t)(t + 0.5L + (c - t) * share(b, m, a));
    return code;
}

static uint32_t writes_before_it_refuses(float b, float m, uint32_t t, uint32_t c, float a, uint32_t *out)
{
    *out = t;
    return ear_loudness(b, m, t, c, a, out);
}

static uint32_t writes_a_wider_word(float b, float m, uint32_t t, uint32_t c, float a, uint32_t *out)
{
    uint32_t code = ear_loudness(b, m, t, c, a, out);
    if (code == EAR_OK)
        out[1] = 0;
    return code;
}

static uint32_t refuses_minus_zero(float b, float m, uint32_t t, uint32_t c, float a, uint32_t *out)
{
    return signbit(a) && fits((struct channel){b, m, t, c}) ? EAR_OUT_OF_RANGE : ear_loudness(b, m, t, c, a, out);
}

static uint32_t judges_a_first(float b, float m, uint32_t t, uint32_t c, float a, uint32_t *out)
{
    return a >= 0 && a <= 1 ? ear_loudness(b, m, t, c, a, out) : EAR_OUT_OF_RANGE;
}

/* 2 b <= m by logarithms, which round: m one float below 2 b is accepted. */
static uint32_t rounds_in_the_test(float b, float m, uint32_t t, uint32_t c, float a, uint32_t *out)
{
    if (log2f(m) - log2f(b) >= 1 && m < 2 * b)
        m = 2 * b;
    return ear_loudness(b, m, t, c, a, out);
}

#define USUAL {0x1p-10f, 0.25f, 100, 200}

static const struct wrong_map {
    const char *what;
    loudness_map call;
    struct channel channel; /* that shows it */
    float a;
    enum map_fault fault;
} wrongs[] = {
    {"a map that rounds down", rounds_down, USUAL, 0x1.fffffep-7f, TOO_FAR},
    {"a map that rounds up from 0.50002 on", rounds_late, USUAL, 0x1p-3f * 1.000001f, TOO_FAR},
    {"a map straight in a and not in its logarithm", straight_in_the_envelope, USUAL, 0x1p-6f, TOO_FAR},
    {"a map with threshold and comfort exchanged", exchanges_the_ends, USUAL, 0.0f, END_MISSED},
    {"a map with a < b for a <= b", tests_below_b_only, {0x1.555556p-9f, 0.25f, 100, 200}, 0x1.555556p-9f, END_MISSED},
    {"a map with the clamp dropped", drops_the_clamp, USUAL, 0.5f, OUTSIDE},
    {"a map that falls at a power of two", falls_at_powers, {0x1p-9f, 0x1p-7f, 0, 255}, 0x1p-8f, FALLEN},
    {"straightforward C on log2f", straightforward_floats, {0x1.555556p-10f, 0.25f, 100, 200}, 0x1.b2441p-5f, TOO_FAR},
    {"a map that writes before it refuses", writes_before_it_refuses, USUAL, -1.0f, MEMORY_TOUCHED},
    {"a map that writes 64 bits", writes_a_wider_word, USUAL, 0.5f, MEMORY_TOUCHED},
    {"a map that refuses -0", refuses_minus_zero, USUAL, -0.0f, CODE_WRONG},
    {"a map that judges a before the channel", judges_a_first, {0.5f, 0.75f, 0, 255}, 2.0f, CODE_WRONG},
    {"a map that rounds in the test of 2 b <= m", rounds_in_the_test, {0x1p-10f, 0x1.fffffep-10f, 0, 255}, 0.5f,
     CODE_WRONG},
};

enum { WRONGS = sizeof wrongs / sizeof wrongs[0] };

/* At the place that shows it, with the float below; a channel that does not fit
 * is in no survey, so there the place alone counts. */
static void reject(const struct wrong_map *w)
{
    struct exact_map map;
    struct map_tally one = {0}, many = {0};
    uint32_t a = bits_of(w->a), below = pattern_at(place_of(a) - 1);
    struct map_deed here = map_deed_at(w->call, w->channel, a, 0xa5a5a5a5);
    if (!fits(w->channel)) {
        judge_form(&one, w->channel, here);
        group(one.seen[w->fault] > 0, "%s: rejected at %08" PRIx32 " (%s)", w->what, a, map_fault_names[w->fault]);
        return;
    }
    open_map(&map);
    fit(&map, w->channel);
    judge_step(&one, &map, here, MAP_LIMIT);
    judge_rise(&one, w->channel, map_deed_at(w->call, w->channel, below, 0xa5a5a5a5), here);
    close_map(&map);
    survey_channels(&many, w->call, DRAWN, MAP_LIMIT);
    group(one.seen[w->fault] > 0 && many.seen[w->fault] > 0,
          "%s: rejected at %08" PRIx32 " and %" PRIu64 " times in the survey (%s)", w->what, a, many.seen[w->fault],
          map_fault_names[w->fault]);
}

/* A judge that rejects everything would pass all of the above. */
static void limits_are_not_too_tight(void)
{
    struct map_tally floats = {0}, falls = {0};
    survey_channels(&floats, straightforward_floats, DRAWN, ASKED_LIMIT);
    group(map_faults_in(&floats) == 0, "straightforward C on log2f keeps the weaker bound 0.55: worst %.6f",
          floats.worst);
    survey_channels(&falls, falls_at_powers, DRAWN, ASKED_LIMIT);
    group(falls.seen[FALLEN] == map_faults_in(&falls),
          "the map that falls keeps 0.55 and breaks the order only: worst %.6f", falls.worst);
}

int main(void)
{
    for (int i = 0; i < WRONGS; i++)
        reject(&wrongs[i]);
    limits_are_not_too_tight();
    return verdict();
}
