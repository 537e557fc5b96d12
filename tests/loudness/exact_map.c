#include "exact_map.h"

/* Bits of each number here; a result is then enclosed within 2^-70. */
enum { PRECISION = 96 };

uint32_t highest_step = 255;

bool fits(struct channel channel)
{
    float b = channel.b, m = channel.m;
    return b >= 0x1p-24f && 2 * b <= m && m <= 1 && channel.t <= channel.c && channel.c <= highest_step;
}

static void open_between(struct between *x)
{
    mpfr_init2(x->low, PRECISION);
    mpfr_init2(x->high, PRECISION);
}

static void close_between(struct between *x)
{
    mpfr_clear(x->low);
    mpfr_clear(x->high);
}

/* MPFR's logarithm is the nearest number not above the exact one, and says
 * whether it is the exact one. */
static void set_log2(struct between *log, float x)
{
    mpfr_set_flt(log->low, x, MPFR_RNDD);
    bool exact = mpfr_log2(log->low, log->low, MPFR_RNDD) == 0;
    mpfr_set(log->high, log->low, MPFR_RNDU);
    if (!exact)
        mpfr_nextabove(log->high);
}

static void subtract(struct between *x, const struct between *y)
{
    mpfr_sub(x->low, x->low, y->high, MPFR_RNDD);
    mpfr_sub(x->high, x->high, y->low, MPFR_RNDU);
}

void open_map(struct exact_map *map)
{
    open_between(&map->log_b);
    open_between(&map->span);
    open_between(&map->value);
}

void close_map(struct exact_map *map)
{
    close_between(&map->log_b);
    close_between(&map->span);
    close_between(&map->value);
    mpfr_free_cache();
}

void fit(struct exact_map *map, struct channel channel)
{
    map->channel = channel;
    set_log2(&map->log_b, channel.b);
    set_log2(&map->span, channel.m);
    subtract(&map->span, &map->log_b);
}

/* The exact map at a, between b and m: t + (c - t) * log2(a / b) / log2(m / b).
 * Both logarithms are well above 0, and so are their lower ends. */
static void evaluate(struct exact_map *map, float a)
{
    struct between *value = &map->value;
    uint32_t steps = map->channel.c - map->channel.t;
    set_log2(value, a);
    subtract(value, &map->log_b);
    mpfr_mul_ui(value->low, value->low, steps, MPFR_RNDD);
    mpfr_mul_ui(value->high, value->high, steps, MPFR_RNDU);
    mpfr_div(value->low, value->low, map->span.high, MPFR_RNDD);
    mpfr_div(value->high, value->high, map->span.low, MPFR_RNDU);
    mpfr_add_ui(value->low, value->low, map->channel.t, MPFR_RNDD);
    mpfr_add_ui(value->high, value->high, map->channel.t, MPFR_RNDU);
}

double distance(struct exact_map *map, float a, uint32_t step)
{
    struct between *value = &map->value;
    evaluate(map, a);
    mpfr_ui_sub(value->low, step, value->low, MPFR_RNDU);
    mpfr_sub_ui(value->high, value->high, step, MPFR_RNDU);
    mpfr_max(value->high, value->high, value->low, MPFR_RNDU);
    return mpfr_get_d(value->high, MPFR_RNDU);
}

float half_step(struct exact_map *map, uint32_t k)
{
    mpfr_t *power = &map->value.low;
    mpfr_mul_ui(*power, map->span.low, 2 * k + 1, MPFR_RNDN);
    mpfr_div_ui(*power, *power, 2 * (map->channel.c - map->channel.t), MPFR_RNDN);
    mpfr_add(*power, *power, map->log_b.low, MPFR_RNDN);
    mpfr_exp2(*power, *power, MPFR_RNDN);
    return mpfr_get_flt(*power, MPFR_RNDN);
}
