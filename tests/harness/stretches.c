#include "stretches.h"

#include <ctype.h>
#include <math.h>
#include <stdint.h>
#include <stdio.h>
#include <sys/stat.h>

static bool both_signs(const struct function *f)
{
    return f->low < 0;
}

static bool even_in_x(const struct function *f)
{
    return both_signs(f) && f->high - f->low < 1000;
}

/* The patterns of the least size above zero and of the greatest. Patterns are as good as
 * a logarithm, and need none. */
static uint32_t least(const struct function *f)
{
    return both_signs(f) ? bits_of(0x1p-20f) : bits_of(f->low) > 0 ? bits_of(f->low) : 1;
}

static uint32_t sizes(const struct function *f)
{
    return bits_of(f->high) - least(f) + 1;
}

/* Where the i-th stretch begins. */
static double start_of(const struct function *f, int i)
{
    if (even_in_x(f))
        return f->low + (double)i / STRETCHES * ((double)f->high - f->low);
    return float_of(least(f) + (uint32_t)((uint64_t)sizes(f) * (unsigned)i / STRETCHES));
}

void keep_in_stretch(struct stretches *s, const struct function *f, float x, double error)
{
    uint32_t size = bits_of(x) & 0x7fffffff;
    int i;
    if (even_in_x(f))
        i = (int)(((double)x - f->low) * (STRETCHES / ((double)f->high - f->low)));
    else if (size >= least(f))
        i = (int)((uint64_t)(size - least(f)) * STRETCHES / sizes(f));
    else
        return;
    i = i < STRETCHES ? i : STRETCHES - 1;
    if (error > s->worst[i])
        s->worst[i] = error;
}

void add_stretches(struct stretches *sum, const struct stretches *s)
{
    for (int i = 0; i < STRETCHES; i++)
        sum->worst[i] = fmax(sum->worst[i], s->worst[i]);
}

bool write_stretches(const struct stretches *s, const struct function *f, bool absolute)
{
    char path[128];
    int name = sizeof "build/errors/" - 1;
    int end = snprintf(path, sizeof path, "build/errors/%s.csv", f->name);
    for (char *c = path + name; c < path + end - 4; c++)
        if (!isalnum((unsigned char)*c))
            *c = '_';
    mkdir("build/errors", 0777);
    FILE *file = fopen(path, "w");
    if (file == NULL)
        return false;
    fprintf(file, "from,%s error,bound %.6g\n", absolute ? "absolute" : "relative", f->bound > 0 ? f->bound : 0x1p-24);
    for (int i = 0; i < STRETCHES; i++)
        fprintf(file, "%.7g,%.5g\n", start_of(f, i), s->worst[i]);
    return fclose(file) == 0;
}
