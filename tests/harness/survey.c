#include "survey.h"

#include <stddef.h>

enum { DRAWS = 4096 };

/* Fractions at the ends of a binade, where a carry or a halved spacing shows. */
static const uint32_t edges[] = {0x000000, 0x000001, 0x000002, 0x3fffff, 0x400000, 0x7ffffe, 0x7fffff};

enum { EDGES = sizeof edges / sizeof edges[0] };

/* Knuth's 64-bit linear congruential generator: its upper bits are even enough
 * for fractions, and its start is fixed, so a failure can be seen again. */
static uint32_t next_fraction(uint64_t *state)
{
    *state = *state * 6364136223846793005u + 1442695040888963407u;
    return (uint32_t)(*state >> 41);
}

static void look(struct tally *t, const struct function *f, uint32_t pattern)
{
    struct deed here = deed_at(f, pattern);
    struct deed above = deed_at(f, pattern_at(place_of(pattern) + 1));
    judge(t, f, here);
    judge(t, f, above);
    judge_order(t, f, here, above);
}

struct tally survey(const struct function *f)
{
    struct tally t = {0};
    uint64_t state = 1;
    for (uint32_t exponent = 0; exponent < 512; exponent++) {
        for (int i = 0; i < EDGES; i++)
            look(&t, f, exponent << 23 | edges[i]);
        for (int i = 0; i < DRAWS; i++)
            look(&t, f, exponent << 23 | next_fraction(&state));
    }
    return t;
}
