/*
 * Every function, asked by a 32-bit pattern: what it answered, word for word. The
 * same patterns give the same questions on every machine and in every state of its
 * float unit, so answers can be compared. A new function is a line in answers.c.
 */
#ifndef ANSWERS_H
#define ANSWERS_H

#include <stdbool.h>
#include <stdint.h>

#include "earmath.h"

enum { PLACES = 1024, GUARD = 1 };

union word {
    uint32_t bits;
    float value;
};

/* What a call left. The result places stand between guards; before the call all of
 * them hold NaNs, signalling ones among them, and infinities. */
struct answer {
    uint32_t code, places;
    union word before[GUARD + PLACES + GUARD], after[GUARD + PLACES + GUARD];
};

struct asked {
    const char *name;
    /* asks what the pattern stands for: sets the places, calls, notes the code */
    void (*ask)(const struct asked *f, uint32_t pattern, struct answer *a);
    union {
        uint32_t (*single)(float x, float *out);
        uint32_t (*dot)(const float *a, uint64_t na, const float *b, uint64_t nb, float *out);
        uint32_t (*softmax)(const float *x, uint64_t nx, float *p, uint64_t np);
        uint32_t (*transform)(const float *x, uint64_t nx, float *re, uint64_t nre, float *im, uint64_t nim);
        uint32_t (*currents)(uint32_t top, const float *x, uint64_t nx, const float *w, uint64_t nw, const struct ear_band *bands,
                             uint64_t words, uint32_t *out, uint64_t nout);
        uint32_t (*map)(float b, float m, uint32_t t, uint32_t c, float a, uint32_t *out);
        uint32_t (*step)(const uint32_t *words, uint64_t n, float a, uint32_t *out);
    } call;
    uint32_t codes; /* the codes that it can return, bit 1 << code for each */
    uint32_t share; /* of so many drawn patterns it is asked one: 1, but for lists */
    bool rounds;    /* computes with floats, so promised for the float unit's usual state alone */
};

extern const struct asked every_function[];
extern const int function_count;

/* Asks, and says whether the call kept what it had to: after a code other than 0
 * every place is what it was, after 0 the guards are, and the code is one of codes. */
bool ask(const struct asked *f, uint32_t pattern, struct answer *a);

/* The answer as one number, put together with those before it. */
uint32_t mixed(uint32_t sum, const struct answer *a);

/* A spread of patterns in blocks, one for each sign and exponent: first the edges of
 * the exponent's floats, then `draws` of them, eight times as many from 2^-25 to 2^8. */
enum { SPREAD_BLOCKS = 512, EDGES = 7 };
uint32_t spread_size(const struct asked *f, uint32_t block, uint32_t draws);
uint32_t spread_pattern(uint32_t block, uint32_t i);

#endif
