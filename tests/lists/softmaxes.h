/*
 * What it means for a softmax to keep its promise at a list. The exact quotient
 * is enclosed by MPFR, so what is said of a distance is certain. The same
 * judgement serves the tests and the wrong programs.
 */
#ifndef SOFTMAXES_H
#define SOFTMAXES_H

#include <stdbool.h>
#include <stddef.h>
#include <stdint.h>

typedef uint32_t (*softmax)(const float *x, uint64_t nx, float *p, uint64_t np);

enum { LONGEST = 1024 };

/* The ways to break the promise. */
enum softmax_fault {
    SOFTMAX_CODE,
    SOFTMAX_TOUCHED,
    SOFTMAX_INSIDE,
    SOFTMAX_NEAR,
    SOFTMAX_ORDER,
    SOFTMAX_EQUAL,
    SOFTMAX_WHOLE,
    SOFTMAX_FAULTS
};

extern const char *const softmax_fault_names[SOFTMAX_FAULTS];

/* What is allowed: relatively, in units of the least float from below, and for
 * the sum of all outputs. */
struct softmax_limits {
    double relative, units, whole;
};

/* What is proved, and what document 01 asks where the quotient is at least
 * 2^-100; below that it asks less than the first. */
extern const struct softmax_limits proved, asked;

struct softmax_tally {
    uint64_t calls, codes[3], outputs;
    uint64_t seen[SOFTMAX_FAULTS];
    double worst;       /* relative error where the quotient is at least 2^-125 */
    double worst_whole; /* distance of the sum from 1 */
    double worst_units; /* error where it is below that, in least floats */
};

/* The base of all powers from now on: 2, or e. */
void use_base(bool natural);

void open_softmaxes(void);
void close_softmaxes(void);

/* Calls it on x, with np places for the output. */
void judge_softmax(struct softmax_tally *t, softmax call, const float *x, uint64_t nx, uint64_t np,
                   const struct softmax_limits *limits);

uint64_t softmax_faults_in(const struct softmax_tally *t);

/* The exact quotient at i, as a decimal that begins with its digits. */
void quotient_digits(char *text, size_t size, const float *x, size_t n, size_t i, int digits);

#endif
