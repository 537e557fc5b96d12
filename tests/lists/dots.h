/*
 * What it means for a dot product to keep its promise at two lists. The same
 * judgement serves the tests and the wrong programs.
 */
#ifndef DOTS_H
#define DOTS_H

#include <stdbool.h>
#include <stddef.h>
#include <stdint.h>

typedef uint32_t (*dot)(const float *a, uint64_t na, const float *b, uint64_t nb, float *out);

enum { MOST = 65536 };

/* The ways to break the promise. */
enum dot_fault { DOT_CODE, DOT_TOUCHED, DOT_BOUND, DOT_VALUE, DOT_FAULTS };

extern const char *const dot_fault_names[DOT_FAULTS];

struct dot_tally {
    uint64_t calls, codes[4];
    uint64_t seen[DOT_FAULTS];
    double worst; /* the largest error, as a part of what is allowed */
};

/* The code that the promise says, in the order 2, 1, 3. */
uint32_t due_code(const float *a, uint64_t na, const float *b, uint64_t nb);

void judge_dot(struct dot_tally *t, dot call, const float *a, uint64_t na, const float *b, uint64_t nb);

#endif
