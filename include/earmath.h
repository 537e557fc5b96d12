/*
 * Earmath: elementary functions on f32 for a cochlear implant's sound processor.
 *
 * Every promise below is a theorem about the program that libearmath.a is
 * compiled from, for every bit pattern of the arguments: docs/PROMISES.md names
 * the theorem. The archive calls nothing outside itself and keeps no state.
 *
 * Each function returns a code. On EAR_OK the result has been written; on any
 * other code nothing has been written, and the result place is bit for bit what
 * it was, also where it held a NaN of the caller's own. A result place must be a
 * valid, aligned pointer to memory that the caller may write, and lists may not
 * change while a call runs (by an interrupt, or by a DMA).
 *
 * All functions but ear_dot are whole numbers inside: their promises hold in
 * every state of the float unit, whatever its rounding mode and whether or not
 * it reads subnormals as zero. They compare floats to know a NaN, for nothing else,
 * and raise no exception but "invalid" where one is a signalling NaN ("denormal
 * operand" too on x86). ear_dot expects the usual state: rounding to nearest,
 * ties to even, with subnormals kept.
 */
#ifndef EARMATH_H
#define EARMATH_H

#include <stdint.h>

#ifdef __cplusplus
extern "C" {
#endif

enum ear_code {
    EAR_OK = 0,
    EAR_OUT_OF_RANGE = 1, /* an argument that the function does not accept */
    EAR_BAD_LENGTH = 2,   /* lists of different or forbidden length */
    EAR_OVERFLOW = 3,     /* an intermediate result of a sum is not finite */
    EAR_BAD_CHANNEL = 4   /* a channel whose levels are out of order */
};

/*
 * The square root.
 *
 * Accepts: every finite x >= 0, -0 and subnormals included.
 * Result:  the float nearest to the root of x. No other float is as near: a
 *          tie does not occur. Of +0 it is +0, of -0 it is -0. This function has
 *          only one right answer for each input: whoever keeps the promise gives
 *          the same bits.
 * Order:   never falls as x grows.
 * Refuses: NaN, both infinities and every x < 0 with EAR_OUT_OF_RANGE; *out
 *          stays as it was.
 */
uint32_t ear_sqrt(float x, float *out);

/*
 * The reciprocal square root, 1 / sqrt(x).
 *
 * Accepts: every finite x > 0, subnormals included.
 * Result:  the float nearest to 1 / sqrt(x). No other float is as near: a tie
 *          does not occur. So the relative error is at most 2^-24. This function
 *          has only one right answer for each input: whoever keeps the promise
 *          gives the same bits. (1 divided by the nearest root is another float
 *          for a quarter of all x.)
 * Order:   never rises as x grows.
 * Refuses: NaN, both infinities, both zeros and every x < 0 with
 *          EAR_OUT_OF_RANGE; *out stays as it was.
 */
uint32_t ear_rsqrt(float x, float *out);

/*
 * 2 to the power x.
 *
 * Accepts: every x with -126 <= x <= 127.
 * Result:  the float nearest to the real number 2^x; no tie occurs. So it is
 *          within 2^-24 of it, relatively, and exactly 2^x where x is a whole
 *          number. Always a normal float.
 * Order:   never falls as x grows.
 * Refuses: NaN, both infinities, every x < -126 and every x > 127 with
 *          EAR_OUT_OF_RANGE; *out stays as it was.
 */
uint32_t ear_exp2(float x, float *out);

/*
 * e to the power x.
 *
 * Accepts: every x with -87 <= x <= 88.
 * Result:  within 515 / 2^33 (below 2^-23.99) of the real number e^x,
 *          relatively. Exactly 1 where x is 0, of either sign. Always a normal
 *          float.
 * Order:   never falls as x grows.
 * Refuses: NaN, both infinities, every x < -87 and every x > 88 with
 *          EAR_OUT_OF_RANGE; *out stays as it was.
 */
uint32_t ear_exp(float x, float *out);

/*
 * The logarithm to base two.
 *
 * Accepts: every finite x >= 2^-126, the normal floats above zero.
 * Result:  the float nearest to the real logarithm; no tie occurs. So it is
 *          within 2^-24 of it, relatively, also next to 1. Negative below 1,
 *          +0 at 1, positive above. Exact at powers of two.
 * Order:   never falls as x grows.
 * Refuses: NaN, both infinities, subnormals, both zeros and every x < 0 with
 *          EAR_OUT_OF_RANGE; *out stays as it was.
 */
uint32_t ear_log2(float x, float *out);

/*
 * sin(pi x).
 *
 * Accepts: every x with -2^22 < x < 2^22. (From there on a counter has lost its
 *          fraction: a phase that large is a mistake.)
 * Result:  within 17 / 2^29 (below 2^-24.91) of the real number sin(pi x), for
 *          that very x. Exactly 0, 1 or -1 where 2 x is a whole
 *          number, and the 0 is +0. Always from -1 to 1. The bound is absolute,
 *          and says little of a result near 0.
 * Refuses: NaN, both infinities and every x of size 2^22 or more with
 *          EAR_OUT_OF_RANGE; *out stays as it was.
 */
uint32_t ear_sinpi(float x, float *out);

/*
 * cos(pi x). The same promise, of the cosine.
 */
uint32_t ear_cospi(float x, float *out);

/*
 * sin(x), x in radians.
 *
 * Accepts: every finite x. (Of a large one neighbouring floats lie many turns
 *          apart, and the promise is about the very float that is given.)
 * Result:  within 17 / 2^29 (below 2^-24.91) of the real number sin(x). Always
 *          from -1 to 1. The bound is absolute, and says little of a result
 *          near 0.
 * Refuses: NaN and both infinities with EAR_OUT_OF_RANGE; *out stays as it
 *          was.
 */
uint32_t ear_sin(float x, float *out);

/*
 * cos(x), x in radians. The same promise, of the cosine.
 */
uint32_t ear_cos(float x, float *out);

/*
 * The dot product: the sum of a[i] * b[i], for lists of na and nb floats.
 *
 * Accepts: na = nb = n <= 65,536, every element finite, every intermediate
 *          result finite.
 * Adds:    in pairs. Write the n rounded products in a row. Add neighbours, the
 *          first and the second, the third and the fourth, and so on, each sum
 *          rounded; of an odd number the last stays as it is. That is the next
 *          row. Do the same with it, until one number is left: the result. So
 *          five products are ((p1 + p2) + (p3 + p4)) + p5. The products and all
 *          these sums are the intermediate results.
 * Result:  |*out - exact| <= G * (sum of |a[i] * b[i]|) + n * 2^-149, with
 *          G = (h + 1) u / (1 - (h + 1) u), u = 2^-24 and h the number of rows
 *          after the first: the least whole number with 2^h >= n, which is 6 for
 *          n = 64 and 16 for n = 65,536. For n = 0 it is +0. (-0 where all
 *          rounded products are -0.)
 * Refuses: with the first of these codes that applies; *out stays as it was.
 *          EAR_BAD_LENGTH where na and nb differ or are above 65,536;
 *          EAR_OUT_OF_RANGE where an element is a NaN or an infinity;
 *          EAR_OVERFLOW where an intermediate result is not finite, and only
 *          there: it may be that the exact sum is.
 *
 * a and b must be valid, aligned pointers to na and nb floats, and *out a float
 * of neither list.
 */
uint32_t ear_dot(const float *a, uint64_t na, const float *b, uint64_t nb, float *out);

/*
 * Softmax, base two: p[i] is 2^x[i] over the sum of 2^x[j] for all j, for lists
 * of nx and np floats.
 *
 * Accepts: nx = np = n, 1 <= n <= 1,024, and every x[i] from -64 to 64.
 * Result:  with q[i] for the real quotient,
 *          (1 - e) q[i] - 2^-149 <= p[i] <= (1 + e) q[i], e = 273 / 2^32,
 *          below 2^-23.9. Every p[i] is from 0 to 1, and the exact sum of
 *          all of them is within 263 / 2^32 of 1. So rel 2^-17 where q[i] is
 *          at least 2^-100, abs 2^-100 elsewhere and 2^-20 for the sum are kept.
 * Order:   x[i] <= x[j] gives p[i] <= p[j], and equal inputs get the same float.
 * Refuses: with the first of these codes that applies; the whole list p stays as
 *          it was, since nothing is written before every input was judged.
 *          EAR_BAD_LENGTH where nx and np differ, are 0 or above 1,024;
 *          EAR_OUT_OF_RANGE where an element is a NaN, below -64 or above 64.
 *
 * x and p must be valid, aligned pointers to nx and np floats, and the two lists
 * may not overlap: ear_softmax2_in_place is for one list.
 */
uint32_t ear_softmax2(const float *x, uint64_t nx, float *p, uint64_t np);

/*
 * Softmax, base two, in place: the n floats of p are replaced by their softmax.
 * The same promise as ear_softmax2(x, n, p, n) with x for the floats that p held,
 * and the same bits. On a refusal the list is bit for bit what it was.
 */
uint32_t ear_softmax2_in_place(float *p, uint64_t n);

/*
 * The transform of 128 values: X_k = sum of x[n] e^(-2 pi i k n / 128), k = 0 to 64.
 *
 * Accepts: nx = 128 floats below 2^120 in size, subnormal ones and zeros too, with
 *          nre = nim = 65 places for the real and the imaginary parts.
 * Error:   each part is within 2^-24 of its own exact size, 2^-42 of the largest
 *          |x[n]| and 2^-150 of the exact sum; and the root of the sum of all
 *          squared errors is at most 10^-7 of that of the exact parts, and 2^-146.
 * Zero:    no part is -0; a frame of zeros gives +0 in every part.
 * Refuses: with the first of these codes that applies; both lists stay as they
 *          were, since nothing is written before every input was judged.
 *          EAR_BAD_LENGTH unless nx is 128 and nre and nim are 65;
 *          EAR_OUT_OF_RANGE where an element is a NaN, infinite or of size 2^120
 *          or more.
 *
 * x, re and im must be valid, aligned pointers to nx, nre and nim floats, and no
 * two of the lists may overlap. A call needs 2.8 KB of stack on a Cortex-M4F.
 */
uint32_t ear_transform128(const float *x, uint64_t nx, float *re, uint64_t nre, float *im,
                          uint64_t nim);

/*
 * Softmax, base e: p[i] is e^x[i] over the sum of e^x[j] for all j. The same promise
 * as of ear_softmax2, with the same bounds, codes and order. (The least quotient is
 * about e^-128 or 2^-184.7: below 2^-149 the output is +0, and within one least float.)
 */
uint32_t ear_softmax(const float *x, uint64_t nx, float *p, uint64_t np);

/*
 * The loudness map: from the envelope of one channel to a whole current step.
 *
 * The channel: b and m are envelope levels, t and c current steps: up to b the
 *          current is the threshold t, from m on it is the comfort level c.
 *          Between them the exact map is straight in the logarithm of a:
 *          exact(a) = t + (c - t) * log2(a / b) / log2(m / b).
 * Accepts: 2^-24 <= b, 2 b <= m <= 1 and t <= c <= 255, as exact numbers, and
 *          every envelope value a from 0 to 1; -0 counts as 0.
 * Result:  a step from t to c, which is t where a <= b and c where a >= m; it
 *          is at most 0.500001 away from exact(a), so 0.55 is kept.
 * Order:   never falls as a grows.
 * Refuses: a channel that breaks a condition, b or m a NaN or infinite among
 *          them, with EAR_BAD_CHANNEL, whatever a is; else a that is NaN, below
 *          0 or above 1 with EAR_OUT_OF_RANGE; *out stays as it was.
 */
uint32_t ear_loudness(float b, float m, uint32_t t, uint32_t c, float a, uint32_t *out);

/*
 * The loudness map of a stimulator with the steps 0 to top.
 *
 * Accepts: what ear_loudness accepts, with t <= c <= top <= 1023 in place of
 *          t <= c <= 255. ear_loudness is the case top = 255.
 * Result:  as of ear_loudness; at most 0.500004 away from exact(a), and 0.500001
 *          where top is at most 255.
 * Order:   never falls as a grows.
 * Refuses: as ear_loudness; top > 1023 and c > top with EAR_BAD_CHANNEL.
 */
uint32_t ear_loudness_top(uint32_t top, float b, float m, uint32_t t, uint32_t c, float a,
                          uint32_t *out);

/*
 * The loudness map with a knee: from b to k the current goes from step t to step
 * kk, from k to m from kk to c, each straight in the logarithm of a.
 *
 * Accepts: 2^-24 <= b, 2 b <= k, 2 k <= m <= 1 and t <= kk <= c <= top <= 1023, as
 *          exact numbers, and every envelope value a from 0 to 1.
 * Result:  a step that is t where a <= b, kk at k and c where a >= m, from t to kk up
 *          to k and from kk to c from there on; on either side as near to the exact
 *          bent map as ear_loudness_top is to the straight one.
 * Order:   never falls as a grows, across the knee too.
 * Refuses: as ear_loudness.
 */
uint32_t ear_loudness_knee(uint32_t top, float b, float k, float m, uint32_t t, uint32_t kk,
                           uint32_t c, float a, uint32_t *out);

/* How many words a fitted channel has: a straight one, and one with a knee. */
enum { EAR_FITTED_WORDS = 6, EAR_FITTED_KNEE_WORDS = 12 };

/*
 * A channel, fitted: what the map needs of it, worked out once. n has to be
 * EAR_FITTED_WORDS.
 *
 * Accepts: the channels of ear_loudness_top.
 * Result:  words for ear_step. They mean the same on every machine, and may be kept
 *          or copied as they are. The last of them is a check of the others.
 * Refuses: with the first of these codes that applies; the words stay as they were.
 *          EAR_BAD_LENGTH where n is another; EAR_BAD_CHANNEL where the channel
 *          breaks a condition.
 */
uint32_t ear_fit(uint32_t top, float b, float m, uint32_t t, uint32_t c, uint32_t *words,
                 uint64_t n);

/*
 * The same of a channel with a knee, one of those of ear_loudness_knee. n has to be
 * EAR_FITTED_KNEE_WORDS. Each of its two halves has a check.
 */
uint32_t ear_fit_knee(uint32_t top, float b, float k, float m, uint32_t t, uint32_t kk, uint32_t c,
                      uint32_t *words, uint64_t n);

/*
 * The loudness map of a fitted channel: the words of ear_fit, n of them, or those of
 * ear_fit_knee.
 *
 * Result:  the step of ear_loudness_top or ear_loudness_knee for that channel, the
 *          same for every a, with all that is promised of it.
 * Any words: where one word of a fitted channel was changed, whichever it is and
 *          whatever to, the call is refused with EAR_BAD_CHANNEL. Words that no fit
 *          wrote and whose checks hold all the same are refused likewise, or give a
 *          step between the T and the C that stand in them: T is words[0] >> 22, and
 *          C is (v >> 22) + (v >> 12 & 1023) with v = words[n - 6].
 * Refuses: with the first of these codes that applies; *out stays as it was.
 *          EAR_BAD_LENGTH where n is neither of the two; EAR_BAD_CHANNEL for such
 *          words; EAR_OUT_OF_RANGE where a is NaN, below 0 or above 1; -0 counts as 0.
 */
uint32_t ear_step(const uint32_t *words, uint64_t n, float a, uint32_t *out);

/*
 * From microphone to electrode: the current steps of n bands for a frame of 128
 * samples.
 *
 * The exact path, all in real numbers: X_k, k = 0 to 64, is the transform of the
 *          products w[n] x[n]; the envelope of a band is a = (sum of |X_k|, k from
 *          lo to hi) / 64; its current is the exact map of a in the band's channel
 *          b, m, t, c (see ear_loudness). A full-scale tone on a bin under a Hann
 *          window gives a = 1 if its three bins are in the band.
 * A band:  six words; b and m are floats, and the rest are whole numbers.
 * Accepts: nx = nw = 128 samples and values of a window from -1 to 1, and n bands,
 *          1 <= n <= 65, words = 6 n, nout = n; lo <= hi <= 64, and a channel as in
 *          ear_loudness_top.
 * Result:  a step from t to c for each band, at most 0.504 away from the exact
 *          path's, and 0.501 where top is at most 255, whatever else is in the
 *          frame. Silence gives t in every band. The current of a band is the same
 *          whatever the other bands are.
 * Order:   where every sample grows by one factor, no current falls by more than one.
 * Refuses: with the first of these codes that applies; nothing is written before
 *          all was judged.
 *          EAR_BAD_LENGTH where a length is another;
 *          EAR_BAD_CHANNEL where a band breaks a condition, top > 1023 among them;
 *          EAR_OUT_OF_RANGE where a sample or a value of the window is a NaN or not
 *          from -1 to 1.
 *
 * The lists must be valid and aligned, and out may overlap none of the others.
 */
struct ear_band {
    uint32_t lo, hi; /* bins */
    float b, m;      /* levels */
    uint32_t t, c;   /* steps */
};

uint32_t ear_currents(uint32_t top, const float *x, uint64_t nx, const float *w, uint64_t nw,
                      const struct ear_band *bands, uint64_t words, uint32_t *out, uint64_t nout);

/*
 * The dot product as the nearest float: the sum of a[i] * b[i], rounded once.
 *
 * Accepts: na = nb = n <= 4,096, every element 0 or from 2^-40 to 2^40 in size.
 * Result:  the float nearest to the exact sum, ties to even: no finite float is
 *          nearer. So |*out - exact| <= u * |exact| with u = 2^-24, whatever
 *          cancels. Where the exact sum is 0 it is +0, and so for n = 0.
 * Order:   the result depends on the exact sum alone: the same pairs of elements
 *          in any order give the same bits.
 * Refuses: with the first of these codes that applies; *out stays as it was.
 *          EAR_BAD_LENGTH where na and nb differ or are above 4,096;
 *          EAR_OUT_OF_RANGE where an element is a NaN, an infinity, or neither 0
 *          nor from 2^-40 to 2^40 in size. Nothing overflows.
 *
 * a and b must be valid, aligned pointers to na and nb floats, and *out a float
 * of neither list. A call takes 856 bytes of stack on a Cortex-M4F.
 */
uint32_t ear_dot_nearest(const float *a, uint64_t na, const float *b, uint64_t nb, float *out);

#ifdef __cplusplus
}
#endif

#endif
