/* A frame of 22 envelopes becomes 22 current steps, one for each electrode. */
#include <stdio.h>

#include "earmath.h"

enum { CHANNELS = 22 };

struct channel {
    float b, m;    /* envelopes: up to b the current is t, from m on it is c */
    uint32_t t, c; /* current steps: threshold and comfort */
};

/* As a fitter would have set them, each electrode a little different. */
static struct channel channel_of(int i)
{
    return (struct channel){0.001f, 0.3f + 0.01f * (float)i, 100 + (uint32_t)(i % 5), 190 + (uint32_t)(i % 7)};
}

/* From a pause to a loud vowel; the last three are no envelopes. */
static const float frame[CHANNELS] = {
    0.0f,  0.0005f, 0.001f, 0.0011f, 0.0015f, 0.002f, 0.003f, 0.005f, 0.008f, 0.012f, 0.02f,
    0.03f, 0.05f,   0.08f,  0.12f,   0.2f,    0.3f,   0.45f,  1.0f,   1.01f,  -0.2f,  0.0f / 0.0f,
};

int main(void)
{
    for (int i = 0; i < CHANNELS; i++) {
        struct channel k = channel_of(i);
        uint32_t current = k.t; /* what the stimulator holds from the frame before */
        uint32_t code = ear_loudness(k.b, k.m, k.t, k.c, frame[i], &current);
        printf("electrode %2d: step %lu%s\n", i + 1, (unsigned long)current,
               code == EAR_OK ? "" : ", as before: the envelope was refused");
    }
    return 0;
}
