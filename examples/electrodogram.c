/*
 * Speech as currents: what each electrode gets, a thousand times a second.
 *
 *   electrodogram FILE.wav           the currents as CSV, a line for each frame
 *   electrodogram --svg FILE.wav     the electrodogram, as fitters draw it
 *   electrodogram --made             of a signal that the program makes: a chirp and two tones
 *   ... --channels FILE              b, m, T and C of each of the 22 channels, a line for each
 *
 * The sound is 16-bit PCM at 16 kHz, mono. Frames of 128 samples every 16 under a Hann
 * window; 22 bands of bins 2 to 63, 188 Hz to 7.9 kHz, with the widths that the Nucleus
 * processors' ACE strategy has for 22 channels. Electrode 22 lies deepest and gets the
 * lowest band. Build: cc -Iinclude examples/electrodogram.c build/libearmath.a -lm
 */
#include <errno.h>
#include <math.h>
#include <stdint.h>
#include <stdio.h>
#include <stdlib.h>
#include <string.h>

#include "earmath.h"

enum { FRAME = 128, STEP = 16, RATE = 16000, BANDS = 22, WIDTH = 1000, ROW = 22, LEFT = 92, ABOVE = 44 };

static const uint32_t bins[BANDS] = {1, 1, 1, 1, 1, 1, 1, 1, 1, 2, 2, 2, 2, 3, 3, 4, 4, 5, 5, 6, 7, 8};
static struct ear_band bands[BANDS];
static float *sound;
static size_t samples;
static uint32_t (*currents)[BANDS];
static size_t frames;

/* One clear line, and status 1. */
static void complain(const char *file, const char *what)
{
    fprintf(stderr, "electrodogram: %s: %s\n", file, what);
    exit(1);
}

static void *room_for(size_t count, size_t size)
{
    void *room = calloc(count ? count : 1, size);
    if (room == NULL)
        complain("memory", "there is not enough of it");
    return room;
}

/* Base and saturation level as the ACE strategy has them, 4 and 150 of 256; usual steps. */
static void usual_channels(void)
{
    uint32_t bin = 2;
    for (int i = 0; i < BANDS; bin += bins[i], i++)
        bands[i] = (struct ear_band){bin, bin + bins[i] - 1, 4 / 256.0f, 150 / 256.0f, 100, 200};
}

static void read_channels(const char *file)
{
    FILE *f = fopen(file, "r");
    char line[256], left[2], what[80];
    int i = 0;
    if (f == NULL)
        complain(file, strerror(errno));
    while (fgets(line, sizeof line, f) != NULL && i < BANDS) {
        struct ear_band *k = &bands[i++];
        uint32_t step;
        if (sscanf(line, "%f %f %u %u %1s", &k->b, &k->m, &k->t, &k->c, left) != 4) {
            snprintf(what, sizeof what, "line %d is not b, m, T and C", i);
            complain(file, what);
        }
        if (ear_loudness(k->b, k->m, k->t, k->c, 0, &step) != EAR_OK) {
            snprintf(what, sizeof what, "line %d: 2^-24 <= b, 2 b <= m <= 1 and T <= C <= 255 must hold", i);
            complain(file, what);
        }
    }
    fclose(f);
    if (i < BANDS) {
        snprintf(what, sizeof what, "%d channels, and not 22", i);
        complain(file, what);
    }
}

static uint32_t word(const unsigned char *bytes, int count)
{
    uint32_t value = 0;
    for (int i = count - 1; i >= 0; i--)
        value = value << 8 | bytes[i];
    return value;
}

/* What a format chunk says, held against what this program reads. */
static void judge_format(const char *file, const unsigned char *chunk)
{
    if (word(chunk, 2) != 1 || word(chunk + 14, 2) != 16)
        complain(file, "not 16-bit PCM");
    if (word(chunk + 2, 2) != 1)
        complain(file, "not mono");
    if (word(chunk + 4, 4) != RATE)
        complain(file, "not at 16 kHz");
}

static void read_samples(const char *file, FILE *f, uint32_t bytes)
{
    unsigned char pair[2];
    sound = room_for(bytes / 2, sizeof *sound);
    for (samples = 0; samples < bytes / 2; samples++) {
        if (fread(pair, 1, 2, f) != 2)
            complain(file, "ends before its samples do");
        sound[samples] = (float)(int16_t)word(pair, 2) / 32768;
    }
}

static void read_sound(const char *file)
{
    unsigned char head[12], chunk[8], format[16];
    int known = 0;
    FILE *f = fopen(file, "rb");
    if (f == NULL)
        complain(file, strerror(errno));
    if (fread(head, 1, 12, f) != 12 || memcmp(head, "RIFF", 4) != 0 || memcmp(head + 8, "WAVE", 4) != 0)
        complain(file, "not a WAV file");
    while (sound == NULL) {
        if (fread(chunk, 1, 8, f) != 8)
            complain(file, "ends before its samples");
        uint32_t length = word(chunk + 4, 4);
        if (memcmp(chunk, "data", 4) == 0) {
            if (!known)
                complain(file, "has samples before their format");
            read_samples(file, f, length);
        } else if (memcmp(chunk, "fmt ", 4) == 0 && length >= 16 && fread(format, 1, 16, f) == 16) {
            judge_format(file, format);
            known = fseek(f, (long)(length - 16 + length % 2), SEEK_CUR) == 0;
        } else if (fseek(f, (long)(length + length % 2), SEEK_CUR) != 0) {
            complain(file, "ends before its samples");
        }
    }
    fclose(f);
}

/* The sine of a number of turns, by the library: the same bits on every machine. */
static float wave(double turns)
{
    float y = 0;
    ear_sinpi((float)(2 * (turns - floor(turns))), &y);
    return y;
}

/* Half a second: a chirp from 200 Hz to 7 kHz, and two tones, of which one is soft. */
static void make_sound(void)
{
    samples = RATE / 2;
    sound = room_for(samples, sizeof *sound);
    for (size_t i = 0; i < samples; i++) {
        double t = (double)i / RATE;
        sound[i] = 0.3f * wave(200 * t + 6800 * t * t) + 0.25f * wave(500 * t) + 0.04f * wave(3000 * t);
    }
}

/* Every frame; how far it is, on long ones. */
static void map_sound(const char *file)
{
    float window[FRAME], cosine;
    for (int i = 0; i < FRAME; i++) {
        ear_cospi((float)i / (FRAME / 2), &cosine);
        window[i] = 0.5f - 0.5f * cosine;
    }
    frames = samples < FRAME ? 0 : (samples - FRAME) / STEP + 1;
    currents = room_for(frames, sizeof *currents);
    for (size_t i = 0; i < frames; i++) {
        if (ear_currents(255, sound + i * STEP, FRAME, window, FRAME, bands, 6 * BANDS, currents[i], BANDS) != EAR_OK)
            complain(file, "a frame was refused");
        if (frames > 20000 && i % 10000 == 9999)
            fprintf(stderr, "electrodogram: %zu of %zu frames\n", i + 1, frames);
    }
}

static void print_csv(void)
{
    printf("ms");
    for (int i = 0; i < BANDS; i++)
        printf(",E%d", BANDS - i);
    for (size_t f = 0; f < frames; f++) {
        printf("\n%zu", f);
        for (int i = 0; i < BANDS; i++)
            printf(",%u", (unsigned)currents[f][i]);
    }
    putchar('\n');
}

/* The greatest current of an electrode over the frames that share a column. */
static uint32_t greatest(int band, size_t from, size_t to)
{
    uint32_t most = 0;
    for (size_t f = from; f < to; f++)
        most = currents[f][band] > most ? currents[f][band] : most;
    return most;
}

/* A bar for each pulse above threshold: its height is the current's place between T and C. */
static void draw_electrode(int band, double each, size_t columns)
{
    int foot = ABOVE + ROW * (BANDS - band);
    const struct ear_band *k = &bands[band];
    printf("<path d=\"");
    for (size_t i = 0; i < columns; i++) {
        uint32_t current = greatest(band, (size_t)(i * each), (size_t)((i + 1) * each));
        double height = k->c > k->t && current > k->t ? (ROW - 3.0) * (current - k->t) / (k->c - k->t) : 0;
        if (height > 0)
            printf("M%.2f %dv-%.1f", LEFT + (i + 0.5) * WIDTH / columns, foot, height);
    }
    puts("\"/>");
    printf("<text x=\"%d\" y=\"%d\" text-anchor=\"end\">%d</text>", LEFT - 8, foot - 5, BANDS - band);
    if (band % 3 == 0)
        printf("<text x=\"%d\" y=\"%d\" text-anchor=\"end\" class=\"soft\">%.0f</text>", LEFT - 34, foot - 5,
               (bands[band].lo + bands[band].hi) * 62.5);
    putchar('\n');
}

static void draw_svg(void)
{
    int bottom = ABOVE + ROW * BANDS;
    size_t columns = frames < WIDTH ? frames : WIDTH;
    double each = columns ? (double)frames / columns : 1, seconds = frames / 1000.0;
    double part = seconds > 4 ? 1 : seconds > 0.8 ? 0.2 : 0.1;
    printf("<svg xmlns=\"http://www.w3.org/2000/svg\" viewBox=\"0 0 %d %d\" font-family=\"sans-serif\" font-size=\"12\" fill=\"#222\">\n"
           "<style>path{fill:none;stroke:#1d4f91;stroke-width:%.2f}.grid{stroke:#ddd;stroke-width:1}.soft{fill:#777}</style>\n"
           "<rect width=\"100%%\" height=\"100%%\" fill=\"#fff\"/>\n", LEFT + WIDTH + 24, bottom + 44, columns ? fmax(0.6, 0.7 * WIDTH / columns) : 1);
    printf("<text x=\"%d\" y=\"20\" font-size=\"15\">Electrodogram: %.2f s, a bar for each pulse, from T to C</text>\n", LEFT, seconds);
    printf("<text x=\"%d\" y=\"38\" text-anchor=\"end\">electrode</text><text x=\"%d\" y=\"38\" text-anchor=\"end\" class=\"soft\">Hz</text>\n", LEFT - 8, LEFT - 70);
    for (int i = 0; i <= BANDS; i++)
        printf("<path class=\"grid\" d=\"M%d %dh%d\"/>\n", LEFT, ABOVE + ROW * i, WIDTH);
    for (double at = 0; seconds > 0 && at <= seconds + 1e-9; at += part)
        printf("<path class=\"grid\" d=\"M%.1f %dv%d\"/><text x=\"%.1f\" y=\"%d\" text-anchor=\"middle\">%.1f</text>\n",
               LEFT + WIDTH * at / seconds, ABOVE, ROW * BANDS, LEFT + WIDTH * at / seconds, bottom + 18, at);
    for (int i = 0; i < BANDS; i++)
        draw_electrode(i, each, columns);
    printf("<text x=\"%d\" y=\"%d\" text-anchor=\"middle\">time, s</text>\n</svg>\n", LEFT + WIDTH / 2, bottom + 36);
}

int main(int count, char **words)
{
    const char *file = NULL, *channels = NULL;
    int svg = 0, made = 0, bad = 0;
    for (int i = 1; i < count; i++) {
        if (strcmp(words[i], "--svg") == 0)
            svg = 1;
        else if (strcmp(words[i], "--made") == 0)
            made = 1;
        else if (strcmp(words[i], "--channels") == 0 && i + 1 < count)
            channels = words[++i];
        else if (words[i][0] != '-' && file == NULL)
            file = words[i];
        else
            bad = 1;
    }
    if (bad || made == (file != NULL)) {
        fputs("usage: electrodogram [--svg] [--channels FILE] FILE.wav, or --made in place of the file\n", stderr);
        return 1;
    }
    usual_channels();
    if (channels != NULL)
        read_channels(channels);
    if (made)
        make_sound();
    else
        read_sound(file);
    map_sound(made ? "--made" : file);
    if (svg)
        draw_svg();
    else
        print_csv();
    return 0;
}
