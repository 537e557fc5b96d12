/*
 * The growth function of one channel, as a fitter looks at it: which current
 * step each level of the envelope gets, beside the exact map.
 *
 *   growth [--top N] [--knee LEVEL STEP] [B M T C]         prints it as CSV
 *   growth --svg [--top N] [--knee LEVEL STEP] [B M T C]   draws it
 *
 * B and M are envelope levels from 0 to 1, T and C current steps. N is the
 * stimulator's highest step, 255 where it is not given. With a knee the map is
 * bent at LEVEL, where the current is at STEP. Build:
 * cc -Iinclude examples/growth.c build/libearmath.a -lm
 */
#include <math.h>
#include <stdint.h>
#include <stdio.h>
#include <stdlib.h>
#include <string.h>

#include "earmath.h"

/* Levels of -60 and -10 dB, and of the knee where there is one. */
static float b = 0.001f, m = 0.316227766f, knee;
static uint32_t top = 255, t = 100, c = 200, knee_step;

static uint32_t ask(float a, uint32_t *step)
{
    return knee > 0 ? ear_loudness_knee(top, b, knee, m, t, knee_step, c, a, step)
                    : ear_loudness_top(top, b, m, t, c, a, step);
}

static uint32_t step_at(float a)
{
    uint32_t step = 0;
    ask(a, &step);
    return step;
}

static double decibels(double a)
{
    return 20 * log10(a);
}

static double within(double x, double low, double high)
{
    return x < low ? low : x > high ? high : x;
}

static double straight(double level, float from, uint32_t low, float to, uint32_t high)
{
    double part = (level - decibels(from)) / (decibels(to) - decibels(from));
    return within(low + part * (high - low), low, high);
}

/* The exact map is straight over levels in dB, on either side of a knee, and flat
 * outside b to m. */
static double exact_at_level(double level)
{
    if (knee > 0 && level > decibels(knee))
        return straight(level, knee, knee_step, m, c);
    return knee > 0 ? straight(level, b, t, knee, knee_step) : straight(level, b, t, m, c);
}

static float float_of(uint32_t bits)
{
    float x;
    memcpy(&x, &bits, sizeof x);
    return x;
}

/* The least envelope value that gets `step` or more. Since the steps never fall
 * as the envelope grows, halving finds it among all floats from 0 to 1, whose
 * bit patterns stand in the order of their values. */
static float first_of(uint32_t step)
{
    uint32_t low = 0, high = 0x3f800000;
    while (low < high) {
        uint32_t middle = low + (high - low) / 2;
        if (step_at(float_of(middle)) >= step)
            high = middle;
        else
            low = middle + 1;
    }
    return float_of(low);
}

static float last_of(uint32_t step)
{
    return step == c ? 1 : nextafterf(first_of(step + 1), 0);
}

/* The first and the last envelope value of each step: the whole function. */
static void print_csv(void)
{
    puts("level_dB,envelope,step,exact");
    for (uint32_t step = t; step <= c; step++) {
        float ends[2] = {first_of(step), last_of(step)};
        for (int i = 0; i < 2; i++)
            printf("%.5f,%.9g,%u,%.5f\n", decibels(ends[i]), (double)ends[i], (unsigned)step_at(ends[i]),
                   exact_at_level(decibels(ends[i])));
    }
}

/* A part of the plane in dB and steps, and where it is drawn. */
struct view {
    double left, right, low, high; /* dB, steps */
    double x, y, width, height;    /* of the frame */
};

static double x_of(const struct view *v, double level)
{
    return v->x + v->width * (level - v->left) / (v->right - v->left);
}

static double y_of(const struct view *v, double step)
{
    return v->y + v->height * (v->high - step) / (v->high - v->low);
}

static void frame(const struct view *v, const char *fill)
{
    printf("<rect x=\"%.1f\" y=\"%.1f\" width=\"%.1f\" height=\"%.1f\" fill=\"%s\" stroke=\"#777\"/>\n", v->x, v->y,
           v->width, v->height, fill);
}

static void text(double x, double y, const char *how, const char *words)
{
    printf("<text x=\"%.1f\" y=\"%.1f\" %s>%s</text>\n", x, y, how, words);
}

static void line(double x1, double y1, double x2, double y2, const char *class)
{
    printf("<path class=\"%s\" d=\"M%.1f %.1fL%.1f %.1f\"/>\n", class, x1, y1, x2, y2);
}

/* Grid lines, with their numbers, at multiples of two distances. */
static void grid(const struct view *v, double levels, double steps)
{
    char number[32];
    int digits = levels < 1 ? (int)ceil(-log10(levels) - 1e-9) : 0;
    for (double level = ceil(v->left / levels) * levels; level <= v->right + 1e-9; level += levels) {
        line(x_of(v, level), v->y, x_of(v, level), v->y + v->height, "grid");
        snprintf(number, sizeof number, "%.*f", digits, level + 0.0);
        text(x_of(v, level), v->y + v->height + 16, "text-anchor=\"middle\"", number);
    }
    for (double step = ceil(v->low / steps) * steps; step <= v->high; step += steps) {
        line(v->x, y_of(v, step), v->x + v->width, y_of(v, step), "grid");
        snprintf(number, sizeof number, "%.0f", step + 0.0);
        text(v->x - 7, y_of(v, step) + 4, "text-anchor=\"end\"", number);
    }
}

static void draw_exact(const struct view *v)
{
    float bends[3] = {b, knee > 0 ? knee : m, m};
    printf("<path class=\"exact\" d=\"M%.2f %.2f", x_of(v, v->left), y_of(v, exact_at_level(v->left)));
    for (int i = 0; i < 3; i++) {
        double level = within(decibels(bends[i]), v->left, v->right);
        if (i < 2 || knee > 0)
            printf("L%.2f %.2f", x_of(v, level), y_of(v, exact_at_level(level)));
    }
    printf("L%.2f %.2f\"/>\n", x_of(v, v->right), y_of(v, exact_at_level(v->right)));
}

static void draw_steps(const struct view *v)
{
    char start = 'M';
    printf("<path class=\"steps\" d=\"");
    for (uint32_t step = t; step <= c; step++) {
        double from = decibels(first_of(step)), to = decibels(last_of(step));
        if (to < v->left || from > v->right)
            continue;
        printf("%c%.2f %.2fH%.2f", start, x_of(v, within(from, v->left, v->right)), y_of(v, step),
               x_of(v, within(to, v->left, v->right)));
        start = 'L';
    }
    puts("\"/>");
}

/* The ends of the slope: b and m at the axis, T and C at the level parts. */
static void mark_ends(const struct view *v)
{
    char words[32];
    double x = x_of(v, decibels(b)), bottom = v->y + v->height;
    line(x, y_of(v, t), x, bottom, "mark");
    text(x + 6, bottom - 8, "class=\"name\"", "b");
    snprintf(words, sizeof words, "T = %u", (unsigned)t);
    text(x - 10, y_of(v, t) - 8, "text-anchor=\"end\" class=\"name\"", words);
    x = x_of(v, decibels(m));
    line(x, y_of(v, c), x, bottom, "mark");
    text(x - 6, bottom - 8, "text-anchor=\"end\" class=\"name\"", "m");
    snprintf(words, sizeof words, "C = %u", (unsigned)c);
    text(v->x + v->width - 8, y_of(v, c) - 8, "text-anchor=\"end\" class=\"name\"", words);
    if (knee > 0) {
        x = x_of(v, decibels(knee));
        line(x, y_of(v, knee_step), x, bottom, "mark");
        text(x + 6, bottom - 8, "class=\"name\"", "k");
        snprintf(words, sizeof words, "K = %u", (unsigned)knee_step);
        text(x - 30, y_of(v, knee_step) - 6, "text-anchor=\"end\" class=\"name\"", words);
    }
}

/* A power of ten times 1, 2 or 5, so that some `parts` of them make up `length`. */
static double round_part(double length, double parts)
{
    double unit = pow(10, floor(log10(length / parts))), times = length / parts / unit;
    return unit * (times < 1.5 ? 1 : times < 3.5 ? 2 : times < 7.5 ? 5 : 10);
}

/* Where there is room for a second picture: right of the slope, or left of it. */
static struct view free_panel(const struct view *whole)
{
    struct view panel = {0, 0, 0, 0, 506, 262, 244, 190};
    double level = whole->left + (whole->right - whole->left) * (panel.x - whole->x) / whole->width;
    if (y_of(whole, exact_at_level(level)) > panel.y - 10) {
        panel.x = 82;
        panel.y = 114;
    }
    return panel;
}

/* Some steps around the middle, or around the knee, so large that each is seen. */
static void draw_magnified(const struct view *whole)
{
    double each = (decibels(m) - decibels(b)) / (c - t), middle = floor((t + c) / 2.0);
    double level = decibels(b) + (middle - t) * each;
    if (knee > 0) {
        middle = knee_step;
        level = decibels(knee);
        each = fmin((level - decibels(b)) / (knee_step - t), (decibels(m) - level) / (c - knee_step));
    }
    struct view panel = free_panel(whole);
    struct view v = {level - 3.3 * each, level + 3.3 * each, middle - 3.3, middle + 3.3,
                     panel.x + 42,       panel.y + 14,       panel.width - 54, panel.height - 40};
    double x1 = x_of(whole, v.left), x2 = x_of(whole, v.right), y1 = y_of(whole, v.high), y2 = y_of(whole, v.low);
    double near = panel.x > x2 ? panel.x : panel.x + panel.width, from = panel.x > x2 ? x2 : x1;
    struct view lens = {0, 0, 0, 0, x1, y1, x2 - x1, y2 - y1};
    frame(&lens, "none");
    line(from, y1, near, panel.y, "lens");
    line(from, y2, near, panel.y + panel.height, "lens");
    frame(&panel, "#fff");
    grid(&v, round_part(v.right - v.left, 4), 1);
    frame(&v, "none");
    draw_steps(&v);
    draw_exact(&v);
}

static void draw_legend(void)
{
    const char *words = knee > 0 ? "the step that ear_loudness_knee gives" : "the step that ear_loudness_top gives";
    int plain = knee == 0 && top == 255;
    struct view box = {0, 0, 0, 0, 82, 52, plain ? 274 : 312, 50};
    frame(&box, "#fff");
    line(94, 68, 120, 68, "steps");
    text(128, 72, "", plain ? "the step that ear_loudness gives" : words);
    line(94, 88, 120, 88, "exact");
    text(128, 92, "", "the exact map");
}

static const char head[] =
    "<svg xmlns=\"http://www.w3.org/2000/svg\" viewBox=\"0 0 780 540\" width=\"780\" height=\"540\" "
    "font-family=\"sans-serif\" font-size=\"13\" fill=\"#222\">\n"
    "<style>path{fill:none}.grid{stroke:#ddd}.mark{stroke:#777;stroke-dasharray:4 4}.lens{stroke:#777}"
    ".steps{stroke:#5aa0e6;stroke-width:3.4}.exact{stroke:#b3261e;stroke-width:1.3}.name{font-style:italic}</style>\n"
    "<rect width=\"780\" height=\"540\" fill=\"#fff\"/>\n";

static void draw_svg(void)
{
    char words[160];
    double room = (c - t) * 0.06 + 1;
    struct view v = {floor((1.1 * decibels(b) - 2) / 10) * 10, 0, t - room, c + room, 70, 40, 690, 440};
    fputs(head, stdout);
    if (knee > 0)
        snprintf(words, sizeof words, "Growth with a knee: b = %.4g (%.1f dB), k = %.4g (%.1f dB), m = %.4g (%.1f dB)",
                 (double)b, decibels(b), (double)knee, decibels(knee), (double)m, decibels(m));
    else
        snprintf(words, sizeof words, "Growth of the current: b = %.4g (%.1f dB), m = %.4g (%.1f dB), T = %u, C = %u",
                 (double)b, decibels(b), (double)m, decibels(m), (unsigned)t, (unsigned)c);
    text(v.x, 26, "font-size=\"15\"", words);
    grid(&v, round_part(v.right - v.left, 8), c == t ? 1 : ceil(round_part(v.high - v.low, 8)));
    frame(&v, "none");
    mark_ends(&v);
    draw_steps(&v);
    draw_exact(&v);
    if (c - t >= 20)
        draw_magnified(&v);
    draw_legend();
    text(v.x + v.width / 2, 526, "text-anchor=\"middle\"", "envelope level, dB re full scale");
    text(-(v.y + v.height / 2), 20, "text-anchor=\"middle\" transform=\"rotate(-90)\"", "current step");
    puts("</svg>");
}

/* A number that fills the whole argument. */
static int read_float(const char *words, float *to)
{
    char *end;
    *to = strtof(words, &end);
    return end != words && *end == '\0';
}

static int read_step(const char *words, uint32_t *to)
{
    char *end;
    unsigned long step = strtoul(words, &end, 10);
    *to = step > UINT32_MAX ? UINT32_MAX : (uint32_t)step;
    return end != words && *end == '\0' && *words != '-';
}

static int read_channel(char **words)
{
    return read_float(words[0], &b) && read_float(words[1], &m) && read_step(words[2], &t) && read_step(words[3], &c);
}

/* The options, and after them a whole channel or none. */
static int read_words(char **words, int *svg)
{
    int count = 0;
    for (; *words != NULL && strncmp(*words, "--", 2) == 0; words++) {
        if (strcmp(*words, "--svg") == 0)
            *svg = 1;
        else if (strcmp(*words, "--top") == 0 && words[1] != NULL && read_step(words[1], &top))
            words++;
        else if (strcmp(*words, "--knee") == 0 && words[1] != NULL && words[2] != NULL && read_float(words[1], &knee) &&
                 knee > 0 && read_step(words[2], &knee_step))
            words += 2;
        else
            return 0;
    }
    while (words[count] != NULL)
        count++;
    return count == 0 || (count == 4 && read_channel(words));
}

int main(int count, char **words)
{
    uint32_t step;
    int svg = 0;
    if (!read_words(words + (count > 0), &svg)) {
        fputs("usage: growth [--svg] [--top N] [--knee LEVEL STEP] [B M T C], such as 0.001 0.316 100 200\n", stderr);
        return 2;
    }
    if (ask(0.0f, &step) != EAR_OK) {
        fprintf(stderr, "This channel is refused: 2^-24 <= B, %s <= 1 and %s <= %u must hold.\n",
                knee > 0 ? "2 B <= LEVEL, 2 LEVEL <= M" : "2 B <= M", knee > 0 ? "T <= STEP <= C" : "T <= C",
                (unsigned)(top < 1023 ? top : 1023));
        return 1;
    }
    if (svg)
        draw_svg();
    else
        print_csv();
    return 0;
}
