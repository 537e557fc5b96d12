/*
 * Answers of the functions, for two machines to be compared: built for the host and
 * for the chip, where the words come from the emulator.
 *
 *   sweep hashes FUNCTION MODE KIND SIZE FROM TO   a line for each block from FROM to TO - 1: its size, its answers' sum
 *   sweep answers FUNCTION MODE KIND SIZE BLOCK    a line for each pattern of a block
 *   sweep names                                    a line for each function: name, share of the patterns, steady or not
 *
 * FUNCTION is a name, `all`, or `steady` for those that do not compute with floats.
 * MODE is what the chip's FPSCR is to hold, in hexadecimal; the host is in its usual
 * state whatever MODE says. KIND is `spread`, with SIZE patterns drawn in a block, or
 * `run`, with SIZE patterns in a row. Status 1 if a call broke what ask() holds it to.
 */
#include <inttypes.h>
#include <stdio.h>
#include <stdlib.h>
#include <string.h>

#include "answers.h"

static struct answer answer;
static uint32_t seen; /* the codes, a bit for each */
static int broken;

struct questions {
    bool spread;
    uint32_t size;
};

#ifdef __arm__
enum { MOST_WORDS = 16, MODES = 0x07c00000 };

static void set_mode(uint32_t mode)
{
    __asm__ volatile("vmsr fpscr, %0" : : "r"(mode));
}

static uint32_t mode_now(void)
{
    uint32_t mode;
    __asm__ volatile("vmrs %0, fpscr" : "=r"(mode));
    return mode & MODES;
}

/* The words that the emulator was given, by semihosting's SYS_GET_CMDLINE. */
static int words_of(char **words)
{
    static char line[512];
    struct {
        char *line;
        uint32_t size;
    } block = {line, sizeof line};
    register uint32_t operation __asm__("r0") = 0x15;
    register void *parameter __asm__("r1") = &block;
    __asm__ volatile("bkpt 0xab" : "+r"(operation) : "r"(parameter) : "memory");
    int count = 0;
    for (char *word = strtok(line, " "); word != NULL && count < MOST_WORDS; word = strtok(NULL, " "))
        words[count++] = word;
    return count;
}
#else
static void set_mode(uint32_t mode)
{
    (void)mode;
}
#endif

static uint32_t size_of(const struct asked *f, struct questions q, uint32_t block)
{
    return q.spread ? spread_size(f, block, q.size) : q.size;
}

static uint32_t pattern_of(struct questions q, uint32_t block, uint32_t i)
{
    return q.spread ? spread_pattern(block, i) : block * q.size + i;
}

static void judged_ask(const struct asked *f, uint32_t pattern)
{
    if (!ask(f, pattern, &answer)) {
        printf("%s broke its promise: at %08" PRIx32 " it wrote where it may not, or its code %" PRIu32 " is none of its own\n",
               f->name, pattern, answer.code);
        broken = 1;
    }
    seen |= 1u << answer.code % 32;
}

static void hash_block(const struct asked *f, uint32_t mode, struct questions q, uint32_t block)
{
    uint32_t sum = 1, size = size_of(f, q, block);
    set_mode(mode);
    for (uint32_t i = 0; i < size; i++) {
        judged_ask(f, pattern_of(q, block, i));
        sum = mixed(sum, &answer);
    }
#ifdef __arm__
    if (mode_now() != mode) {
        printf("%s broke its promise: it changed the float unit's state\n", f->name);
        broken = 1;
    }
#endif
    set_mode(0);
    printf("%s %" PRIu32 " %" PRIu32 " %08" PRIx32 "\n", f->name, block, size, sum);
}

/* Blocks, and over a whole spread also whether every code of the function was seen. */
static void hashes(const struct asked *f, uint32_t mode, struct questions q, uint32_t from, uint32_t to)
{
    seen = 0;
    for (uint32_t block = from; block < to; block++)
        hash_block(f, mode, q, block);
    if (q.spread && from == 0 && to == SPREAD_BLOCKS && seen != f->codes) {
        printf("%s broke its promise: its codes are %02" PRIx32 " and not %02" PRIx32 "\n", f->name, seen, f->codes);
        broken = 1;
    }
    fflush(stdout);
}

static void answers(const struct asked *f, uint32_t mode, struct questions q, uint32_t block)
{
    uint32_t size = size_of(f, q, block);
    for (uint32_t i = 0; i < size; i++) {
        uint32_t pattern = pattern_of(q, block, i);
        set_mode(mode);
        judged_ask(f, pattern);
        set_mode(0);
        printf("%s %08" PRIx32 " code %" PRIu32 " places %08" PRIx32 " sum %08" PRIx32 "\n", f->name, pattern, answer.code,
               answer.after[GUARD].bits, mixed(1, &answer));
    }
}

static bool is_meant(const struct asked *f, const char *name)
{
    return strcmp(name, "all") == 0 || (strcmp(name, "steady") == 0 && !f->rounds) || strcmp(name, f->name) == 0;
}

static int names(void)
{
    for (int i = 0; i < function_count; i++)
        printf("%s %" PRIu32 " %s\n", every_function[i].name, every_function[i].share, every_function[i].rounds ? "rounds" : "steady");
    return 0;
}

static uint32_t number(const char *word, int base)
{
    return (uint32_t)strtoul(word, NULL, base);
}

static int sweep(int count, char **words)
{
    if (count < 7)
        return names();
    uint32_t mode = number(words[3], 16), from = number(words[6], 10);
    struct questions q = {strcmp(words[4], "spread") == 0, number(words[5], 10)};
    for (int i = 0; i < function_count; i++) {
        if (!is_meant(&every_function[i], words[2]))
            continue;
        if (count > 7)
            hashes(&every_function[i], mode, q, from, number(words[7], 10));
        else
            answers(&every_function[i], mode, q, from);
    }
    return broken;
}

#ifdef __arm__
int main(void)
{
    char *words[MOST_WORDS];
    return sweep(words_of(words), words);
}
#else
int main(int count, char **words)
{
    return sweep(count, words);
}
#endif
