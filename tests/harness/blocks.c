#include "blocks.h"

#include <pthread.h>
#include <stdatomic.h>
#include <stdbool.h>
#include <stdio.h>
#include <unistd.h>

struct crew {
    const char *name;
    void (*work)(void *share, uint32_t from);
    atomic_uint next, done;
};

struct hand {
    struct crew *crew;
    void *share;
};

int threads(void)
{
    long processors = sysconf(_SC_NPROCESSORS_ONLN);
    return processors < 1 ? 1 : processors > MOST_THREADS ? MOST_THREADS : (int)processors;
}

/* One line that is written over on a terminal, and ten lines in a log. */
static void progress(const char *name, unsigned done)
{
    bool terminal = isatty(STDERR_FILENO);
    if (done % (terminal ? BLOCKS / 64 : BLOCKS / 8) == 0)
        fprintf(stderr, "%s%s: %u %% of all patterns done%s", terminal ? "\r" : "", name, done * 100 / BLOCKS,
                terminal && done < BLOCKS ? "" : "\n");
}

static void *sweep(void *argument)
{
    struct hand *hand = argument;
    struct crew *crew = hand->crew;
    for (unsigned block; (block = atomic_fetch_add(&crew->next, 1)) < BLOCKS;) {
        crew->work(hand->share, block * BLOCK);
        progress(crew->name, atomic_fetch_add(&crew->done, 1) + 1);
    }
    return NULL;
}

/* Where a thread cannot be had, the others do its work. */
void all_blocks(const char *name, void (*work)(void *share, uint32_t from), void *shares, size_t size)
{
    struct crew crew = {.name = name, .work = work};
    struct hand hands[MOST_THREADS];
    pthread_t ids[MOST_THREADS];
    int helpers = 0;
    for (; helpers < threads() - 1; helpers++) {
        hands[helpers] = (struct hand){&crew, (char *)shares + (size_t)(helpers + 1) * size};
        if (pthread_create(&ids[helpers], NULL, sweep, &hands[helpers]) != 0)
            break;
    }
    sweep(&(struct hand){&crew, shares});
    for (int i = 0; i < helpers; i++)
        pthread_join(ids[i], NULL);
}
