/* All 2^32 patterns in the order of their values, in blocks that the threads
 * draw from a common counter. */
#ifndef BLOCKS_H
#define BLOCKS_H

#include <stddef.h>
#include <stdint.h>

enum { BLOCKS = 4096, BLOCK = 1 << 20, MOST_THREADS = 64 };

/* One thread for each processor, at most MOST_THREADS. */
int threads(void);

/* Runs work(share, from) for the first place `from` of every block. A share
 * belongs to one thread: there are threads() of them, each of `size` bytes. */
void all_blocks(const char *name, void (*work)(void *share, uint32_t from), void *shares, size_t size);

#endif
