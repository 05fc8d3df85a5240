/*
 * Buffers to lend to a call: guard bytes stand before them, and they end at
 * memory without access, so that a read or a write past the end is a crash.
 */
#ifndef BENCH_FENCE_H
#define BENCH_FENCE_H

#include <stdbool.h>
#include <stddef.h>
#include <stdint.h>

enum { FENCE_FILL = 0xA5 };

struct fence {
    uint8_t *end; /* first byte without access */
    size_t most;
};

struct fence fence_new(size_t most);

/* The last length bytes before the fence, filled like the guard before them. */
uint8_t *fence_lend(const struct fence *f, size_t length);

/* The guard before a buffer of this length stands. */
bool fence_intact(const struct fence *f, size_t length);

/* All of these bytes are still as fence_lend left them. */
bool fence_filled(const uint8_t *bytes, size_t length);

#endif
