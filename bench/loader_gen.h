/* Random loads: chips to load into, profiles, and events for the gaps. */
#ifndef BENCH_LOADER_GEN_H
#define BENCH_LOADER_GEN_H

#include <stddef.h>
#include <stdint.h>

#include "gen.h"
#include "loader.h"

enum { LOAD_ENTRIES_MOST = 48, LOAD_LOG_MOST = 300 };

struct load {
    uint8_t profile[PROFILE_BYTES];
    uint8_t events[ENTRY_BYTES * LOAD_ENTRIES_MOST];
    size_t events_len;
};

/* Mostly a sound profile, and events that do something to this chip. */
void load_draw(struct load *l, const struct model *chip, uint64_t *dice);

/*
 * Records that take the generator's chip on, at most LOAD_LOG_MOST; returns how many.
 * Mostly they end with select high, in a mode that can be loaded, now and then with
 * a message that waits or flies.
 */
size_t load_draw_log(struct gen *g, uint64_t *dice, uint8_t *log);

/* Changes the 152 bytes of a chip, a few or all of them: no run may reach it. */
void load_draw_chip(uint8_t *bytes, uint64_t *dice);

#endif
