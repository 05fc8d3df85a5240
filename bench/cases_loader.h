/*
 * Fixed cases of the profile loader, worked out by hand from the rules: a chip is
 * run, loaded and looked at. The model and the proved calls get the same ones.
 */
#ifndef BENCH_CASES_LOADER_H
#define BENCH_CASES_LOADER_H

#include <stddef.h>
#include <stdint.h>

#include "loader.h"
#include "script.h"

/* One chip and the loader, by either of the two. */
struct loader_side {
    void (*power_on)(void);
    void (*make)(const uint8_t *bytes); /* a chip of the 152 bytes of include/mcp2515.h */
    void (*step)(const uint8_t record[RECORD_BYTES], uint8_t *refusal, uint8_t *answer);
    int64_t (*load)(const uint8_t *profile, size_t profile_len, const uint8_t *events,
                    size_t events_len);
    int64_t (*records)(const uint8_t *profile, size_t profile_len, const uint8_t *events,
                       size_t events_len, uint8_t *records, size_t records_len);
    void (*look)(struct model *chip);
    uint8_t (*hold)(uint8_t address);
    void (*fail)(const char *file, int line, const char *what, long long want, long long got);
};

/* Goes through every case and hands what is not as it should be to fail; returns how many there
 * are. */
size_t loader_cases(const struct loader_side *side);

#endif
