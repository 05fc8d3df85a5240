/*
 * Fixed cases of bit timing with answers worked out by hand from the rules.
 * They are handed over one by one, so that the model and the proved calls answer
 * the same ones.
 */
#ifndef BENCH_CASES_TIMING_H
#define BENCH_CASES_TIMING_H

#include <stddef.h>
#include <stdint.h>

#include "timing.h"

/* Sound exactly where there is no fault. */
struct faults_case {
    const char *name;
    uint8_t cnf[TIMING_BYTES];
    unsigned faults;
};

struct difference_case {
    const char *name;
    uint32_t oscillator, rate;
    uint8_t cnf[TIMING_BYTES];
    int64_t difference;
};

/* The bytes count where the result is 3. */
struct plan_case {
    const char *name;
    uint32_t oscillator, rate;
    size_t room;
    int64_t result;
    uint8_t cnf[TIMING_BYTES];
};

struct timing_checks {
    void (*faults)(const struct faults_case *c);
    void (*difference)(const struct difference_case *c);
    void (*plan)(const struct plan_case *c);
};

/* Hands every case to its check; returns how many there are. */
size_t timing_cases(const struct timing_checks *checks);

#endif
