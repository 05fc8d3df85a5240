/*
 * Oscillators and bit rates to plan for: those of boards, random ones, and
 * random ones that are aimed at where a plan is decided by little.
 */
#ifndef BENCH_TIMING_TARGETS_H
#define BENCH_TIMING_TARGETS_H

#include <stdint.h>

struct target {
    uint32_t oscillator, rate;
};

/* Nine oscillators with fourteen rates each. */
enum { TARGETS_OF_BOARDS = 9 * 14 };
struct target target_of_board(unsigned i);

enum target_sort {
    TARGET_ANY,          /* any oscillator, any rate; mostly there is no setting */
    TARGET_SLOW,         /* any oscillator, a rate with many settings near it */
    TARGET_EXACT,        /* a setting has difference 0 */
    TARGET_NEAR,         /* a setting has a small one */
    TARGET_TWO_BRPS,     /* two BRPs, one above and one below by the same size */
    TARGET_TWO_QUANTA,   /* mostly: two numbers of quanta of a BRP do so */
    TARGET_AT_LIMIT,     /* the smallest size x 1,000 is the oscillator */
    TARGET_WITHIN_LIMIT, /* it is one less */
    TARGET_BEYOND_LIMIT, /* it is one more */
    TARGET_SORTS
};

/* None of them is refused. */
struct target target_new(enum target_sort sort, uint64_t *dice);

#endif
