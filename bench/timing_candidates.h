/*
 * What a plan chooses between, told once more in another form than the
 * model's: every BRP with every number of quanta, and the lowest bytes for these
 * by arithmetic. Tests can ask by it how near a choice was.
 */
#ifndef BENCH_TIMING_CANDIDATES_H
#define BENCH_TIMING_CANDIDATES_H

#include <stdbool.h>
#include <stdint.h>

#include "timing.h"

enum { CANDIDATE_BRPS = 64, CANDIDATE_QUANTA_LEAST = 8, CANDIDATE_QUANTA_MOST = 25 };

/* Those with the smallest size of the difference. */
struct candidates {
    int64_t size;
    unsigned brp, quanta; /* of the one taken: the lowest BRP, of this the fewest quanta */
    unsigned brps;        /* how many have it */
    bool above, below;    /* zero, by one or another of them */
    bool of_one_brp;      /* two numbers of quanta of a BRP are among them */
};

struct candidates candidates_of(uint32_t oscillator, uint32_t rate);

/* A plan is made exactly where the size x 1,000 is not above the oscillator. */
bool candidates_none(const struct candidates *r, uint32_t oscillator);

/* The lowest CNF1, CNF2, CNF3 of a sound setting with this BRP and these quanta. */
void candidates_bytes(unsigned brp, unsigned quanta, uint8_t cnf[TIMING_BYTES]);

#endif
