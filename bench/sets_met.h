/* The sets that a comparison meets, counted by sort: the run shows little where one is missing. */
#ifndef BENCH_SETS_MET_H
#define BENCH_SETS_MET_H

#include <stdbool.h>
#include <stdint.h>

#include "match.h"
#include "model.h"

/* Each received frame is of one of the first six sorts, and of any of the others. */
enum set_met {
    HEARD_NO_FILTER,
    HEARD_ONE_FILTER,
    HEARD_MORE_FILTERS,
    OWN_NO_FILTER,
    OWN_ONE_FILTER,
    OWN_MORE_FILTERS,
    WITH_FILTER_0,
    OF_BOTH_BUFFERS = WITH_FILTER_0 + MATCH_FILTERS,
    RXM_11_OF_RXB0,
    RXM_11_OF_RXB1,
    SETS_MET
};

extern const char *const set_met_name[SETS_MET];

/* Counts the set where the record makes the chip receive a frame, heard or its own in
 * Loopback; false where it does not. The outcome is refusal, answer, set; m is the chip
 * after the record, loopback its mode before. */
bool count_set(unsigned long long met[SETS_MET], const struct model *m, bool loopback,
               const uint8_t *record, const uint8_t *outcome);

#endif
