/* The records of request pins that a comparison meets, counted by sort: the run shows little
 * where one is missing. */
#ifndef BENCH_PINS_MET_H
#define BENCH_PINS_MET_H

#include <stdint.h>

#include "model.h"

/* Each is of one of the first seven sorts; one that requests is of any of the others too. */
enum pin_met {
    PIN_REFUSED,
    PIN_RISES,
    PIN_REPEATS,
    PIN_NOT_ENABLED,  /* it falls */
    PIN_UNDER_ABAT,   /* enabled, it falls */
    PIN_OVER_REQUEST, /* the same, TXREQ is set already */
    PIN_REQUESTS,
    PIN_CLEARS_FLAGS,
    PIN_IN_FLIGHT,
    PIN_IN_SESSION,
    PIN_IN_LOAD,
    PIN_IN_MODE_0,
    PINS_MET = PIN_IN_MODE_0 + MODES
};

extern const char *const pin_met_name[PINS_MET];

/* Counts a record of kind 8 by the chip before it; nothing for another kind. */
void count_pin(unsigned long long met[PINS_MET], const struct model *before, const uint8_t *record,
               uint8_t refusal);

#endif
