/* Shared by the two halves of the live comparison. */
#ifndef BENCH_LIVE_H
#define BENCH_LIVE_H

#include <stddef.h>
#include <stdint.h>

#include "fence.h"
#include "mcp2515.h"
#include "model.h"

enum live_call {
    CALL_RUN_LOG,
    CALL_POWER_ON,
    CALL_STEP,
    CALL_STEP_SET,
    CALL_RUN_FROM,
    CALL_HOLD,
    CALL_READ,
    CALL_INT_IS_LOW,
    CALL_RENDER,
    CALL_PART_REFUSAL,
    CALLS
};

/* From this place on no call but power-on changes a byte of a chip. */
enum { SPARE_FROM = 150 };

/* What every call lends; filled anew by each lend. */
extern struct fence chip_fence, in_fence, out_fence;

/* The two calls for one record, which differ in the bytes that they answer. */
struct step_call {
    enum live_call call;
    int64_t (*run)(uint8_t *chip, size_t chip_len, const uint8_t *record, size_t record_len,
                   uint8_t *answer, size_t answer_len);
    size_t answer_size;
};

enum { STEP_CALLS = 2 };
extern const struct step_call step_calls[STEP_CALLS];

/* Prints what differs, with the seed, and ends with status 1. */
_Noreturn void live_stop(const char *what);

/* Compares a result with the one demanded and counts it by call and refusal. */
void live_result(enum live_call call, int64_t want, int64_t got);

/* live_edges.c: each call at the edges of its lengths, in the order of its refusals. */
void check_edges(void);

#endif
