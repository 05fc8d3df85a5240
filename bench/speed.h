/* Shared by the parts of the speed test. */
#ifndef BENCH_SPEED_H
#define BENCH_SPEED_H

#include <stdbool.h>
#include <stddef.h>
#include <stdint.h>

#include "model.h"

enum { MOST = LOG_RECORDS_MAX, SEED = 2515, GOES = 15, PASSES = 5 };

/* Seconds from some moment on. */
double now(void);

/* Fills a log and returns what its time is divided by: all records, or of late,
 * last and first the frames, which then bear the time of the other records. */
typedef size_t make_log(uint64_t seed, uint8_t *log, size_t records);

/* speed_pairs.c: times mcp2515_compare_logs on pairs of such logs, in parts of their runs.
 * False if a ratio is over its limit. */
bool time_pairs(const char *name, make_log *make);

/* The same for records of random bytes, without a limit. */
void time_noise_pairs(void);

void print_pairs_head(void);

/* speed_timing.c: times mcp2515_plan_timing beside the model. False if a plan is over its
 * limit. */
bool time_plans(void);

/* speed_loader.c: times a load beside the model. False if one is over its limit. */
bool time_loads(void);

#endif
