/*
 * The profile loader, second model: filters, masks and receive modes brought into
 * the chip of model.h by SPI, as the controller, with bus events between the
 * commands. Written from the rules alone.
 */
#ifndef BENCH_LOADER_H
#define BENCH_LOADER_H

#include <stddef.h>
#include <stdint.h>

#include "model.h"

/* A profile: filters 0 to 5, masks 0 and 1, RXB0CTRL, RXB1CTRL. */
enum { PROFILE_BYTES = 34, PROFILE_MASKS = 24, PROFILE_RXB0CTRL = 32, PROFILE_RXB1CTRL = 33 };

/* An entry of events: after how many commands in four bytes, high first; then the record. */
enum { ENTRY_BYTES = 20, ENTRY_PLACE_BYTES = 4 };

/* What the loader itself sends. */
enum { COMMANDS_WAITING = 3, COMMANDS_IN = 71, RECORDS_WAITING = 17, RECORDS_IN = 357 };

enum { LOAD_WAITING = 0, LOAD_IN = 1 };

/* Refusals of a load, beside 1 and 6; the last for records without room. */
enum { REFUSED_PROFILE = 10, REFUSED_MODE = 11, REFUSED_RECORDS_ROOM = 19 };

/* The register of byte i of a profile, and its bits that a profile may set. */
uint8_t loader_address(unsigned i);
uint8_t loader_writable(unsigned i);

/*
 * LOAD_IN or LOAD_WAITING; else minus 6 for a profile that is not 34 bytes or events
 * that are no whole entries, minus 1 while select is low, minus 10 for a profile
 * with other bits set, minus 11 in Sleep and Loopback, asked in this order. The
 * chip stays as it was then.
 */
int64_t loader_load(struct model *chip, const uint8_t *profile, size_t profile_len,
                    const uint8_t *events, size_t events_len);

/*
 * The records of that run, with the events as they came, and how many; the chip
 * stays. The same refusals, and last minus 19 where they have no room; no byte is
 * written then.
 */
int64_t loader_records(const struct model *chip, const uint8_t *profile, size_t profile_len,
                       const uint8_t *events, size_t events_len, uint8_t *records,
                       size_t records_len);

#endif
