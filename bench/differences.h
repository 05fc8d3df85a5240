/*
 * Two logs side by side, each run from power-on by a chip of its own: the
 * second implementation, over the second model.
 */
#ifndef BENCH_DIFFERENCES_H
#define BENCH_DIFFERENCES_H

#include <stddef.h>
#include <stdint.h>

enum { ENTRY_BYTES = 10 };

/* A part of a log, where that log lies. */
struct log_part {
    const uint8_t *bytes;
    size_t length;
};

/*
 * An entry for each record number, from 1, at which the record's bytes, its
 * refusal, its answer or its set differ, as far as both logs go. It is the number
 * in four bytes, high byte first, then refusal and answer in the first log, then
 * in the second, then the set in the first and in the second. The number of
 * entries is returned and no byte past them changes.
 *
 * Minus 6 or 8 for the first log, then for the second, then minus 7 if the
 * room is too short for all entries; then no byte of entries changes.
 *
 * leftover becomes what the longer log has past the length of the other. With
 * equal lengths, and refused, it is the empty part at the end of the first.
 */
int64_t model_compare_logs(const uint8_t *first, size_t first_len, const uint8_t *second,
                           size_t second_len, uint8_t *entries, size_t entries_len,
                           struct log_part *leftover);

#endif
