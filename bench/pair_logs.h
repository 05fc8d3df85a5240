/* Random pairs of logs: alike, almost alike, and not at all. */
#ifndef BENCH_PAIR_LOGS_H
#define BENCH_PAIR_LOGS_H

#include <stddef.h>
#include <stdint.h>

#include "differences.h"
#include "model.h"

enum pair_sort {
    PAIR_SAME_BYTES, /* one log as both */
    PAIR_TAIL,       /* a log and its own end, in the same bytes */
    PAIR_EQUAL,
    PAIR_ONE_BYTE, /* of one record */
    PAIR_SILENT,   /* one byte that no answer shows */
    PAIR_FILTER,   /* one byte that is written to a filter or mask of RXB1 */
    PAIR_PIN,      /* level or number of one request pin */
    PAIR_SPEAKER,  /* who speaks in one select or exchange */
    PAIR_SESSION,  /* who speaks in one session, both selects and all exchanges */
    PAIR_INSERTED, /* a few records more in one */
    PAIR_REMOVED,
    PAIR_CUT, /* one is the start of the other, or has a byte changed there */
    PAIR_UNRELATED,
    PAIR_PARTED, /* alike up to a place, each by itself from there */
    PAIR_DAMAGED,
    PAIR_SORTS
};

extern const char *const pair_sort_name[PAIR_SORTS];

/* What is wrong with the length of a log. */
enum pair_length { LENGTH_SOUND, LENGTH_RAGGED, LENGTH_TOO_LONG, LENGTH_BOTH, LENGTHS };

/* Block sizes that a program might work in. */
enum { BLOCKS = 6, BLOCK_SMALLEST = 16 };

/* The longest log, too long and ragged; it may start anywhere in a log that is sound. */
enum {
    PAIR_LONGEST = (LOG_RECORDS_MAX + 4) * RECORD_BYTES,
    PAIR_BUFFER = PAIR_LONGEST + LOG_RECORDS_MAX * RECORD_BYTES
};

struct log_pair {
    uint8_t *buffer[2];
    struct log_part first, second; /* each in one of the buffers, or both in the same */
};

struct log_pair pair_new(uint64_t seed);
void pair_free(struct log_pair *p);

/* A number of records, often next to a multiple of a block size. */
size_t pair_records(uint64_t *dice);

/* Fills the pair. The logs have about this many records, at most LOG_RECORDS_MAX. */
void pair_fill(struct log_pair *p, enum pair_sort sort, size_t records, uint64_t *dice);

/* Gives the log a length with this fault, by bytes of its buffer that come after it. */
void pair_spoil(struct log_part *log, enum pair_length fault, uint64_t *dice);

#endif
