/*
 * Random logs. The generator follows the chip with the model so that its
 * choices lead somewhere: it sets filters that match, fills and empties
 * buffers, fails frames until bus-off, falls asleep and wakes. The same seed
 * gives the same log.
 */
#ifndef BENCH_GEN_H
#define BENCH_GEN_H

#include <stdbool.h>
#include <stddef.h>
#include <stdint.h>

#include "model.h"

enum gen_profile {
    GEN_MIXED, /* a new mix of habits every few hundred records */
    GEN_QUIET, /* few frames, many reads */
    GEN_BUSY,  /* mostly frames */
    GEN_PROFILES
};

/* Chances of 256, unless said otherwise. */
struct gen_mix {
    uint8_t event_outside; /* an event rather than a session */
    uint8_t event_inside;  /* an event before the next exchange */
    uint8_t bad;           /* a record that is or may be refused */
    uint8_t cut;           /* select high before the session's end */
    uint8_t overlong;      /* one byte more, asked again after each */
    uint8_t failure;       /* an own frame fails; a receive error comes */
    uint8_t favoured;      /* the mode that is mostly asked for */
    uint8_t mode_changes;  /* weight of mode changes among the sessions */
    uint8_t pins;          /* a request pin rather than any other record */
    uint8_t panel;         /* the panel selects rather than the controller */
    uint8_t cut_in;        /* the other speaks, or one speaks at the wrong time */
};

struct gen {
    uint64_t state;
    enum gen_profile profile;
    bool alone; /* no panel: the log is the one that there was before it */
    struct gen_mix mix;
    unsigned mix_left; /* records until the next mix */
    struct model chip;
    uint8_t plan[160]; /* bytes of the present session */
    unsigned planned;
    unsigned sent;
    uint8_t changed; /* address written last, worth a look */
    uint8_t loaded;  /* TX buffers (bit 0 is TXB0) with a message not yet asked to go */
    unsigned looks;  /* sessions yet to look at what RESET left */
};

/* The bare random numbers (splitmix64). */
uint64_t gen_next(uint64_t *state);

void gen_start(struct gen *g, enum gen_profile profile, uint64_t seed);
void gen_record(struct gen *g, uint8_t record[RECORD_BYTES]);

/* A whole log from power-on. The panel speaks in GEN_MIXED alone. */
void gen_log(enum gen_profile profile, uint64_t seed, uint8_t *log, size_t records);

/*
 * The log that this seed gave before there was a panel, byte for byte. Some damaged
 * records of kinds 0 to 2 have something in byte 2, which was a spare byte then.
 */
void gen_log_alone(enum gen_profile profile, uint64_t seed, uint8_t *log, size_t records);

/* Byte 2 of kinds 0 to 2 becomes 0; what was there goes to byte 3, so that the record is
 * refused for it as before. */
void gen_hide_speakers(uint8_t *log, size_t records);

/* Byte 2 of kinds 0 to 2 becomes another of 0 and 1 now and then, mostly from a place
 * up to another, so that whole sessions change hands. */
void gen_swap_speakers(uint64_t seed, uint8_t *log, size_t records);

/* Bytes that are mostly no records, though some are; any length. */
void gen_noise(uint64_t seed, uint8_t *bytes, size_t length);

/* Changes about one record in thirty of a log. */
void gen_damage(uint64_t seed, uint8_t *log, size_t records);

#endif
