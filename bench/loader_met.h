/*
 * What a load keeps, asked from outside by its records, and what it met, counted
 * by sort: a run shows little where one is missing.
 */
#ifndef BENCH_LOADER_MET_H
#define BENCH_LOADER_MET_H

#include <stdbool.h>
#include <stddef.h>
#include <stdint.h>

#include "loader.h"
#include "loader_gen.h"

struct load_seen {
    const struct model *before, *after;
    const struct load *load;
    int64_t result;
    const uint8_t *records; /* of a load that was not refused */
    size_t count;
    bool reached; /* a log leads to the chip before */
};

enum { GAP_LOOK, GAP_WAITING, GAP_FIRST_WRITE, GAP_WRITES, GAP_READS, GAP_LAST, GAPS };
enum { EVENT_KINDS = KIND_REQUEST_PIN - KIND_FRAME + 1 };

enum load_met {
    LOAD_REFUSED_1,
    LOAD_REFUSED_10,
    LOAD_REFUSED_11_SLEEP,
    LOAD_REFUSED_11_LOOPBACK,
    LOAD_REFUSED_1_OF_ALL, /* 10 and 11 would apply too */
    LOAD_REFUSED_10_OF_TWO,
    LOAD_REACHED_IN, /* by the mode at the start: Normal, Listen-Only, Configuration */
    LOAD_REACHED_IN_LISTEN_ONLY,
    LOAD_REACHED_IN_CONFIGURATION,
    LOAD_REACHED_WAITING,
    LOAD_UNREACHED_IN, /* the same */
    LOAD_UNREACHED_IN_LISTEN_ONLY,
    LOAD_UNREACHED_IN_CONFIGURATION,
    LOAD_UNREACHED_WAITING,
    LOAD_UNREACHED_WAITING_LISTEN_ONLY,
    LOAD_UNREACHED_WAITING_CONFIGURATION,
    LOAD_UNREACHED_FREE_REQUEST, /* the first select low carries it out */
    LOAD_UNREACHED_OTHER_MODE,   /* it ends in another mode than at the start */
    LOAD_NEW_PROFILE,            /* of reached chips: it held another profile */
    LOAD_WAITS_FOR_TXREQ,        /* at the look there is no flight */
    LOAD_WAITS_FOR_FLIGHT,
    LOAD_WAITS_FOR_FLIGHT_ALONE, /* its TXREQ is clear */
    LOAD_MESSAGE_GOES_IN_TIME,   /* in, though the first command left the chip in Normal */
    LOAD_PASSES_THROUGH,         /* waiting, in Configuration after the look */
    LOAD_PASSING_CLEARS,         /* and its counters were not 0 */
    LOAD_DROPS_REQUEST,          /* of someone else, for another mode */
    LOAD_DROPS_REQUEST_IN,
    LOAD_SAME_REQUEST,    /* someone else has asked for Configuration */
    LOAD_CANCTRL_DIFFERS, /* from the mode at the start, and no request waits */
    LOAD_ABAT_IN,
    LOAD_ABAT_WAITING,
    LOAD_OSM_IN,
    LOAD_OSM_WAITING,
    LOAD_BUS_OFF_IN,
    LOAD_BUS_OFF_WAITING,
    LOAD_CODE_BESIDE_MODE, /* CANSTAT shows an interrupt at the look */
    LOAD_RXCTRL_CHANGES,   /* a frame changes the low bits of RXBnCTRL, waiting */
    LOAD_RXCTRL_BESIDE,    /* in, and RXBnCTRL reads back as more than the profile */
    LOAD_STORES_RXB0,      /* in a gap */
    LOAD_STORES_RXB1,
    LOAD_LOSES_FRAME,
    LOAD_PIN_HOLDS,    /* a fall requests, in Normal */
    LOAD_PIN_REQUESTS, /* in Configuration */
    LOAD_NO_ENTRY,     /* of all chips */
    LOAD_PLACE_0,
    LOAD_GONE_BY,
    LOAD_LAST_GAP,
    LOAD_DUE_AT_LAST, /* its place is the number of commands */
    LOAD_NOT_REACHED,
    LOAD_BEHIND_NOT_REACHED, /* by its own place it would come */
    LOAD_PASSED_OVER,
    LOAD_PASSED_OVER_FAR, /* and an event behind it comes before its place */
    LOAD_EVENT_REFUSED_2,
    LOAD_EVENT_REFUSED_3,
    LOAD_EVENT_REFUSED_4,
    LOAD_EVENT_REFUSED_5,
    LOAD_EVENTS, /* accepted, by gap and kind */
    LOADS_MET = LOAD_EVENTS + GAPS * EVENT_KINDS
};

/* Counts a load, refused or not. */
void load_count(unsigned long long met[LOADS_MET], const struct load_seen *seen);

/* Every sort was met as often as it should be in so many random loads. Tells how often each
 * was, or only what came too short. */
bool load_demand(const unsigned long long met[LOADS_MET], unsigned long long loads, bool tells);

/*
 * NULL, or what does not hold: the records are those of the rules, here put together
 * from the verdict and each entry's place; they make the chip after of the one
 * before; and the verdict's promises hold.
 */
const char *load_broken(const struct load_seen *seen);

#endif
