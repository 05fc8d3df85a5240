/*
 * The tidied form of a log. A session that is one of the listed commands acts
 * at a single moment. Tidying takes the events of bus and pins out of such a
 * session: the earlier ones go in front of it, the later ones behind it.
 */
#ifndef BENCH_TIDY_H
#define BENCH_TIDY_H

#include <stddef.h>
#include <stdint.h>

enum tidy_command {
    TIDY_EMPTY, /* no exchange at all */
    TIDY_RESET,
    TIDY_RTS,
    TIDY_BIT_MODIFY,
    TIDY_READ,
    TIDY_WRITE,
    TIDY_READ_STATUS,
    TIDY_RX_STATUS,
    TIDY_READ_RX,
    TIDY_LOAD_TX,
    TIDY_UNKNOWN,
    TIDY_FORBIDDEN, /* by the panel; it counts as an unknown code */
    TIDY_COMMANDS
};

/* Listed sessions met, and those of them that had events inside. */
struct tidy_tally {
    unsigned long listed[TIDY_COMMANDS];
    unsigned long with_events[TIDY_COMMANDS];
    unsigned long cut_with_events[TIDY_COMMANDS]; /* ended before their moment came */
    unsigned long events_before;                  /* events moved to the front */
    unsigned long events_after;
    unsigned long pins_before; /* of these the request pins, and those of them refused */
    unsigned long pins_after;
    unsigned long refused_pins;
    unsigned long unlisted_by_fall; /* LOADs that are not listed for nothing but a fall inside */
    /* Of these sessions those of the panel. */
    unsigned long panel_listed[TIDY_COMMANDS];
    unsigned long panel_with_events[TIDY_COMMANDS];
    unsigned long panel_cut_with_events[TIDY_COMMANDS];
    unsigned long panel_unlisted_by_fall;
    unsigned long widely; /* with events, listed by the wide reading only */
    unsigned long panel_widely;
};

extern const char *const tidy_command_name[TIDY_COMMANDS];

/*
 * Tidies a log of any length. map[i] is the index in log of the record that
 * stands at place i of tidied. tally is added to and may be NULL.
 */
void tidy_log(const uint8_t *log, size_t records, uint8_t *tidied, size_t *map,
              struct tidy_tally *tally);

/*
 * The same where a session is listed too if it goes on with bytes that do nothing: after
 * RESET, RTS, BIT MODIFY and a code that does nothing itself, and behind data byte 7 of
 * the panel's READ RX BUFFER and LOAD. Nothing is to hang on that reading. What lies behind
 * data byte 7 is tested so and not proved.
 */
void tidy_log_widely(const uint8_t *log, size_t records, uint8_t *tidied, size_t *map,
                     struct tidy_tally *tally);

#endif
