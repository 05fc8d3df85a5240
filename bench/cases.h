/*
 * Fixed cases with answers worked out by hand from the rules. Each starts at
 * power-on and leaves select high. One after another, even with a RESET
 * between, they may answer otherwise: RESET keeps filters and message bytes.
 */
#ifndef BENCH_CASES_H
#define BENCH_CASES_H

#include <stddef.h>

#include "differences.h"
#include "script.h"

struct fixed_case {
    const char *name;
    void (*write)(struct script *s);
};

struct case_group {
    const struct fixed_case *cases;
    size_t count;
};

/* Tables of cases_marked.c, cases_spi.c, cases_reset.c, cases_bus.c, cases_length.c,
 * cases_match.c, cases_set.c, cases_pins.c and cases_panel.c. */
extern const struct case_group marked_cases; /* W1 to W12, bench errors, refusals */
extern const struct case_group spi_cases;    /* registers and instructions */
extern const struct case_group reset_cases;  /* RESET: kept, cleared, and what follows */
extern const struct case_group bus_cases;    /* receiving, sending, modes, errors */
extern const struct case_group length_cases; /* length codes */
extern const struct case_group match_cases;  /* the bits that filters and masks decide by */
extern const struct case_group set_cases;    /* all filters that match */
extern const struct case_group pins_cases;   /* the request pins */
extern const struct case_group panel_cases;  /* a panel on the same SPI lines */

/* All tables one after another, in this order. */
size_t case_count(void);
const struct fixed_case *case_at(size_t i);

/*
 * A list with one event inside a session. In the tidied list the event, record
 * from of the list, has place to; all other records keep their order.
 */
struct tidied_list {
    char name[80];
    struct script s;
    size_t low; /* select low of the session */
    size_t from;
    size_t to;
    /* Of a LOAD TX BUFFER that a fall keeps from being listed: whether the fall, put in
     * front of its select low all the same, changes answers and end state. */
    enum { NO_FALL, FALL_DIFFERS, FALL_ALIKE } fall;
};

typedef void tidied_check(const struct tidied_list *t);

/* Hands every list of cases_tidy.c to check. */
void tidied_lists(tidied_check *check);

/* The record at place i of the tidied list, and of the list with its event in front. */
size_t tidied_record(const struct tidied_list *t, size_t i);
size_t fronted_record(const struct tidied_list *t, size_t i);

/* Two logs, the room lent, and what comparing them must give. */
struct pair_case {
    const char *name;
    const uint8_t *first, *second;
    size_t first_len, second_len, entries_len;
    int64_t result;
    const uint8_t *entries; /* as many as the result says */
    struct log_part leftover;
};

typedef void pair_check(const struct pair_case *c);

/* Hands every pair of cases_differences.c to check. */
void pair_cases(pair_check *check);

/* Shared steps. */
void case_errors(struct script *s, unsigned buffer, unsigned count); /* idle, own frame in error */

/* What TXRTSCTRL shows: its enables, and in bits 5-3 the levels of the other pins. */
enum { ALL_PINS = 7 };
uint8_t case_txrtsctrl(uint8_t enables, uint8_t levels);

#endif
