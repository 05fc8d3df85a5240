/* Selects, exchanges and events around the panel that a comparison meets, counted by sort:
 * the run shows little where one is missing. */
#ifndef BENCH_PANEL_MET_H
#define BENCH_PANEL_MET_H

#include <stdint.h>

#include "model.h"

enum panel_met {
    PANEL_MET_READ, /* first bytes that do something */
    PANEL_MET_READ_STATUS,
    PANEL_MET_RX_STATUS,
    PANEL_MET_94,
    PANEL_MET_96,
    PANEL_MET_44,
    PANEL_MET_45,
    PANEL_MET_84,
    PANEL_MET_OTHER_RTS, /* and those that do not */
    PANEL_MET_OTHER_READ_RX,
    PANEL_MET_OTHER_LOAD,
    PANEL_MET_WRITE,
    PANEL_MET_BIT_MODIFY,
    PANEL_MET_RESET,
    PANEL_MET_UNKNOWN,
    PANEL_MET_REPLY, /* a reply that is not 0 */
    PANEL_MET_STORE,
    PANEL_MET_REQUEST,
    PANEL_MET_ABAT, /* 84h requests nothing */
    PANEL_MET_PAST_READ, /* behind data byte 7 */
    PANEL_MET_PAST_LOAD,
    PANEL_MET_SPENT, /* a byte that does nothing for what came before it */
    PANEL_MET_CLEARS, /* RX1IF */
    PANEL_MET_CLEARS_PAST,
    PANEL_MET_CUTS_IN, /* refusal 18: exchange by the panel, select high by it */
    PANEL_MET_CUTS_IN_HIGH,
    PANEL_MET_IS_CUT, /* the same by the controller */
    PANEL_MET_IS_CUT_HIGH,
    PANEL_MET_LOW_IN_OTHERS, /* refusal 1: select low by the panel in the controller's session */
    PANEL_MET_LOW_BY_OTHER,
    PANEL_MET_LOW_IN_OWN,
    PANEL_MET_WHILE_HIGH, /* refusal 1: exchange or select high by the panel, select is high */
    PANEL_MET_NOBODY, /* speaker above 1 */
    PANEL_MET_EVENT, /* accepted inside a session of the panel */
    PANEL_MET_PIN,
    PANELS_MET
};

extern const char *const panel_met_name[PANELS_MET];

/* Counts a record by the chips before and after it. */
void count_panel(unsigned long long met[PANELS_MET], const struct model *before,
                 const uint8_t *record, uint8_t refusal, uint8_t answer,
                 const struct model *after);

#endif
