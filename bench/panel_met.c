#include "panel_met.h"

#include <stdbool.h>
#include <string.h>

#include "registers.h"

const char *const panel_met_name[PANELS_MET] = {
    [PANEL_MET_READ] = "panel: READ",
    [PANEL_MET_READ_STATUS] = "panel: READ STATUS",
    [PANEL_MET_RX_STATUS] = "panel: RX STATUS",
    [PANEL_MET_94] = "panel: 94h",
    [PANEL_MET_96] = "panel: 96h",
    [PANEL_MET_44] = "panel: 44h",
    [PANEL_MET_45] = "panel: 45h",
    [PANEL_MET_84] = "panel: 84h",
    [PANEL_MET_OTHER_RTS] = "panel: forbidden RTS",
    [PANEL_MET_OTHER_READ_RX] = "panel: forbidden READ RX BUFFER",
    [PANEL_MET_OTHER_LOAD] = "panel: forbidden LOAD",
    [PANEL_MET_WRITE] = "panel: forbidden WRITE",
    [PANEL_MET_BIT_MODIFY] = "panel: forbidden BIT MODIFY",
    [PANEL_MET_RESET] = "panel: forbidden RESET",
    [PANEL_MET_UNKNOWN] = "panel: unknown code",
    [PANEL_MET_REPLY] = "panel: a reply that is not 0",
    [PANEL_MET_STORE] = "panel: a byte of TXB2 stored",
    [PANEL_MET_REQUEST] = "panel: TXB2 requested",
    [PANEL_MET_ABAT] = "panel: 84h under ABAT",
    [PANEL_MET_PAST_READ] = "panel: byte past data byte 7 of RXB1",
    [PANEL_MET_PAST_LOAD] = "panel: byte past data byte 7 of TXB2",
    [PANEL_MET_SPENT] = "panel: byte of a session that does nothing",
    [PANEL_MET_CLEARS] = "panel: RX1IF cleared",
    [PANEL_MET_CLEARS_PAST] = "panel: RX1IF cleared, past data byte 7",
    [PANEL_MET_CUTS_IN] = "panel: exchange in the controller's session",
    [PANEL_MET_CUTS_IN_HIGH] = "panel: select high in the controller's session",
    [PANEL_MET_IS_CUT] = "controller: exchange in the panel's session",
    [PANEL_MET_IS_CUT_HIGH] = "controller: select high in the panel's session",
    [PANEL_MET_LOW_IN_OTHERS] = "panel: select low in the controller's session",
    [PANEL_MET_LOW_BY_OTHER] = "controller: select low in the panel's session",
    [PANEL_MET_LOW_IN_OWN] = "panel: select low in its own session",
    [PANEL_MET_WHILE_HIGH] = "panel: exchange or select high, select is high",
    [PANEL_MET_NOBODY] = "speaker above 1",
    [PANEL_MET_EVENT] = "event inside a session of the panel",
    [PANEL_MET_PIN] = "pin record inside a session of the panel",
};

static enum panel_met code_met(uint8_t code)
{
    switch (code) {
    case SPI_READ:
        return PANEL_MET_READ;
    case SPI_READ_STATUS:
        return PANEL_MET_READ_STATUS;
    case SPI_RX_STATUS:
        return PANEL_MET_RX_STATUS;
    case 0x94: case 0x96:
        return code == 0x94 ? PANEL_MET_94 : PANEL_MET_96;
    case 0x44: case 0x45:
        return code == 0x44 ? PANEL_MET_44 : PANEL_MET_45;
    case 0x80: case 0x81: case 0x82: case 0x83: case 0x84: case 0x85: case 0x86: case 0x87:
        return code == 0x84 ? PANEL_MET_84 : PANEL_MET_OTHER_RTS;
    case 0x90: case 0x92:
        return PANEL_MET_OTHER_READ_RX;
    case 0x40: case 0x41: case 0x42: case 0x43:
        return PANEL_MET_OTHER_LOAD;
    case SPI_WRITE:
        return PANEL_MET_WRITE;
    case SPI_BIT_MODIFY:
        return PANEL_MET_BIT_MODIFY;
    case SPI_RESET:
        return PANEL_MET_RESET;
    }
    return PANEL_MET_UNKNOWN;
}

static void count_exchange(unsigned long long *met, const struct model *before, uint8_t sent,
                           uint8_t answer, const struct model *after)
{
    bool code = before->open == OPEN_CODE;
    bool asked = before->reg[TXB2CTRL] & TXREQ, asks = after->reg[TXB2CTRL] & TXREQ;
    if (code)
        met[code_met(sent)]++;
    met[PANEL_MET_REPLY] += answer != 0;
    met[PANEL_MET_STORE] +=
        memcmp(&before->reg[TXB2CTRL + SIDH], &after->reg[TXB2CTRL + SIDH], D7) != 0;
    met[PANEL_MET_REQUEST] += !asked && asks;
    met[PANEL_MET_ABAT] += code && sent == 0x84 && !asked && !asks;
    met[PANEL_MET_PAST_READ] +=
        before->open == OPEN_READ && before->clears == RX1IF && before->pointer == 0x7E;
    met[PANEL_MET_PAST_LOAD] += before->open == OPEN_WRITE && before->pointer == 0x5E;
    met[PANEL_MET_SPENT] += before->open == OPEN_SPENT;
}

static void count_high(unsigned long long *met, const struct model *before,
                       const struct model *after)
{
    bool clears = before->reg[CANINTF] & ~after->reg[CANINTF] & RX1IF;
    met[PANEL_MET_CLEARS] += clears;
    met[PANEL_MET_CLEARS_PAST] += clears && before->pointer == 0x7E;
}

static void count_refused(unsigned long long *met, const struct model *before,
                          const uint8_t *record, uint8_t refusal)
{
    bool high = record[0] == KIND_SELECT_HIGH, by_panel = record[2] == SPEAKER_PANEL;
    bool panels = before->selected == SELECT_BY_PANEL;
    if (refusal == REFUSED_SPEAKER && by_panel)
        met[high ? PANEL_MET_CUTS_IN_HIGH : PANEL_MET_CUTS_IN]++;
    else if (refusal == REFUSED_SPEAKER)
        met[high ? PANEL_MET_IS_CUT_HIGH : PANEL_MET_IS_CUT]++;
    else if (refusal == REFUSED_FIELD)
        met[PANEL_MET_NOBODY] += record[2] >= SPEAKERS;
    else if (record[0] != KIND_SELECT_LOW)
        met[PANEL_MET_WHILE_HIGH] += by_panel;
    else if (by_panel)
        met[panels ? PANEL_MET_LOW_IN_OWN : PANEL_MET_LOW_IN_OTHERS]++;
    else
        met[PANEL_MET_LOW_BY_OTHER] += panels;
}

void count_panel(unsigned long long met[PANELS_MET], const struct model *before,
                 const uint8_t *record, uint8_t refusal, uint8_t answer,
                 const struct model *after)
{
    bool panels = before->selected == SELECT_BY_PANEL, pin = record[0] == KIND_REQUEST_PIN;
    if (record[0] > KIND_SELECT_HIGH) {
        met[PANEL_MET_EVENT] += panels && refusal == REFUSED_NOT;
        met[PANEL_MET_PIN] += panels && refusal == REFUSED_NOT && pin;
    } else if (refusal != REFUSED_NOT) {
        count_refused(met, before, record, refusal);
    } else if (panels && record[0] == KIND_EXCHANGE) {
        count_exchange(met, before, record[1], answer, after);
    } else if (panels && record[0] == KIND_SELECT_HIGH) {
        count_high(met, before, after);
    }
}
