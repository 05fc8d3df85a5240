#include "pins_met.h"

#include "registers.h"

const char *const pin_met_name[PINS_MET] = {
    [PIN_REFUSED] = "pin record refused",
    [PIN_RISES] = "pin rises",
    [PIN_REPEATS] = "pin repeats its level",
    [PIN_NOT_ENABLED] = "pin falls, not enabled",
    [PIN_UNDER_ABAT] = "pin falls, enabled, under ABAT",
    [PIN_OVER_REQUEST] = "pin falls, enabled, TXREQ is set",
    [PIN_REQUESTS] = "pin requests",
    [PIN_CLEARS_FLAGS] = "pin requests and clears a flag",
    [PIN_IN_FLIGHT] = "pin requests during a flight",
    [PIN_IN_SESSION] = "pin requests inside a session",
    [PIN_IN_LOAD] = "pin requests between bytes of a WRITE or LOAD",
    [PIN_IN_MODE_0] = "pin requests in Normal",
    [PIN_IN_MODE_0 + 1] = "pin requests in Sleep",
    [PIN_IN_MODE_0 + 2] = "pin requests in Loopback",
    [PIN_IN_MODE_0 + 3] = "pin requests in Listen-Only",
    [PIN_IN_MODE_0 + 4] = "pin requests in Configuration",
};

static enum pin_met sort_of(const struct model *before, const uint8_t *record, uint8_t refusal)
{
    if (refusal != REFUSED_NOT)
        return PIN_REFUSED;
    uint8_t n = record[1];
    if (before->level[n] == record[2])
        return PIN_REPEATS;
    if (record[2])
        return PIN_RISES;
    if (!(before->reg[TXRTSCTRL] >> n & 1))
        return PIN_NOT_ENABLED;
    if (before->reg[CANCTRL] & ABAT)
        return PIN_UNDER_ABAT;
    return before->reg[TXB0CTRL + 0x10 * n] & TXREQ ? PIN_OVER_REQUEST : PIN_REQUESTS;
}

void count_pin(unsigned long long met[PINS_MET], const struct model *before, const uint8_t *record,
               uint8_t refusal)
{
    if (record[0] != KIND_REQUEST_PIN)
        return;
    enum pin_met sort = sort_of(before, record, refusal);
    met[sort]++;
    if (sort != PIN_REQUESTS)
        return;
    uint8_t flags = before->reg[TXB0CTRL + 0x10 * record[1]] & (ABTF | MLOA | TXERR);
    met[PIN_CLEARS_FLAGS] += flags != 0;
    met[PIN_IN_FLIGHT] += before->flight != NO_FLIGHT;
    met[PIN_IN_SESSION] += before->selected != SELECT_HIGH;
    met[PIN_IN_LOAD] += before->open == OPEN_WRITE;
    met[PIN_IN_MODE_0 + before->mode]++;
}
