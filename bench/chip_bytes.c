#include "chip_bytes.h"

#include <stddef.h>
#include <string.h>

#include "mcp2515.h"
#include "registers.h"

enum {
    AT_CANCTRL = 128,
    AT_CANINTE,
    AT_CANINTF,
    AT_EFLG,
    AT_TXB0CTRL,
    AT_TXB1CTRL,
    AT_TXB2CTRL,
    AT_RXB0CTRL,
    AT_RXB1CTRL,
    AT_TEC_LOW,
    AT_REC,
    AT_TEC_HIGH,
    AT_MODE,
    AT_FLIGHT,
    AT_REQUEST,
    AT_PINS,
    AT_OPEN = AT_PINS + REQUEST_PINS,
    AT_ADDRESS,
    AT_MASK,
    AT_SPEAKER
};

_Static_assert((int)AT_TEC_LOW == MCP2515_PLACE_TEC_LOW, "place of TEC's low byte");
_Static_assert((int)AT_TEC_HIGH == MCP2515_PLACE_TEC_HIGH, "place of TEC's high byte");
_Static_assert((int)AT_FLIGHT == MCP2515_PLACE_FLIGHT, "place of the flight");
_Static_assert((int)AT_REQUEST == MCP2515_PLACE_MODE_REQUESTED, "place of the mode request");
_Static_assert((int)AT_PINS == MCP2515_PLACE_PINS, "place of the pins");
_Static_assert((int)AT_OPEN == MCP2515_PLACE_OPEN, "place of the open instruction");
_Static_assert((int)AT_SPEAKER == MCP2515_PLACE_SPEAKER, "place of who selected");

/* Place AT_OPEN by number; READ RX BUFFER goes on as a READ that clears a flag. */
static const struct {
    uint8_t open;
    uint8_t clears;
} open_by_number[] = {
    {OPEN_NONE, 0},          {OPEN_CODE, 0},     {OPEN_READ_ADDRESS, 0},   {OPEN_READ, 0},
    {OPEN_WRITE_ADDRESS, 0}, {OPEN_WRITE, 0},    {OPEN_MODIFY_ADDRESS, 0}, {OPEN_MODIFY_MASK, 0},
    {OPEN_MODIFY_DATA, 0},   {OPEN_READ, RX0IF}, {OPEN_READ, RX1IF},       {OPEN_STATUS, 0},
    {OPEN_RX_STATUS, 0},     {OPEN_SPENT, 0}, /* and all above */
};
enum { OPEN_NUMBERS = sizeof open_by_number / sizeof *open_by_number };

static void decode_registers(const uint8_t *chip, struct model *m)
{
    memcpy(m->reg, chip, sizeof m->reg);
    for (unsigned row = 0; row < sizeof m->reg; row += 0x10)
        m->reg[row + CANSTAT] = m->reg[row + CANCTRL] = 0;
    m->reg[TEC] = m->reg[REC] = 0;
    for (unsigned n = 0; n < REQUEST_PINS; n++) /* shown from the levels, not stored */
        m->reg[TXRTSCTRL] &= (uint8_t)~(B0RTS << n);
    m->reg[CANCTRL] = chip[AT_CANCTRL];
    m->reg[CANINTE] = chip[AT_CANINTE];
    m->reg[CANINTF] = chip[AT_CANINTF];
    m->reg[EFLG] = chip[AT_EFLG] & (RX1OVR | RX0OVR);
    m->reg[TXB0CTRL] = chip[AT_TXB0CTRL];
    m->reg[TXB1CTRL] = chip[AT_TXB1CTRL];
    m->reg[TXB2CTRL] = chip[AT_TXB2CTRL];
    m->reg[RXB0CTRL] = chip[AT_RXB0CTRL];
    m->reg[RXB1CTRL] = chip[AT_RXB1CTRL];
}

static bool has_address(uint8_t open)
{
    return open == OPEN_READ || open == OPEN_WRITE || open == OPEN_MODIFY_MASK ||
           open == OPEN_MODIFY_DATA;
}

/* Who selected counts while select is low. */
static void decode_open(const uint8_t *chip, struct model *m)
{
    size_t number = chip[AT_OPEN] < OPEN_NUMBERS ? chip[AT_OPEN] : OPEN_NUMBERS - 1;
    m->open = open_by_number[number].open;
    m->clears = open_by_number[number].clears;
    if (m->open != OPEN_NONE)
        m->selected = chip[AT_SPEAKER] ? SELECT_BY_PANEL : SELECT_BY_CONTROLLER;
    if (has_address(m->open))
        m->pointer = chip[AT_ADDRESS] & 0x7F;
    if (m->open == OPEN_MODIFY_DATA)
        m->mask = chip[AT_MASK];
}

void chip_decode(const uint8_t *chip, struct model *m)
{
    memset(m, 0, sizeof *m);
    decode_registers(chip, m);
    m->tec = (uint16_t)(chip[AT_TEC_HIGH] << 8 | chip[AT_TEC_LOW]);
    m->rec = chip[AT_REC];
    m->mode = chip[AT_MODE] < MODE_CONFIGURATION ? chip[AT_MODE] : MODE_CONFIGURATION;
    m->flight = chip[AT_FLIGHT] < NO_FLIGHT ? chip[AT_FLIGHT] : NO_FLIGHT;
    m->request = chip[AT_REQUEST] < MODES ? chip[AT_REQUEST] : NO_REQUEST;
    for (unsigned n = 0; n < REQUEST_PINS; n++)
        m->level[n] = chip[AT_PINS + n] != 0;
    decode_open(chip, m);
}
