/*
 * Filters that are to change while a message waits to be sent. They take writes in
 * Configuration only, and the message holds that mode back. Written without a look
 * at the mode, a filter byte is lost, and nobody is told. The loader says that the
 * profile waits and has written nothing of it; when the message has gone out, it
 * says that the profile is in.
 *
 * The program ends with status 1 if something is not as it has to be.
 */
#include <stdbool.h>
#include <stdio.h>
#include <string.h>

#include "mcp2515.h"

enum { CHIP = MCP2515_CHIP_SIZE, RECORD = MCP2515_RECORD_SIZE, PROFILE = MCP2515_PROFILE_SIZE };
enum { SELECT_LOW, EXCHANGE, SELECT_HIGH, FRAME, BUS_IDLE, FRAME_ENDS };
enum { WRITE = 0x02, BIT_MODIFY = 0x05, LOAD_TXB0 = 0x40, RTS_TXB0 = 0x81 };
enum { RXF0SIDH = 0x00, CANSTAT = 0x0E, CANCTRL = 0x0F, RXM0SIDH = 0x20 };
enum { REQOP = 0xE0, NORMAL = 0x00, CONFIGURATION = 0x80, NO_MATCH = 0, IN_RXB0 = 1 };

/* Filters 0 and 1 take 200h and 208h, the others 300h; all 11 bits count; BUKT. */
static const uint8_t profile[PROFILE] = {
    0x200 >> 3, 0,    0, 0, 0x208 >> 3, 0,    0, 0, /* RXF0, RXF1 */
    0x300 >> 3, 0,    0, 0, 0x300 >> 3, 0,    0, 0, /* RXF2, RXF3 */
    0x300 >> 3, 0,    0, 0, 0x300 >> 3, 0,    0, 0, /* RXF4, RXF5 */
    0xFF,       0xE0, 0, 0, 0xFF,       0xE0, 0, 0, /* RXM0, RXM1 */
    0x04,       0x00,                               /* RXB0CTRL, RXB1CTRL */
};

static unsigned failures;

static void expect(bool good, const char *what)
{
    printf("%s%s\n", good ? "" : "NOT AS EXPECTED: ", what);
    failures += !good;
}

/* ---- the chip, its SPI lines and its bus ---- */

static uint8_t step(uint8_t *chip, const uint8_t *record)
{
    uint8_t answer[MCP2515_ANSWER_SIZE] = {0, 0};
    mcp2515_step(chip, CHIP, record, RECORD, answer, sizeof answer);
    if (answer[0] != 0)
        expect(false, "the chip takes a record");
    return answer[1];
}

static uint8_t simple_step(uint8_t *chip, uint8_t kind, uint8_t byte1)
{
    uint8_t record[RECORD] = {kind, byte1};
    return step(chip, record);
}

static void session(uint8_t *chip, const uint8_t *bytes, size_t count)
{
    simple_step(chip, SELECT_LOW, 0);
    for (size_t i = 0; i < count; i++)
        simple_step(chip, EXCHANGE, bytes[i]);
    simple_step(chip, SELECT_HIGH, 0);
}

static void ask_for(uint8_t *chip, uint8_t mode)
{
    session(chip, (const uint8_t[]){BIT_MODIFY, CANCTRL, REQOP, mode}, 4);
}

static void message_goes_out(uint8_t *chip)
{
    simple_step(chip, BUS_IDLE, 0);
    simple_step(chip, FRAME_ENDS, 0);
}

/* What becomes of a frame of another node with this standard identifier. */
static uint8_t hear(uint8_t *chip, unsigned identifier)
{
    uint8_t record[RECORD] = {FRAME};
    record[6] = (uint8_t)(identifier >> 8);
    record[7] = (uint8_t)identifier;
    return step(chip, record);
}

/* ---- what it holds ---- */

static bool holds(const uint8_t *chip, uint8_t address, uint8_t value)
{
    return mcp2515_hold(chip, CHIP, address) == value;
}

static bool is_in_mode(const uint8_t *chip, uint8_t mode)
{
    return (mcp2515_hold(chip, CHIP, CANSTAT) & REQOP) == mode;
}

/* Where the bytes of a profile go. */
static const uint8_t addresses[PROFILE] = {
    0x00, 0x01, 0x02, 0x03, 0x04, 0x05, 0x06, 0x07, 0x08, 0x09, 0x0A, 0x0B,
    0x10, 0x11, 0x12, 0x13, 0x14, 0x15, 0x16, 0x17, 0x18, 0x19, 0x1A, 0x1B,
    0x20, 0x21, 0x22, 0x23, 0x24, 0x25, 0x26, 0x27, 0x60, 0x70,
};

/* RXBnCTRL has bits that are no part of it. */
static bool holds_profile(const uint8_t *chip)
{
    for (unsigned i = 0; i < PROFILE; i++) {
        uint8_t part = addresses[i] == 0x60 ? 0x64 : addresses[i] == 0x70 ? 0x60 : 0xFF;
        if ((mcp2515_hold(chip, CHIP, addresses[i]) & part) != profile[i])
            return false;
    }
    return true;
}

static bool holds_the_same(const uint8_t *chip, const uint8_t *other)
{
    for (unsigned i = 0; i < PROFILE; i++)
        if (mcp2515_hold(chip, CHIP, addresses[i]) != mcp2515_hold(other, CHIP, addresses[i]))
            return false;
    return true;
}

/* ---- the story ---- */

/* Filter 0 takes 100h, and a message waits in TXB0. */
static void start(uint8_t *chip)
{
    mcp2515_power_on(chip, CHIP);
    session(chip, (const uint8_t[]){WRITE, RXM0SIDH, 0xFF, 0xE0, 0, 0, 0xFF, 0xE0}, 8);
    session(chip, (const uint8_t[]){WRITE, RXF0SIDH, 0x100 >> 3}, 3);
    ask_for(chip, NORMAL);
    session(chip, (const uint8_t[]){LOAD_TXB0, 0x24, 0x60, 0, 0, 1, 0x55}, 7);
    session(chip, (const uint8_t[]){RTS_TXB0}, 1);
}

static void old_way(uint8_t *chip)
{
    ask_for(chip, CONFIGURATION);
    session(chip, (const uint8_t[]){WRITE, RXF0SIDH, 0x200 >> 3}, 3);
    expect(is_in_mode(chip, NORMAL), "the old way: Configuration is asked for and has to wait");
    expect(holds(chip, RXF0SIDH, 0x100 >> 3), "RXF0SIDH is written and holds 20h as before");
    message_goes_out(chip);
    expect(is_in_mode(chip, CONFIGURATION), "the message goes out, the chip is in Configuration");
    expect(holds(chip, RXF0SIDH, 0x100 >> 3), "RXF0SIDH still holds 20h: the write is lost");
    ask_for(chip, NORMAL);
    expect(hear(chip, 0x200) == NO_MATCH, "a frame 200h is not taken");
}

static void by_the_loader(uint8_t *chip)
{
    uint8_t before[CHIP];
    memcpy(before, chip, sizeof before);
    int64_t loaded = mcp2515_load_profile(chip, CHIP, profile, PROFILE, NULL, 0);
    expect(loaded == MCP2515_LOAD_WAITING, "the loader: waiting");
    expect(holds_the_same(chip, before), "all 34 bytes are as they were: nothing is written");
    message_goes_out(chip);
    expect(is_in_mode(chip, NORMAL), "the message goes out, the chip is in Normal");
    loaded = mcp2515_load_profile(chip, CHIP, profile, PROFILE, NULL, 0);
    expect(loaded == MCP2515_LOAD_IN, "the loader again: in");
    expect(holds_profile(chip), "the chip holds all 34 bytes");
    expect(is_in_mode(chip, NORMAL), "the chip is in Normal");
    expect(hear(chip, 0x200) == IN_RXB0, "a frame 200h is taken");
}

int main(void)
{
    uint8_t chip[CHIP], same_chip[CHIP];
    start(chip);
    memcpy(same_chip, chip, sizeof same_chip);
    old_way(chip);
    by_the_loader(same_chip);
    return failures == 0 ? 0 : 1;
}
