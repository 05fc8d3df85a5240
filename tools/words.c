/* A record of a log in words: what it is, and what came of it. */
#include <inttypes.h>
#include <stdarg.h>
#include <stdio.h>
#include <string.h>

#include "mcp2515.h"
#include "tool.h"

static const char *const kinds[] = {
    [SELECT_LOW] = "select low",       [EXCHANGE] = "exchange",
    [SELECT_HIGH] = "select high",     [FRAME] = "frame",
    [BUS_IDLE] = "bus idle",           [FRAME_ENDS] = "own frame ends",
    [RECEIVE_ERROR] = "receive error", [RECOVERY] = "bus-off recovery",
    [REQUEST_PIN] = "request pin",
};
enum { KINDS = sizeof kinds / sizeof *kinds };

static void add(char *text, const char *format, ...)
{
    size_t length = strlen(text);
    va_list values;
    va_start(values, format);
    vsnprintf(text + length, WORDS_ROOM - length, format, values);
    va_end(values);
}

static void add_bytes(char *text, const uint8_t *bytes, size_t count)
{
    for (size_t i = 0; i < count; i++)
        add(text, " %02X", bytes[i]);
}

/* ---- who speaks ---- */

/* Byte 2 of kinds 0 to 2, without refusal 2. */
static bool panel_speaks(const uint8_t *record)
{
    return record[0] <= SELECT_HIGH && record[2] != 0;
}

/* The controller is not named: a log without a panel reads as it always did. */
static const char *speaker_words(const uint8_t *record)
{
    return panel_speaks(record) ? " by the panel" : "";
}

static bool panel_selected(const uint8_t *chip)
{
    return chip[MCP2515_PLACE_SPEAKER] != 0;
}

/* ---- the byte of an exchange within its instruction ---- */

/* The place of its address, and those of its numbers that are asked for here. */
enum {
    PLACE_ADDRESS = MCP2515_PLACE_OPEN + 1,
    AWAITS_CODE = 1,
    STORES = 5,
    REPLIES_FROM_RXB1 = 10
};

/* NULL where there is none. */
static const char *instruction_name(uint8_t code)
{
    switch (code) {
    case 0x02:
        return "WRITE";
    case 0x03:
        return "READ";
    case 0x05:
        return "BIT MODIFY";
    case 0xA0:
        return "READ STATUS";
    case 0xB0:
        return "RX STATUS";
    case 0xC0:
        return "RESET";
    }
    if (code >= 0x40 && code <= 0x45)
        return "LOAD TX BUFFER";
    if ((code & 0xF9) == 0x90)
        return "READ RX BUFFER";
    return (code & 0xF8) == 0x80 ? "RTS" : NULL;
}

static bool is_for_panel(uint8_t code)
{
    static const uint8_t codes[] = {0x03, 0x44, 0x45, 0x84, 0x94, 0x96, 0xA0, 0xB0};
    return memchr(codes, code, sizeof codes) != NULL;
}

static void tell_code(char *text, const uint8_t *chip, uint8_t code)
{
    const char *name = instruction_name(code);
    add(text, ", %s", name != NULL ? name : "unknown instruction");
    if (name != NULL && panel_selected(chip) && !is_for_panel(code))
        add(text, ", a code not for the panel");
}

/* What the next byte is to an open instruction. */
struct part {
    const char *name; /* NULL where there is none */
    bool has_address; /* which follows the name */
    bool replies;
};

/*
 * What the panel stores is always of a LOAD TX BUFFER. This and its READ RX BUFFER
 * stop behind data byte 7. NULL where the part is the same as for the controller.
 */
static const struct part *panel_part(const uint8_t *chip)
{
    enum { DATA_BYTE_7 = 0x0D }; /* the lower digit of its address in each buffer */
    static const struct part load = {"LOAD TX BUFFER to", true, false};
    static const struct part load_ended = {"past data byte 7 of TXB2", false, false};
    static const struct part read_ended = {"past data byte 7 of RXB1", false, false};
    bool ended = (chip[PLACE_ADDRESS] & 0x0F) > DATA_BYTE_7;
    if (chip[MCP2515_PLACE_OPEN] == STORES)
        return ended ? &load_ended : &load;
    return chip[MCP2515_PLACE_OPEN] == REPLIES_FROM_RXB1 && ended ? &read_ended : NULL;
}

/* By the chip's place of the open instruction, from 13 on the last. */
static const struct part *open_part(const uint8_t *chip)
{
    static const struct part parts[] = {
        {NULL, false, false}, /* select is high */
        {NULL, false, false}, /* the byte is a code */
        {"address to READ", false, false},
        {"READ of", true, true},
        {"address to WRITE", false, false},
        {"WRITE to", true, false},
        {"address to BIT MODIFY", false, false},
        {"mask to BIT MODIFY", true, false},
        {"data to BIT MODIFY", true, false},
        {"READ RX BUFFER of", true, true},
        {"READ RX BUFFER of", true, true},
        {"READ STATUS", false, true},
        {"RX STATUS", false, true},
        {"past the instruction", false, false},
    };
    enum { LAST = sizeof parts / sizeof *parts - 1 };
    uint8_t open = chip[MCP2515_PLACE_OPEN];
    const struct part *of_panel = panel_selected(chip) ? panel_part(chip) : NULL;
    return of_panel != NULL ? of_panel : &parts[open < LAST ? open : LAST];
}

/* A byte that is refused is no part of the open instruction, which is the other's. */
static void tell_exchange(char *text, const uint8_t *chip, const uint8_t *record, bool taken)
{
    const struct part *part = open_part(chip);
    add(text, "exchange %02Xh%s", record[1], speaker_words(record));
    if (!taken)
        return;
    if (chip[MCP2515_PLACE_OPEN] == AWAITS_CODE)
        tell_code(text, chip, record[1]);
    if (part->name != NULL)
        add(text, ", %s", part->name);
    if (part->has_address)
        add(text, " %02Xh", chip[PLACE_ADDRESS] & 0x7F);
}

/* ---- what a record is ---- */

static void tell_frame(char *text, const uint8_t *record)
{
    bool extended = record[1] & 1, remote = record[1] & 2;
    unsigned code = record[2];
    uint32_t identifier = four_bytes(record + 4);
    if (extended)
        add(text, "frame extended %08" PRIX32 "h", identifier);
    else
        add(text, "frame standard %03" PRIX32 "h", identifier);
    add(text, "%s, DLC %u", remote ? ", remote" : "", code);
    if (!remote && code > 0) {
        add(text, ", data");
        add_bytes(text, record + 8, code < 8 ? code : 8);
    }
}

/* Fields mean something only where they are in their range: without refusal 2. */
static void tell_sound(char *text, const uint8_t *chip, const uint8_t *record, bool taken)
{
    static const char *const ends[] = {"sent", "arbitration lost", "error"};
    switch (record[0]) {
    case EXCHANGE:
        tell_exchange(text, chip, record, taken);
        break;
    case FRAME:
        tell_frame(text, record);
        break;
    case FRAME_ENDS:
        add(text, "own frame ends, %s", ends[record[1]]);
        break;
    case RECEIVE_ERROR:
        add(text, "receive error, adds %d", record[1] == 0 ? 1 : 8);
        break;
    case REQUEST_PIN:
        add(text, "request pin TX%uRTS %s", record[1], record[2] == 0 ? "low" : "high");
        break;
    default:
        add(text, "%s%s", kinds[record[0]], speaker_words(record));
    }
}

static void tell_unsound(char *text, const uint8_t *record)
{
    add(text, "%s, bytes", record[0] < KINDS ? kinds[record[0]] : "unknown kind");
    add_bytes(text, record, MCP2515_RECORD_SIZE);
}

/* ---- what came of it ---- */

static const char *refusal_reason(uint8_t refusal, const uint8_t *record)
{
    uint8_t kind = record[0];
    switch (refusal) {
    case MCP2515_REFUSED_SELECT:
        return kind == SELECT_LOW ? "select is low" : "select is high";
    case MCP2515_REFUSED_FIELD:
        return "unknown kind, or a byte out of range";
    case MCP2515_REFUSED_IN_FLIGHT:
        return "an own frame is in flight";
    case MCP2515_REFUSED_NO_FLIGHT:
        return "no own frame is in flight";
    case MCP2515_REFUSED_SPEAKER:
        return panel_speaks(record) ? "the controller has selected" : "the panel has selected";
    }
    return kind == RECOVERY ? "not bus-off" : "in Loopback an own frame is always sent";
}

static bool in_loopback(const uint8_t *chip)
{
    enum { CANSTAT = 0x0E, LOOPBACK = 2 };
    return mcp2515_hold(chip, MCP2515_CHIP_SIZE, CANSTAT) >> 5 == LOOPBACK; /* OPMOD */
}

static void add_filters(char *text, uint8_t set)
{
    enum { FILTERS = 6 };
    bool several = (set & (set - 1)) != 0;
    if (set == 0) {
        add(text, ", no filter");
        return;
    }
    add(text, ", filter%s", several ? "s" : "");
    for (unsigned n = 0; n < FILTERS; n++)
        if (set >> n & 1)
            add(text, " %u", n);
}

/* Of the filters nothing is said where none is asked, nor where "no match" says it. */
static void tell_heard(char *text, uint8_t answer, uint8_t set)
{
    enum { NO_MATCH, IN_RXB0, IN_RXB1, LOST, NOT_LISTENING, WOKE, HEARD };
    static const char *const heard[HEARD] = {
        [NO_MATCH] = "no match", [IN_RXB0] = "in RXB0", [IN_RXB1] = "in RXB1",
        [LOST] = "lost",         [WOKE] = "woke",       [NOT_LISTENING] = "not listening",
    };
    if (answer >= HEARD)
        return;
    add(text, "%s", heard[answer]);
    if (answer < NOT_LISTENING && (set != 0 || answer != NO_MATCH))
        add_filters(text, set);
}

/* Where nothing is told the answer is 0. */
static void tell_answer(char *text, const uint8_t *chip, uint8_t kind, const struct result *result)
{
    enum { NO_BUFFER = 3 };
    uint8_t answer = result->answer;
    if (kind == FRAME || (kind == FRAME_ENDS && in_loopback(chip)))
        tell_heard(text, answer, result->set);
    else if (kind == BUS_IDLE && answer < NO_BUFFER)
        add(text, "TXB%u goes", answer);
    else if (kind == BUS_IDLE)
        add(text, "no buffer goes");
    else if (kind == EXCHANGE && open_part(chip)->replies)
        add(text, "reply %02Xh", answer);
}

void tell_record(struct words *words, const uint8_t *chip, const uint8_t *record,
                 const struct result *result)
{
    uint8_t refusal = result->refusal;
    words->record[0] = words->outcome[0] = '\0';
    if (refusal == MCP2515_REFUSED_FIELD)
        tell_unsound(words->record, record);
    else
        tell_sound(words->record, chip, record, refusal == 0);
    if (refusal != 0)
        add(words->outcome, "refused, %s", refusal_reason(refusal, record));
    else
        tell_answer(words->outcome, chip, record[0], result);
}
