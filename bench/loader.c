#include "loader.h"

#include <stdbool.h>
#include <string.h>

#include "registers.h"

static const uint8_t address_of[PROFILE_BYTES] = {
    0x00, 0x01, 0x02, 0x03, 0x04, 0x05, 0x06, 0x07, 0x08, 0x09, 0x0A, 0x0B, /* filters 0 to 2 */
    0x10, 0x11, 0x12, 0x13, 0x14, 0x15, 0x16, 0x17, 0x18, 0x19, 0x1A, 0x1B, /* filters 3 to 5 */
    0x20, 0x21, 0x22, 0x23, 0x24, 0x25, 0x26, 0x27,                         /* masks 0 and 1 */
    0x60, 0x70,                                                             /* RXBnCTRL */
};

uint8_t loader_address(unsigned i)
{
    return address_of[i];
}

uint8_t loader_writable(unsigned i)
{
    if (i == PROFILE_RXB0CTRL)
        return RXM | BUKT;
    if (i == PROFILE_RXB1CTRL)
        return RXM;
    if (i % 4 != RXF_SIDL)
        return 0xFF;
    return i < PROFILE_MASKS ? 0xEB : 0xE3;
}

/* ---- refusals ---- */

static bool profile_is_sound(const uint8_t *profile)
{
    for (unsigned i = 0; i < PROFILE_BYTES; i++)
        if (profile[i] & ~loader_writable(i))
            return false;
    return true;
}

static uint8_t refusal_of(const struct model *chip, const uint8_t *profile, size_t profile_len,
                          size_t events_len)
{
    if (profile_len != PROFILE_BYTES || events_len % ENTRY_BYTES != 0)
        return REFUSED_RAGGED;
    if (chip->selected != SELECT_HIGH)
        return REFUSED_SELECT;
    if (!profile_is_sound(profile))
        return REFUSED_PROFILE;
    if (chip->mode != MODE_NORMAL && chip->mode != MODE_LISTEN_ONLY &&
        chip->mode != MODE_CONFIGURATION)
        return REFUSED_MODE;
    return REFUSED_NOT;
}

/* ---- records, one after the other ---- */

struct run {
    struct model *chip;
    const uint8_t *events; /* those still to come */
    size_t events_len;
    unsigned commands; /* sent so far */
    uint8_t *records;  /* room for the next, or NULL */
    size_t count;
};

/* The chip takes a record; it is written down. */
static uint8_t step(struct run *r, const uint8_t record[RECORD_BYTES])
{
    uint8_t refusal, answer;
    model_step(r->chip, record, &refusal, &answer);
    if (r->records) {
        memcpy(r->records, record, RECORD_BYTES);
        r->records += RECORD_BYTES;
    }
    r->count++;
    return answer;
}

static uint8_t spi(struct run *r, uint8_t kind, uint8_t sent)
{
    uint8_t record[RECORD_BYTES] = {kind, sent, SPEAKER_CONTROLLER};
    return step(r, record);
}

static uint32_t place_of(const uint8_t *entry)
{
    return (uint32_t)entry[0] << 24 | (uint32_t)entry[1] << 16 | (uint32_t)entry[2] << 8 | entry[3];
}

/* By the kind alone: what the chip makes of it is the chip's. */
static bool is_bus_event(const uint8_t *record)
{
    return record[0] >= KIND_FRAME && record[0] <= KIND_REQUEST_PIN;
}

/* Those that are due now, in their order: an event waits behind the one before it, and for
 * nothing else, however long ago its own place was. */
static void let_events_come(struct run *r)
{
    while (r->events_len > 0) {
        const uint8_t *record = r->events + ENTRY_PLACE_BYTES;
        if (is_bus_event(record)) {
            if (place_of(r->events) > r->commands)
                return;
            step(r, record);
        }
        r->events += ENTRY_BYTES;
        r->events_len -= ENTRY_BYTES;
    }
}

/* ---- commands ---- */

/* A session, with events before it unless it is the first; the reply to its last byte. */
static uint8_t command(struct run *r, const uint8_t *bytes, unsigned count)
{
    uint8_t reply = 0;
    if (r->commands > 0)
        let_events_come(r);
    spi(r, KIND_SELECT_LOW, 0);
    for (unsigned i = 0; i < count; i++)
        reply = spi(r, KIND_EXCHANGE, bytes[i]);
    spi(r, KIND_SELECT_HIGH, 0);
    r->commands++;
    return reply;
}

static void ask_for_mode(struct run *r, uint8_t mode)
{
    uint8_t bytes[] = {SPI_BIT_MODIFY, CANCTRL, REQOP, (uint8_t)(mode << 5)};
    command(r, bytes, sizeof bytes);
}

static uint8_t read_register(struct run *r, uint8_t address)
{
    uint8_t bytes[] = {SPI_READ, address, 0};
    return command(r, bytes, sizeof bytes);
}

static void write_register(struct run *r, uint8_t address, uint8_t value)
{
    uint8_t bytes[] = {SPI_WRITE, address, value};
    command(r, bytes, sizeof bytes);
}

static bool write_and_read_back(struct run *r, const uint8_t *profile)
{
    bool agree = true;
    for (unsigned i = 0; i < PROFILE_BYTES; i++)
        write_register(r, address_of[i], profile[i]);
    for (unsigned i = 0; i < PROFILE_BYTES; i++) {
        uint8_t differ = read_register(r, address_of[i]) ^ profile[i];
        if (differ & loader_writable(i))
            agree = false;
    }
    return agree;
}

static int64_t load(struct run *r, const uint8_t *profile)
{
    uint8_t mode_at_start = r->chip->mode;
    bool agree = false;
    ask_for_mode(r, MODE_CONFIGURATION);
    if (read_register(r, CANSTAT) >> 5 == MODE_CONFIGURATION)
        agree = write_and_read_back(r, profile);
    ask_for_mode(r, mode_at_start);
    return agree ? LOAD_IN : LOAD_WAITING;
}

int64_t loader_load(struct model *chip, const uint8_t *profile, size_t profile_len,
                    const uint8_t *events, size_t events_len)
{
    struct run r = {.chip = chip, .events = events, .events_len = events_len};
    uint8_t refusal = refusal_of(chip, profile, profile_len, events_len);
    if (refusal != REFUSED_NOT)
        return -refusal;
    return load(&r, profile);
}

int64_t loader_records(const struct model *chip, const uint8_t *profile, size_t profile_len,
                       const uint8_t *events, size_t events_len, uint8_t *records,
                       size_t records_len)
{
    struct model first = *chip, second = *chip;
    struct run counts = {.chip = &first, .events = events, .events_len = events_len};
    struct run writes = {&second, events, events_len, 0, records, 0};
    uint8_t refusal = refusal_of(chip, profile, profile_len, events_len);
    if (refusal != REFUSED_NOT)
        return -refusal;
    load(&counts, profile);
    if (records_len / RECORD_BYTES < counts.count)
        return -REFUSED_RECORDS_ROOM;
    load(&writes, profile);
    return (int64_t)writes.count;
}
