#include "loader_gen.h"

#include <string.h>

#include "mcp2515.h"
#include "registers.h"

static unsigned below(uint64_t *dice, unsigned n)
{
    return (unsigned)((gen_next(dice) >> 33) % n);
}

static uint8_t any_byte(uint64_t *dice)
{
    return (uint8_t)below(dice, 256);
}

/* ---- profiles ---- */

static uint8_t profile_byte(unsigned style, uint64_t *dice)
{
    switch (style) {
    case 0:
        return 0x00;
    case 1:
        return 0xFF;
    case 2: /* filters that frames of gen.c meet */
        return (uint8_t)(below(dice, 2) ? 0 : below(dice, 2) ? 0x55 : 0x24);
    case 3:
        return any_byte(dice) & any_byte(dice) & any_byte(dice);
    }
    return any_byte(dice);
}

/* One bit that it must not set, of a SIDL or of a control byte. */
static void spoil(uint8_t *profile, uint64_t *dice)
{
    unsigned i = below(dice, 10);
    unsigned at = i < 8 ? 4 * i + RXF_SIDL : PROFILE_RXB0CTRL + i - 8;
    uint8_t bit;
    do
        bit = (uint8_t)(1u << below(dice, 8));
    while (bit & loader_writable(at));
    profile[at] |= bit;
}

static void draw_profile(uint8_t *profile, const struct model *chip, uint64_t *dice)
{
    unsigned style = below(dice, 9);
    for (unsigned i = 0; i < PROFILE_BYTES; i++) {
        uint8_t held = model_holds(chip, loader_address(i));
        profile[i] = (style == 8 ? held : profile_byte(style, dice)) & loader_writable(i);
    }
    if (below(dice, chip->selected == SELECT_HIGH ? 14 : 2) == 0)
        spoil(profile, dice);
    if (below(dice, 100) == 0)
        for (unsigned i = 0; i < PROFILE_BYTES; i++)
            profile[i] = any_byte(dice);
}

/* ---- events ---- */

static bool is_event(const uint8_t *record)
{
    return record[0] >= KIND_FRAME && record[0] <= KIND_REQUEST_PIN;
}

/* Of any kind, with fields that are mostly in their range. */
static void plain_event(uint8_t *record, uint64_t *dice)
{
    memset(record, 0, RECORD_BYTES);
    record[0] = (uint8_t)(KIND_FRAME + below(dice, 6));
    record[1] = (uint8_t)below(dice, 3);
    if (record[0] == KIND_REQUEST_PIN)
        record[2] = (uint8_t)below(dice, 2);
}

/* The next that the generator has for its chip; what else it has is undone. */
static void aimed_event(struct gen *g, uint8_t *record, uint64_t *dice)
{
    for (unsigned tries = 0; tries < 30; tries++) {
        struct model met = g->chip;
        gen_record(g, record);
        if (is_event(record))
            return;
        g->chip = met;
    }
    plain_event(record, dice);
}

/* Selects and exchanges as they should be, and kinds that there are not. */
static void no_event(uint8_t *record, uint64_t *dice)
{
    memset(record, 0, RECORD_BYTES);
    record[0] = (uint8_t)(below(dice, 2) ? below(dice, KIND_FRAME)
                                         : KINDS + below(dice, 256 - KINDS));
    if (below(dice, 2))
        record[1] = SPI_RESET;
}

static void draw_record(struct gen *g, uint8_t *record, uint64_t *dice)
{
    unsigned sort = below(dice, 40);
    if (sort < 5) {
        no_event(record, dice);
    } else if (sort < 10) {
        plain_event(record, dice);
    } else if (sort == 10) {
        for (unsigned i = 0; i < RECORD_BYTES; i++)
            record[i] = any_byte(dice);
    } else if (sort < 20 && model_bus_off(&g->chip)) {
        memset(record, 0, RECORD_BYTES);
        record[0] = KIND_RECOVERY;
    } else {
        aimed_event(g, record, dice);
    }
}

/* How the places of a list go. */
enum { EARLY, EARLY_SORTED, RISING, ANYWHERE, SOME_FAR, LATE, ORDERS };

static uint32_t draw_place(unsigned order, uint32_t before, uint64_t *dice)
{
    switch (order) {
    case EARLY:
        return below(dice, 4);
    case EARLY_SORTED:
        return before + (below(dice, 3) == 0);
    case RISING:
        return before + below(dice, below(dice, 4) ? 4 : 30);
    case SOME_FAR:
        if (below(dice, 12) == 0)
            return below(dice, 74) | 1u << (8 + below(dice, 24));
        return below(dice, 2) ? before : below(dice, 74);
    case LATE:
        return COMMANDS_IN - 2 + below(dice, 3);
    }
    return below(dice, 74);
}

static void put_place(uint8_t *entry, uint32_t place)
{
    for (unsigned i = 0; i < ENTRY_PLACE_BYTES; i++)
        entry[i] = (uint8_t)(place >> (24 - 8 * i));
}

/* The generator's chip is the one that the loader's first command leaves. */
static void start_events(struct gen *g, const struct model *chip, uint64_t *dice)
{
    uint8_t bytes[] = {SPI_BIT_MODIFY, CANCTRL, REQOP, MODE_CONFIGURATION << 5};
    uint8_t record[RECORD_BYTES] = {KIND_SELECT_LOW}, refusal, answer;
    gen_start(g, GEN_MIXED, gen_next(dice));
    g->chip = *chip;
    g->mix.event_outside = 255;
    model_step(&g->chip, record, &refusal, &answer);
    for (unsigned i = 0; i < sizeof bytes; i++) {
        uint8_t exchange[RECORD_BYTES] = {KIND_EXCHANGE, bytes[i]};
        model_step(&g->chip, exchange, &refusal, &answer);
    }
    record[0] = KIND_SELECT_HIGH;
    model_step(&g->chip, record, &refusal, &answer);
}

/* A chip that waits has two gaps only. */
static unsigned draw_order(const struct model *chip, uint64_t *dice)
{
    bool waits = chip->mode == MODE_NORMAL && chip->request != NO_REQUEST;
    return below(dice, waits && below(dice, 4) ? RISING : ORDERS);
}

static void draw_events(struct load *l, const struct model *chip, uint64_t *dice)
{
    static const uint8_t most[] = {1, 3, 6, 12, LOAD_ENTRIES_MOST + 1};
    unsigned entries = below(dice, most[below(dice, sizeof most)]);
    uint32_t place = below(dice, 3);
    struct gen g;
    start_events(&g, chip, dice);
    unsigned order = draw_order(&g.chip, dice);
    for (unsigned i = 0; i < entries; i++) {
        uint8_t *entry = l->events + ENTRY_BYTES * i;
        place = draw_place(order, place, dice);
        put_place(entry, place);
        draw_record(&g, entry + ENTRY_PLACE_BYTES, dice);
        if (!is_event(entry + ENTRY_PLACE_BYTES) && below(dice, 2))
            put_place(entry, (uint32_t)gen_next(dice)); /* it must hold up nobody */
    }
    l->events_len = ENTRY_BYTES * entries;
}

void load_draw(struct load *l, const struct model *chip, uint64_t *dice)
{
    draw_profile(l->profile, chip, dice);
    draw_events(l, chip, dice);
}

/* ---- chips by a log ---- */

/* Records behind those of the generator: select high, at most seven sessions, 32 failures. */
enum { LEAVE_MOST = 1 + 7 * 6 + 2 * 32 + 12 };

struct log_end {
    struct gen *g;
    uint8_t *at;
};

static void add_record(struct log_end *e, uint8_t kind, uint8_t byte1, uint8_t byte2)
{
    uint8_t record[RECORD_BYTES] = {kind, byte1, byte2}, refusal, answer;
    model_step(&e->g->chip, record, &refusal, &answer);
    memcpy(e->at, record, RECORD_BYTES);
    e->at += RECORD_BYTES;
}

static void add_session(struct log_end *e, const uint8_t *bytes, unsigned count)
{
    add_record(e, KIND_SELECT_LOW, 0, SPEAKER_CONTROLLER);
    for (unsigned i = 0; i < count; i++)
        add_record(e, KIND_EXCHANGE, bytes[i], SPEAKER_CONTROLLER);
    add_record(e, KIND_SELECT_HIGH, 0, SPEAKER_CONTROLLER);
}

/* Sleep and Loopback are mostly left; CANCTRL's other bits are anything. */
static void leave_mode(struct log_end *e, uint64_t *dice)
{
    uint8_t mode = (uint8_t)(below(dice, 3) ? MODE_NORMAL << 5 : MODE_LISTEN_ONLY << 5);
    uint8_t bytes[] = {SPI_WRITE, CANCTRL, (uint8_t)(mode | (any_byte(dice) & OSM) | 7)};
    add_session(e, bytes, sizeof bytes);
}

/* Both receive buffers empty, and RXB0 takes any frame. */
static void leave_empty(struct log_end *e, uint64_t *dice)
{
    uint8_t flags[] = {SPI_WRITE, CANINTF, 0};
    uint8_t ctrl[] = {SPI_WRITE, RXB0CTRL, (uint8_t)(RXM | (any_byte(dice) & BUKT))};
    add_session(e, flags, sizeof flags);
    add_session(e, ctrl, sizeof ctrl);
}

/* All pins ask, where the mode lets them be enabled. */
static void leave_pins(struct log_end *e)
{
    uint8_t bytes[] = {SPI_WRITE, TXRTSCTRL, 7};
    add_session(e, bytes, sizeof bytes);
}

/* TXB0 fails until bus-off; now and then it is not asked to go any more. */
static void leave_bus_off(struct log_end *e, uint64_t *dice)
{
    uint8_t ctrl[] = {SPI_WRITE, TXB0CTRL, TXREQ | TXP};
    for (unsigned i = 0; i < TEC_BUS_OFF / 8; i++) {
        if (e->g->chip.flight == NO_FLIGHT)
            add_record(e, KIND_BUS_IDLE, 0, 0);
        add_record(e, KIND_FRAME_ENDS, END_ERROR, 0);
        if (i == 0)
            add_session(e, ctrl, sizeof ctrl);
    }
    ctrl[2] = 0;
    if (below(dice, 2))
        add_session(e, ctrl, sizeof ctrl);
}

/* A message is asked to go, mostly one of three; somebody takes it back in flight, asks for
 * another mode, or sets ABAT. */
static void leave_waiting(struct log_end *e, uint64_t *dice)
{
    uint8_t rts = (uint8_t)(SPI_RTS | (below(dice, 3) ? 1u << below(dice, 3) : below(dice, 8)));
    add_session(e, &rts, 1);
    if (below(dice, 3) == 0)
        add_record(e, KIND_BUS_IDLE, 0, 0);
    if (e->g->chip.flight != NO_FLIGHT && below(dice, 4) == 0) {
        uint8_t bytes[] = {SPI_WRITE, (uint8_t)(TXB0CTRL + 0x10 * e->g->chip.flight), 0};
        add_session(e, bytes, sizeof bytes);
    }
    if (below(dice, 3) == 0) {
        uint8_t bytes[] = {SPI_BIT_MODIFY, CANCTRL, REQOP, (uint8_t)(below(dice, 8) << 5)};
        add_session(e, bytes, sizeof bytes);
    }
    if (below(dice, 6) == 0) {
        uint8_t bytes[] = {SPI_BIT_MODIFY, CANCTRL, ABAT | OSM, any_byte(dice)};
        add_session(e, bytes, sizeof bytes);
    }
}

/* Select is high: what else makes a load worth a look. */
static void leave_ready(struct log_end *e, uint64_t *dice)
{
    const struct model *chip = &e->g->chip;
    if ((chip->mode == MODE_SLEEP || chip->mode == MODE_LOOPBACK) && below(dice, 5))
        leave_mode(e, dice);
    if (below(dice, 4) == 0)
        leave_empty(e, dice);
    if (chip->mode == MODE_CONFIGURATION && below(dice, 4) == 0)
        leave_pins(e);
    if (chip->mode == MODE_NORMAL && below(dice, 3) == 0)
        leave_waiting(e, dice);
    if (chip->mode == MODE_NORMAL && below(dice, 15) == 0)
        leave_bus_off(e, dice);
}

size_t load_draw_log(struct gen *g, uint64_t *dice, uint8_t *log)
{
    struct log_end e = {g, log};
    unsigned most = below(dice, 3) ? 20 : LOAD_LOG_MOST - LEAVE_MOST;
    for (unsigned n = below(dice, most); n > 0; n--) {
        gen_record(g, e.at);
        e.at += RECORD_BYTES;
    }
    if (g->chip.selected != SELECT_HIGH && below(dice, 12))
        add_record(&e, KIND_SELECT_HIGH, 0, g->chip.selected == SELECT_BY_PANEL);
    if (g->chip.selected == SELECT_HIGH)
        leave_ready(&e, dice);
    return (size_t)(e.at - log) / RECORD_BYTES;
}

/* ---- chips by their bytes ---- */

enum { AT_CANCTRL = 128, AT_TXB0CTRL = 132, AT_MODE = 140, AT_SPARE = 150 };

static void draw_state(uint8_t *bytes, uint64_t *dice)
{
    static const uint8_t modes[] = {MODE_NORMAL, MODE_NORMAL, MODE_LISTEN_ONLY, MODE_CONFIGURATION};
    bytes[AT_MODE] = below(dice, 6) ? modes[below(dice, sizeof modes)] : any_byte(dice);
    bytes[MCP2515_PLACE_MODE_REQUESTED] = (uint8_t)below(dice, MODES + 3);
    bytes[MCP2515_PLACE_FLIGHT] = (uint8_t)(below(dice, 2) ? NO_FLIGHT : below(dice, NO_FLIGHT));
    bytes[MCP2515_PLACE_TEC_HIGH] = (uint8_t)(below(dice, 3) ? 0 : any_byte(dice));
    for (unsigned n = 0; n < REQUEST_PINS; n++)
        if (below(dice, 3))
            bytes[AT_TXB0CTRL + n] &= (uint8_t)~TXREQ;
    if (below(dice, 2))
        bytes[AT_CANCTRL] &= (uint8_t)~ABAT;
}

void load_draw_chip(uint8_t *bytes, uint64_t *dice)
{
    if (below(dice, 3) == 0)
        for (unsigned i = 0; i < MCP2515_CHIP_SIZE; i++)
            bytes[i] = any_byte(dice);
    for (unsigned n = below(dice, 12); n > 0; n--)
        bytes[below(dice, AT_CANCTRL)] = any_byte(dice);
    for (unsigned n = below(dice, 12); n > 0; n--)
        bytes[AT_CANCTRL + below(dice, AT_SPARE - AT_CANCTRL)] = any_byte(dice);
    if (below(dice, 6))
        draw_state(bytes, dice);
    if (below(dice, 8))
        bytes[MCP2515_PLACE_OPEN] = 0;
    bytes[MCP2515_PLACE_VERSION] = MCP2515_CHIP_VERSION;
}
