#include "gen.h"

#include <string.h>

#include "registers.h"

/* ---- random numbers ---- */

uint64_t gen_next(uint64_t *state)
{
    uint64_t z = *state += 0x9E3779B97F4A7C15u;
    z = (z ^ z >> 30) * 0xBF58476D1CE4E5B9u;
    z = (z ^ z >> 27) * 0x94D049BB133111EBu;
    return z ^ z >> 31;
}

static unsigned below(struct gen *g, unsigned n)
{
    return (unsigned)((gen_next(&g->state) >> 33) % n);
}

static bool chance(struct gen *g, unsigned of_256)
{
    return below(g, 256) < of_256;
}

static uint8_t any_byte(struct gen *g)
{
    return (uint8_t)below(g, 256);
}

#define PICK(g, list) ((list)[below((g), sizeof(list) / sizeof *(list))])

/* ---- identifiers and data: few values, so that filters match ---- */

static uint16_t some_sid(struct gen *g)
{
    static const uint16_t sids[] = {0x000, 0x001, 0x123, 0x124, 0x555, 0x7FF};
    return chance(g, 8) ? (uint16_t)below(g, 0x800) : PICK(g, sids);
}

static uint32_t some_eid(struct gen *g)
{
    static const uint32_t eids[] = {0x00000, 0x00055, 0x15678, 0x3FFFF, 0x05500};
    return chance(g, 8) ? below(g, 0x40000) : PICK(g, eids);
}

static uint8_t some_data(struct gen *g)
{
    static const uint8_t values[] = {0x00, 0x00, 0x55, 0x56, 0xFF};
    return chance(g, 32) ? any_byte(g) : PICK(g, values);
}

/* Every length code; 0, 1 and 2 more often, where the filters see none, one
 * and two data bytes. */
static uint8_t some_code(struct gen *g)
{
    return (uint8_t)below(g, chance(g, 50) ? 3 : LENGTH_CODE_MAX + 1);
}

static void id_bytes(struct gen *g, uint8_t out[4])
{
    uint16_t sid = some_sid(g);
    uint32_t eid = some_eid(g);
    out[RXF_SIDH] = (uint8_t)(sid >> 3);
    out[RXF_SIDL] = (uint8_t)(sid << 5 | (chance(g, 128) ? IDE : 0) | eid >> 16);
    out[RXF_EID8] = (uint8_t)(eid >> 8);
    out[RXF_EID0] = (uint8_t)eid;
}

/* A filter to aim a frame at. Extended ones are fewer, so a standard one is
 * drawn again; in Loopback, where frames are fewer too, once more. */
static const uint8_t *some_filter(struct gen *g)
{
    static const uint8_t filter_at[6] = {RXF0SIDH, RXF1SIDH, RXF2SIDH,
                                         RXF3SIDH, RXF4SIDH, RXF5SIDH};
    const uint8_t *filter = &g->chip.reg[PICK(g, filter_at)];
    for (unsigned draws = g->chip.mode == MODE_LOOPBACK ? 2 : 1; draws > 0; draws--)
        if (!(filter[RXF_SIDL] & IDE))
            filter = &g->chip.reg[PICK(g, filter_at)];
    return filter;
}

/* Turns one bit that the filter's mask has, of the identifier or of data bytes 0 and 1. */
static void miss_by_one_bit(struct gen *g, const uint8_t *filter, uint8_t out[4 + DATA_BYTES_MAX])
{
    const uint8_t *mask = &g->chip.reg[filter < &g->chip.reg[RXF2SIDH] ? RXM0SIDH : RXM1SIDH];
    bool extended = filter[RXF_SIDL] & IDE;
    unsigned byte = 0;
    uint8_t bit = 0;
    for (unsigned draws = 0; draws < 12 && bit == 0; draws++) {
        byte = below(g, 4);
        bit = mask[byte] & (uint8_t)(1u << below(g, 8));
    }
    out[byte < RXF_EID8 || extended ? byte : 4 + byte - RXF_EID8] ^= bit;
}

/* A frame as SIDH, SIDL, EID8, EID0 and eight data bytes. Most are aimed at a
 * filter: they have its identifier, and its EID bytes as data bytes 0 and 1,
 * often one of the two alone; or they miss it by one bit. */
static void message_bytes(struct gen *g, uint8_t out[4 + DATA_BYTES_MAX])
{
    const uint8_t *filter = some_filter(g);
    for (unsigned i = 0; i < DATA_BYTES_MAX; i++)
        out[4 + i] = some_data(g);
    if (chance(g, 80)) {
        id_bytes(g, out);
        return;
    }
    memcpy(out, filter, 4);
    bool near = g->profile == GEN_MIXED && chance(g, 70);
    for (unsigned i = 0; i < 2; i++)
        if (near || chance(g, 150))
            out[4 + i] = filter[RXF_EID8 + i];
    if (near)
        miss_by_one_bit(g, filter, out);
}

/* ---- bus events ---- */

static void make_frame(struct gen *g, uint8_t *r)
{
    uint8_t bytes[4 + DATA_BYTES_MAX];
    message_bytes(g, bytes);
    uint32_t id = (uint32_t)(bytes[RXF_SIDH] << 3 | bytes[RXF_SIDL] >> 5);
    r[0] = KIND_FRAME;
    r[1] = bytes[RXF_SIDL] & IDE ? FRAME_EXTENDED : 0;
    if (r[1])
        id = id << 18 | (uint32_t)(bytes[RXF_SIDL] & EID_HIGH) << 16 |
             (uint32_t)(bytes[RXF_EID8] << 8 | bytes[RXF_EID0]);
    if (chance(g, 60))
        r[1] |= FRAME_REMOTE;
    r[2] = some_code(g);
    for (unsigned i = 0; i < 4; i++)
        r[4 + i] = (uint8_t)(id >> (24 - 8 * i));
    memcpy(r + 8, bytes + 4, model_carried_bytes(r[1] & FRAME_REMOTE, r[2]));
}

static bool any_txreq(const struct model *m)
{
    return ((m->reg[TXB0CTRL] | m->reg[TXB1CTRL] | m->reg[TXB2CTRL]) & TXREQ) != 0;
}

/* Bus idle, seldom where no buffer waits and in bus-off outside Loopback. In
 * Loopback little else happens. */
static unsigned idle_chance(const struct model *m)
{
    if (!any_txreq(m))
        return 16;
    if (m->mode == MODE_LOOPBACK)
        return 220;
    return model_bus_off(m) ? 16 : 140;
}

/* ---- request pins ---- */

static bool pin_is_enabled(const struct model *m, unsigned n)
{
    return m->reg[TXRTSCTRL] & B0RTSM << n;
}

/* A fall meets flags that it clears or leaves, or the flight of its own buffer. */
static bool is_worth_a_fall(const struct model *m, unsigned n)
{
    uint8_t flags = m->reg[TXB0CTRL + 0x10 * n] & (ABTF | MLOA | TXERR);
    return pin_is_enabled(m, n) && (flags || m->flight == n);
}

/* Drawn again if it is not enabled, and now and then if a fall would do no more than usual. */
static unsigned some_pin(struct gen *g)
{
    unsigned n = below(g, REQUEST_PINS);
    if (!pin_is_enabled(&g->chip, n) || (!is_worth_a_fall(&g->chip, n) && chance(g, 128)))
        n = below(g, REQUEST_PINS);
    return n;
}

/* Mostly the other level. */
static void make_pin(struct gen *g, uint8_t *r, unsigned n)
{
    r[0] = KIND_REQUEST_PIN;
    r[1] = (uint8_t)n;
    r[2] = chance(g, 210) ? !g->chip.level[n] : g->chip.level[n];
}

/* LOAD TX BUFFER goes on: a fall on its own pin locks the rest of it out. */
static bool is_loading(const struct gen *g)
{
    bool load = g->plan[0] >= SPI_LOAD_TX && g->plan[0] < SPI_LOAD_TX + 2 * REQUEST_PINS;
    return g->chip.open == OPEN_WRITE && g->sent > 0 && load;
}

/* On the bus, and the firmware has taken its TXREQ back: a fall asks for it again. */
static bool is_taken_back(const struct model *m)
{
    return m->flight != NO_FLIGHT && !(m->reg[TXB0CTRL + 0x10 * m->flight] & TXREQ);
}

/* More often where a fall must not request, where it holds a mode and inside a LOAD; else
 * seldom in Loopback, where it sends buffers that have no new message. */
static unsigned pin_chance(const struct gen *g)
{
    const struct model *m = &g->chip;
    bool abat = m->reg[CANCTRL] & ABAT;
    if (is_taken_back(m))
        return abat ? 200 : 100;
    if (abat || m->request != NO_REQUEST || is_loading(g) || model_bus_off(m))
        return 2 * g->mix.pins;
    return m->mode == MODE_LOOPBACK ? g->mix.pins / 3 : g->mix.pins;
}

/* Mostly that of the buffer which is loaded or taken back. */
static void make_any_pin(struct gen *g, uint8_t *r)
{
    bool own = chance(g, 160);
    if (own && is_loading(g))
        make_pin(g, r, (g->plan[0] & 7u) / 2);
    else if (own && is_taken_back(&g->chip))
        make_pin(g, r, g->chip.flight);
    else
        make_pin(g, r, some_pin(g));
}

static void make_event(struct gen *g, uint8_t *r)
{
    const struct model *m = &g->chip;
    if (m->flight != NO_FLIGHT && chance(g, 230)) {
        r[0] = KIND_FRAME_ENDS;
        if (chance(g, g->mix.failure) && (m->mode != MODE_LOOPBACK || chance(g, 20)))
            r[1] = chance(g, 60) ? END_LOST : END_ERROR;
    } else if (model_bus_off(m) && chance(g, 12)) {
        r[0] = KIND_RECOVERY;
    } else if (chance(g, idle_chance(m))) {
        r[0] = KIND_BUS_IDLE;
    } else if (chance(g, m->mode == MODE_NORMAL ? g->mix.failure : 12)) {
        r[0] = KIND_RECEIVE_ERROR;
        r[1] = chance(g, 150) ? 1 : 0;
    } else if (chance(g, 4)) {
        r[0] = chance(g, 128) ? KIND_RECOVERY : KIND_FRAME_ENDS;
    } else {
        make_frame(g, r);
    }
}

/* ---- records that are refused ---- */

/* One byte past the data of a code, mostly the first. */
static void add_data_past(struct gen *g, uint8_t *r)
{
    r[1] &= (uint8_t)~FRAME_REMOTE;
    r[2] = (uint8_t)below(g, DATA_BYTES_MAX);
    memset(r + 8, 0, DATA_BYTES_MAX);
    unsigned past = model_data_bytes(r[2]);
    r[8 + (chance(g, 150) ? past : past + below(g, DATA_BYTES_MAX - past))] = 1;
}

static void make_bad_frame(struct gen *g, uint8_t *r)
{
    make_frame(g, r);
    switch (below(g, 6)) {
    case 0: /* one above the highest identifier */
        memset(r + 4, 0, 4);
        r[r[1] & FRAME_EXTENDED ? 4 : 6] = r[1] & FRAME_EXTENDED ? 0x20 : 0x08;
        break;
    case 1:
        r[1] |= FRAME_REMOTE;
        r[8 + below(g, DATA_BYTES_MAX)] |= 1;
        break;
    case 2:
        r[1] = (uint8_t)(4 + below(g, 252));
        break;
    case 3:
        add_data_past(g, r);
        break;
    case 4:
        r[2] = LENGTH_CODE_MAX + 1;
        break;
    default:
        r[2] = (uint8_t)(LENGTH_CODE_MAX + 2 + below(g, 254 - LENGTH_CODE_MAX));
        break;
    }
}

/* One field out of range, or a byte without a name. */
static void make_bad_pin(struct gen *g, uint8_t *r)
{
    make_pin(g, r, below(g, REQUEST_PINS));
    switch (below(g, 4)) {
    case 0:
        r[1] = REQUEST_PINS;
        break;
    case 1:
        r[2] = PIN_LEVEL_MAX + 1;
        break;
    case 2:
        r[1 + below(g, 2)] = any_byte(g);
        break;
    default:
        r[3 + below(g, 13)] = (uint8_t)(1u << below(g, 8));
        break;
    }
}

static uint8_t some_speaker(struct gen *g)
{
    return (uint8_t)(g->alone ? 0 : below(g, SPEAKERS));
}

static void make_bad(struct gen *g, uint8_t *r)
{
    switch (below(g, 7)) {
    case 0: /* select in the wrong state */
        r[0] = g->chip.selected ? KIND_SELECT_LOW : chance(g, 128) ? KIND_EXCHANGE
                                                                    : KIND_SELECT_HIGH;
        r[2] = some_speaker(g);
        break;
    case 1:
        r[0] = (uint8_t)(KINDS + below(g, 256 - KINDS));
        break;
    case 2:
        make_bad_frame(g, r);
        break;
    case 3: /* a byte without a name */
        r[0] = (uint8_t)below(g, KINDS);
        r[2 + below(g, 14)] = (uint8_t)(1 + below(g, 255));
        break;
    case 4:
        r[0] = chance(g, 128) ? KIND_FRAME_ENDS : KIND_RECEIVE_ERROR;
        r[1] = (uint8_t)below(g, 6);
        break;
    case 5:
        make_bad_pin(g, r);
        break;
    default: /* an event at the wrong time, or just a rare one */
        r[0] = (uint8_t)(KIND_FRAME + below(g, 5));
        break;
    }
}

static uint8_t owner_of(const struct model *m)
{
    return m->selected == SELECT_BY_PANEL ? SPEAKER_PANEL : SPEAKER_CONTROLLER;
}

/* By the one who has not selected, or select low though it is low, or anything else though
 * it is high. */
static void make_untimely(struct gen *g, uint8_t *r)
{
    bool low = g->chip.selected;
    r[0] = (uint8_t)(low ? below(g, KIND_FRAME) : KIND_EXCHANGE + below(g, 2));
    r[2] = low && r[0] != KIND_SELECT_LOW ? !owner_of(&g->chip) : some_speaker(g);
}

/* A select or exchange that only a wrong chip takes: out of its time, by somebody whom there
 * is not, or with a byte that has no name. */
static void make_cut_in(struct gen *g, uint8_t *r)
{
    unsigned sort = below(g, 8);
    if (sort < 4 || chance(g, 60)) {
        make_untimely(g, r);
    } else {
        r[0] = (uint8_t)(g->chip.selected ? KIND_EXCHANGE + below(g, 2) : KIND_SELECT_LOW);
        r[2] = g->chip.selected ? owner_of(&g->chip) : some_speaker(g);
    }
    if (r[0] == KIND_EXCHANGE)
        r[1] = any_byte(g);
    if (sort == 4 || sort == 5)
        r[2] = (uint8_t)(chance(g, 128) ? SPEAKERS : SPEAKERS + below(g, 256 - SPEAKERS));
    if (sort > 5)
        r[r[0] != KIND_EXCHANGE && chance(g, 100) ? 1 : 3 + below(g, 13)] |= 1;
}

/* ---- sessions ---- */

static void add(struct gen *g, uint8_t byte)
{
    if (g->planned < sizeof g->plan)
        g->plan[g->planned++] = byte;
}

static void add_random(struct gen *g, unsigned count)
{
    while (count-- > 0)
        add(g, any_byte(g));
}

static void add_write(struct gen *g, uint8_t address, uint8_t value)
{
    g->changed = address;
    add(g, SPI_WRITE);
    add(g, address);
    add(g, value);
}

static void add_modify(struct gen *g, uint8_t address, uint8_t mask, uint8_t data)
{
    g->changed = address;
    add(g, SPI_BIT_MODIFY);
    add(g, address);
    add(g, mask);
    add(g, data);
}

/* Half of them registers with a life of their own, sometimes above 7Fh. */
static uint8_t some_address(struct gen *g)
{
    static const uint8_t lively[] = {BFPCTRL,  TXRTSCTRL, CANSTAT,  CANCTRL,  TEC,  REC,  CNF3,
                                     CNF2,     CNF1,      CANINTE,  CANINTF,  EFLG, 0x35, TXB0CTRL,
                                     TXB1CTRL, TXB2CTRL,  RXB0CTRL, RXB1CTRL, 0x62, 0x72};
    uint8_t address = chance(g, 128) ? PICK(g, lively) : (uint8_t)below(g, 128);
    return chance(g, 30) ? address | 0x80 : address;
}

/* An address to write at by chance. CANCTRL mostly not: its random modes
 * would keep the chip from staying anywhere. */
static uint8_t address_to_change(struct gen *g)
{
    uint8_t address = some_address(g);
    if ((address & 0x0F) == CANCTRL && chance(g, 200))
        address = TXB1CTRL;
    return address;
}

static void plan_read(struct gen *g)
{
    unsigned replies = chance(g, 160) ? 1 : chance(g, 8) ? 140 : 2 + below(g, 20);
    add(g, SPI_READ);
    add(g, chance(g, 90) ? g->changed ^ (chance(g, 20) ? 0x80 : 0) : some_address(g));
    add_random(g, replies);
}

/* The counters, their flags and ERRIF. */
static void plan_watch(struct gen *g)
{
    static const uint8_t places[] = {CANINTF, EFLG, EFLG, TEC, REC};
    if (chance(g, 40)) {
        add_write(g, CANINTF, 0);
        return;
    }
    add(g, SPI_READ);
    add(g, PICK(g, places));
    add_random(g, 1 + below(g, 2));
}

static void plan_write(struct gen *g)
{
    add_write(g, address_to_change(g), any_byte(g));
}

/* Runs may pass CANSTAT and CANCTRL, and 7Fh to 00h. */
static void plan_write_run(struct gen *g)
{
    static const uint8_t starts[] = {0x0C, 0x1A, 0x28, 0x2B, 0x30, 0x3C, 0x4D,
                                     0x5E, 0x60, 0x6F, 0x7D, 0x7F, 0xFE};
    unsigned bytes = 2 + below(g, 5);
    uint8_t address = chance(g, 180) ? PICK(g, starts) : any_byte(g);
    add(g, SPI_WRITE);
    add(g, address);
    for (unsigned i = 0; i < bytes; i++) {
        bool canctrl = ((address + i) & 0x0F) == CANCTRL;
        add(g, canctrl && chance(g, 200) ? (uint8_t)(g->mix.favoured << 5 | 7) : any_byte(g));
    }
}

static void plan_modify(struct gen *g)
{
    add_modify(g, address_to_change(g), any_byte(g), any_byte(g));
}

static void plan_canctrl(struct gen *g)
{
    uint8_t mode = chance(g, 190) ? g->mix.favoured : (uint8_t)below(g, 8);
    uint8_t value = (uint8_t)(mode << 5 | below(g, 8));
    uint8_t address = (uint8_t)(CANCTRL | below(g, 8) << 4);
    if (chance(g, 40))
        value |= ABAT;
    if (chance(g, 50))
        value |= OSM;
    if (chance(g, 128)) {
        static const uint8_t masks[] = {0xE0, ABAT, OSM, 0x07, 0xFF, 0xF8, 0x00};
        add_modify(g, address, PICK(g, masks), value);
    } else {
        add_write(g, address, value);
    }
}

static void plan_filters(struct gen *g)
{
    static const uint8_t groups[] = {RXF0SIDH, RXF3SIDH, RXM0SIDH, RXM0SIDH};
    uint8_t start = PICK(g, groups);
    unsigned count = start == RXM0SIDH ? 2 : 1 + below(g, 3);
    add(g, SPI_WRITE);
    add(g, start);
    for (unsigned i = 0; i < count; i++) {
        static const uint8_t masks[][4] = {{0, 0, 0, 0},          {0xFF, 0xE3, 0xFF, 0xFF},
                                           {0xFF, 0xE0, 0, 0},    {0xFF, 0xE3, 0, 0},
                                           {0x01, 0x20, 0x01, 0}, {0xFF, 0xE3, 0xFF, 0},
                                           {0, 0, 0xFF, 0xFF}};
        uint8_t bytes[4];
        id_bytes(g, bytes);
        if (chance(g, 100)) /* those not yet written are standard */
            bytes[RXF_SIDL] |= IDE;
        const uint8_t *from = start == RXM0SIDH ? PICK(g, masks) : bytes;
        bool any_mask = g->profile == GEN_MIXED && start == RXM0SIDH && chance(g, 80);
        for (unsigned j = 0; j < 4; j++)
            add(g, any_mask ? any_byte(g) : from[j]);
    }
}

static void plan_rxctrl(struct gen *g)
{
    uint8_t address = chance(g, 128) ? RXB0CTRL : RXB1CTRL;
    uint8_t value = any_byte(g) & (BUKT | BUKT1 | RXRTR | FILHIT0);
    if (chance(g, 50))
        value |= RXM;
    else if (chance(g, 50))
        value |= chance(g, 128) ? 0x20 : 0x40;
    if (chance(g, 128))
        add_write(g, address, value);
    else
        add_modify(g, address, chance(g, 128) ? 0xFF : any_byte(g), value);
}

static void plan_flags(struct gen *g)
{
    uint8_t bit = (uint8_t)(1u << below(g, 8));
    switch (below(g, 7)) {
    case 0:
        add_write(g, CANINTF, 0);
        break;
    case 1:
    case 2:
        add_modify(g, CANINTF, RX0IF | RX1IF, 0);
        break;
    case 3:
        add_modify(g, CANINTF, bit, 0);
        break;
    case 4:
        add_modify(g, CANINTF, bit, bit);
        break;
    case 5:
        add_write(g, CANINTE, chance(g, 128) ? (uint8_t)(any_byte(g) | WAKIF) : any_byte(g));
        break;
    default:
        add_write(g, EFLG, chance(g, 200) ? 0 : any_byte(g));
        break;
    }
}

/* Bytes after the code of READ RX BUFFER and LOAD TX BUFFER, at the limits
 * of the listed commands and one past them. */
static unsigned buffer_limit(struct gen *g)
{
    static const uint8_t lengths[] = {8, 9, 13, 14};
    return PICK(g, lengths);
}

/* LOAD TX BUFFER at a limit may run over CANCTRL and the next TXBnCTRL. */
static void add_load_to_limit(struct gen *g, unsigned which)
{
    unsigned start = TXB0CTRL + 8 * (which & 6) + (which & 1 ? D0 : SIDH);
    for (unsigned bytes = buffer_limit(g); g->planned < 1 + bytes;) {
        unsigned low = (start + g->planned - 1) & 0x0F;
        add(g, low == CANCTRL ? (uint8_t)(g->mix.favoured << 5 | 7) : some_data(g));
    }
}

/* Of a TX buffer; bits 7, 5 and 4 take no write. More are remote than not,
 * since a buffer that was never loaded sends a data frame. */
static uint8_t some_dlc(struct gen *g)
{
    return (uint8_t)(some_code(g) | (chance(g, 140) ? RTR : 0) | (chance(g, 20) ? 0xB0 : 0));
}

static void plan_load(struct gen *g)
{
    unsigned which = 2 * below(g, 3) + (chance(g, 100) ? 1 : 0);
    uint8_t bytes[4 + DATA_BYTES_MAX];
    message_bytes(g, bytes);
    add(g, (uint8_t)(SPI_LOAD_TX + which));
    if (which % 2 == 0) {
        for (unsigned j = 0; j < 4; j++)
            add(g, bytes[j]);
        add(g, some_dlc(g));
        g->loaded |= (uint8_t)(1u << which / 2);
    }
    if (chance(g, 50)) {
        add_load_to_limit(g, which);
        return;
    }
    for (unsigned i = 0, count = below(g, DATA_BYTES_MAX + 1); i < count; i++)
        add(g, bytes[4 + i]);
}

static void plan_rts(struct gen *g)
{
    uint8_t buffers = g->loaded && chance(g, 220) ? g->loaded : (uint8_t)below(g, 8);
    add(g, SPI_RTS | buffers);
    g->loaded &= (uint8_t)~buffers;
}

static void plan_txctrl(struct gen *g)
{
    uint8_t address = (uint8_t)(TXB0CTRL + 0x10 * below(g, 3));
    uint8_t value = (uint8_t)(below(g, 4) | (chance(g, 170) ? TXREQ : 0));
    if (chance(g, 128))
        add_write(g, address, value);
    else
        add_modify(g, address, chance(g, 128) ? TXREQ : any_byte(g), value);
}

/* What the firmware may do to a frame that is already on the bus. */
static void plan_in_flight(struct gen *g)
{
    unsigned n = g->chip.flight % 3;
    uint8_t ctrl = (uint8_t)(TXB0CTRL + 0x10 * n);
    uint8_t canctrl = g->chip.reg[CANCTRL];
    if (g->mix.pins > 0 && is_taken_back(&g->chip) && chance(g, 80)) {
        add_write(g, CANCTRL, canctrl | ABAT); /* then no fall asks for it again */
        return;
    }
    switch (below(g, 6)) {
    case 0:
    case 1:
        add_modify(g, ctrl, TXREQ, 0);
        break;
    case 2:
        add(g, (uint8_t)(SPI_RTS | 1u << n));
        break;
    case 3:
        add_write(g, CANCTRL, canctrl ^ ABAT);
        break;
    case 4:
        add_write(g, CANCTRL, canctrl ^ OSM);
        break;
    default:
        add(g, (uint8_t)(SPI_LOAD_TX + 2 * n));
        add_random(g, below(g, 6));
        break;
    }
}

/* In Loopback: TXREQ, which ABAT must not bar, so that bus idle finds one. */
static void plan_bus_off_loopback(struct gen *g)
{
    if (g->chip.reg[CANCTRL] & ABAT)
        add_write(g, CANCTRL, MODE_LOOPBACK << 5 | 7);
    else
        add(g, (uint8_t)(SPI_RTS | below(g, 8)));
}

/* Out of Normal by ABAT, since TXREQ would hold the mode in bus-off. */
static void plan_bus_off(struct gen *g)
{
    uint8_t mode = chance(g, 128) ? MODE_SLEEP : MODE_LOOPBACK;
    if (g->chip.mode == MODE_LOOPBACK)
        plan_bus_off_loopback(g);
    else if (g->chip.mode == MODE_SLEEP || chance(g, 100))
        add_write(g, CANINTE, 0xFF); /* so that a frame can wake it */
    else
        add_write(g, CANCTRL, (uint8_t)(mode << 5 | ABAT | 7));
}

static void plan_read_rx(struct gen *g)
{
    uint8_t flags = g->chip.reg[CANINTF];
    unsigned which = below(g, 4);
    if (chance(g, 200)) /* mostly of a full buffer */
        which = (flags & RX0IF ? 0 : 2) + below(g, 2);
    add(g, (uint8_t)(SPI_READ_RX + 2 * which));
    add_random(g, chance(g, 80) ? buffer_limit(g) : below(g, which % 2 ? 9 : 14));
}

static void plan_status(struct gen *g)
{
    add(g, chance(g, 128) ? SPI_READ_STATUS : SPI_RX_STATUS);
    add_random(g, chance(g, 200) ? 1 : below(g, 4));
}

static void plan_reset(struct gen *g)
{
    add(g, SPI_RESET);
    g->looks = 1 + below(g, 4);
}

/* What RESET kept and cleared: a row, or a receive status once the firmware
 * has made a buffer full again. */
static void plan_look(struct gen *g)
{
    static const uint8_t rows[] = {0x00, 0x00, 0x0C, 0x10, 0x10, 0x1C, 0x20, 0x20,
                                   0x28, 0x30, 0x40, 0x50, 0x60, 0x60, 0x70, 0x70};
    static const uint8_t flags[] = {RX0IF, RX1IF, RX1IF, RX0IF | RX1IF};
    const uint8_t *reg = g->chip.reg;
    bool full = reg[CANINTF] & (RX0IF | RX1IF);
    bool remote = (reg[RXB0CTRL + DLC] | reg[RXB1CTRL + DLC]) & RTR; /* worth a status */
    if (full && chance(g, 180)) {
        add(g, SPI_RX_STATUS);
        add_random(g, 1);
    } else if (!full && chance(g, remote ? 160 : 60)) {
        add_write(g, CANINTF, PICK(g, flags));
        return; /* the status is still to come */
    } else {
        add(g, SPI_READ);
        add(g, PICK(g, rows));
        add_random(g, 15);
    }
    g->looks -= g->looks > 0;
}

/* RESET where it has more to clear than registers. */
static unsigned reset_weight(const struct model *m)
{
    unsigned weight = 0;
    if (m->flight != NO_FLIGHT)
        weight += 2;
    if (m->request != NO_REQUEST)
        weight += 8;
    if (model_bus_off(m))
        weight += 8;
    if (m->mode == MODE_SLEEP)
        weight += 2;
    if ((m->reg[CANINTF] & (RX0IF | RX1IF)) == (RX0IF | RX1IF))
        weight += 1;
    return weight;
}

/* The enables, and a look at the levels; WRITE and BIT MODIFY outside Configuration too. */
static void plan_pins(struct gen *g)
{
    static const uint8_t masks[] = {0x07, 0x07, 0x01, 0x02, 0x04, 0x38, 0xFF};
    uint8_t more = chance(g, 80) ? 0x07 : 0x00;
    uint8_t value = chance(g, 60) ? any_byte(g) : (uint8_t)(below(g, 8) | (any_byte(g) & more));
    bool closed = g->chip.mode != MODE_CONFIGURATION;
    switch (below(g, closed ? 6 : 4)) {
    case 0:
        add_write(g, TXRTSCTRL, value);
        break;
    case 1:
        add_modify(g, TXRTSCTRL, PICK(g, masks), value);
        break;
    default:
        add(g, SPI_READ);
        add(g, TXRTSCTRL);
        add_random(g, 1);
        break;
    }
}

static void plan_unknown(struct gen *g)
{
    static const uint8_t codes[] = {0x00, 0x01, 0x04, 0x06, 0x46, 0x47, 0x88, 0x8F,
                                    0x91, 0x97, 0xA1, 0xB1, 0xC1, 0xE0, 0xFF};
    add(g, PICK(g, codes));
    if (chance(g, 60))
        add_random(g, 1 + below(g, chance(g, 100) ? 20 : 3));
}

static void plan_wild(struct gen *g)
{
    add_random(g, below(g, 7));
}

enum {
    PLAN_READ,
    PLAN_WRITE,
    PLAN_WRITE_RUN,
    PLAN_MODIFY,
    PLAN_CANCTRL,
    PLAN_FILTERS,
    PLAN_RXCTRL,
    PLAN_FLAGS,
    PLAN_LOAD,
    PLAN_RTS,
    PLAN_TXCTRL,
    PLAN_READ_RX,
    PLAN_STATUS,
    PLAN_RESET,
    PLAN_UNKNOWN,
    PLAN_WILD,
    PLAN_IN_FLIGHT,
    PLAN_BUS_OFF,
    PLAN_WATCH,
    PLAN_LOOK,
    PLAN_PINS,
    PLANS
};

static void (*const planners[PLANS])(struct gen *) = {
    plan_read,   plan_write, plan_write_run, plan_modify, plan_canctrl,   plan_filters,
    plan_rxctrl, plan_flags, plan_load,      plan_rts,    plan_txctrl,    plan_read_rx,
    plan_status, plan_reset, plan_unknown,   plan_wild,   plan_in_flight, plan_bus_off,
    plan_watch,  plan_look,  plan_pins,
};

static const unsigned char weights[GEN_PROFILES][PLANS] = {
    [GEN_MIXED] = {14, 6, 4, 8, 0, 2, 5, 14, 12, 10, 8, 12, 10, 1, 5, 3},
    [GEN_QUIET] = {120, 4, 1, 6, 2, 1, 1, 6, 4, 3, 2, 8, 30, 0, 1, 1},
    [GEN_BUSY] = {4, 1, 0, 1, 1, 1, 1, 8, 10, 10, 3, 20, 3, 0, 0, 0},
};

static bool at_limit(unsigned counter)
{
    return (counter > 93 && counter < 98) || (counter > 125 && counter < 130);
}

/* A counter next to a value where its flags change. */
static bool near_limit(const struct model *m)
{
    return at_limit(m->tec) || at_limit(m->rec);
}

/* The weights of the profile, bent by what the chip could use now. */
static void weigh_plans(const struct gen *g, unsigned weight[PLANS])
{
    const struct model *m = &g->chip;
    for (unsigned i = 0; i < PLANS; i++)
        weight[i] = weights[g->profile][i];
    weight[PLAN_CANCTRL] += m->mode == g->mix.favoured ? g->mix.mode_changes : 20u;
    if (m->reg[CANCTRL] & ABAT)
        weight[PLAN_CANCTRL] += 15;
    if (m->mode == MODE_CONFIGURATION)
        weight[PLAN_FILTERS] += 30;
    if ((m->mode == MODE_NORMAL || m->mode == MODE_LOOPBACK) && !any_txreq(m))
        weight[PLAN_RTS] += 15;
    if (m->mode == MODE_LOOPBACK && !any_txreq(m)) /* a new message for each frame */
        weight[g->loaded ? PLAN_RTS : PLAN_LOAD] += 100;
    if (m->reg[CANINTF] & (RX0IF | RX1IF))
        weight[PLAN_READ_RX] += m->mode == MODE_LOOPBACK ? 100 : 15;
    if (m->flight != NO_FLIGHT)
        weight[PLAN_IN_FLIGHT] = 30;
    if (model_bus_off(m) && (m->mode == MODE_NORMAL || m->mode == MODE_SLEEP))
        weight[PLAN_BUS_OFF] = 40;
    if (model_bus_off(m) && m->mode == MODE_LOOPBACK)
        weight[PLAN_BUS_OFF] = 200; /* stays a while */
    if (near_limit(m))
        weight[PLAN_WATCH] = 100;
    if (g->profile == GEN_MIXED)
        weight[PLAN_RESET] += reset_weight(m);
    if (g->looks > 0)
        weight[PLAN_LOOK] = 150;
    if (g->mix.pins > 0)
        weight[PLAN_PINS] = m->mode != MODE_CONFIGURATION ? 6 : m->reg[TXRTSCTRL] ? 15 : 60;
}

static void plan_session(struct gen *g)
{
    unsigned weight[PLANS], total = 0, i;
    weigh_plans(g, weight);
    for (i = 0; i < PLANS; i++)
        total += weight[i];
    unsigned at = below(g, total);
    for (i = 0; at >= weight[i]; i++)
        at -= weight[i];
    g->planned = g->sent = 0;
    planners[i](g);
    if (chance(g, g->mix.overlong / 2)) /* a second instruction where none can start */
        planners[below(g, PLANS)](g);
}

/* ---- sessions of the panel ---- */

/* Bytes behind the code: short, at the limit, past it, and round the addresses. */
static unsigned panel_bytes(struct gen *g, unsigned limit)
{
    switch (below(g, 8)) {
    case 0:
        return limit;
    case 1:
        return limit + 1;
    case 2:
        return limit + 2 + below(g, 5);
    case 3:
        return chance(g, 100) ? 126 + below(g, 33) : limit;
    }
    return below(g, limit + 1);
}

static void panel_read_rx(struct gen *g)
{
    bool data = chance(g, 128);
    add(g, data ? 0x96 : 0x94);
    add_random(g, panel_bytes(g, data ? 8 : 13));
}

static void panel_load(struct gen *g)
{
    bool data = chance(g, 100);
    uint8_t bytes[4 + DATA_BYTES_MAX];
    unsigned count = panel_bytes(g, data ? 8 : 13);
    message_bytes(g, bytes);
    add(g, data ? 0x45 : 0x44);
    for (unsigned i = 0; i < count; i++) {
        unsigned at = data ? i + 5 : i;
        add(g, at < 4 ? bytes[at] : at == 4 ? some_dlc(g) : at < 13 ? bytes[at - 1] : any_byte(g));
    }
    if (!data)
        g->loaded |= 4;
}

static void panel_rts(struct gen *g)
{
    add(g, 0x84);
    g->loaded &= (uint8_t)~4u;
}

/* As the controller would go on with them. */
static void panel_forbidden(struct gen *g)
{
    static const uint8_t codes[] = {0x80, 0x81, 0x82, 0x83, 0x85, 0x86,      0x87,
                                    0x90, 0x92, 0x90, 0x92, 0x40, 0x41,      0x42,
                                    0x43, 0x02, 0x02, 0x05, 0x05, SPI_RESET, SPI_RESET};
    static const uint8_t targets[] = {CANCTRL, TXB0CTRL, TXB1CTRL, TXB2CTRL, CANINTF,
                                      CANINTE, RXB0CTRL, RXF0SIDH, CNF1,     0x51};
    uint8_t code = PICK(g, codes);
    add(g, code);
    if (code == SPI_WRITE || code == SPI_BIT_MODIFY) {
        add(g, PICK(g, targets));
        add_random(g, 1 + below(g, 3));
    } else if (code < SPI_RTS || code >= SPI_READ_RX || chance(g, 40)) {
        add_random(g, chance(g, 100) ? 0 : chance(g, 36) ? 126 + below(g, 33) : below(g, 16));
    }
}

static bool waits_for_tx(const struct model *m)
{
    return m->request != NO_REQUEST || m->flight != NO_FLIGHT;
}

/* What the panel has of its own; what the chip could use comes more often. */
static void plan_own_of_panel(struct gen *g)
{
    const struct model *m = &g->chip;
    bool full = m->reg[CANINTF] & RX1IF, asked = m->reg[TXB2CTRL] & TXREQ;
    bool sends = m->mode == MODE_NORMAL || m->mode == MODE_LOOPBACK;
    if (full && chance(g, 100))
        panel_read_rx(g);
    else if (!asked && m->flight == 2)
        chance(g, 110) ? panel_load(g) : panel_rts(g);
    else if (!asked && ((waits_for_tx(m) && chance(g, 120)) || (sends && chance(g, 50))))
        panel_rts(g);
    else if (!asked && chance(g, 60))
        panel_load(g);
    else
        switch (below(g, 8)) {
        case 0:
            plan_read(g);
            break;
        case 1:
            plan_status(g);
            break;
        case 2:
            panel_read_rx(g);
            break;
        case 3:
            panel_load(g);
            break;
        case 4:
            panel_rts(g);
            break;
        case 5:
            plan_unknown(g);
            break;
        default:
            panel_forbidden(g);
            break;
        }
}

/* Its own, or what the controller would have done: then it is mostly forbidden, and leaves
 * nothing behind that would be worth a look. */
static void plan_panel(struct gen *g)
{
    uint8_t changed = g->changed, loaded = g->loaded;
    unsigned looks = g->looks;
    g->planned = g->sent = 0;
    if (chance(g, 170)) {
        plan_own_of_panel(g);
        g->changed = changed;
        return;
    }
    plan_session(g);
    g->changed = changed;
    g->loaded = loaded;
    g->looks = looks;
}

/* ---- records ---- */

static void draw_panel(struct gen *g)
{
    static const uint8_t panel[] = {0, 0, 0, 40, 110, 150}, cut_in[] = {0, 3, 12};
    g->mix.panel = PICK(g, panel);
    g->mix.cut_in = g->mix.panel ? PICK(g, cut_in) : 0;
}

static void draw_mix(struct gen *g)
{
    static const uint8_t outside[] = {30, 120, 220}, inside[] = {0, 20, 60, 120},
                         bad[] = {0, 6, 40}, cut[] = {0, 8, 40}, failure[] = {10, 80, 220, 250},
                         favoured[] = {MODE_NORMAL, MODE_NORMAL, MODE_NORMAL, MODE_LOOPBACK,
                                       MODE_LOOPBACK, MODE_LOOPBACK, MODE_SLEEP,
                                       MODE_LISTEN_ONLY, MODE_CONFIGURATION},
                         mode_changes[] = {1, 6, 30}, pins[] = {0, 5, 14, 30};
    struct gen_mix *mix = &g->mix;
    mix->event_outside = PICK(g, outside);
    mix->event_inside = PICK(g, inside);
    mix->bad = PICK(g, bad);
    mix->cut = PICK(g, cut);
    mix->overlong = PICK(g, cut);
    mix->failure = PICK(g, failure);
    mix->favoured = PICK(g, favoured);
    mix->mode_changes = PICK(g, mode_changes);
    mix->pins = PICK(g, pins);
    if (mix->failure > 200 && chance(g, 160)) { /* long enough in Normal for bus-off */
        mix->event_outside = 240;
        mix->favoured = MODE_NORMAL;
    }
    g->mix_left = 60 + below(g, 500);
    if (!g->alone)
        draw_panel(g);
}

static void start(struct gen *g, enum gen_profile profile, uint64_t seed, bool alone)
{
    static const struct gen_mix quiet = {12, 4, 2, 2, 2, 10, MODE_NORMAL, 1, 0, 0, 0};
    static const struct gen_mix busy = {235, 20, 1, 1, 1, 20, MODE_NORMAL, 1, 0, 0, 0};
    memset(g, 0, sizeof *g);
    g->state = seed;
    g->profile = profile;
    g->alone = alone;
    model_power_on(&g->chip);
    if (profile == GEN_MIXED)
        draw_mix(g);
    else
        g->mix = profile == GEN_QUIET ? quiet : busy;
}

void gen_start(struct gen *g, enum gen_profile profile, uint64_t seed)
{
    start(g, profile, seed, false);
}

/* Fewer events where they would change nothing, or only lose frames. */
static unsigned event_chance(const struct gen *g, unsigned usual)
{
    const struct model *m = &g->chip;
    if (g->profile == GEN_BUSY && m->mode != MODE_CONFIGURATION)
        return usual;
    if (model_bus_off(m) && m->mode == MODE_NORMAL) /* sessions before it recovers */
        return usual / 3;
    if (near_limit(m))
        return usual / 2;
    if (m->mode == MODE_LOOPBACK && (m->reg[CANINTF] & (RX0IF | RX1IF)))
        return usual / 4;
    if (m->flight != NO_FLIGHT || (m->mode == MODE_NORMAL && any_txreq(m)))
        return usual;
    if (m->mode == MODE_CONFIGURATION || (m->mode == MODE_LOOPBACK && !any_txreq(m)))
        return usual / 6;
    if (m->reg[CANINTF] & (RX0IF | RX1IF) && g->mix.failure < 200)
        return usual / 2;
    return usual;
}

/* READ RX BUFFER has just shown CANSTAT, one byte past its limit: an event
 * that changes CANSTAT tells whether the session counts as listed. */
static bool past_buffer_limit(const struct model *m)
{
    return m->clears != 0 && (m->pointer & 0x0F) == CANCTRL;
}

/* The panel has asked for TXB2 or loads it, and leaves select low for a while: what comes
 * of it before select high is the panel's doing, though no record of it is. */
static bool panel_lingers(const struct gen *g)
{
    bool acts = g->plan[0] == 0x84 || g->plan[0] == 0x44 || g->plan[0] == 0x45;
    return g->chip.selected == SELECT_BY_PANEL && g->sent > 0 && g->sent == g->planned && acts &&
           g->mix.event_inside >= 60;
}

static void inside_session(struct gen *g, uint8_t *r)
{
    if (panel_lingers(g) && chance(g, 200)) {
        make_event(g, r);
        return;
    }
    if (chance(g, (g->mix.event_inside + event_chance(g, g->mix.event_inside)) / 2) ||
        (past_buffer_limit(&g->chip) && chance(g, 200))) {
        make_event(g, r);
        return;
    }
    if (g->sent == g->planned && chance(g, g->mix.overlong))
        add(g, any_byte(g));
    r[2] = owner_of(&g->chip);
    if (g->sent == g->planned || chance(g, g->mix.cut)) {
        r[0] = KIND_SELECT_HIGH;
        return;
    }
    r[0] = KIND_EXCHANGE;
    r[1] = g->plan[g->sent++];
}

/* More often where TXB2 flies and is no longer asked for, unless the controller is wanted
 * there: its ABAT and the fall of a pin make a corner too. */
static unsigned panel_chance(const struct gen *g)
{
    if (g->chip.flight == 2 && is_taken_back(&g->chip))
        return g->mix.pins > 0 ? 70 : 230;
    return g->mix.panel;
}

static void outside_session(struct gen *g, uint8_t *r)
{
    if (chance(g, event_chance(g, g->mix.event_outside))) {
        make_event(g, r);
        return;
    }
    r[0] = KIND_SELECT_LOW;
    if (g->mix.panel > 0 && chance(g, panel_chance(g))) {
        r[2] = SPEAKER_PANEL;
        plan_panel(g);
    } else {
        plan_session(g);
    }
}

/* Before there was a panel, the chip refused a record that named it. */
static bool names_the_panel(const uint8_t *r)
{
    return r[0] <= KIND_SELECT_HIGH && r[2] == SPEAKER_PANEL;
}

void gen_record(struct gen *g, uint8_t record[RECORD_BYTES])
{
    uint8_t refusal, answer;
    memset(record, 0, RECORD_BYTES);
    if (g->profile == GEN_MIXED && g->mix_left-- == 0)
        draw_mix(g);
    if (chance(g, g->mix.bad))
        make_bad(g, record);
    else if (g->mix.cut_in > 0 && chance(g, g->mix.cut_in))
        make_cut_in(g, record);
    else if (g->mix.pins > 0 && chance(g, pin_chance(g)))
        make_any_pin(g, record);
    else if (g->chip.selected)
        inside_session(g, record);
    else
        outside_session(g, record);
    if (!g->alone || !names_the_panel(record))
        model_step(&g->chip, record, &refusal, &answer);
}

static void make_log(enum gen_profile profile, uint64_t seed, bool alone, uint8_t *log,
                     size_t records)
{
    struct gen g;
    start(&g, profile, seed, alone);
    for (size_t i = 0; i < records; i++)
        gen_record(&g, log + RECORD_BYTES * i);
}

void gen_log(enum gen_profile profile, uint64_t seed, uint8_t *log, size_t records)
{
    make_log(profile, seed, false, log, records);
}

void gen_log_alone(enum gen_profile profile, uint64_t seed, uint8_t *log, size_t records)
{
    make_log(profile, seed, true, log, records);
}

/* ---- who speaks ---- */

void gen_hide_speakers(uint8_t *log, size_t records)
{
    for (size_t i = 0; i < records; i++) {
        uint8_t *r = log + RECORD_BYTES * i;
        if (r[0] > KIND_SELECT_HIGH || r[2] == 0)
            continue;
        r[3] |= r[2];
        r[2] = 0;
    }
}

void gen_swap_speakers(uint64_t seed, uint8_t *log, size_t records)
{
    struct gen g = {.state = seed};
    size_t left = below(&g, 40);
    bool swaps = false;
    for (size_t i = 0; i < records; i++) {
        uint8_t *r = log + RECORD_BYTES * i;
        if (left-- == 0) {
            swaps = !swaps;
            left = 1 + below(&g, 40);
        }
        if (r[0] <= KIND_SELECT_HIGH && r[2] < SPEAKERS && swaps != chance(&g, 6))
            r[2] ^= SPEAKER_PANEL;
    }
}

/* ---- noise and damage ---- */

void gen_noise(uint64_t seed, uint8_t *bytes, size_t length)
{
    struct gen g = {.state = seed};
    memset(bytes, 0, length);
    for (size_t i = 0; i < length; i += RECORD_BYTES) {
        size_t left = length - i < RECORD_BYTES ? length - i : RECORD_BYTES;
        bytes[i] = (uint8_t)below(&g, KINDS + 1);
        if (left > 1 && chance(&g, 160))
            bytes[i + 1] = any_byte(&g);
        for (unsigned n = below(&g, 4); n > 1; n--)
            bytes[i + below(&g, (unsigned)left)] = any_byte(&g);
        if (chance(&g, 40))
            for (size_t j = 0; j < left; j++)
                bytes[i + j] = any_byte(&g);
    }
}

void gen_damage(uint64_t seed, uint8_t *log, size_t records)
{
    struct gen g = {.state = seed};
    for (size_t i = 0; i < records; i++)
        if (chance(&g, 8))
            log[RECORD_BYTES * i + below(&g, RECORD_BYTES)] ^= (uint8_t)(1u << below(&g, 8));
}
