/*
 * Lists with one event inside a session. Where the event stands in the tidied
 * list follows from the rules and not from tidy.c: a listed command's event
 * goes in front of its select low if it came before the command's moment, and
 * behind its select high otherwise; in other sessions it stays.
 */
#include <stdarg.h>
#include <stdio.h>

#include "cases.h"
#include "model.h"
#include "registers.h"

enum place { FRONT, STAYS, BEHIND };

/* Every filter matches; every one but RXF1, by but_rxf1. */
enum { ALL = 0x3F, BUT_RXF1 = 0x3D };

static tidied_check *check_list;

__attribute__((format(printf, 2, 3))) static void start(struct tidied_list *t, const char *format,
                                                        ...)
{
    va_list args;
    va_start(args, format);
    vsnprintf(t->name, sizeof t->name, format, args);
    va_end(args);
    script_clear(&t->s);
    t->fall = NO_FALL;
    t->s.file = __FILE__; /* the name tells where */
    t->s.line = __LINE__;
}

/* The next records are a session and its event. */
static void low(struct tidied_list *t)
{
    t->low = t->s.count;
    sc_low(&t->s);
}

/* The next record is the event. */
static struct script *event(struct tidied_list *t)
{
    t->from = t->s.count;
    return &t->s;
}

/* The event is a frame with this set. */
static void hear(struct tidied_list *t, uint8_t answer, uint8_t set)
{
    sc_std(event(t), 0x123, answer);
    sc_set(&t->s, set);
}

/* Select high, after which more may follow. */
static void end_session(struct tidied_list *t, enum place place)
{
    sc_high(&t->s);
    t->to = place == FRONT ? t->low : place == BEHIND ? t->s.count - 1 : t->from;
}

static void high(struct tidied_list *t, enum place place)
{
    end_session(t, place);
    check_list(t);
}

/* The record at place i once the event has gone to another place. */
static size_t with_event_at(const struct tidied_list *t, size_t to, size_t i)
{
    if (i == to)
        return t->from;
    if (to < t->from)
        return i > to && i <= t->from ? i - 1 : i;
    return i >= t->from && i < to ? i + 1 : i;
}

size_t tidied_record(const struct tidied_list *t, size_t i)
{
    return with_event_at(t, t->to, i);
}

size_t fronted_record(const struct tidied_list *t, size_t i)
{
    return with_event_at(t, t->low, i);
}

/* ---- commands of a few exchanges, whole, cut and with a byte more ---- */

/* Exchanges of the whole command. Its moment is the last of them; an unknown
 * code has its moment at select high. */
static const struct {
    uint8_t code;
    unsigned last;
} commands[] = {
    {SPI_RESET, 1}, {SPI_READ, 3}, {SPI_WRITE, 3}, {SPI_BIT_MODIFY, 4}, {SPI_READ_STATUS, 2},
    {SPI_RX_STATUS, 2}, {0x80, 1}, {0x81, 1}, {0x82, 1}, {0x83, 1}, {0x84, 1}, {0x85, 1},
    {0x86, 1}, {0x87, 1}, {0x00, 1}, {0x46, 1}, {0x47, 1}, {0x88, 1}, {0x91, 1}, {0x93, 1},
    {0x95, 1}, {0x97, 1}, {0xFF, 1},
};

static bool is_known(uint8_t code)
{
    return code == SPI_RESET || code == SPI_READ || code == SPI_WRITE || code == SPI_BIT_MODIFY ||
           code == SPI_READ_STATUS || code == SPI_RX_STATUS || (code >= 0x80 && code < 0x88);
}

static enum place command_place(uint8_t code, unsigned last, unsigned exchanges, unsigned before)
{
    if (exchanges > last)
        return STAYS;
    return is_known(code) && exchanges == last && before == last ? BEHIND : FRONT;
}

/* The event is a receive error, which READ of REC sees. */
static void one_command(struct tidied_list *t, uint8_t code, unsigned last, unsigned exchanges,
                        unsigned before)
{
    start(t, "code %02Xh, %u exchanges, event after %u", code, exchanges, before);
    sc_mode(&t->s, MODE_NORMAL);
    low(t);
    for (unsigned i = 0; i <= exchanges; i++) {
        if (i == before)
            sc_rx_error(event(t), 1);
        if (i < exchanges)
            sc_xfer(&t->s, i == 0 ? code : REC, code == SPI_READ && i == 2 && before <= 2 ? 8 : 0);
    }
    high(t, command_place(code, last, exchanges, before));
}

static void short_commands(struct tidied_list *t)
{
    for (size_t c = 0; c < sizeof commands / sizeof *commands; c++)
        for (unsigned exchanges = 0; exchanges <= commands[c].last + 1; exchanges++)
            for (unsigned before = 0; before <= exchanges; before++)
                one_command(t, commands[c].code, commands[c].last, exchanges, before);
}

/* ---- READ RX BUFFER and LOAD TX BUFFER: data byte 7 is the last ---- */

/* Bytes after the code, through data byte 7. */
static const struct {
    uint8_t code, start;
    unsigned most;
} buffers[] = {
    {0x90, 0x61, 13}, {0x92, 0x66, 8}, {0x94, 0x71, 13}, {0x96, 0x76, 8}, {0x40, 0x31, 13},
    {0x41, 0x36, 8},  {0x42, 0x41, 13}, {0x43, 0x46, 8}, {0x44, 0x51, 13}, {0x45, 0x56, 8},
};

/* Addresses 60h to 7Fh with both buffers full, then filters, which read 0. */
static const uint8_t both_full[] = {
    BUKT | BUKT1, 0x24, 0x60, 0, 0, 8, 1,    2,    3,    4,    5,    6,    7,    8,    0, 0x07,
    0,            0x24, 0x80, 0, 0, 8, 0x11, 0x12, 0x13, 0x14, 0x15, 0x16, 0x17, 0x18, 0, 0x07,
    0,            0,    0,    0,
};

static void fill_both(struct script *s)
{
    sc_write(s, RXB0CTRL, BUKT);
    sc_write(s, CANINTE, ERRIF); /* a lost frame shows in CANSTAT */
    sc_mode(s, MODE_NORMAL);
    sc_frame(s, 0, 0x123, 8, "\x01\x02\x03\x04\x05\x06\x07\x08", RX_IN_RXB0);
    sc_frame(s, 0, 0x124, 8, "\x11\x12\x13\x14\x15\x16\x17\x18", RX_IN_RXB1);
}

/* The reply with both buffers full; CANSTAT tells of a frame lost before it. */
static uint8_t reply_to(uint8_t code, uint8_t address, bool lost)
{
    if (code < SPI_READ_RX)
        return 0; /* LOAD TX BUFFER */
    if (lost && (address & 0x0F) == CANSTAT)
        return 0x02;
    return both_full[address - RXB0CTRL];
}

/* 07h suits every byte that LOAD TX BUFFER can run over, CANCTRL too. */
static void one_length(struct tidied_list *t, size_t b, unsigned bytes, unsigned before)
{
    unsigned at = buffers[b].start - 1u;
    start(t, "code %02Xh and %u bytes, frame after %u exchanges", buffers[b].code, bytes, before);
    fill_both(&t->s);
    low(t);
    for (unsigned i = 0; i <= bytes + 1; i++) {
        if (i == before)
            hear(t, RX_LOST, ALL);
        if (i == 0)
            sc_xfer(&t->s, buffers[b].code, 0);
        else if (i <= bytes)
            sc_xfer(&t->s, 0x07, reply_to(buffers[b].code, (uint8_t)(at + i), before <= i));
    }
    high(t, bytes <= buffers[b].most ? FRONT : STAYS);
}

static void buffer_lengths(struct tidied_list *t)
{
    static const unsigned lengths[] = {0, 1, 7, 8, 9, 12, 13, 14};
    for (size_t b = 0; b < sizeof buffers / sizeof *buffers; b++)
        for (size_t i = 0; i < sizeof lengths / sizeof *lengths; i++) {
            one_length(t, b, lengths[i], 0);
            one_length(t, b, lengths[i], 1);
            one_length(t, b, lengths[i], lengths[i] + 1);
        }
}

/* ---- READ RX BUFFER: its own RXnIF, set at select low ---- */

static void one_read_rx(struct tidied_list *t, uint8_t code, uint8_t flags)
{
    uint8_t own = code < 0x94 ? RX0IF : RX1IF;
    start(t, "code %02Xh, CANINTF %02Xh at select low", code, flags);
    sc_mode(&t->s, MODE_NORMAL);
    sc_write(&t->s, CANINTF, flags);
    low(t);
    sc_xfer(&t->s, code, 0);
    sc_xfer(&t->s, 0, 0);
    hear(t, flags & RX0IF ? RX_LOST : RX_IN_RXB0, ALL);
    high(t, flags & own ? FRONT : STAYS);
}

/* The flag rises between select low and the code byte: too late. */
static void one_late_flag(struct tidied_list *t, uint8_t code)
{
    bool rxb1 = code >= 0x94;
    start(t, "code %02Xh, the frame comes between select low and the code", code);
    sc_write(&t->s, RXB0CTRL, BUKT);
    sc_mode(&t->s, MODE_NORMAL);
    sc_write(&t->s, CANINTF, rxb1 ? RX0IF : RX1IF);
    low(t);
    sc_frame(event(t), 0, 0x123, 1, "\x5A", rxb1 ? RX_IN_RXB1 : RX_IN_RXB0);
    sc_set(&t->s, ALL);
    sc_xfer(&t->s, code, 0);
    sc_xfer(&t->s, 0, code & 2 ? 0x5A : 0x24);
    high(t, STAYS);
}

static void read_rx_flags(struct tidied_list *t)
{
    for (unsigned code = 0x90; code <= 0x96; code += 2) {
        for (unsigned flags = 0; flags < 256; flags++)
            one_read_rx(t, (uint8_t)code, (uint8_t)flags);
        one_late_flag(t, (uint8_t)code);
    }
}

/* ---- LOAD TX BUFFER: its TXREQ clear and not in flight at select low ---- */

enum { REQUESTED, FLYING };

/* Buffer busy has TXREQ, or is in flight with TXREQ cleared. */
static void one_load(struct tidied_list *t, uint8_t code, unsigned busy, unsigned how,
                     unsigned before)
{
    unsigned own = (code - 0x40u) / 2;
    start(t, "code %02Xh, TXB%u %s, event after %u", code, busy,
          how == FLYING ? "in flight" : "requested", before);
    sc_mode(&t->s, MODE_NORMAL);
    sc_rts(&t->s, (uint8_t)(1u << busy));
    sc_idle(&t->s, (uint8_t)busy);
    if (how == FLYING)
        sc_write(&t->s, (uint8_t)(TXB0CTRL + 0x10 * busy), 0);
    else
        sc_end(&t->s, END_LOST, 0);
    low(t);
    for (unsigned i = 0; i < 3; i++) {
        if (i == before && how == FLYING)
            sc_end(event(t), END_SENT, 0);
        else if (i == before)
            sc_idle(event(t), (uint8_t)busy);
        if (i < 2)
            sc_xfer(&t->s, i == 0 ? code : 0x5A, 0);
    }
    high(t, own == busy ? STAYS : FRONT);
}

static void load_tx_busy(struct tidied_list *t)
{
    for (unsigned code = 0x40; code <= 0x45; code++)
        for (unsigned busy = 0; busy < 3; busy++)
            for (unsigned before = 0; before < 3; before++) {
                one_load(t, (uint8_t)code, busy, REQUESTED, before);
                one_load(t, (uint8_t)code, busy, FLYING, before);
            }
}

/* ---- events with a set ---- */

static void but_rxf1(struct script *s)
{
    sc_write(s, RXM0SIDH, 0x80);
    sc_write(s, RXF1SIDH, 0x80);
}

/* Exchanges of the whole command, and its reply before and after the frame's end. */
static const struct {
    uint8_t code;
    unsigned last;
    uint8_t before, after;
} around_end[] = {
    {SPI_RESET, 1, 0, 0},
    {SPI_READ, 3, 0, TX0IF | RX0IF},
    {SPI_READ_STATUS, 2, 0x04, 0x09},
    {SPI_RX_STATUS, 2, 0, 0x40},
    {SPI_RTS, 1, 0, 0},
    {0xFF, 1, 0, 0},
};

/* A RESET takes the flight, and then there is no frame and no set. */
static void own_frame_ends(struct tidied_list *t, bool in_flight)
{
    if (in_flight)
        sc_end(event(t), END_SENT, RX_IN_RXB0);
    else
        sc_refused(event(t), REFUSED_NO_FLIGHT, KIND_FRAME_ENDS, END_SENT);
    sc_set(&t->s, in_flight ? BUT_RXF1 : 0);
}

static void one_own_end(struct tidied_list *t, size_t c, unsigned exchanges, unsigned before)
{
    uint8_t code = around_end[c].code;
    unsigned last = around_end[c].last;
    start(t, "code %02Xh, %u exchanges, own frame ends after %u", code, exchanges, before);
    but_rxf1(&t->s);
    sc_mode(&t->s, MODE_LOOPBACK);
    sc_rts(&t->s, 1);
    sc_idle(&t->s, 0);
    low(t);
    for (unsigned i = 0; i <= exchanges; i++) {
        bool replies = i + 1 == last || (i + 1 > last && code != SPI_READ);
        uint8_t reply = before <= i ? around_end[c].after : around_end[c].before;
        if (i == before)
            own_frame_ends(t, code != SPI_RESET || before == 0);
        if (i < exchanges)
            sc_xfer(&t->s, i == 0 ? code : CANINTF, replies ? reply : 0);
    }
    high(t, command_place(code, last, exchanges, before));
}

static void own_ends(struct tidied_list *t)
{
    for (size_t c = 0; c < sizeof around_end / sizeof *around_end; c++)
        for (unsigned exchanges = 0; exchanges <= around_end[c].last + 1; exchanges++)
            for (unsigned before = 0; before <= exchanges; before++)
                one_own_end(t, c, exchanges, before);
}

/* WRITE of CANCTRL: the frame is heard in one mode or the other. */
static void one_mode_write(struct tidied_list *t, uint8_t from, uint8_t to, unsigned before)
{
    uint8_t mode = before < 3 ? from : to;
    bool heard = mode == MODE_NORMAL || mode == MODE_LISTEN_ONLY;
    start(t, "from mode %u to mode %u, frame after %u", from, to, before);
    but_rxf1(&t->s);
    sc_mode(&t->s, from);
    low(t);
    for (unsigned i = 0; i <= 3; i++) {
        if (i == before)
            hear(t, heard ? RX_IN_RXB0 : RX_NOT_LISTENING, heard ? BUT_RXF1 : 0);
        if (i < 3)
            sc_xfer(&t->s, i == 0 ? SPI_WRITE : i == 1 ? CANCTRL : (uint8_t)(to << 5 | 7), 0);
    }
    high(t, before < 3 ? FRONT : BEHIND);
}

static void mode_writes(struct tidied_list *t)
{
    for (uint8_t from = 0; from < MODES; from++)
        for (uint8_t to = 0; to < MODES; to++)
            for (unsigned before = 0; before <= 3; before++)
                one_mode_write(t, from, to, before);
}

/* ---- request pins ---- */

/* What a pin, enabled but for one of these, does inside a command; the last two are refused. */
enum pin_event {
    PIN_FALLS,
    PIN_RISES,
    PIN_LOW_AGAIN,
    PIN_HIGH_AGAIN,
    PIN_FALLS_DISABLED,
    PIN_NUMBER_3,
    PIN_DAMAGED, /* a fall but for its last byte */
    PIN_EVENTS
};

static const char *const pin_event_name[PIN_EVENTS] = {
    "fall",           "rise",  "low again",    "high again",
    "fall, disabled", "pin 3", "damaged fall",
};

/* In Normal, with pin n as the event wants to meet it. */
static void before_pin_event(struct script *s, enum pin_event sort, uint8_t n)
{
    bool low = sort == PIN_RISES || sort == PIN_LOW_AGAIN;
    if (low)
        sc_pin(s, n, 0);
    sc_write(s, TXRTSCTRL, sort == PIN_FALLS_DISABLED ? ALL_PINS ^ 1u << n : ALL_PINS);
    sc_mode(s, MODE_NORMAL);
}

static void pin_event(struct tidied_list *t, enum pin_event sort, uint8_t n)
{
    uint8_t record[RECORD_BYTES] = {KIND_REQUEST_PIN, sort == PIN_NUMBER_3 ? 3 : n};
    bool refused = sort == PIN_NUMBER_3 || sort == PIN_DAMAGED;
    record[2] = sort == PIN_RISES || sort == PIN_HIGH_AGAIN;
    record[15] = sort == PIN_DAMAGED;
    sc_raw(event(t), record, refused ? REFUSED_FIELD : REFUSED_NOT, 0);
    sc_set(&t->s, 0);
}

/* The reply to exchange i. READ asks for TXB1CTRL and the byte behind it. */
static uint8_t pin_reply(uint8_t code, unsigned i, bool requested)
{
    if (code == SPI_READ)
        return i == 2 && requested ? TXREQ : 0;
    return code == SPI_READ_STATUS && i >= 1 && requested ? 0x10 : 0;
}

/* WRITE of TXB1CTRL takes a request that came before it; RESET takes request and enables. */
static void one_pin_command(struct tidied_list *t, size_t c, unsigned exchanges, unsigned before,
                            enum pin_event sort)
{
    uint8_t code = commands[c].code;
    start(t, "code %02Xh, %u exchanges, pin: %s after %u", code, exchanges, pin_event_name[sort],
          before);
    before_pin_event(&t->s, sort, 1);
    low(t);
    for (unsigned i = 0; i <= exchanges; i++) {
        if (i == before)
            pin_event(t, sort, 1);
        if (i < exchanges)
            sc_xfer(&t->s, i == 0 ? code : TXB1CTRL,
                    pin_reply(code, i, sort == PIN_FALLS && before <= i));
    }
    high(t, command_place(code, commands[c].last, exchanges, before));
}

static void pin_commands(struct tidied_list *t)
{
    for (size_t c = 0; c < sizeof commands / sizeof *commands; c++)
        for (unsigned exchanges = 0; exchanges <= commands[c].last + 1; exchanges++)
            for (unsigned before = 0; before <= exchanges; before++)
                for (unsigned sort = 0; sort < PIN_EVENTS; sort++)
                    one_pin_command(t, c, exchanges, before, sort);
}

/* READ of TXRTSCTRL itself, which shows the level. */
static void one_level_read(struct tidied_list *t, uint8_t n, unsigned before)
{
    uint8_t shown = before <= 2 ? 0x38 ^ 0x08 << n : 0x38;
    start(t, "READ of TXRTSCTRL, pin %u falls after %u", n, before);
    low(t);
    for (unsigned i = 0; i <= 3; i++) {
        if (i == before)
            sc_pin(event(t), n, 0);
        if (i < 3)
            sc_xfer(&t->s, i == 0 ? SPI_READ : TXRTSCTRL, i == 2 ? shown : 0);
    }
    high(t, before < 3 ? FRONT : BEHIND);
}

/* WRITE of TXRTSCTRL: the fall meets the enable, or it does not. */
static void one_enable_write(struct tidied_list *t, uint8_t n, bool enables, unsigned before)
{
    bool requests = enables ? before == 3 : before < 3;
    start(t, "pin %u falls after %u of a WRITE that %s it", n, before,
          enables ? "enables" : "disables");
    sc_write(&t->s, TXRTSCTRL, enables ? 0 : ALL_PINS);
    low(t);
    for (unsigned i = 0; i <= 3; i++) {
        if (i == before)
            sc_pin(event(t), n, 0);
        if (i < 3)
            sc_xfer(&t->s, i == 0 ? SPI_WRITE : i == 1 ? TXRTSCTRL : enables ? ALL_PINS : 0, 0);
    }
    end_session(t, before < 3 ? FRONT : BEHIND);
    sc_read(&t->s, (uint8_t)(TXB0CTRL + 0x10 * n), requests ? TXREQ : 0);
    check_list(t);
}

static void pin_registers(struct tidied_list *t)
{
    for (uint8_t n = 0; n < 3; n++)
        for (unsigned before = 0; before <= 3; before++) {
            one_level_read(t, n, before);
            one_enable_write(t, n, true, before);
            one_enable_write(t, n, false, before);
        }
}

/* READ RX BUFFER has its moment at select high. */
static void one_pin_read_rx(struct tidied_list *t, uint8_t code, uint8_t n, unsigned before)
{
    start(t, "code %02Xh, RXnIF set, pin %u falls after %u", code, n, before);
    before_pin_event(&t->s, PIN_FALLS, n);
    sc_write(&t->s, CANINTF, RX0IF | RX1IF);
    low(t);
    for (unsigned i = 0; i <= 3; i++) {
        if (i == before)
            pin_event(t, PIN_FALLS, n);
        if (i < 3)
            sc_xfer(&t->s, i == 0 ? code : 0, 0);
    }
    high(t, FRONT);
}

/* ---- LOAD TX BUFFER and falls of request pins ---- */

enum { LOADED_1 = 0x5A, LOADED_2 = 0xA1 }; /* bits that every TX byte has */

/* A LOAD of two bytes and what it left: the bytes taken, and TXREQ of the pin's buffer. */
static void load_two(struct tidied_list *t, uint8_t code, uint8_t n, enum pin_event sort,
                     unsigned before)
{
    low(t);
    for (unsigned i = 0; i <= 3; i++) {
        if (i == before)
            pin_event(t, sort, n);
        if (i < 3)
            sc_xfer(&t->s, i == 0 ? code : i == 1 ? LOADED_1 : LOADED_2, 0);
    }
}

static void read_two(struct tidied_list *t, uint8_t code, bool first, bool second)
{
    uint8_t at = (uint8_t)(TXB0CTRL + 8 * (code & 6) + (code & 1 ? D0 : SIDH));
    sc_low(&t->s);
    sc_xfer(&t->s, SPI_READ, 0);
    sc_xfer(&t->s, at, 0);
    sc_xfer(&t->s, 0, first ? LOADED_1 : 0);
    sc_xfer(&t->s, 0, second ? LOADED_2 : 0);
    sc_high(&t->s);
}

/* A fall between the bytes lets the first in and keeps the second out; in front of the
 * LOAD it would keep out both. So it stays where it is, also where it changes nothing. */
static void one_pin_load(struct tidied_list *t, uint8_t code, uint8_t n, enum pin_event sort,
                         unsigned before)
{
    bool own = (code - 0x40) / 2 == n, cuts = own && sort == PIN_FALLS;
    start(t, "code %02Xh, pin %u: %s after %u", code, n, pin_event_name[sort], before);
    before_pin_event(&t->s, sort, n);
    load_two(t, code, n, sort, before);
    end_session(t, cuts ? STAYS : FRONT);
    t->fall = !cuts ? NO_FALL : before < 2 ? FALL_ALIKE : FALL_DIFFERS;
    read_two(t, code, !cuts || before >= 2, !cuts || before >= 3);
    sc_read(&t->s, (uint8_t)(TXB0CTRL + 0x10 * n), sort == PIN_FALLS ? TXREQ : 0);
    check_list(t);
}

/* Under ABAT nothing comes of the fall. It is one all the same. */
static void one_abat_load(struct tidied_list *t, uint8_t code, uint8_t n, unsigned before)
{
    bool own = (code - 0x40) / 2 == n;
    start(t, "code %02Xh, ABAT, pin %u falls after %u", code, n, before);
    before_pin_event(&t->s, PIN_FALLS, n);
    sc_write(&t->s, CANCTRL, ABAT | 0x07);
    load_two(t, code, n, PIN_FALLS, before);
    end_session(t, own ? STAYS : FRONT);
    t->fall = own ? FALL_ALIKE : NO_FALL;
    read_two(t, code, true, true);
    sc_read(&t->s, (uint8_t)(TXB0CTRL + 0x10 * n), 0);
    check_list(t);
}

static void pin_loads(struct tidied_list *t)
{
    for (uint8_t code = 0x40; code <= 0x45; code++)
        for (uint8_t n = 0; n < 3; n++)
            for (unsigned before = 0; before <= 3; before++) {
                for (unsigned sort = 0; sort < PIN_EVENTS; sort++)
                    one_pin_load(t, code, n, sort, before);
                one_abat_load(t, code, n, before);
            }
    for (unsigned code = 0x90; code <= 0x96; code += 2)
        for (uint8_t n = 0; n < 3; n++)
            for (unsigned before = 0; before <= 3; before++)
                one_pin_read_rx(t, (uint8_t)code, n, before);
}

/* ---- sessions of the panel ---- */

/* The next records are a session of the panel. */
static void panel_low(struct tidied_list *t)
{
    t->s.speaker = SPEAKER_PANEL;
    low(t);
}

static void panel_high(struct tidied_list *t, enum place place)
{
    end_session(t, place);
    t->s.speaker = SPEAKER_CONTROLLER;
}

/* Codes that do something, and what the panel must not send, which counts as unknown. */
static bool is_known_of_panel(uint8_t code)
{
    return code == SPI_READ || code == SPI_READ_STATUS || code == SPI_RX_STATUS || code == 0x84;
}

static enum place panel_place(uint8_t code, unsigned last, unsigned exchanges, unsigned before)
{
    if (!is_known_of_panel(code))
        return exchanges <= 1 ? FRONT : STAYS;
    return command_place(code, last, exchanges, before);
}

static void one_panel_command(struct tidied_list *t, uint8_t code, unsigned last,
                              unsigned exchanges, unsigned before)
{
    start(t, "panel: code %02Xh, %u exchanges, event after %u", code, exchanges, before);
    sc_mode(&t->s, MODE_NORMAL);
    panel_low(t);
    for (unsigned i = 0; i <= exchanges; i++) {
        if (i == before)
            sc_rx_error(event(t), 1);
        if (i < exchanges)
            sc_xfer(&t->s, i == 0 ? code : REC, code == SPI_READ && i == 2 && before <= 2 ? 8 : 0);
    }
    panel_high(t, panel_place(code, last, exchanges, before));
    sc_read(&t->s, REC, 8);
    check_list(t);
}

static void panel_commands(struct tidied_list *t)
{
    static const uint8_t others[] = {0x90, 0x92, 0x40, 0x41, 0x42, 0x43};
    for (size_t c = 0; c < sizeof commands / sizeof *commands; c++)
        for (unsigned exchanges = 0; exchanges <= commands[c].last + 1; exchanges++)
            for (unsigned before = 0; before <= exchanges; before++)
                one_panel_command(t, commands[c].code, commands[c].last, exchanges, before);
    for (size_t c = 0; c < sizeof others; c++)
        for (unsigned exchanges = 1; exchanges <= 3; exchanges++)
            for (unsigned before = 0; before <= exchanges; before++)
                one_panel_command(t, others[c], 1, exchanges, before);
}

/* 94h, 96h, 44h and 45h up to data byte 7 and past it, where they reply 0. */
static void one_panel_length(struct tidied_list *t, size_t b, unsigned bytes, unsigned before)
{
    unsigned at = buffers[b].start - 1u;
    start(t, "panel: code %02Xh and %u bytes, frame after %u", buffers[b].code, bytes, before);
    fill_both(&t->s);
    panel_low(t);
    for (unsigned i = 0; i <= bytes + 1; i++) {
        bool past = i > buffers[b].most;
        if (i == before)
            hear(t, RX_LOST, ALL);
        if (i == 0)
            sc_xfer(&t->s, buffers[b].code, 0);
        else if (i <= bytes)
            sc_xfer(&t->s, 0x07, past ? 0 : reply_to(buffers[b].code, (uint8_t)(at + i), false));
    }
    panel_high(t, bytes <= buffers[b].most ? FRONT : STAYS);
    sc_read(&t->s, CANINTF, buffers[b].code < SPI_READ_RX ? 0x23 : 0x21);
    check_list(t);
}

static void panel_buffers(struct tidied_list *t)
{
    static const unsigned lengths[] = {0, 1, 7, 8, 9, 12, 13, 14, 130};
    for (size_t b = 0; b < sizeof buffers / sizeof *buffers; b++) {
        uint8_t code = buffers[b].code;
        if (code != 0x94 && code != 0x96 && code != 0x44 && code != 0x45)
            continue;
        for (size_t i = 0; i < sizeof lengths / sizeof *lengths; i++) {
            one_panel_length(t, b, lengths[i], 0);
            one_panel_length(t, b, lengths[i], 1);
            one_panel_length(t, b, lengths[i], lengths[i] + 1);
        }
    }
}

/* RX1IF set at select low or not; RX0IF does not matter. */
static void one_panel_read_rx(struct tidied_list *t, uint8_t code, uint8_t flags)
{
    start(t, "panel: code %02Xh, CANINTF %02Xh at select low", code, flags);
    sc_mode(&t->s, MODE_NORMAL);
    sc_write(&t->s, CANINTF, flags);
    panel_low(t);
    sc_xfer(&t->s, code, 0);
    sc_xfer(&t->s, 0, 0);
    hear(t, flags & RX0IF ? RX_LOST : RX_IN_RXB0, ALL);
    panel_high(t, flags & RX1IF ? FRONT : STAYS);
    check_list(t);
}

/* TXB2 free at select low or not, or its pin falls inside. */
static void one_panel_load(struct tidied_list *t, uint8_t code, uint8_t n, unsigned before)
{
    bool cuts = n == 2;
    start(t, "panel: code %02Xh, pin %u falls after %u", code, n, before);
    before_pin_event(&t->s, PIN_FALLS, n);
    t->s.speaker = SPEAKER_PANEL;
    load_two(t, code, n, PIN_FALLS, before);
    panel_high(t, cuts ? STAYS : FRONT);
    t->fall = !cuts ? NO_FALL : before < 2 ? FALL_ALIKE : FALL_DIFFERS;
    read_two(t, code, !cuts || before >= 2, !cuts || before >= 3);
    sc_read(&t->s, (uint8_t)(TXB0CTRL + 0x10 * n), TXREQ);
    check_list(t);
}

static void one_panel_busy_load(struct tidied_list *t, uint8_t code, unsigned busy)
{
    start(t, "panel: code %02Xh, TXB%u requested", code, busy);
    sc_mode(&t->s, MODE_NORMAL);
    sc_rts(&t->s, (uint8_t)(1u << busy));
    panel_low(t);
    sc_xfer(&t->s, code, 0);
    sc_idle(event(t), (uint8_t)busy);
    sc_xfer(&t->s, 0x5A, 0);
    panel_high(t, busy == 2 ? STAYS : FRONT);
    check_list(t);
}

/* Records of the other inside are refused, and keep their place in the session. */
static void one_cut_in(struct tidied_list *t, uint8_t owner, uint8_t kind, unsigned before)
{
    start(t, "speaker %u, kind %u by the other, event after %u", owner, kind, before);
    sc_mode(&t->s, MODE_NORMAL);
    t->s.speaker = owner;
    low(t);
    for (unsigned i = 0; i <= 3; i++) {
        t->s.speaker = !owner;
        sc_refused(&t->s, kind == KIND_SELECT_LOW ? REFUSED_SELECT : REFUSED_SPEAKER, kind, 0);
        t->s.speaker = owner;
        if (i == before)
            sc_rx_error(event(t), 1);
        if (i < 3)
            sc_xfer(&t->s, i == 0 ? SPI_READ : REC, i == 2 && before <= 2 ? 8 : 0);
    }
    panel_high(t, before < 3 ? FRONT : BEHIND);
    check_list(t);
}

static void panel_sessions(struct tidied_list *t)
{
    panel_commands(t);
    panel_buffers(t);
    for (unsigned flags = 0; flags < 256; flags++)
        one_panel_read_rx(t, flags & 4 ? 0x94 : 0x96, (uint8_t)flags);
    for (uint8_t code = 0x44; code <= 0x45; code++)
        for (uint8_t n = 0; n < 3; n++) {
            one_panel_busy_load(t, code, n);
            for (unsigned before = 0; before <= 3; before++)
                one_panel_load(t, code, n, before);
        }
    for (unsigned i = 0; i < 2 * 3 * 4; i++)
        one_cut_in(t, i & 1, (uint8_t)(i / 2 % 3), i / 6);
}

void tidied_lists(tidied_check *check)
{
    struct tidied_list t = {0};
    script_init(&t.s);
    check_list = check;
    short_commands(&t);
    buffer_lengths(&t);
    read_rx_flags(&t);
    load_tx_busy(&t);
    own_ends(&t);
    mode_writes(&t);
    pin_commands(&t);
    pin_registers(&t);
    pin_loads(&t);
    panel_sessions(&t);
    script_free(&t.s);
}
