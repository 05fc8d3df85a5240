/* The panel on the same SPI lines: what it may do, what it may not, whose session it is. */
#include <string.h>

#include "cases.h"
#include "model.h"
#include "registers.h"

enum { ADDRESSES = 128, RX_BYTES = 13, PAST_ROUND = 130 };

/* ---- a chip with something at every address ---- */

static const uint8_t rx_bytes[2][RX_BYTES] = {
    {0x24, 0x60, 0, 0, 8, 0x01, 0x02, 0x03, 0x04, 0x05, 0x06, 0x07, 0x08},
    {0x24, 0x80, 0, 0, 8, 0x11, 0x12, 0x13, 0x14, 0x15, 0x16, 0x17, 0x18},
};

/* What WRITE leaves of a byte of a filter, a mask, CNF1-3 or a TX buffer. */
static uint8_t stored_byte(uint8_t address)
{
    uint8_t value = (uint8_t)(0x35 + 3 * address), low = address & 0x0F;
    if (address < RXM0SIDH)
        return low % 4 == RXF_SIDL ? value & 0xEB : value;
    if (address < CNF3)
        return low % 4 == RXF_SIDL ? value & 0xE3 : value;
    if (address == CNF3)
        return value & 0xC7;
    if (address < TXB0CTRL)
        return value;
    return low == SIDL ? value & 0xEB : low == DLC ? value & 0x4F : value;
}

static uint8_t known_byte(uint8_t address)
{
    switch (address & 0x0F) {
    case CANSTAT:
        return MODE_CONFIGURATION << 5;
    case CANCTRL:
        return 0x87;
    }
    switch (address) {
    case BFPCTRL:
        return 0x2A;
    case TXRTSCTRL:
        return 0x38;
    case TEC: case REC: case CANINTE: case EFLG:
        return 0;
    case CANINTF:
        return RX0IF | RX1IF;
    case TXB0CTRL: case TXB1CTRL: case TXB2CTRL:
        return 1;
    case RXB0CTRL:
        return RXM | BUKT | BUKT1;
    case RXB1CTRL:
        return RXM;
    }
    return address > RXB1CTRL   ? rx_bytes[1][address - RXB1CTRL - SIDH]
           : address > RXB0CTRL ? rx_bytes[0][address - RXB0CTRL - SIDH]
                                : stored_byte(address);
}

/* By the controller, from one address up to another. */
static void write_known(struct script *s, uint8_t from, uint8_t past)
{
    sc_low(s);
    sc_xfer(s, SPI_WRITE, 0);
    sc_xfer(s, from, 0);
    for (uint8_t a = from; a < past; a++)
        sc_xfer(s, known_byte(a), 0);
    sc_high(s);
}

/* In Configuration, both receive buffers full. */
static void known_chip(struct script *s)
{
    write_known(s, RXF0SIDH, BFPCTRL + 1);
    write_known(s, RXF3SIDH, TEC);
    write_known(s, RXM0SIDH, CANINTE);
    for (uint8_t ctrl = TXB0CTRL; ctrl <= TXB2CTRL; ctrl += 0x10)
        write_known(s, ctrl, ctrl + D7 + 1);
    sc_write(s, RXB0CTRL, RXM | BUKT);
    sc_write(s, RXB1CTRL, RXM);
    sc_mode(s, MODE_NORMAL);
    sc_frame(s, 0, 0x123, 8, "\x01\x02\x03\x04\x05\x06\x07\x08", RX_IN_RXB0);
    sc_frame(s, 0, 0x124, 8, "\x11\x12\x13\x14\x15\x16\x17\x18", RX_IN_RXB1);
    sc_mode(s, MODE_CONFIGURATION);
}

/* Every address, but for count bytes that are those given from one address on. */
static void read_known_but(struct script *s, uint8_t from, const uint8_t *bytes, unsigned count)
{
    sc_low(s);
    sc_xfer(s, SPI_READ, 0);
    sc_xfer(s, 0, 0);
    for (uint8_t a = 0; a < ADDRESSES; a++)
        sc_xfer(s, 0, a >= from && a < from + count ? bytes[a - from] : known_byte(a));
    sc_high(s);
}

static void read_known(struct script *s)
{
    read_known_but(s, 0, NULL, 0);
}

/* The code and count bytes by who speaks, each answered 0. */
static void send(struct script *s, uint8_t code, unsigned count, uint8_t byte)
{
    sc_low(s);
    sc_xfer(s, code, 0);
    for (unsigned i = 0; i < count; i++)
        sc_xfer(s, byte, 0);
    sc_high(s);
}

static void by_other(struct script *s, uint8_t refusal, uint8_t kind, uint8_t byte1)
{
    s->speaker = !s->speaker;
    sc_refused(s, refusal, kind, byte1);
    s->speaker = !s->speaker;
}

/* ---- what the panel may do ---- */

static void reads(struct script *s)
{
    sc_read(PANEL, CANCTRL, 0x87);
    sc_read(PANEL, CANSTAT, 0x80);
    sc_read(PANEL, 0x80 | CANCTRL, 0x87);
    sc_read(PANEL, TXRTSCTRL, 0x38);
}

static void sees_the_controllers_bytes(struct script *s)
{
    known_chip(AT);
    read_known(PANEL);
    read_known(AT);
}

/* READ itself goes on past data bytes and round: only the buffer instructions end. */
static void read_comes_round(struct script *s)
{
    known_chip(AT);
    sc_low(PANEL);
    sc_xfer(PANEL, SPI_READ, 0);
    sc_xfer(PANEL, 0x7C, 0);
    for (unsigned i = 0; i < 2 * ADDRESSES; i++)
        sc_xfer(PANEL, 0xFF, known_byte((0x7C + i) % ADDRESSES));
    sc_high(PANEL);
    sc_low(PANEL);
    sc_xfer(PANEL, SPI_READ, 0);
    sc_xfer(PANEL, 0x5B, 0);
    for (unsigned i = 0; i < 0x30; i++)
        sc_xfer(PANEL, 0, known_byte((uint8_t)(0x5B + i) % ADDRESSES));
    sc_high(PANEL);
    sc_read(AT, CANINTF, RX0IF | RX1IF); /* no READ clears a flag */
}

static void filters_are_hidden(struct script *s)
{
    known_chip(AT);
    for (uint8_t mode = 0; mode < MODES; mode++) {
        sc_mode(AT, mode);
        sc_read(PANEL, RXF0SIDH, mode == MODE_CONFIGURATION ? known_byte(RXF0SIDH) : 0);
        sc_read(PANEL, RXM1SIDH, mode == MODE_CONFIGURATION ? known_byte(RXM1SIDH) : 0);
        sc_read(PANEL, CNF1, known_byte(CNF1));
        sc_read(PANEL, CANSTAT, (uint8_t)(mode << 5));
    }
}

/* Each reply anew. */
static void asks_the_status(struct script *s)
{
    sc_mode(AT, MODE_NORMAL);
    sc_low(PANEL);
    sc_xfer(PANEL, SPI_READ_STATUS, 0);
    sc_xfer(PANEL, 0xFF, 0x00);
    sc_std(PANEL, 0x123, RX_IN_RXB0);
    sc_xfer(PANEL, 0xFF, 0x01);
    sc_xfer(PANEL, SPI_RESET, 0x01);
    sc_high(PANEL);
    sc_rts(AT, 7);
    sc_status(PANEL, 0x55);
    sc_write(AT, CANINTF, 0xFF);
    sc_status(PANEL, 0xFF);
}

static void asks_the_rx_status(struct script *s)
{
    known_chip(AT);
    sc_rx_status(PANEL, 0xC0);
    sc_write(AT, CANINTF, RX1IF);
    sc_rx_status(PANEL, 0x86);
    sc_write(AT, CANINTF, 0);
    sc_low(PANEL);
    sc_xfer(PANEL, SPI_RX_STATUS, 0);
    for (unsigned i = 0; i < 3; i++)
        sc_xfer(PANEL, 0x55, 0);
    sc_high(PANEL);
}

/* READ RX BUFFER of RXB1 by the panel: count bytes behind the code. */
static void read_rxb1(struct script *s, uint8_t code, unsigned count)
{
    unsigned from = code == 0x94 ? 0 : 5;
    sc_low(s);
    sc_xfer(s, code, 0);
    for (unsigned i = 0; i < count; i++)
        sc_xfer(s, 0xFF, from + i < RX_BYTES ? rx_bytes[1][from + i] : 0);
    sc_high(s);
}

static void reads_rxb1(struct script *s)
{
    known_chip(AT);
    read_rxb1(PANEL, 0x94, RX_BYTES);
    read_known_but(AT, CANINTF, (const uint8_t[]){RX0IF}, 1);
    sc_write(AT, CANINTF, RX0IF | RX1IF);
    read_rxb1(PANEL, 0x96, 8);
    read_known_but(AT, CANINTF, (const uint8_t[]){RX0IF}, 1);
}

/* RX1IF is set again by the firmware. */
static void read_of_every_length(struct script *s)
{
    static const uint8_t codes[] = {0x94, 0x96};
    known_chip(AT);
    for (unsigned i = 0; i < 2; i++)
        for (unsigned count = 0; count < 20; count++) {
            sc_write(AT, CANINTF, 0xFF);
            read_rxb1(PANEL, codes[i], count);
            sc_read(AT, CANINTF, 0xFF ^ RX1IF);
        }
    read_known_but(AT, CANINTF, (const uint8_t[]){0xFF ^ RX1IF}, 1);
}

/* CANSTAT and CANCTRL behind data byte 7 are not 0, nor is what comes round. */
static void read_ends_for_good(struct script *s)
{
    known_chip(AT);
    read_rxb1(PANEL, 0x94, PAST_ROUND);
    sc_read(AT, CANINTF, RX0IF);
    sc_write(AT, CANINTF, RX1IF);
    read_rxb1(PANEL, 0x96, PAST_ROUND);
    sc_read(AT, CANINTF, 0);
    sc_write(AT, CANINTF, RX1IF);
    read_rxb1(PANEL, 0x94, 300);
    read_known_but(AT, CANINTF, (const uint8_t[]){0}, 1);
}

static void flag_stays_till_select_high(struct script *s)
{
    known_chip(AT);
    sc_mode(AT, MODE_NORMAL);
    sc_low(PANEL);
    sc_xfer(PANEL, 0x94, 0);
    sc_std(PANEL, 0x125, RX_LOST); /* both still full */
    sc_xfer(PANEL, 0, 0x24);
    sc_std(PANEL, 0x125, RX_LOST);
    for (unsigned i = 0; i < PAST_ROUND; i++)
        sc_xfer(PANEL, 0, i + 1 < RX_BYTES ? rx_bytes[1][i + 1] : 0);
    sc_std(PANEL, 0x125, RX_LOST);
    sc_high(PANEL);
    sc_std(AT, 0x7FF, RX_IN_RXB1);
    sc_read(AT, RXB1CTRL + SIDH, 0xFF);
}

static void cut_behind_the_code(struct script *s)
{
    known_chip(AT);
    sc_one(PANEL, 0x94);
    sc_read(AT, CANINTF, RX0IF);
    sc_write(AT, CANINTF, RX0IF | RX1IF);
    sc_one(PANEL, 0x96);
    sc_read(AT, CANINTF, RX0IF);
    sc_write(AT, CANINTF, RX0IF | RX1IF);
    sc_low(PANEL); /* before it there is nothing to clear */
    sc_high(PANEL);
    sc_read(AT, CANINTF, RX0IF | RX1IF);
}

static void clears_a_flag_that_rose_inside(struct script *s)
{
    known_chip(AT);
    sc_mode(AT, MODE_NORMAL);
    sc_write(AT, CANINTF, RX0IF);
    sc_low(PANEL);
    sc_xfer(PANEL, 0x96, 0);
    sc_frame(PANEL, 0, 0x124, 1, "\x5A", RX_IN_RXB1);
    sc_xfer(PANEL, 0, 0x5A);
    sc_high(PANEL);
    sc_read(AT, CANINTF, RX0IF);
}

/* The controller's own go on as ever. */
static void controller_reads_on(struct script *s)
{
    known_chip(AT);
    sc_low(AT);
    sc_xfer(AT, 0x94, 0);
    for (unsigned i = 0; i < 2 * ADDRESSES; i++)
        sc_xfer(AT, 0, known_byte((RXB1CTRL + SIDH + i) % ADDRESSES));
    sc_high(AT);
    sc_read(AT, CANINTF, RX0IF);
    sc_low(AT);
    sc_xfer(AT, 0x92, 0);
    for (uint8_t a = RXB0CTRL + D0; a < RXB1CTRL; a++)
        sc_xfer(AT, 0, known_byte(a));
    sc_high(AT);
    sc_read(AT, CANINTF, 0);
}

/* ---- LOAD of TXB2 ---- */

/* count bytes, each its own number behind the code with all bits that can be written. */
static void load(struct script *s, uint8_t code, unsigned count)
{
    sc_low(s);
    sc_xfer(s, code, 0);
    for (unsigned i = 0; i < count; i++)
        sc_xfer(s, (uint8_t)(0x40 + i), 0);
    sc_high(s);
}

static void loads_txb2(struct script *s)
{
    static const uint8_t loaded[RX_BYTES] = {0x40, 0x41, 0x42, 0x43, 0x44, 0x45, 0x46,
                                             0x47, 0x48, 0x49, 0x4A, 0x4B, 0x4C};
    known_chip(AT);
    load(PANEL, 0x45, 8);
    read_known_but(AT, TXB2CTRL + D0, loaded, 8);
    load(PANEL, 0x44, RX_BYTES);
    read_known_but(AT, TXB2CTRL + SIDH, loaded, RX_BYTES);
}

static void load_takes_each_byte_at_once(struct script *s)
{
    sc_low(PANEL);
    sc_xfer(PANEL, 0x44, 0);
    sc_xfer(PANEL, 0x11, 0);
    sc_high(PANEL); /* cut */
    sc_read(AT, TXB2CTRL + SIDH, 0x11);
    sc_read(AT, TXB2CTRL + SIDL, 0x00);
    sc_one(PANEL, 0x45); /* cut behind the code */
    sc_read(AT, TXB2CTRL + D0, 0x00);
}

static void load_keeps_unwritable_bits(struct script *s)
{
    send(PANEL, 0x44, RX_BYTES, 0xFF);
    sc_read(AT, TXB2CTRL, 0x00);
    sc_read(AT, TXB2CTRL + SIDL, 0xEB);
    sc_read(AT, TXB2CTRL + DLC, 0x4F);
    sc_read(AT, TXB2CTRL + D7, 0xFF);
}

/* 5Eh, 5Fh, RXB0CTRL and all that would come behind; 00h there would be Normal. */
static void load_ends_for_good(struct script *s)
{
    uint8_t bytes[RX_BYTES];
    known_chip(AT);
    for (unsigned i = 0; i < RX_BYTES; i++)
        bytes[i] = known_byte((uint8_t)(TXB2CTRL + SIDH + i));
    for (unsigned count = 9; count <= 12; count++) {
        send(PANEL, 0x45, count, 0);
        memset(bytes + 5, 0, 8);
        read_known_but(AT, TXB2CTRL + SIDH, bytes, RX_BYTES);
    }
    memset(bytes, 0, sizeof bytes);
    for (unsigned count = RX_BYTES + 1; count <= RX_BYTES + 4; count++) {
        send(PANEL, 0x44, count, 0);
        read_known_but(AT, TXB2CTRL + SIDH, bytes, RX_BYTES);
    }
    send(PANEL, 0x44, PAST_ROUND, 0);
    send(PANEL, 0x45, PAST_ROUND, 0);
    read_known_but(AT, TXB2CTRL + SIDH, bytes, RX_BYTES);
}

/* The last byte of a whole round would be at its first address again. */
static void load_does_not_come_round(struct script *s)
{
    for (unsigned extra = 0; extra < 20; extra++) {
        sc_low(PANEL);
        sc_xfer(PANEL, 0x44, 0);
        for (unsigned i = 0; i < ADDRESSES + extra; i++)
            sc_xfer(PANEL, i < RX_BYTES ? 0x40 : 0x9F, 0);
        sc_high(PANEL);
        for (uint8_t a = TXB2CTRL + SIDH; a <= TXB2CTRL + D7; a++)
            sc_read(AT, a, 0x40);
        sc_read(AT, CANCTRL, 0x87);
    }
}

static void controller_loads_on(struct script *s)
{
    load(AT, 0x44, RX_BYTES + 2); /* 5Fh gets 4Eh: Loopback */
    sc_read(AT, CANCTRL, 0x4E);
    sc_read(AT, CANSTAT, MODE_LOOPBACK << 5);
}

static void load_while_requested(struct script *s)
{
    known_chip(AT);
    sc_rts(AT, 4);
    load(PANEL, 0x44, RX_BYTES);
    load(PANEL, 0x45, PAST_ROUND);
    read_known_but(AT, TXB2CTRL, (const uint8_t[]){TXREQ | 1}, 1);
    sc_write(AT, TXB2CTRL, 1);
    load(PANEL, 0x44, 1);
    sc_read(AT, TXB2CTRL + SIDH, 0x40);
}

/* In flight with TXREQ taken back; once it has ended the rest goes in, at its own place. */
static void load_while_in_flight(struct script *s)
{
    sc_mode(AT, MODE_NORMAL);
    sc_rts(PANEL, 4);
    sc_idle(AT, 2);
    load(PANEL, 0x44, 3);
    sc_write(AT, TXB2CTRL, 0);
    load(PANEL, 0x44, 3);
    sc_read(AT, TXB2CTRL + SIDH, 0);
    sc_low(PANEL);
    sc_xfer(PANEL, 0x44, 0);
    sc_xfer(PANEL, 0x40, 0);
    sc_end(PANEL, END_SENT, 0);
    sc_xfer(PANEL, 0x41, 0);
    sc_high(PANEL);
    sc_read(AT, TXB2CTRL + SIDH, 0x00);
    sc_read(AT, TXB2CTRL + SIDL, 0x41);
}

/* Locked bytes count too: the ninth of 45h is past data byte 7. */
static void locked_bytes_count(struct script *s)
{
    sc_mode(AT, MODE_NORMAL);
    sc_rts(PANEL, 4);
    sc_idle(AT, 2);
    sc_low(PANEL);
    sc_xfer(PANEL, 0x45, 0);
    for (unsigned i = 0; i < 8; i++)
        sc_xfer(PANEL, 0x55, 0);
    sc_end(PANEL, END_SENT, 0);
    for (unsigned i = 0; i < PAST_ROUND; i++)
        sc_xfer(PANEL, 0x55, 0);
    sc_high(PANEL);
    for (uint8_t a = TXB2CTRL; a <= TXB2CTRL + D7; a++)
        sc_read(AT, a, 0);
    sc_read(AT, CANCTRL, 0x07);
}

/* ---- RTS of TXB2 ---- */

static void requests_txb2(struct script *s)
{
    sc_mode(AT, MODE_NORMAL);
    sc_rts(PANEL, 4);
    sc_status(AT, 0x40);
    sc_idle(AT, 2);
    sc_end(AT, END_SENT, 0);
    sc_status(AT, 0x80);
}

static void requests_in_every_mode(struct script *s)
{
    for (uint8_t mode = 0; mode < MODES; mode++) {
        sc_mode(AT, mode);
        sc_rts(PANEL, 4);
        sc_read(PANEL, TXB0CTRL, 0);
        sc_read(PANEL, TXB1CTRL, 0);
        sc_read(PANEL, TXB2CTRL, TXREQ);
        sc_write(AT, TXB2CTRL, 0);
    }
}

static void further_bytes_request_nothing(struct script *s)
{
    sc_mode(AT, MODE_NORMAL);
    sc_low(PANEL);
    sc_xfer(PANEL, 0x84, 0);
    sc_idle(PANEL, 2);
    sc_end(PANEL, END_SENT, 0);
    for (unsigned i = 0; i < PAST_ROUND; i++)
        sc_xfer(PANEL, i % 2 ? 0x84 : SPI_READ, 0);
    sc_high(PANEL);
    sc_status(AT, 0x80);
}

static void request_under_abat(struct script *s)
{
    sc_write(AT, CANCTRL, ABAT | 0x07);
    sc_rts(PANEL, 4);
    sc_read(PANEL, TXB2CTRL, 0);
    sc_write(AT, CANCTRL, 0x07);
    sc_read(PANEL, TXB2CTRL, 0);
    sc_rts(PANEL, 4);
    sc_read(PANEL, TXB2CTRL, TXREQ);
    sc_write(AT, CANCTRL, ABAT | 0x07);
    sc_read(PANEL, TXB2CTRL, ABTF); /* the controller aborts what the panel asked for */
}

static void request_clears_flags(struct script *s)
{
    sc_mode(AT, MODE_NORMAL);
    sc_rts(PANEL, 4);
    sc_idle(AT, 2);
    sc_end(AT, END_LOST, 0);
    sc_idle(AT, 2);
    sc_end(AT, END_ERROR, 0);
    sc_read(AT, TXB2CTRL, MLOA | TXERR | TXREQ);
    sc_rts(PANEL, 4); /* over a request: nothing */
    sc_read(AT, TXB2CTRL, MLOA | TXERR | TXREQ);
    sc_write(AT, TXB2CTRL, 0);
    sc_read(AT, TXB2CTRL, MLOA | TXERR);
    sc_rts(PANEL, 4);
    sc_read(AT, TXB2CTRL, TXREQ);
}

/* Sleep waits for the panel's frame too; without it, not. */
static void request_delays_a_mode(struct script *s)
{
    for (unsigned panel = 0; panel < 2; panel++) {
        sc_mode(AT, MODE_NORMAL);
        sc_rts(AT, 1);
        sc_idle(AT, 0);
        sc_mode(AT, MODE_SLEEP);
        if (panel)
            sc_rts(PANEL, 4);
        sc_end(AT, END_SENT, 0);
        sc_read(AT, CANSTAT, panel ? MODE_NORMAL << 5 : MODE_SLEEP << 5);
        if (!panel)
            continue;
        sc_idle(AT, 2);
        sc_read(AT, CANSTAT, MODE_NORMAL << 5);
        sc_end(AT, END_SENT, 0);
        sc_read(AT, CANSTAT, MODE_SLEEP << 5);
    }
}

/* The request comes first: the controller's store of CANCTRL has to wait for it. */
static void mode_waits_for_an_earlier_request(struct script *s)
{
    sc_mode(AT, MODE_NORMAL);
    sc_rts(PANEL, 4);
    sc_mode(AT, MODE_CONFIGURATION);
    sc_read(AT, CANSTAT, MODE_NORMAL << 5);
    sc_write(AT, TXB2CTRL, 0);
    sc_read(AT, CANSTAT, MODE_CONFIGURATION << 5);
}

static void request_wins_a_tie(struct script *s)
{
    sc_mode(AT, MODE_NORMAL);
    sc_rts(AT, 3);
    sc_rts(PANEL, 4);
    sc_idle(AT, 2);
    sc_end(AT, END_SENT, 0);
    sc_idle(AT, 1);
    sc_end(AT, END_SENT, 0);
    sc_write(AT, TXB0CTRL, TXREQ | 1);
    sc_rts(PANEL, 4);
    sc_idle(AT, 0); /* no tie */
    sc_end(AT, END_SENT, 0);
    sc_idle(AT, 2);
    sc_end(AT, END_SENT, 0);
}

/* ---- what the panel may not do ---- */

static bool panel_may(uint8_t code)
{
    static const uint8_t codes[] = {SPI_READ, SPI_READ_STATUS, SPI_RX_STATUS, 0x94,
                                    0x96,     0x44,            0x45,          0x84};
    return memchr(codes, code, sizeof codes) != NULL;
}

/* No byte of the session replies or does anything, not even one that is an instruction. */
static void other_codes(struct script *s, unsigned from)
{
    static const uint8_t more[] = {SPI_READ, CANCTRL, 0x00, 0x84, 0x94, SPI_RESET, 0xFF, 0x87};
    known_chip(AT);
    for (unsigned code = from; code < from + 64; code++) {
        if (panel_may((uint8_t)code))
            continue;
        sc_low(PANEL);
        sc_xfer(PANEL, (uint8_t)code, 0);
        for (unsigned i = 0; i < sizeof more; i++)
            sc_xfer(PANEL, more[i], 0);
        sc_high(PANEL);
        sc_one(PANEL, (uint8_t)code);
        if (code % 8 == 7)
            read_known(AT);
    }
}

static void other_codes_from_00(struct script *s)
{
    other_codes(s, 0x00);
}

static void other_codes_from_40(struct script *s)
{
    other_codes(s, 0x40);
}

static void other_codes_from_80(struct script *s)
{
    other_codes(s, 0x80);
}

static void other_codes_from_c0(struct script *s)
{
    other_codes(s, 0xC0);
}

/* 80h, 81h to 83h and 85h to 87h, also those that name TXB2. */
static void other_requests(struct script *s)
{
    sc_mode(AT, MODE_NORMAL);
    for (uint8_t buffers = 0; buffers < 8; buffers++) {
        sc_rts(PANEL, buffers);
        sc_status(AT, buffers == 4 ? 0x40 : 0);
        sc_idle(AT, buffers == 4 ? 2 : 3);
        if (buffers != 4)
            continue;
        sc_end(AT, END_SENT, 0);
        sc_write(AT, CANINTF, 0);
    }
}

static void rxb0_is_closed(struct script *s)
{
    known_chip(AT);
    send(PANEL, 0x90, RX_BYTES + 1, 0);
    sc_read(AT, CANINTF, RX0IF | RX1IF);
    send(PANEL, 0x92, PAST_ROUND, 0);
    sc_one(PANEL, 0x90);
    sc_one(PANEL, 0x92);
    read_known(AT);
    sc_mode(AT, MODE_NORMAL);
    sc_std(AT, 0x123, RX_LOST); /* both still full */
}

static void write_stores_nothing(struct script *s)
{
    known_chip(AT);
    for (unsigned a = 0; a < 256; a++) {
        sc_write(PANEL, (uint8_t)a, (uint8_t)~known_byte(a % ADDRESSES));
        if (a % 32 == 31)
            read_known(AT);
    }
    sc_low(PANEL); /* a run over all of them */
    sc_xfer(PANEL, SPI_WRITE, 0);
    sc_xfer(PANEL, 0, 0);
    for (unsigned i = 0; i < PAST_ROUND; i++)
        sc_xfer(PANEL, 0x00, 0);
    sc_high(PANEL);
    read_known(AT);
}

static void bit_modify_stores_nothing(struct script *s)
{
    known_chip(AT);
    for (unsigned a = 0; a < ADDRESSES; a++) {
        sc_modify(PANEL, (uint8_t)a, 0xFF, (uint8_t)~known_byte((uint8_t)a));
        if (a % 32 == 31)
            read_known(AT);
    }
}

static void reset_changes_nothing(struct script *s)
{
    known_chip(AT);
    sc_reset(PANEL);
    read_known(AT);
    sc_mode(AT, MODE_NORMAL);
    sc_rts(AT, 1);
    sc_idle(AT, 0);
    sc_mode(AT, MODE_SLEEP);
    sc_reset(PANEL);
    sc_read(AT, CANSTAT, MODE_NORMAL << 5);
    sc_end(AT, END_SENT, 0); /* flight and mode request are still there */
    sc_read(AT, CANSTAT, MODE_SLEEP << 5);
}

static void other_loads(struct script *s)
{
    known_chip(AT);
    for (uint8_t code = 0x40; code < 0x44; code++)
        load(PANEL, code, code & 1 ? 8 : PAST_ROUND);
    load(PANEL, 0x46, RX_BYTES);
    load(PANEL, 0x47, 8);
    read_known(AT);
}

/* A forbidden code does not wait for another: the allowed one behind it is no code. */
static void no_second_code(struct script *s)
{
    known_chip(AT);
    sc_low(PANEL);
    sc_xfer(PANEL, 0x85, 0);
    sc_xfer(PANEL, 0x84, 0);
    sc_high(PANEL);
    sc_low(PANEL);
    sc_xfer(PANEL, 0x90, 0);
    sc_xfer(PANEL, 0x94, 0);
    sc_xfer(PANEL, 0x00, 0);
    sc_high(PANEL);
    read_known(AT);
}

/* ---- whose session it is ---- */

/* Refusal 2 before the others, with select high and low by either. */
static void speaker_above_1(struct script *s)
{
    for (unsigned held = 0; held < 3; held++) {
        if (held)
            sc_low(held == 1 ? AT : PANEL);
        for (unsigned speaker = 2; speaker < 256; speaker++)
            for (uint8_t kind = KIND_SELECT_LOW; kind <= KIND_SELECT_HIGH; kind++) {
                uint8_t record[RECORD_BYTES] = {kind, 0, (uint8_t)speaker};
                sc_raw(AT, record, REFUSED_FIELD, 0);
            }
        if (held)
            sc_high(held == 1 ? AT : PANEL);
    }
}

/* A byte without a name comes before refusals 1 and 18, whoever speaks. */
static void spare_bytes(struct script *s)
{
    for (unsigned held = 0; held < 3; held++) {
        if (held)
            sc_low(held == 1 ? AT : PANEL);
        for (unsigned i = 1; i < RECORD_BYTES; i++)
            for (unsigned j = 0; j < 6; j++) {
                uint8_t record[RECORD_BYTES] = {(uint8_t)(j % 3), 0, (uint8_t)(j / 3)};
                if (i == 2 || (i == 1 && record[0] == KIND_EXCHANGE))
                    continue;
                record[i] = (uint8_t)(1u << i % 8);
                sc_raw(AT, record, REFUSED_FIELD, 0);
            }
        if (held)
            sc_high(held == 1 ? AT : PANEL);
    }
}

/* With select high there is nobody: refusal 1 for both, after whosever session. */
static void nobody_has_selected(struct script *s)
{
    for (unsigned last = 0; last < 3; last++) {
        sc_refused(AT, REFUSED_SELECT, KIND_EXCHANGE, SPI_READ);
        sc_refused(PANEL, REFUSED_SELECT, KIND_EXCHANGE, SPI_READ);
        sc_refused(AT, REFUSED_SELECT, KIND_SELECT_HIGH, 0);
        sc_refused(PANEL, REFUSED_SELECT, KIND_SELECT_HIGH, 0);
        sc_read(last ? AT : PANEL, CANCTRL, 0x87);
    }
}

/* Refusal 1, whoever holds it and whoever asks. */
static void select_low_while_low(struct script *s)
{
    for (unsigned held = 0; held < 2; held++) {
        sc_low(held ? PANEL : AT);
        for (unsigned i = 0; i < 3; i++) {
            static const uint8_t bytes[] = {SPI_READ, CANCTRL, 0};
            sc_refused(AT, REFUSED_SELECT, KIND_SELECT_LOW, 0);
            sc_refused(PANEL, REFUSED_SELECT, KIND_SELECT_LOW, 0);
            sc_xfer(held ? PANEL : AT, bytes[i], i == 2 ? 0x87 : 0);
        }
        sc_high(held ? PANEL : AT);
    }
}

/* Between any two bytes of a session: refusal 18, and the session goes on. */
static void other_cuts_in(struct script *s)
{
    static const uint8_t bytes[] = {SPI_READ, CANCTRL - 1, 0, 0};
    static const uint8_t replies[] = {0, 0, 0x80, 0x87};
    for (unsigned held = 0; held < 2; held++) {
        sc_low(held ? PANEL : AT);
        for (unsigned i = 0; i < sizeof bytes; i++) {
            by_other(s, REFUSED_SPEAKER, KIND_EXCHANGE, SPI_RESET);
            by_other(s, REFUSED_SPEAKER, KIND_SELECT_HIGH, 0);
            by_other(s, REFUSED_SELECT, KIND_SELECT_LOW, 0);
            by_other(s, REFUSED_SPEAKER, KIND_EXCHANGE, 0x00);
            sc_xfer(held ? PANEL : AT, bytes[i], replies[i]);
        }
        by_other(s, REFUSED_SPEAKER, KIND_SELECT_HIGH, 0);
        sc_high(held ? PANEL : AT);
    }
}

/* The controller's WRITE, BIT MODIFY, RTS and RESET with the panel between their bytes. */
static void controller_goes_on(struct script *s)
{
    static const uint8_t sessions[][4] = {{SPI_WRITE, 0x31, 0x11, 0x22},
                                          {SPI_BIT_MODIFY, BFPCTRL, 0x0F, 0x35},
                                          {0x82, 0x84, 0x84, 0x84},
                                          {0x44, 0x66, 0x77, 0x88}};
    for (unsigned i = 0; i < sizeof sessions / sizeof *sessions; i++) {
        sc_low(AT);
        for (unsigned j = 0; j < 4; j++) {
            by_other(s, REFUSED_SPEAKER, KIND_EXCHANGE, (uint8_t)(0x80 + j));
            sc_xfer(AT, sessions[i][j], 0);
            by_other(s, REFUSED_SPEAKER, KIND_SELECT_HIGH, 0);
        }
        sc_high(AT);
    }
    sc_read(AT, 0x31, 0x11);
    sc_read(AT, 0x32, 0x22);
    sc_read(AT, 0x33, 0x00);
    sc_read(AT, BFPCTRL, 0x05);
    sc_read(AT, TXB1CTRL, TXREQ);
    sc_read(AT, TXB2CTRL, 0);
    sc_read(AT, 0x51, 0x66);
    sc_read(AT, 0x53, 0x88);
    sc_low(AT); /* RESET leaves it the controller's */
    sc_xfer(AT, SPI_RESET, 0);
    by_other(s, REFUSED_SPEAKER, KIND_EXCHANGE, SPI_READ);
    by_other(s, REFUSED_SPEAKER, KIND_SELECT_HIGH, 0);
    sc_xfer(AT, 0, 0);
    sc_high(AT);
}

/* Of neither: RX1IF is still set, and the session goes on. */
static void refused_select_high_clears_nothing(struct script *s)
{
    known_chip(AT);
    sc_mode(AT, MODE_NORMAL);
    for (unsigned held = 0; held < 2; held++) {
        sc_low(held ? PANEL : AT);
        sc_xfer(held ? PANEL : AT, 0x94, 0);
        by_other(s, REFUSED_SPEAKER, KIND_SELECT_HIGH, 0);
        sc_std(s, 0x123, RX_LOST); /* RX1IF is still set */
        by_other(s, REFUSED_SPEAKER, KIND_EXCHANGE, 0);
        sc_xfer(held ? PANEL : AT, 0, held ? 0xAA : 0x24);
        sc_high(held ? PANEL : AT);
        sc_read(AT, CANINTF, RX0IF | ERRIF);
        if (held)
            break;
        sc_std(AT, 0x555, RX_IN_RXB1);
    }
}

/* Every state that an instruction can be in by the one, and the other cuts in. */
static void cuts_in_everywhere(struct script *s)
{
    static const uint8_t codes[] = {SPI_READ, SPI_READ_STATUS, SPI_RX_STATUS, 0x94, 0x96,
                                    0x44,     0x45,            0x84,          0x02, 0x05,
                                    0x90,     0x40,            0xFF,          0x85};
    known_chip(AT);
    sc_write(AT, CANINTF, 0);
    for (unsigned i = 0; i < sizeof codes; i++)
        for (unsigned bytes = 0; bytes < 3; bytes++) {
            bool read = codes[i] == SPI_READ, status = codes[i] == SPI_READ_STATUS;
            uint8_t first = codes[i] == 0x94 ? 0x24 : codes[i] == 0x96 ? 0x11 : 0;
            sc_low(PANEL);
            sc_xfer(PANEL, codes[i], 0);
            for (unsigned j = 0; j < bytes; j++) {
                by_other(s, REFUSED_SPEAKER, KIND_EXCHANGE, SPI_WRITE);
                uint8_t second = codes[i] == 0x94 ? 0x80 : codes[i] == 0x96 ? 0x12 : 0;
                sc_xfer(PANEL, CANCTRL, read && j == 1 ? 0x87 : status || read ? 0
                                        : j == 0                               ? first
                                                                               : second);
            }
            by_other(s, REFUSED_SPEAKER, KIND_SELECT_HIGH, 0);
            sc_high(PANEL);
            sc_write(AT, TXB2CTRL, 1);
        }
}

static void taking_turns(struct script *s)
{
    sc_write(AT, TXB0CTRL + D0, 0x12);
    sc_read(PANEL, TXB0CTRL + D0, 0x12);
    sc_low(PANEL); /* no exchange */
    sc_high(PANEL);
    sc_write(PANEL, TXB0CTRL + D0, 0x34);
    sc_read(AT, TXB0CTRL + D0, 0x12);
    load(PANEL, 0x45, 1);
    sc_read(AT, TXB2CTRL + D0, 0x40);
    sc_write(AT, TXB2CTRL + D0, 0x56);
    sc_read(PANEL, TXB2CTRL + D0, 0x56);
    sc_reset(AT);
    sc_read(PANEL, TXB2CTRL + D0, 0x56);
}

/* ---- events inside the panel's sessions ---- */

/* TXB0 waits with equal TXP. Events alone would send it; the panel's TXB2 goes instead. */
static void request_sent_inside(struct script *s)
{
    for (unsigned panel = 0; panel < 2; panel++) {
        sc_mode(AT, MODE_NORMAL);
        sc_rts(AT, 1);
        if (panel) {
            sc_low(PANEL);
            sc_xfer(PANEL, 0x84, 0);
        }
        sc_idle(s, panel ? 2 : 0);
        sc_end(s, END_SENT, 0);
        if (panel)
            sc_high(PANEL);
        sc_read(AT, TXB0CTRL, panel ? TXREQ : 0);
        sc_read(AT, TXB2CTRL, 0);
    }
}

/* In Loopback what the panel loads comes in at RXB0, by pin 2, with no record of its own. */
static void load_received_inside(struct script *s)
{
    sc_write(AT, TXRTSCTRL, 4);
    sc_mode(AT, MODE_LOOPBACK);
    sc_low(PANEL);
    sc_xfer(PANEL, 0x44, 0);
    sc_xfer(PANEL, 0x24, 0);
    sc_xfer(PANEL, 0x60, 0);
    sc_xfer(PANEL, 0, 0);
    sc_xfer(PANEL, 0, 0);
    sc_xfer(PANEL, 1, 0);
    sc_xfer(PANEL, 0x5A, 0);
    sc_pin(PANEL, 2, 0);
    sc_idle(PANEL, 2);
    sc_end(PANEL, END_SENT, RX_IN_RXB0);
    sc_high(PANEL);
    sc_read(AT, RXB0CTRL + SIDH, 0x24);
    sc_read(AT, RXB0CTRL + SIDL, 0x60);
    sc_read(AT, RXB0CTRL + DLC, 1);
    sc_read(AT, RXB0CTRL + D0, 0x5A);
}

/* Frames, sends, errors, pins and a mode change while the panel holds select low. */
static void events_inside(struct script *s)
{
    sc_write(AT, TXRTSCTRL, ALL_PINS);
    sc_mode(AT, MODE_NORMAL);
    sc_rts(AT, 1);
    sc_low(PANEL);
    sc_idle(PANEL, 0);
    sc_refused(PANEL, REFUSED_IN_FLIGHT, KIND_FRAME, 0);
    sc_xfer(PANEL, SPI_READ, 0);
    sc_end(PANEL, END_ERROR, 0);
    sc_refused(PANEL, REFUSED_NO_FLIGHT, KIND_FRAME_ENDS, 0);
    sc_xfer(PANEL, TEC, 0);
    sc_rx_error(PANEL, 1);
    sc_xfer(PANEL, 0, 8);
    sc_std(PANEL, 0x123, RX_IN_RXB0);
    sc_xfer(PANEL, 0, 7);
    sc_refused(PANEL, REFUSED_STATE, KIND_RECOVERY, 0);
    sc_pin(PANEL, 1, 0);
    sc_high(PANEL);
    sc_status(PANEL, 0x15); /* RXB0 full, TXB0 and TXB1 asked for */
}

static void mode_changes_inside(struct script *s)
{
    sc_mode(AT, MODE_NORMAL);
    sc_rts(AT, 1);
    sc_idle(AT, 0);
    sc_mode(AT, MODE_SLEEP);
    sc_low(PANEL);
    sc_xfer(PANEL, SPI_READ, 0);
    sc_xfer(PANEL, 0x4E, 0);
    sc_xfer(PANEL, 0, MODE_NORMAL << 5);
    sc_end(PANEL, END_SENT, 0);
    sc_high(PANEL);
    sc_read(PANEL, CANSTAT, MODE_SLEEP << 5);
}

/* A fall locks the panel's LOAD half way, and another pin's does not. */
static void falls_inside_a_load(struct script *s)
{
    sc_write(AT, TXRTSCTRL, ALL_PINS);
    sc_low(PANEL);
    sc_xfer(PANEL, 0x44, 0);
    sc_xfer(PANEL, 0x41, 0);
    sc_pin(PANEL, 0, 0);
    sc_xfer(PANEL, 0x42, 0);
    sc_pin(PANEL, 2, 0);
    sc_xfer(PANEL, 0x43, 0);
    sc_high(PANEL);
    sc_read(PANEL, 0x51, 0x41);
    sc_read(PANEL, 0x52, 0x42);
    sc_read(PANEL, 0x53, 0x00);
    sc_read(PANEL, TXB0CTRL, TXREQ);
    sc_read(PANEL, TXB2CTRL, TXREQ);
}

/* Inside a session with a forbidden code events are as ever. */
static void events_inside_a_forbidden_session(struct script *s)
{
    sc_mode(AT, MODE_NORMAL);
    sc_low(PANEL);
    sc_xfer(PANEL, 0x90, 0);
    sc_std(PANEL, 0x123, RX_IN_RXB0);
    sc_xfer(PANEL, 0, 0);
    sc_std(PANEL, 0x123, RX_LOST);
    sc_high(PANEL);
    sc_read(AT, CANINTF, RX0IF | ERRIF);
    sc_low(PANEL);
    sc_xfer(PANEL, 0x81, 0);
    sc_idle(PANEL, 3);
    sc_high(PANEL);
    sc_status(AT, 0x01);
}

static const struct fixed_case table[] = {
    {"the panel reads", reads},
    {"the panel sees the controller's bytes", sees_the_controllers_bytes},
    {"the panel's READ comes round", read_comes_round},
    {"filters and masks are hidden from the panel outside Configuration", filters_are_hidden},
    {"the panel asks READ STATUS", asks_the_status},
    {"the panel asks RX STATUS", asks_the_rx_status},
    {"the panel's 94h and 96h", reads_rxb1},
    {"the panel's 94h and 96h of every length", read_of_every_length},
    {"the panel's READ RX BUFFER ends for good", read_ends_for_good},
    {"RX1IF stays till the panel's select high", flag_stays_till_select_high},
    {"the panel's 94h and 96h cut behind the code", cut_behind_the_code},
    {"the panel's 96h clears a flag that rose inside", clears_a_flag_that_rose_inside},
    {"the controller's READ RX BUFFER goes on", controller_reads_on},
    {"the panel loads TXB2", loads_txb2},
    {"the panel's LOAD takes each byte at once", load_takes_each_byte_at_once},
    {"the panel's LOAD keeps unwritable bits", load_keeps_unwritable_bits},
    {"the panel's LOAD ends for good", load_ends_for_good},
    {"the panel's LOAD does not come round", load_does_not_come_round},
    {"the controller's LOAD goes on", controller_loads_on},
    {"the panel's LOAD while TXB2 is requested", load_while_requested},
    {"the panel's LOAD while TXB2 is in flight", load_while_in_flight},
    {"locked bytes of the panel's LOAD count", locked_bytes_count},
    {"84h by the panel", requests_txb2},
    {"84h by the panel in every mode", requests_in_every_mode},
    {"bytes behind the panel's 84h", further_bytes_request_nothing},
    {"84h by the panel under ABAT", request_under_abat},
    {"84h by the panel clears flags", request_clears_flags},
    {"84h by the panel delays a mode request", request_delays_a_mode},
    {"a mode request behind the panel's 84h", mode_waits_for_an_earlier_request},
    {"84h by the panel wins a tie", request_wins_a_tie},
    {"other codes by the panel, 00h to 3Fh", other_codes_from_00},
    {"other codes by the panel, 40h to 7Fh", other_codes_from_40},
    {"other codes by the panel, 80h to BFh", other_codes_from_80},
    {"other codes by the panel, C0h to FFh", other_codes_from_c0},
    {"80h to 83h and 85h to 87h by the panel", other_requests},
    {"90h and 92h by the panel", rxb0_is_closed},
    {"WRITE by the panel", write_stores_nothing},
    {"BIT MODIFY by the panel", bit_modify_stores_nothing},
    {"RESET by the panel", reset_changes_nothing},
    {"LOAD of TXB0 and TXB1 by the panel", other_loads},
    {"no second code behind a forbidden one", no_second_code},
    {"a speaker above 1", speaker_above_1},
    {"spare bytes of selects and exchanges by either", spare_bytes},
    {"nobody has selected", nobody_has_selected},
    {"select low while low, by either", select_low_while_low},
    {"the other cuts in between the bytes of a READ", other_cuts_in},
    {"the controller's session goes on", controller_goes_on},
    {"a refused select high clears nothing", refused_select_high_clears_nothing},
    {"the controller cuts in everywhere", cuts_in_everywhere},
    {"controller and panel take turns", taking_turns},
    {"the panel's request is sent inside its session", request_sent_inside},
    {"the panel's bytes come in at RXB0 inside its session", load_received_inside},
    {"events inside the panel's READ", events_inside},
    {"a mode change inside the panel's session", mode_changes_inside},
    {"falls inside the panel's LOAD", falls_inside_a_load},
    {"events inside a forbidden session", events_inside_a_forbidden_session},
};

const struct case_group panel_cases = {table, sizeof table / sizeof *table};
