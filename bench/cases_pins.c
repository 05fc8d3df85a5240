/* The request pins TX0RTS to TX2RTS: their levels, TXRTSCTRL, and falls that request. */
#include "cases.h"
#include "model.h"
#include "registers.h"

enum { LOW, HIGH, PINS = 3 };

uint8_t case_txrtsctrl(uint8_t enables, uint8_t levels)
{
    return (uint8_t)(enables | (levels & ~enables & ALL_PINS) << 3);
}

/* ---- shared steps ---- */

static uint8_t ctrl_of(unsigned n)
{
    return (uint8_t)(TXB0CTRL + 0x10 * n);
}

static uint8_t bit_of(unsigned n)
{
    return (uint8_t)(1u << n);
}

/* Every pin at its level, bit n for TXnRTS. */
static void levels(struct script *s, unsigned wanted)
{
    for (uint8_t n = 0; n < PINS; n++)
        sc_pin(s, n, wanted >> n & 1);
}

/* TXBnCTRL of all three; the buffers of the set have this byte, the others 0. */
static void read_requests(struct script *s, unsigned buffers, uint8_t ctrl)
{
    for (unsigned n = 0; n < PINS; n++)
        sc_read(s, ctrl_of(n), buffers >> n & 1 ? ctrl : 0);
}

static void drop_requests(struct script *s)
{
    for (unsigned n = 0; n < PINS; n++)
        sc_write(s, ctrl_of(n), 0);
}

/* From high to low, whatever the level was. */
static void fall(struct script *s, uint8_t n)
{
    sc_pin(s, n, HIGH);
    sc_pin(s, n, LOW);
}

/* By its own session, and back to Normal by another. */
static void enable(struct script *s, uint8_t enables)
{
    sc_mode(s, MODE_CONFIGURATION);
    sc_write(s, TXRTSCTRL, enables);
    sc_mode(s, MODE_NORMAL);
}

/* ---- levels ---- */

static void power_on(struct script *s)
{
    sc_read(AT, TXRTSCTRL, 0x38);
    sc_read(AT, 0x80 | TXRTSCTRL, 0x38);
    sc_low(AT);
    sc_xfer(AT, SPI_READ, 0);
    sc_xfer(AT, BFPCTRL, 0);
    sc_xfer(AT, 0, 0x00);
    sc_xfer(AT, 0, 0x38);
    sc_xfer(AT, 0, 0x80);
    sc_high(AT);
    levels(AT, ALL_PINS); /* high already: nothing moves */
    sc_read(AT, TXRTSCTRL, 0x38);
    read_requests(AT, 0, 0);
}

/* Bits 5-3 for every level and every enable, in Configuration and outside it. */
static void every_level_and_enable(struct script *s)
{
    for (uint8_t mode = MODE_NORMAL; mode < MODES; mode++)
        for (uint8_t enables = 0; enables <= ALL_PINS; enables++) {
            sc_mode(AT, MODE_CONFIGURATION);
            sc_write(AT, TXRTSCTRL, enables);
            sc_mode(AT, mode);
            for (uint8_t wanted = 0; wanted <= ALL_PINS; wanted++) {
                levels(AT, wanted);
                sc_read(AT, TXRTSCTRL, case_txrtsctrl(enables, wanted));
                drop_requests(AT);
            }
        }
}

/* The level is noted while the pin is enabled, and shows once it is not. */
static void level_moves_while_enabled(struct script *s)
{
    for (uint8_t n = 0; n < PINS; n++) {
        sc_write(AT, TXRTSCTRL, bit_of(n));
        sc_pin(AT, n, LOW);
        sc_read(AT, TXRTSCTRL, case_txrtsctrl(bit_of(n), ALL_PINS));
        sc_write(AT, TXRTSCTRL, 0);
        sc_read(AT, TXRTSCTRL, case_txrtsctrl(0, ALL_PINS ^ bit_of(n)));
        sc_write(AT, TXRTSCTRL, bit_of(n));
        sc_pin(AT, n, HIGH);
        sc_write(AT, TXRTSCTRL, 0);
        sc_read(AT, TXRTSCTRL, 0x38);
    }
}

/* A READ samples at its exchange; the rest of its session is as ever. */
static void read_sees_the_level_of_its_moment(struct script *s)
{
    sc_low(AT);
    sc_xfer(AT, SPI_READ, 0);
    sc_pin(AT, 0, LOW);
    sc_xfer(AT, TXRTSCTRL, 0);
    sc_pin(AT, 1, LOW);
    sc_xfer(AT, 0, 0x20);
    sc_pin(AT, 2, LOW); /* too late for it */
    sc_xfer(AT, 0, 0x80);
    sc_high(AT);
    sc_read(AT, TXRTSCTRL, 0x00);
}

/* ---- TXRTSCTRL by the firmware ---- */

static void writes_reach_the_enables(struct script *s)
{
    sc_write(AT, TXRTSCTRL, 0xFF);
    sc_read(AT, TXRTSCTRL, 0x07);
    sc_write(AT, TXRTSCTRL, 0x38); /* no enable, and the pins are high */
    sc_read(AT, TXRTSCTRL, 0x38);
    sc_write(AT, TXRTSCTRL, 0x00);
    sc_read(AT, TXRTSCTRL, 0x38);
    levels(AT, 0);
    sc_write(AT, TXRTSCTRL, 0xF8);
    sc_read(AT, TXRTSCTRL, 0x00);
    for (uint8_t n = 0; n < PINS; n++) { /* a WRITE moves no level */
        sc_write(AT, TXRTSCTRL, 0xF8 | bit_of(n));
        sc_read(AT, TXRTSCTRL, bit_of(n));
    }
    read_requests(AT, 0, 0);
}

static void modifies_reach_the_enables(struct script *s)
{
    sc_modify(AT, TXRTSCTRL, 0x02, 0xFF);
    sc_read(AT, TXRTSCTRL, 0x2A);
    sc_modify(AT, TXRTSCTRL, 0x38, 0x00); /* levels are out of its reach */
    sc_read(AT, TXRTSCTRL, 0x2A);
    sc_modify(AT, TXRTSCTRL, 0x05, 0xFD);
    sc_read(AT, TXRTSCTRL, 0x07);
    sc_modify(AT, TXRTSCTRL, 0x38, 0xFF);
    sc_read(AT, TXRTSCTRL, 0x07);
    sc_modify(AT, TXRTSCTRL, 0x06, 0x00);
    sc_read(AT, TXRTSCTRL, 0x31);
    sc_pin(AT, 2, LOW);
    sc_modify(AT, TXRTSCTRL, 0x00, 0xFF); /* merges what it holds, and shows the level after */
    sc_read(AT, TXRTSCTRL, 0x11);
    sc_modify(AT, 0x80 | TXRTSCTRL, 0x07, 0x04);
    sc_read(AT, TXRTSCTRL, 0x1C);
}

static void closed_outside_configuration(struct script *s)
{
    for (uint8_t mode = MODE_NORMAL; mode < MODE_CONFIGURATION; mode++)
        for (uint8_t enables = 0; enables <= ALL_PINS; enables++) {
            uint8_t shown = case_txrtsctrl(enables, 5);
            sc_mode(AT, MODE_CONFIGURATION);
            sc_write(AT, TXRTSCTRL, enables);
            sc_mode(AT, mode);
            levels(AT, 5);
            sc_write(AT, TXRTSCTRL, (uint8_t)~enables);
            sc_read(AT, TXRTSCTRL, shown);
            sc_modify(AT, TXRTSCTRL, 0xFF, (uint8_t)~enables);
            sc_read(AT, TXRTSCTRL, shown);
            drop_requests(AT);
            levels(AT, 7); /* what is enabled is what was: */
            levels(AT, 0);
            read_requests(AT, enables, TXREQ);
            drop_requests(AT);
        }
}

/* ---- falls ---- */

static void fall_of_an_enabled_pin(struct script *s)
{
    for (uint8_t n = 0; n < PINS; n++) {
        sc_write(AT, TXRTSCTRL, bit_of(n));
        sc_read(AT, TXRTSCTRL, case_txrtsctrl(bit_of(n), ALL_PINS));
        sc_pin(AT, n, LOW);
        sc_set(s, 0);
        read_requests(AT, bit_of(n), TXREQ);
        sc_status(AT, (uint8_t)(0x04 << 2 * n));
        sc_mode(AT, MODE_NORMAL);
        sc_idle(AT, n);
        sc_end(AT, END_SENT, 0);
        sc_read(AT, CANINTF, (uint8_t)(TX0IF << n));
        sc_read(AT, ctrl_of(n), 0);
        sc_idle(AT, NO_FLIGHT); /* the pin is still low: no second request */
        sc_write(AT, CANINTF, 0);
        sc_mode(AT, MODE_CONFIGURATION);
        sc_pin(AT, n, HIGH);
    }
}

/* Each pin goes by its own bit, whatever the others are. */
static void every_set_of_enables(struct script *s)
{
    for (uint8_t enables = 0; enables <= ALL_PINS; enables++)
        for (uint8_t n = 0; n < PINS; n++) {
            sc_write(AT, TXRTSCTRL, enables);
            sc_pin(AT, n, LOW);
            read_requests(AT, enables & bit_of(n), TXREQ);
            drop_requests(AT);
            sc_pin(AT, n, HIGH);
            read_requests(AT, 0, 0);
        }
}

static void fall_of_a_disabled_pin(struct script *s)
{
    for (uint8_t n = 0; n < PINS; n++) {
        sc_write(AT, TXRTSCTRL, ALL_PINS ^ bit_of(n));
        sc_pin(AT, n, LOW);
        sc_read(AT, TXRTSCTRL, ALL_PINS ^ bit_of(n));
        read_requests(AT, 0, 0);
        sc_write(AT, TXRTSCTRL, ALL_PINS); /* enabled while low: that is no fall */
        read_requests(AT, 0, 0);
        sc_pin(AT, n, LOW);
        read_requests(AT, 0, 0);
        fall(AT, n);
        read_requests(AT, bit_of(n), TXREQ);
        drop_requests(AT);
        sc_pin(AT, n, HIGH);
    }
}

static void repeats_and_rises(struct script *s)
{
    sc_write(AT, TXRTSCTRL, ALL_PINS);
    for (uint8_t n = 0; n < PINS; n++) {
        sc_pin(AT, n, HIGH);
        read_requests(AT, 0, 0);
        sc_pin(AT, n, LOW);
        sc_write(AT, ctrl_of(n), 0);
        sc_pin(AT, n, LOW); /* a level, not a fall */
        sc_pin(AT, n, LOW);
        read_requests(AT, 0, 0);
        sc_pin(AT, n, HIGH);
        read_requests(AT, 0, 0);
        sc_pin(AT, n, HIGH);
        read_requests(AT, 0, 0);
        sc_pin(AT, n, LOW);
        read_requests(AT, bit_of(n), TXREQ);
        sc_pin(AT, n, HIGH); /* nor does a rise take the request back */
        read_requests(AT, bit_of(n), TXREQ);
        drop_requests(AT);
    }
}

/* The pins do not share a level: one is held low while another falls. */
static void pins_are_apart(struct script *s)
{
    sc_write(AT, TXRTSCTRL, ALL_PINS);
    for (uint8_t held = 0; held < PINS; held++)
        for (uint8_t n = 0; n < PINS; n++) {
            levels(AT, ALL_PINS);
            sc_pin(AT, held, LOW);
            drop_requests(AT);
            sc_pin(AT, n, LOW);
            read_requests(AT, n == held ? 0 : bit_of(n), TXREQ);
            drop_requests(AT);
        }
}

static void in_every_mode(struct script *s)
{
    for (uint8_t mode = MODE_NORMAL; mode < MODES; mode++)
        for (uint8_t n = 0; n < PINS; n++) {
            sc_mode(AT, MODE_CONFIGURATION);
            sc_write(AT, TXRTSCTRL, ALL_PINS);
            sc_mode(AT, mode);
            fall(AT, n);
            sc_read(AT, CANSTAT, (uint8_t)(mode << 5)); /* nor does it wake */
            read_requests(AT, bit_of(n), TXREQ);
            sc_idle(AT, mode == MODE_NORMAL || mode == MODE_LOOPBACK ? n : NO_FLIGHT);
            if (mode == MODE_NORMAL || mode == MODE_LOOPBACK)
                sc_end(AT, END_SENT, mode == MODE_LOOPBACK ? RX_IN_RXB0 : 0);
            sc_write(AT, CANINTF, 0);
            drop_requests(AT);
        }
}

static void in_bus_off(struct script *s)
{
    enable(AT, 2);
    sc_rts(AT, 1);
    case_errors(AT, 0, 32);
    sc_write(AT, TXB0CTRL, 0);
    sc_read(AT, EFLG, TXBO | TXEP | TXWAR | EWARN);
    fall(AT, 1);
    sc_read(AT, TXB1CTRL, TXREQ);
    sc_idle(AT, NO_FLIGHT);
    sc_recovery(AT);
    sc_idle(AT, 1);
}

/* At every place of a session: the open instruction goes on, and what it shows or
 * changes is judged when it does. */
static void inside_a_session(struct script *s)
{
    for (unsigned before = 0; before < 4; before++) {
        sc_write(AT, TXRTSCTRL, 2);
        sc_low(AT);
        for (unsigned i = 0; i < 4; i++) {
            static const uint8_t sent[] = {SPI_READ, TXB1CTRL, 0};
            if (i == before)
                fall(AT, 1);
            if (i < 3)
                sc_xfer(AT, sent[i], i == 2 && before <= 2 ? TXREQ : 0);
        }
        sc_high(AT);
        sc_read(AT, TXB1CTRL, TXREQ);
        drop_requests(AT);
        sc_pin(AT, 1, HIGH);
    }
}

/* BIT MODIFY of TXP merges over the request that came before its data byte. */
static void inside_a_bit_modify(struct script *s)
{
    sc_write(AT, TXRTSCTRL, 4);
    sc_low(AT);
    sc_xfer(AT, SPI_BIT_MODIFY, 0);
    sc_xfer(AT, TXB2CTRL, 0);
    sc_xfer(AT, TXP, 0);
    sc_pin(AT, 2, LOW);
    sc_xfer(AT, 0x03, 0);
    sc_high(AT);
    sc_read(AT, TXB2CTRL, TXREQ | TXP);
}

/* The bytes before the fall are taken, those behind it are locked out. */
static void inside_a_load(struct script *s)
{
    for (uint8_t n = 0; n < PINS; n++) {
        sc_write(AT, TXRTSCTRL, ALL_PINS);
        sc_low(AT);
        sc_xfer(AT, (uint8_t)(SPI_LOAD_TX + 2 * n + 1), 0);
        sc_xfer(AT, 0x11, 0);
        sc_xfer(AT, 0x22, 0);
        sc_pin(AT, n, LOW);
        sc_xfer(AT, 0x33, 0);
        sc_xfer(AT, 0x44, 0);
        sc_high(AT);
        sc_read(AT, (uint8_t)(ctrl_of(n) + D0), 0x11);
        sc_read(AT, (uint8_t)(ctrl_of(n) + D0 + 1), 0x22);
        sc_read(AT, (uint8_t)(ctrl_of(n) + D0 + 2), 0x00);
        sc_read(AT, (uint8_t)(ctrl_of(n) + D0 + 3), 0x00);
        sc_read(AT, ctrl_of(n), TXREQ);
        drop_requests(AT);
    }
}

static void in_flight(struct script *s)
{
    enable(AT, ALL_PINS);
    for (uint8_t flying = 0; flying < PINS; flying++)
        for (uint8_t n = 0; n < PINS; n++) {
            sc_rts(AT, bit_of(flying));
            sc_idle(AT, flying);
            sc_write(AT, ctrl_of(flying), 0); /* no retry, unless asked again */
            fall(AT, n);
            read_requests(AT, bit_of(n), TXREQ);
            sc_refused(AT, REFUSED_IN_FLIGHT, KIND_BUS_IDLE, 0); /* it still flies */
            sc_end(AT, END_LOST, 0);
            sc_read(AT, ctrl_of(flying), n == flying ? MLOA | TXREQ : MLOA);
            sc_idle(AT, n);
            sc_end(AT, END_SENT, 0);
            sc_write(AT, CANINTF, 0);
            sc_rts(AT, ALL_PINS); /* clears MLOA */
            drop_requests(AT);
        }
}

/* Sent all the same: the request of the pin is spent with the frame. */
static void request_spent_in_flight(struct script *s)
{
    enable(AT, 1);
    sc_rts(AT, 1);
    sc_idle(AT, 0);
    fall(AT, 0);
    sc_end(AT, END_SENT, 0);
    sc_read(AT, TXB0CTRL, 0);
    sc_idle(AT, NO_FLIGHT);
}

/* ---- ABTF, MLOA and TXERR ---- */

/* Leaves this flag in TXBnCTRL, TXREQ clear and TXP 2. */
static void leave_flag(struct script *s, uint8_t n, uint8_t flag)
{
    sc_write(s, ctrl_of(n), TXREQ | 2);
    if (flag != ABTF) {
        sc_write(s, CANCTRL, OSM | 0x07);
        sc_idle(s, n);
        sc_end(s, flag == MLOA ? END_LOST : END_ERROR, 0);
    } else {
        sc_write(s, CANCTRL, ABAT | 0x07);
    }
    sc_mode(s, MODE_NORMAL);
    sc_read(s, ctrl_of(n), flag | 2);
}

static const uint8_t flags[] = {ABTF, MLOA, TXERR};

static void fall_clears_flags(struct script *s)
{
    enable(AT, ALL_PINS);
    for (uint8_t n = 0; n < PINS; n++)
        for (unsigned i = 0; i < sizeof flags; i++) {
            leave_flag(AT, n, flags[i]);
            sc_pin(AT, n, HIGH);
            sc_read(AT, ctrl_of(n), flags[i] | 2); /* not by a rise */
            sc_pin(AT, n, LOW);
            sc_read(AT, ctrl_of(n), TXREQ | 2);
            sc_write(AT, ctrl_of(n), 2);
            leave_flag(AT, n, flags[i]);
            sc_pin(AT, n, LOW); /* nor by a level that repeats */
            sc_read(AT, ctrl_of(n), flags[i] | 2);
            fall(AT, n);
            sc_write(AT, ctrl_of(n), 0);
        }
}

/* A fall of a pin that is not enabled, or of another pin. */
static void other_falls_leave_flags(struct script *s)
{
    enable(AT, 3);
    leave_flag(AT, 0, MLOA);
    leave_flag(AT, 2, TXERR);
    sc_pin(AT, 2, LOW);
    sc_pin(AT, 1, LOW);
    sc_read(AT, TXB0CTRL, MLOA | 2);
    sc_read(AT, TXB1CTRL, TXREQ);
    sc_read(AT, TXB2CTRL, TXERR | 2);
}

/* Lost or in error, and asked again by the chip itself: TXREQ is still set. */
static void fall_over_a_request(struct script *s)
{
    enable(AT, ALL_PINS);
    for (uint8_t n = 0; n < PINS; n++) {
        sc_rts(AT, bit_of(n));
        sc_idle(AT, n);
        sc_end(AT, END_LOST, 0);
        fall(AT, n);
        sc_read(AT, ctrl_of(n), MLOA | TXREQ);
        sc_idle(AT, n);
        sc_end(AT, END_ERROR, 0);
        fall(AT, n);
        sc_read(AT, ctrl_of(n), MLOA | TXERR | TXREQ);
        sc_idle(AT, n);
        fall(AT, n); /* in flight too */
        sc_read(AT, ctrl_of(n), MLOA | TXERR | TXREQ);
        sc_end(AT, END_SENT, 0);
        sc_read(AT, ctrl_of(n), MLOA | TXERR);
        fall(AT, n);
        sc_read(AT, ctrl_of(n), TXREQ);
        drop_requests(AT);
    }
}

/* ---- ABAT ---- */

static void under_abat(struct script *s)
{
    enable(AT, ALL_PINS);
    for (uint8_t n = 0; n < PINS; n++) {
        sc_write(AT, ctrl_of(n), TXREQ | 1);
        sc_write(AT, CANCTRL, ABAT | 0x07);
        fall(AT, n);
        sc_read(AT, ctrl_of(n), ABTF | 1); /* nothing, and ABTF stays */
        sc_mode(AT, MODE_NORMAL);
        sc_read(AT, ctrl_of(n), ABTF | 1); /* the fall is not kept for later */
        sc_pin(AT, n, LOW);
        sc_read(AT, ctrl_of(n), ABTF | 1); /* the level was: this one repeats */
        fall(AT, n);
        sc_read(AT, ctrl_of(n), TXREQ | 1);
        sc_write(AT, ctrl_of(n), 0);
    }
}

/* The frame in flight keeps TXREQ under ABAT; if the firmware takes it, no fall
 * brings it back. */
static void under_abat_in_flight(struct script *s)
{
    enable(AT, ALL_PINS);
    sc_rts(AT, 2);
    sc_idle(AT, 1);
    sc_write(AT, CANCTRL, ABAT | 0x07);
    fall(AT, 1);
    sc_read(AT, TXB1CTRL, TXREQ);
    sc_write(AT, TXB1CTRL, 0);
    fall(AT, 1);
    fall(AT, 0);
    read_requests(AT, 0, 0);
    sc_end(AT, END_LOST, 0);
    sc_read(AT, TXB1CTRL, ABTF | MLOA);
    fall(AT, 1);
    sc_read(AT, TXB1CTRL, ABTF | MLOA);
}

/* ---- mode requests ---- */

/* The frame's end would have let the mode go; the message of the pin holds it. */
static void fall_delays_a_request(struct script *s)
{
    for (uint8_t n = 0; n < PINS; n++)
        for (unsigned i = 0; i < 2; i++) {
            uint8_t mode = i == 0 ? MODE_NORMAL : MODE_LOOPBACK, flying = (uint8_t)((n + 1) % PINS);
            sc_mode(AT, MODE_CONFIGURATION);
            sc_write(AT, TXRTSCTRL, bit_of(n));
            sc_mode(AT, mode);
            sc_rts(AT, bit_of(flying));
            sc_idle(AT, flying);
            sc_mode(AT, MODE_LISTEN_ONLY);
            sc_read(AT, CANSTAT, (uint8_t)(mode << 5));
            fall(AT, n);
            sc_end(AT, END_SENT, mode == MODE_LOOPBACK ? RX_IN_RXB0 : 0);
            sc_read(AT, CANSTAT, (uint8_t)(mode << 5)); /* it waits on */
            sc_write(AT, CANINTF, 0);
            sc_idle(AT, n);
            sc_read(AT, CANSTAT, (uint8_t)(mode << 5));
            sc_end(AT, END_SENT, mode == MODE_LOOPBACK ? RX_IN_RXB0 : 0);
            sc_read(AT, CANSTAT, MODE_LISTEN_ONLY << 5);
            sc_write(AT, CANINTF, 0);
        }
}

/* Nothing of the kind without an enable, by a rise or a level that repeats. */
static void others_delay_no_request(struct script *s)
{
    sc_write(AT, TXRTSCTRL, 4);
    sc_pin(AT, 2, LOW);
    sc_write(AT, TXB2CTRL, 0);
    sc_mode(AT, MODE_NORMAL);
    sc_rts(AT, 1);
    sc_idle(AT, 0);
    sc_mode(AT, MODE_LISTEN_ONLY);
    fall(AT, 1);
    sc_pin(AT, 2, LOW);
    sc_pin(AT, 2, HIGH);
    sc_read(AT, CANSTAT, MODE_NORMAL << 5); /* the flight holds it */
    sc_end(AT, END_SENT, 0);
    sc_read(AT, CANSTAT, MODE_LISTEN_ONLY << 5);
}

/* ---- RESET ---- */

static void reset_leaves_the_levels(struct script *s)
{
    for (uint8_t enables = 0; enables <= ALL_PINS; enables++)
        for (uint8_t wanted = 0; wanted <= ALL_PINS; wanted++) {
            sc_write(AT, TXRTSCTRL, enables);
            levels(AT, wanted);
            sc_reset(AT);
            sc_read(AT, TXRTSCTRL, case_txrtsctrl(0, wanted));
            read_requests(AT, 0, 0);
        }
}

/* A pin held low through RESET: neither RESET nor enabling it again is a fall. */
static void held_low_through_reset(struct script *s)
{
    for (uint8_t n = 0; n < PINS; n++) {
        levels(AT, ALL_PINS);
        sc_write(AT, TXRTSCTRL, bit_of(n));
        sc_pin(AT, n, LOW);
        sc_reset(AT);
        sc_read(AT, TXRTSCTRL, case_txrtsctrl(0, ALL_PINS ^ bit_of(n)));
        sc_write(AT, TXRTSCTRL, bit_of(n));
        read_requests(AT, 0, 0);
        sc_pin(AT, n, LOW); /* RESET did not lift it: this one repeats */
        read_requests(AT, 0, 0);
        fall(AT, n);
        read_requests(AT, bit_of(n), TXREQ);
        sc_reset(AT);
    }
}

static void reset_clears_the_enables(struct script *s)
{
    for (uint8_t n = 0; n < PINS; n++) {
        sc_write(AT, TXRTSCTRL, ALL_PINS);
        sc_reset(AT);
        sc_read(AT, TXRTSCTRL, 0x38);
        sc_pin(AT, n, LOW);
        sc_read(AT, TXRTSCTRL, case_txrtsctrl(0, ALL_PINS ^ bit_of(n)));
        read_requests(AT, 0, 0);
        sc_pin(AT, n, HIGH);
    }
}

/* In the middle of RESET's session, before its byte and behind it. */
static void around_reset(struct script *s)
{
    sc_write(AT, TXRTSCTRL, ALL_PINS);
    sc_low(AT);
    sc_pin(AT, 0, LOW);
    sc_xfer(AT, SPI_RESET, 0);
    sc_pin(AT, 1, LOW);
    sc_high(AT);
    read_requests(AT, 0, 0);
    sc_read(AT, TXRTSCTRL, 0x20);
}

/* In Normal, with a flight and a mode request, which RESET takes; the levels stay. */
static void reset_with_a_flight(struct script *s)
{
    enable(AT, 1);
    sc_pin(AT, 0, LOW);
    sc_idle(AT, 0);
    sc_mode(AT, MODE_SLEEP);
    sc_pin(AT, 2, LOW);
    sc_reset(AT);
    sc_read(AT, CANSTAT, 0x80);
    sc_read(AT, TXRTSCTRL, 0x10);
    sc_refused(AT, REFUSED_NO_FLIGHT, KIND_FRAME_ENDS, END_SENT);
}

/* ---- refusals ---- */

/* Damaged in one byte, it would otherwise be a fall of an enabled pin. */
static void refused_fields(struct script *s)
{
    sc_write(AT, TXRTSCTRL, ALL_PINS);
    for (unsigned value = 3; value < 256; value++)
        for (uint8_t level = LOW; level <= HIGH; level++) {
            uint8_t record[RECORD_BYTES] = {KIND_REQUEST_PIN, (uint8_t)value, level};
            sc_raw(AT, record, REFUSED_FIELD, 0);
            sc_set(s, 0);
        }
    for (unsigned value = 2; value < 256; value++)
        for (uint8_t n = 0; n < PINS; n++) {
            uint8_t record[RECORD_BYTES] = {KIND_REQUEST_PIN, n, (uint8_t)value};
            sc_raw(AT, record, REFUSED_FIELD, 0);
        }
    for (unsigned i = 3; i < RECORD_BYTES; i++)
        for (unsigned bit = 0; bit < 8; bit++) {
            uint8_t record[RECORD_BYTES] = {KIND_REQUEST_PIN, (uint8_t)(i % PINS), LOW};
            record[i] = (uint8_t)(1u << bit);
            sc_raw(AT, record, REFUSED_FIELD, 0);
        }
    read_requests(AT, 0, 0);
    sc_write(AT, TXRTSCTRL, 0);
    sc_read(AT, TXRTSCTRL, 0x38); /* nor did a level move */
}

/* The same for a rise, and while the pin is not enabled. */
static void refused_levels_stay(struct script *s)
{
    levels(AT, 0);
    for (uint8_t n = 0; n < PINS; n++) {
        uint8_t record[RECORD_BYTES] = {KIND_REQUEST_PIN, n, 2};
        sc_raw(AT, record, REFUSED_FIELD, 0);
        record[2] = HIGH;
        record[15] = 1;
        sc_raw(AT, record, REFUSED_FIELD, 0);
        sc_read(AT, TXRTSCTRL, 0x00);
    }
}

/* Refusals 1, 3, 4 and 5 are for other kinds. */
static void never_refused_for_its_time(struct script *s)
{
    static const uint8_t damaged[RECORD_BYTES] = {KIND_REQUEST_PIN, 3};
    sc_mode(AT, MODE_LOOPBACK);
    sc_rts(AT, 1);
    sc_idle(AT, 0);
    levels(AT, 0); /* in flight, in Loopback, select high */
    sc_raw(AT, damaged, REFUSED_FIELD, 0);
    sc_low(AT);
    levels(AT, 7); /* select low */
    sc_raw(AT, damaged, REFUSED_FIELD, 0);
    sc_xfer(AT, SPI_READ, 0);
    sc_xfer(AT, TXRTSCTRL, 0);
    sc_pin(AT, 1, LOW);
    sc_xfer(AT, 0, 0x28);
    sc_high(AT);
    sc_end(AT, END_SENT, RX_IN_RXB0);
    levels(AT, 2); /* no flight, no bus-off */
    sc_read(AT, TXRTSCTRL, 0x10);
}

static const struct fixed_case table[] = {
    {"TXRTSCTRL reads 38h at power-on", power_on},
    {"TXRTSCTRL shows every level and enable, in every mode", every_level_and_enable},
    {"a level moves while its pin is enabled", level_moves_while_enabled},
    {"READ shows the level of its moment", read_sees_the_level_of_its_moment},
    {"WRITE reaches the enables alone", writes_reach_the_enables},
    {"BIT MODIFY reaches the enables alone", modifies_reach_the_enables},
    {"TXRTSCTRL is closed outside Configuration", closed_outside_configuration},
    {"a fall of an enabled pin requests its buffer", fall_of_an_enabled_pin},
    {"each pin goes by its own enable", every_set_of_enables},
    {"a fall of a pin that is not enabled", fall_of_a_disabled_pin},
    {"levels that repeat, and rises", repeats_and_rises},
    {"each pin has its own level", pins_are_apart},
    {"a fall in every mode", in_every_mode},
    {"a fall in bus-off", in_bus_off},
    {"a fall inside a session", inside_a_session},
    {"a fall inside BIT MODIFY", inside_a_bit_modify},
    {"a fall inside LOAD TX BUFFER", inside_a_load},
    {"a fall in flight", in_flight},
    {"a request in flight is spent with its frame", request_spent_in_flight},
    {"a fall clears ABTF, MLOA and TXERR", fall_clears_flags},
    {"other falls leave the flags", other_falls_leave_flags},
    {"a fall over a request keeps the flags", fall_over_a_request},
    {"a fall under ABAT", under_abat},
    {"a fall under ABAT, in flight", under_abat_in_flight},
    {"a fall delays a mode request", fall_delays_a_request},
    {"other pin records delay no mode request", others_delay_no_request},
    {"RESET leaves the levels", reset_leaves_the_levels},
    {"a pin held low through RESET", held_low_through_reset},
    {"RESET clears the enables", reset_clears_the_enables},
    {"pins before and behind RESET's byte", around_reset},
    {"RESET with a flight, a request and low pins", reset_with_a_flight},
    {"pin records refused for a field", refused_fields},
    {"a refused pin record moves no level", refused_levels_stay},
    {"a pin record is never refused for its time", never_refused_for_its_time},
};

const struct case_group pins_cases = {table, sizeof table / sizeof *table};
