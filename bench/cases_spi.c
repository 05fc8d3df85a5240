/* Registers and SPI instructions. */
#include "cases.h"
#include "model.h"
#include "registers.h"

/* ---- registers ---- */

/* What each address reads after RESET and a WRITE of FFh in Configuration. */
static const uint8_t after_ff[128] = {
    0xFF, 0xEB, 0xFF, 0xFF, 0xFF, 0xEB, 0xFF, 0xFF, 0xFF, 0xEB, 0xFF, 0xFF, 0x3F, 0x07, 0x80, 0xFF,
    0xFF, 0xEB, 0xFF, 0xFF, 0xFF, 0xEB, 0xFF, 0xFF, 0xFF, 0xEB, 0xFF, 0xFF, 0x00, 0x00, 0x80, 0xFF,
    0xFF, 0xE3, 0xFF, 0xFF, 0xFF, 0xE3, 0xFF, 0xFF, 0xC7, 0xFF, 0xFF, 0xFF, 0xFF, 0xC0, 0x80, 0xFF,
    0x0B, 0xFF, 0xEB, 0xFF, 0xFF, 0x4F, 0xFF, 0xFF, 0xFF, 0xFF, 0xFF, 0xFF, 0xFF, 0xFF, 0x80, 0xFF,
    0x0B, 0xFF, 0xEB, 0xFF, 0xFF, 0x4F, 0xFF, 0xFF, 0xFF, 0xFF, 0xFF, 0xFF, 0xFF, 0xFF, 0x80, 0xFF,
    0x0B, 0xFF, 0xEB, 0xFF, 0xFF, 0x4F, 0xFF, 0xFF, 0xFF, 0xFF, 0xFF, 0xFF, 0xFF, 0xFF, 0x80, 0xFF,
    0x66, 0x00, 0x00, 0x00, 0x00, 0x00, 0x00, 0x00, 0x00, 0x00, 0x00, 0x00, 0x00, 0x00, 0x80, 0xFF,
    0x60, 0x00, 0x00, 0x00, 0x00, 0x00, 0x00, 0x00, 0x00, 0x00, 0x00, 0x00, 0x00, 0x00, 0x80, 0xFF,
};

/* A byte as it reads after RESET and its WRITE in Configuration, the pins high. */
static uint8_t after_write(unsigned a, uint8_t value)
{
    if (a == RXB0CTRL) /* bit 1 copies BUKT */
        return (value & (RXM | BUKT)) | (value & BUKT ? BUKT1 : 0);
    if (a == TXRTSCTRL)
        return case_txrtsctrl(value & after_ff[a], ALL_PINS);
    return value & after_ff[a];
}

/* Addresses that take writes in Configuration only. */
static const uint8_t config_only[] = {
    0x00, 0x01, 0x02, 0x03, 0x04, 0x05, 0x06, 0x07, 0x08, 0x09, 0x0A, 0x0B,
    0x10, 0x11, 0x12, 0x13, 0x14, 0x15, 0x16, 0x17, 0x18, 0x19, 0x1A, 0x1B,
    0x20, 0x21, 0x22, 0x23, 0x24, 0x25, 0x26, 0x27, CNF3, CNF2, CNF1, TXRTSCTRL,
};

static void read_all_at_power_on(struct script *s)
{
    sc_low(AT);
    sc_xfer(AT, SPI_READ, 0);
    sc_xfer(AT, 0, 0);
    for (unsigned a = 0; a < 128 + 16; a++) { /* past 7Fh comes 00h again */
        uint8_t low = a & 0x0F;
        sc_xfer(AT, 0,
                low == CANSTAT           ? 0x80
                : low == CANCTRL         ? 0x87
                : (a & 0x7F) == TXRTSCTRL ? 0x38 /* the pins are high */
                                         : 0x00);
    }
    sc_high(AT);
}

static void registers_at_power_on(struct script *s)
{
    read_all_at_power_on(AT);
}

static void writable_bits(struct script *s)
{
    for (unsigned a = 0; a < 128; a++) {
        sc_reset(AT);
        sc_write(AT, (uint8_t)a, 0xFF);
        sc_read(AT, (uint8_t)a, after_ff[a]);
        if ((a & 0x0F) == CANSTAT || (a & 0x0F) == CANCTRL)
            continue;
        sc_write(AT, (uint8_t)a, 0x00);
        sc_read(AT, (uint8_t)a, a == TXRTSCTRL ? case_txrtsctrl(0, ALL_PINS) : 0x00);
    }
}

static void configuration_only(struct script *s)
{
    for (uint8_t mode = MODE_NORMAL; mode < MODE_CONFIGURATION; mode++) {
        for (size_t i = 0; i < sizeof config_only; i++)
            sc_write(AT, config_only[i], 0x5A);
        sc_mode(AT, mode);
        for (size_t i = 0; i < sizeof config_only; i++) {
            uint8_t a = config_only[i];
            uint8_t kept = after_write(a, 0x5A);
            bool hidden = a < CNF3 && a != TXRTSCTRL; /* filters and masks */
            sc_write(AT, a, 0xFF);
            sc_modify(AT, a, 0xFF, 0xFF);
            sc_read(AT, a, hidden ? 0 : kept);
        }
        sc_mode(AT, MODE_CONFIGURATION);
        for (size_t i = 0; i < sizeof config_only; i++)
            sc_read(AT, config_only[i], after_write(config_only[i], 0x5A));
    }
}

/* The others take writes in every mode. */
static void writable_in_every_mode(struct script *s)
{
    static const uint8_t at[] = {BFPCTRL, CANINTE, CANINTF, EFLG,     0x31,
                                 0x35,    0x42,    0x5D,    RXB0CTRL, RXB1CTRL};
    for (uint8_t mode = MODE_NORMAL; mode < MODES; mode++) {
        sc_mode(AT, mode);
        for (size_t i = 0; i < sizeof at; i++) {
            sc_write(AT, at[i], 0xFF);
            sc_read(AT, at[i], after_ff[at[i]]);
            sc_write(AT, at[i], 0x00);
            sc_read(AT, at[i], 0x00);
        }
    }
}

/* RXRTR and the hit of a stored frame outlive a write. */
static void rxctrl_keeps_its_hit(struct script *s)
{
    sc_write4(AT, RXM0SIDH, 0xFFE00000);
    sc_write4(AT, RXF1SIDH, 0x24600000); /* 123h in RXB0 by RXF1 */
    sc_write4(AT, RXM1SIDH, 0xFFE00000);
    sc_write4(AT, RXF5SIDH, 0x24800000); /* 124h in RXB1 by RXF5 */
    sc_mode(AT, MODE_NORMAL);
    sc_frame(AT, FRAME_REMOTE, 0x123, 0, NULL, RX_IN_RXB0);
    sc_frame(AT, FRAME_REMOTE, 0x124, 0, NULL, RX_IN_RXB1);
    sc_write(AT, RXB0CTRL, 0xFF);
    sc_read(AT, RXB0CTRL, RXM | RXRTR | BUKT | BUKT1 | 1);
    sc_write(AT, RXB0CTRL, 0x00);
    sc_read(AT, RXB0CTRL, RXRTR | 1);
    sc_write(AT, RXB1CTRL, 0xFF);
    sc_read(AT, RXB1CTRL, RXM | RXRTR | 5);
    sc_write(AT, RXB1CTRL, 0x00);
    sc_read(AT, RXB1CTRL, RXRTR | 5);
}

static void other_bits_keep_their_value(struct script *s)
{
    sc_mode(AT, MODE_NORMAL);
    sc_rts(AT, 1);
    case_errors(AT, 0, 12);
    sc_idle(AT, 0);
    sc_end(AT, END_LOST, 0);
    sc_write(AT, TXB0CTRL, 0xFF); /* TXREQ over TXREQ: the flags stay */
    sc_read(AT, TXB0CTRL, MLOA | TXERR | TXREQ | TXP);
    sc_write(AT, TXB0CTRL, 0x00);
    sc_read(AT, TXB0CTRL, MLOA | TXERR);
    sc_write(AT, EFLG, 0xFF);
    sc_read(AT, EFLG, 0xC5);
    sc_write(AT, EFLG, 0x00);
    sc_read(AT, EFLG, 0x05);
}

static void rxb0ctrl_copies_bukt(struct script *s)
{
    sc_write(AT, RXB0CTRL, 0xFB); /* all but BUKT */
    sc_read(AT, RXB0CTRL, 0x60);
    sc_modify(AT, RXB0CTRL, BUKT1, 0xFF);
    sc_read(AT, RXB0CTRL, 0x60);
    sc_modify(AT, RXB0CTRL, BUKT, 0xFF);
    sc_read(AT, RXB0CTRL, 0x66);
    sc_modify(AT, RXB0CTRL, BUKT1, 0x00);
    sc_read(AT, RXB0CTRL, 0x66);
    sc_modify(AT, RXB0CTRL, BUKT, 0x00);
    sc_read(AT, RXB0CTRL, 0x60);
}

static void tx_bytes_are_locked(struct script *s)
{
    sc_write(AT, TXB0CTRL + SIDH, 0x10);
    sc_mode(AT, MODE_NORMAL);
    sc_rts(AT, 1);
    sc_write(AT, TXB0CTRL + SIDH, 0x20); /* TXREQ set */
    sc_read(AT, TXB0CTRL + SIDH, 0x10);
    sc_write(AT, TXB1CTRL + SIDH, 0x21); /* the lock is the buffer's own */
    sc_read(AT, TXB1CTRL + SIDH, 0x21);
    sc_idle(AT, 0);
    sc_write(AT, TXB0CTRL, 0); /* TXREQ clear, still in flight */
    for (unsigned byte = SIDH; byte <= D7; byte++) {
        sc_write(AT, (uint8_t)(TXB0CTRL + byte), 0x4F);
        sc_modify(AT, (uint8_t)(TXB0CTRL + byte), 0xFF, 0x4F);
        sc_read(AT, (uint8_t)(TXB0CTRL + byte), byte == SIDH ? 0x10 : 0);
    }
    sc_end(AT, END_LOST, 0);
    sc_write(AT, TXB0CTRL + SIDH, 0x22);
    sc_read(AT, TXB0CTRL + SIDH, 0x22);
}

static void canstat_codes(struct script *s)
{
    static const uint8_t by_code[] = {ERRIF, WAKIF, TX0IF, TX1IF, TX2IF, RX0IF, RX1IF};
    uint8_t from_here = 0;
    sc_write(AT, CANINTE, 0xFF);
    sc_write(AT, CANINTF, MERRF);
    sc_read(AT, CANSTAT, 0x80);
    for (unsigned i = 7; i-- > 0;) {
        from_here |= by_code[i];
        uint8_t stat = (uint8_t)(0x80 | (i + 1) << 1);
        sc_write(AT, CANINTF, by_code[i]);
        sc_read(AT, CANSTAT, stat);
        sc_write(AT, CANINTF, from_here | MERRF); /* the lowest code shows */
        sc_read(AT, 0x7E, stat);
        sc_write(AT, CANINTE, (uint8_t)~by_code[i]); /* not enabled: the next one */
        sc_read(AT, CANSTAT, i == 6 ? 0x80 : (uint8_t)(stat + 2));
        sc_write(AT, CANINTE, 0xFF);
    }
}

static void addresses_modulo_128(struct script *s)
{
    sc_read(AT, 0x8F, 0x87);
    sc_write(AT, 0xAB, 0x33);
    sc_read(AT, CANINTE, 0x33);
    sc_read(AT, 0xAB, 0x33);
    sc_modify(AT, 0xAB, 0x0F, 0x55); /* the mask counts there too */
    sc_read(AT, CANINTE, 0x35);
    sc_modify(AT, 0x8F, 0x08, 0xFF);
    sc_read(AT, 0x5F, 0x8F);
    sc_modify(AT, 0x90, 0x0F, 0x5A); /* 10h: no mask */
    sc_read(AT, 0x10, 0x5A);
}

/* Each call that takes an address, at all 128 of them with 80h added. */
static void every_address_above_7f(struct script *s)
{
    for (unsigned a = 0; a < 128; a++) {
        uint8_t low = (uint8_t)a, above = (uint8_t)(0x80 | a);
        bool canstat = (a & 0x0F) == CANSTAT; /* Configuration, and no code */
        sc_reset(AT);
        sc_write(AT, above, 0x85);
        sc_read(AT, low, canstat ? 0x80 : after_write(a, 0x85));
        sc_write(AT, low, 0x8A);
        sc_read(AT, above, canstat ? 0x80 : after_write(a, 0x8A));
        sc_modify(AT, above, 0xFF, 0x83);
        sc_read(AT, low, canstat ? 0x80 : after_write(a, 0x83));
    }
}

/* The mask counts above 7Fh where it counts below. */
static void masks_above_7f(struct script *s)
{
    for (unsigned a = 0; a < 128; a++) {
        bool ctrl = (a & 0x0F) == 0 && a >= TXB0CTRL; /* of the five buffers */
        bool masked = (a & 0x0F) == CANCTRL || a == BFPCTRL || a == TXRTSCTRL ||
                      (a >= CNF3 && a <= EFLG) || ctrl;
        sc_reset(AT);
        sc_write(AT, (uint8_t)a, 0x80);
        sc_modify(AT, (uint8_t)(0x80 | a), 0x63, 0x6F);
        if ((a & 0x0F) != CANSTAT) /* E3h in CANCTRL asks for no mode */
            sc_read(AT, (uint8_t)a, after_write(a, masked ? 0xE3 : 0x6F));
    }
}

static void runs_past_ffh(struct script *s)
{
    sc_write(AT, RXF0SIDH, 0x12);
    sc_low(AT);
    sc_xfer(AT, SPI_READ, 0);
    sc_xfer(AT, 0xFD, 0); /* 7Dh */
    sc_xfer(AT, 0, 0x00);
    sc_xfer(AT, 0, 0x80);
    sc_xfer(AT, 0, 0x87);
    sc_xfer(AT, 0, 0x12); /* 00h */
    sc_high(AT);
    sc_low(AT);
    sc_xfer(AT, SPI_WRITE, 0);
    sc_xfer(AT, 0xFE, 0);
    sc_xfer(AT, 0xFF, 0); /* CANSTAT */
    sc_xfer(AT, 0x8F, 0);
    sc_xfer(AT, 0x34, 0);
    sc_high(AT);
    sc_read(AT, CANCTRL, 0x8F);
    sc_read(AT, RXF0SIDH, 0x34);
}

static void runs_over_canctrl(struct script *s)
{
    sc_low(AT);
    sc_xfer(AT, SPI_WRITE, 0);
    sc_xfer(AT, 0x7E, 0);
    sc_xfer(AT, 0x11, 0); /* CANSTAT: no effect */
    sc_xfer(AT, 0x87, 0); /* CANCTRL: present mode */
    sc_xfer(AT, 0x22, 0); /* 00h */
    sc_high(AT);
    sc_read(AT, 0x00, 0x22);
    sc_low(AT);
    sc_xfer(AT, SPI_WRITE, 0);
    sc_xfer(AT, 0x7F, 0);
    sc_xfer(AT, 0x07, 0); /* Normal at once, so that 00h is closed */
    sc_xfer(AT, 0x33, 0);
    sc_high(AT);
    sc_mode(AT, MODE_CONFIGURATION);
    sc_read(AT, 0x00, 0x22);
    sc_low(AT);
    sc_xfer(AT, 0x45, 0); /* LOAD TX BUFFER from 56h */
    for (uint8_t i = 0; i < 9; i++)
        sc_xfer(AT, i, 0);
    sc_xfer(AT, 0x4F, 0); /* 5Fh: Loopback with OSM */
    sc_xfer(AT, 0xFF, 0); /* 60h */
    sc_high(AT);
    sc_read(AT, CANSTAT, 0x40);
    sc_read(AT, CANCTRL, 0x4F);
    sc_read(AT, 0x5D, 0x07);
    sc_read(AT, RXB0CTRL, 0x66);
}

/* ---- instructions ---- */

static void bit_modify_addresses(struct script *s)
{
    static const uint8_t masked[][2] = {{BFPCTRL, 0x3F}, {CNF3, 0xC7}, {CNF2, 0xFF}, {CNF1, 0xFF},
                                        {CANINTE, 0xFF}, {CANINTF, 0xFF}, {RXB1CTRL, 0x60}};
    for (size_t i = 0; i < sizeof masked / sizeof *masked; i++) {
        uint8_t bits = masked[i][1];
        sc_write(AT, masked[i][0], 0xFF);
        sc_modify(AT, masked[i][0], 0x22, 0x00);
        sc_read(AT, masked[i][0], bits & ~0x22);
        sc_modify(AT, masked[i][0], 0x00, 0x00);
        sc_read(AT, masked[i][0], bits & ~0x22);
    }
    sc_write(AT, TXRTSCTRL, 0xFF);
    sc_modify(AT, TXRTSCTRL, 0x22, 0x00);
    sc_read(AT, TXRTSCTRL, 0x15); /* TX1RTS is high */
    sc_modify(AT, TXRTSCTRL, 0x00, 0x00);
    sc_read(AT, TXRTSCTRL, 0x15);
    for (uint8_t ctrl = TXB0CTRL; ctrl <= TXB2CTRL; ctrl += 0x10) {
        sc_write(AT, ctrl, 0x02);
        sc_modify(AT, ctrl, 0x09, 0x09);
        sc_read(AT, ctrl, 0x0B);
    }
    for (uint8_t a = 0x0F; a < 128; a += 0x10)
        sc_modify(AT, a, 0x01, 0x00);
    sc_read(AT, CANCTRL, 0x86);
    sc_write(AT, EFLG, 0xC0);
    sc_modify(AT, EFLG, 0x40, 0x00);
    sc_read(AT, EFLG, 0x80);
}

static void bit_modify_on_read_only(struct script *s)
{
    sc_modify(AT, CANSTAT, 0xFF, 0x00);
    sc_modify(AT, TEC, 0xFF, 0xFF);
    sc_modify(AT, REC, 0xFF, 0xFF);
    sc_modify(AT, RXB0CTRL + D0, 0xFF, 0xFF);
    read_all_at_power_on(AT);
}

static void bit_modify_at_its_data_byte(struct script *s)
{
    sc_mode(AT, MODE_NORMAL);
    sc_low(AT);
    sc_xfer(AT, SPI_BIT_MODIFY, 0);
    sc_xfer(AT, CANINTF, 0);
    sc_xfer(AT, TX0IF, 0);
    sc_std(AT, 0x123, RX_IN_RXB0); /* RX0IF rises before the data byte */
    sc_xfer(AT, 0xFF, 0);
    sc_xfer(AT, 0x00, 0); /* past the last byte */
    sc_std(AT, 0x123, RX_LOST);
    sc_high(AT);
    sc_read(AT, CANINTF, ERRIF | TX0IF | RX0IF);
}

static void cut_sessions(struct script *s)
{
    sc_low(AT);
    sc_high(AT);
    for (unsigned bytes = 1; bytes < 4; bytes++) {
        static const uint8_t modify[] = {SPI_BIT_MODIFY, CANINTE, 0xFF};
        static const uint8_t write[] = {SPI_WRITE, CANINTE};
        sc_low(AT);
        for (unsigned i = 0; i < bytes; i++)
            sc_xfer(AT, modify[i], 0);
        sc_high(AT);
        sc_low(AT);
        for (unsigned i = 0; i < bytes && i < 2; i++)
            sc_xfer(AT, write[i], 0);
        sc_high(AT);
    }
    read_all_at_power_on(AT);
}

static void write_takes_each_byte(struct script *s)
{
    sc_mode(AT, MODE_NORMAL);
    sc_low(AT);
    sc_xfer(AT, SPI_WRITE, 0);
    sc_xfer(AT, TXB1CTRL, 0);
    sc_idle(AT, NO_FLIGHT);
    sc_xfer(AT, TXREQ, 0);
    sc_idle(AT, 1); /* before select high */
    sc_high(AT);
}

static void read_samples_at_the_exchange(struct script *s)
{
    sc_mode(AT, MODE_NORMAL);
    sc_low(AT);
    sc_xfer(AT, SPI_READ, 0);
    sc_xfer(AT, CANINTF, 0);
    sc_std(AT, 0x123, RX_IN_RXB0);
    sc_xfer(AT, 0, RX0IF);
    sc_std(AT, 0x123, RX_LOST);
    sc_xfer(AT, 0, RX0OVR); /* EFLG, the next address */
    sc_high(AT);
}

static void fill_both_rx(struct script *s)
{
    sc_write(s, RXB0CTRL, BUKT);
    sc_mode(s, MODE_NORMAL);
    sc_frame(s, 0, 0x123, 8, "\x01\x02\x03\x04\x05\x06\x07\x08", RX_IN_RXB0);
    sc_frame(s, 0, 0x124, 8, "\x11\x12\x13\x14\x15\x16\x17\x18", RX_IN_RXB1);
}

static void read_rx_starts(struct script *s)
{
    static const uint8_t rxb0[] = {0x24, 0x60, 0, 0, 8, 1, 2, 3, 4, 5, 6, 7, 8};
    fill_both_rx(AT);
    sc_low(AT);
    sc_xfer(AT, 0x90, 0);
    for (size_t i = 0; i < sizeof rxb0; i++)
        sc_xfer(AT, 0xFF, rxb0[i]);
    sc_xfer(AT, 0, 0x00); /* 6Eh CANSTAT, then on as READ */
    sc_xfer(AT, 0, 0x07);
    sc_xfer(AT, 0, 0x00);
    sc_xfer(AT, 0, 0x24);
    sc_high(AT);
    sc_read(AT, CANINTF, RX1IF);
    sc_write(AT, CANINTF, RX0IF | RX1IF);
    sc_read_rx(AT, 0x92, 0x01);
    sc_read(AT, CANINTF, RX1IF);
    sc_write(AT, CANINTF, 0xFF);
    sc_read_rx(AT, 0x94, 0x24);
    sc_read(AT, CANINTF, 0xFD);
    sc_write(AT, CANINTF, 0xFF);
    sc_read_rx(AT, 0x96, 0x11);
    sc_read(AT, CANINTF, 0xFD);
}

static void read_rx_clears(struct script *s)
{
    sc_mode(AT, MODE_NORMAL);
    sc_std(AT, 0x123, RX_IN_RXB0);
    sc_one(AT, 0x92); /* the code alone */
    sc_read(AT, CANINTF, 0);
    sc_low(AT);
    sc_xfer(AT, 0x90, 0);
    sc_std(AT, 0x124, RX_IN_RXB0); /* rises inside the session */
    sc_high(AT);
    sc_read(AT, CANINTF, 0);
    sc_std(AT, 0x124, RX_IN_RXB0);
    sc_read_rx(AT, 0x94, 0); /* the other buffer */
    sc_read(AT, CANINTF, RX0IF);
    sc_read(AT, RXB0CTRL + SIDH, 0x24); /* plain READ clears nothing */
    sc_read(AT, CANINTF, RX0IF);
}

/* The same of RXB1, whose frames come by rollover. */
static void read_rx_clears_rx1if(struct script *s)
{
    for (unsigned code = 0x94; code <= 0x96; code += 2) {
        fill_both_rx(AT);
        sc_one(AT, (uint8_t)code); /* the code alone */
        sc_read(AT, CANINTF, RX0IF);
        sc_low(AT);
        sc_xfer(AT, (uint8_t)code, 0);
        sc_std(AT, 0x124, RX_IN_RXB1); /* rises inside the session */
        sc_std(AT, 0x125, RX_LOST);    /* and stands until select high */
        sc_high(AT);
        sc_read(AT, CANINTF, ERRIF | RX0IF);
        sc_std(AT, 0x126, RX_IN_RXB1);
        sc_one(AT, 0x90); /* the other buffer */
        sc_read(AT, CANINTF, ERRIF | RX1IF);
        sc_reset(AT);
    }
}

/* The chip moves on between select low and the code byte. */
static void events_before_the_code(struct script *s)
{
    sc_mode(AT, MODE_NORMAL);
    sc_low(AT);
    sc_frame(AT, 0, 0x123, 1, "\x5A", RX_IN_RXB0);
    sc_xfer(AT, 0x92, 0);
    sc_xfer(AT, 0, 0x5A);
    sc_high(AT);
    sc_low(AT);
    sc_std(AT, 0x124, RX_IN_RXB0);
    sc_xfer(AT, SPI_READ_STATUS, 0);
    sc_xfer(AT, 0, 0x01);
    sc_high(AT);
    sc_low(AT);
    sc_std(AT, 0x125, RX_LOST);
    sc_xfer(AT, SPI_READ, 0);
    sc_xfer(AT, CANINTF, 0);
    sc_xfer(AT, 0, ERRIF | RX0IF);
    sc_high(AT);
    sc_rts(AT, 1);
    sc_idle(AT, 0);
    sc_low(AT);
    sc_end(AT, END_SENT, 0); /* TXB0 is free before the code */
    sc_xfer(AT, 0x40, 0);
    sc_xfer(AT, 0x5A, 0);
    sc_high(AT);
    sc_read(AT, TXB0CTRL + SIDH, 0x5A);
}

static void load_tx_starts(struct script *s)
{
    static const uint8_t start[6] = {0x31, 0x36, 0x41, 0x46, 0x51, 0x56};
    for (uint8_t i = 0; i < 6; i++) {
        sc_low(AT);
        sc_xfer(AT, (uint8_t)(SPI_LOAD_TX + i), 0);
        sc_xfer(AT, (uint8_t)(0xC0 + i), 0);
        sc_xfer(AT, (uint8_t)(0xE0 + i), 0);
        sc_high(AT);
        sc_read(AT, start[i], (uint8_t)(0xC0 + i));
        sc_read(AT, (uint8_t)(start[i] + 1), (0xE0 + i) & after_ff[start[i] + 1]);
    }
    sc_read(AT, TXB0CTRL, 0);
}

static void rts_buffers(struct script *s)
{
    for (uint8_t bits = 0; bits < 8; bits++) {
        sc_reset(AT);
        sc_rts(AT, bits);
        for (unsigned n = 0; n < 3; n++)
            sc_read(AT, (uint8_t)(TXB0CTRL + 0x10 * n), bits & 1u << n ? TXREQ : 0);
    }
    sc_reset(AT);
    sc_mode(AT, MODE_NORMAL);
    sc_low(AT);
    sc_xfer(AT, SPI_RTS | 1, 0);
    sc_idle(AT, 0); /* acts on its byte */
    sc_xfer(AT, SPI_RTS | 2, 0);
    sc_high(AT);
    sc_read(AT, TXB1CTRL, 0);
}

/* 80h asks for no buffer: what is set stays, and no byte after it counts. */
static void rts_of_none(struct script *s)
{
    sc_mode(AT, MODE_NORMAL);
    sc_rts(AT, 2);
    case_errors(AT, 1, 1);
    sc_low(AT);
    sc_xfer(AT, 0x80, 0);
    sc_xfer(AT, SPI_RTS | 7, 0);
    sc_xfer(AT, 0xFF, 0);
    sc_high(AT);
    sc_read(AT, TXB0CTRL, 0);
    sc_read(AT, TXB1CTRL, TXERR | TXREQ);
    sc_read(AT, TXB2CTRL, 0);
    sc_idle(AT, 1);
    sc_rts(AT, 0); /* during a flight too */
    sc_end(AT, END_SENT, 0);
    sc_idle(AT, NO_FLIGHT);
}

static void read_status_bits(struct script *s)
{
    static const uint8_t by_flag[8] = {0x01, 0x02, 0x08, 0x20, 0x80, 0, 0, 0};
    for (unsigned i = 0; i < 8; i++) {
        sc_write(AT, CANINTF, (uint8_t)(1u << i));
        sc_status(AT, by_flag[i]);
    }
    sc_write(AT, CANINTF, 0);
    for (unsigned n = 0; n < 3; n++) {
        sc_rts(AT, (uint8_t)(1u << n));
        sc_status(AT, (uint8_t)(0x04 << 2 * n));
        sc_write(AT, (uint8_t)(TXB0CTRL + 0x10 * n), 0);
    }
    sc_mode(AT, MODE_NORMAL);
    sc_low(AT);
    sc_xfer(AT, SPI_READ_STATUS, 0);
    sc_xfer(AT, 0, 0x00);
    sc_std(AT, 0x123, RX_IN_RXB0);
    sc_xfer(AT, 0, 0x01); /* sampled anew */
    sc_xfer(AT, 0, 0x01);
    sc_high(AT);
}

static void rx_status_bits(struct script *s)
{
    sc_rx_status(AT, 0x00);
    sc_write(AT, CANINTF, RX0IF); /* full by the firmware's hand */
    sc_rx_status(AT, 0x40);
    sc_write(AT, CANINTF, RX1IF);
    sc_rx_status(AT, 0x86); /* RXB1 hit 0 */
    sc_write(AT, CANINTF, RX1IF | RX0IF);
    sc_rx_status(AT, 0xC0);
    sc_write(AT, CANINTF, 0);
    sc_write(AT, RXB0CTRL, RXM);
    sc_mode(AT, MODE_NORMAL);
    sc_low(AT);
    sc_xfer(AT, SPI_RX_STATUS, 0);
    sc_xfer(AT, 0, 0x00);
    sc_frame(AT, FRAME_EXTENDED, 1, 0, NULL, RX_IN_RXB0);
    sc_xfer(AT, 0, 0x50);
    sc_xfer(AT, 0, 0x50);
    sc_high(AT);
    sc_write(AT, CANINTF, 0);
    sc_frame(AT, FRAME_EXTENDED | FRAME_REMOTE, 1, 0, NULL, RX_IN_RXB0);
    sc_rx_status(AT, 0x58);
    sc_write(AT, CANINTF, 0);
    sc_frame(AT, FRAME_REMOTE, 1, 0, NULL, RX_IN_RXB0);
    sc_rx_status(AT, 0x48);
}

static bool known(unsigned code)
{
    switch (code) {
    case SPI_WRITE: case SPI_READ: case SPI_BIT_MODIFY: case SPI_READ_STATUS: case SPI_RX_STATUS:
    case SPI_RESET: case 0x90: case 0x92: case 0x94: case 0x96:
        return true;
    }
    return (code >= 0x40 && code <= 0x45) || (code >= 0x80 && code <= 0x87);
}

static void unknown_codes(struct script *s)
{
    fill_both_rx(AT);
    for (unsigned code = 0; code < 256; code++) {
        /* 46h and 47h as LOAD TX BUFFER would only show by reaching 6Fh. */
        unsigned more = (code & 0xFE) == 0x46 ? 17 : 2;
        if (known(code))
            continue;
        sc_low(AT);
        sc_xfer(AT, (uint8_t)code, 0);
        sc_xfer(AT, CANCTRL, 0); /* as address, mask and data these would show */
        for (unsigned i = 0; i < more; i++)
            sc_xfer(AT, 0xFF, 0);
        sc_high(AT);
    }
    sc_read(AT, CANCTRL, 0x07);
    sc_read(AT, CANINTF, RX0IF | RX1IF);
    for (uint8_t a = TXB0CTRL; a < RXB0CTRL; a++)
        if ((a & 0x0F) != CANCTRL)
            sc_read(AT, a, 0);
}

/* Bytes that would show as READ, WRITE or BIT MODIFY gone on, and as a code. */
static void nothing_more_after(struct script *s, uint8_t code)
{
    static const uint8_t tails[][4] = {{CANSTAT, 0, 0, 0},
                                       {CANINTE, 0xFF, 0xA5, 0xA5},
                                       {SPI_RTS | 5, SPI_RTS | 5, SPI_RTS | 5, SPI_RTS | 5},
                                       {SPI_READ, CANSTAT, 0, 0},
                                       {SPI_READ_STATUS, 0, SPI_RESET, 0}};
    for (size_t i = 0; i < sizeof tails / sizeof *tails; i++) {
        sc_low(s);
        sc_xfer(s, code, 0);
        for (unsigned j = 0; j < 4; j++)
            sc_xfer(s, tails[i][j], 0);
        sc_high(s);
    }
}

static void one_code_a_session(struct script *s)
{
    static const uint8_t codes[] = {0x00, 0xFF, 0x47, 0x80, 0x82};
    nothing_more_after(AT, SPI_RESET);
    read_all_at_power_on(AT);
    sc_write(AT, CANINTE, 0x5A);
    sc_write(AT, CANINTF, 0x81);
    for (size_t i = 0; i < sizeof codes; i++)
        nothing_more_after(AT, codes[i]);
    sc_read(AT, CANINTE, 0x5A);
    sc_read(AT, CANINTF, 0x81);
    sc_read(AT, CANCTRL, 0x87);
    sc_read(AT, TXB0CTRL, 0);
    sc_read(AT, TXB1CTRL, TXREQ);
    sc_read(AT, TXB2CTRL, 0);
}

static void reset_ends_its_session(struct script *s)
{
    sc_mode(AT, MODE_NORMAL);
    sc_rts(AT, 7);
    case_errors(AT, 2, 12);
    sc_rx_error(AT, 1);
    sc_mode(AT, MODE_SLEEP); /* left pending */
    sc_write(AT, CANINTE, 0xFF);
    sc_write(AT, BFPCTRL, 0xFF);
    sc_idle(AT, 2);
    sc_low(AT);
    sc_xfer(AT, SPI_RESET, 0);
    sc_refused(AT, REFUSED_SELECT, KIND_SELECT_LOW, 0); /* select is still low */
    sc_xfer(AT, SPI_WRITE, 0);                          /* and the instruction is over */
    sc_xfer(AT, CANCTRL, 0);
    sc_xfer(AT, 0x00, 0);
    sc_high(AT);
    sc_refused(AT, REFUSED_NO_FLIGHT, KIND_FRAME_ENDS, END_SENT);
    read_all_at_power_on(AT);
}

static const struct fixed_case table[] = {
    {"every register at power-on", registers_at_power_on},
    {"writable bits of every address", writable_bits},
    {"registers that take writes in Configuration only", configuration_only},
    {"registers that take writes in every mode", writable_in_every_mode},
    {"bits that are not writable keep their value", other_bits_keep_their_value},
    {"RXBnCTRL keeps RXRTR and hit", rxctrl_keeps_its_hit},
    {"RXB0CTRL bit 1 copies BUKT", rxb0ctrl_copies_bukt},
    {"TX bytes are locked by TXREQ and by flight", tx_bytes_are_locked},
    {"CANSTAT interrupt codes", canstat_codes},
    {"addresses modulo 128", addresses_modulo_128},
    {"READ, WRITE and BIT MODIFY at every address above 7Fh", every_address_above_7f},
    {"BIT MODIFY's mask above 7Fh", masks_above_7f},
    {"READ and WRITE running past FFh", runs_past_ffh},
    {"WRITE and LOAD TX BUFFER running over CANCTRL", runs_over_canctrl},
    {"BIT MODIFY where the mask counts", bit_modify_addresses},
    {"BIT MODIFY on bytes without writable bits", bit_modify_on_read_only},
    {"BIT MODIFY works on the value held at its data byte", bit_modify_at_its_data_byte},
    {"sessions cut before their effect", cut_sessions},
    {"WRITE takes each byte as it completes", write_takes_each_byte},
    {"READ samples at the exchange", read_samples_at_the_exchange},
    {"READ RX BUFFER start addresses", read_rx_starts},
    {"READ RX BUFFER clears its flag at select high", read_rx_clears},
    {"READ RX BUFFER clears RX1IF at select high", read_rx_clears_rx1if},
    {"events between select low and the code byte", events_before_the_code},
    {"LOAD TX BUFFER start addresses", load_tx_starts},
    {"RTS for each set of buffers", rts_buffers},
    {"80h is RTS of no buffer", rts_of_none},
    {"READ STATUS bits", read_status_bits},
    {"RX STATUS bits", rx_status_bits},
    {"codes that are no instruction", unknown_codes},
    {"one code a session", one_code_a_session},
    {"RESET leaves select low and its session over", reset_ends_its_session},
};

const struct case_group spi_cases = {table, sizeof table / sizeof *table};
