/* RESET: what it keeps, what it puts to its reset state, and what follows. */
#include "cases.h"
#include "model.h"
#include "registers.h"

enum { ADDRESSES = 128, LOW_DIGIT = 0x0F };

static const uint8_t filter_at[6] = {RXF0SIDH, RXF1SIDH, RXF2SIDH, RXF3SIDH, RXF4SIDH, RXF5SIDH};

/* ---- shared steps ---- */

/* Every address after RESET: 80h, 87h, the kept bytes, the high pins, and 0. */
static void read_map(struct script *s, const uint8_t kept[ADDRESSES])
{
    sc_low(s);
    sc_xfer(s, SPI_READ, 0);
    sc_xfer(s, 0, 0);
    for (unsigned a = 0; a < ADDRESSES; a++) {
        unsigned low = a & LOW_DIGIT;
        sc_xfer(s, 0,
                low == CANSTAT   ? 0x80
                : low == CANCTRL ? 0x87
                : a == TXRTSCTRL ? 0x38
                                 : kept[a]);
    }
    sc_high(s);
}

/* Each byte another one, by its address; in Configuration. */
static void fill_filters(struct script *s, uint8_t flip, uint8_t kept[ADDRESSES])
{
    for (unsigned a = 0; a < RXM0SIDH; a++) {
        uint8_t value = (uint8_t)(a ^ flip);
        if ((a & LOW_DIGIT) >= BFPCTRL)
            continue;
        sc_write(s, (uint8_t)a, value);
        kept[a] = (a & 3) == RXF_SIDL ? value & 0xEB : value;
    }
}

static void fill_tx(struct script *s, uint8_t flip, uint8_t kept[ADDRESSES])
{
    for (unsigned n = 0; n < 3; n++) {
        sc_low(s);
        sc_xfer(s, (uint8_t)(SPI_LOAD_TX + 2 * n), 0);
        for (unsigned byte = SIDH; byte <= D7; byte++) {
            unsigned a = TXB0CTRL + 0x10 * n + byte;
            uint8_t value = (uint8_t)(a ^ flip);
            sc_xfer(s, value, 0);
            kept[a] = value & (byte == SIDL ? 0xEB : byte == DLC ? 0x4F : 0xFF);
        }
        sc_high(s);
    }
}

/* Two extended frames, the second by rollover; leaves the chip in Normal. */
static void fill_rx(struct script *s, uint8_t kept[ADDRESSES])
{
    static const uint8_t rxb0[] = {0x91, 0xA8, 0x56, 0x78, 8, 1, 2, 4, 8, 0x10, 0x20, 0x40, 0x80};
    static const uint8_t rxb1[] = {0x6E, 0x4B, 0xA9, 0x87, 0x48};
    for (unsigned i = 0; i < sizeof rxb0; i++)
        kept[RXB0CTRL + SIDH + i] = rxb0[i];
    for (unsigned i = 0; i < sizeof rxb1; i++)
        kept[RXB1CTRL + SIDH + i] = rxb1[i];
    for (unsigned i = 0; i < 8; i++) /* of a data frame before the remote one */
        kept[RXB1CTRL + D0 + i] = (uint8_t)(0xFF - i);
    sc_write(s, RXB0CTRL, RXM | BUKT);
    sc_write(s, CANINTF, RX0IF);
    sc_mode(s, MODE_NORMAL);
    sc_frame(s, 0, 0x7FF, 8, "\xFF\xFE\xFD\xFC\xFB\xFA\xF9\xF8", RX_IN_RXB1);
    sc_write(s, CANINTF, 0);
    sc_frame(s, FRAME_EXTENDED, 0x12345678, 8, "\x01\x02\x04\x08\x10\x20\x40\x80", RX_IN_RXB0);
    sc_frame(s, FRAME_EXTENDED | FRAME_REMOTE, 0x0DCBA987, 8, NULL, RX_IN_RXB1);
}

/* Filter n is for standard frames, the others are for extended ones. */
static void only_filter(struct script *s, unsigned n, uint32_t bytes)
{
    for (unsigned i = 0; i < 6; i++)
        sc_write4(s, filter_at[i], i == n ? bytes : (uint32_t)IDE << 16);
}

/* ---- kept ---- */

static void keeps_filters(struct script *s)
{
    static const uint8_t flips[] = {0x5A, 0xA5};
    for (unsigned i = 0; i < sizeof flips; i++) {
        uint8_t kept[ADDRESSES] = {0};
        fill_filters(AT, flips[i], kept);
        sc_reset(AT);
        read_map(AT, kept);
        sc_mode(AT, MODE_NORMAL);
        sc_read(AT, RXF0SIDH, 0); /* hidden, as ever */
        sc_reset(AT);             /* a second RESET keeps them too */
        read_map(AT, kept);
    }
}

static void keeps_transmit_bytes(struct script *s)
{
    static const uint8_t flips[] = {0x5A, 0xA5};
    for (unsigned i = 0; i < sizeof flips; i++) {
        uint8_t kept[ADDRESSES] = {0};
        fill_tx(AT, flips[i], kept);
        sc_reset(AT);
        read_map(AT, kept);
        sc_rts(AT, 7); /* locked */
        sc_reset(AT);
        read_map(AT, kept);
        sc_write(AT, TXB2CTRL + D7, 0x77); /* and no longer locked */
        sc_read(AT, TXB2CTRL + D7, 0x77);
    }
}

static void keeps_receive_bytes(struct script *s)
{
    uint8_t kept[ADDRESSES] = {0};
    fill_rx(AT, kept);
    sc_reset(AT);
    read_map(AT, kept);
    for (unsigned n = 0; n < 2; n++) {
        sc_low(AT);
        sc_xfer(AT, (uint8_t)(SPI_READ_RX + 4 * n), 0);
        for (unsigned byte = SIDH; byte <= D7; byte++)
            sc_xfer(AT, 0, kept[RXB0CTRL + 0x10 * n + byte]);
        sc_high(AT);
    }
    sc_reset(AT);
    read_map(AT, kept);
}

/* A short frame after RESET leaves the data bytes that it does not carry. */
static void keeps_bytes_past_the_length_code(struct script *s)
{
    uint8_t kept[ADDRESSES] = {0};
    fill_rx(AT, kept);
    sc_reset(AT);
    sc_mode(AT, MODE_NORMAL);
    sc_frame(AT, 0, 0x123, 2, "\xC1\xC2", RX_IN_RXB0);
    sc_read(AT, RXB0CTRL + DLC, 2);
    sc_read(AT, RXB0CTRL + D0, 0xC1);
    sc_read(AT, RXB0CTRL + D0 + 1, 0xC2);
    for (unsigned byte = D0 + 2; byte <= D7; byte++)
        sc_read(AT, (uint8_t)(RXB0CTRL + byte), kept[RXB0CTRL + byte]);
}

/* ---- cleared ---- */

/* What a WRITE of FFh leaves in Configuration; RESET puts all of it to 0, and bits 5-3
 * of TXRTSCTRL show the pins then. */
static const uint8_t cleared[][2] = {
    {0x20, 0xFF},     {0x21, 0xE3},     {0x22, 0xFF},     {0x23, 0xFF},     {0x24, 0xFF},
    {0x25, 0xE3},     {0x26, 0xFF},     {0x27, 0xFF},     {BFPCTRL, 0x3F},  {TXRTSCTRL, 0x07},
    {CNF3, 0xC7},     {CNF2, 0xFF},     {CNF1, 0xFF},     {CANINTE, 0xFF},  {CANINTF, 0xFF},
    {EFLG, 0xC0},     {TXB0CTRL, 0x0B}, {TXB1CTRL, 0x0B}, {TXB2CTRL, 0x0B}, {RXB0CTRL, 0x66},
    {RXB1CTRL, 0x60},
};

static void clears_each_register(struct script *s)
{
    static const uint8_t none[ADDRESSES];
    for (size_t i = 0; i < sizeof cleared / sizeof *cleared; i++) {
        sc_write(AT, cleared[i][0], 0xFF);
        sc_read(AT, cleared[i][0], cleared[i][1]);
        sc_reset(AT);
        sc_read(AT, cleared[i][0], cleared[i][0] == TXRTSCTRL ? 0x38 : 0x00);
    }
    for (size_t i = 0; i < sizeof cleared / sizeof *cleared; i++)
        sc_write(AT, cleared[i][0], 0xFF);
    sc_write(AT, CANCTRL, 0x98); /* ABAT, OSM and another CLKOUT */
    sc_reset(AT);
    read_map(AT, none);
}

static void clears_transmit_control(struct script *s)
{
    for (unsigned n = 0; n < 3; n++) {
        uint8_t ctrl = (uint8_t)(TXB0CTRL + 0x10 * n);
        sc_mode(AT, MODE_NORMAL);
        sc_write(AT, ctrl, TXREQ | TXP);
        sc_idle(AT, (uint8_t)n);
        sc_end(AT, END_LOST, 0);
        case_errors(AT, n, 1);
        sc_read(AT, ctrl, MLOA | TXERR | TXREQ | TXP);
        sc_reset(AT);
        sc_read(AT, ctrl, 0);
        sc_mode(AT, MODE_NORMAL);
        sc_idle(AT, NO_FLIGHT); /* no TXREQ is left */
        sc_rts(AT, (uint8_t)(1u << n));
        sc_write(AT, CANCTRL, ABAT | 0x07);
        sc_read(AT, ctrl, ABTF);
        sc_reset(AT);
        sc_read(AT, ctrl, 0);
        sc_rts(AT, (uint8_t)(1u << n)); /* ABAT is gone and bars nothing */
        sc_read(AT, ctrl, TXREQ);
        sc_reset(AT);
    }
}

/* RXM, BUKT, hit and RXRTR. */
static void clears_receive_control(struct script *s)
{
    only_filter(AT, 1, 0);
    sc_write(AT, RXB0CTRL, BUKT);
    sc_mode(AT, MODE_NORMAL);
    sc_frame(AT, FRAME_REMOTE, 0x123, 0, NULL, RX_IN_RXB0);
    sc_frame(AT, FRAME_REMOTE, 0x123, 0, NULL, RX_IN_RXB1);
    sc_write(AT, RXB0CTRL, RXM | BUKT);
    sc_write(AT, RXB1CTRL, RXM);
    sc_read(AT, RXB0CTRL, RXM | RXRTR | BUKT | BUKT1 | 1);
    sc_read(AT, RXB1CTRL, RXM | RXRTR | 1);
    sc_reset(AT);
    sc_read(AT, RXB0CTRL, 0);
    sc_read(AT, RXB1CTRL, 0);
    only_filter(AT, 6, 0); /* none is for standard frames */
    sc_mode(AT, MODE_NORMAL);
    sc_std(AT, 0x123, RX_UNMATCHED); /* RXM is gone */
    sc_frame(AT, FRAME_EXTENDED, 0x123, 0, NULL, RX_IN_RXB0);
    sc_frame(AT, FRAME_EXTENDED, 0x123, 0, NULL, RX_LOST); /* and BUKT */
}

static void clears_counters(struct script *s)
{
    sc_mode(AT, MODE_NORMAL);
    for (unsigned i = 0; i < 16; i++)
        sc_rx_error(AT, 1);
    sc_rts(AT, 1);
    case_errors(AT, 0, 12);
    sc_read(AT, REC, 128);
    sc_read(AT, EFLG, RXEP | TXWAR | RXWAR | EWARN);
    sc_reset(AT);
    sc_read(AT, TEC, 0);
    sc_read(AT, REC, 0);
    sc_read(AT, EFLG, 0);
    sc_read(AT, CANINTF, 0);
    sc_mode(AT, MODE_NORMAL);
    sc_rts(AT, 1);
    case_errors(AT, 0, 32);
    sc_read(AT, EFLG, TXBO | TXEP | TXWAR | EWARN);
    sc_reset(AT);
    sc_read(AT, EFLG, 0);
    sc_refused(AT, REFUSED_STATE, KIND_RECOVERY, 0);
    sc_mode(AT, MODE_NORMAL);
    sc_std(AT, 0x123, RX_IN_RXB0); /* hears again */
    sc_rts(AT, 1);
    case_errors(AT, 0, 1);
    sc_read(AT, TEC, 8);
}

/* ---- RESET at any time ---- */

static void in_every_mode(struct script *s)
{
    for (uint8_t mode = MODE_NORMAL; mode < MODES; mode++) {
        uint8_t kept[ADDRESSES] = {0};
        fill_filters(AT, (uint8_t)(0xA0 + mode), kept);
        fill_tx(AT, (uint8_t)(0xA0 + mode), kept);
        fill_rx(AT, kept);
        sc_mode(AT, mode);
        sc_write(AT, CANINTE, WAKIF);
        sc_read(AT, CANSTAT, (uint8_t)(mode << 5));
        sc_reset(AT);
        read_map(AT, kept);
        sc_std(AT, 0x123, RX_NOT_LISTENING); /* Configuration, not asleep */
    }
}

static void in_flight(struct script *s)
{
    for (unsigned i = 0; i < 6; i++) {
        uint8_t n = (uint8_t)(i % 3), mode = i < 3 ? MODE_NORMAL : MODE_LOOPBACK;
        uint8_t sidh = (uint8_t)(TXB0CTRL + 0x10 * n + SIDH);
        uint8_t kept[ADDRESSES] = {0};
        fill_filters(AT, 0x5A, kept);
        fill_tx(AT, (uint8_t)(0xA0 + i), kept);
        fill_rx(AT, kept);
        sc_mode(AT, mode);
        sc_rts(AT, (uint8_t)(1u << n));
        sc_idle(AT, n);
        sc_reset(AT);
        sc_refused(AT, REFUSED_NO_FLIGHT, KIND_FRAME_ENDS, END_SENT);
        read_map(AT, kept);
        sc_write(AT, sidh, 0x3C); /* not locked by the flight */
        sc_read(AT, sidh, 0x3C);
        sc_rx_error(AT, 1); /* events of a free bus are accepted */
        sc_idle(AT, NO_FLIGHT);
        sc_mode(AT, mode);
        sc_idle(AT, NO_FLIGHT); /* nor is it tried again */
        sc_mode(AT, MODE_CONFIGURATION);
    }
}

/* Every request that can wait, held by TXREQ alone and by a flight. */
static void with_a_request(struct script *s)
{
    for (unsigned i = 0; i < 4 * MODES; i++) {
        uint8_t mode = i & 1 ? MODE_LOOPBACK : MODE_NORMAL, wanted = (uint8_t)(i / 4);
        if (wanted == mode)
            continue;
        sc_mode(AT, mode);
        sc_rts(AT, 2);
        if (i & 2)
            sc_idle(AT, 1);
        sc_mode(AT, wanted);
        sc_read(AT, CANSTAT, (uint8_t)(mode << 5)); /* it waits */
        sc_reset(AT);
        sc_read(AT, CANSTAT, 0x80);
        sc_read(AT, CANCTRL, 0x87);
        sc_idle(AT, NO_FLIGHT); /* no later step carries it out */
        sc_read(AT, CANSTAT, 0x80);
    }
}

static void with_full_buffers(struct script *s)
{
    uint8_t kept[ADDRESSES] = {0};
    fill_rx(AT, kept);
    sc_std(AT, 0x123, RX_LOST);
    sc_read(AT, EFLG, RX1OVR);
    sc_status(AT, 0x03);
    sc_rx_status(AT, 0xD0);
    sc_reset(AT);
    sc_status(AT, 0x00);
    sc_rx_status(AT, 0x00);
    read_map(AT, kept);
    sc_mode(AT, MODE_NORMAL);
    sc_std(AT, 0x123, RX_IN_RXB0); /* empty: nothing is lost */
    sc_read(AT, EFLG, 0);
}

/* ---- what follows ---- */

/* The kept bytes say remote, RXRTR does not, and bit 3 is RXRTR. */
static void remote_by_the_bytes_alone(struct script *s)
{
    for (unsigned extended = 0; extended < 2; extended++) {
        uint8_t flags = FRAME_REMOTE | (extended ? FRAME_EXTENDED : 0);
        uint8_t ide = extended ? 0x10 : 0;
        sc_write(AT, RXB0CTRL, RXM | BUKT);
        sc_mode(AT, MODE_NORMAL);
        sc_frame(AT, flags, 0x123, 5, NULL, RX_IN_RXB0);
        sc_frame(AT, flags, 0x123, 5, NULL, RX_IN_RXB1);
        sc_rx_status(AT, 0xC8 | ide);
        sc_write(AT, CANINTF, RX1IF);
        sc_rx_status(AT, 0x8E | ide);
        sc_reset(AT);
        sc_rx_status(AT, 0x00);
        sc_write(AT, CANINTF, RX0IF);
        sc_rx_status(AT, 0x40 | ide);
        sc_write(AT, CANINTF, RX1IF);
        sc_rx_status(AT, 0x86 | ide);
        sc_write(AT, CANINTF, RX0IF | RX1IF);
        sc_rx_status(AT, 0xC0 | ide);
        for (uint8_t ctrl = RXB0CTRL; ctrl <= RXB1CTRL; ctrl += 0x10) {
            sc_read(AT, ctrl, 0);
            sc_read(AT, ctrl + SIDL, extended ? IDE : 0x60 | SRR);
            sc_read(AT, ctrl + DLC, extended ? RTR | 5 : 5);
        }
        sc_reset(AT);
    }
}

/* The hit is gone: 5 before RESET, 0 (shown as 6) after it. */
static void status_without_its_hit(struct script *s)
{
    only_filter(AT, 5, 0);
    sc_mode(AT, MODE_NORMAL);
    sc_std(AT, 0x123, RX_IN_RXB1);
    sc_rx_status(AT, 0x85);
    sc_reset(AT);
    sc_write(AT, CANINTF, RX1IF);
    sc_rx_status(AT, 0x86);
}

/* Masks of 0 let a kept filter take every frame of its sort. */
static void kept_filter_without_mask(struct script *s)
{
    for (unsigned n = 0; n < 6; n++) {
        only_filter(AT, n, 0x24600000); /* 123h */
        sc_write4(AT, RXM0SIDH, 0xFFE3FFFF);
        sc_write4(AT, RXM1SIDH, 0xFFE3FFFF);
        sc_reset(AT);
        sc_mode(AT, MODE_NORMAL);
        sc_std(AT, 0x5A5, n < 2 ? RX_IN_RXB0 : RX_IN_RXB1);
        sc_read(AT, n < 2 ? RXB0CTRL : RXB1CTRL, (uint8_t)n);
        sc_reset(AT);
    }
}

/* With the mask given again the kept bytes decide, EID8 and EID0 too. */
static void kept_filter_with_its_mask(struct script *s)
{
    for (unsigned n = 0; n < 6; n++) {
        uint8_t stored = n < 2 ? RX_IN_RXB0 : RX_IN_RXB1;
        only_filter(AT, n, 0x246055AA);
        sc_reset(AT);
        sc_write4(AT, RXM0SIDH, 0xFFE0FFFF);
        sc_write4(AT, RXM1SIDH, 0xFFE0FFFF);
        sc_mode(AT, MODE_NORMAL);
        sc_frame(AT, 0, 0x122, 2, "\x55\xAA", RX_UNMATCHED);
        sc_frame(AT, 0, 0x323, 2, "\x55\xAA", RX_UNMATCHED);
        sc_frame(AT, 0, 0x123, 2, "\x54\xAA", RX_UNMATCHED);
        sc_frame(AT, 0, 0x123, 2, "\x55\xAB", RX_UNMATCHED);
        sc_frame(AT, 0, 0x123, 2, "\x55\xAA", stored);
        sc_reset(AT);
    }
}

/* A message loaded before RESET goes out after it, remote bit and length code too. */
static void kept_message_is_sent(struct script *s)
{
    static const uint8_t want[2][5] = {{0x91, 0xA8, 0x56, 0x78, 0x03},
                                       {0x91, 0xA8, 0x56, 0x78, 0x4F}};
    for (unsigned i = 0; i < 6; i++) {
        uint8_t n = (uint8_t)(i % 3), remote = i < 3 ? 0 : 1;
        sc_low(AT);
        sc_xfer(AT, (uint8_t)(SPI_LOAD_TX + 2 * n), 0);
        for (unsigned j = 0; j < 5; j++)
            sc_xfer(AT, want[remote][j], 0);
        for (uint8_t j = 0; j < 3; j++)
            sc_xfer(AT, (uint8_t)(0xD1 + j), 0);
        sc_high(AT);
        sc_reset(AT);
        sc_write(AT, RXB0CTRL, RXM);
        sc_mode(AT, MODE_LOOPBACK);
        sc_rts(AT, (uint8_t)(1u << n));
        sc_idle(AT, n);
        sc_end(AT, END_SENT, RX_IN_RXB0);
        sc_rx_status(AT, remote ? 0x58 : 0x50);
        for (unsigned j = 0; j < 5; j++)
            sc_read(AT, (uint8_t)(RXB0CTRL + SIDH + j), want[remote][j]);
        sc_read(AT, RXB0CTRL + D0 + 2, 0xD3);
        sc_reset(AT);
    }
}

static const struct fixed_case table[] = {
    {"RESET keeps the filters", keeps_filters},
    {"RESET keeps the transmit bytes", keeps_transmit_bytes},
    {"RESET keeps the receive bytes", keeps_receive_bytes},
    {"RESET keeps data bytes past the next frame's length code", keeps_bytes_past_the_length_code},
    {"RESET clears each other register", clears_each_register},
    {"RESET clears TXBnCTRL", clears_transmit_control},
    {"RESET clears RXBnCTRL", clears_receive_control},
    {"RESET clears counters and error flags", clears_counters},
    {"RESET in every mode", in_every_mode},
    {"RESET in flight", in_flight},
    {"RESET with a request that waits", with_a_request},
    {"RESET with full buffers", with_full_buffers},
    {"after RESET the bytes say remote, the status does not", remote_by_the_bytes_alone},
    {"after RESET the status has no hit", status_without_its_hit},
    {"after RESET a kept filter matches, mask 0", kept_filter_without_mask},
    {"after RESET a kept filter matches, mask given again", kept_filter_with_its_mask},
    {"after RESET a kept message is sent", kept_message_is_sent},
};

const struct case_group reset_cases = {table, sizeof table / sizeof *table};
