/* Receiving, sending, modes and errors. */
#include "cases.h"
#include "model.h"
#include "registers.h"

/* ---- receiving ---- */

static void set_filter(struct script *s, unsigned n, uint32_t bytes)
{
    static const uint8_t at[6] = {RXF0SIDH, RXF1SIDH, RXF2SIDH, RXF3SIDH, RXF4SIDH, RXF5SIDH};
    sc_write4(s, at[n], bytes);
}

static void exact_masks(struct script *s)
{
    sc_write4(s, RXM0SIDH, 0xFFE3FFFF);
    sc_write4(s, RXM1SIDH, 0xFFE3FFFF);
}

static void each_filter_hits(struct script *s)
{
    exact_masks(AT);
    for (uint8_t n = 0; n < 6; n++)
        set_filter(AT, n, (uint32_t)(n + 1) << 24); /* identifiers 8, 16, .. 48 */
    sc_mode(AT, MODE_NORMAL);
    for (uint8_t n = 0; n < 6; n++) {
        uint8_t ctrl = n < 2 ? RXB0CTRL : RXB1CTRL;
        sc_std(AT, 8u * (n + 1), n < 2 ? RX_IN_RXB0 : RX_IN_RXB1);
        sc_read(AT, ctrl, n);
        sc_rx_status(AT, (uint8_t)((n < 2 ? 0x40 : 0x80) | n));
        sc_write(AT, CANINTF, 0);
    }
    sc_std(AT, 56, RX_UNMATCHED);
    sc_frame(AT, FRAME_EXTENDED, 8u << 18, 0, NULL, RX_UNMATCHED);
    sc_read(AT, CANINTF, 0);
}

static void lowest_filter_counts(struct script *s)
{
    exact_masks(AT);
    set_filter(AT, 0, 0x55000000);
    set_filter(AT, 1, 0x24600000);
    set_filter(AT, 2, 0x55000000);
    set_filter(AT, 3, 0x30000000);
    set_filter(AT, 4, 0x24600000);
    set_filter(AT, 5, 0x30000000);
    sc_mode(AT, MODE_NORMAL);
    sc_std(AT, 0x180, RX_IN_RXB1);
    sc_read(AT, RXB1CTRL, 3);
    sc_std(AT, 0x123, RX_IN_RXB0); /* RXF1 before RXF4 */
    sc_read(AT, RXB0CTRL, 1);
}

static void filter_bits(struct script *s)
{
    sc_write4(AT, RXM0SIDH, 0xFFE30000);
    sc_write4(AT, RXM1SIDH, 0xFFE3FFFF);
    set_filter(AT, 0, 0x24630000); /* EID17-16 set: no matter for a standard frame */
    set_filter(AT, 1, 0x246A0000); /* extended, EID17-16 = 2 */
    for (unsigned n = 2; n < 6; n++)
        set_filter(AT, n, 0x246B5678);
    sc_mode(AT, MODE_NORMAL);
    sc_std(AT, 0x122, RX_UNMATCHED);
    sc_std(AT, 0x523, RX_UNMATCHED);
    sc_std(AT, 0x123, RX_IN_RXB0);
    sc_write(AT, CANINTF, 0);
    sc_frame(AT, FRAME_EXTENDED, 0x123u << 18 | 0x2ABCD, 0, NULL, RX_IN_RXB0);
    sc_read(AT, RXB0CTRL, 1);
    sc_frame(AT, FRAME_EXTENDED, 0x123u << 18 | 0x35678, 0, NULL, RX_IN_RXB1);
    sc_read(AT, RXB1CTRL, 2);
    sc_write(AT, CANINTF, 0);
    sc_frame(AT, FRAME_EXTENDED, 0x123u << 18 | 0x35679, 0, NULL, RX_UNMATCHED);
    sc_frame(AT, FRAME_EXTENDED, 0x123u << 18 | 0x35778, 0, NULL, RX_UNMATCHED);
    sc_frame(AT, FRAME_EXTENDED, 0x123u << 18 | 0x15678, 0, NULL, RX_UNMATCHED);
}

static void data_byte_filtering(struct script *s)
{
    exact_masks(AT);
    set_filter(AT, 0, 0x2460AA55);
    for (unsigned n = 1; n < 6; n++)
        set_filter(AT, n, 0xFFE00000);
    sc_mode(AT, MODE_LISTEN_ONLY);
    sc_write(AT, RXB0CTRL, 0);
    sc_frame(AT, 0, 0x123, 2, "\xAA\x54", RX_UNMATCHED);
    sc_frame(AT, 0, 0x123, 2, "\xAB\x55", RX_UNMATCHED);
    sc_frame(AT, 0, 0x123, 1, "\xAB", RX_UNMATCHED);
    sc_frame(AT, 0, 0x123, 1, "\xAA", RX_IN_RXB0); /* an absent byte is not compared */
    sc_write(AT, CANINTF, 0);
    sc_frame(AT, 0, 0x123, 0, NULL, RX_IN_RXB0);
    sc_write(AT, CANINTF, 0);
    sc_frame(AT, 0, 0x123, 3, "\xAA\x55\x00", RX_IN_RXB0);
    sc_write(AT, CANINTF, 0);
    sc_frame(AT, FRAME_REMOTE, 0x123, 2, NULL, RX_IN_RXB0); /* a remote frame has no data */
}

static void rxm_codes(struct script *s)
{
    exact_masks(AT);
    for (uint8_t rxm = 0x20; rxm <= 0x40; rxm += 0x20) { /* 01 and 10: as 00 */
        sc_write(AT, RXB0CTRL, rxm);
        sc_write(AT, RXB1CTRL, rxm);
        sc_mode(AT, MODE_NORMAL);
        sc_std(AT, 0x123, RX_UNMATCHED);
        sc_mode(AT, MODE_CONFIGURATION);
    }
    sc_write(AT, RXB1CTRL, RXM);
    sc_mode(AT, MODE_NORMAL);
    sc_frame(AT, FRAME_EXTENDED, 0x123, 0, NULL, RX_IN_RXB1);
    sc_read(AT, RXB1CTRL, RXM);
    sc_rx_status(AT, 0x96); /* hit 0 of RXB1 */
    sc_std(AT, 0x123, RX_LOST);
    sc_read(AT, EFLG, RX1OVR);
    sc_write(AT, RXB0CTRL, RXM);
    sc_std(AT, 0x123, RX_IN_RXB0);
    sc_read(AT, RXB0CTRL, RXM);
}

static void stored_forms(struct script *s)
{
    static const uint8_t remote[] = {RXRTR, 0x24, 0x70, 0, 0, 5, 1, 2, 3, 4, 5, 6, 7, 8};
    static const uint8_t extended[] = {RXM | RXRTR, 0x91, 0xA8, 0x56, 0x78, 0x47, 1, 2};
    static const uint8_t shorter[] = {RXM, 0x24, 0x60, 0, 0, 2, 0xA, 0xB, 3, 4, 5, 6, 7, 8};
    sc_mode(AT, MODE_NORMAL);
    sc_frame(AT, 0, 0x001, 8, "\1\2\3\4\5\6\7\10", RX_IN_RXB0);
    sc_write(AT, CANINTF, 0);
    sc_frame(AT, FRAME_REMOTE, 0x123, 5, NULL, RX_IN_RXB0);
    for (uint8_t i = 0; i < sizeof remote; i++)
        sc_read(AT, RXB0CTRL + i, remote[i]);
    sc_write(AT, CANINTF, 0);
    sc_write(AT, RXB0CTRL, RXM);
    sc_frame(AT, FRAME_EXTENDED | FRAME_REMOTE, 0x12345678, 7, NULL, RX_IN_RXB0);
    for (uint8_t i = 0; i < sizeof extended; i++)
        sc_read(AT, RXB0CTRL + i, extended[i]);
    sc_write(AT, CANINTF, 0);
    sc_frame(AT, 0, 0x123, 2, "\xA\xB", RX_IN_RXB0); /* later bytes are the old ones */
    for (uint8_t i = 0; i < sizeof shorter; i++)
        sc_read(AT, RXB0CTRL + i, shorter[i]);
}

static void rollover_keeps_the_hit(struct script *s)
{
    sc_write4(AT, RXM0SIDH, 0xFFE00000);
    set_filter(AT, 1, 0x24600000); /* 123h; RXF0 takes 0 */
    sc_write4(AT, RXM1SIDH, 0xFFE00000);
    sc_write(AT, RXB0CTRL, BUKT);
    sc_mode(AT, MODE_NORMAL);
    sc_frame(AT, FRAME_REMOTE, 0x000, 0, NULL, RX_IN_RXB0);
    sc_read(AT, RXB0CTRL, RXRTR | BUKT | BUKT1);
    sc_std(AT, 0x123, RX_IN_RXB1);
    sc_read(AT, RXB1CTRL, 1);
    sc_read(AT, RXB0CTRL, RXRTR | BUKT | BUKT1 | FILHIT0); /* RXRTR is RXB0's own */
    sc_rx_status(AT, 0xC9);
    sc_std(AT, 0x000, RX_LOST);
    sc_read(AT, RXB0CTRL, RXRTR | BUKT | BUKT1 | FILHIT0); /* a lost frame leaves it */
    sc_read(AT, EFLG, RX1OVR);
    sc_write(AT, CANINTF, RX0IF); /* full by the firmware's hand counts */
    sc_frame(AT, FRAME_REMOTE, 0x000, 0, NULL, RX_IN_RXB1);
    sc_read(AT, RXB1CTRL, RXRTR);
    sc_read(AT, RXB0CTRL, RXRTR | BUKT | BUKT1);
}

static void rxb1_loses(struct script *s)
{
    sc_write4(AT, RXM0SIDH, 0xFFE00000);
    sc_mode(AT, MODE_NORMAL);
    sc_std(AT, 0x123, RX_IN_RXB1);
    sc_std(AT, 0x123, RX_LOST); /* RXB0 is empty and not asked again */
    sc_read(AT, EFLG, RX1OVR);
    sc_read(AT, CANINTF, ERRIF | RX1IF);
    sc_write(AT, CANINTF, RX1IF);
    sc_std(AT, 0x123, RX_LOST); /* each loss raises ERRIF */
    sc_read(AT, CANINTF, ERRIF | RX1IF);
    sc_write(AT, CANINTF, RX1IF);
    sc_write(AT, EFLG, 0xC0); /* a store does not */
    sc_read(AT, CANINTF, RX1IF);
    sc_write(AT, CANINTF, 0);
    sc_std(AT, 0x123, RX_IN_RXB1);
    sc_std(AT, 0x000, RX_IN_RXB0);
    sc_read(AT, EFLG, 0xC0); /* frames that are stored leave RXnOVR alone */
}

static void who_listens(struct script *s)
{
    sc_std(AT, 0x123, RX_NOT_LISTENING);
    sc_mode(AT, MODE_LOOPBACK);
    sc_std(AT, 0x123, RX_NOT_LISTENING);
    sc_mode(AT, MODE_SLEEP);
    sc_std(AT, 0x123, RX_NOT_LISTENING);
    sc_mode(AT, MODE_LISTEN_ONLY);
    sc_std(AT, 0x123, RX_IN_RXB0);
    sc_write(AT, CANINTF, 0);
    sc_mode(AT, MODE_NORMAL);
    sc_std(AT, 0x123, RX_IN_RXB0);
}

/* ---- sending ---- */

static void txp_order(struct script *s)
{
    sc_mode(AT, MODE_NORMAL);
    sc_write(AT, TXB0CTRL, TXREQ | 2);
    sc_write(AT, TXB1CTRL, TXREQ | 3);
    sc_write(AT, TXB2CTRL, TXREQ | 2);
    sc_idle(AT, 1);
    sc_end(AT, END_SENT, 0);
    sc_idle(AT, 2);
    sc_modify(AT, TXB0CTRL, TXP, 3); /* TXP may change at any time */
    sc_end(AT, END_LOST, 0);
    sc_idle(AT, 0);
    sc_end(AT, END_SENT, 0);
    sc_idle(AT, 2);
    sc_end(AT, END_SENT, 0);
    sc_idle(AT, NO_FLIGHT);
    sc_read(AT, CANINTF, TX0IF | TX1IF | TX2IF);
}

static void who_sends(struct script *s)
{
    sc_rts(AT, 1); /* may be set in Configuration */
    sc_read(AT, TXB0CTRL, TXREQ);
    sc_idle(AT, NO_FLIGHT);
    sc_mode(AT, MODE_SLEEP); /* and does not hold the mode */
    sc_read(AT, CANSTAT, 0x20);
    sc_idle(AT, NO_FLIGHT);
    sc_rts(AT, 2);
    sc_mode(AT, MODE_LISTEN_ONLY);
    sc_read(AT, CANSTAT, 0x60);
    sc_idle(AT, NO_FLIGHT);
    sc_mode(AT, MODE_LOOPBACK);
    sc_read(AT, CANSTAT, 0x40);
    sc_idle(AT, 1);
    sc_end(AT, END_SENT, RX_IN_RXB0);
    sc_mode(AT, MODE_NORMAL); /* held back by TXB0 */
    sc_read(AT, CANSTAT, 0x40);
    sc_idle(AT, 0); /* a pending request does not stop sending */
    sc_end(AT, END_SENT, RX_LOST);
    sc_read(AT, CANSTAT, 0x00);
}

static void result_flags(struct script *s)
{
    sc_mode(AT, MODE_NORMAL);
    sc_rts(AT, 1);
    sc_idle(AT, 0);
    sc_end(AT, END_LOST, 0);
    sc_read(AT, TXB0CTRL, MLOA | TXREQ);
    sc_idle(AT, 0);
    sc_end(AT, END_ERROR, 0);
    sc_read(AT, TXB0CTRL, MLOA | TXERR | TXREQ);
    sc_read(AT, CANINTF, MERRF);
    sc_rts(AT, 1); /* set already: nothing is cleared */
    sc_read(AT, TXB0CTRL, MLOA | TXERR | TXREQ);
    sc_idle(AT, 0);
    sc_end(AT, END_SENT, 0);
    sc_read(AT, TXB0CTRL, MLOA | TXERR); /* they outlive the send */
    sc_read(AT, CANINTF, MERRF | TX0IF);
    sc_rts(AT, 1);
    sc_read(AT, TXB0CTRL, TXREQ);
}

static void one_shot(struct script *s)
{
    sc_mode(AT, MODE_NORMAL);
    sc_modify(AT, CANCTRL, OSM, OSM);
    sc_rts(AT, 1);
    sc_idle(AT, 0);
    sc_end(AT, END_LOST, 0);
    sc_read(AT, TXB0CTRL, MLOA);
    sc_rts(AT, 1);
    sc_idle(AT, 0);
    sc_end(AT, END_ERROR, 0);
    sc_read(AT, TXB0CTRL, TXERR); /* no ABTF */
    sc_rts(AT, 1);
    sc_idle(AT, 0);
    sc_modify(AT, CANCTRL, OSM, 0); /* judged at the end, not at the start */
    sc_end(AT, END_LOST, 0);
    sc_read(AT, TXB0CTRL, MLOA | TXREQ);
    sc_idle(AT, 0);
    sc_modify(AT, CANCTRL, OSM, OSM);
    sc_end(AT, END_LOST, 0);
    sc_read(AT, TXB0CTRL, MLOA);
    sc_rts(AT, 7);
    sc_modify(AT, CANCTRL, OSM, OSM); /* a store with OSM aborts nothing */
    for (uint8_t ctrl = TXB0CTRL; ctrl <= TXB2CTRL; ctrl += 0x10)
        sc_read(AT, ctrl, TXREQ);
}

static void abort_all(struct script *s)
{
    sc_mode(AT, MODE_NORMAL);
    sc_rts(AT, 6);
    sc_idle(AT, 2);
    sc_modify(AT, CANCTRL, ABAT, ABAT);
    sc_read(AT, TXB0CTRL, 0); /* had no TXREQ */
    sc_read(AT, TXB1CTRL, ABTF);
    sc_read(AT, TXB2CTRL, TXREQ); /* in flight */
    sc_end(AT, END_LOST, 0);
    sc_read(AT, TXB2CTRL, ABTF | MLOA);
    sc_rts(AT, 7); /* no TXREQ under ABAT */
    sc_write(AT, TXB2CTRL, TXREQ | 2);
    sc_read(AT, TXB2CTRL, ABTF | MLOA | 2); /* TXP is taken, no flag cleared */
    sc_read(AT, TXB1CTRL, ABTF);
    sc_read(AT, TXB0CTRL, 0);
    sc_idle(AT, NO_FLIGHT);
    sc_modify(AT, CANCTRL, ABAT, 0);
    sc_write(AT, TXB2CTRL, TXREQ | 2);
    sc_read(AT, TXB2CTRL, TXREQ | 2);
}

static void abort_in_flight(struct script *s)
{
    sc_mode(AT, MODE_NORMAL);
    sc_rts(AT, 1);
    sc_idle(AT, 0);
    sc_modify(AT, CANCTRL, ABAT, ABAT);
    sc_end(AT, END_SENT, 0);
    sc_read(AT, TXB0CTRL, 0);
    sc_modify(AT, CANCTRL, ABAT, 0);
    sc_rts(AT, 1);
    sc_idle(AT, 0);
    sc_modify(AT, CANCTRL, ABAT, ABAT);
    sc_modify(AT, CANCTRL, ABAT, 0); /* withdrawn before the end */
    sc_end(AT, END_ERROR, 0);
    sc_read(AT, TXB0CTRL, TXERR | TXREQ);
    sc_idle(AT, 0);
    sc_write(AT, TXB0CTRL, 0); /* TXREQ already clear: ABTF all the same */
    sc_modify(AT, CANCTRL, ABAT, ABAT);
    sc_end(AT, END_LOST, 0);
    sc_read(AT, TXB0CTRL, ABTF | MLOA | TXERR);
}

/* ABAT is of the TX buffers: RXRTR stands where TXREQ does. */
static void abort_leaves_rxctrl(struct script *s)
{
    sc_mode(AT, MODE_NORMAL);
    sc_frame(AT, FRAME_REMOTE, 0x123, 0, NULL, RX_IN_RXB0);
    sc_rts(AT, 3);
    sc_idle(AT, 1);
    sc_modify(AT, CANCTRL, ABAT, ABAT);
    sc_read(AT, RXB0CTRL, RXRTR);
    sc_read(AT, TXB0CTRL, ABTF);
    sc_end(AT, END_ERROR, 0);
    sc_read(AT, RXB0CTRL, RXRTR);
    sc_read(AT, TXB1CTRL, ABTF | TXERR);
}

static void txreq_cleared_in_flight(struct script *s)
{
    sc_mode(AT, MODE_NORMAL);
    sc_rts(AT, 1);
    sc_idle(AT, 0);
    sc_write(AT, TXB0CTRL, 0);
    sc_end(AT, END_LOST, 0);
    sc_read(AT, TXB0CTRL, MLOA); /* no retry */
    sc_idle(AT, NO_FLIGHT);
    sc_rts(AT, 1);
    sc_idle(AT, 0);
    sc_write(AT, TXB0CTRL, 0);
    sc_end(AT, END_SENT, 0);
    sc_read(AT, CANINTF, TX0IF);
    sc_rts(AT, 1);
    sc_idle(AT, 0);
    sc_write(AT, TXB0CTRL, 0);
    sc_rts(AT, 1); /* asked for again: a retry */
    sc_end(AT, END_ERROR, 0);
    sc_read(AT, TXB0CTRL, TXERR | TXREQ);
    sc_idle(AT, 0);
    sc_write(AT, TXB0CTRL, 0);
    sc_rts(AT, 1);
    sc_end(AT, END_SENT, 0); /* the second request is spent too */
    sc_read(AT, TXB0CTRL, 0);
}

static void load_frame(struct script *s, uint8_t sidl, uint8_t dlc)
{
    static const uint8_t rest[] = {1, 2, 3, 4, 5, 6, 7, 8};
    sc_low(s);
    sc_xfer(s, 0x40, 0);
    sc_xfer(s, 0x24, 0);
    sc_xfer(s, sidl, 0);
    sc_xfer(s, 0x56, 0);
    sc_xfer(s, 0x78, 0);
    sc_xfer(s, dlc, 0);
    for (size_t i = 0; i < sizeof rest; i++)
        sc_xfer(s, rest[i], 0);
    sc_high(s);
    sc_rts(s, 1);
    sc_idle(s, 0);
}

static void loopback_forms(struct script *s)
{
    sc_write(AT, RXB0CTRL, RXM);
    sc_mode(AT, MODE_LOOPBACK);
    load_frame(AT, 0x63, 0x0F); /* standard; its EID bits do not go out */
    sc_end(AT, END_SENT, RX_IN_RXB0);
    sc_read(AT, RXB0CTRL + SIDH, 0x24);
    sc_read(AT, RXB0CTRL + SIDL, 0x60);
    sc_read(AT, RXB0CTRL + EID8, 0);
    sc_read(AT, RXB0CTRL + EID0, 0);
    sc_read(AT, RXB0CTRL + DLC, 0x0F); /* the code goes out as it stands */
    sc_read(AT, RXB0CTRL + D7, 8);
    sc_read(AT, CANINTF, TX0IF | RX0IF);
    sc_write(AT, CANINTF, 0);
    load_frame(AT, 0x6B, 0x02);
    sc_end(AT, END_SENT, RX_IN_RXB0);
    sc_read(AT, RXB0CTRL + SIDL, 0x6B);
    sc_read(AT, RXB0CTRL + EID8, 0x56);
    sc_read(AT, RXB0CTRL + EID0, 0x78);
    sc_read(AT, RXB0CTRL + DLC, 2);
    for (uint8_t code = 8; code < 16; code++) {
        sc_write(AT, CANINTF, 0);
        load_frame(AT, 0x6B, RTR | code);
        sc_end(AT, END_SENT, RX_IN_RXB0);
        sc_read(AT, RXB0CTRL + DLC, RTR | code);
        sc_read(AT, RXB0CTRL, RXM | RXRTR);
    }
}

/* Each buffer sends its own bytes, with each value of EID17-16. */
static void loopback_of_each_buffer(struct script *s)
{
    sc_write(AT, RXB0CTRL, RXM);
    sc_mode(AT, MODE_LOOPBACK);
    for (uint8_t n = 0; n < 3; n++)
        for (uint8_t eid = 0; eid <= EID_HIGH; eid++) {
            uint8_t mark = (uint8_t)(0x10 * n + eid);
            sc_write(AT, CANINTF, 0);
            sc_low(AT);
            sc_xfer(AT, (uint8_t)(SPI_LOAD_TX + 2 * n), 0);
            sc_xfer(AT, 0x80 | mark, 0);
            sc_xfer(AT, 0xA0 | IDE | eid, 0);
            sc_xfer(AT, 0x40 | mark, 0);
            sc_xfer(AT, 0xC0 | mark, 0);
            sc_xfer(AT, 1, 0);
            sc_xfer(AT, mark, 0);
            sc_high(AT);
            sc_rts(AT, (uint8_t)(1u << n));
            sc_idle(AT, n);
            sc_end(AT, END_SENT, RX_IN_RXB0);
            sc_read(AT, CANINTF, (uint8_t)(TX0IF << n) | RX0IF);
            sc_read(AT, RXB0CTRL + SIDH, 0x80 | mark);
            sc_read(AT, RXB0CTRL + SIDL, 0xA0 | IDE | eid);
            sc_read(AT, RXB0CTRL + EID8, 0x40 | mark);
            sc_read(AT, RXB0CTRL + EID0, 0xC0 | mark);
            sc_read(AT, RXB0CTRL + DLC, 1);
            sc_read(AT, RXB0CTRL + D0, mark);
        }
}

static void loopback_receives_by_the_rules(struct script *s)
{
    exact_masks(AT);
    set_filter(AT, 1, 0x24600102); /* 123h with data 01h 02h */
    sc_write(AT, RXB0CTRL, BUKT);
    sc_mode(AT, MODE_LOOPBACK);
    load_frame(AT, 0x60, 8);
    sc_end(AT, END_SENT, RX_IN_RXB0);
    sc_read(AT, RXB0CTRL, BUKT | BUKT1 | 1);
    load_frame(AT, 0x60, 0x0A);
    sc_end(AT, END_SENT, RX_IN_RXB1);
    load_frame(AT, 0x60, 1);
    sc_end(AT, END_SENT, RX_LOST);
    load_frame(AT, 0x40, 1);
    sc_end(AT, END_SENT, RX_UNMATCHED);
    sc_read(AT, EFLG, RX1OVR);
}

/* ---- modes ---- */

static void requests(struct script *s)
{
    sc_mode(AT, MODE_NORMAL);
    sc_rts(AT, 1);
    sc_mode(AT, MODE_SLEEP);
    sc_mode(AT, MODE_LISTEN_ONLY); /* the later one counts */
    sc_read(AT, CANSTAT, 0x00);
    sc_read(AT, CANCTRL, 0x67);
    sc_write(AT, TXB0CTRL, 0); /* the last TXREQ goes, the mode comes */
    sc_read(AT, CANSTAT, 0x60);
    for (uint8_t mode = 5; mode < 8; mode++) {
        sc_mode(AT, MODE_NORMAL);
        sc_rts(AT, 1);
        sc_mode(AT, MODE_CONFIGURATION);
        sc_mode(AT, mode); /* no mode: cancels */
        sc_write(AT, TXB0CTRL, 0);
        sc_read(AT, CANSTAT, 0x00);
    }
    sc_rts(AT, 1);
    sc_mode(AT, MODE_CONFIGURATION);
    sc_mode(AT, MODE_NORMAL); /* the present mode: cancels */
    sc_write(AT, TXB0CTRL, 0);
    sc_read(AT, CANSTAT, 0x00);
}

static void each_txreq_holds_the_mode(struct script *s)
{
    for (unsigned n = 0; n < 3; n++) {
        sc_reset(AT);
        sc_mode(AT, MODE_NORMAL);
        sc_rts(AT, (uint8_t)(1u << n));
        sc_mode(AT, MODE_SLEEP);
        sc_read(AT, CANSTAT, 0x00);
        sc_write(AT, (uint8_t)(TXB0CTRL + 0x10 * n), TXP); /* TXP does not */
        sc_read(AT, CANSTAT, 0x20);
    }
}

static void request_waits_for_the_flight(struct script *s)
{
    sc_mode(AT, MODE_NORMAL);
    sc_rts(AT, 1);
    sc_idle(AT, 0);
    sc_write(AT, TXB0CTRL, 0);
    sc_mode(AT, MODE_CONFIGURATION);
    sc_read(AT, CANSTAT, 0x00);
    sc_end(AT, END_LOST, 0);
    sc_read(AT, CANSTAT, 0x80);
    sc_mode(AT, MODE_NORMAL);
    sc_rts(AT, 3);
    sc_write(AT, CANCTRL, 0x80 | ABAT); /* aborts and leaves in one store */
    sc_read(AT, CANSTAT, 0x80);
    sc_read(AT, TXB0CTRL, ABTF);
}

static void frame_ends_in_the_old_mode(struct script *s)
{
    sc_mode(AT, MODE_NORMAL);
    sc_rts(AT, 1);
    sc_idle(AT, 0);
    sc_write(AT, TXB0CTRL, 0);
    sc_mode(AT, MODE_SLEEP);
    sc_end(AT, END_ERROR, 0); /* counted in Normal, then Sleep */
    sc_read(AT, CANSTAT, 0x20);
    sc_read(AT, TEC, 8);
    sc_mode(AT, MODE_LOOPBACK);
    sc_rts(AT, 1);
    sc_idle(AT, 0);
    sc_mode(AT, MODE_NORMAL);
    sc_end(AT, END_SENT, RX_IN_RXB0); /* delivered in Loopback, then Normal */
    sc_read(AT, CANSTAT, 0x00);
    sc_read(AT, TEC, 8);
}

static void sleep_and_wake(struct script *s)
{
    sc_write(AT, CANINTF, WAKIF);
    sc_mode(AT, MODE_SLEEP);
    sc_std(AT, 0x123, RX_NOT_LISTENING); /* WAKIE is clear */
    sc_write(AT, CANINTE, WAKIF);
    sc_write(AT, CANINTF, 0);
    sc_write(AT, CANINTF, WAKIF); /* the firmware's flag does not wake */
    sc_read(AT, CANSTAT, 0x24);
    sc_write(AT, CANINTF, 0);
    sc_rx_error(AT, 1);
    sc_idle(AT, NO_FLIGHT);
    sc_read(AT, CANSTAT, 0x20);
    sc_std(AT, 0x123, RX_WOKE);
    sc_read(AT, CANSTAT, 0x64);
    sc_read(AT, CANINTF, WAKIF); /* the frame is not stored */
    sc_read(AT, CANCTRL, 0x27);  /* CANCTRL still says Sleep */
    sc_std(AT, 0x123, RX_IN_RXB0);
    sc_write(AT, CANINTF, 0);
    sc_modify(AT, CANCTRL, 0x07, 0x00); /* stores Sleep again and so requests it */
    sc_read(AT, CANSTAT, 0x20);
    sc_write(AT, CANINTF, WAKIF); /* a flag still set does not keep it asleep */
    sc_std(AT, 0x123, RX_WOKE);
    sc_read(AT, CANSTAT, 0x64);
}

static void bus_off_now(struct script *s)
{
    sc_mode(s, MODE_NORMAL);
    sc_rts(s, 1);
    case_errors(s, 0, 32);
    sc_write(s, TXB0CTRL, 0);
}

static void bus_off_in_other_modes(struct script *s)
{
    bus_off_now(AT);
    sc_std(AT, 0x123, RX_NOT_LISTENING);
    sc_rx_error(AT, 1);
    sc_read(AT, REC, 0);
    sc_mode(AT, MODE_LOOPBACK);
    sc_read(AT, TEC, 255);
    sc_rts(AT, 1);
    sc_idle(AT, NO_FLIGHT);
    sc_recovery(AT);
    sc_read(AT, TEC, 0);
    sc_idle(AT, 0);
    sc_end(AT, END_SENT, RX_IN_RXB0);
    bus_off_now(AT);
    sc_mode(AT, MODE_SLEEP);
    sc_read(AT, EFLG, 0x35);
    sc_std(AT, 0x123, RX_NOT_LISTENING);
    sc_write(AT, CANINTE, WAKIF);
    sc_std(AT, 0x123, RX_WOKE); /* bus-off or not */
    sc_read(AT, EFLG, 0x00);
    sc_refused(AT, REFUSED_STATE, KIND_RECOVERY, 0);
}

static void counters_cleared_by_mode(struct script *s)
{
    for (uint8_t mode = MODE_SLEEP; mode < MODES; mode++) {
        bool clears = mode == MODE_LISTEN_ONLY || mode == MODE_CONFIGURATION;
        sc_reset(AT);
        sc_mode(AT, MODE_NORMAL);
        sc_rx_error(AT, 1);
        sc_rts(AT, 1);
        case_errors(AT, 0, 1);
        sc_write(AT, TXB0CTRL, 0);
        sc_mode(AT, mode);
        sc_read(AT, REC, clears ? 0 : 8);
        sc_read(AT, TEC, clears ? 0 : 8);
    }
}

/* ---- errors ---- */

static void receive_errors(struct script *s)
{
    sc_mode(AT, MODE_NORMAL);
    sc_rx_error(AT, 0);
    sc_read(AT, REC, 1);
    sc_read(AT, CANINTF, MERRF);
    for (unsigned i = 0; i < 11; i++)
        sc_rx_error(AT, 1);
    sc_read(AT, EFLG, 0x00); /* 89 */
    sc_rx_error(AT, 1);
    sc_read(AT, EFLG, 0x03); /* 97 */
    sc_read(AT, CANINTF, MERRF | ERRIF);
    sc_write(AT, CANINTF, 0);
    sc_rx_error(AT, 1);
    sc_read(AT, CANINTF, MERRF); /* ERRIF stays clear until the next rise */
    for (unsigned i = 0; i < 3; i++)
        sc_rx_error(AT, 1);
    sc_read(AT, REC, 129);
    sc_read(AT, EFLG, 0x0B);
    sc_read(AT, CANINTF, MERRF | ERRIF);
    sc_std(AT, 0x123, RX_IN_RXB0);
    sc_read(AT, REC, 127);
    sc_std(AT, 0x123, RX_LOST); /* a lost frame was good too */
    sc_read(AT, REC, 126);
    for (unsigned i = 0; i < 17; i++)
        sc_rx_error(AT, 1);
    sc_read(AT, REC, 255); /* 126 and 136, stopped */
    sc_rx_error(AT, 0);
    sc_read(AT, REC, 255);
    sc_read(AT, EFLG, 0x4B);
}

static void rx_errors(struct script *s, unsigned large, unsigned small)
{
    while (large-- > 0)
        sc_rx_error(s, 1);
    while (small-- > 0)
        sc_rx_error(s, 0);
}

static void flag_limits(struct script *s)
{
    sc_mode(AT, MODE_NORMAL);
    rx_errors(AT, 11, 7);
    sc_read(AT, REC, 95);
    sc_read(AT, EFLG, 0x00);
    sc_read(AT, CANINTF, MERRF);
    sc_rx_error(AT, 0);
    sc_read(AT, EFLG, 0x03);
    sc_read(AT, CANINTF, MERRF | ERRIF);
    rx_errors(AT, 3, 7);
    sc_read(AT, REC, 127);
    sc_read(AT, EFLG, 0x03);
    sc_rx_error(AT, 0);
    sc_read(AT, EFLG, 0x0B);
    sc_std(AT, 0x123, RX_IN_RXB0);
    sc_read(AT, EFLG, 0x03); /* 127 again */
    sc_mode(AT, MODE_CONFIGURATION);
    sc_mode(AT, MODE_NORMAL);
    sc_rts(AT, 1);
    case_errors(AT, 0, 12);
    sc_idle(AT, 0);
    sc_end(AT, END_SENT, 0);
    sc_read(AT, TEC, 95);
    sc_read(AT, EFLG, 0x00);
    sc_rts(AT, 1);
    case_errors(AT, 0, 4);
    sc_read(AT, TEC, 127);
    sc_read(AT, EFLG, 0x05);
    sc_write(AT, CANINTF, 0);
    rx_errors(AT, 12, 0); /* a second warning: EWARN stands, RXWAR rises */
    sc_read(AT, EFLG, 0x07);
    sc_read(AT, CANINTF, MERRF | ERRIF);
}

static void receive_counter_falls(struct script *s)
{
    exact_masks(AT);
    sc_mode(AT, MODE_NORMAL);
    sc_rx_error(AT, 0);
    sc_rx_error(AT, 0);
    sc_std(AT, 0x7FF, RX_UNMATCHED); /* unmatched, still good */
    sc_read(AT, REC, 1);
    sc_std(AT, 0x7FF, RX_UNMATCHED);
    sc_std(AT, 0x7FF, RX_UNMATCHED);
    sc_read(AT, REC, 0);
}

static void receive_errors_elsewhere(struct script *s)
{
    for (uint8_t mode = MODE_SLEEP; mode < MODES; mode++) {
        sc_mode(AT, mode);
        sc_rx_error(AT, 0);
        sc_rx_error(AT, 1);
        sc_read(AT, REC, 0);
        sc_read(AT, CANINTF, 0);
    }
    bus_off_now(AT);
    sc_write(AT, CANINTF, 0);
    sc_rx_error(AT, 1);
    sc_read(AT, REC, 0);
    sc_read(AT, CANINTF, 0);
}

static void transmit_counter(struct script *s)
{
    sc_mode(AT, MODE_NORMAL);
    sc_rts(AT, 1);
    case_errors(AT, 0, 1);
    sc_idle(AT, 0);
    sc_end(AT, END_LOST, 0); /* no error */
    sc_read(AT, TEC, 8);
    sc_idle(AT, 0);
    sc_end(AT, END_SENT, 0);
    sc_read(AT, TEC, 7);
    sc_mode(AT, MODE_LOOPBACK);
    sc_rts(AT, 1);
    sc_idle(AT, 0);
    sc_end(AT, END_SENT, RX_IN_RXB0);
    sc_read(AT, TEC, 7); /* Loopback moves no counter */
    sc_mode(AT, MODE_NORMAL);
    sc_rx_error(AT, 1);
    for (unsigned i = 0; i < 8; i++) {
        sc_rts(AT, 1);
        sc_idle(AT, 0);
        sc_end(AT, END_SENT, 0);
    }
    sc_read(AT, TEC, 0);
    sc_read(AT, REC, 8); /* sending moves TEC only */
}

/* The last values before bus-off, and the first past it. */
static void tec_reads_up_to_255(struct script *s)
{
    for (unsigned sends = 1; sends < 8; sends++) {
        sc_reset(AT);
        sc_mode(AT, MODE_NORMAL);
        sc_rts(AT, 1);
        case_errors(AT, 0, 1);
        for (unsigned i = 0; i < sends; i++) {
            sc_idle(AT, 0);
            sc_end(AT, END_SENT, 0);
            sc_rts(AT, 1);
        }
        case_errors(AT, 0, 31);
        sc_read(AT, TEC, (uint8_t)(256 - sends));
        sc_refused(AT, REFUSED_STATE, KIND_RECOVERY, 0);
        case_errors(AT, 0, 1);
        sc_read(AT, TEC, 255);
        sc_idle(AT, NO_FLIGHT);
        sc_recovery(AT);
    }
}

static void bus_off_and_recovery(struct script *s)
{
    sc_mode(AT, MODE_NORMAL);
    for (unsigned i = 0; i < 5; i++)
        sc_rx_error(AT, 1);
    sc_rts(AT, 1);
    case_errors(AT, 0, 1);
    sc_idle(AT, 0);
    sc_end(AT, END_SENT, 0); /* TEC 7, so that 255 is met */
    sc_rts(AT, 1);
    case_errors(AT, 0, 31);
    sc_read(AT, TEC, 255);
    sc_read(AT, EFLG, 0x15); /* 255 is not bus-off */
    sc_write(AT, CANINTF, 0);
    case_errors(AT, 0, 1);
    sc_read(AT, EFLG, 0x35);
    sc_read(AT, CANINTF, MERRF | ERRIF);
    sc_idle(AT, NO_FLIGHT);
    sc_read(AT, REC, 40);
    sc_recovery(AT);
    sc_read(AT, TEC, 0);
    sc_read(AT, REC, 0);
    sc_read(AT, EFLG, 0x00);
    sc_idle(AT, 0); /* TXREQ outlived it */
}

static void errif_and_mode_change_in_one_step(struct script *s)
{
    sc_mode(AT, MODE_NORMAL);
    sc_rts(AT, 1);
    case_errors(AT, 0, 11);
    sc_write(AT, CANINTF, 0);
    sc_idle(AT, 0);
    sc_write(AT, CANCTRL, 0x80 | OSM);
    sc_end(AT, END_ERROR, 0); /* TEC 96 for a moment, then Configuration */
    sc_read(AT, CANSTAT, 0x80);
    sc_read(AT, TEC, 0);
    sc_read(AT, EFLG, 0);
    sc_read(AT, CANINTF, MERRF | ERRIF);
}

static const struct fixed_case table[] = {
    {"each filter hits its buffer", each_filter_hits},
    {"the lowest matching filter counts", lowest_filter_counts},
    {"filter and mask bits", filter_bits},
    {"data bytes 0 and 1 of standard frames are filtered", data_byte_filtering},
    {"RXM codes", rxm_codes},
    {"form of stored frames", stored_forms},
    {"rollover keeps the hit", rollover_keeps_the_hit},
    {"RXB1 full", rxb1_loses},
    {"modes that listen", who_listens},
    {"TXP decides the order", txp_order},
    {"modes that send", who_sends},
    {"ABTF, MLOA and TXERR", result_flags},
    {"one-shot mode", one_shot},
    {"ABAT", abort_all},
    {"ABAT and the frame in flight", abort_in_flight},
    {"ABAT and RXB0CTRL", abort_leaves_rxctrl},
    {"TXREQ cleared in flight", txreq_cleared_in_flight},
    {"form of frames in Loopback", loopback_forms},
    {"each buffer in Loopback", loopback_of_each_buffer},
    {"Loopback uses the receive rules", loopback_receives_by_the_rules},
    {"mode requests", requests},
    {"each TXREQ holds the mode", each_txreq_holds_the_mode},
    {"a mode request waits for the flight", request_waits_for_the_flight},
    {"a frame ends in the mode it was sent in", frame_ends_in_the_old_mode},
    {"Sleep and waking", sleep_and_wake},
    {"bus-off outside Normal", bus_off_in_other_modes},
    {"modes that clear the counters", counters_cleared_by_mode},
    {"REC rising", receive_errors},
    {"limits of the error flags", flag_limits},
    {"REC falling", receive_counter_falls},
    {"receive errors outside Normal and in bus-off", receive_errors_elsewhere},
    {"TEC", transmit_counter},
    {"TEC shows up to 255", tec_reads_up_to_255},
    {"bus-off and recovery", bus_off_and_recovery},
    {"ERRIF and a mode change in one step", errif_and_mode_change_in_one_step},
};

const struct case_group bus_cases = {table, sizeof table / sizeof *table};
