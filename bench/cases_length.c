/* Length codes 0 to 15: which frames are taken, stored, filtered and sent. */
#include <stdbool.h>
#include <string.h>

#include "cases.h"
#include "model.h"
#include "registers.h"

enum { FLAGS_MAX = FRAME_EXTENDED | FRAME_REMOTE, BUFFER_BYTES = D7 + 1 };

/* Identifiers 123h and 12345678h as the buffers hold them. */
static const uint8_t identifiers[2][4] = {{0x24, 0x60, 0x00, 0x00}, {0x91, 0xA8, 0x56, 0x78}};

struct message {
    uint8_t flags; /* byte 1 of a frame record */
    uint8_t code;
    uint8_t data[DATA_BYTES_MAX];
};

static bool is_extended(const struct message *f)
{
    return f->flags & FRAME_EXTENDED;
}

static bool is_remote(const struct message *f)
{
    return f->flags & FRAME_REMOTE;
}

static struct message message(uint8_t flags, uint8_t code, uint8_t mark)
{
    struct message f = {.flags = flags, .code = code};
    for (uint8_t i = 0; i < DATA_BYTES_MAX; i++)
        f.data[i] = (uint8_t)(mark + 0x11 * i);
    return f;
}

static void hear(struct script *s, const struct message *f, uint8_t answer)
{
    sc_frame(s, f->flags, is_extended(f) ? 0x12345678 : 0x123, f->code,
             is_remote(f) ? NULL : (const char *)f->data, answer);
}

/* With all of the DLC byte's bits that take no write set. */
static void load(struct script *s, uint8_t n, const struct message *f)
{
    const uint8_t *id = identifiers[is_extended(f)];
    uint8_t dlc = (uint8_t)((is_remote(f) ? RTR : 0) | f->code);
    sc_low(s);
    sc_xfer(s, (uint8_t)(SPI_LOAD_TX + 2 * n), 0);
    sc_xfer(s, id[0], 0);
    sc_xfer(s, id[1], 0);
    sc_xfer(s, id[2], 0);
    sc_xfer(s, id[3], 0);
    sc_xfer(s, dlc | 0xB0, 0);
    for (unsigned i = 0; i < DATA_BYTES_MAX; i++)
        sc_xfer(s, f->data[i], 0);
    sc_high(s);
    sc_read(s, (uint8_t)(TXB0CTRL + 0x10 * n + DLC), dlc);
}

static void send_from(struct script *s, uint8_t n, const struct message *f, uint8_t answer)
{
    load(s, n, f);
    sc_rts(s, (uint8_t)(1u << n));
    sc_idle(s, n);
    sc_end(s, END_SENT, answer);
}

/* What a receive buffer holds once the frame is stored with hit 0. */
static void store(uint8_t held[BUFFER_BYTES], const struct message *f)
{
    bool extended = is_extended(f), remote = is_remote(f);
    held[0] = (uint8_t)((held[0] & ~RXRTR) | (remote ? RXRTR : 0));
    memcpy(&held[SIDH], identifiers[extended], 4);
    if (remote && !extended)
        held[SIDL] |= SRR;
    held[DLC] = (uint8_t)(f->code | (extended && remote ? RTR : 0));
    for (unsigned i = 0; i < DATA_BYTES_MAX; i++)
        if (!remote && i < f->code)
            held[D0 + i] = f->data[i];
}

/* Control byte, receive status and READ RX BUFFER, which empties the buffer. */
static void read_full(struct script *s, unsigned n, const uint8_t held[BUFFER_BYTES])
{
    uint8_t ide = held[SIDL] & IDE ? 0x10 : 0;
    sc_read(s, (uint8_t)(RXB0CTRL + 0x10 * n), held[0]);
    sc_rx_status(s, (uint8_t)((n ? 0x86 : 0x40) | ide | (held[0] & RXRTR)));
    sc_low(s);
    sc_xfer(s, (uint8_t)(SPI_READ_RX + 4 * n), 0);
    for (unsigned i = SIDH; i < BUFFER_BYTES; i++)
        sc_xfer(s, 0, held[i]);
    sc_high(s);
}

/* A buffer by READ, which leaves its flag. */
static void read_bytes(struct script *s, unsigned n, const uint8_t held[BUFFER_BYTES])
{
    sc_low(s);
    sc_xfer(s, SPI_READ, 0);
    sc_xfer(s, (uint8_t)(RXB0CTRL + 0x10 * n), 0);
    for (unsigned i = 0; i < BUFFER_BYTES; i++)
        sc_xfer(s, 0, held[i]);
    sc_high(s);
}

/* ---- taken and refused ---- */

static void codes_taken(struct script *s)
{
    for (uint8_t flags = 0; flags <= FLAGS_MAX; flags++)
        for (unsigned code = 0; code < 256; code++) {
            uint8_t record[RECORD_BYTES] = {KIND_FRAME, flags, (uint8_t)code};
            if (code < 16)
                sc_raw(AT, record, REFUSED_NOT, RX_NOT_LISTENING);
            else
                sc_raw(AT, record, REFUSED_FIELD, 0);
        }
}

/* Eight data bytes make no code above 15 sound, and a chip that listens refuses it too. */
static void codes_refused_with_data(struct script *s)
{
    static const uint8_t codes[] = {16, 17, 24, 31, 127, 128, 143, 255};
    uint8_t empty[BUFFER_BYTES] = {RXM};
    sc_write(AT, RXB0CTRL, RXM);
    sc_mode(AT, MODE_NORMAL);
    for (uint8_t flags = 0; flags <= FRAME_EXTENDED; flags++)
        for (size_t i = 0; i < sizeof codes; i++) {
            uint8_t record[RECORD_BYTES] = {KIND_FRAME, flags, codes[i]};
            memset(record + 8, 0xFF, DATA_BYTES_MAX);
            sc_raw(AT, record, REFUSED_FIELD, 0);
        }
    read_bytes(AT, 0, empty);
    sc_read(AT, CANINTF, 0);
}

static void eight_bytes_from_code_8(struct script *s)
{
    sc_mode(AT, MODE_NORMAL);
    for (uint8_t code = 8; code <= LENGTH_CODE_MAX; code++) {
        sc_frame(AT, 0, 0x123, code, "\xF8\xF7\xF6\xF5\xF4\xF3\xF2\xF1", RX_IN_RXB0);
        sc_read(AT, RXB0CTRL + DLC, code);
        for (uint8_t i = 0; i < 8; i++)
            sc_read(AT, RXB0CTRL + D0 + i, 0xF8 - i);
        sc_write(AT, CANINTF, 0);
        sc_frame(AT, 0, 0x123, 8, "\x01\x02\x03\x04\x05\x06\x07\x08", RX_IN_RXB0);
        sc_write(AT, CANINTF, 0);
    }
}

/* ---- stored ---- */

static void stored_in_rxb0(struct script *s)
{
    uint8_t held[BUFFER_BYTES] = {RXM}, mark = 1;
    sc_write(AT, RXB0CTRL, RXM);
    sc_mode(AT, MODE_NORMAL);
    for (uint8_t flags = 0; flags <= FLAGS_MAX; flags++)
        for (uint8_t code = 0; code <= LENGTH_CODE_MAX; code++) {
            struct message f = message(flags, code, mark++);
            hear(AT, &f, RX_IN_RXB0);
            store(held, &f);
            read_full(AT, 0, held);
        }
}

static void stored_in_rxb1(struct script *s)
{
    uint8_t held[BUFFER_BYTES] = {RXM}, mark = 1;
    sc_write4(AT, RXM0SIDH, 0xFFE00000); /* RXF0 and RXF1 take identifier 0 alone */
    sc_write(AT, RXB1CTRL, RXM);
    sc_mode(AT, MODE_LISTEN_ONLY);
    for (uint8_t flags = 0; flags <= FLAGS_MAX; flags++)
        for (uint8_t code = 0; code <= LENGTH_CODE_MAX; code++) {
            struct message f = message(flags, code, mark++);
            hear(AT, &f, RX_IN_RXB1);
            store(held, &f);
            read_full(AT, 1, held);
        }
}

/* RXB0 is full by the firmware's hand and keeps its bytes. */
static void rolled_over(struct script *s)
{
    uint8_t first[BUFFER_BYTES] = {RXM | BUKT | BUKT1}, held[BUFFER_BYTES] = {0}, mark = 1;
    struct message f = message(0, 9, 0x80);
    sc_write(AT, RXB0CTRL, RXM | BUKT);
    sc_mode(AT, MODE_NORMAL);
    hear(AT, &f, RX_IN_RXB0);
    store(first, &f);
    for (uint8_t flags = 0; flags <= FLAGS_MAX; flags++)
        for (uint8_t code = 0; code <= LENGTH_CODE_MAX; code++) {
            f = message(flags, code, mark++);
            sc_write(AT, CANINTF, RX0IF);
            hear(AT, &f, RX_IN_RXB1);
            store(held, &f);
            sc_write(AT, CANINTF, RX1IF);
            read_full(AT, 1, held);
        }
    read_bytes(AT, 0, first);
}

/* ---- sent in Loopback ---- */

/* Each code from each buffer in turn. */
static void sent_in_loopback(struct script *s)
{
    uint8_t held[BUFFER_BYTES] = {RXM}, mark = 1;
    sc_write(AT, RXB0CTRL, RXM);
    sc_mode(AT, MODE_LOOPBACK);
    for (uint8_t flags = 0; flags <= FLAGS_MAX; flags++)
        for (uint8_t code = 0; code <= LENGTH_CODE_MAX; code++) {
            struct message f = message(flags, code, mark++);
            send_from(AT, (flags + code) % 3, &f, RX_IN_RXB0);
            store(held, &f);
            read_full(AT, 0, held);
        }
}

/* The code of the buffer stays as it was, sent or failed. */
static void sending_leaves_the_code(struct script *s)
{
    static const uint8_t modes[] = {MODE_NORMAL, MODE_LOOPBACK};
    for (size_t i = 0; i < sizeof modes; i++)
        for (uint8_t code = 8; code <= LENGTH_CODE_MAX; code++) {
            struct message f = message(code % 2 ? FRAME_REMOTE : 0, code, 1);
            uint8_t dlc = code % 2 ? RTR | code : code;
            sc_mode(AT, modes[i]);
            load(AT, 1, &f);
            sc_rts(AT, 2);
            sc_idle(AT, 1);
            if (modes[i] == MODE_NORMAL) {
                sc_end(AT, END_ERROR, 0);
                sc_idle(AT, 1);
            }
            sc_end(AT, END_SENT, modes[i] == MODE_NORMAL ? 0 : RX_IN_RXB0);
            sc_read(AT, TXB1CTRL + DLC, dlc);
            sc_write(AT, CANINTF, 0);
        }
}

/* ---- filters ---- */

/* Filter n takes the standard identifier 123h, with AAh, 55h as EID bytes, or
 * the extended 12345678h, whose own EID bytes are 56h, 78h; no other filter
 * takes either. */
static void only_filter(struct script *s, unsigned n, bool extended)
{
    static const uint8_t at[6] = {RXF0SIDH, RXF1SIDH, RXF2SIDH, RXF3SIDH, RXF4SIDH, RXF5SIDH};
    sc_write4(s, RXM0SIDH, 0xFFE3FFFF);
    sc_write4(s, RXM1SIDH, 0xFFE3FFFF);
    for (unsigned i = 0; i < 6; i++)
        sc_write4(s, at[i], i != n ? 0xFFE00000 : extended ? 0x91A85678 : 0x2460AA55);
}

/* Data bytes 0 and 1 of which both, one or none agree with AAh, 55h. */
static struct message filtered(uint8_t code, unsigned i)
{
    struct message f = message(0, code, 0x33);
    f.data[0] = i & 1 ? 0xAB : 0xAA;
    f.data[1] = i & 2 ? 0x54 : 0x55;
    return f;
}

/* Data byte 0 counts from code 1 on, data byte 1 from code 2 on. */
static uint8_t wanted(uint8_t code, unsigned i, uint8_t stored)
{
    bool byte0_differs = i & 1, byte1_differs = i & 2;
    if ((code >= 1 && byte0_differs) || (code >= 2 && byte1_differs))
        return RX_UNMATCHED;
    return stored;
}

static void filtered_by_data(struct script *s)
{
    for (unsigned n = 0; n < 6; n += 5) {
        uint8_t stored = n < 2 ? RX_IN_RXB0 : RX_IN_RXB1;
        sc_mode(AT, MODE_CONFIGURATION);
        only_filter(AT, n, false);
        sc_mode(AT, MODE_NORMAL);
        for (uint8_t code = 0; code <= LENGTH_CODE_MAX; code++)
            for (unsigned i = 0; i < 4; i++) {
                struct message f = filtered(code, i);
                hear(AT, &f, wanted(code, i, stored));
                sc_write(AT, CANINTF, 0);
            }
    }
}

/* The buffer has all eight bytes; those past the code are not the frame's. */
static void filtered_by_data_in_loopback(struct script *s)
{
    only_filter(AT, 0, false);
    sc_mode(AT, MODE_LOOPBACK);
    for (uint8_t code = 0; code <= LENGTH_CODE_MAX; code++)
        for (unsigned i = 0; i < 4; i++) {
            struct message f = filtered(code, i);
            send_from(AT, 0, &f, wanted(code, i, RX_IN_RXB0));
            sc_write(AT, CANINTF, 0);
        }
}

/* A remote frame has no data byte to compare, whatever its code. */
static void remote_is_not_filtered_by_data(struct script *s)
{
    only_filter(AT, 1, false);
    for (uint8_t code = 0; code <= LENGTH_CODE_MAX; code++) {
        struct message f = message(FRAME_REMOTE, code, 0x33);
        sc_mode(AT, MODE_NORMAL);
        hear(AT, &f, RX_IN_RXB0);
        sc_write(AT, CANINTF, 0);
        sc_mode(AT, MODE_LOOPBACK);
        send_from(AT, 2, &f, RX_IN_RXB0);
        sc_write(AT, CANINTF, 0);
    }
}

/* An extended frame compares its identifier there, whatever its code. */
static void extended_is_not_filtered_by_data(struct script *s)
{
    only_filter(AT, 3, true);
    sc_mode(AT, MODE_NORMAL);
    for (uint8_t flags = FRAME_EXTENDED; flags <= FLAGS_MAX; flags += FRAME_REMOTE)
        for (uint8_t code = 0; code <= LENGTH_CODE_MAX; code++) {
            struct message f = message(flags, code, 0x33);
            hear(AT, &f, RX_IN_RXB1);
            sc_write(AT, CANINTF, 0);
        }
}

/* ---- not stored ---- */

static void lost_changes_no_buffer(struct script *s)
{
    uint8_t rxb0[BUFFER_BYTES] = {RXM}, rxb1[BUFFER_BYTES] = {0};
    struct message first = message(FRAME_EXTENDED, 3, 0x80);
    sc_write(AT, RXB0CTRL, RXM);
    sc_mode(AT, MODE_NORMAL);
    hear(AT, &first, RX_IN_RXB0);
    store(rxb0, &first);
    for (uint8_t flags = 0; flags <= FLAGS_MAX; flags++)
        for (uint8_t code = 8; code <= LENGTH_CODE_MAX; code++) {
            struct message f = message(flags, code, 1);
            hear(AT, &f, RX_LOST);
            sc_read(AT, EFLG, RX0OVR);
            sc_read(AT, CANINTF, ERRIF | RX0IF);
        }
    read_bytes(AT, 0, rxb0);
    read_bytes(AT, 1, rxb1);
    first = message(0, 9, 1);
    sc_mode(AT, MODE_LOOPBACK);
    send_from(AT, 0, &first, RX_LOST);
    read_bytes(AT, 0, rxb0);
    read_bytes(AT, 1, rxb1);
}

static void unheard_changes_no_byte(struct script *s)
{
    static const uint8_t modes[] = {MODE_CONFIGURATION, MODE_LOOPBACK, MODE_SLEEP};
    uint8_t rxb0[BUFFER_BYTES] = {RXM}, rxb1[BUFFER_BYTES] = {RXM};
    sc_write(AT, RXB0CTRL, RXM);
    sc_write(AT, RXB1CTRL, RXM);
    for (size_t i = 0; i < sizeof modes; i++) {
        sc_mode(AT, modes[i]);
        for (uint8_t code = 8; code <= LENGTH_CODE_MAX; code++) {
            struct message f = message(code % 2 ? FRAME_EXTENDED : 0, code, 1);
            hear(AT, &f, RX_NOT_LISTENING);
        }
        read_bytes(AT, 0, rxb0);
        read_bytes(AT, 1, rxb1);
        sc_read(AT, CANINTF, 0);
    }
    struct message f = message(0, 9, 1);
    sc_write(AT, CANINTE, WAKIF);
    hear(AT, &f, RX_WOKE);
    read_bytes(AT, 0, rxb0);
    read_bytes(AT, 1, rxb1);
    sc_read(AT, CANINTF, WAKIF);
}

static const struct fixed_case table[] = {
    {"length codes 0 to 15 are taken, others refused", codes_taken},
    {"length codes above 15 are refused with data too", codes_refused_with_data},
    {"length codes 8 to 15 have eight data bytes", eight_bytes_from_code_8},
    {"length codes stored in RXB0", stored_in_rxb0},
    {"length codes stored in RXB1", stored_in_rxb1},
    {"length codes rolled over", rolled_over},
    {"length codes sent in Loopback", sent_in_loopback},
    {"sending leaves the length code of the buffer", sending_leaves_the_code},
    {"length codes and data bytes 0 and 1 in the filters", filtered_by_data},
    {"the same in Loopback", filtered_by_data_in_loopback},
    {"length codes of remote frames in the filters", remote_is_not_filtered_by_data},
    {"length codes of extended frames in the filters", extended_is_not_filtered_by_data},
    {"length codes of lost frames", lost_changes_no_buffer},
    {"length codes of frames not listened to", unheard_changes_no_byte},
};

const struct case_group length_cases = {table, sizeof table / sizeof *table};
