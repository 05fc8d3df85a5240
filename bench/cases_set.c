/* The set: all filters that match the frame that the chip hears, and when there is none. */
#include <stdbool.h>

#include "cases.h"
#include "match.h"
#include "model.h"
#include "registers.h"

enum { FILTERS = MATCH_FILTERS, ALL = MATCH_OF_RXB0 | MATCH_OF_RXB1 };

/* ---- filters, masks and frames ---- */

/* Words are SIDH, SIDL, EID8, EID0, the first one highest. */
static const uint32_t exact = 0xFFE3FFFF, exide = 0x00080000;

/* A frame, and the word of a filter that matches it under any mask. */
struct sort {
    uint8_t flags; /* byte 1 of its record */
    uint8_t code;
    uint32_t id;
    const char *data;
    uint32_t word;
};

static const struct sort standard = {0, 2, 0x123, "\xA5\x5A", 0x2460A55A};
static const struct sort extended = {FRAME_EXTENDED, 1, 0x12345678, "\xA5", 0x91A85678};

/* A bit that every frame has, in SIDL. */
static const uint32_t missed = 0x00200000;

static void set_words(struct script *s, uint8_t address, const uint32_t *words, unsigned count)
{
    sc_low(s);
    sc_xfer(s, SPI_WRITE, 0);
    sc_xfer(s, address, 0);
    for (unsigned i = 0; i < 4 * count; i++)
        sc_xfer(s, (uint8_t)(words[i / 4] >> (24 - 8 * (i % 4))), 0);
    sc_high(s);
}

static void set_filters(struct script *s, const uint32_t words[FILTERS])
{
    set_words(s, RXF0SIDH, &words[0], 3);
    set_words(s, RXF3SIDH, &words[3], 3);
}

static void set_masks(struct script *s, uint32_t mask_0, uint32_t mask_1)
{
    const uint32_t masks[2] = {mask_0, mask_1};
    set_words(s, RXM0SIDH, masks, 2);
}

/* In Configuration: filters that have the word where the set has a bit, and else miss it. */
static void match(struct script *s, uint32_t word, uint8_t set)
{
    uint32_t words[FILTERS];
    for (unsigned n = 0; n < FILTERS; n++)
        words[n] = set >> n & 1 ? word : word ^ missed;
    set_masks(s, exact, exact);
    set_filters(s, words);
}

static void hear(struct script *s, const struct sort *sort, uint8_t answer, uint8_t set)
{
    sc_frame(s, sort->flags, sort->id, sort->code, sort->data, answer);
    sc_set(s, set);
}

/* A frame that the chip refuses. */
static void hear_refused(struct script *s, const struct sort *sort, uint8_t refusal)
{
    sc_frame(s, sort->flags, sort->id, sort->code, sort->data, 0);
    s->want[s->count - 1].refusal = refusal;
    sc_set(s, 0);
}

/* Both buffers free. */
static uint8_t answer_to(uint8_t set)
{
    return set & MATCH_OF_RXB0 ? RX_IN_RXB0 : set ? RX_IN_RXB1 : RX_UNMATCHED;
}

static uint8_t lowest(uint8_t set)
{
    uint8_t n = 0;
    while (!(set >> n & 1))
        n++;
    return n;
}

/* ---- which filters ---- */

/* Each of the 64 sets, and the hit as it always was: the lowest filter. */
static void every_set(struct script *s)
{
    static const struct sort sorts[] = {
        {0, 0, 0x123, NULL, 0x24600000},
        {0, 2, 0x123, "\xA5\x5A", 0x2460A55A},
        {FRAME_REMOTE, 2, 0x123, NULL, 0x24600000},
        {FRAME_EXTENDED, 8, 0x12345678, "\x01\x02\x03\x04\x05\x06\x07\x08", 0x91A85678},
        {FRAME_EXTENDED | FRAME_REMOTE, 8, 0x12345678, NULL, 0x91A85678},
    };
    for (unsigned i = 0; i < 64 * (sizeof sorts / sizeof *sorts); i++) {
        const struct sort *sort = &sorts[i / 64];
        uint8_t set = i % 64, rxrtr = sort->flags & FRAME_REMOTE ? RXRTR : 0;
        match(AT, sort->word, set);
        sc_mode(AT, MODE_NORMAL);
        hear(AT, sort, answer_to(set), set);
        if (set != 0)
            sc_read(AT, set & MATCH_OF_RXB0 ? RXB0CTRL : RXB1CTRL, rxrtr | lowest(set));
        sc_write(AT, CANINTF, 0);
        sc_mode(AT, MODE_CONFIGURATION);
    }
}

/* Six filters alike, a frame that differs from them, and two masks. */
static void two_masks(struct script *s)
{
    static const uint32_t words[FILTERS] = {0x24600000, 0x24600000, 0x24600000,
                                            0x24600000, 0x24600000, 0x24600000};
    static const struct {
        uint32_t mask_0, mask_1;
        uint32_t id;
        uint8_t set;
    } table[] = {
        {0x00000000, 0x00000000, 0x4DC, ALL},
        {0x00000000, 0xFFFFFFFF, 0x4DC, MATCH_OF_RXB0},
        {0xFFFFFFFF, 0x00000000, 0x4DC, MATCH_OF_RXB1},
        {0xFFFFFFFF, 0xFFFFFFFF, 0x4DC, 0},
        {0xFFFFFFFF, 0xFFFFFFFF, 0x123, ALL},
        {0x80000000, 0x00200000, 0x523, MATCH_OF_RXB1}, /* identifier bit 10 */
        {0x80000000, 0x00200000, 0x122, MATCH_OF_RXB0}, /* bit 0 */
        {0x80000000, 0x00200000, 0x522, 0},             /* both */
        {0x80000000, 0x00200000, 0x2DD, ALL},           /* all others */
        {0x7FE00000, 0xFFC00000, 0x523, MATCH_OF_RXB0},
        {0x7FE00000, 0xFFC00000, 0x122, MATCH_OF_RXB1},
    };
    set_filters(AT, words);
    for (unsigned i = 0; i < sizeof table / sizeof *table; i++) {
        set_masks(AT, table[i].mask_0, table[i].mask_1);
        sc_mode(AT, MODE_NORMAL);
        sc_std(AT, table[i].id, answer_to(table[i].set));
        sc_set(AT, table[i].set);
        sc_write(AT, CANINTF, 0);
        sc_mode(AT, MODE_CONFIGURATION);
    }
}

/* Filter n alone takes standard frames: any under a mask of 0, none under a full
 * one. The other mask says the opposite. */
static void each_filter_alone(struct script *s)
{
    for (unsigned i = 0; i < 2 * FILTERS; i++) {
        unsigned n = i / 2;
        bool open = i % 2 == 0;
        uint32_t words[FILTERS], own = open ? 0 : exact, other = open ? exact : 0;
        uint8_t set = open ? (uint8_t)(1u << n) : 0;
        for (unsigned j = 0; j < FILTERS; j++)
            words[j] = j == n ? 0xFFE00000 : exide;
        set_filters(AT, words);
        set_masks(AT, n < 2 ? own : other, n < 2 ? other : own);
        sc_mode(AT, MODE_NORMAL);
        hear(AT, &standard, answer_to(set), set);
        sc_write(AT, CANINTF, 0);
        sc_mode(AT, MODE_CONFIGURATION);
    }
}

/* For 123h with data A5h, 5Ah: the filter for it, wrong in data byte 0, wrong in data
 * byte 1, wrong in both, with an EID17-16 that no standard frame has; the last is extended. */
static const uint32_t six_sorts[FILTERS] = {0x2460A55A, 0x2460B55A, 0x2460A54A,
                                            0x2460B54A, 0x2461A55A, 0x246AA55A};

static void data_bytes(struct script *s)
{
    static const struct {
        struct sort sort;
        uint8_t set;
    } table[] = {
        {{0, 0, 0x123, NULL, 0}, 0x1F},
        {{0, 1, 0x123, "\xA5", 0}, 0x15},
        {{0, 1, 0x123, "\xB5", 0}, 0x0A},
        {{0, 2, 0x123, "\xA5\x5A", 0}, 0x11},
        {{0, 2, 0x123, "\xB5\x5A", 0}, 0x02},
        {{0, 2, 0x123, "\xA5\x4A", 0}, 0x04},
        {{0, 2, 0x123, "\xB5\x4A", 0}, 0x08},
        {{0, 2, 0x123, "\xFF\xFF", 0}, 0x00},
        {{0, 8, 0x123, "\xA5\x5A\x01\x02\x03\x04\x05\x06", 0}, 0x11},
        {{0, 9, 0x123, "\xA5\x4A\x01\x02\x03\x04\x05\x06", 0}, 0x04},
        {{0, 15, 0x123, "\xB5\x5A\x01\x02\x03\x04\x05\x06", 0}, 0x02},
        {{FRAME_REMOTE, 0, 0x123, NULL, 0}, 0x1F},
        {{FRAME_REMOTE, 2, 0x123, NULL, 0}, 0x1F},
        {{FRAME_REMOTE, 15, 0x123, NULL, 0}, 0x1F},
        {{0, 2, 0x122, "\xA5\x5A", 0}, 0x00},
        {{FRAME_EXTENDED, 2, 0x48EA55A, "\xB5\x4A", 0}, 0x20},
        {{FRAME_EXTENDED | FRAME_REMOTE, 2, 0x48EA55A, NULL, 0}, 0x20},
        {{FRAME_EXTENDED, 2, 0x48EB55A, "\xA5\x5A", 0}, 0x00},
        {{FRAME_EXTENDED, 2, 0x48CA55A, "\xA5\x5A", 0}, 0x00}, /* EID17-16 */
    };
    set_masks(AT, exact, exact);
    set_filters(AT, six_sorts);
    sc_mode(AT, MODE_NORMAL);
    for (unsigned i = 0; i < sizeof table / sizeof *table; i++) {
        hear(AT, &table[i].sort, answer_to(table[i].set), table[i].set);
        sc_write(AT, CANINTF, 0);
    }
}

/* Data byte 0 by mask 0 alone, data byte 1 by mask 1 alone. */
static void data_bytes_under_two_masks(struct script *s)
{
    match(AT, standard.word, ALL);
    set_masks(AT, 0xFFE0FF00, 0xFFE000FF);
    sc_mode(AT, MODE_NORMAL);
    sc_frame(AT, 0, 0x123, 2, "\xA5\x00", RX_IN_RXB0);
    sc_set(AT, MATCH_OF_RXB0);
    sc_frame(AT, 0, 0x123, 2, "\x00\x5A", RX_IN_RXB1);
    sc_set(AT, MATCH_OF_RXB1);
    sc_frame(AT, 0, 0x123, 1, "\x00", RX_LOST); /* byte 1 is not there */
    sc_set(AT, MATCH_OF_RXB1);
    sc_frame(AT, 0, 0x123, 2, "\x00\x00", RX_UNMATCHED);
    sc_set(AT, 0);
}

/* ---- whatever becomes of the frame ---- */

static void stored_lost_rolled(struct script *s)
{
    match(AT, standard.word, 0x2B);
    sc_mode(AT, MODE_NORMAL);
    hear(AT, &standard, RX_IN_RXB0, 0x2B);
    hear(AT, &standard, RX_LOST, 0x2B);
    sc_read(AT, EFLG, RX0OVR);
    sc_write(AT, RXB0CTRL, BUKT);
    hear(AT, &standard, RX_IN_RXB1, 0x2B);
    sc_read(AT, RXB1CTRL, 0); /* by filter 0 */
    hear(AT, &standard, RX_LOST, 0x2B);
    sc_read(AT, EFLG, RX1OVR | RX0OVR);
    sc_std(AT, 0x124, RX_UNMATCHED);
    sc_set(AT, 0);
}

/* A frame for RXB0 that RXB1 has no filter for, so rolled over by RXB0's share alone. */
static void share_of_rxb0_alone(struct script *s)
{
    match(AT, extended.word, 0x02);
    sc_write(AT, RXB0CTRL, BUKT);
    sc_mode(AT, MODE_NORMAL);
    hear(AT, &extended, RX_IN_RXB0, 0x02);
    hear(AT, &extended, RX_IN_RXB1, 0x02);
    hear(AT, &extended, RX_LOST, 0x02);
    sc_write(AT, RXB0CTRL, 0);
    hear(AT, &extended, RX_LOST, 0x02);
}

static void share_of_rxb1_alone(struct script *s)
{
    match(AT, standard.word, 0x28);
    sc_mode(AT, MODE_NORMAL);
    hear(AT, &standard, RX_IN_RXB1, 0x28);
    sc_read(AT, RXB1CTRL, 3);
    hear(AT, &standard, RX_LOST, 0x28);
    sc_read(AT, EFLG, RX1OVR);
    sc_write(AT, CANINTF, RX0IF); /* RXB0 is not asked for room */
    hear(AT, &standard, RX_IN_RXB1, 0x28);
}

/* A set is of its own record: neither the last one's nor added to it. */
static void sets_do_not_stay(struct script *s)
{
    static const uint32_t words[FILTERS] = {0x20000000, 0x40000000, 0x20000000,
                                            0x40000000, 0x60000000, 0x20000000};
    set_masks(AT, exact, exact);
    set_filters(AT, words);
    sc_mode(AT, MODE_LISTEN_ONLY);
    sc_std(AT, 0x100, RX_IN_RXB0);
    sc_set(AT, 0x25);
    sc_std(AT, 0x200, RX_LOST);
    sc_set(AT, 0x0A);
    sc_std(AT, 0x300, RX_IN_RXB1);
    sc_set(AT, 0x10);
    sc_std(AT, 0x400, RX_UNMATCHED);
    sc_set(AT, 0);
    sc_std(AT, 0x100, RX_LOST);
    sc_set(AT, 0x25);
    sc_idle(AT, NO_FLIGHT);
    sc_set(AT, 0);
    sc_low(AT);
    sc_set(AT, 0);
    sc_high(AT);
    sc_set(AT, 0);
}

/* RESET clears the masks and keeps the filters: each takes any frame of its sort. */
static void after_reset(struct script *s)
{
    set_masks(AT, exact, exact);
    set_filters(AT, six_sorts);
    sc_reset(AT);
    sc_mode(AT, MODE_NORMAL);
    sc_std(AT, 0x7FF, RX_IN_RXB0);
    sc_set(AT, 0x1F);
    hear(AT, &extended, RX_IN_RXB1, 0x20);
}

/* ---- RXM ---- */

/* RXM decides what is stored and with which hit, by no code what the set is. */
static void any_rxm(struct script *s)
{
    static const uint8_t sets[] = {0x00, 0x01, 0x02, 0x03, 0x04, 0x08, 0x20,
                                   0x3C, 0x15, 0x2A, 0x3E, 0x3F};
    for (unsigned i = 0; i < 16 * sizeof sets; i++) {
        uint8_t set = sets[i / 16], rxm_0 = i % 16 / 4 << 5, rxm_1 = i % 4 << 5;
        bool in_0 = rxm_0 == RXM || (set & MATCH_OF_RXB0);
        bool in_1 = rxm_1 == RXM || (set & MATCH_OF_RXB1);
        if (i % 16 == 0) {
            sc_mode(AT, MODE_CONFIGURATION);
            match(AT, standard.word, set);
            sc_mode(AT, MODE_NORMAL);
        }
        sc_write(AT, RXB0CTRL, rxm_0);
        sc_write(AT, RXB1CTRL, rxm_1);
        hear(AT, &standard, in_0 ? RX_IN_RXB0 : in_1 ? RX_IN_RXB1 : RX_UNMATCHED, set);
        if (in_0)
            sc_read(AT, RXB0CTRL, rxm_0 | (rxm_0 == RXM ? 0 : lowest(set)));
        else if (in_1)
            sc_read(AT, RXB1CTRL, rxm_1 | (rxm_1 == RXM ? 0 : lowest(set)));
        sc_write(AT, CANINTF, 0);
    }
}

/* The same where the frame is lost or rolled over, with a set and without. */
static void rxm_11_and_no_room(struct script *s)
{
    for (unsigned i = 0; i < 2; i++) {
        uint8_t set = i == 0 ? 0x36 : 0;
        match(AT, extended.word, set);
        sc_write(AT, RXB0CTRL, RXM);
        sc_write(AT, RXB1CTRL, RXM);
        sc_mode(AT, MODE_NORMAL);
        hear(AT, &extended, RX_IN_RXB0, set);
        hear(AT, &extended, RX_LOST, set);
        sc_write(AT, RXB0CTRL, RXM | BUKT);
        hear(AT, &extended, RX_IN_RXB1, set);
        sc_read(AT, RXB1CTRL, RXM);
        hear(AT, &extended, RX_LOST, set);
        sc_write(AT, RXB0CTRL, 0);
        hear(AT, &extended, RX_LOST, set); /* by filter 1, or by RXM of RXB1 */
        sc_read(AT, EFLG, RX1OVR | RX0OVR);
        sc_write(AT, CANINTF, 0);
        sc_mode(AT, MODE_CONFIGURATION);
    }
}

/* ---- no set: the chip does not listen, or wakes ---- */

static void configuration_and_loopback(struct script *s)
{
    match(AT, standard.word, ALL);
    hear(AT, &standard, RX_NOT_LISTENING, 0);
    sc_mode(AT, MODE_LOOPBACK);
    hear(AT, &standard, RX_NOT_LISTENING, 0);
    sc_mode(AT, MODE_LISTEN_ONLY);
    hear(AT, &standard, RX_IN_RXB0, ALL);
    sc_mode(AT, MODE_CONFIGURATION);
    hear(AT, &standard, RX_NOT_LISTENING, 0);
    sc_write(AT, RXB0CTRL, RXM);
    sc_write(AT, RXB1CTRL, RXM);
    hear(AT, &standard, RX_NOT_LISTENING, 0);
}

static void sleep_and_waking(struct script *s)
{
    match(AT, standard.word, 0x1A);
    sc_mode(AT, MODE_SLEEP);
    hear(AT, &standard, RX_NOT_LISTENING, 0);
    sc_write(AT, CANINTE, (uint8_t)~WAKIF);
    hear(AT, &standard, RX_NOT_LISTENING, 0);
    sc_write(AT, CANINTE, WAKIF);
    hear(AT, &standard, RX_WOKE, 0);
    hear(AT, &standard, RX_IN_RXB0, 0x1A); /* Listen-Only */
    sc_write(AT, CANINTF, 0);
    sc_mode(AT, MODE_SLEEP);
    sc_write(AT, RXB0CTRL, RXM);
    hear(AT, &standard, RX_WOKE, 0);
}

/* In Normal, then in Sleep, out of which a frame wakes it. */
static void bus_off(struct script *s)
{
    match(AT, standard.word, 0x31);
    sc_mode(AT, MODE_NORMAL);
    sc_rts(AT, 1);
    case_errors(AT, 0, 31);
    hear(AT, &standard, RX_IN_RXB0, 0x31); /* TEC 248 */
    case_errors(AT, 0, 1);
    hear(AT, &standard, RX_NOT_LISTENING, 0);
    sc_recovery(AT);
    sc_set(AT, 0);
    hear(AT, &standard, RX_LOST, 0x31);
    case_errors(AT, 0, 32);
    sc_write(AT, TXB0CTRL, 0);
    sc_mode(AT, MODE_SLEEP);
    hear(AT, &standard, RX_NOT_LISTENING, 0);
    sc_write(AT, CANINTE, WAKIF);
    hear(AT, &standard, RX_WOKE, 0);
    hear(AT, &standard, RX_LOST, 0x31);
}

/* ---- no set: refused ---- */

/* Filters 0 to 2 would take every standard frame, 3 to 5 every extended one. */
static void refused_fields(struct script *s)
{
    static const uint32_t words[FILTERS] = {0, 0, 0, 0x00080000, 0x00080000, 0x00080000};
    static const uint8_t records[][RECORD_BYTES] = {
        {KIND_FRAME, 0, 16, 0, 0, 0, 0x01, 0x23},
        {KIND_FRAME, 0, 255, 0, 0, 0, 0x01, 0x23},
        {KIND_FRAME, 4, 0, 0, 0, 0, 0x01, 0x23},
        {KIND_FRAME, 0, 0, 1, 0, 0, 0x01, 0x23},
        {KIND_FRAME, 0, 0, 0, 0, 0, 0x08, 0x00},
        {KIND_FRAME, FRAME_EXTENDED, 0, 0, 0x20, 0, 0, 0},
        {KIND_FRAME, 0, 1, 0, 0, 0, 0x01, 0x23, 0x11, 0x22},
        {KIND_FRAME, FRAME_EXTENDED, 7, 0, 0, 0, 0, 0, 0, 0, 0, 0, 0, 0, 0, 0x88},
        {KIND_FRAME, FRAME_REMOTE, 8, 0, 0, 0, 0x01, 0x23, 0x11},
    };
    set_filters(AT, words);
    sc_mode(AT, MODE_NORMAL);
    for (unsigned i = 0; i < sizeof records / sizeof *records; i++) {
        sc_raw(AT, records[i], REFUSED_FIELD, 0);
        sc_set(AT, 0);
    }
    hear(AT, &standard, RX_IN_RXB0, 0x07);
    hear(AT, &extended, RX_IN_RXB1, 0x38);
}

static void refused_in_flight(struct script *s)
{
    match(AT, standard.word, 0x35);
    sc_mode(AT, MODE_NORMAL);
    sc_rts(AT, 2);
    hear(AT, &standard, RX_IN_RXB0, 0x35);
    sc_idle(AT, 1);
    sc_set(AT, 0);
    hear_refused(AT, &standard, REFUSED_IN_FLIGHT);
    sc_end(AT, END_SENT, 0);
    sc_set(AT, 0);
    hear(AT, &standard, RX_LOST, 0x35);
}

/* ---- own frames ---- */

/* The buffer by the frame's word, with the length code and the data. */
static void load(struct script *s, uint8_t n, const struct sort *sort)
{
    uint8_t rtr = sort->flags & FRAME_REMOTE ? RTR : 0;
    sc_low(s);
    sc_xfer(s, (uint8_t)(SPI_LOAD_TX + 2 * n), 0);
    for (unsigned i = 0; i < 4; i++)
        sc_xfer(s, (uint8_t)(sort->word >> (24 - 8 * i)), 0);
    sc_xfer(s, sort->code | rtr, 0);
    for (unsigned i = 0; i < DATA_BYTES_MAX && i < sort->code; i++)
        sc_xfer(s, sort->data ? (uint8_t)sort->data[i] : 0xFF, 0);
    sc_high(s);
}

static void send(struct script *s, uint8_t n, uint8_t answer, uint8_t set)
{
    sc_rts(s, (uint8_t)(1u << n));
    sc_set(s, 0);
    sc_idle(s, n);
    sc_set(s, 0);
    sc_end(s, END_SENT, answer);
    sc_set(s, set);
}

/* Each buffer sends a frame with a set of its own. */
static void loopback_each_buffer(struct script *s)
{
    static const uint32_t words[FILTERS] = {0x2460A55A, 0x91A85678, 0x2460A55A,
                                            0x60000000, 0x91A85678, 0x2460A55A};
    static const struct sort third = {0, 0, 0x300, NULL, 0x60000000};
    static const struct sort fourth = {0, 0, 0x301, NULL, 0x60200000};
    set_masks(AT, exact, exact);
    set_filters(AT, words);
    load(AT, 0, &standard);
    load(AT, 1, &extended);
    load(AT, 2, &third);
    sc_mode(AT, MODE_LOOPBACK);
    send(AT, 0, RX_IN_RXB0, 0x25);
    send(AT, 0, RX_LOST, 0x25);
    sc_write(AT, CANINTF, 0);
    send(AT, 1, RX_IN_RXB0, 0x12);
    send(AT, 2, RX_IN_RXB1, 0x08);
    send(AT, 2, RX_LOST, 0x08);
    load(AT, 2, &fourth);
    send(AT, 2, RX_UNMATCHED, 0);
    send(AT, 1, RX_LOST, 0x12);
}

/* Rolled over, lost, and by RXM 11. */
static void loopback_whatever_becomes(struct script *s)
{
    match(AT, extended.word, 0x1D);
    load(AT, 1, &extended);
    sc_write(AT, RXB0CTRL, BUKT);
    sc_mode(AT, MODE_LOOPBACK);
    send(AT, 1, RX_IN_RXB0, 0x1D);
    send(AT, 1, RX_IN_RXB1, 0x1D);
    send(AT, 1, RX_LOST, 0x1D);
    sc_write(AT, CANINTF, 0);
    sc_write(AT, RXB0CTRL, RXM);
    send(AT, 1, RX_IN_RXB0, 0x1D);
    load(AT, 1, &standard);
    send(AT, 1, RX_LOST, 0);
    sc_write(AT, CANINTF, 0);
    send(AT, 1, RX_IN_RXB0, 0);
    sc_write(AT, RXB0CTRL, 0);
    sc_write(AT, RXB1CTRL, RXM);
    send(AT, 1, RX_IN_RXB1, 0);
}

/* The buffer's data bytes as far as the frame carries them; its EID bytes are none of a
 * standard frame. */
static void loopback_data(struct script *s)
{
    static const struct {
        struct sort sort;
        uint8_t set;
    } table[] = {
        {{0, 0, 0, NULL, 0x24600000}, 0x1F},
        {{0, 1, 0, "\xA5", 0x2463FFFF}, 0x15},
        {{0, 2, 0, "\xA5\x5A", 0x24600000}, 0x11},
        {{0, 8, 0, "\xB5\x5A\x01\x02\x03\x04\x05\x06", 0x24600000}, 0x02},
        {{0, 9, 0, "\xA5\x4A\x01\x02\x03\x04\x05\x06", 0x24600000}, 0x04},
        {{0, 15, 0, "\xB5\x4A\x01\x02\x03\x04\x05\x06", 0x24600000}, 0x08},
        {{FRAME_REMOTE, 2, 0, NULL, 0x24600000}, 0x1F},
        {{FRAME_REMOTE, 15, 0, NULL, 0x24600000}, 0x1F},
        {{FRAME_EXTENDED, 2, 0, "\xB5\x4A", 0x246AA55A}, 0x20},
        {{FRAME_EXTENDED | FRAME_REMOTE, 2, 0, NULL, 0x246AA55A}, 0x20},
        {{FRAME_EXTENDED, 2, 0, "\xA5\x5A", 0x246AB55A}, 0x00},
    };
    set_masks(AT, exact, exact);
    set_filters(AT, six_sorts);
    sc_mode(AT, MODE_LOOPBACK);
    for (unsigned i = 0; i < sizeof table / sizeof *table; i++) {
        load(AT, i % 3, &table[i].sort);
        send(AT, i % 3, answer_to(table[i].set), table[i].set);
        sc_write(AT, CANINTF, 0);
    }
}

/* Refused, an end has no set; then the same frame is sent. A frame heard meanwhile
 * is refused, and one that is heard in Loopback without a flight is not listened to. */
static void loopback_refused(struct script *s)
{
    match(AT, standard.word, ALL);
    load(AT, 0, &standard);
    sc_mode(AT, MODE_LOOPBACK);
    sc_refused(AT, REFUSED_NO_FLIGHT, KIND_FRAME_ENDS, END_SENT);
    sc_set(AT, 0);
    sc_rts(AT, 1);
    sc_idle(AT, 0);
    sc_refused(AT, REFUSED_STATE, KIND_FRAME_ENDS, END_LOST);
    sc_set(AT, 0);
    sc_refused(AT, REFUSED_STATE, KIND_FRAME_ENDS, END_ERROR);
    sc_set(AT, 0);
    sc_refused(AT, REFUSED_FIELD, KIND_FRAME_ENDS, END_ERROR + 1);
    sc_set(AT, 0);
    hear_refused(AT, &standard, REFUSED_IN_FLIGHT);
    sc_end(AT, END_SENT, RX_IN_RXB0);
    sc_set(AT, ALL);
    hear(AT, &standard, RX_NOT_LISTENING, 0);
    sc_refused(AT, REFUSED_NO_FLIGHT, KIND_FRAME_ENDS, END_SENT);
    sc_set(AT, 0);
}

/* The mode in which the frame ends counts; a mode that waits for that comes after. */
static void ends_before_a_mode(struct script *s)
{
    match(AT, standard.word, 0x0C);
    load(AT, 0, &standard);
    sc_mode(AT, MODE_LOOPBACK);
    sc_rts(AT, 1);
    sc_idle(AT, 0);
    sc_mode(AT, MODE_NORMAL);
    sc_end(AT, END_SENT, RX_IN_RXB1);
    sc_set(AT, 0x0C);
    sc_read(AT, CANSTAT, MODE_NORMAL << 5);
    sc_rts(AT, 1);
    sc_idle(AT, 0);
    sc_mode(AT, MODE_LOOPBACK);
    sc_end(AT, END_SENT, 0);
    sc_set(AT, 0);
    sc_read(AT, CANSTAT, MODE_LOOPBACK << 5);
}

/* In Normal nobody hears the chip's own frame, however it ends. */
static void ends_in_normal(struct script *s)
{
    static const uint8_t outcomes[] = {END_LOST, END_ERROR, END_SENT};
    match(AT, standard.word, ALL);
    load(AT, 2, &standard);
    sc_mode(AT, MODE_NORMAL);
    sc_rts(AT, 4);
    for (unsigned i = 0; i < sizeof outcomes; i++) {
        sc_idle(AT, 2);
        sc_set(AT, 0);
        sc_end(AT, outcomes[i], 0);
        sc_set(AT, 0);
    }
    sc_refused(AT, REFUSED_NO_FLIGHT, KIND_FRAME_ENDS, END_SENT);
    sc_set(AT, 0);
    hear(AT, &standard, RX_IN_RXB0, ALL);
}

/* ---- no set: all other records ---- */

/* Whatever they answer, with filters that match anything. */
static void other_kinds(struct script *s)
{
    static const uint8_t sent[] = {SPI_READ, RXB0CTRL + SIDH, 0, 0};
    static const uint8_t replies[] = {0, 0, 0x24, 0x60};
    sc_mode(AT, MODE_NORMAL);
    hear(AT, &standard, RX_IN_RXB0, ALL);
    sc_low(AT);
    sc_set(AT, 0);
    hear(AT, &standard, RX_LOST, ALL); /* inside a session too */
    for (unsigned i = 0; i < sizeof sent; i++) {
        sc_xfer(AT, sent[i], replies[i]);
        sc_set(AT, 0);
    }
    sc_high(AT);
    sc_set(AT, 0);
    sc_rx_error(AT, 1);
    sc_set(AT, 0);
    sc_idle(AT, NO_FLIGHT);
    sc_set(AT, 0);
    sc_refused(AT, REFUSED_STATE, KIND_RECOVERY, 0);
    sc_set(AT, 0);
    sc_refused(AT, REFUSED_SELECT, KIND_SELECT_HIGH, 0);
    sc_set(AT, 0);
    sc_refused(AT, REFUSED_FIELD, KINDS, 0);
    sc_set(AT, 0);
    sc_rts(AT, 4);
    sc_idle(AT, 2);
    sc_set(AT, 0);
    sc_refused(AT, REFUSED_IN_FLIGHT, KIND_BUS_IDLE, 0);
    sc_set(AT, 0);
}

static const struct fixed_case table[] = {
    {"every set of filters, and its lowest the hit", every_set},
    {"six filters alike under two masks", two_masks},
    {"each filter alone, under its own mask", each_filter_alone},
    {"data bytes, remote and extended frames in the set", data_bytes},
    {"data bytes in the set under two masks", data_bytes_under_two_masks},
    {"the set of a frame stored, lost and rolled over", stored_lost_rolled},
    {"a set of RXB0's share alone", share_of_rxb0_alone},
    {"a set of RXB1's share alone", share_of_rxb1_alone},
    {"a set is of its own record", sets_do_not_stay},
    {"the set after RESET", after_reset},
    {"the set under every RXM", any_rxm},
    {"the set under RXM 11 without room", rxm_11_and_no_room},
    {"no set in Configuration and Loopback", configuration_and_loopback},
    {"no set in Sleep and on waking", sleep_and_waking},
    {"no set in bus-off", bus_off},
    {"no set with refusal 2", refused_fields},
    {"no set with refusal 3", refused_in_flight},
    {"the set of an own frame in Loopback, from each buffer", loopback_each_buffer},
    {"the set of an own frame in Loopback, whatever becomes of it", loopback_whatever_becomes},
    {"the set of an own frame in Loopback, by its data", loopback_data},
    {"no set where a Loopback end is refused", loopback_refused},
    {"the set of an end before a mode is entered", ends_before_a_mode},
    {"no set for ends in Normal", ends_in_normal},
    {"no set for other kinds", other_kinds},
};

const struct case_group set_cases = {table, sizeof table / sizeof *table};
