/* W1 to W12, the errors known from the bench, and the refusals of single records. */
#include "cases.h"
#include "model.h"
#include "registers.h"

static const struct case_group *const groups[] = {&marked_cases, &spi_cases, &reset_cases,
                                                  &bus_cases, &length_cases, &match_cases,
                                                  &set_cases, &pins_cases, &panel_cases};

size_t case_count(void)
{
    size_t count = 0;
    for (size_t i = 0; i < sizeof groups / sizeof *groups; i++)
        count += groups[i]->count;
    return count;
}

const struct fixed_case *case_at(size_t i)
{
    const struct case_group *const *group = groups;
    while (i >= (*group)->count)
        i -= (*group++)->count;
    return &(*group)->cases[i];
}

void case_errors(struct script *s, unsigned buffer, unsigned count)
{
    for (unsigned i = 0; i < count; i++) {
        sc_idle(s, (uint8_t)buffer);
        sc_end(s, END_ERROR, 0);
    }
}

/* ---- W1 to W12 ---- */

static void w1(struct script *s)
{
    sc_read(AT, CANCTRL, 0x87);
}

static void w2(struct script *s)
{
    sc_write(AT, RXF0SIDH, 0x11);
    sc_mode(AT, MODE_NORMAL);
    sc_write(AT, RXF0SIDH, 0x20);
    sc_mode(AT, MODE_CONFIGURATION);
    sc_read(AT, RXF0SIDH, 0x11);
}

static void w3(struct script *s)
{
    sc_mode(AT, MODE_NORMAL);
    sc_rts(AT, 5);
    sc_idle(AT, 2);
    sc_reset(AT);
    sc_write(AT, TXB0CTRL, 0x01);
    sc_mode(AT, MODE_NORMAL);
    sc_rts(AT, 5);
    sc_idle(AT, 0);
}

static void w4(struct script *s)
{
    sc_mode(AT, MODE_NORMAL);
    sc_std(AT, 0x123, RX_IN_RXB0);
    sc_read(AT, RXB0CTRL + SIDH, 0x24);
    sc_read(AT, RXB0CTRL + SIDL, 0x60);
}

static void w5(struct script *s)
{
    sc_write(AT, RXF0SIDH + RXF_SIDL, IDE);
    sc_mode(AT, MODE_NORMAL);
    sc_frame(AT, FRAME_EXTENDED, 0x12345678, 0, NULL, RX_IN_RXB0);
    sc_low(AT);
    sc_xfer(AT, SPI_READ, 0);
    sc_xfer(AT, RXB0CTRL + SIDH, 0);
    sc_xfer(AT, 0, 0x91);
    sc_xfer(AT, 0, 0xA8);
    sc_xfer(AT, 0, 0x56);
    sc_xfer(AT, 0, 0x78);
    sc_high(AT);
}

static void w6(struct script *s)
{
    sc_write(AT, CANINTF, 0x03);
    sc_modify(AT, CANINTF, 0x01, 0x00);
    sc_read(AT, CANINTF, 0x02);
}

static void w7(struct script *s)
{
    sc_write(AT, 0x36, 0x0F);
    sc_modify(AT, 0x36, 0xF0, 0xA5);
    sc_read(AT, 0x36, 0xA5);
}

static void w8(struct script *s)
{
    sc_mode(AT, MODE_NORMAL);
    sc_std(AT, 0x123, RX_IN_RXB0);
    sc_std(AT, 0x124, RX_LOST);
    sc_read(AT, EFLG, 0x40);
    sc_read(AT, CANINTF, 0x21);
}

static void w9(struct script *s)
{
    sc_write(AT, RXB0CTRL, BUKT);
    sc_mode(AT, MODE_NORMAL);
    sc_std(AT, 0x123, RX_IN_RXB0);
    sc_std(AT, 0x124, RX_IN_RXB1);
    sc_std(AT, 0x125, RX_LOST);
    sc_read(AT, EFLG, 0x80);
    sc_read(AT, CANINTF, 0x23);
}

static void w10(struct script *s)
{
    sc_write4(AT, RXM0SIDH, 0xFFE00000);
    sc_write4(AT, RXF1SIDH, 0x24600000); /* 123h */
    sc_write(AT, RXB0CTRL, BUKT);
    sc_mode(AT, MODE_NORMAL);
    sc_frame(AT, 0, 0x123, 1, "\x7E", RX_IN_RXB0);
    sc_frame(AT, 0, 0x123, 1, "\x7F", RX_IN_RXB1);
    sc_modify(AT, CANINTF, RX0IF, 0);
    sc_rx_status(AT, 0x87);
}

static void w11(struct script *s)
{
    sc_mode(AT, MODE_NORMAL);
    sc_rts(AT, 1);
    case_errors(AT, 0, 11);
    sc_read(AT, EFLG, 0x00);
    case_errors(AT, 0, 1);
    sc_read(AT, TEC, 96);
    sc_read(AT, EFLG, 0x05);
    case_errors(AT, 0, 4);
    sc_read(AT, TEC, 128);
    sc_read(AT, EFLG, 0x15);
    case_errors(AT, 0, 16);
    sc_read(AT, TEC, 255);
    sc_read(AT, EFLG, 0x35);
    sc_idle(AT, NO_FLIGHT);
}

static void w12(struct script *s)
{
    uint8_t record[RECORD_BYTES] = {KIND_FRAME, 0, 0, 0, 0, 0, 0x08, 0x00};
    sc_mode(AT, MODE_NORMAL);
    sc_std(AT, 2047, RX_IN_RXB0);
    sc_raw(AT, record, REFUSED_FIELD, 0);
}

/* ---- errors known from the bench ---- */

static void lost_frame_stays_lost(struct script *s)
{
    /* Mask 1 of 0 lets RXF2 take any standard frame, RXB1 is empty. */
    sc_mode(AT, MODE_NORMAL);
    sc_std(AT, 0x001, RX_IN_RXB0);
    sc_std(AT, 0x002, RX_LOST);
    sc_rx_status(AT, 0x40);
    sc_read(AT, RXB1CTRL + SIDL, 0x00);
}

static void ties_go_to_the_highest(struct script *s)
{
    sc_mode(AT, MODE_NORMAL);
    sc_rts(AT, 7);
    for (unsigned n = 3; n-- > 0;) {
        sc_idle(AT, (uint8_t)n);
        sc_end(AT, END_SENT, 0);
    }
    sc_idle(AT, NO_FLIGHT);
}

static void data_bytes_take_no_mask(struct script *s)
{
    static const uint8_t at[] = {RXF0SIDH, RXM1SIDH, 0x31, 0x46, 0x5D};
    for (size_t i = 0; i < sizeof at; i++) {
        sc_write(AT, at[i], 0x0F);
        sc_modify(AT, at[i], 0xF0, 0xA5);
        sc_read(AT, at[i], 0xA5);
        sc_modify(AT, at[i], 0x00, 0x5A);
        sc_read(AT, at[i], 0x5A);
    }
}

static void flag_falls_at_select_high(struct script *s)
{
    sc_mode(AT, MODE_NORMAL);
    sc_std(AT, 0x123, RX_IN_RXB0);
    sc_low(AT);
    sc_xfer(AT, 0x90, 0);
    sc_xfer(AT, 0, 0x24);
    sc_std(AT, 0x124, RX_LOST);
    sc_xfer(AT, 0, 0x60);
    sc_std(AT, 0x124, RX_LOST);
    sc_high(AT);
    sc_std(AT, 0x124, RX_IN_RXB0);
}

static void filter_write_is_not_kept(struct script *s)
{
    sc_write(AT, RXF0SIDH, 0x11);
    sc_mode(AT, MODE_NORMAL);
    sc_rts(AT, 1);
    sc_mode(AT, MODE_CONFIGURATION); /* waits for TXB0 */
    sc_write(AT, RXF0SIDH, 0x20);
    sc_idle(AT, 0);
    sc_write(AT, RXF0SIDH, 0x21);
    sc_end(AT, END_SENT, 0);
    sc_read(AT, CANSTAT, 0x80);
    sc_read(AT, RXF0SIDH, 0x11);
    sc_write(AT, RXF0SIDH, 0x20);
    sc_read(AT, RXF0SIDH, 0x20);
}

/* ---- refusals ---- */

static void refusal_1(struct script *s)
{
    sc_refused(AT, REFUSED_SELECT, KIND_EXCHANGE, SPI_RESET);
    sc_refused(AT, REFUSED_SELECT, KIND_SELECT_HIGH, 0);
    sc_low(AT);
    sc_refused(AT, REFUSED_SELECT, KIND_SELECT_LOW, 0);
    sc_xfer(AT, SPI_READ, 0);
    sc_refused(AT, REFUSED_SELECT, KIND_SELECT_LOW, 0);
    sc_xfer(AT, CANCTRL, 0); /* the instruction is still open */
    sc_refused(AT, REFUSED_SELECT, KIND_SELECT_LOW, 0);
    sc_xfer(AT, 0, 0x87);
    sc_high(AT);
    sc_refused(AT, REFUSED_SELECT, KIND_SELECT_HIGH, 0);
    sc_refused(AT, REFUSED_SELECT, KIND_EXCHANGE, 0);
}

/* Data of a frame past its length code is not named. */
static bool is_named(uint8_t kind, unsigned byte)
{
    static const uint8_t first[KINDS] = {2, 1, 2, 1, 1, 1, 1, 1, 1};
    static const uint8_t last[KINDS] = {2, 2, 2, 2, 0, 1, 1, 0, 2};
    return (byte >= first[kind] && byte <= last[kind]) ||
           (kind == KIND_FRAME && byte >= 4 && byte < 8);
}

static void unnamed_bytes(struct script *s)
{
    for (uint8_t kind = 0; kind < KINDS; kind++)
        for (unsigned i = 1; i < RECORD_BYTES; i++) {
            uint8_t record[RECORD_BYTES] = {kind};
            if (is_named(kind, i))
                continue;
            record[i] = i % 2 ? 0x80 : 0x01;
            sc_raw(AT, record, REFUSED_FIELD, 0);
        }
}

static void field_ranges(struct script *s)
{
    for (unsigned kind = KINDS; kind < 256; kind++)
        sc_refused(AT, REFUSED_FIELD, (uint8_t)kind, 0);
    for (unsigned value = 0; value < 256; value++) {
        uint8_t record[RECORD_BYTES] = {KIND_FRAME, 0, (uint8_t)value};
        uint8_t speaker[RECORD_BYTES] = {(uint8_t)(value % 3), 0, (uint8_t)value};
        if (value >= 2)
            sc_raw(AT, speaker, REFUSED_FIELD, 0);
        if (value >= 4)
            sc_refused(AT, REFUSED_FIELD, KIND_FRAME, (uint8_t)value);
        if (value >= 16)
            sc_raw(AT, record, REFUSED_FIELD, 0);
        if (value >= 3)
            sc_refused(AT, REFUSED_FIELD, KIND_FRAME_ENDS, (uint8_t)value);
        if (value >= 2)
            sc_refused(AT, REFUSED_FIELD, KIND_RECEIVE_ERROR, (uint8_t)value);
    }
}

static void frame_with_id(struct script *s, uint8_t flags, uint32_t id, uint8_t refusal)
{
    uint8_t record[RECORD_BYTES] = {KIND_FRAME, flags};
    for (unsigned i = 0; i < 4; i++)
        record[4 + i] = (uint8_t)(id >> (24 - 8 * i));
    sc_raw(s, record, refusal, refusal ? 0 : RX_NOT_LISTENING);
}

static void identifier_limits(struct script *s)
{
    frame_with_id(AT, 0, 0x7FF, REFUSED_NOT);
    frame_with_id(AT, 0, 0x800, REFUSED_FIELD);
    frame_with_id(AT, FRAME_REMOTE, 0x800, REFUSED_FIELD);
    frame_with_id(AT, 0, 0x80000000, REFUSED_FIELD);
    frame_with_id(AT, FRAME_EXTENDED, 0x1FFFFFFF, REFUSED_NOT);
    frame_with_id(AT, FRAME_EXTENDED, 0x20000000, REFUSED_FIELD);
    frame_with_id(AT, FRAME_EXTENDED | FRAME_REMOTE, 0xFFFFFFFF, REFUSED_FIELD);
}

/* Length codes 8 to 15 have all eight bytes: nothing is past them then. A
 * remote frame has a length code and no data. */
static void data_past_length_code(struct script *s)
{
    for (uint8_t flags = 0; flags <= (FRAME_EXTENDED | FRAME_REMOTE); flags++)
        for (uint8_t code = 0; code <= LENGTH_CODE_MAX; code++)
            for (uint8_t i = 0; i < DATA_BYTES_MAX; i++) {
                uint8_t record[RECORD_BYTES] = {KIND_FRAME, flags, code};
                bool bad = (flags & FRAME_REMOTE) || i >= code;
                record[8 + i] = 1;
                sc_raw(AT, record, bad ? REFUSED_FIELD : REFUSED_NOT, bad ? 0 : RX_NOT_LISTENING);
            }
}

static void refusal_2_comes_first(struct script *s)
{
    uint8_t damaged[RECORD_BYTES] = {KIND_EXCHANGE, 0, SPEAKERS};
    sc_raw(AT, damaged, REFUSED_FIELD, 0);
    sc_refused(AT, REFUSED_FIELD, KIND_FRAME_ENDS, 3);
    sc_mode(AT, MODE_NORMAL);
    sc_rts(AT, 1);
    sc_idle(AT, 0);
    sc_refused(AT, REFUSED_FIELD, KIND_RECEIVE_ERROR, 2);
    sc_refused(AT, REFUSED_FIELD, KIND_FRAME, 4);
}

static void refusal_3(struct script *s)
{
    sc_mode(AT, MODE_NORMAL);
    sc_rts(AT, 4);
    sc_idle(AT, 2);
    sc_refused(AT, REFUSED_IN_FLIGHT, KIND_FRAME, 0);
    sc_refused(AT, REFUSED_IN_FLIGHT, KIND_BUS_IDLE, 0);
    sc_refused(AT, REFUSED_IN_FLIGHT, KIND_RECEIVE_ERROR, 1);
    sc_read(AT, REC, 0);
    sc_end(AT, END_SENT, 0);
    sc_rx_error(AT, 1);
    sc_read(AT, REC, 8);
    sc_std(AT, 0, RX_IN_RXB0);
}

static void refusal_4(struct script *s)
{
    for (uint8_t outcome = 0; outcome < 3; outcome++)
        sc_refused(AT, REFUSED_NO_FLIGHT, KIND_FRAME_ENDS, outcome);
    sc_mode(AT, MODE_LOOPBACK);
    sc_refused(AT, REFUSED_NO_FLIGHT, KIND_FRAME_ENDS, END_ERROR); /* 4 before 5 */
    sc_rts(AT, 1);
    sc_refused(AT, REFUSED_NO_FLIGHT, KIND_FRAME_ENDS, END_SENT); /* requested, not sent */
    sc_idle(AT, 0);
    sc_reset(AT);
    sc_refused(AT, REFUSED_NO_FLIGHT, KIND_FRAME_ENDS, END_SENT); /* RESET ends the flight */
}

static void refusal_5(struct script *s)
{
    sc_refused(AT, REFUSED_STATE, KIND_RECOVERY, 0);
    sc_mode(AT, MODE_LOOPBACK);
    sc_rts(AT, 1);
    sc_idle(AT, 0);
    sc_refused(AT, REFUSED_STATE, KIND_FRAME_ENDS, END_LOST);
    sc_refused(AT, REFUSED_STATE, KIND_FRAME_ENDS, END_ERROR);
    sc_refused(AT, REFUSED_STATE, KIND_RECOVERY, 0);
    sc_read(AT, TXB0CTRL, TXREQ);
    sc_end(AT, END_SENT, RX_IN_RXB0); /* still in flight */
    sc_mode(AT, MODE_NORMAL);
    sc_rts(AT, 1);
    case_errors(AT, 0, 31);
    sc_refused(AT, REFUSED_STATE, KIND_RECOVERY, 0); /* TEC 248 */
    case_errors(AT, 0, 1);
    sc_recovery(AT);
    sc_refused(AT, REFUSED_STATE, KIND_RECOVERY, 0);
}

static const struct fixed_case table[] = {
    {"W1 CANCTRL after power-on", w1},
    {"W2 filter write outside Configuration", w2},
    {"W3 transmit order", w3},
    {"W4 standard identifier in RXB0", w4},
    {"W5 extended identifier in RXB0", w5},
    {"W6 BIT MODIFY on CANINTF", w6},
    {"W7 BIT MODIFY on a data byte", w7},
    {"W8 second hit without rollover", w8},
    {"W9 third hit with rollover", w9},
    {"W10 receive status of a rolled frame", w10},
    {"W11 EFLG by TEC", w11},
    {"W12 highest standard identifier", w12},
    {"bench error: a lost RXB0 frame is not offered to RXB1", lost_frame_stays_lost},
    {"bench error: equal TXP goes highest buffer first", ties_go_to_the_highest},
    {"bench error: BIT MODIFY does not merge on data bytes", data_bytes_take_no_mask},
    {"bench error: RXnIF stands until select high", flag_falls_at_select_high},
    {"bench error: a filter write too early is gone", filter_write_is_not_kept},
    {"refusal 1", refusal_1},
    {"refusal 2: unnamed bytes", unnamed_bytes},
    {"refusal 2: kinds and field ranges", field_ranges},
    {"refusal 2: identifiers", identifier_limits},
    {"refusal 2: data past the length code's bytes", data_past_length_code},
    {"refusal 2 before the others", refusal_2_comes_first},
    {"refusal 3", refusal_3},
    {"refusal 4", refusal_4},
    {"refusal 5", refusal_5},
};

const struct case_group marked_cases = {table, sizeof table / sizeof *table};
