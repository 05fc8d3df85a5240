/*
 * Pairs of logs with the entries that comparing them must give, as bytes, and
 * what is left of the longer one. Each pair is tried in both orders and with
 * room for all entries, for more, for a byte less, an entry less, without the sets
 * and for none.
 */
#include <string.h>

#include "cases.h"
#include "differences.h"
#include "model.h"
#include "registers.h"

enum { NEITHER, FIRST, SECOND }; /* which log has something left */

static pair_check *check_pair;
static struct script first, second;

/* ---- handing over ---- */

/* The leftover is the last left bytes of one of the logs; refused, nothing is left. */
static void hand_over(struct pair_case c, unsigned left_of, size_t left)
{
    const uint8_t *log = left_of == SECOND ? c.second : c.first;
    size_t log_len = left_of == SECOND ? c.second_len : c.first_len;
    if (c.result < 0 || left_of == NEITHER) {
        log = c.first;
        log_len = c.first_len;
        left = 0;
    }
    c.leftover = (struct log_part){log_len > left ? log + log_len - left : log, left};
    check_pair(&c);
}

static void with_each_room(struct pair_case c, unsigned left_of, size_t left)
{
    size_t exact = ENTRY_BYTES * (size_t)c.result;
    c.entries_len = exact;
    hand_over(c, left_of, left);
    c.entries_len = exact + 5;
    hand_over(c, left_of, left);
    if (exact == 0)
        return;
    c.result = -REFUSED_SHORT_OUTPUT;
    c.entries_len = exact - 1;
    hand_over(c, left_of, left);
    c.entries_len = exact - ENTRY_BYTES;
    hand_over(c, left_of, left);
    c.entries_len = exact / ENTRY_BYTES * 8; /* enough without the sets */
    hand_over(c, left_of, left);
    c.entries_len = 0;
    hand_over(c, left_of, left);
}

/* The entries of the same logs the other way round. */
static void swap_entries(const uint8_t *entries, size_t count, uint8_t *swapped)
{
    for (size_t i = 0; i < ENTRY_BYTES * count; i += ENTRY_BYTES) {
        memcpy(swapped + i, entries + i, 4);
        memcpy(swapped + i + 4, entries + i + 6, 2);
        memcpy(swapped + i + 6, entries + i + 4, 2);
        swapped[i + 8] = entries[i + 9];
        swapped[i + 9] = entries[i + 8];
    }
}

/* The scripts first and second, which are empty then; entries for count records. */
static void both_orders(const char *name, size_t count, const uint8_t *entries, unsigned left_of,
                        size_t left_records)
{
    uint8_t swapped[16 * ENTRY_BYTES];
    size_t left = RECORD_BYTES * left_records;
    struct pair_case c = {.name = name,
                          .first = first.records,
                          .first_len = RECORD_BYTES * first.count,
                          .second = second.records,
                          .second_len = RECORD_BYTES * second.count,
                          .result = (int64_t)count,
                          .entries = entries};
    struct pair_case other = c;
    with_each_room(c, left_of, left);
    other.first = c.second;
    other.first_len = c.second_len;
    other.second = c.first;
    other.second_len = c.first_len;
    other.entries = swapped;
    swap_entries(entries, count, swapped);
    with_each_room(other, left_of == FIRST ? SECOND : left_of == SECOND ? FIRST : NEITHER, left);
    script_clear(&first);
    script_clear(&second);
}

static void expect_entries(const char *name, size_t count, const uint8_t *entries)
{
    both_orders(name, count, entries, NEITHER, 0);
}

/* ---- what counts as a difference ---- */

/* A log that would answer otherwise from the chip that it leaves. */
static void read_and_write(struct script *s)
{
    sc_read(s, TXB0CTRL + D0, 0x00);
    sc_write(s, TXB0CTRL + D0, 0x12);
    sc_mode(s, MODE_NORMAL);
}

static void equal_logs(void)
{
    read_and_write(&first);
    read_and_write(&second);
    both_orders("equal logs", 0, NULL, NEITHER, 0);
    struct pair_case same = {.name = "the same bytes as both logs"};
    read_and_write(&first);
    same.first = same.second = first.records;
    same.first_len = same.second_len = RECORD_BYTES * first.count;
    with_each_room(same, NEITHER, 0);
    script_clear(&first);
    with_each_room((struct pair_case){.name = "no logs, no bytes"}, NEITHER, 0);
}

/* What is sent during a reply changes nothing. */
static void record_alone(void)
{
    static const uint8_t sent[] = {0x00, 0xFF};
    for (unsigned i = 0; i < 2; i++) {
        struct script *s = i == 0 ? &first : &second;
        sc_low(s);
        sc_xfer(s, SPI_READ, 0);
        sc_xfer(s, CANCTRL, 0);
        sc_xfer(s, sent[i], 0x87);
        sc_high(s);
    }
    expect_entries("the record alone differs", 1,
                   (const uint8_t[]){0, 0, 0, 4, 0, 0x87, 0, 0x87, 0, 0});
}

/* Every byte of a record counts, also of one that is refused. */
static void each_byte_alone(void)
{
    for (unsigned i = 0; i < RECORD_BYTES; i++) {
        uint8_t record[RECORD_BYTES];
        memset(record, 0xFF, sizeof record);
        sc_raw(&first, record, REFUSED_FIELD, 0);
        record[i] ^= 0x01;
        sc_raw(&second, record, REFUSED_FIELD, 0);
        expect_entries("one byte of a refused record differs", 1,
                       (const uint8_t[]){0, 0, 0, 1, 2, 0, 2, 0, 0, 0});
    }
}

/* Record 2 and 3 are the same, and refused where select is high. */
static void refusal_alone(void)
{
    sc_low(&first);
    sc_xfer(&first, 0x00, 0);
    sc_high(&first);
    sc_idle(&second, 3);
    sc_refused(&second, REFUSED_SELECT, KIND_EXCHANGE, 0x00);
    sc_refused(&second, REFUSED_SELECT, KIND_SELECT_HIGH, 0);
    expect_entries("the refusal alone differs", 3,
                   (const uint8_t[]){
                       0, 0, 0, 1, 0, 0, 0, 3, 0, 0,
                       0, 0, 0, 2, 0, 0, 1, 0, 0, 0,
                       0, 0, 0, 3, 0, 0, 1, 0, 0, 0,
                   });
}

static void answer_alone(void)
{
    sc_write(&first, TXB0CTRL + D0, 0x12);
    sc_read(&first, TXB0CTRL + D0, 0x12);
    sc_write(&second, TXB0CTRL + D0, 0x34);
    sc_read(&second, TXB0CTRL + D0, 0x34);
    expect_entries("the answer alone differs", 2,
                   (const uint8_t[]){
                       0, 0, 0, 4, 0, 0x00, 0, 0x00, 0, 0,
                       0, 0, 0, 9, 0, 0x12, 0, 0x34, 0, 0,
                   });
}

/* Record 4 is the same: accepted with a reply, refused without. */
static void refusal_and_answer(void)
{
    sc_read(&first, CANCTRL, 0x87);
    sc_idle(&second, 3);
    sc_refused(&second, REFUSED_SELECT, KIND_EXCHANGE, SPI_READ);
    sc_refused(&second, REFUSED_SELECT, KIND_EXCHANGE, CANCTRL);
    sc_refused(&second, REFUSED_SELECT, KIND_EXCHANGE, 0);
    sc_refused(&second, REFUSED_SELECT, KIND_SELECT_HIGH, 0);
    expect_entries("refusal and answer differ", 5,
                   (const uint8_t[]){
                       0, 0, 0, 1, 0, 0x00, 0, 3, 0, 0,
                       0, 0, 0, 2, 0, 0x00, 1, 0, 0, 0,
                       0, 0, 0, 3, 0, 0x00, 1, 0, 0, 0,
                       0, 0, 0, 4, 0, 0x87, 1, 0, 0, 0,
                       0, 0, 0, 5, 0, 0x00, 1, 0, 0, 0,
                   });
}

static void record_and_refusal(void)
{
    sc_refused(&first, REFUSED_FIELD, KINDS, 0);
    sc_rx_error(&second, 0);
    expect_entries("record and refusal differ", 1,
                   (const uint8_t[]){0, 0, 0, 1, 2, 0, 0, 0, 0, 0});
}

static void record_and_answer(void)
{
    sc_rx_error(&first, 0);
    sc_idle(&second, 3);
    expect_entries("record and answer differ", 1,
                   (const uint8_t[]){0, 0, 0, 1, 0, 0, 0, 3, 0, 0});
}

static void all_three(void)
{
    sc_refused(&first, REFUSED_FIELD, KINDS, 0);
    sc_idle(&second, 3);
    expect_entries("record, refusal and answer differ", 1,
                   (const uint8_t[]){0, 0, 0, 1, 2, 0, 0, 3, 0, 0});
}

/* ---- who speaks ---- */

/* Byte 2 of the select low alone: the records behind it are the same, and refused. */
static void speaker_alone(void)
{
    sc_read(&first, CANCTRL, 0x87);
    sc_read(&second, CANCTRL, 0);
    second.records[2] = SPEAKER_PANEL;
    expect_entries("who selected differs", 5,
                   (const uint8_t[]){
                       0, 0, 0, 1, 0, 0x00, 0,  0, 0, 0,
                       0, 0, 0, 2, 0, 0x00, 18, 0, 0, 0,
                       0, 0, 0, 3, 0, 0x00, 18, 0, 0, 0,
                       0, 0, 0, 4, 0, 0x87, 18, 0, 0, 0,
                       0, 0, 0, 5, 0, 0x00, 18, 0, 0, 0,
                   });
}

/* The same RTS by the one and by the other, both accepted; the panel requests nothing. */
static void speaker_of_a_session(void)
{
    sc_rts(&first, 1);
    second.speaker = SPEAKER_PANEL;
    sc_rts(&second, 1);
    second.speaker = SPEAKER_CONTROLLER;
    sc_status(&first, 0x04);
    sc_status(&second, 0x00);
    expect_entries("who speaks in a session differs", 4,
                   (const uint8_t[]){
                       0, 0, 0, 1, 0, 0x00, 0, 0x00, 0, 0,
                       0, 0, 0, 2, 0, 0x00, 0, 0x00, 0, 0,
                       0, 0, 0, 3, 0, 0x00, 0, 0x00, 0, 0,
                       0, 0, 0, 6, 0, 0x04, 0, 0x00, 0, 0,
                   });
}

/* ---- the set ---- */

/* RXF2 takes SIDH 00h or 01h, as RXF3 to RXF5 take 00h; RXF0 and RXF1 take any. */
static void differ_in_rxf2(void)
{
    for (unsigned i = 0; i < 2; i++) {
        struct script *s = i == 0 ? &first : &second;
        sc_write(s, RXM1SIDH, 0xFF);
        sc_write(s, RXF2SIDH, (uint8_t)i);
    }
}

static void on_both(void (*write)(struct script *s))
{
    write(&first);
    write(&second);
}

/* Not listened to, in RXB0, lost, unmatched, refused, and lost with the same set. */
static void six_frames(struct script *s)
{
    static const uint8_t damaged[RECORD_BYTES] = {KIND_FRAME, 0, LENGTH_CODE_MAX + 1};
    sc_std(s, 0x008, RX_NOT_LISTENING);
    sc_mode(s, MODE_NORMAL);
    sc_std(s, 0x008, RX_IN_RXB0);
    sc_std(s, 0x000, RX_LOST);
    sc_frame(s, FRAME_EXTENDED, 0x008, 0, NULL, RX_UNMATCHED);
    sc_raw(s, damaged, REFUSED_FIELD, 0);
    sc_std(s, 0x7F8, RX_LOST);
}

static void set_alone(void)
{
    differ_in_rxf2();
    on_both(six_frames);
    expect_entries("the set alone differs", 3,
                   (const uint8_t[]){
                       0, 0, 0, 9,  0, 0, 0, 0, 0x00, 0x00,
                       0, 0, 0, 17, 0, 1, 0, 1, 0x03, 0x07,
                       0, 0, 0, 18, 0, 3, 0, 3, 0x3F, 0x3B,
                   });
}

static void own_frame(struct script *s)
{
    sc_mode(s, MODE_LOOPBACK);
    sc_rts(s, 1);
    sc_idle(s, 0);
    sc_refused(s, REFUSED_STATE, KIND_FRAME_ENDS, END_LOST);
    sc_end(s, END_SENT, RX_IN_RXB0);
}

static void set_of_own_frame_alone(void)
{
    differ_in_rxf2();
    on_both(own_frame);
    expect_entries("the set of an own frame in Loopback alone differs", 2,
                   (const uint8_t[]){
                       0, 0, 0, 9,  0, 0, 0, 0, 0x00, 0x00,
                       0, 0, 0, 21, 0, 1, 0, 1, 0x3F, 0x3B,
                   });
}

/* RXM 11 takes the frame in both logs; filter n matches it in the first one alone. */
static void each_bit_of_the_set(void)
{
    static const uint8_t at[6] = {RXF0SIDH, RXF1SIDH, RXF2SIDH, RXF3SIDH, RXF4SIDH, RXF5SIDH};
    for (unsigned n = 0; n < 6; n++) {
        for (unsigned i = 0; i < 2; i++) {
            struct script *s = i == 0 ? &first : &second;
            sc_write(s, RXM0SIDH, 0xFF);
            sc_write(s, RXM1SIDH, 0xFF);
            for (unsigned j = 0; j < 6; j++)
                sc_write(s, at[j], i == 0 && j == n ? 0x24 : 0x55);
            sc_write(s, RXB0CTRL, RXM);
            sc_mode(s, MODE_NORMAL);
            sc_std(s, 0x123, RX_IN_RXB0);
        }
        expect_entries("one bit of the set differs", 2,
                       (const uint8_t[]){
                           0, 0, 0, (uint8_t)(14 + 5 * n), 0, 0, 0, 0, 0, 0,
                           0, 0, 0, 51, 0, 1, 0, 1, (uint8_t)(1u << n), 0,
                       });
    }
}

/* The frames are not the same; what they are answered is. */
static void record_and_set(void)
{
    for (unsigned i = 0; i < 2; i++) {
        struct script *s = i == 0 ? &first : &second;
        sc_write(s, RXM1SIDH, 0xFF);
        sc_mode(s, MODE_LISTEN_ONLY);
        sc_std(s, i == 0 ? 0x123 : 0x001, RX_IN_RXB0);
    }
    expect_entries("record and set differ", 1,
                   (const uint8_t[]){0, 0, 0, 11, 0, 1, 0, 1, 0x03, 0x3F});
}

/* RXF0 takes SIDH 00h or 01h, RXF1 takes 01h: for RXB0, or for RXB1. */
static void answer_and_set(void)
{
    for (unsigned i = 0; i < 2; i++) {
        struct script *s = i == 0 ? &first : &second;
        sc_write(s, RXM0SIDH, 0xFF);
        sc_write(s, RXF1SIDH, 0x01);
        sc_write(s, RXF0SIDH, (uint8_t)i);
        sc_mode(s, MODE_NORMAL);
        sc_std(s, 0x000, i == 0 ? RX_IN_RXB0 : RX_IN_RXB1);
    }
    expect_entries("answer and set differ", 2,
                   (const uint8_t[]){
                       0, 0, 0, 14, 0, 0, 0, 0, 0x00, 0x00,
                       0, 0, 0, 21, 0, 1, 0, 2, 0x3D, 0x3C,
                   });
}

/* In flight in the first log alone: the frame is refused there. */
static void refusal_and_set(void)
{
    for (unsigned i = 0; i < 2; i++) {
        struct script *s = i == 0 ? &first : &second;
        sc_mode(s, MODE_NORMAL);
        sc_rts(s, i == 0 ? 1 : 0);
        sc_idle(s, i == 0 ? 0 : NO_FLIGHT);
        if (i == 0)
            sc_refused(s, REFUSED_IN_FLIGHT, KIND_FRAME, 0);
        else
            sc_std(s, 0, RX_IN_RXB0);
    }
    expect_entries("refusal, answer and set differ", 3,
                   (const uint8_t[]){
                       0, 0, 0, 7,  0, 0, 0, 0, 0x00, 0x00,
                       0, 0, 0, 9,  0, 0, 0, 3, 0x00, 0x00,
                       0, 0, 0, 10, 3, 0, 0, 1, 0x00, 0x3F,
                   });
}

/* ---- what follows from a difference ---- */

/* Left full, RXB0 loses the second frame. After RESET both chips say the same again. */
static void later_answers(void)
{
    for (unsigned i = 0; i < 2; i++) {
        struct script *s = i == 0 ? &first : &second;
        sc_mode(s, MODE_NORMAL);
        sc_std(s, 1, RX_IN_RXB0);
        sc_modify(s, CANINTF, i == 0 ? RX0IF : 0, 0);
        sc_std(s, 2, i == 0 ? RX_IN_RXB0 : RX_LOST);
        sc_reset(s);
        sc_read(s, CANINTF, 0);
        sc_read(s, EFLG, 0);
    }
    expect_entries("a difference that changes later answers", 2,
                   (const uint8_t[]){
                       0, 0, 0, 10, 0, 0, 0, 0, 0, 0,
                       0, 0, 0, 13, 0, 1, 0, 3, 0x3F, 0x3F,
                   });
}

/* TX1RTS, enabled, falls in the first log alone: there TXB1 goes. The frame's end takes both
 * to the same chip but for the level, which shows once the pin is not enabled. */
static void one_pin(void)
{
    for (unsigned i = 0; i < 2; i++) {
        struct script *s = i == 0 ? &first : &second;
        sc_write(s, TXRTSCTRL, 2);
        sc_mode(s, MODE_LOOPBACK);
        sc_pin(s, 1, i == 0 ? 0 : 1);
        sc_read(s, TXRTSCTRL, 0x2A);
        sc_idle(s, i == 0 ? 1 : NO_FLIGHT);
        if (i == 0)
            sc_end(s, END_SENT, RX_IN_RXB0);
        else
            sc_refused(s, REFUSED_NO_FLIGHT, KIND_FRAME_ENDS, END_SENT);
        sc_reset(s);
        sc_read(s, TXRTSCTRL, i == 0 ? 0x28 : 0x38);
    }
    expect_entries("one request pin differs", 4,
                   (const uint8_t[]){
                       0, 0, 0, 11, 0, 0x00, 0, 0x00, 0x00, 0x00,
                       0, 0, 0, 17, 0, 0x01, 0, 0x03, 0x00, 0x00,
                       0, 0, 0, 18, 0, 0x01, 4, 0x00, 0x3F, 0x00,
                       0, 0, 0, 25, 0, 0x28, 0, 0x38, 0x00, 0x00,
                   });
}

/* Accepted in one log and refused in the other. */
static void refused_pin(void)
{
    sc_pin(&first, 2, 1);
    sc_refused(&second, REFUSED_FIELD, KIND_REQUEST_PIN, 3);
    expect_entries("a request pin against a refused one", 1,
                   (const uint8_t[]){0, 0, 0, 1, 0, 0, 2, 0, 0, 0});
}

/* One record more in front: record stands against record by number. */
static void inserted(void)
{
    sc_read(&first, CANSTAT, 0x80);
    sc_idle(&first, 3);
    sc_idle(&first, 3);
    sc_idle(&second, 3);
    sc_read(&second, CANSTAT, 0x80);
    sc_idle(&second, 3);
    expect_entries("one record inserted", 6,
                   (const uint8_t[]){
                       0, 0, 0, 1, 0, 0x00, 0, 3, 0, 0,
                       0, 0, 0, 2, 0, 0x00, 0, 0, 0, 0,
                       0, 0, 0, 3, 0, 0x00, 0, 0, 0, 0,
                       0, 0, 0, 4, 0, 0x80, 0, 0, 0, 0,
                       0, 0, 0, 5, 0, 0x00, 0, 0x80, 0, 0,
                       0, 0, 0, 6, 0, 3, 0, 0, 0, 0,
                   });
}

/* ---- numbers of two bytes ---- */

/* Recovery without bus-off, refused; an unknown kind in the second log at these places. */
static void long_pair(const char *name, size_t records, const uint16_t *numbers, size_t count,
                      const uint8_t *entries)
{
    for (size_t i = 0; i < records; i++) {
        sc_refused(&first, REFUSED_STATE, KIND_RECOVERY, 0);
        sc_refused(&second, REFUSED_STATE, KIND_RECOVERY, 0);
    }
    for (size_t i = 0; i < count; i++)
        second.records[RECORD_BYTES * (numbers[i] - 1u)] = KINDS;
    both_orders(name, count, entries, NEITHER, 0);
}

static void high_numbers(void)
{
    static const uint16_t few[] = {1, 255, 256, 257, 258};
    static const uint8_t few_entries[] = {
        0, 0, 0, 1, 5, 0, 2, 0, 0, 0, 0, 0, 0, 255, 5, 0, 2, 0, 0, 0,
        0, 0, 1, 0, 5, 0, 2, 0, 0, 0, 0, 0, 1, 1,   5, 0, 2, 0, 0, 0,
        0, 0, 1, 2, 5, 0, 2, 0, 0, 0,
    };
    static const uint16_t many[] = {32767, 32768, 65280, 65535};
    static const uint8_t many_entries[] = {
        0, 0, 127, 255, 5, 0, 2, 0, 0, 0, 0, 0, 128, 0,   5, 0, 2, 0, 0, 0,
        0, 0, 255, 0,   5, 0, 2, 0, 0, 0, 0, 0, 255, 255, 5, 0, 2, 0, 0, 0,
    };
    long_pair("numbers around 256", 258, few, 5, few_entries);
    long_pair("numbers up to 65,535", LOG_RECORDS_MAX, many, 4, many_entries);
}

/* ---- what is left of the longer log ---- */

static void leftovers(void)
{
    static const uint8_t entry[] = {0, 0, 0, 2, 0, 3, 2, 0, 0, 0};
    sc_read(&first, CANCTRL, 0x87);
    sc_read(&second, CANCTRL, 0x87);
    sc_idle(&second, 3);
    sc_rx_error(&second, 1);
    both_orders("equal as far as both go", 0, NULL, SECOND, 2);
    sc_idle(&first, 3);
    sc_idle(&first, 3);
    sc_idle(&first, 3);
    sc_idle(&second, 3);
    sc_refused(&second, REFUSED_FIELD, KINDS, 0);
    both_orders("a difference, and one record left", 1, entry, FIRST, 1);
    sc_idle(&second, 3);
    both_orders("an empty log", 0, NULL, SECOND, 1);
}

/* ---- lengths: every refusal, and which comes first ---- */

enum { MOST = LOG_RECORDS_MAX, OVER = MOST + 1 };

/* Taken: what is left, in bytes, is of the longer log. */
static const struct {
    size_t first_len, second_len, entries_len;
    int64_t result;
    unsigned left_of;
    size_t left;
} taken[] = {
    {0, 0, 40, 0, NEITHER, 0},
    {0, 5 * RECORD_BYTES, 0, 0, SECOND, 5 * RECORD_BYTES},
    {5 * RECORD_BYTES, 0, 0, 0, FIRST, 5 * RECORD_BYTES},
    {10 * RECORD_BYTES, 12 * RECORD_BYTES, 10 * ENTRY_BYTES, 10, SECOND, 2 * RECORD_BYTES},
    {12 * RECORD_BYTES, 10 * RECORD_BYTES, 10 * ENTRY_BYTES, 10, FIRST, 2 * RECORD_BYTES},
    {MOST * RECORD_BYTES, 10 * RECORD_BYTES, 10 * ENTRY_BYTES, 10, FIRST,
     (MOST - 10) * RECORD_BYTES},
    {10 * RECORD_BYTES, MOST * RECORD_BYTES, 10 * ENTRY_BYTES, 10, SECOND,
     (MOST - 10) * RECORD_BYTES},
    {MOST * RECORD_BYTES, 0, 0, 0, FIRST, MOST * RECORD_BYTES},
    {0, MOST * RECORD_BYTES, 0, 0, SECOND, MOST * RECORD_BYTES},
    {MOST * RECORD_BYTES, MOST * RECORD_BYTES, MOST * ENTRY_BYTES, MOST, NEITHER, 0},
};

static const struct {
    size_t first_len, second_len, entries_len;
    int64_t result;
} refused[] = {
    {1, 10 * RECORD_BYTES, 10 * ENTRY_BYTES, -6},
    {10 * RECORD_BYTES, 15, 10 * ENTRY_BYTES, -6},
    {10 * RECORD_BYTES + 1, 10 * RECORD_BYTES, 10 * ENTRY_BYTES, -6},
    {10 * RECORD_BYTES, 10 * RECORD_BYTES + 1, 11 * ENTRY_BYTES, -6},
    {17, 17, 10 * ENTRY_BYTES, -6},
    {MOST * RECORD_BYTES + 15, 10 * RECORD_BYTES, 10 * ENTRY_BYTES, -6},
    {10 * RECORD_BYTES, MOST * RECORD_BYTES + 15, 10 * ENTRY_BYTES, -6},
    {OVER * RECORD_BYTES, 10 * RECORD_BYTES, 10 * ENTRY_BYTES, -8},
    {10 * RECORD_BYTES, OVER * RECORD_BYTES, 10 * ENTRY_BYTES, -8},
    {OVER * RECORD_BYTES, OVER * RECORD_BYTES, OVER * ENTRY_BYTES, -8},
    {MOST * RECORD_BYTES, OVER * RECORD_BYTES, MOST * ENTRY_BYTES, -8},
    {OVER * RECORD_BYTES, MOST * RECORD_BYTES, MOST * ENTRY_BYTES, -8},
    /* Two apply: the first log decides before the second, in either 6 before 8. */
    {OVER * RECORD_BYTES, 1, 10 * ENTRY_BYTES, -8},
    {1, OVER * RECORD_BYTES, 10 * ENTRY_BYTES, -6},
    {OVER * RECORD_BYTES + 1, 10 * RECORD_BYTES, 10 * ENTRY_BYTES, -6},
    {OVER * RECORD_BYTES + 1, OVER * RECORD_BYTES, 10 * ENTRY_BYTES, -6},
    {10 * RECORD_BYTES, OVER * RECORD_BYTES + 1, 10 * ENTRY_BYTES, -6},
    {OVER * RECORD_BYTES, OVER * RECORD_BYTES + 1, 10 * ENTRY_BYTES, -8},
    /* The room decides last. */
    {1, 10 * RECORD_BYTES, 0, -6},
    {10 * RECORD_BYTES, 1, 0, -6},
    {OVER * RECORD_BYTES, 10 * RECORD_BYTES, 0, -8},
    {10 * RECORD_BYTES, OVER * RECORD_BYTES, 0, -8},
    {10 * RECORD_BYTES, 10 * RECORD_BYTES, 0, -7},
    {10 * RECORD_BYTES, 12 * RECORD_BYTES, 10 * ENTRY_BYTES - 1, -7},
    {12 * RECORD_BYTES, 10 * RECORD_BYTES, 9 * ENTRY_BYTES, -7},
    {MOST * RECORD_BYTES, MOST * RECORD_BYTES, MOST * ENTRY_BYTES - 1, -7},
    {MOST * RECORD_BYTES, MOST * RECORD_BYTES, MOST * 8, -7},
};

/* Select low again and again, refused from the second on, against bus idle: every
 * record differs. */
static void log_lengths(void)
{
    static uint8_t lows[(OVER + 1) * RECORD_BYTES], idles[(OVER + 1) * RECORD_BYTES];
    static uint8_t entries[MOST * ENTRY_BYTES];
    struct pair_case c = {"lengths", .first = lows, .second = idles, .entries = entries};
    for (size_t i = 0; i <= OVER; i++)
        idles[RECORD_BYTES * i] = KIND_BUS_IDLE;
    for (unsigned number = 1; number <= MOST; number++) {
        uint8_t *entry = entries + ENTRY_BYTES * (number - 1);
        entry[2] = (uint8_t)(number / 256);
        entry[3] = (uint8_t)(number % 256);
        entry[4] = number == 1 ? REFUSED_NOT : REFUSED_SELECT;
        entry[7] = 3;
    }
    for (size_t i = 0; i < sizeof taken / sizeof *taken; i++) {
        c.first_len = taken[i].first_len;
        c.second_len = taken[i].second_len;
        c.entries_len = taken[i].entries_len;
        c.result = taken[i].result;
        hand_over(c, taken[i].left_of, taken[i].left);
    }
    for (size_t i = 0; i < sizeof refused / sizeof *refused; i++) {
        c.first_len = refused[i].first_len;
        c.second_len = refused[i].second_len;
        c.entries_len = refused[i].entries_len;
        c.result = refused[i].result;
        hand_over(c, NEITHER, 0);
    }
}

void pair_cases(pair_check *check)
{
    check_pair = check;
    script_init(&first);
    script_init(&second);
    equal_logs();
    record_alone();
    each_byte_alone();
    refusal_alone();
    answer_alone();
    refusal_and_answer();
    record_and_refusal();
    record_and_answer();
    all_three();
    speaker_alone();
    speaker_of_a_session();
    set_alone();
    set_of_own_frame_alone();
    each_bit_of_the_set();
    record_and_set();
    answer_and_set();
    refusal_and_set();
    later_answers();
    one_pin();
    refused_pin();
    inserted();
    high_numbers();
    leftovers();
    log_lengths();
    script_free(&first);
    script_free(&second);
}
