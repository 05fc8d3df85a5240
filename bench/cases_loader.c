/*
 * The profile loader by hand. A case runs records, then says the records that the
 * loader has to send with the reply to each, loads, and looks at the chip.
 */
#include "cases_loader.h"

#include <stdio.h>
#include <stdlib.h>
#include <string.h>

#include "mcp2515.h"
#include "registers.h"

#define COUNT(list) (sizeof(list) / sizeof *(list))

enum { CHIP = MCP2515_CHIP_SIZE, ENTRIES_MOST = 100, ROOM = RECORDS_IN + ENTRIES_MOST };

/* Places of include/mcp2515.h that have no name there. */
enum { AT_CANCTRL = 128, AT_TXB0CTRL = 132, AT_RXB0CTRL = 135, AT_MODE = 140 };

/* Every byte is another one, and each of RXM and BUKT is there. */
static const uint8_t sound[PROFILE_BYTES] = {
    0x24, 0x68, 0x01, 0x02, 0x35, 0xA3, 0x13, 0x14, 0x46, 0xC1, 0x25, 0x26,
    0x57, 0xE2, 0x37, 0x38, 0x69, 0x49, 0x4A, 0x4B, 0x7A, 0x0B, 0x5C, 0x5D,
    0xFE, 0xE1, 0x0F, 0xF0, 0x7F, 0x61, 0x33, 0x55, 0x44, 0x20,
};

/* All bits that a profile may set. */
static const uint8_t fullest[PROFILE_BYTES] = {
    0xFF, 0xEB, 0xFF, 0xFF, 0xFF, 0xEB, 0xFF, 0xFF, 0xFF, 0xEB, 0xFF, 0xFF,
    0xFF, 0xEB, 0xFF, 0xFF, 0xFF, 0xEB, 0xFF, 0xFF, 0xFF, 0xEB, 0xFF, 0xFF,
    0xFF, 0xE3, 0xFF, 0xFF, 0xFF, 0xE3, 0xFF, 0xFF, 0x64, 0x60,
};

static const uint8_t empty[PROFILE_BYTES];

/* ---- a case ---- */

static const struct loader_side *side;

static struct {
    const char *name;
    uint8_t profile[PROFILE_BYTES];
    uint8_t events[ENTRY_BYTES * ENTRIES_MOST];
    size_t events_len;
    uint8_t start;     /* the mode at the start */
    uint8_t beside[2]; /* what else RXB0CTRL and RXB1CTRL show: RXRTR and the hit */
} lent;

static void expect(const struct script *s, const char *what, long long want, long long got)
{
    char text[160];
    if (want == got)
        return;
    snprintf(text, sizeof text, "%s: %s", lent.name, what);
    side->fail(s->file, s->line, text, want, got);
}

static void lend(const uint8_t *profile, uint8_t start)
{
    memcpy(lent.profile, profile, PROFILE_BYTES);
    lent.start = start;
}

/* Runs what the script has, and empties it. */
static void run(struct script *s)
{
    for (size_t i = 0; i < s->count; i++) {
        uint8_t refusal, answer;
        side->step(s->records + RECORD_BYTES * i, &refusal, &answer);
        s->line = s->want[i].line;
        expect(s, "refusal of a record", s->want[i].refusal, refusal);
        expect(s, "answer to a record", s->want[i].answer, answer);
    }
    script_clear(s);
}

static void start_again(struct script *s)
{
    side->power_on();
    script_clear(s);
    lent.events_len = 0;
    memset(lent.beside, 0, sizeof lent.beside);
    lend(sound, MODE_CONFIGURATION);
}

/* ---- events ---- */

static void entry(uint32_t place, const uint8_t record[RECORD_BYTES])
{
    uint8_t *e = lent.events + lent.events_len;
    for (unsigned i = 0; i < ENTRY_PLACE_BYTES; i++)
        e[i] = (uint8_t)(place >> (24 - 8 * i));
    memcpy(e + ENTRY_PLACE_BYTES, record, RECORD_BYTES);
    lent.events_len += ENTRY_BYTES;
}

static void event(uint32_t place, uint8_t kind, uint8_t byte1, uint8_t byte2)
{
    uint8_t record[RECORD_BYTES] = {kind, byte1, byte2};
    entry(place, record);
}

/* A standard frame, remote and without data, so that RXRTR shows where it is stored. */
static void remote_frame(uint32_t place, uint16_t id)
{
    uint8_t record[RECORD_BYTES] = {KIND_FRAME, FRAME_REMOTE};
    record[6] = (uint8_t)(id >> 8);
    record[7] = (uint8_t)id;
    entry(place, record);
}

static void sc_remote(struct script *s, uint16_t id, uint8_t answer)
{
    sc_frame(s, FRAME_REMOTE, id, 0, NULL, answer);
}

static void sc_remote_in_flight(struct script *s, uint16_t id)
{
    sc_remote(s, id, 0);
    s->want[s->count - 1].refusal = REFUSED_IN_FLIGHT;
}

/* ---- what the loader sends ---- */

static uint8_t register_of(unsigned i)
{
    return (uint8_t)(i < 12 ? i : i < 24 ? i + 4 : i < 32 ? i + 8 : i == 32 ? 0x60 : 0x70);
}

static void ask(struct script *s, uint8_t mode)
{
    sc_modify(s, 0x0F, 0xE0, (uint8_t)(mode << 5));
}

/* What a profile byte reads back as: bit 1 of RXB0CTRL copies BUKT. */
static uint8_t shown(unsigned i)
{
    uint8_t byte = lent.profile[i];
    if (i == 32 && byte & BUKT)
        byte |= BUKT1;
    return i < 32 ? byte : byte | lent.beside[i - 32];
}

/* Commands from one number to another of a run that ends in. */
static void commands(struct script *s, unsigned from, unsigned to)
{
    for (unsigned n = from; n <= to; n++) {
        if (n == 1)
            ask(s, MODE_CONFIGURATION);
        else if (n == 2)
            sc_read(s, 0x0E, 0x80);
        else if (n < 37)
            sc_write(s, register_of(n - 3), lent.profile[n - 3]);
        else if (n < 71)
            sc_read(s, register_of(n - 37), shown(n - 37));
        else
            ask(s, lent.start);
    }
}

/* ---- a load ---- */

static void same_chip(const struct script *s, const char *what, const struct model *want)
{
    struct model got;
    side->look(&got);
    expect(s, what, 0, memcmp(want, &got, sizeof got) != 0);
}

static void same_records(struct script *s, const uint8_t *records)
{
    for (size_t i = 0; i < s->count; i++) {
        s->line = s->want[i].line;
        expect(s, "a record that the loader sends", 0,
               memcmp(s->records + RECORD_BYTES * i, records + RECORD_BYTES * i, RECORD_BYTES));
    }
}

/* The chip after the script, by the model; each refusal and answer as the script has it. */
static void run_wanted(struct script *s, struct model *chip)
{
    for (size_t i = 0; i < s->count; i++) {
        uint8_t refusal, answer;
        model_step(chip, s->records + RECORD_BYTES * i, &refusal, &answer);
        s->line = s->want[i].line;
        expect(s, "refusal of a record of the load", s->want[i].refusal, refusal);
        expect(s, "answer to a record of the load", s->want[i].answer, answer);
    }
}

/* The records that it sends are those of the script, which is emptied with the events. */
static void load(struct script *s, int64_t result)
{
    static uint8_t records[ROOM * RECORD_BYTES];
    struct model chip;
    int line = s->line;
    int64_t want = result < 0 ? result : (int64_t)s->count;
    size_t room = RECORD_BYTES * (RECORDS_IN + lent.events_len / ENTRY_BYTES);
    side->look(&chip);
    int64_t got = side->records(lent.profile, PROFILE_BYTES, lent.events, lent.events_len, records,
                                room);
    expect(s, "how many records the loader sends", want, got);
    if (got == want && got >= 0)
        same_records(s, records);
    s->line = line;
    same_chip(s, "the chip after its records were asked for", &chip);
    expect(s, "what the loader says", result,
           side->load(lent.profile, PROFILE_BYTES, lent.events, lent.events_len));
    run_wanted(s, &chip);
    s->line = line;
    same_chip(s, "the chip after the load", &chip);
    lent.events_len = 0;
    script_clear(s);
}

static void load_in(struct script *s)
{
    commands(s, 1, 71);
    load(s, LOAD_IN);
}

/* By its one look the mode is Normal. */
static void load_waits(struct script *s)
{
    ask(s, MODE_CONFIGURATION);
    sc_read(s, 0x0E, 0x00);
    ask(s, lent.start);
    load(s, LOAD_WAITING);
}

/* ---- looking at the chip ---- */

static void holds(const struct script *s, uint8_t address, uint8_t value)
{
    char text[40];
    snprintf(text, sizeof text, "what %02Xh holds", address);
    expect(s, text, value, side->hold(address));
}

static void holds_profile(const struct script *s, const uint8_t *profile)
{
    for (unsigned i = 0; i < PROFILE_BYTES; i++) {
        uint8_t bits = i == 32 ? 0x64 : i == 33 ? 0x60 : 0xFF;
        uint8_t held = side->hold(register_of(i)) & bits;
        expect(s, "a register with its profile byte", profile[i], held);
    }
}

static void in_mode(const struct script *s, uint8_t mode)
{
    struct model chip;
    side->look(&chip);
    expect(s, "mode", mode, chip.mode);
    expect(s, "mode requested", NO_REQUEST, chip.request);
}

static void counters(const struct script *s, unsigned tec, unsigned rec)
{
    struct model chip;
    side->look(&chip);
    expect(s, "TEC", tec, chip.tec);
    expect(s, "REC", rec, chip.rec);
}

/* ---- chips to start from ---- */

/* TXB0 is asked to go; the mode is Normal, so that a change of mode has to wait for it. */
static void message_waits(struct script *s)
{
    sc_mode(s, MODE_NORMAL);
    sc_rts(s, 1);
    lent.start = MODE_NORMAL;
}

static void message_flies(struct script *s)
{
    message_waits(s);
    sc_idle(s, 0);
}

/* Errors of TXB0, one after the other; its frame is under way again after the last. */
static void fail_message(struct script *s, unsigned errors)
{
    for (unsigned i = 0; i < errors; i++) {
        sc_end(s, END_ERROR, 0);
        sc_idle(s, 0);
    }
}

/* ---- refusals ---- */

static void select_is_low(struct script *s)
{
    sc_low(AT);
    run(s);
    load(AT, -1);
    sc_xfer(AT, SPI_READ, 0);
    run(s);
    load(AT, -1);
    sc_xfer(AT, CANCTRL, 0);
    sc_xfer(AT, 0, 0x87);
    run(s);
    load(AT, -1);
    sc_high(AT);
    run(s);
    load_in(AT);

    sc_low(PANEL);
    sc_xfer(PANEL, SPI_WRITE, 0);
    run(s);
    load(AT, -1);
    sc_high(PANEL);
    run(s);
    load_in(AT);
}

static void one_before_ten_before_eleven(struct script *s)
{
    sc_mode(AT, MODE_SLEEP);
    run(s);
    load(AT, -11);
    lent.profile[1] |= 0x10;
    load(AT, -10);
    sc_low(AT);
    run(s);
    load(AT, -1);
    lend(sound, MODE_SLEEP);
    load(AT, -1);
    sc_high(AT);
    sc_mode(AT, MODE_NORMAL);
    sc_low(AT);
    run(s);
    lent.profile[33] |= 0x01;
    load(AT, -1);
    sc_high(AT);
    run(s);
    load(AT, -10);
}

/* The bits of byte i that a profile must not set. */
static uint8_t unwritable(unsigned i)
{
    if (i < 32)
        return i % 4 == 1 ? i < 24 ? 0x14 : 0x1C : 0x00;
    return i == 32 ? 0x9B : 0x9F;
}

/* A profile of this one bit, beside the others of the byte that it may set. */
static void every_bit(struct script *s)
{
    for (unsigned i = 0; i < PROFILE_BYTES; i++)
        for (unsigned bit = 0; bit < 8; bit++) {
            uint8_t value = (uint8_t)(1u << bit);
            bool refused = value & unwritable(i);
            lend(empty, MODE_CONFIGURATION);
            lent.profile[i] = (uint8_t)(value | (refused ? ~unwritable(i) : 0));
            if (refused) {
                load(AT, -10);
                continue;
            }
            load_in(AT);
            holds_profile(AT, lent.profile);
        }
}

static void all_bits(struct script *s)
{
    lend(fullest, MODE_CONFIGURATION);
    load_in(AT);
    holds_profile(AT, fullest);
    holds(AT, 0x60, 0x66);
    lend(empty, MODE_CONFIGURATION);
    load_in(AT);
    holds_profile(AT, empty);
    holds(AT, 0x60, 0x00);
    memset(lent.profile, 0xFF, PROFILE_BYTES);
    load(AT, -10);
    lend(fullest, MODE_CONFIGURATION);
    lent.profile[32] = 0x66; /* bit 1 is bit 2's copy and not the profile's */
    load(AT, -10);
    lent.profile[32] = 0x06;
    load(AT, -10);
    lent.profile[32] = 0x02;
    load(AT, -10);
    lent.profile[32] = 0x04;
    load_in(AT);
    holds(AT, 0x60, 0x06);
}

static void each_mode_at_the_start(struct script *s)
{
    for (uint8_t mode = 0; mode < MODES; mode++) {
        sc_mode(AT, mode);
        run(s);
        lend(sound, mode);
        if (mode == MODE_SLEEP || mode == MODE_LOOPBACK)
            load(AT, -11);
        else
            load_in(AT);
        in_mode(AT, mode);
        holds(AT, CANCTRL, (uint8_t)(mode << 5 | 0x07));
    }
    holds_profile(AT, sound);
}

/* Before all others, in a mode that is refused too, with select low and high. */
static void lengths_with(const struct script *s, int64_t otherwise)
{
    static const size_t profiles[] = {0, 1, 33, 34, 35, 68};
    static const size_t entries[] = {0, 1, 16, 19, 20, 21, 39, 40};
    static const uint8_t bytes[80];
    uint8_t records[RECORD_BYTES * (RECORDS_IN + 2)];
    for (unsigned i = 0; i < COUNT(profiles) * COUNT(entries); i++) {
        size_t profile = profiles[i / COUNT(entries)], events = entries[i % COUNT(entries)];
        int64_t want = profile != 34 || events % 20 != 0 ? -6 : otherwise;
        expect(s, "lengths", want, side->load(bytes, profile, bytes, events));
        expect(s, "lengths, records", want,
               side->records(bytes, profile, bytes, events, records, sizeof records));
        expect(s, "lengths, no room", want,
               side->records(bytes, profile, bytes, events, records, 0));
    }
}

static void lengths(struct script *s)
{
    sc_mode(AT, MODE_LOOPBACK);
    run(s);
    lengths_with(AT, -11);
    sc_low(AT);
    run(s);
    lengths_with(AT, -1);
}

/* For the records that are sent, and for no more. */
static void room_for(const struct script *s, size_t records)
{
    static uint8_t out[RECORD_BYTES * ROOM];
    size_t need = RECORD_BYTES * records;
    const size_t enough[] = {need, need + 1, need + 16, sizeof out};
    const size_t short_of[] = {need - 1, need - 2, need - 15, need - 16, need - 17, 16, 1, 0};
    for (unsigned i = 0; i < COUNT(enough); i++)
        expect(s, "records with room", (long long)records,
               side->records(lent.profile, PROFILE_BYTES, lent.events, lent.events_len, out,
                             enough[i]));
    for (unsigned i = 0; i < COUNT(short_of); i++)
        expect(s, "records short of room", -19,
               side->records(lent.profile, PROFILE_BYTES, lent.events, lent.events_len, out,
                             short_of[i]));
}

/* Entries that are no events or do not come take none, events that the chip refuses do. */
static void room(struct script *s)
{
    for (unsigned waits = 0; waits < 2; waits++) {
        size_t own = waits ? 17 : 357;
        room_for(AT, own);
        event(1, KIND_SELECT_LOW, 0, 0);
        room_for(AT, own);
        event(1, KIND_RECEIVE_ERROR, 0, 0);
        room_for(AT, own + 1);
        event(2, KIND_REQUEST_PIN, 3, 0);
        room_for(AT, own + 2);
        event(71, KIND_RECEIVE_ERROR, 0, 0);
        room_for(AT, own + 2);
        event(1, KIND_RECEIVE_ERROR, 0, 0);
        room_for(AT, own + 2);
        start_again(s);
        message_waits(AT);
        run(s);
    }
    lent.profile[1] = 0xFF;
    expect(AT, "10 before 19", -10, side->records(lent.profile, 34, NULL, 0, NULL, 0));
}

/* ---- the two runs ---- */

/* Kind and byte 1 of each; the rest of a record is 0. */
static void seventeen_records(struct script *s)
{
    static const uint8_t want[17][2] = {
        {0, 0}, {1, 0x05}, {1, 0x0F}, {1, 0xE0}, {1, 0x80}, {2, 0},
        {0, 0}, {1, 0x03}, {1, 0x0E}, {1, 0x00}, {2, 0},
        {0, 0}, {1, 0x05}, {1, 0x0F}, {1, 0xE0}, {1, 0x00}, {2, 0},
    };
    message_waits(AT);
    run(s);
    for (unsigned i = 0; i < 17; i++) {
        uint8_t record[RECORD_BYTES] = {want[i][0], want[i][1]};
        sc_raw(AT, record, REFUSED_NOT, 0);
    }
    load(AT, LOAD_WAITING);
    in_mode(AT, MODE_NORMAL);
    holds(AT, CANCTRL, 0x07);
    holds(AT, TXB0CTRL, TXREQ);
    holds_profile(AT, empty);
}

static void all_records(struct script *s)
{
    sc_mode(AT, MODE_NORMAL);
    run(s);
    lend(sound, MODE_NORMAL);
    commands(AT, 1, 71);
    expect(AT, "records of a run that ends in", 357, (long long)s->count);
    expect(AT, "an address", 0x1B, s->records[RECORD_BYTES * (6 + 5 + 23 * 5 + 2) + 1]);
    load(AT, LOAD_IN);
    in_mode(AT, MODE_NORMAL);
    holds(AT, CANCTRL, 0x07);
    holds_profile(AT, sound);
    holds(AT, 0x60, 0x46);
    holds(AT, 0x70, 0x20);
}

/* The registers around those of the profile, and all others, stay. */
static void nothing_else_changes(struct script *s)
{
    struct model before, after;
    sc_write(AT, BFPCTRL, 0x2A);
    sc_write(AT, TXRTSCTRL, 0x05);
    sc_write4(AT, CNF3, 0x8512E300);
    sc_write(AT, EFLG, 0xC0);
    sc_write4(AT, 0x31, 0x11223344);
    run(s);
    side->look(&before);
    load_in(AT);
    side->look(&after);
    for (unsigned i = 0; i < PROFILE_BYTES; i++)
        after.reg[register_of(i)] = 0;
    expect(AT, "the chip beside the profile", 0, memcmp(&before, &after, sizeof after) != 0);
}

static void one_after_the_other(struct script *s)
{
    load_in(AT);
    lend(fullest, MODE_CONFIGURATION);
    load_in(AT);
    holds_profile(AT, fullest);
    lend(sound, MODE_CONFIGURATION);
    load_in(AT);
    holds_profile(AT, sound);
    sc_mode(AT, MODE_NORMAL);
    message_waits(AT);
    run(s);
    lend(fullest, MODE_NORMAL);
    load_waits(AT);
    holds_profile(AT, sound);
}

/* ---- CANCTRL ---- */

/* OSM, ABAT and the clock's bits, in each of the runs. */
static void other_bits_keep(struct script *s)
{
    for (uint8_t low = 0; low < 0x20; low++) {
        start_again(s);
        sc_write(AT, CANCTRL, low);
        run(s);
        lend(sound, MODE_NORMAL);
        load_in(AT);
        holds(AT, CANCTRL, low);
        in_mode(AT, MODE_NORMAL);

        start_again(s);
        message_flies(AT);
        sc_write(AT, CANCTRL, low);
        run(s);
        load_waits(AT);
        holds(AT, CANCTRL, low);
        in_mode(AT, MODE_NORMAL);
    }
}

/* Under ABAT the store of CANCTRL takes no message back that flies; lost, it does not try
 * again, and the mode that was asked for is there. */
static void abat_is_set(struct script *s)
{
    message_flies(AT);
    sc_write(AT, CANCTRL, ABAT);
    run(s);
    event(1, KIND_FRAME_ENDS, END_LOST, 0);
    commands(AT, 1, 1);
    sc_end(AT, END_LOST, 0);
    commands(AT, 2, 71);
    load(AT, LOAD_IN);
    holds(AT, TXB0CTRL, ABTF | MLOA);
    holds(AT, CANCTRL, ABAT);
    in_mode(AT, MODE_NORMAL);

    start_again(s);
    message_flies(AT);
    sc_write(AT, CANCTRL, ABAT);
    run(s);
    event(2, KIND_FRAME_ENDS, END_ERROR, 0);
    commands(AT, 1, 1);
    sc_read(AT, CANSTAT, 0x00);
    sc_end(AT, END_ERROR, 0);
    ask(AT, MODE_NORMAL);
    load(AT, LOAD_WAITING);
    holds(AT, TXB0CTRL, ABTF | TXERR);
    counters(AT, 0, 0);
    in_mode(AT, MODE_NORMAL);
}

/* In one-shot mode an error ends the message as well. */
static void one_shot(struct script *s)
{
    message_flies(AT);
    sc_write(AT, CANCTRL, OSM);
    run(s);
    event(1, KIND_FRAME_ENDS, END_ERROR, 0);
    commands(AT, 1, 1);
    sc_end(AT, END_ERROR, 0);
    commands(AT, 2, 71);
    load(AT, LOAD_IN);
    holds(AT, TXB0CTRL, TXERR);
    holds(AT, CANCTRL, OSM);
    counters(AT, 0, 0);

    start_again(s);
    message_flies(AT);
    run(s);
    event(1, KIND_FRAME_ENDS, END_ERROR, 0);
    commands(AT, 1, 1);
    sc_end(AT, END_ERROR, 0);
    sc_read(AT, CANSTAT, 0x00);
    ask(AT, MODE_NORMAL);
    load(AT, LOAD_WAITING);
    holds(AT, TXB0CTRL, TXERR | TXREQ);
    counters(AT, 8, 0);
}

/* ---- the mode at the start ---- */

/* Somebody has asked for Sleep, and the message holds it back. The loader's own asking drops
 * that: the chip does not fall asleep when the message has gone. */
static void request_of_someone_else(struct script *s)
{
    message_waits(AT);
    sc_mode(AT, MODE_SLEEP);
    run(s);
    load_waits(AT);
    holds(AT, CANCTRL, 0x07);
    in_mode(AT, MODE_NORMAL);
    sc_idle(AT, 0);
    sc_end(AT, END_SENT, 0);
    run(s);
    in_mode(AT, MODE_NORMAL);

    sc_rts(AT, 1);
    sc_mode(AT, MODE_LISTEN_ONLY);
    sc_idle(AT, 0);
    run(s);
    event(1, KIND_FRAME_ENDS, END_SENT, 0);
    commands(AT, 1, 1);
    sc_end(AT, END_SENT, 0);
    commands(AT, 2, 71);
    load(AT, LOAD_IN);
    holds(AT, CANCTRL, 0x07);
    in_mode(AT, MODE_NORMAL);
}

/* Of someone else who has asked for Configuration too. */
static void same_request(struct script *s)
{
    message_waits(AT);
    sc_mode(AT, MODE_CONFIGURATION);
    run(s);
    load_waits(AT);
    in_mode(AT, MODE_NORMAL);
    holds(AT, CANCTRL, 0x07);
}

/* A frame has woken the chip: it is in Listen-Only, and CANCTRL has Sleep. */
static void woken(struct script *s)
{
    sc_write(AT, CANINTE, WAKIF);
    sc_mode(AT, MODE_SLEEP);
    sc_std(AT, 0x123, RX_WOKE);
    run(s);
    holds(AT, CANCTRL, 0x27);
    lend(sound, MODE_LISTEN_ONLY);
    ask(AT, MODE_CONFIGURATION);
    sc_read(AT, CANSTAT, 0x84); /* beside the mode the code of WAKIF */
    commands(AT, 3, 71);
    load(AT, LOAD_IN);
    holds(AT, CANCTRL, 0x67);
    in_mode(AT, MODE_LISTEN_ONLY);
    holds_profile(AT, sound);
}

/* Codes 5 to 7 ask for nothing. */
static void no_mode_of_canctrl(struct script *s)
{
    for (uint8_t code = 5; code < 8; code++) {
        start_again(s);
        sc_mode(AT, MODE_NORMAL);
        sc_mode(AT, code);
        run(s);
        lend(sound, MODE_NORMAL);
        load_in(AT);
        in_mode(AT, MODE_NORMAL);
        holds(AT, CANCTRL, 0x07);
        sc_mode(AT, MODE_CONFIGURATION);
        sc_mode(AT, code);
        run(s);
        lent.start = MODE_CONFIGURATION;
        load_in(AT);
        in_mode(AT, MODE_CONFIGURATION);
        holds(AT, CANCTRL, 0x87);
    }
}

/* A TXREQ holds back nothing in these modes. */
static void request_where_nothing_is_sent(struct script *s)
{
    static const uint8_t modes[] = {MODE_LISTEN_ONLY, MODE_CONFIGURATION};
    for (unsigned i = 0; i < sizeof modes; i++) {
        start_again(s);
        sc_mode(AT, modes[i]);
        sc_rts(AT, 7);
        run(s);
        lend(sound, modes[i]);
        load_in(AT);
        in_mode(AT, modes[i]);
        holds(AT, TXB2CTRL, TXREQ);
    }
}

/* Its one look goes by bits 7-5 of CANSTAT; an interrupt code may stand beside. */
static void codes_beside_the_mode(struct script *s)
{
    static const uint8_t flags[] = {ERRIF, WAKIF, TX0IF, TX1IF, TX2IF, RX0IF, RX1IF, MERRF};
    for (uint8_t i = 0; i < sizeof flags; i++) {
        uint8_t code = (uint8_t)(i < 7 ? (i + 1) << 1 : 0);
        start_again(s);
        sc_write(AT, CANINTE, flags[i]);
        sc_write(AT, CANINTF, flags[i]);
        run(s);
        commands(AT, 1, 1);
        sc_read(AT, CANSTAT, 0x80 | code);
        commands(AT, 3, 71);
        load(AT, LOAD_IN);

        message_waits(AT);
        run(s);
        commands(AT, 1, 1);
        sc_read(AT, CANSTAT, code);
        ask(AT, MODE_NORMAL);
        load(AT, LOAD_WAITING);
    }
}

/* ---- a message in the gaps ---- */

/* It goes before the look at the mode, which finds Configuration. */
static void message_goes_in_time(struct script *s)
{
    message_waits(AT);
    run(s);
    event(1, KIND_BUS_IDLE, 0, 0);
    event(1, KIND_FRAME_ENDS, END_SENT, 0);
    commands(AT, 1, 1);
    sc_idle(AT, 0);
    sc_end(AT, END_SENT, 0);
    commands(AT, 2, 71);
    load(AT, LOAD_IN);
    in_mode(AT, MODE_NORMAL);
    holds_profile(AT, sound);
    holds(AT, CANINTF, TX0IF);
}

/* It goes after the look: the chip passes through Configuration, where nothing is written,
 * and loses its counters. */
static void message_goes_too_late(struct script *s)
{
    message_flies(AT);
    fail_message(AT, 3);
    run(s);
    counters(AT, 24, 0);
    event(2, KIND_FRAME_ENDS, END_SENT, 0);
    commands(AT, 1, 1);
    sc_read(AT, CANSTAT, 0x00);
    sc_end(AT, END_SENT, 0);
    ask(AT, MODE_NORMAL);
    load(AT, LOAD_WAITING);
    in_mode(AT, MODE_NORMAL);
    holds(AT, CANCTRL, 0x07);
    holds(AT, TXB0CTRL, TXERR);
    counters(AT, 0, 0);
    holds_profile(AT, empty);
}

/* The last error of a one-shot message makes the chip bus-off and lets it go to Configuration
 * in the same step, which ends bus-off. */
static void bus_off_ends_on_the_way(struct script *s)
{
    message_flies(AT);
    fail_message(AT, 31);
    sc_modify(AT, CANCTRL, OSM, OSM);
    sc_modify(AT, CANINTF, 0xFF, 0);
    run(s);
    counters(AT, 248, 0);
    event(2, KIND_FRAME_ENDS, END_ERROR, 0);
    event(2, KIND_RECOVERY, 0, 0);
    commands(AT, 1, 1);
    sc_read(AT, CANSTAT, 0x00);
    sc_end(AT, END_ERROR, 0);
    sc_refused(AT, REFUSED_STATE, KIND_RECOVERY, 0); /* there is no bus-off any more */
    ask(AT, MODE_NORMAL);
    load(AT, LOAD_WAITING);
    in_mode(AT, MODE_NORMAL);
    counters(AT, 0, 0);
    holds(AT, EFLG, 0);
    holds(AT, CANINTF, MERRF | ERRIF);
    holds(AT, CANCTRL, OSM | 0x07);
}

/* In bus-off a message cannot go. Recovery does not help; without the message it ends. */
static void bus_off_at_the_start(struct script *s)
{
    message_flies(AT);
    fail_message(AT, 31);
    sc_end(AT, END_ERROR, 0);
    run(s);
    counters(AT, 256, 0);
    event(1, KIND_BUS_IDLE, 0, 0);
    commands(AT, 1, 1);
    sc_idle(AT, NO_FLIGHT);
    sc_read(AT, CANSTAT, 0x00);
    ask(AT, MODE_NORMAL);
    load(AT, LOAD_WAITING);
    counters(AT, 256, 0);

    event(1, KIND_RECOVERY, 0, 0);
    commands(AT, 1, 1);
    sc_recovery(AT);
    sc_read(AT, CANSTAT, 0x00);
    ask(AT, MODE_NORMAL);
    load(AT, LOAD_WAITING);
    counters(AT, 0, 0);
    holds(AT, TXB0CTRL, TXREQ | TXERR);

    sc_idle(AT, 0);
    fail_message(AT, 31);
    sc_end(AT, END_ERROR, 0);
    sc_write(AT, TXB0CTRL, 0);
    run(s);
    counters(AT, 256, 0);
    load_in(AT);
    counters(AT, 0, 0);
    in_mode(AT, MODE_NORMAL);
}

/* Asked for by a pin in the gap, in Configuration already: this load is in, the next waits. */
static void pin_asks_in_a_gap(struct script *s)
{
    sc_write(AT, TXRTSCTRL, 0x04);
    sc_mode(AT, MODE_NORMAL);
    run(s);
    lend(sound, MODE_NORMAL);
    event(1, KIND_REQUEST_PIN, 2, 0);
    commands(AT, 1, 1);
    sc_pin(AT, 2, 0);
    commands(AT, 2, 71);
    load(AT, LOAD_IN);
    holds(AT, TXB2CTRL, TXREQ);
    in_mode(AT, MODE_NORMAL);
    lend(fullest, MODE_NORMAL);
    load_waits(AT);
    holds_profile(AT, sound);
}

/* Frames that are stored change the low bits of RXBnCTRL and no others; those that the loader
 * reads back beside the profile make no difference to it. */
static void frames_in_the_gaps(struct script *s)
{
    sc_write4(AT, RXF1SIDH, 0x24600000); /* 123h; the others are 0 */
    sc_write4(AT, RXM0SIDH, 0xFFE00000);
    sc_write4(AT, RXM1SIDH, 0xFFE00000);
    sc_write(AT, RXB0CTRL, BUKT);
    message_waits(AT);
    run(s);
    remote_frame(1, 0x123);
    remote_frame(2, 0x000);
    commands(AT, 1, 1);
    sc_remote(AT, 0x123, RX_IN_RXB0);
    sc_read(AT, CANSTAT, 0x00);
    sc_remote(AT, 0x000, RX_IN_RXB1);
    ask(AT, MODE_NORMAL);
    load(AT, LOAD_WAITING);
    holds(AT, RXB0CTRL, BUKT | BUKT1 | RXRTR); /* its hit is that of the frame rolled over */
    holds(AT, RXB1CTRL, RXRTR);
    holds(AT, 0x04, 0x24);

    sc_write(AT, CANINTF, 0);
    run(s);
    remote_frame(1, 0x123);
    event(1, KIND_BUS_IDLE, 0, 0);
    event(1, KIND_FRAME_ENDS, END_SENT, 0);
    remote_frame(1, 0x123);
    lent.beside[0] = RXRTR | FILHIT0;
    lent.beside[1] = RXRTR;
    commands(AT, 1, 1);
    sc_remote(AT, 0x123, RX_IN_RXB0);
    sc_idle(AT, 0);
    sc_end(AT, END_SENT, 0);
    sc_remote(AT, 0x123, RX_NOT_LISTENING);
    commands(AT, 2, 71);
    load(AT, LOAD_IN);
    holds_profile(AT, sound);
    holds(AT, RXB0CTRL, 0x44 | BUKT1 | RXRTR | FILHIT0);
}

/* ---- which events come, and where ---- */

/* A frame in every gap, its identifier the place. */
static void every_gap(struct script *s)
{
    for (uint16_t n = 1; n <= 70; n++)
        remote_frame(n, n);
    for (uint16_t n = 1; n <= 70; n++) {
        commands(AT, n, n);
        sc_remote(AT, n, RX_NOT_LISTENING);
    }
    commands(AT, 71, 71);
    load(AT, LOAD_IN);
}

/* One alone, in each gap there is. */
static void one_gap(struct script *s)
{
    for (uint16_t n = 1; n <= 70; n++) {
        remote_frame(n, 0x123);
        commands(AT, 1, n);
        sc_remote(AT, 0x123, RX_NOT_LISTENING);
        commands(AT, n + 1u, 71);
        load(AT, LOAD_IN);
    }
    message_waits(AT);
    run(s);
    for (uint16_t n = 1; n <= 2; n++) {
        event(n, KIND_RECEIVE_ERROR, 0, 0);
        commands(AT, 1, 1);
        if (n == 1)
            sc_rx_error(AT, 0);
        sc_read(AT, CANSTAT, 0x00);
        if (n == 2)
            sc_rx_error(AT, 0);
        ask(AT, MODE_NORMAL);
        load(AT, LOAD_WAITING);
        counters(AT, 0, n);
    }
}

/* Place 0 counts as 1; several come in their order. */
static void place_zero(struct script *s)
{
    static const uint32_t places[] = {0, 1, 0, 0, 1};
    for (uint16_t i = 0; i < COUNT(places); i++)
        remote_frame(places[i], i);
    commands(AT, 1, 1);
    for (uint16_t i = 0; i < COUNT(places); i++)
        sc_remote(AT, i, RX_NOT_LISTENING);
    commands(AT, 2, 71);
    load(AT, LOAD_IN);
}

/* Behind one with a later place they come when that one has come. */
static void places_gone_by(struct script *s)
{
    static const uint32_t places[] = {5, 2, 0, 5, 4, 6, 1, 70, 3};
    static const unsigned gaps[] = {5, 5, 5, 5, 5, 6, 6, 70, 70};
    uint16_t next = 0;
    for (uint16_t i = 0; i < COUNT(places); i++)
        remote_frame(places[i], i);
    for (unsigned n = 1; n <= 71; n++) {
        commands(AT, n, n);
        for (; next < COUNT(gaps) && gaps[next] == n; next++)
            sc_remote(AT, next, RX_NOT_LISTENING);
    }
    load(AT, LOAD_IN);
}

/* From 71 on, or 3 where it waits, they do not come, nor do those behind them. All four bytes
 * of a place count. */
static void places_after_the_last(struct script *s)
{
    static const uint32_t places[] = {71, 72, 0x100, 0x10000, 0x1000000, 0x80000001, 0xFFFFFFFF};
    for (unsigned i = 0; i < COUNT(places); i++) {
        remote_frame(70, 1);
        remote_frame(places[i], 2);
        remote_frame(70, 3);
        remote_frame(0, 4);
        commands(AT, 1, 70);
        sc_remote(AT, 1, RX_NOT_LISTENING);
        commands(AT, 71, 71);
        load(AT, LOAD_IN);
    }
    message_waits(AT);
    run(s);
    for (uint32_t place = 3; place < 73; place += place < 5 ? 1 : 17) {
        event(2, KIND_RECEIVE_ERROR, 0, 0);
        event(place, KIND_RECEIVE_ERROR, 1, 0);
        event(1, KIND_RECEIVE_ERROR, 1, 0);
        commands(AT, 1, 1);
        sc_read(AT, CANSTAT, 0x00);
        sc_rx_error(AT, 0);
        ask(AT, MODE_NORMAL);
        load(AT, LOAD_WAITING);
    }
}

/* Entries of other kinds are not there, wherever they stand and whatever their place. */
static void no_events(struct script *s)
{
    static const uint8_t kinds[] = {0, 1, 2, 9, 10, 0x13, 0x80, 0x83, 0xFF};
    for (uint16_t i = 0; i < COUNT(kinds); i++) {
        event(0xFFFFFFFF, kinds[i], 0, 0);
        event(2, kinds[i], SPI_RESET, 0);
        remote_frame(i + 1u, i);
        event(i + 1u, kinds[i], 0, 0);
    }
    event(0, KIND_SELECT_LOW, 0, 0);
    event(70, KIND_SELECT_LOW, 0, 1);
    for (uint16_t i = 0; i < COUNT(kinds); i++) {
        commands(AT, i + 1u, i + 1u);
        sc_remote(AT, i, RX_NOT_LISTENING);
    }
    commands(AT, COUNT(kinds) + 1, 71);
    load(AT, LOAD_IN);
}

/* All six kinds, by the kind alone: those that the chip refuses come as well. */
static void refused_events(struct script *s)
{
    static const uint8_t bad_frame[RECORD_BYTES] = {KIND_FRAME, 0, 16};
    static const uint8_t bad_pin[RECORD_BYTES] = {KIND_REQUEST_PIN, 3};
    static const uint8_t spare[RECORD_BYTES] = {KIND_BUS_IDLE, [15] = 1};
    message_flies(AT);
    run(s);
    entry(1, bad_frame);
    remote_frame(1, 0x123);
    event(1, KIND_BUS_IDLE, 0, 0);
    event(1, KIND_FRAME_ENDS, 3, 0);
    entry(2, bad_pin);
    entry(2, spare);
    event(2, KIND_RECEIVE_ERROR, 2, 0);
    event(2, KIND_RECOVERY, 0, 0);
    commands(AT, 1, 1);
    sc_raw(AT, bad_frame, REFUSED_FIELD, 0);
    sc_remote_in_flight(AT, 0x123);
    sc_refused(AT, REFUSED_IN_FLIGHT, KIND_BUS_IDLE, 0);
    sc_refused(AT, REFUSED_FIELD, KIND_FRAME_ENDS, 3);
    sc_read(AT, CANSTAT, 0x00);
    sc_raw(AT, bad_pin, REFUSED_FIELD, 0);
    sc_raw(AT, spare, REFUSED_FIELD, 0);
    sc_refused(AT, REFUSED_FIELD, KIND_RECEIVE_ERROR, 2);
    sc_refused(AT, REFUSED_STATE, KIND_RECOVERY, 0);
    ask(AT, MODE_NORMAL);
    load(AT, LOAD_WAITING);

    start_again(s);
    event(40, KIND_FRAME_ENDS, END_SENT, 0);
    commands(AT, 1, 40);
    sc_refused(AT, REFUSED_NO_FLIGHT, KIND_FRAME_ENDS, END_SENT);
    commands(AT, 41, 71);
    load(AT, LOAD_IN);
}

static void all_kinds(struct script *s)
{
    message_waits(AT);
    run(s);
    event(1, KIND_REQUEST_PIN, 1, 0);
    event(1, KIND_RECEIVE_ERROR, 1, 0);
    remote_frame(1, 0x000);
    event(1, KIND_BUS_IDLE, 0, 0);
    event(1, KIND_FRAME_ENDS, END_SENT, 0);
    event(30, KIND_BUS_IDLE, 0, 0);
    event(31, KIND_RECEIVE_ERROR, 1, 0);
    event(32, KIND_REQUEST_PIN, 1, 1);
    commands(AT, 1, 1);
    sc_pin(AT, 1, 0);
    sc_rx_error(AT, 1);
    sc_remote(AT, 0x000, RX_IN_RXB0);
    lent.beside[0] = RXRTR;
    sc_idle(AT, 0);
    sc_end(AT, END_SENT, 0);
    commands(AT, 2, 30);
    sc_idle(AT, NO_FLIGHT);
    commands(AT, 31, 31);
    sc_rx_error(AT, 1);
    commands(AT, 32, 32);
    sc_pin(AT, 1, 1);
    commands(AT, 33, 71);
    load(AT, LOAD_IN);
    counters(AT, 0, 0);
}

/* ---- a filter write that gets lost ---- */

/* A message waits to go out. Who asks for Configuration and writes at once loses the write;
 * the loader says so, and is in when the message has gone. */
static void write_lost_and_not(struct script *s)
{
    message_waits(AT);
    ask(AT, MODE_CONFIGURATION);
    sc_write(AT, RXF0SIDH, 0x24);
    run(s);
    holds(AT, RXF0SIDH, 0x00);
    sc_idle(AT, 0);
    sc_end(AT, END_SENT, 0);
    run(s);
    in_mode(AT, MODE_CONFIGURATION);
    holds(AT, RXF0SIDH, 0x00);

    start_again(s);
    message_waits(AT);
    run(s);
    load_waits(AT);
    holds_profile(AT, empty);
    in_mode(AT, MODE_NORMAL);
    sc_idle(AT, 0);
    sc_end(AT, END_SENT, 0);
    run(s);
    holds_profile(AT, empty);
    in_mode(AT, MODE_NORMAL);
    load_in(AT);
    holds_profile(AT, sound);
    in_mode(AT, MODE_NORMAL);
}

/* ---- chips that no run reaches ---- */

static void power_on_bytes(uint8_t chip[CHIP])
{
    memset(chip, 0, CHIP);
    chip[AT_CANCTRL] = 0x87;
    chip[AT_MODE] = MODE_CONFIGURATION;
    chip[MCP2515_PLACE_FLIGHT] = 3;
    chip[MCP2515_PLACE_MODE_REQUESTED] = 5;
    memset(chip + MCP2515_PLACE_PINS, 1, REQUEST_PINS);
    chip[MCP2515_PLACE_VERSION] = MCP2515_CHIP_VERSION;
}

/* A request that could be carried out at once is, by the first select low. From Configuration
 * the chip goes to Normal so, where the message holds it: it ends in another mode than at the
 * start, and the loader's last asking waits. */
static void request_that_is_free(struct script *s)
{
    static const uint8_t starts[] = {MODE_CONFIGURATION, MODE_LISTEN_ONLY};
    for (unsigned i = 0; i < sizeof starts; i++) {
        uint8_t bytes[CHIP];
        struct model chip;
        power_on_bytes(bytes);
        bytes[AT_MODE] = starts[i];
        bytes[AT_TXB0CTRL] = TXREQ;
        bytes[MCP2515_PLACE_MODE_REQUESTED] = MODE_NORMAL;
        side->make(bytes);
        lend(sound, starts[i]);
        load_waits(AT);
        side->look(&chip);
        expect(AT, "mode", MODE_NORMAL, chip.mode);
        expect(AT, "mode requested", starts[i], chip.request);
        holds_profile(AT, empty);
        sc_idle(AT, 0);
        sc_end(AT, END_SENT, 0);
        run(s);
        in_mode(AT, starts[i]);
    }
}

/* The same from Normal, with nothing that would hold it: Sleep, and on to Configuration. */
static void sleep_on_the_way(struct script *s)
{
    uint8_t bytes[CHIP];
    power_on_bytes(bytes);
    bytes[AT_MODE] = MODE_NORMAL;
    bytes[MCP2515_PLACE_MODE_REQUESTED] = MODE_SLEEP;
    side->make(bytes);
    lend(sound, MODE_NORMAL);
    load_in(AT);
    in_mode(AT, MODE_NORMAL);
    holds_profile(AT, sound);
}

/* A frame on the bus though the mode sends none; it ends in the gap, and nothing moves. */
static void flight_in_configuration(struct script *s)
{
    uint8_t bytes[CHIP];
    power_on_bytes(bytes);
    bytes[MCP2515_PLACE_FLIGHT] = 1;
    bytes[AT_TXB0CTRL + 1] = TXREQ;
    side->make(bytes);
    remote_frame(3, 0x123);
    event(3, KIND_FRAME_ENDS, END_SENT, 0);
    commands(AT, 1, 3);
    sc_remote_in_flight(AT, 0x123);
    sc_end(AT, END_SENT, 0);
    commands(AT, 4, 71);
    load(AT, LOAD_IN);
    in_mode(AT, MODE_CONFIGURATION);
    holds(AT, TXB1CTRL, 0);
}

/* Bits that no WRITE sets: they stay, are read back, and do not count. */
static void unwritable_bits_held(struct script *s)
{
    uint8_t bytes[CHIP];
    power_on_bytes(bytes);
    for (unsigned i = 0; i < PROFILE_BYTES; i++)
        if (unwritable(i) && i < 32)
            bytes[register_of(i)] = unwritable(i);
    bytes[AT_RXB0CTRL] = 0x9B;
    bytes[AT_RXB0CTRL + 1] = 0x9F;
    side->make(bytes);
    lend(fullest, MODE_CONFIGURATION);
    commands(AT, 1, 36);
    for (unsigned i = 0; i < PROFILE_BYTES; i++)
        sc_read(AT, register_of(i), (uint8_t)(fullest[i] | unwritable(i)));
    commands(AT, 71, 71);
    load(AT, LOAD_IN);
    holds(AT, 0x01, 0xFF);
    holds(AT, 0x60, 0xFF);
    holds(AT, 0x70, 0xFF);
}

/* Mode from 4 on is Configuration, and the bytes of an instruction that is not open are
 * anything. */
static void bytes_out_of_range(struct script *s)
{
    uint8_t bytes[CHIP];
    power_on_bytes(bytes);
    bytes[AT_MODE] = 0xEE;
    bytes[MCP2515_PLACE_FLIGHT] = 0xFF;
    bytes[MCP2515_PLACE_MODE_REQUESTED] = 0xC8;
    memset(bytes + MCP2515_PLACE_OPEN + 1, 0x5A, 3);
    side->make(bytes);
    load_in(AT);
    in_mode(AT, MODE_CONFIGURATION);
    bytes[MCP2515_PLACE_OPEN] = 0x77;
    side->make(bytes);
    load(AT, -1);
}

/* ---- all of them ---- */

static const struct {
    const char *name;
    void (*check)(struct script *s);
} cases[] = {
    {"select is low", select_is_low},
    {"1 before 10 before 11", one_before_ten_before_eleven},
    {"every bit of a profile", every_bit},
    {"all bits of a profile", all_bits},
    {"each mode at the start", each_mode_at_the_start},
    {"lengths", lengths},
    {"room for the records", room},
    {"17 records", seventeen_records},
    {"357 records", all_records},
    {"nothing else changes", nothing_else_changes},
    {"one profile after the other", one_after_the_other},
    {"other bits of CANCTRL keep", other_bits_keep},
    {"ABAT is set", abat_is_set},
    {"one-shot mode", one_shot},
    {"a request of someone else", request_of_someone_else},
    {"the same request by someone else", same_request},
    {"woken, CANCTRL has Sleep", woken},
    {"CANCTRL has no mode", no_mode_of_canctrl},
    {"TXREQ where nothing is sent", request_where_nothing_is_sent},
    {"interrupt codes beside the mode", codes_beside_the_mode},
    {"the message goes before the look", message_goes_in_time},
    {"the message goes after the look", message_goes_too_late},
    {"bus-off ends on the way", bus_off_ends_on_the_way},
    {"bus-off at the start", bus_off_at_the_start},
    {"a pin asks in a gap", pin_asks_in_a_gap},
    {"frames in the gaps", frames_in_the_gaps},
    {"an event in every gap", every_gap},
    {"an event in one gap", one_gap},
    {"place 0", place_zero},
    {"places gone by", places_gone_by},
    {"places after the last command", places_after_the_last},
    {"entries that are no events", no_events},
    {"events that the chip refuses", refused_events},
    {"events of all kinds", all_kinds},
    {"a write that is lost, and not", write_lost_and_not},
    {"unreached: a request that is free to go", request_that_is_free},
    {"unreached: Sleep on the way", sleep_on_the_way},
    {"unreached: a flight in Configuration", flight_in_configuration},
    {"unreached: bits that no WRITE sets", unwritable_bits_held},
    {"unreached: bytes out of range", bytes_out_of_range},
};

size_t loader_cases(const struct loader_side *of)
{
    struct script script;
    side = of;
    script_init(&script);
    for (size_t i = 0; i < COUNT(cases); i++) {
        lent.name = cases[i].name;
        start_again(&script);
        cases[i].check(&script);
    }
    script_free(&script);
    return COUNT(cases);
}
