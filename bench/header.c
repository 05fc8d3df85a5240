/*
 * The sizes and numbers of include/mcp2515.h against what the calls say.
 * header_check.sh looks at the names.
 */
#include <stdio.h>
#include <stdlib.h>
#include <string.h>

#include "mcp2515.h"

enum {
    CHIP = MCP2515_CHIP_SIZE,
    RECORD = MCP2515_RECORD_SIZE,
    ANSWER = MCP2515_ANSWER_SIZE,
    ANSWER_SET = MCP2515_ANSWER_SET_SIZE,
    ENTRY = MCP2515_ENTRY_SIZE,
    LINE = MCP2515_LINE_SIZE,
    TIMING = MCP2515_TIMING_SIZE,
    PROFILE = MCP2515_PROFILE_SIZE,
    EVENT = MCP2515_EVENT_SIZE,
    LOAD_ROOM = RECORD * MCP2515_LOAD_RECORDS,
    ALL_FILTERS = 0x3F
};

static unsigned checked;

static void expect(const char *what, int64_t want, int64_t got)
{
    checked++;
    if (want == got)
        return;
    printf("header: %s: expected %lld, got %lld\n", what, (long long)want, (long long)got);
    exit(1);
}

/* What the documents promise, by number. */
static void check_sizes(void)
{
    expect("bytes of a record", 16, RECORD);
    expect("bytes of an answer", 2, ANSWER);
    expect("bytes of an answer with its set", 3, ANSWER_SET);
    expect("bytes of an entry", 10, ENTRY);
    expect("room for a line", 23, LINE);
    expect("bytes of a chip", 152, CHIP);
    expect("records of the longest log", 65535, MCP2515_MOST_RECORDS);
    expect("version of a chip", 3, MCP2515_CHIP_VERSION);
    expect("place of the pins", 143, MCP2515_PLACE_PINS);
    expect("place of the open instruction", 146, MCP2515_PLACE_OPEN);
    expect("place of who selected", 149, MCP2515_PLACE_SPEAKER);
    expect("place of the version", 151, MCP2515_PLACE_VERSION);
    expect("refusal for who speaks", 18, MCP2515_REFUSED_SPEAKER);
    expect("bytes of CNF1 to CNF3", 3, TIMING);
    expect("refusal for an oscillator", 12, MCP2515_REFUSED_OSCILLATOR);
    expect("refusal for a rate", 13, MCP2515_REFUSED_RATE);
    expect("refusal for too little room", 19, MCP2515_REFUSED_SHORT);
    expect("its name of before", MCP2515_REFUSED_SHORT, MCP2515_REFUSED_CHIP_ROOM);
    expect("bytes of a profile", 34, PROFILE);
    expect("bytes of an event", 20, EVENT);
    expect("records of the loader", 357, MCP2515_LOAD_RECORDS);
    expect("refusal for a profile", 10, MCP2515_REFUSED_PROFILE);
    expect("refusal for a mode", 11, MCP2515_REFUSED_MODE);
    expect("waiting", 0, MCP2515_LOAD_WAITING);
    expect("in", 1, MCP2515_LOAD_IN);
}

/* Three numbers with a dot between, as pkg-config has to sort them. */
static void check_version(void)
{
    unsigned number[3];
    char end;
    expect("numbers of the version", 3,
           sscanf(MCP2515_VERSION, "%u.%u.%u%c", &number[0], &number[1], &number[2], &end));
}

static void check_chip(void)
{
    uint8_t chip[CHIP + 1];
    expect("power-on says the chip's size", CHIP, mcp2515_power_on(chip, CHIP));
    expect("power-on with a byte less", -MCP2515_REFUSED_SHORT, mcp2515_power_on(chip, CHIP - 1));
    expect("the version at its place", MCP2515_CHIP_VERSION, chip[MCP2515_PLACE_VERSION]);
    expect("a chip of that size", 0x87, mcp2515_hold(chip, CHIP, 0x0F));
    expect("a byte more", -MCP2515_REFUSED_NO_CHIP, mcp2515_hold(chip, CHIP + 1, 0x0F));
    chip[MCP2515_PLACE_VERSION]++;
    expect("another version", -MCP2515_REFUSED_NO_CHIP, mcp2515_hold(chip, CHIP, 0x0F));
    chip[MCP2515_PLACE_VERSION] = MCP2515_CHIP_VERSION - 1;
    expect("the version before", -MCP2515_REFUSED_NO_CHIP, mcp2515_hold(chip, CHIP, 0x0F));
}

static void one_record(uint8_t *chip, uint8_t kind, uint8_t byte1)
{
    uint8_t record[RECORD] = {kind, byte1}, answer[ANSWER];
    expect("a step writes its answer", ANSWER,
           mcp2515_step(chip, CHIP, record, RECORD, answer, ANSWER));
    expect("the refusal of a record that is sound", 0, answer[0]);
}

static void write_register(uint8_t *chip, uint8_t address, uint8_t value)
{
    one_record(chip, 0, 0);
    one_record(chip, 1, 0x02);
    one_record(chip, 1, address);
    one_record(chip, 1, value);
    one_record(chip, 2, 0);
}

/* The named places, by a chip that has something at each of them. */
static void check_places(void)
{
    uint8_t chip[CHIP];
    mcp2515_power_on(chip, CHIP);
    uint8_t high = chip[MCP2515_PLACE_OPEN];
    write_register(chip, 0x0F, 0x00); /* Normal */
    write_register(chip, 0x40, 0x08); /* TXREQ of TXB1 */
    write_register(chip, 0x0F, 0x40); /* Loopback has to wait */
    one_record(chip, 4, 0);
    expect("buffer in flight", 1, chip[MCP2515_PLACE_FLIGHT]);
    expect("mode requested", 2, chip[MCP2515_PLACE_MODE_REQUESTED]);
    for (unsigned i = 0; i < 32; i++) { /* 256 errors */
        one_record(chip, 5, 2);
        if (i < 31)
            one_record(chip, 4, 0);
    }
    expect("TEC, low byte", 0, chip[MCP2515_PLACE_TEC_LOW]);
    expect("TEC, high byte", 1, chip[MCP2515_PLACE_TEC_HIGH]);
    expect("select is high again", high, chip[MCP2515_PLACE_OPEN]);
    one_record(chip, 0, 0);
    expect("select is low", 1, chip[MCP2515_PLACE_OPEN] != high);
}

static void one_pin(uint8_t *chip, uint8_t n, uint8_t level)
{
    uint8_t record[RECORD] = {8, n, level}, answer[ANSWER];
    expect("a step of a pin", ANSWER, mcp2515_step(chip, CHIP, record, RECORD, answer, ANSWER));
    expect("the refusal of a pin", n < 3 && level < 2 ? 0 : MCP2515_REFUSED_FIELD, answer[0]);
    expect("the answer to a pin", 0, answer[1]);
}

/* Each pin at its place: 0 is low, any other byte is high; TXRTSCTRL shows it. */
static void check_pins(void)
{
    uint8_t chip[CHIP];
    mcp2515_power_on(chip, CHIP);
    expect("TXRTSCTRL after power-on", 0x38, mcp2515_hold(chip, CHIP, 0x0D));
    for (uint8_t n = 0; n < 3; n++) {
        uint8_t *level = &chip[MCP2515_PLACE_PINS + n];
        expect("a pin that is high", 1, *level != 0);
        one_pin(chip, n, 0);
        expect("a pin that is low", 0, *level);
        expect("TXRTSCTRL with this pin low", 0x38 ^ 0x08 << n, mcp2515_read(chip, CHIP, 0x0D));
        *level = (uint8_t)(0x80 >> n);
        expect("TXRTSCTRL with this pin high", 0x38, mcp2515_read(chip, CHIP, 0x0D));
        one_pin(chip, n, 1);
        expect("a pin that is high again", 1, *level != 0);
        write_register(chip, 0x0D, (uint8_t)(1u << n));
        one_pin(chip, n, 0);
        expect("TXREQ by the pin", 0x08, mcp2515_hold(chip, CHIP, (uint8_t)(0x30 + 0x10 * n)));
        write_register(chip, 0x0D, 0);
        one_pin(chip, n, 1);
    }
    one_pin(chip, 3, 0);
    one_pin(chip, 0, 2);
}

/* One record by who speaks; its answer, or minus its refusal. */
static int64_t spoken(uint8_t *chip, uint8_t kind, uint8_t byte1, uint8_t speaker)
{
    uint8_t record[RECORD] = {kind, byte1, speaker}, answer[ANSWER];
    expect("a step by who speaks", ANSWER,
           mcp2515_step(chip, CHIP, record, RECORD, answer, ANSWER));
    return answer[0] ? -(int64_t)answer[0] : answer[1];
}

/* Who selected at its place: 0 is the controller, any other byte the panel. */
static void check_speaker(void)
{
    uint8_t chip[CHIP];
    mcp2515_power_on(chip, CHIP);
    for (uint8_t speaker = 0; speaker < 2; speaker++) {
        expect("a speaker above 1", -MCP2515_REFUSED_FIELD, spoken(chip, 0, 0, 2));
        expect("nobody has selected", -MCP2515_REFUSED_SELECT, spoken(chip, 1, 3, speaker));
        expect("select low", 0, spoken(chip, 0, 0, speaker));
        expect("who selected", speaker, chip[MCP2515_PLACE_SPEAKER] != 0);
        expect("select low by the other", -MCP2515_REFUSED_SELECT, spoken(chip, 0, 0, !speaker));
        expect("exchange by the other", -MCP2515_REFUSED_SPEAKER, spoken(chip, 1, 3, !speaker));
        expect("select high by the other", -MCP2515_REFUSED_SPEAKER, spoken(chip, 2, 0, !speaker));
        expect("READ", 0, spoken(chip, 1, 0x03, speaker));
        expect("its address", 0, spoken(chip, 1, 0x0F, speaker));
        if (speaker)
            chip[MCP2515_PLACE_SPEAKER] = 0x80;
        expect("its reply", 0x87, spoken(chip, 1, 0, speaker));
        expect("select high", 0, spoken(chip, 2, 0, speaker));
    }
}

/* Every address holds the same, and the open instruction is the same at its places. */
static void expect_alike(const uint8_t *before, const uint8_t *chip)
{
    uint8_t number = before[MCP2515_PLACE_OPEN];
    for (unsigned a = 0; a < 128; a++)
        expect("an address after an impossible instruction",
               mcp2515_hold(before, CHIP, (uint8_t)a), mcp2515_hold(chip, CHIP, (uint8_t)a));
    expect("an impossible instruction stays open", number, chip[MCP2515_PLACE_OPEN]);
    if (number != 4 && number != 6)
        expect("its address", before[MCP2515_PLACE_OPEN + 1], chip[MCP2515_PLACE_OPEN + 1]);
    if (number == 8)
        expect("its mask", before[MCP2515_PLACE_OPEN + 2], chip[MCP2515_PLACE_OPEN + 2]);
}

/* An instruction that the panel cannot have opened stays as it is. */
static void check_impossible(void)
{
    static const uint8_t numbers[] = {4, 5, 6, 7, 8, 9, 10};
    for (unsigned i = 0; i < sizeof numbers; i++) {
        uint8_t chip[CHIP], before[CHIP];
        mcp2515_power_on(chip, CHIP);
        chip[MCP2515_PLACE_OPEN] = numbers[i];
        chip[MCP2515_PLACE_OPEN + 1] = 0x0F; /* CANCTRL */
        chip[MCP2515_PLACE_OPEN + 2] = 0xFF;
        chip[MCP2515_PLACE_SPEAKER] = 1;
        chip[130] = 0x03; /* RX0IF and RX1IF */
        memcpy(before, chip, CHIP);
        expect("an impossible instruction of the panel", 0, spoken(chip, 1, 0x00, 1));
        expect_alike(before, chip);
        expect("select high after it", 0, spoken(chip, 2, 0, 1));
        expect("and its flags", numbers[i] == 10 ? 0x01 : 0x03, mcp2515_hold(chip, CHIP, 0x2C));
    }
}

static void check_record_limits(void)
{
    uint8_t chip[CHIP], record[RECORD + 1] = {0}, answer[ANSWER_SET];
    mcp2515_power_on(chip, CHIP);
    expect("a record short of a byte", -MCP2515_REFUSED_LENGTH,
           mcp2515_step(chip, CHIP, record, RECORD - 1, answer, ANSWER));
    expect("a record with a byte more", -MCP2515_REFUSED_LENGTH,
           mcp2515_step(chip, CHIP, record, RECORD + 1, answer, ANSWER));
    expect("an answer short of a byte", -MCP2515_REFUSED_ROOM,
           mcp2515_step(chip, CHIP, record, RECORD, answer, ANSWER - 1));
    expect("with the set, a record short of a byte", -MCP2515_REFUSED_LENGTH,
           mcp2515_step_set(chip, CHIP, record, RECORD - 1, answer, ANSWER_SET));
    expect("with the set, a record with a byte more", -MCP2515_REFUSED_LENGTH,
           mcp2515_step_set(chip, CHIP, record, RECORD + 1, answer, ANSWER_SET));
    expect("with the set, an answer short of a byte", -MCP2515_REFUSED_ROOM,
           mcp2515_step_set(chip, CHIP, record, RECORD, answer, ANSWER_SET - 1));
}

/* With filters and masks at 0 every filter takes a standard frame, and none an extended one. */
static void check_set(void)
{
    uint8_t chip[CHIP], standard[RECORD] = {3}, extended[RECORD] = {3, 1}, answer[ANSWER_SET];
    mcp2515_power_on(chip, CHIP);
    write_register(chip, 0x0F, 0x60); /* Listen-Only */
    expect("a step with the set", ANSWER_SET,
           mcp2515_step_set(chip, CHIP, standard, RECORD, answer, ANSWER_SET));
    expect("the refusal of a frame", 0, answer[0]);
    expect("its answer, in RXB0", 1, answer[1]);
    expect("its set", ALL_FILTERS, answer[2]);
    expect("a step with another set", ANSWER_SET,
           mcp2515_step_set(chip, CHIP, extended, RECORD, answer, ANSWER_SET));
    expect("the answer to a frame without a match", 0, answer[1]);
    expect("the set of that frame", 0, answer[2]);
}

static void check_log_limits(void)
{
    enum { MOST = MCP2515_MOST_RECORDS };
    uint8_t chip[CHIP];
    uint8_t *log = calloc(MOST + 1, RECORD), *answers = calloc(MOST + 1, ANSWER);
    mcp2515_power_on(chip, CHIP);
    expect("the longest log", MOST,
           mcp2515_run_log(log, (size_t)MOST * RECORD, answers, (size_t)MOST * ANSWER));
    expect("a record more", -MCP2515_REFUSED_COUNT,
           mcp2515_run_log(log, (MOST + 1) * (size_t)RECORD, answers, (MOST + 1) * (size_t)ANSWER));
    expect(
        "the longest log, from a chip", MOST,
        mcp2515_run_from(chip, CHIP, log, (size_t)MOST * RECORD, answers, (size_t)MOST * ANSWER));
    expect("a replay of the longest log", 0, mcp2515_part_refusal(MOST - 1, RECORD));
    expect("and of a record more", MCP2515_REFUSED_COUNT, mcp2515_part_refusal(MOST, RECORD));
    expect("a replay that ends short", MCP2515_REFUSED_LENGTH, mcp2515_part_refusal(0, 1));
    free(log);
    free(answers);
}

/* One record each, which differ: an unknown kind, and bus idle with nothing to send. */
static void check_entry(void)
{
    static const uint8_t want[ENTRY] = {0, 0, 0, 1, MCP2515_REFUSED_FIELD, 0, 0, 3, 0, 0};
    uint8_t first[RECORD + 1] = {9}, second[RECORD + 1] = {4}, entries[ENTRY];
    expect("two logs of a record", 1,
           mcp2515_compare_logs(first, RECORD, second, RECORD, entries, ENTRY));
    expect("the entry", 0, memcmp(entries, want, ENTRY));
    expect("an entry short of a byte", -MCP2515_REFUSED_ROOM,
           mcp2515_compare_logs(first, RECORD, second, RECORD, entries, ENTRY - 1));
    expect("no entry", 0, mcp2515_compare_logs(first, RECORD, first, RECORD, entries, 0));
    expect("the first log with a byte more", -MCP2515_REFUSED_LENGTH,
           mcp2515_compare_logs(first, RECORD + 1, second, RECORD, entries, ENTRY));
    expect("the second log with a byte more", -MCP2515_REFUSED_LENGTH,
           mcp2515_compare_logs(first, RECORD, second, RECORD + 1, entries, ENTRY));
}

/* A frame that every filter takes, and one that none takes, after the way to Listen-Only. */
static void check_entry_sets(void)
{
    static const uint8_t want[ENTRY] = {0, 0, 0, 6, 0, 1, 0, 0, ALL_FILTERS, 0};
    static const uint8_t swapped[ENTRY] = {0, 0, 0, 6, 0, 0, 0, 1, 0, ALL_FILTERS};
    uint8_t first[6][RECORD] = {{0}, {1, 0x02}, {1, 0x0F}, {1, 0x60}, {2}, {3}};
    uint8_t second[6][RECORD], entry[ENTRY];
    memcpy(second, first, sizeof second);
    second[5][1] = 1; /* extended */
    expect("two frames", 1,
           mcp2515_compare_logs(first[0], sizeof first, second[0], sizeof second, entry, ENTRY));
    expect("the sets in the entry", 0, memcmp(entry, want, ENTRY));
    expect("two frames, swapped", 1,
           mcp2515_compare_logs(second[0], sizeof second, first[0], sizeof first, entry, ENTRY));
    expect("the sets in the entry, swapped", 0, memcmp(entry, swapped, ENTRY));
}

/* In the longest logs every record differs. */
static void check_entry_limits(void)
{
    enum { MOST = MCP2515_MOST_RECORDS };
    size_t most_len = (size_t)MOST * RECORD, over_len = most_len + RECORD;
    size_t room = (size_t)MOST * ENTRY;
    uint8_t *first = calloc(MOST + 1, RECORD), *second = calloc(MOST + 1, RECORD);
    uint8_t *entries = calloc(MOST, ENTRY);
    for (size_t i = 0; i <= MOST; i++)
        second[RECORD * i] = 4;
    expect("the longest logs", MOST,
           mcp2515_compare_logs(first, most_len, second, most_len, entries, room));
    expect("the last number, high byte", MOST / 256, entries[room - ENTRY + 2]);
    expect("the last number, low byte", MOST % 256, entries[room - ENTRY + 3]);
    expect("the longest logs, a byte less room", -MCP2515_REFUSED_ROOM,
           mcp2515_compare_logs(first, most_len, second, most_len, entries, room - 1));
    expect("a record more in the first log", -MCP2515_REFUSED_COUNT,
           mcp2515_compare_logs(first, over_len, second, most_len, entries, room));
    expect("a record more in the second log", -MCP2515_REFUSED_COUNT,
           mcp2515_compare_logs(first, most_len, second, over_len, entries, room));
    free(first);
    free(second);
    free(entries);
}

/* The longest line there could be: a number of ten digits and three bytes of three. */
static void check_line(void)
{
    uint8_t chip[CHIP], part[RECORD] = {0}, frame[RECORD] = {3}, text[2 * LINE];
    mcp2515_power_on(chip, CHIP);
    expect("room for a line and one more", 6,
           mcp2515_render(chip, CHIP, 0, part, RECORD, text, sizeof text));
    expect("the line", 0, memcmp(text, "1 0 0\n", 6));
    expect("a byte less", -MCP2515_REFUSED_ROOM,
           mcp2515_render(chip, CHIP, 0, part, RECORD, text, sizeof text - 1));
    expect("room for the line of a frame", 8,
           mcp2515_render(chip, CHIP, 1, frame, RECORD, text, sizeof text));
    expect("the line of a frame", 0, memcmp(text, "2 0 4 0\n", 8));
    expect("the longest line has room", LINE,
           snprintf(NULL, 0, "%lu 255 255 255\n", (unsigned long)UINT32_MAX));
}

/* Each rule of bit timing broken alone; phase 2 of 1 is not longer than the jump width either. */
static void check_faults(void)
{
    static const struct {
        const char *name;
        unsigned bits, named;
        uint8_t cnf[TIMING];
    } rules[] = {
        {"no rule broken", 0, 0, {0x04, 0xB1, 0x05}},
        {"BTLMODE clear", 0x01, MCP2515_FAULT_BTLMODE, {0x04, 0x31, 0x05}},
        {"spare bits of CNF3", 0x02, MCP2515_FAULT_SPARE, {0x04, 0xB1, 0x0D}},
        {"phase 2 of 1", 0x14, MCP2515_FAULT_PS2 | MCP2515_FAULT_SJW, {0x04, 0xB1, 0x00}},
        {"propagation and phase 1 too short", 0x08, MCP2515_FAULT_PROPSEG_PS1, {0x04, 0x91, 0x05}},
        {"jump width of phase 2", 0x10, MCP2515_FAULT_SJW, {0xC4, 0xB1, 0x03}},
        {"a bit of 7 quanta", 0x20, MCP2515_FAULT_QUANTA, {0x04, 0x82, 0x01}},
    };
    expect("the bit of phase 2", 0x04, MCP2515_FAULT_PS2);
    for (unsigned i = 0; i < sizeof rules / sizeof *rules; i++) {
        const uint8_t *cnf = rules[i].cnf;
        expect(rules[i].name, rules[i].bits, rules[i].named);
        expect(rules[i].name, rules[i].bits, mcp2515_timing_faults(cnf[0], cnf[1], cnf[2]));
        expect(rules[i].name, rules[i].bits == 0, mcp2515_check_timing(cnf[0], cnf[1], cnf[2]));
    }
}

static void check_plan(void)
{
    static const uint8_t want[TIMING] = {0x00, 0x86, 0x06};
    uint8_t cnf[TIMING];
    expect("a plan", TIMING, mcp2515_plan_timing(16000000, 500000, cnf, TIMING));
    expect("its bytes", 0, memcmp(cnf, want, TIMING));
    expect("its difference", 0,
           mcp2515_timing_difference(16000000, 500000, cnf[0], cnf[1], cnf[2]));
    expect("a difference above zero", 32,
           mcp2515_timing_difference(16000000, 499999, cnf[0], cnf[1], cnf[2]));
    expect("a difference below zero", -32,
           mcp2515_timing_difference(16000000, 500001, cnf[0], cnf[1], cnf[2]));
    expect("a plan with a byte less", -MCP2515_REFUSED_SHORT,
           mcp2515_plan_timing(16000000, 500000, cnf, TIMING - 1));
    expect("an oscillator too slow", -MCP2515_REFUSED_OSCILLATOR,
           mcp2515_plan_timing(999999, 500000, cnf, TIMING));
    expect("a rate too fast", -MCP2515_REFUSED_RATE,
           mcp2515_plan_timing(16000000, 1000001, cnf, TIMING));
    expect("no plan", 0, mcp2515_plan_timing(40000000, 5000, cnf, TIMING));
    expect("the bytes of before", 0, memcmp(cnf, want, TIMING));
}

/* Both calls of the loader on a chip. The records come where the load is not refused; no entry
 * is an event, so that there are no others than the loader's own. */
static void check_both(const char *what, int64_t want, uint8_t *chip, size_t chip_len,
                       const uint8_t *profile, size_t profile_len, const uint8_t *events,
                       size_t events_len)
{
    static uint8_t records[LOAD_ROOM];
    int64_t count = want < 0 ? want : want == MCP2515_LOAD_IN ? MCP2515_LOAD_RECORDS : 17;
    size_t room = want == MCP2515_LOAD_WAITING ? 17 * RECORD : LOAD_ROOM;
    expect(what, count,
           mcp2515_load_records(chip, chip_len, profile, profile_len, events, events_len, records,
                                room));
    expect(what, want < 0 ? want : -MCP2515_REFUSED_SHORT,
           mcp2515_load_records(chip, chip_len, profile, profile_len, events, events_len, records,
                                room - 1));
    expect(what, want < 0 ? want : -MCP2515_REFUSED_SHORT,
           mcp2515_load_records(chip, chip_len, profile, profile_len, events, events_len, NULL, 0));
    expect(what, want,
           mcp2515_load_profile(chip, chip_len, profile, profile_len, events, events_len));
}

static void check_load_lengths(void)
{
    uint8_t chip[CHIP + 1], profile[PROFILE + 1] = {0}, events[2 * EVENT + 1] = {0};
    mcp2515_power_on(chip, CHIP);
    check_both("a load", MCP2515_LOAD_IN, chip, CHIP, profile, PROFILE, NULL, 0);
    check_both("with an entry", MCP2515_LOAD_IN, chip, CHIP, profile, PROFILE, events, EVENT);
    check_both("with two", MCP2515_LOAD_IN, chip, CHIP, profile, PROFILE, events, 2 * EVENT);
    check_both("an entry short of a byte", -MCP2515_REFUSED_LENGTH, chip, CHIP, profile, PROFILE,
               events, EVENT - 1);
    check_both("an entry with a byte more", -MCP2515_REFUSED_LENGTH, chip, CHIP, profile, PROFILE,
               events, EVENT + 1);
    check_both("a profile short of a byte", -MCP2515_REFUSED_LENGTH, chip, CHIP, profile,
               PROFILE - 1, NULL, 0);
    check_both("a profile with a byte more", -MCP2515_REFUSED_LENGTH, chip, CHIP, profile,
               PROFILE + 1, NULL, 0);
    check_both("no profile", -MCP2515_REFUSED_LENGTH, chip, CHIP, NULL, 0, NULL, 0);
    check_both("a chip short of a byte", -MCP2515_REFUSED_NO_CHIP, chip, CHIP - 1, profile, PROFILE,
               NULL, 0);
    check_both("a chip with a byte more", -MCP2515_REFUSED_NO_CHIP, chip, CHIP + 1, profile,
               PROFILE, NULL, 0);
    check_both("no chip", -MCP2515_REFUSED_NO_CHIP, NULL, 0, NULL, 0, NULL, 0);
    chip[MCP2515_PLACE_VERSION]++;
    check_both("a chip of another version", -MCP2515_REFUSED_NO_CHIP, chip, CHIP, NULL, 0, NULL, 0);
}

static void check_load(void)
{
    uint8_t chip[CHIP], profile[PROFILE] = {0x24, 0x60, [32] = 0x64, [33] = 0x60};
    mcp2515_power_on(chip, CHIP);
    write_register(chip, 0x0F, 0x00); /* Normal */
    check_both("a load from Normal", MCP2515_LOAD_IN, chip, CHIP, profile, PROFILE, NULL, 0);
    expect("the filter is there", 0x24, mcp2515_hold(chip, CHIP, 0x00));
    expect("RXB0CTRL, bit 1 copies bit 2", 0x66, mcp2515_hold(chip, CHIP, 0x60));
    expect("Normal again", 0x00, mcp2515_read(chip, CHIP, 0x0E));
    write_register(chip, 0x40, 0x08); /* TXREQ of TXB1 */
    profile[0]++;
    check_both("a load that waits", MCP2515_LOAD_WAITING, chip, CHIP, profile, PROFILE, NULL, 0);
    expect("the filter of before", 0x24, mcp2515_hold(chip, CHIP, 0x00));
    profile[33] = 0x04;
    check_both("a bit that is not writable", -MCP2515_REFUSED_PROFILE, chip, CHIP, profile, PROFILE,
               NULL, 0);
    write_register(chip, 0x40, 0x00);
    write_register(chip, 0x0F, 0x20); /* Sleep */
    check_both("that bit in Sleep", -MCP2515_REFUSED_PROFILE, chip, CHIP, profile, PROFILE, NULL,
               0);
    one_record(chip, 0, 0);
    check_both("and with select low", -MCP2515_REFUSED_SELECT, chip, CHIP, profile, PROFILE, NULL,
               0);
    one_record(chip, 2, 0);
    profile[33] = 0x00;
    check_both("a load in Sleep", -MCP2515_REFUSED_MODE, chip, CHIP, profile, PROFILE, NULL, 0);
}

int main(void)
{
    check_sizes();
    check_version();
    check_chip();
    check_places();
    check_pins();
    check_speaker();
    check_impossible();
    check_record_limits();
    check_set();
    check_log_limits();
    check_entry();
    check_entry_sets();
    check_entry_limits();
    check_line();
    check_faults();
    check_plan();
    check_load_lengths();
    check_load();
    printf("header: %u checks of sizes, places and limits agree\n", checked);
    return 0;
}
