/*
 * A small firmware against a live chip. It sets the chip up, polls READ STATUS,
 * fetches what came by READ RX BUFFER and answers by LOAD TX BUFFER and RTS. The
 * bus does not wait for it: frames come between any two bytes. Every filter that
 * matches a frame is told; the registers have the lowest one only. INT is looked
 * at after each step. Then a change from Normal to Configuration that a waiting
 * message holds back, step by step.
 *
 * The program ends with status 1 if something is not as it has to be.
 */
#include <stdbool.h>
#include <stdio.h>
#include <string.h>

#include "mcp2515.h"

enum { SELECT_LOW, EXCHANGE, SELECT_HIGH, FRAME, BUS_IDLE, FRAME_ENDS };
enum {
    RESET = 0xC0,
    READ = 0x03,
    WRITE = 0x02,
    READ_STATUS = 0xA0,
    LOAD_TXB0 = 0x40,
    RTS_TXB0 = 0x81,
    READ_RXB0 = 0x90,
    READ_RXB1 = 0x94
};
enum {
    RXF0SIDH = 0x00,
    RXF2SIDH = 0x08,
    CANSTAT = 0x0E,
    CANCTRL = 0x0F,
    RXM0SIDH = 0x20,
    CNF3 = 0x28,
    CNF2 = 0x29,
    CNF1 = 0x2A,
    CANINTE = 0x2B,
    TXB0CTRL = 0x30,
    TXB0SIDH = 0x31,
    RXB0CTRL = 0x60
};
enum { NORMAL = 0x07, CONFIGURATION = 0x87, TXREQ = 0x08, BUKT = 0x04, RX0IE_RX1IE = 0x03 };
enum { SIDH, SIDL, EID8, EID0, DLC, D0, MESSAGE = 13, NO_BUFFER = 3, FRAMES = 2, FILTERS = 6 };

/* ---- the bench: a chip, the bus around it, and what was seen ---- */

static struct {
    uint8_t chip[MCP2515_CHIP_SIZE];
    bool int_low;
    bool tells;    /* prints its story */
    unsigned tick; /* SPI records so far */
    unsigned arrives[FRAMES];
    unsigned arrived;
    bool in_flight;
    unsigned flight_ends; /* tick */
    uint8_t sent[FRAMES][MESSAGE];
    unsigned sent_count;
} bench;

static unsigned failures;

static void expect(bool good, const char *what)
{
    if (good)
        return;
    printf("NOT AS EXPECTED: %s\n", what);
    failures++;
}

static uint8_t step(const uint8_t *record)
{
    uint8_t answer[MCP2515_ANSWER_SIZE] = {0, 0};
    expect(mcp2515_step(bench.chip, sizeof bench.chip, record, MCP2515_RECORD_SIZE, answer,
                        sizeof answer) == MCP2515_ANSWER_SIZE,
           "the call takes the record");
    expect(answer[0] == 0, "the chip takes the record");
    return answer[1];
}

static void look_at_int(void)
{
    bool low = mcp2515_int_is_low(bench.chip, sizeof bench.chip) == 1;
    if (low != bench.int_low && bench.tells)
        printf("  INT goes %s\n", low ? "low" : "high");
    bench.int_low = low;
}

static uint8_t simple_step(uint8_t kind, uint8_t byte1)
{
    uint8_t record[MCP2515_RECORD_SIZE] = {kind, byte1};
    uint8_t answer = step(record);
    look_at_int();
    return answer;
}

/* ---- the bus ---- */

/* Beside the answer a set: bit n for filter n. */
static uint8_t frame_step(const uint8_t *record, uint8_t *set)
{
    uint8_t answer[MCP2515_ANSWER_SET_SIZE] = {0, 0, 0};
    expect(mcp2515_step_set(bench.chip, sizeof bench.chip, record, MCP2515_RECORD_SIZE, answer,
                            sizeof answer) == MCP2515_ANSWER_SET_SIZE,
           "the call takes the frame");
    expect(answer[0] == 0, "the chip takes the frame");
    *set = answer[2];
    return answer[1];
}

static void print_arrival(unsigned identifier, unsigned buffer, uint8_t set)
{
    printf("  bus: frame %03Xh arrives and lies in RXB%u; it matches", identifier, buffer);
    for (unsigned n = 0; n < FILTERS; n++)
        if (set >> n & 1)
            printf(" RXF%u", n);
    putchar('\n');
}

/* Frame n of another node: standard identifier 123h + n, two data bytes. */
static void frame_arrives(unsigned n)
{
    uint8_t record[MCP2515_RECORD_SIZE] = {FRAME, 0, 2, 0, 0, 0, 0x01, (uint8_t)(0x23 + n)};
    record[8] = (uint8_t)(0x10 + n);
    record[9] = 0x55;
    uint8_t set, answer = frame_step(record, &set);
    expect(answer == 1 || answer == 2, "the frame is stored");
    expect(set == (n == 0 ? 0x01 : 0x05), "123h matches RXF0, 124h matches RXF2 too");
    if (bench.tells)
        print_arrival(0x123 + n, answer - 1u, set);
    look_at_int();
    bench.arrived++;
}

static void own_frame_ends(void)
{
    uint8_t *sent = bench.sent[bench.sent_count++ % FRAMES];
    for (unsigned i = 0; i < MESSAGE; i++)
        sent[i] = (uint8_t)mcp2515_hold(bench.chip, sizeof bench.chip, (uint8_t)(TXB0SIDH + i));
    simple_step(FRAME_ENDS, 0);
    bench.in_flight = false;
    if (bench.tells)
        printf("  bus: TXB0 was sent, identifier %03Xh\n", sent[SIDH] << 3 | sent[SIDL] >> 5);
}

/* What the bus does before the next SPI record. */
static void bus(void)
{
    bench.tick++;
    if (bench.in_flight && bench.tick >= bench.flight_ends)
        own_frame_ends();
    if (bench.in_flight)
        return;
    if (bench.arrived < FRAMES && bench.tick >= bench.arrives[bench.arrived]) {
        frame_arrives(bench.arrived);
    } else if (bench.tick % 5 == 0 && simple_step(BUS_IDLE, 0) != NO_BUFFER) {
        bench.in_flight = true;
        bench.flight_ends = bench.tick + 7;
    }
}

/* ---- the firmware's SPI driver ---- */

static void select_low(void)
{
    bus();
    simple_step(SELECT_LOW, 0);
}

static uint8_t exchange(uint8_t byte)
{
    bus();
    return simple_step(EXCHANGE, byte);
}

static void select_high(void)
{
    bus();
    simple_step(SELECT_HIGH, 0);
}

static void write_registers(uint8_t address, const uint8_t *bytes, unsigned count)
{
    select_low();
    exchange(WRITE);
    exchange(address);
    for (unsigned i = 0; i < count; i++)
        exchange(bytes[i]);
    select_high();
}

static void write_register(uint8_t address, uint8_t value)
{
    write_registers(address, &value, 1);
}

static uint8_t read_register(uint8_t address)
{
    select_low();
    exchange(READ);
    exchange(address);
    uint8_t value = exchange(0);
    select_high();
    return value;
}

static uint8_t read_status(void)
{
    select_low();
    exchange(READ_STATUS);
    uint8_t status = exchange(0);
    select_high();
    return status;
}

/* ---- the firmware ---- */

static void firmware_init(void)
{
    /* For RXB0 the upper 8 of 11 bits count, for RXB1 all of them. */
    static const uint8_t masks[8] = {0xFF, 0x00, 0, 0, 0xFF, 0xE0};
    static const uint8_t group[4] = {0x120 >> 3}, single[4] = {0x124 >> 3, (0x124 & 7) << 5};
    select_low();
    exchange(RESET);
    select_high();
    expect(read_register(CANSTAT) == 0x80, "Configuration after RESET");
    write_registers(RXM0SIDH, masks, sizeof masks);
    write_registers(RXF0SIDH, group, sizeof group);   /* 120h to 127h */
    write_registers(RXF2SIDH, single, sizeof single); /* 124h */
    write_register(CNF1, 0x00);
    write_register(CNF2, 0x90);
    write_register(CNF3, 0x02);
    write_register(RXB0CTRL, BUKT); /* a second frame rolls over into RXB1 */
    write_register(CANINTE, RX0IE_RX1IE);
    write_register(CANCTRL, NORMAL);
    expect(read_register(CANSTAT) == 0x00, "Normal");
}

static void fetch(uint8_t code, uint8_t message[MESSAGE])
{
    select_low();
    exchange(code);
    for (unsigned i = 0; i < MESSAGE; i++)
        message[i] = exchange(0);
    select_high(); /* clears RXnIF */
}

/* The answer to a message: identifier + 200h, data inverted. */
static void answer(const uint8_t message[MESSAGE])
{
    while (read_status() & 0x04) /* TXREQ of TXB0: the last answer waits */
        continue;
    select_low();
    exchange(LOAD_TXB0);
    exchange((uint8_t)(message[SIDH] + (0x200 >> 3)));
    for (unsigned i = SIDL; i < D0; i++)
        exchange(message[i]);
    /* A length code goes up to 15, the data bytes end with the message. */
    for (unsigned i = D0; i < MESSAGE && i < D0 + (message[DLC] & 0x0Fu); i++)
        exchange((uint8_t)~message[i]);
    select_high();
    select_low();
    exchange(RTS_TXB0);
    select_high();
}

static void firmware_poll(void)
{
    uint8_t message[MESSAGE];
    uint8_t status = read_status();
    if ((status & 0x03) == 0) /* neither RX0IF nor RX1IF */
        return;
    fetch(status & 0x01 ? READ_RXB0 : READ_RXB1, message);
    if (bench.tells)
        printf("  firmware: fetched %03Xh from RXB%d\n", message[SIDH] << 3 | message[SIDL] >> 5,
               status & 0x01 ? 0 : 1);
    answer(message);
}

/* ---- both together ---- */

static void start(bool tells)
{
    memset(&bench, 0, sizeof bench);
    bench.tells = tells;
    bench.arrives[0] = bench.arrives[1] = (unsigned)-1;
    expect(mcp2515_power_on(bench.chip, sizeof bench.chip) == MCP2515_CHIP_SIZE, "power-on");
    firmware_init();
}

/* Two frames, the second one gap SPI records after the first. */
static void answer_two(unsigned first, unsigned gap)
{
    bench.arrives[0] = bench.tick + first;
    bench.arrives[1] = bench.arrives[0] + gap;
    for (unsigned polls = 0; polls < 200 && bench.sent_count < FRAMES; polls++)
        firmware_poll();
    expect(bench.sent_count == FRAMES, "both frames are answered");
    for (unsigned n = 0; n < FRAMES; n++) {
        const uint8_t *sent = bench.sent[n];
        expect((sent[SIDH] << 3 | sent[SIDL] >> 5) == (int)(0x323 + n), "the answer's identifier");
        expect(sent[DLC] == 2 && sent[D0] == (uint8_t) ~(0x10 + n) && sent[D0 + 1] == 0xAA,
               "the answer's data");
    }
    expect(!bench.int_low, "INT is high again");
}

static void every_place(void)
{
    enum { FIRST = 60, GAP = 60 };
    for (unsigned first = 1; first <= FIRST; first++)
        for (unsigned gap = 1; gap <= GAP; gap++) {
            start(false);
            answer_two(first, gap);
        }
    printf("  %d runs, the two frames before any of %d and %d SPI records: both answered in each\n",
           FIRST * GAP, FIRST, GAP);
}

static void shows(uint8_t address, uint8_t value, const char *what)
{
    int64_t got = mcp2515_read(bench.chip, sizeof bench.chip, address);
    printf("  READ %02Xh would reply %02Xh: %s\n", address, (unsigned)got, what);
    expect(got == value, what);
}

/* The records are given one by one here: nothing comes between them. */
static void story_of_the_switchover(void)
{
    static const uint8_t records[][2] = {
        {SELECT_LOW, 0},           {EXCHANGE, WRITE}, {EXCHANGE, TXB0CTRL}, {EXCHANGE, TXREQ},
        {SELECT_HIGH, 0},          {SELECT_LOW, 0},   {EXCHANGE, WRITE},    {EXCHANGE, CANCTRL},
        {EXCHANGE, CONFIGURATION}, {SELECT_HIGH, 0}};
    start(false);
    shows(CANSTAT, 0x00, "Normal");
    for (unsigned i = 0; i < sizeof records / sizeof *records; i++)
        simple_step(records[i][0], records[i][1]);
    shows(CANSTAT, 0x00, "still Normal, though CANCTRL asks for Configuration: TXB0 waits");
    shows(CANCTRL, CONFIGURATION, "CANCTRL, which asks");
    expect(simple_step(BUS_IDLE, 0) == 0, "TXB0 goes");
    shows(CANSTAT, 0x00, "still Normal: TXB0 is on the bus");
    uint8_t saved[MCP2515_CHIP_SIZE];
    memcpy(saved, bench.chip, sizeof saved); /* a chip is bytes: keep one for later */
    simple_step(FRAME_ENDS, 0);
    shows(CANSTAT, 0x80, "Configuration, with the end of the frame");
    memcpy(bench.chip, saved, sizeof saved);
    simple_step(FRAME_ENDS, 1);
    shows(CANSTAT, 0x00, "the same moment again, but arbitration is lost: Normal, TXB0 waits on");
}

int main(void)
{
    puts("Two frames while the firmware is busy:");
    start(true);
    answer_two(3, 9);
    puts("The same with the frames at every other place:");
    every_place();
    puts("A change of mode that a message holds back:");
    story_of_the_switchover();
    puts(failures == 0 ? "all as expected" : "NOT all as expected");
    return failures == 0 ? 0 : 1;
}
