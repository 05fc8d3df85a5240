/*
 * mcp2515 chip: the registers after a log, by name. What an address shows is
 * asked by mcp2515_hold; the rest is read at its documented place.
 */
#include <inttypes.h>
#include <stdio.h>
#include <string.h>

#include "mcp2515.h"
#include "tool.h"

/* ---- running the log ---- */

int run_log(const struct input *in, struct ran *ran)
{
    static uint8_t log[MOST_LOG + MCP2515_RECORD_SIZE]; /* one record more shows refusal 8 */
    static uint8_t answers[MCP2515_MOST_RECORDS * MCP2515_ANSWER_SIZE];
    ssize_t length = read_all(in, log, sizeof log);
    if (length < 0)
        return STATUS_TROUBLE;
    mcp2515_power_on(ran->chip, sizeof ran->chip);
    int64_t records =
        mcp2515_run_from(ran->chip, sizeof ran->chip, log, (size_t)length, answers, sizeof answers);
    if (records < 0)
        return trouble(in->name, refusal_text(-records));
    ran->records = (size_t)records;
    for (size_t i = 0; i < ran->records; i++)
        ran->refused += answers[MCP2515_ANSWER_SIZE * i] != 0;
    return STATUS_GOOD;
}

/* ---- words ---- */

struct field {
    uint8_t mask;
    const char *name;
};

static const struct field canctrl_fields[] = {{0xE0, "REQOP"}, {0x10, "ABAT"},   {0x08, "OSM"},
                                              {0x04, "CLKEN"}, {0x03, "CLKPRE"}, {0, NULL}};
static const struct field canstat_fields[] = {{0xE0, "OPMOD"}, {0x0E, "ICOD"}, {0, NULL}};
static const struct field caninte_fields[] = {{0x80, "MERRE"}, {0x40, "WAKIE"}, {0x20, "ERRIE"},
                                              {0x10, "TX2IE"}, {0x08, "TX1IE"}, {0x04, "TX0IE"},
                                              {0x02, "RX1IE"}, {0x01, "RX0IE"}, {0, NULL}};
static const struct field canintf_fields[] = {{0x80, "MERRF"}, {0x40, "WAKIF"}, {0x20, "ERRIF"},
                                              {0x10, "TX2IF"}, {0x08, "TX1IF"}, {0x04, "TX0IF"},
                                              {0x02, "RX1IF"}, {0x01, "RX0IF"}, {0, NULL}};
static const struct field eflg_fields[] = {{0x80, "RX1OVR"}, {0x40, "RX0OVR"}, {0x20, "TXBO"},
                                           {0x10, "TXEP"},   {0x08, "RXEP"},   {0x04, "TXWAR"},
                                           {0x02, "RXWAR"},  {0x01, "EWARN"},  {0, NULL}};
static const struct field txctrl_fields[] = {{0x40, "ABTF"},  {0x20, "MLOA"}, {0x10, "TXERR"},
                                             {0x08, "TXREQ"}, {0x03, "TXP"},  {0, NULL}};
static const struct field rxb0ctrl_fields[] = {{0x60, "RXM"},   {0x08, "RXRTR"},   {0x04, "BUKT"},
                                               {0x02, "BUKT1"}, {0x01, "FILHIT0"}, {0, NULL}};
static const struct field rxb1ctrl_fields[] = {
    {0x60, "RXM"}, {0x08, "RXRTR"}, {0x07, "FILHIT"}, {0, NULL}};
static const struct field cnf1_fields[] = {{0xC0, "SJW"}, {0x3F, "BRP"}, {0, NULL}};
static const struct field cnf2_fields[] = {
    {0x80, "BTLMODE"}, {0x40, "SAM"}, {0x38, "PHSEG1"}, {0x07, "PRSEG"}, {0, NULL}};
static const struct field cnf3_fields[] = {
    {0x80, "SOF"}, {0x40, "WAKFIL"}, {0x07, "PHSEG2"}, {0, NULL}};
static const struct field bfpctrl_fields[] = {{0x20, "B1BFS"}, {0x10, "B0BFS"}, {0x08, "B1BFE"},
                                              {0x04, "B0BFE"}, {0x02, "B1BFM"}, {0x01, "B0BFM"},
                                              {0, NULL}};
static const struct field txrtsctrl_fields[] = {
    {0x20, "B2RTS"},  {0x10, "B1RTS"},  {0x08, "B0RTS"}, {0x04, "B2RTSM"},
    {0x02, "B1RTSM"}, {0x01, "B0RTSM"}, {0, NULL}};

/* Registers that are told by their fields alone. */
struct named_register {
    uint8_t address;
    const char *name;
    const struct field *fields;
};

static const char *mode_name(unsigned mode)
{
    static const char *const names[] = {"Normal", "Sleep", "Loopback", "Listen-Only",
                                        "Configuration"};
    return mode < sizeof names / sizeof *names ? names[mode] : "none";
}

const char *mode_of(const uint8_t *chip)
{
    enum { CANSTAT = 0x0E };
    return mode_name((unsigned)mcp2515_hold(chip, MCP2515_CHIP_SIZE, CANSTAT) >> 5); /* OPMOD */
}

static uint8_t held(const struct ran *ran, unsigned address)
{
    return (uint8_t)mcp2515_hold(ran->chip, sizeof ran->chip, (uint8_t)address);
}

/* The place of a mask's lowest bit. */
static unsigned lowest_bit(uint8_t mask)
{
    unsigned bit = 0;
    while ((mask >> bit & 1) == 0)
        bit++;
    return bit;
}

/* Single bits by name where they are set, wider fields always with their value. */
static void print_fields(uint8_t value, const struct field *fields)
{
    const char *space = "  ";
    for (; fields->name != NULL; fields++) {
        unsigned bit = lowest_bit(fields->mask);
        bool wide = fields->mask >> bit != 1;
        if (!wide && !(value & fields->mask))
            continue;
        printf("%s%s", space, fields->name);
        if (wide)
            printf(" %u", (unsigned)(value & fields->mask) >> bit);
        space = " ";
    }
}

static void print_register(const struct ran *ran, const struct named_register *r)
{
    uint8_t value = held(ran, r->address);
    printf("%-9s %02Xh", r->name, value);
    print_fields(value, r->fields);
    putchar('\n');
}

/* ---- identifiers ---- */

struct identifier identifier_of(const uint8_t *bytes)
{
    struct identifier id = {.sidl = bytes[1], .eid8 = bytes[2], .eid0 = bytes[3]};
    id.sid = (unsigned)bytes[0] << 3 | id.sidl >> 5;
    id.eid = (uint32_t)(id.sidl & 3) << 16 | (uint32_t)id.eid8 << 8 | id.eid0;
    id.extended = (id.sidl & 0x08) != 0;
    return id;
}

uint32_t extended_number(const struct identifier *id)
{
    return (uint32_t)id->sid << 18 | id->eid;
}

static struct identifier identifier_at(const struct ran *ran, unsigned address)
{
    uint8_t bytes[4];
    for (unsigned i = 0; i < sizeof bytes; i++)
        bytes[i] = held(ran, address + i);
    return identifier_of(bytes);
}

static void print_identifier(const struct identifier *id)
{
    if (id->extended)
        printf("extended %08" PRIX32 "h", extended_number(id));
    else
        printf("standard %03Xh", id->sid);
}

/* Data bytes past those carried are in brackets; with a length code above 8 there are none. */
static void print_data(const struct ran *ran, unsigned address, unsigned carried)
{
    for (unsigned i = 0; i < 8; i++)
        printf("%s%s%02X", i > 0 ? " " : "", i == carried ? "[" : "", held(ran, address + i));
    puts(carried < 8 ? "]" : "");
}

/* The message of a buffer whose SIDH is at this address. */
static void print_message(const struct ran *ran, unsigned address)
{
    struct identifier id = identifier_at(ran, address);
    uint8_t dlc = held(ran, address + 4);
    bool srr = id.sidl & 0x10, rtr = dlc & 0x40;
    unsigned code = dlc & 0x0F;
    printf("%15s", "");
    print_identifier(&id);
    printf("%s%s, DLC %u, data ", srr ? ", SRR" : "", rtr ? ", RTR" : "", code);
    print_data(ran, address + 5, srr || rtr ? 0 : code);
}

static void print_filter(const struct ran *ran, unsigned n, unsigned address)
{
    struct identifier id = identifier_at(ran, address);
    printf("RXF%u           ", n);
    print_identifier(&id);
    if (!id.extended)
        printf(", data bytes %02Xh %02Xh", id.eid8, id.eid0);
    putchar('\n');
}

static void print_mask(const struct ran *ran, unsigned n, unsigned address)
{
    struct identifier id = identifier_at(ran, address);
    printf("RXM%u           standard %03Xh, data bytes %02Xh %02Xh; extended %08" PRIX32 "h\n", n,
           id.sid, id.eid8, id.eid0, extended_number(&id));
}

/* ---- the whole chip ---- */

/* Who selected means something only while the select is low. */
static void print_select(const struct ran *ran)
{
    uint8_t first[MCP2515_CHIP_SIZE];
    mcp2515_power_on(first, sizeof first); /* its select line is high */
    if (ran->chip[MCP2515_PLACE_OPEN] == first[MCP2515_PLACE_OPEN])
        puts("select         high");
    else
        printf("select         low by the %s, an instruction is open\n",
               ran->chip[MCP2515_PLACE_SPEAKER] == 0 ? "controller" : "panel");
}

static void print_state(const struct ran *ran)
{
    uint8_t request = ran->chip[MCP2515_PLACE_MODE_REQUESTED];
    uint8_t flight = ran->chip[MCP2515_PLACE_FLIGHT];
    printf("records        %zu, refused %zu\n", ran->records, ran->refused);
    printf("mode           %s", mode_of(ran->chip));
    if (request < 5)
        printf(", %s is requested and waits", mode_name(request));
    printf("\nINT            %s\n",
           mcp2515_int_is_low(ran->chip, sizeof ran->chip) == 1 ? "low" : "high");
    print_select(ran);
    if (flight < 3)
        printf("in flight      TXB%u\n", flight);
    else
        puts("in flight      none");
}

/* TXRTSCTRL shows the level of a pin only where the pin is not enabled. */
static void print_pins(const struct ran *ran)
{
    enum { PINS = 3 };
    for (unsigned n = 0; n < PINS; n++)
        printf("TX%uRTS         %s\n", n, ran->chip[MCP2515_PLACE_PINS + n] == 0 ? "low" : "high");
}

static void print_counters(const struct ran *ran)
{
    unsigned tec = ran->chip[MCP2515_PLACE_TEC_HIGH] * 256u + ran->chip[MCP2515_PLACE_TEC_LOW];
    unsigned shown = held(ran, 0x1C);
    printf("TEC            %u", tec);
    if (tec != shown)
        printf(", shown as %u", shown);
    printf("\nREC            %u\n", held(ran, 0x1D));
}

static void print_registers(const struct ran *ran)
{
    static const struct named_register control[] = {
        {0x0F, "CANCTRL", canctrl_fields}, {0x0E, "CANSTAT", canstat_fields},
        {0x2B, "CANINTE", caninte_fields}, {0x2C, "CANINTF", canintf_fields},
        {0x2D, "EFLG", eflg_fields},
    };
    for (size_t i = 0; i < sizeof control / sizeof *control; i++)
        print_register(ran, &control[i]);
}

static void print_buffers(const struct ran *ran)
{
    static const struct named_register buffers[] = {
        {0x30, "TXB0CTRL", txctrl_fields},   {0x40, "TXB1CTRL", txctrl_fields},
        {0x50, "TXB2CTRL", txctrl_fields},   {0x60, "RXB0CTRL", rxb0ctrl_fields},
        {0x70, "RXB1CTRL", rxb1ctrl_fields},
    };
    for (size_t i = 0; i < sizeof buffers / sizeof *buffers; i++) {
        print_register(ran, &buffers[i]);
        print_message(ran, buffers[i].address + 1u);
    }
}

static void print_settings(const struct ran *ran)
{
    static const uint8_t filters[] = {0x00, 0x04, 0x08, 0x10, 0x14, 0x18};
    static const struct named_register settings[] = {
        {0x2A, "CNF1", cnf1_fields},           {0x29, "CNF2", cnf2_fields},
        {0x28, "CNF3", cnf3_fields},           {0x0C, "BFPCTRL", bfpctrl_fields},
        {0x0D, "TXRTSCTRL", txrtsctrl_fields},
    };
    print_mask(ran, 0, 0x20);
    for (unsigned n = 0; n < 2; n++)
        print_filter(ran, n, filters[n]);
    print_mask(ran, 1, 0x24);
    for (unsigned n = 2; n < 6; n++)
        print_filter(ran, n, filters[n]);
    for (size_t i = 0; i < sizeof settings / sizeof *settings; i++)
        print_register(ran, &settings[i]);
}

static int run(int argc, char **argv)
{
    static struct ran ran;
    struct input in;
    struct arguments a = {.most = 1};
    int status = take_arguments(&chip_command, argc, argv, &a);
    if (status != GO_ON)
        return status;
    if (a.count == 0)
        return trouble("chip", "no LOG given (- is standard input)");
    if (open_input(&in, a.operand[0]) != STATUS_GOOD)
        return STATUS_TROUBLE;
    status = run_log(&in, &ran);
    close_input(&in);
    if (status != STATUS_GOOD)
        return status;
    print_state(&ran);
    print_pins(&ran);
    print_counters(&ran);
    print_registers(&ran);
    print_buffers(&ran);
    print_settings(&ran);
    return flush_out();
}

const struct subcommand chip_command = {
    .name = "chip",
    .summary = "print the registers after a log, by name",
    .help = "usage: mcp2515 chip [--] LOG\n\n"
            "Runs LOG (- is standard input) from power-on and prints what the chip holds then:\n"
            "mode, INT, who selected while the select is low, request pins, error counters,\n"
            "control registers with the bits that are set, buffers, masks and filters. Data bytes\n"
            "that a message does not carry are in brackets.\n\n"
            "Exit status: 0, or 2 for trouble. A log that ends inside a record (refusal 6) or\n"
            "has more than 65,535 (refusal 8) is trouble: it is not run and nothing is printed.\n",
    .run = run,
};
