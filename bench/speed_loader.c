/*
 * Time of a load by mcp2515_load_profile and by mcp2515_load_records, in and
 * waiting, beside the second model. A load may take as long as its limit says.
 */
#include <stdio.h>
#include <stdlib.h>
#include <string.h>

#include "chip_bytes.h"
#include "loader.h"
#include "mcp2515.h"
#include "registers.h"
#include "speed.h"

enum { LOADS = 2000, MORE_TURNS = 3, ENTRIES = 200, CHIP = MCP2515_CHIP_SIZE };

/* A profile with something in each byte. */
static const uint8_t profile[PROFILE_BYTES] = {
    0x24, 0x60, 0x11, 0x22, 0x35, 0x60, 0x33, 0x44, 0x46, 0x60, 0x55, 0x66,
    0x57, 0x68, 0x77, 0x88, 0x68, 0x68, 0x99, 0xAA, 0x79, 0x68, 0xBB, 0xCC,
    0xFF, 0xE3, 0xFF, 0xFF, 0xFF, 0xE3, 0x0F, 0xF0, 0x64, 0x20,
};

static uint8_t records[RECORD_BYTES * (RECORDS_IN + ENTRIES)];

/* What is loaded, and how long it takes in microseconds. */
struct load_sort {
    const char *name;
    bool waits;       /* a message waits to be sent */
    unsigned entries; /* frames, about three a gap */
    double load_limit, list_limit;
};

static const struct load_sort sorts[] = {
    {"in", false, 0, 50, 100},
    {"in, 200 frames", false, ENTRIES, 75, 150},
    {"waiting", true, 0, 7, 14},
};

struct load_times {
    double load, list, model;
};

struct prepared {
    uint8_t chip[CHIP];
    struct model m;
    uint8_t events[ENTRIES * ENTRY_BYTES];
    size_t events_len;
};

static void session(uint8_t *chip, const uint8_t *bytes, size_t count)
{
    for (size_t i = 0; i < count + 2; i++) {
        uint8_t record[RECORD_BYTES] = {KIND_EXCHANGE}, answer[MCP2515_ANSWER_SIZE];
        if (i == 0 || i == count + 1)
            record[0] = i == 0 ? KIND_SELECT_LOW : KIND_SELECT_HIGH;
        else
            record[1] = bytes[i - 1];
        mcp2515_step(chip, CHIP, record, sizeof record, answer, sizeof answer);
    }
}

static void prepare(const struct load_sort *sort, struct prepared *p)
{
    static const uint8_t normal[] = {SPI_WRITE, CANCTRL, 0x07}, rts[] = {SPI_RTS | 1};
    memset(p, 0, sizeof *p);
    mcp2515_power_on(p->chip, CHIP);
    session(p->chip, normal, sizeof normal);
    if (sort->waits)
        session(p->chip, rts, sizeof rts);
    chip_decode(p->chip, &p->m);
    p->events_len = ENTRY_BYTES * sort->entries;
    for (unsigned i = 0; i < sort->entries; i++) {
        p->events[ENTRY_BYTES * i + 3] = (uint8_t)(1 + i / 3);
        p->events[ENTRY_BYTES * i + ENTRY_PLACE_BYTES] = KIND_FRAME;
    }
}

static int64_t load_by_call(const struct prepared *p, uint8_t *chip)
{
    memcpy(chip, p->chip, CHIP);
    return mcp2515_load_profile(chip, CHIP, profile, sizeof profile, p->events, p->events_len);
}

static int64_t list_by_call(const struct prepared *p)
{
    return mcp2515_load_records(p->chip, CHIP, profile, sizeof profile, p->events, p->events_len,
                                records, sizeof records);
}

static int64_t load_by_model(const struct prepared *p, struct model *m)
{
    *m = p->m;
    return loader_load(m, profile, sizeof profile, p->events, p->events_len);
}

static void check_prepared(const struct load_sort *sort, const struct prepared *p)
{
    static uint8_t want[sizeof records];
    uint8_t chip[CHIP];
    struct model m, decoded;
    int64_t result = load_by_model(p, &m), got = load_by_call(p, chip), count = list_by_call(p);
    chip_decode(chip, &decoded);
    if (got == result && result == (sort->waits ? LOAD_WAITING : LOAD_IN) &&
        memcmp(&m, &decoded, sizeof m) == 0 &&
        count == loader_records(&p->m, profile, sizeof profile, p->events, p->events_len, want,
                                sizeof want) &&
        memcmp(want, records, RECORD_BYTES * (size_t)count) == 0)
        return;
    fprintf(stderr, "%s: the loader and the model disagree\n", sort->name);
    exit(1);
}

static void take_best(double *best, double start)
{
    double us = (now() - start) * 1e6 / LOADS;
    if (*best == 0 || us < *best)
        *best = us;
}

static void time_turn(const struct prepared *p, struct load_times *t)
{
    uint8_t chip[CHIP];
    struct model m;
    double start = now();
    for (unsigned i = 0; i < LOADS; i++)
        load_by_call(p, chip);
    take_best(&t->load, start);
    start = now();
    for (unsigned i = 0; i < LOADS; i++)
        list_by_call(p);
    take_best(&t->list, start);
    start = now();
    for (unsigned i = 0; i < LOADS; i++)
        load_by_model(p, &m);
    take_best(&t->model, start);
}

static bool is_over(const struct load_sort *sort, const struct load_times *t)
{
    return t->load > sort->load_limit || t->list > sort->list_limit;
}

/* Over the limit they get more turns, as other work may have slowed them down. */
static bool time_sort(const struct load_sort *sort)
{
    static struct prepared p;
    struct load_times t = {0};
    prepare(sort, &p);
    check_prepared(sort, &p);
    for (unsigned turn = 0; turn <= MORE_TURNS && (turn == 0 || is_over(sort, &t)); turn++)
        for (unsigned go = 0; go < GOES; go++)
            time_turn(&p, &t);
    printf("%-16s %8.2f %6.0f %12.2f %6.0f %9.2f %6.2f%s\n", sort->name, t.load, sort->load_limit,
           t.list, sort->list_limit, t.model, t.load / t.model,
           is_over(sort, &t) ? "  OVER THE LIMIT" : "");
    fflush(stdout);
    return !is_over(sort, &t);
}

bool time_loads(void)
{
    bool kept = true;
    printf("%-16s %8s %6s %12s %6s %9s %6s\n", "load", "load us", "limit", "records us", "limit",
           "model us", "ratio");
    for (size_t i = 0; i < sizeof sorts / sizeof *sorts; i++)
        kept = time_sort(&sorts[i]) && kept;
    return kept;
}
