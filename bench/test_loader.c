/*
 * Tests of the second model of the loader by itself: the fixed cases, and random
 * loads into random chips, whose records are put together in another form and
 * whose promises are asked.
 *
 *   test_loader [seed [loads]]
 */
#include <stdio.h>
#include <stdlib.h>
#include <string.h>

#include "cases_loader.h"
#include "chip_bytes.h"
#include "loader_gen.h"
#include "loader_met.h"
#include "mcp2515.h"

enum { DEFAULT_LOADS = 20000, LOADS_A_LOG = 40, ROOM = RECORDS_IN + LOAD_ENTRIES_MOST };

static unsigned failures;

/* ---- fixed cases, by the model ---- */

static struct model chip;

static void power_on(void)
{
    model_power_on(&chip);
}

static void make(const uint8_t *bytes)
{
    chip_decode(bytes, &chip);
}

static void step(const uint8_t record[RECORD_BYTES], uint8_t *refusal, uint8_t *answer)
{
    model_step(&chip, record, refusal, answer);
}

static int64_t load(const uint8_t *profile, size_t profile_len, const uint8_t *events,
                    size_t events_len)
{
    return loader_load(&chip, profile, profile_len, events, events_len);
}

/* Nothing is written past the records, and nothing at all where they are refused. */
static int64_t records_of(const uint8_t *profile, size_t profile_len, const uint8_t *events,
                          size_t events_len, uint8_t *records, size_t records_len)
{
    enum { FILL = 0xA5 };
    if (records_len > 0)
        memset(records, FILL, records_len);
    int64_t count = loader_records(&chip, profile, profile_len, events, events_len, records,
                                   records_len);
    for (size_t i = count < 0 ? 0 : RECORD_BYTES * (size_t)count; i < records_len; i++)
        if (records[i] != FILL) {
            printf("test_loader.c:%d: a byte past the records was changed\n", __LINE__);
            failures++;
            break;
        }
    return count;
}

static void look(struct model *m)
{
    *m = chip;
}

static uint8_t hold(uint8_t address)
{
    return model_holds(&chip, address);
}

static void fail(const char *file, int line, const char *what, long long want, long long got)
{
    printf("%s:%d: %s: expected %lld, got %lld\n", file, line, what, want, got);
    failures++;
}

/* ---- random loads ---- */

static unsigned long long met[LOADS_MET];

static void load_at_random(const struct model *before, bool reached, uint64_t *dice)
{
    static uint8_t records[ROOM * RECORD_BYTES];
    struct load l;
    struct model after = *before;
    load_draw(&l, before, dice);
    struct load_seen seen = {.before = before, .after = &after, .load = &l, .reached = reached};
    int64_t count = loader_records(before, l.profile, sizeof l.profile, l.events, l.events_len,
                                   records, sizeof records);
    seen.result = loader_load(&after, l.profile, sizeof l.profile, l.events, l.events_len);
    seen.records = records;
    seen.count = count > 0 ? (size_t)count : 0;
    const char *broken = load_broken(&seen);
    if ((seen.result < 0) != (count < 0) || (count < 0 && count != seen.result))
        broken = "the load and its records are not refused alike";
    if (broken) {
        printf("test_loader.c:%d: %s\n", __LINE__, broken);
        failures++;
    }
    load_count(met, &seen);
}

/* Into a chip that follows a log, or into one of bytes. */
static void random_load(struct gen *g, uint64_t *dice, bool reached)
{
    uint8_t log[LOAD_LOG_MOST * RECORD_BYTES], bytes[MCP2515_CHIP_SIZE] = {0};
    struct model made;
    if (reached) {
        load_draw_log(g, dice, log);
        load_at_random(&g->chip, true, dice);
        return;
    }
    load_draw_chip(bytes, dice);
    chip_decode(bytes, &made);
    load_at_random(&made, false, dice);
}

static void random_loads(unsigned long long loads, uint64_t *dice)
{
    struct gen g;
    for (unsigned long long i = 0; i < loads && failures < 10; i++) {
        if (i % LOADS_A_LOG == 0)
            gen_start(&g, (enum gen_profile)(gen_next(dice) % GEN_PROFILES), gen_next(dice));
        random_load(&g, dice, i % 4 > 0);
    }
}

int main(int argc, char **argv)
{
    static const struct loader_side side = {power_on, make, step, load, records_of, look, hold,
                                            fail};
    uint64_t seed = argc > 1 ? strtoull(argv[1], NULL, 0) : 2515, dice = seed;
    unsigned long long loads = argc > 2 ? strtoull(argv[2], NULL, 0) : DEFAULT_LOADS;
    size_t cases = loader_cases(&side);
    random_loads(loads, &dice);
    if (failures == 0 && !load_demand(met, loads, argc > 2)) {
        printf("test_loader.c:%d: too little was met\n", __LINE__);
        failures++;
    }
    if (failures) {
        printf("%u failures\n", failures);
        return 1;
    }
    printf("loader, seed %llu: %zu fixed cases and %llu random loads agree\n",
           (unsigned long long)seed, cases, loads);
    return 0;
}
