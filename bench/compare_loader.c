/*
 * The proved calls of the profile loader against the second model: the fixed
 * cases; every refusal with every length; more events than a log has records;
 * random profiles with random events between the commands, loaded into chips of
 * random logs and of random bytes. The result, the bytes of the chip and the
 * records have to agree, the records run by mcp2515_run_from have to make the same
 * chip, and what the loader promises is asked of every load. The first difference
 * ends the run with status 1. What was met is counted, and each of it has to be
 * met often enough.
 *
 *   loader [loads [seed]]
 */
#include <stdio.h>
#include <stdlib.h>
#include <string.h>

#include "cases_loader.h"
#include "chip_bytes.h"
#include "fence.h"
#include "loader_gen.h"
#include "loader_met.h"
#include "mcp2515.h"
#include "registers.h"

enum {
    DEFAULT_LOADS = 20000,
    DEFAULT_SEED = 2515,
    LOADS_A_LOG = 40,
    CHIP = MCP2515_CHIP_SIZE,
    SPARE_FROM = 150, /* from here on a load changes no byte of a chip */
    ROOM = RECORDS_IN + LOAD_ENTRIES_MOST + 60,
    LONG_LIST = 70000, /* entries */
    REFUSALS = 22
};

#define COUNT(list) (sizeof(list) / sizeof *(list))

_Static_assert((int)PROFILE_BYTES == MCP2515_PROFILE_SIZE, "bytes of a profile");
_Static_assert((int)ENTRY_BYTES == MCP2515_EVENT_SIZE, "bytes of an entry");
_Static_assert((int)RECORDS_IN == MCP2515_LOAD_RECORDS, "records of a load");
_Static_assert((int)LOAD_IN == MCP2515_LOAD_IN, "in");
_Static_assert((int)LOAD_WAITING == MCP2515_LOAD_WAITING, "waiting");
_Static_assert((int)REFUSED_PROFILE == MCP2515_REFUSED_PROFILE, "refusal 10");
_Static_assert((int)REFUSED_MODE == MCP2515_REFUSED_MODE, "refusal 11");
_Static_assert((int)REFUSED_RECORDS_ROOM == MCP2515_REFUSED_SHORT, "refusal 19");

static struct fence chip_fence, profile_fence, events_fence, records_fence;
static unsigned long long seed_given, calls_done, nulls_lent, rooms_short;
static unsigned long long edges_met[2][REFUSALS + 1]; /* by call and refusal, the last accepted */
static unsigned long long met[LOADS_MET];
static uint64_t dice;

_Noreturn static void stop(const char *what)
{
    printf("DIFFERENCE: %s\nseed %llu, after %llu calls\n", what, seed_given, calls_done);
    exit(1);
}

static void stop_at(const char *what, int64_t want, int64_t got)
{
    printf("expected %lld, got %lld\n", (long long)want, (long long)got);
    stop(what);
}

static unsigned below(unsigned n)
{
    return (unsigned)((gen_next(&dice) >> 33) % n);
}

/* ---- the calls, with all that they are lent watched ---- */

/* What a call is lent, and where it lies next to its fences. */
struct lent {
    const uint8_t *chip, *profile, *events; /* as given */
    size_t chip_len, profile_len, events_len;
    uint8_t *lent_chip, *lent_profile, *lent_events;
};

static uint8_t *lend(const struct fence *f, const uint8_t *bytes, size_t length)
{
    uint8_t *lent = fence_lend(f, length);
    if (length > 0)
        memcpy(lent, bytes, length);
    return lent;
}

static void lend_all(struct lent *l)
{
    l->lent_chip = lend(&chip_fence, l->chip, l->chip_len);
    l->lent_profile = lend(&profile_fence, l->profile, l->profile_len);
    l->lent_events = lend(&events_fence, l->events, l->events_len);
    calls_done++;
}

/* A length of 0 may come with any pointer. */
static uint8_t *or_null(uint8_t *bytes, size_t length)
{
    if (length > 0 || calls_done % 2 == 0)
        return bytes;
    nulls_lent++;
    return NULL;
}

/* What no call changes: its profile, its events, and all that lies before a buffer. */
static void check_lent(const struct lent *l)
{
    if ((l->profile_len > 0 && memcmp(l->profile, l->lent_profile, l->profile_len) != 0) ||
        (l->events_len > 0 && memcmp(l->events, l->lent_events, l->events_len) != 0))
        stop("a call changed the profile or the events");
    if (!fence_intact(&chip_fence, l->chip_len) || !fence_intact(&profile_fence, l->profile_len) ||
        !fence_intact(&events_fence, l->events_len))
        stop("a byte before a buffer was changed");
}

static void check_chip_kept(const struct lent *l, size_t from, const char *what)
{
    if (l->chip_len > from &&
        memcmp(l->chip + from, l->lent_chip + from, l->chip_len - from) != 0)
        stop(what);
}

/* The chip after it lies at lent_chip. */
static int64_t watched_load(struct lent *l)
{
    lend_all(l);
    int64_t result = mcp2515_load_profile(
        or_null(l->lent_chip, l->chip_len), l->chip_len, or_null(l->lent_profile, l->profile_len),
        l->profile_len, or_null(l->lent_events, l->events_len), l->events_len);
    check_lent(l);
    if (result < 0)
        check_chip_kept(l, 0, "a load that was refused changed the chip");
    check_chip_kept(l, SPARE_FROM, "a spare byte or the version was changed");
    return result;
}

/* Copies the records to a buffer of the room's size. */
static int64_t watched_records(struct lent *l, uint8_t *records, size_t records_len)
{
    uint8_t *out = fence_lend(&records_fence, records_len);
    lend_all(l);
    int64_t result = mcp2515_load_records(
        or_null(l->lent_chip, l->chip_len), l->chip_len, or_null(l->lent_profile, l->profile_len),
        l->profile_len, or_null(l->lent_events, l->events_len), l->events_len,
        or_null(out, records_len), records_len);
    size_t written = result < 0 ? 0 : RECORD_BYTES * (size_t)result;
    check_lent(l);
    check_chip_kept(l, 0, "asking for the records changed the chip");
    if (written > records_len)
        stop("more records than there is room for");
    if (!fence_filled(out + written, records_len - written))
        stop(result < 0 ? "refused, but records were written" : "a byte past the records changed");
    if (!fence_intact(&records_fence, records_len))
        stop("a byte before the records was changed");
    if (records_len > 0)
        memcpy(records, out, records_len);
    return result;
}

/* ---- fixed cases ---- */

static uint8_t case_chip[CHIP];

static struct lent lent_for_case(const uint8_t *profile, size_t profile_len, const uint8_t *events,
                                 size_t events_len)
{
    return (struct lent){.chip = case_chip, .chip_len = CHIP, .profile = profile,
                         .profile_len = profile_len, .events = events, .events_len = events_len};
}

static void case_power_on(void)
{
    if (mcp2515_power_on(case_chip, CHIP) != CHIP)
        stop("power-on");
}

static void case_make(const uint8_t *bytes)
{
    memcpy(case_chip, bytes, CHIP);
}

static void case_step(const uint8_t record[RECORD_BYTES], uint8_t *refusal, uint8_t *answer)
{
    uint8_t both[MCP2515_ANSWER_SIZE];
    if (mcp2515_step(case_chip, CHIP, record, RECORD_BYTES, both, sizeof both) != sizeof both)
        stop("a step of a fixed case");
    *refusal = both[0];
    *answer = both[1];
}

static int64_t case_load(const uint8_t *profile, size_t profile_len, const uint8_t *events,
                         size_t events_len)
{
    struct lent l = lent_for_case(profile, profile_len, events, events_len);
    int64_t result = watched_load(&l);
    memcpy(case_chip, l.lent_chip, CHIP);
    return result;
}

static int64_t case_records(const uint8_t *profile, size_t profile_len, const uint8_t *events,
                            size_t events_len, uint8_t *records, size_t records_len)
{
    struct lent l = lent_for_case(profile, profile_len, events, events_len);
    return watched_records(&l, records, records_len);
}

static void case_look(struct model *chip)
{
    chip_decode(case_chip, chip);
}

static uint8_t case_hold(uint8_t address)
{
    return (uint8_t)mcp2515_hold(case_chip, CHIP, address);
}

static void case_fail(const char *file, int line, const char *what, long long want, long long got)
{
    printf("%s:%d: %s: expected %lld, got %lld\n", file, line, what, want, got);
    stop("a fixed case");
}

/* ---- every refusal with every length ---- */

struct edge {
    size_t chip_len, profile_len, events_len;
    uint8_t version;
    bool select_low, bad_profile, bad_mode;
};

/* Without a room of records the last refusal does not come. The entries of an edge are no
 * events. */
static int64_t want_at(const struct edge *e, const size_t *records_len)
{
    if (e->chip_len != CHIP || e->version != MCP2515_CHIP_VERSION)
        return -21;
    if (e->profile_len != 34 || e->events_len % 20 != 0)
        return -6;
    if (e->select_low)
        return -1;
    if (e->bad_profile)
        return -10;
    if (e->bad_mode)
        return -11;
    if (records_len && *records_len < RECORD_BYTES * 357)
        return -19;
    return records_len ? RECORDS_IN : LOAD_IN;
}

static void meet_edge(unsigned call, int64_t want, int64_t got)
{
    if (want != got)
        stop_at(call ? "mcp2515_load_records at an edge" : "mcp2515_load_profile at an edge", want,
                got);
    edges_met[call][got < 0 ? -got : REFUSALS]++;
}

/* The chip is that of power-on but for what the edge says. */
static void try_edge(const struct edge *e)
{
    enum { AT_MODE = 140, LONGEST = 2 * CHIP };
    static uint8_t records[ROOM * RECORD_BYTES];
    uint8_t chip[LONGEST] = {0}, profile[100] = {0}, events[100] = {0};
    size_t need = RECORD_BYTES * 357, rooms[] = {0, need - 1, need, need + 7};
    struct lent l = {chip, profile, events, e->chip_len, e->profile_len, e->events_len, 0, 0, 0};
    mcp2515_power_on(chip, CHIP);
    chip[MCP2515_PLACE_VERSION] = e->version;
    chip[MCP2515_PLACE_OPEN] = e->select_low;
    if (e->bad_mode)
        chip[AT_MODE] = below(2) ? MODE_SLEEP : MODE_LOOPBACK;
    if (e->bad_profile)
        profile[PROFILE_RXB1CTRL] = 0x04;
    meet_edge(0, want_at(e, NULL), watched_load(&l));
    for (unsigned i = 0; i < COUNT(rooms); i++)
        meet_edge(1, want_at(e, &rooms[i]), watched_records(&l, records, rooms[i]));
}

static void try_lengths(struct edge e)
{
    static const size_t profiles[] = {0, 1, 33, 34, 35, 68};
    static const size_t events[] = {0, 1, 19, 20, 21, 40, 60};
    for (unsigned i = 0; i < COUNT(profiles) * COUNT(events); i++) {
        e.profile_len = profiles[i / COUNT(events)];
        e.events_len = events[i % COUNT(events)];
        try_edge(&e);
    }
}

static void try_edges(void)
{
    static const size_t chips[] = {0, 1, 151, 152, 153, 304};
    static const uint8_t versions[] = {0, 2, 3, 4, 255};
    for (unsigned i = 0; i < COUNT(chips) * COUNT(versions); i++)
        for (unsigned states = 0; states < 8; states++) {
            struct edge e = {.chip_len = chips[i / COUNT(versions)]};
            e.version = versions[i % COUNT(versions)];
            e.select_low = states & 4;
            e.bad_profile = states & 2;
            e.bad_mode = states & 1;
            try_lengths(e);
        }
}

static void demand_edges(void)
{
    static const uint8_t of_both[] = {21, 6, 1, 10, 11, REFUSALS};
    static const char *const names[] = {"mcp2515_load_profile", "mcp2515_load_records"};
    for (unsigned call = 0; call < 2; call++)
        for (unsigned i = 0; i < COUNT(of_both); i++) {
            unsigned long long count = edges_met[call][of_both[i]];
            if (of_both[i] == REFUSALS)
                printf("  edges: %s, accepted %29llu\n", names[call], count);
            else
                printf("  edges: %s, refusal %-2u %27llu\n", names[call], of_both[i], count);
            if (count == 0)
                stop("an edge never met");
        }
    printf("  edges: mcp2515_load_records, refusal 19 %27llu\n", edges_met[1][19]);
    printf("  a room too short by up to all of it %30llu\n", rooms_short);
    printf("  NULL with length 0 %47llu\n", nulls_lent);
    if (edges_met[1][19] == 0 || rooms_short == 0 || nulls_lent == 0)
        stop("an edge never met");
}

/* ---- a load by both ---- */

struct pair {
    uint8_t chip[CHIP];
    struct model m;
};

static void print_pair(const struct pair *before, const uint8_t *after, const struct load *l)
{
    printf("chip before:");
    for (unsigned i = 0; i < CHIP; i++)
        printf("%s%02X", i % 16 ? " " : "\n  ", before->chip[i]);
    printf("\nchip after:");
    for (unsigned i = 0; i < CHIP; i++)
        printf("%s%02X", i % 16 ? " " : "\n  ", after[i]);
    printf("\nprofile:");
    for (unsigned i = 0; i < PROFILE_BYTES; i++)
        printf(" %02X", l->profile[i]);
    printf("\nevents:");
    for (size_t i = 0; i < l->events_len; i++)
        printf("%s%02X", i % ENTRY_BYTES ? " " : "\n  ", l->events[i]);
    printf("\n");
}

/* By the call that says what an address holds. */
static void check_held(const struct load_seen *s, const uint8_t *before, const uint8_t *after)
{
    for (unsigned i = 0; i < PROFILE_BYTES; i++) {
        uint8_t address = loader_address(i), bits = loader_writable(i);
        uint8_t held = (uint8_t)mcp2515_hold(after, CHIP, address);
        uint8_t want = s->result == LOAD_IN ? s->load->profile[i]
                                            : (uint8_t)mcp2515_hold(before, CHIP, address);
        if ((held ^ want) & bits)
            stop(s->result == LOAD_IN ? "in, and a register does not hold the profile"
                                      : "waiting, and a register was written");
    }
}

/* The records run by the chip before make the chip after. Bytes that say nothing may differ,
 * such as the address of an instruction that is no longer open. */
static void check_run(const struct pair *before, const struct model *after, const uint8_t *records,
                      size_t count)
{
    static uint8_t answers[2 * ROOM];
    uint8_t chip[CHIP];
    struct model m = before->m, decoded;
    memcpy(chip, before->chip, CHIP);
    if (mcp2515_run_from(chip, CHIP, records, RECORD_BYTES * count, answers, sizeof answers) !=
        (int64_t)count)
        stop("mcp2515_run_from does not run the records of a load");
    chip_decode(chip, &decoded);
    if (memcmp(&decoded, after, sizeof decoded) != 0)
        stop("mcp2515_run_from and mcp2515_load_profile leave different chips");
    for (size_t i = 0; i < count; i++) {
        uint8_t refusal, answer;
        model_step(&m, records + RECORD_BYTES * i, &refusal, &answer);
        if (answers[2 * i] != refusal || answers[2 * i + 1] != answer)
            stop("a record of a load by mcp2515_run_from");
    }
}

/* In this room; returns how many there are. */
static int64_t compare_records_in(struct lent *l, const struct model *m, uint8_t *records,
                                  size_t room)
{
    static uint8_t want[ROOM * RECORD_BYTES];
    int64_t count = loader_records(m, l->profile, l->profile_len, l->events, l->events_len, want,
                                   room);
    int64_t got = watched_records(l, records, room);
    if (got != count)
        stop_at("mcp2515_load_records and the model", count, got);
    if (count > 0 && memcmp(records, want, RECORD_BYTES * (size_t)count) != 0)
        stop("a record of mcp2515_load_records");
    rooms_short += count == -REFUSED_RECORDS_ROOM;
    return count;
}

/* In the room that is always enough, or more; now and then in just enough, and in too little. */
static int64_t compare_records(struct lent *l, const struct model *m, uint8_t *records)
{
    size_t always = RECORD_BYTES * (RECORDS_IN + l->events_len / ENTRY_BYTES);
    int64_t count = compare_records_in(l, m, records, always + below(2) * below(60));
    size_t need = count > 0 ? RECORD_BYTES * (size_t)count : always;
    if (below(3) > 0)
        return count;
    compare_records_in(l, m, records, need - 1 - below(17));
    compare_records_in(l, m, records, below((unsigned)need));
    if (compare_records_in(l, m, records, need) != count)
        stop("the room changes the records");
    return count;
}

/* Leaves the chip after the load in p. */
static void compare_load(struct pair *p, const struct load *load, bool reached)
{
    static uint8_t records[ROOM * RECORD_BYTES];
    struct pair before = *p;
    struct model decoded;
    struct lent l = {p->chip, load->profile, load->events, CHIP, PROFILE_BYTES, load->events_len,
                     0, 0, 0};
    int64_t count = compare_records(&l, &before.m, records);
    int64_t want = loader_load(&p->m, load->profile, PROFILE_BYTES, load->events, load->events_len);
    int64_t got = watched_load(&l);
    memcpy(p->chip, l.lent_chip, CHIP);
    chip_decode(p->chip, &decoded);
    struct load_seen seen = {&before.m, &decoded, load, got, records, 0, reached};
    if (got != want || memcmp(&decoded, &p->m, sizeof decoded) != 0)
        print_pair(&before, p->chip, load);
    if (got != want)
        stop_at("mcp2515_load_profile and the model", want, got);
    if (memcmp(&decoded, &p->m, sizeof decoded) != 0)
        stop("the chip after a load");
    if (got >= 0) {
        seen.count = (size_t)count;
        check_run(&before, &decoded, records, seen.count);
        check_held(&seen, before.chip, p->chip);
    }
    const char *broken = load_broken(&seen);
    if (broken)
        stop(broken);
    load_count(met, &seen);
}

/* ---- a long list of events ---- */

/* More of them than there are in a load otherwise, for a chip that waits; most come. */
static void fill_long(uint8_t *events, size_t entries)
{
    for (size_t i = 0; i < entries; i++) {
        uint8_t *entry = events + ENTRY_BYTES * i;
        memset(entry, 0, ENTRY_PLACE_BYTES);
        entry[3] = i < entries / 2 ? 1 : i < entries - 100 ? 2 : 3;
        gen_noise(gen_next(&dice), entry + ENTRY_PLACE_BYTES, RECORD_BYTES);
    }
}

static void waiting_chip(struct pair *p)
{
    static const uint8_t bytes[][2] = {{0}, {1, SPI_WRITE}, {1, CANCTRL}, {1, 0}, {2},
                                       {0}, {1, SPI_RTS | 7}, {2}};
    uint8_t answer[MCP2515_ANSWER_SIZE];
    mcp2515_power_on(p->chip, CHIP);
    for (unsigned i = 0; i < COUNT(bytes); i++) {
        uint8_t record[RECORD_BYTES] = {bytes[i][0], bytes[i][1]};
        mcp2515_step(p->chip, CHIP, record, RECORD_BYTES, answer, sizeof answer);
    }
    chip_decode(p->chip, &p->m);
}

static void load_long(void)
{
    size_t events_len = ENTRY_BYTES * LONG_LIST, room = RECORD_BYTES * (RECORDS_IN + LONG_LIST);
    uint8_t *events = malloc(events_len), *want = malloc(room), *records = malloc(room);
    uint8_t profile[PROFILE_BYTES] = {0};
    struct pair p;
    struct model decoded;
    if (!events || !want || !records)
        stop("no memory for a long list of events");
    fill_long(events, LONG_LIST);
    waiting_chip(&p);
    struct lent l = {p.chip, profile, events, CHIP, PROFILE_BYTES, events_len, 0, 0, 0};
    int64_t count = loader_records(&p.m, profile, PROFILE_BYTES, events, events_len, want, room);
    if (count < LONG_LIST / 3)
        stop_at("events of a long list", LONG_LIST / 3, count);
    if (watched_records(&l, records, room) != count ||
        memcmp(want, records, RECORD_BYTES * (size_t)count) != 0)
        stop("the records of a load with a long list of events");
    int64_t result = loader_load(&p.m, profile, PROFILE_BYTES, events, events_len);
    if (watched_load(&l) != result)
        stop("a load with a long list of events");
    chip_decode(l.lent_chip, &decoded);
    if (memcmp(&decoded, &p.m, sizeof decoded) != 0)
        stop("the chip after a long list of events");
    free(events);
    free(want);
    free(records);
}

/* ---- random loads ---- */

/* The chip of the generator, by the proved calls as well. */
static void follow_log(struct pair *p, struct gen *g)
{
    static uint8_t log[LOAD_LOG_MOST * RECORD_BYTES], answers[2 * LOAD_LOG_MOST];
    struct model decoded;
    size_t records = load_draw_log(g, &dice, log);
    if (mcp2515_run_from(p->chip, CHIP, log, RECORD_BYTES * records, answers, sizeof answers) !=
        (int64_t)records)
        stop("mcp2515_run_from does not run a log");
    p->m = g->chip;
    chip_decode(p->chip, &decoded);
    if (memcmp(&decoded, &p->m, sizeof decoded) != 0)
        stop("the chip before a load");
}

/* Half of the chips go on as they are after the load, the others as they were before. */
static void load_reached(struct pair *p, struct gen *g)
{
    struct load l;
    follow_log(p, g);
    struct pair loaded = *p;
    load_draw(&l, &p->m, &dice);
    compare_load(&loaded, &l, true);
    if (below(2)) {
        *p = loaded;
        g->chip = loaded.m;
    }
}

static void load_unreached(const struct pair *reached)
{
    struct pair p = *reached;
    struct load l;
    load_draw_chip(p.chip, &dice);
    chip_decode(p.chip, &p.m);
    load_draw(&l, &p.m, &dice);
    compare_load(&p, &l, false);
}

static void random_loads(unsigned long long loads)
{
    struct pair p;
    struct gen g;
    for (unsigned long long i = 0; i < loads; i++) {
        if (i % LOADS_A_LOG == 0) {
            gen_start(&g, (enum gen_profile)(gen_next(&dice) % GEN_PROFILES), gen_next(&dice));
            p.m = g.chip;
            mcp2515_power_on(p.chip, CHIP);
        }
        if (i % 4 > 0)
            load_reached(&p, &g);
        else
            load_unreached(&p);
    }
}

int main(int argc, char **argv)
{
    static const struct loader_side side = {case_power_on, case_make,    case_step, case_load,
                                            case_records,  case_look,    case_hold, case_fail};
    unsigned long long loads = argc > 1 ? strtoull(argv[1], NULL, 0) : DEFAULT_LOADS;
    seed_given = argc > 2 ? strtoull(argv[2], NULL, 0) : DEFAULT_SEED;
    dice = seed_given;
    chip_fence = fence_new(2 * CHIP);
    profile_fence = fence_new(100);
    events_fence = fence_new(ENTRY_BYTES * LONG_LIST);
    records_fence = fence_new(RECORD_BYTES * (RECORDS_IN + LONG_LIST));
    setvbuf(stdout, NULL, _IOLBF, 0); /* the seed has to show even if a call crashes */
    printf("loader: %llu random loads, seed %llu\n", loads, seed_given);
    size_t cases = loader_cases(&side);
    try_edges();
    load_long();
    random_loads(loads);
    printf("met, and how often at least:\n");
    demand_edges();
    if (!load_demand(met, loads, true))
        stop("too little was met");
    printf("no difference in %zu fixed cases, %llu loads and %llu calls\n", cases, loads,
           calls_done);
    return 0;
}
