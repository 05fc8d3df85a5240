/*
 * The proved whole-log call against the second model, and with the sets the
 * same logs record by record: fixed cases, the whole-log rule, random logs of
 * every sort, and the tidied list seen from outside. The first difference ends
 * the run with status 1. Sets, pin records and what the panel does are counted by
 * sort, and none may be rare.
 *
 *   compare [records [seed]]
 */
#define _DEFAULT_SOURCE
#include <stdbool.h>
#include <stdio.h>
#include <stdlib.h>
#include <string.h>
#include <sys/mman.h>
#include <unistd.h>

#include "cases.h"
#include "gen.h"
#include "mcp2515.h"
#include "model.h"
#include "panel_met.h"
#include "pins_met.h"
#include "registers.h"
#include "script.h"
#include "sets_met.h"
#include "tidy.h"

enum {
    DEFAULT_RECORDS = 3500000,
    DEFAULT_SEED = 2515,
    LONGEST = LOG_RECORDS_MAX + 4, /* some logs are too long on purpose */
    LOG_BYTES = LONGEST * RECORD_BYTES + RECORD_BYTES,
    ANSWER_BYTES = 2 * LONGEST + 256,
    OUTCOME_BYTES = MCP2515_ANSWER_SET_SIZE, /* refusal, answer, set */
    GUARD_BYTES = 64,
    GUARD = 0xA5
};

static unsigned long long seed_given, seed_of_log;
static unsigned long long logs_run, records_run;

static void stop(const char *what)
{
    printf("DIFFERENCE: %s\nseed %llu, log seed %llu\n", what, seed_given, seed_of_log);
    exit(1);
}

/* ---- buffers that end at memory without access ---- */

struct fence {
    uint8_t *base;
    size_t size; /* usable bytes, a multiple of the page */
};

static struct fence log_fence, answer_fence;

static struct fence new_fence(size_t least)
{
    size_t page = (size_t)sysconf(_SC_PAGESIZE);
    size_t size = (least + page - 1) / page * page;
    uint8_t *all = mmap(NULL, size + 2 * page, PROT_NONE, MAP_PRIVATE | MAP_ANONYMOUS, -1, 0);
    if (all == MAP_FAILED || mprotect(all + page, size, PROT_READ | PROT_WRITE) != 0) {
        perror("memory");
        exit(1);
    }
    return (struct fence){all + page, size};
}

/* length bytes that end short of the fence by gap bytes. */
static uint8_t *at_fence(const struct fence *f, size_t length, size_t gap)
{
    return f->base + f->size - gap - length;
}

/* ---- the call, with everything around it watched ---- */

struct call {
    int64_t result;
    const uint8_t *answers; /* valid until the next call */
    const uint8_t *sets;    /* of a log compared, one a record; valid as long */
};

static void check_guard(const uint8_t *bytes, size_t length, const char *where)
{
    for (size_t i = 0; i < length; i++)
        if (bytes[i] != GUARD) {
            printf("byte %zu %s was changed to %02Xh\n", i, where, bytes[i]);
            stop("a byte outside the answers was written");
        }
}

/* The call may write two bytes a record if it succeeds, and nothing else.
 * variation moves the buffers against their fences. */
static struct call watched_call(const uint8_t *log, size_t log_len, size_t answers_len,
                                unsigned variation)
{
    size_t gap = variation & 1 ? GUARD_BYTES : 0;
    uint8_t *lent = at_fence(&log_fence, log_len, variation & 2 ? variation >> 2 & 15 : 0);
    uint8_t *answers = at_fence(&answer_fence, answers_len, gap);
    struct call c = {0};
    if (log_len)
        memcpy(lent, log, log_len);
    memset(answers - GUARD_BYTES, GUARD, GUARD_BYTES + answers_len + gap);
    c.result = mcp2515_run_log(lent, log_len, answers, answers_len);
    c.answers = answers;
    size_t written = c.result > 0 ? 2 * (size_t)c.result : 0;
    if (written > answers_len)
        stop("more records answered than there is room for");
    check_guard(answers - GUARD_BYTES, GUARD_BYTES, "before the answers");
    check_guard(answers + written, answers_len + gap - written, "past the answers");
    if (log_len && memcmp(lent, log, log_len) != 0)
        stop("the log was changed");
    logs_run++;
    return c;
}

static void print_record(const uint8_t *record)
{
    printf("record bytes:");
    for (unsigned i = 0; i < RECORD_BYTES; i++)
        printf(" %02X", record[i]);
    printf("\n");
}

static void stop_at_record(const char *what, const uint8_t *log, size_t i, const uint8_t *want,
                           const uint8_t *got)
{
    printf("record %zu: expected refusal %u answer %u, the call gave %u %u\n", i + 1, want[0],
           want[1], got[0], got[1]);
    print_record(log + RECORD_BYTES * i);
    stop(what);
}

/* ---- the same log record by record, with the sets ---- */

enum { OWN_IN_FLIGHT, NOT_LISTENING, WOKE, NOT_HEARD };

static unsigned long long sets_met[SETS_MET], would_match[NOT_HEARD], pins_met[PINS_MET],
    panel_met[PANELS_MET];

/* A frame that the chip did not receive, if filters would have matched it. */
static void count_not_heard(const struct model *m, const uint8_t *record, const uint8_t *outcome)
{
    struct model listening = *m;
    uint8_t refusal, answer, set;
    listening.mode = MODE_LISTEN_ONLY;
    listening.flight = NO_FLIGHT;
    listening.tec = 0;
    model_step_set(&listening, record, &refusal, &answer, &set);
    if (set != 0)
        would_match[outcome[0] != REFUSED_NOT ? OWN_IN_FLIGHT
                    : outcome[1] == RX_WOKE   ? WOKE
                                              : NOT_LISTENING]++;
}

static void stop_at_set(const char *what, const uint8_t *log, size_t i, uint8_t want, uint8_t got)
{
    printf("record %zu: expected set %02Xh, got %02Xh\n", i + 1, want, got);
    print_record(log + RECORD_BYTES * i);
    stop(what);
}

static void stop_at_outcome(const char *what, const uint8_t *record, size_t i, const uint8_t *want,
                            const uint8_t *got)
{
    printf("record %zu: expected refusal %u answer %u set %02Xh, got %u %u %02Xh\n", i + 1, want[0],
           want[1], want[2], got[0], got[1], got[2]);
    print_record(record);
    stop(what);
}

/* From power-on by both; c has the answers of the whole log and gets the sets. */
static void compare_sets(const uint8_t *log, size_t records, struct call *c)
{
    static uint8_t sets[LONGEST];
    uint8_t chip[MCP2515_CHIP_SIZE];
    struct model m;
    model_power_on(&m);
    mcp2515_power_on(chip, sizeof chip);
    for (size_t i = 0; i < records; i++) {
        const uint8_t *record = log + RECORD_BYTES * i;
        bool loopback = m.mode == MODE_LOOPBACK;
        uint8_t want[OUTCOME_BYTES], got[OUTCOME_BYTES] = {GUARD, GUARD, GUARD};
        struct model before = m;
        model_step_set(&m, record, &want[0], &want[1], &want[2]);
        count_pin(pins_met, &before, record, want[0]);
        count_panel(panel_met, &before, record, want[0], want[1], &m);
        if (mcp2515_step_set(chip, sizeof chip, record, RECORD_BYTES, got, sizeof got) !=
            OUTCOME_BYTES)
            stop("result of mcp2515_step_set");
        if (memcmp(want, got, sizeof got) != 0)
            stop_at_outcome("mcp2515_step_set and the model disagree", record, i, want, got);
        if (memcmp(c->answers + 2 * i, got, 2) != 0)
            stop_at_record("mcp2515_step_set answers otherwise than the whole log", log, i,
                           c->answers + 2 * i, got);
        if (!count_set(sets_met, &m, loopback, record, got) && record[0] == KIND_FRAME)
            count_not_heard(&m, record, got);
        sets[i] = got[2];
    }
    c->sets = sets;
}

static void demand(const char *what, unsigned long long count, unsigned long long least)
{
    printf("  %-52s %10llu\n", what, count);
    if (count >= least)
        return;
    printf("TOO SELDOM: expected %llu at least\nseed %llu\n", least, seed_given);
    exit(1);
}

/* The least counts go with the length of the run. */
static void demand_sets(unsigned long long records)
{
    static const char *const not_heard_name[NOT_HEARD] = {"during a flight", "not listening",
                                                          "woke"};
    for (unsigned i = 0; i < SETS_MET; i++) {
        bool own = i >= OWN_NO_FILTER && i <= OWN_MORE_FILTERS;
        demand(set_met_name[i], sets_met[i], records / (own ? 5000 : 1000));
    }
    for (unsigned i = 0; i < NOT_HEARD; i++) {
        char text[64];
        snprintf(text, sizeof text, "no set, %s, though filters match", not_heard_name[i]);
        demand(text, would_match[i], records / 10000);
    }
}

static void demand_pins(unsigned long long records, const struct tidy_tally *tally)
{
    for (unsigned i = 0; i < PINS_MET; i++)
        demand(pin_met_name[i], pins_met[i], records / 50000);
    demand("LOAD TX BUFFER not listed for nothing but a fall", tally->unlisted_by_fall,
           records / 50000);
    demand("pin record moved in front of a command", tally->pins_before, records / 5000);
    demand("pin record moved behind a command", tally->pins_after, records / 5000);
    demand("refused pin record moved with a command", tally->refused_pins, records / 5000);
}

static void demand_panel(unsigned long long records, const struct tidy_tally *tally)
{
    for (unsigned i = 0; i < PANELS_MET; i++)
        demand(panel_met_name[i], panel_met[i], records / 20000);
    for (unsigned i = 0; i < TIDY_COMMANDS; i++) {
        char text[64];
        snprintf(text, sizeof text, "panel: listed %s with events", tidy_command_name[i]);
        if (i != TIDY_RESET && i != TIDY_BIT_MODIFY && i != TIDY_WRITE)
            demand(text, tally->panel_with_events[i], records / 50000);
    }
}

/* Runs a log by both and compares; model_answers gets the model's answers. */
static struct call compare_log(const uint8_t *log, size_t log_len, size_t answers_len,
                               unsigned variation, uint8_t *model_answers)
{
    long want = model_run_log(log, log_len, model_answers, answers_len);
    struct call c = watched_call(log, log_len, answers_len, variation);
    if (c.result != want) {
        printf("log of %zu bytes, answers of %zu: expected %ld, got %lld\n", log_len, answers_len,
               want, (long long)c.result);
        stop("result of the call");
    }
    for (long i = 0; i < want; i++)
        if (memcmp(model_answers + 2 * i, c.answers + 2 * i, 2) != 0)
            stop_at_record("the call and the model disagree", log, (size_t)i,
                           model_answers + 2 * i, c.answers + 2 * i);
    if (want > 0) {
        compare_sets(log, (size_t)want, &c);
        records_run += (unsigned long long)want;
    }
    return c;
}

/* ---- fixed cases, by their own expectations ---- */

static unsigned long long sets_by_hand;

/* Where a case says the set. */
static void check_sets_by_hand(const char *name, const struct script *s, const uint8_t *sets)
{
    for (size_t i = 0; i < s->count; i++) {
        const struct script_want *want = &s->want[i];
        if (want->set == SET_UNSAID)
            continue;
        sets_by_hand++;
        if (sets[i] == want->set)
            continue;
        printf("%s:%d: %s\n", want->file, want->line, name);
        stop_at_set("the set of a fixed case", s->records, i, (uint8_t)want->set, sets[i]);
    }
}

static struct call check_case(const char *name, const struct script *s)
{
    struct call c = watched_call(s->records, RECORD_BYTES * s->count, 2 * s->count, 0);
    if (c.result != (int64_t)s->count)
        stop(name);
    for (size_t i = 0; i < s->count; i++) {
        const struct script_want *want = &s->want[i];
        uint8_t pair[2] = {want->refusal, want->answer};
        if (memcmp(pair, c.answers + 2 * i, 2) != 0) {
            printf("%s:%d: %s\n", want->file, want->line, name);
            stop_at_record("a fixed case", s->records, i, pair, c.answers + 2 * i);
        }
    }
    compare_sets(s->records, s->count, &c);
    check_sets_by_hand(name, s, c.sets);
    records_run += s->count;
    return c;
}

static void check_cases(void)
{
    struct script s;
    script_init(&s);
    for (size_t i = 0; i < case_count(); i++) {
        script_clear(&s);
        case_at(i)->write(&s);
        check_case(case_at(i)->name, &s);
    }
    script_free(&s);
}

static unsigned fall_differs, fall_alike;

/* A LOAD that a fall keeps from the list. The fall in front of it all the same gives other
 * answers, unless the case says that it does not. */
static void check_fall(const struct tidied_list *t)
{
    size_t records = t->s.count, differ = 0;
    uint8_t *fronted = malloc(RECORD_BYTES * records), *answers = malloc(2 * records);
    uint8_t *as_came = malloc(2 * records);
    for (size_t i = 0; i < records; i++)
        memcpy(fronted + RECORD_BYTES * i, t->s.records + RECORD_BYTES * fronted_record(t, i),
               RECORD_BYTES);
    memcpy(as_came,
           compare_log(t->s.records, RECORD_BYTES * records, 2 * records, 0, answers).answers,
           2 * records);
    struct call c = compare_log(fronted, RECORD_BYTES * records, 2 * records, 0, answers);
    for (size_t i = 0; i < records; i++)
        differ += memcmp(as_came + 2 * fronted_record(t, i), c.answers + 2 * i, 2) != 0;
    if ((differ > 0) != (t->fall == FALL_DIFFERS)) {
        printf("%s: %zu records answer otherwise with the fall in front\n", t->name, differ);
        stop("a LOAD that a fall keeps from the list");
    }
    *(t->fall == FALL_DIFFERS ? &fall_differs : &fall_alike) += 1;
    free(fronted);
    free(answers);
    free(as_came);
}

/* Lists tidied by hand, as they came and tidied, by the answers of the hand; the sets of both
 * are the same. */
static void check_tidied_list(const struct tidied_list *t)
{
    if (t->fall != NO_FALL)
        check_fall(t);
    struct script tidied;
    uint8_t *sets = malloc(t->s.count);
    memcpy(sets, check_case(t->name, &t->s).sets, t->s.count);
    script_init(&tidied);
    for (size_t i = 0; i < t->s.count; i++) {
        size_t from = tidied_record(t, i);
        const struct script_want *want = &t->s.want[from];
        tidied.file = want->file;
        tidied.line = want->line;
        sc_raw(&tidied, t->s.records + RECORD_BYTES * from, want->refusal, want->answer);
    }
    struct call c = check_case(t->name, &tidied);
    for (size_t i = 0; i < t->s.count; i++)
        if (c.sets[i] != sets[tidied_record(t, i)])
            stop_at_set(t->name, tidied.records, i, sets[tidied_record(t, i)], c.sets[i]);
    script_free(&tidied);
    free(sets);
}

/* ---- whole-log rule ---- */

static void expect_result(int64_t want, int64_t got, const char *what)
{
    if (want == got)
        return;
    printf("%s: expected %lld, got %lld\n", what, (long long)want, (long long)got);
    stop("whole-log rule");
}

static void check_whole_log_rule(uint8_t *log, uint8_t *model_answers)
{
    enum { MOST = LOG_RECORDS_MAX };
    static const struct {
        size_t log_len, answers_len;
        int want;
    } rule[] = {
        {0, 0, 0},
        {0, 40, 0},
        {1, 40, -6},
        {15, 0, -6},
        {RECORD_BYTES, 2, 1},
        {RECORD_BYTES, 1, -7},
        {RECORD_BYTES, 0, -7},
        {RECORD_BYTES + 1, 0, -6},
        {100 * RECORD_BYTES, 199, -7},
        {100 * RECORD_BYTES, 200, 100},
        {MOST * RECORD_BYTES, 2 * MOST, MOST},
        {MOST * RECORD_BYTES, 2 * MOST - 1, -7},
        {MOST * RECORD_BYTES + 5, 2 * MOST, -6},
        {(MOST + 1) * RECORD_BYTES, 2 * MOST + 2, -8},
        {(MOST + 1) * RECORD_BYTES, 0, -8},
        {(MOST + 1) * RECORD_BYTES + 1, 2 * MOST + 2, -6},
        {(MOST + 1) * RECORD_BYTES + 1, 0, -6},
        {(MOST + 3) * RECORD_BYTES, 3, -8},
    };
    gen_log(GEN_MIXED, seed_given, log, LONGEST);
    for (size_t i = 0; i < sizeof rule / sizeof *rule; i++)
        for (unsigned variation = 0; variation < 4; variation++)
            expect_result(rule[i].want,
                          compare_log(log, rule[i].log_len, rule[i].answers_len, variation,
                                      model_answers)
                              .result,
                          "log and answer lengths");
    expect_result(0, mcp2515_run_log(NULL, 0, NULL, 0), "no buffers, no lengths");
    expect_result(0, mcp2515_run_log(NULL, 0, model_answers, 10), "no log");
    expect_result(0, mcp2515_run_log(log, 0, NULL, 0), "no answers, no records");
    expect_result(-7, mcp2515_run_log(log, RECORD_BYTES, NULL, 0), "no answers, one record");
    expect_result(-6, mcp2515_run_log(log, 3, NULL, 0), "no answers, ragged log");
}

/* ---- random logs ---- */

static unsigned below(uint64_t *state, unsigned n)
{
    return (unsigned)((gen_next(state) >> 33) % n);
}

static size_t some_length(uint64_t *state)
{
    unsigned pick = below(state, 100);
    if (pick < 2)
        return LOG_RECORDS_MAX - below(state, 3);
    if (pick < 30)
        return 1000 + below(state, 4000);
    if (pick < 60)
        return 60 + below(state, 1000);
    return below(state, 60);
}

static void some_log(uint64_t *state, uint8_t *log, size_t records)
{
    unsigned pick = below(state, 100);
    seed_of_log = gen_next(state);
    if (pick < 8)
        gen_noise(seed_of_log, log, RECORD_BYTES * records);
    else
        gen_log(pick < 16 ? GEN_QUIET : pick < 24 ? GEN_BUSY : GEN_MIXED, seed_of_log, log,
                records);
    if (pick >= 84)
        gen_damage(seed_of_log, log, records);
    if (pick % 8 == 1)
        gen_swap_speakers(seed_of_log, log, records);
}

static void check_random(uint64_t *state, unsigned long long records, uint8_t *log,
                         uint8_t *model_answers)
{
    unsigned long long until = records_run + records;
    while (records_run < until) {
        size_t length = some_length(state);
        size_t log_len = RECORD_BYTES * length;
        size_t answers_len = 2 * length + below(state, 40);
        unsigned pick = below(state, 100);
        some_log(state, log, length);
        if (pick < 6) { /* ragged: bytes that are no record any more */
            gen_noise(seed_of_log, log + log_len, RECORD_BYTES);
            log_len += 1 + below(state, 15);
        } else if (pick < 10 && length > 0) {
            answers_len = below(state, (unsigned)(2 * length));
        }
        compare_log(log, log_len, answers_len, below(state, 64), model_answers);
    }
}

/* ---- the tidied list ---- */

/* Records that make the end state show in the answers: every register, the
 * statuses, a flight, after ABAT and Configuration the filters, and without an
 * enable the levels of all pins. */
static void end_probe(struct script *s)
{
    script_clear(s);
    for (unsigned round = 0; round < 2; round++) {
        s->speaker = SPEAKER_PANEL;
        sc_high(s); /* ends a session that was left open, or is refused */
        s->speaker = SPEAKER_CONTROLLER;
        sc_high(s);
        sc_low(s);
        sc_xfer(s, SPI_READ, 0);
        sc_xfer(s, 0, 0);
        for (unsigned i = 0; i < 128; i++)
            sc_xfer(s, 0, 0);
        sc_high(s);
        sc_status(s, 0);
        sc_rx_status(s, 0);
        sc_idle(s, 0);
        sc_end(s, END_SENT, 0);
        sc_write(s, CANCTRL, 0x80 | ABAT);
    }
    sc_write(s, TXRTSCTRL, 0);
    sc_read(s, TXRTSCTRL, 0);
}

static void check_map(const uint8_t *log, size_t records, const size_t *map,
                      const struct call *as_came, const struct call *in_order)
{
    for (size_t i = 0; i < records; i++) {
        const uint8_t *want = as_came->answers + 2 * map[i], *got = in_order->answers + 2 * i;
        if (memcmp(want, got, 2) != 0) {
            printf("tidied place %zu\n", i + 1);
            stop_at_record("the tidied list answers otherwise", log, map[i], want, got);
        }
        if (as_came->sets[map[i]] != in_order->sets[i]) {
            printf("tidied place %zu\n", i + 1);
            stop_at_set("the tidied list has another set", log, map[i], as_came->sets[map[i]],
                        in_order->sets[i]);
        }
    }
}

/* The list as it came and tidied, by both; room has the answers and sets of the first run
 * during the second. */
static void check_both_orders(const uint8_t *log, const uint8_t *tidied, size_t records,
                              const size_t *map, uint8_t *room, uint8_t *model_answers)
{
    struct call as_came = compare_log(log, RECORD_BYTES * records, 2 * records, 0, model_answers);
    memcpy(room, as_came.answers, 2 * records);
    memcpy(room + 2 * records, as_came.sets, records);
    as_came.answers = room;
    as_came.sets = room + 2 * records;
    struct call in_order =
        compare_log(tidied, RECORD_BYTES * records, 2 * records, 0, model_answers);
    check_map(log, records, map, &as_came, &in_order);
}

static void check_tidied(uint64_t *state, unsigned long long records, uint8_t *log,
                         uint8_t *model_answers, struct tidy_tally *tally)
{
    enum { MOST = 6000 };
    unsigned long long until = records_run + records;
    uint8_t *tidied = malloc(RECORD_BYTES * MOST), *as_came = malloc(OUTCOME_BYTES * MOST);
    size_t *map = malloc(MOST * sizeof *map);
    struct script probe;
    script_init(&probe);
    end_probe(&probe);
    while (records_run < until) {
        size_t length = below(state, 3) ? below(state, 100) : below(state, MOST - 1000);
        some_log(state, log, length);
        memcpy(log + RECORD_BYTES * length, probe.records, RECORD_BYTES * probe.count);
        length += probe.count;
        tidy_log(log, length, tidied, map, tally);
        check_both_orders(log, tidied, length, map, as_came, model_answers);
    }
    script_free(&probe);
    free(tidied);
    free(as_came);
    free(map);
}

int main(int argc, char **argv)
{
    unsigned long long records = argc > 1 ? strtoull(argv[1], NULL, 0) : DEFAULT_RECORDS;
    seed_given = argc > 2 ? strtoull(argv[2], NULL, 0) : DEFAULT_SEED;
    uint64_t state = seed_given;
    struct tidy_tally tally = {0};
    uint8_t *log = malloc(LOG_BYTES), *model_answers = malloc(ANSWER_BYTES);
    log_fence = new_fence(LOG_BYTES);
    answer_fence = new_fence(ANSWER_BYTES + 2 * GUARD_BYTES);
    setvbuf(stdout, NULL, _IOLBF, 0); /* the seed has to show even if the call crashes */
    printf("comparing %llu random records, seed %llu\n", records, seed_given);
    check_cases();
    tidied_lists(check_tidied_list);
    check_whole_log_rule(log, model_answers);
    check_random(&state, records, log, model_answers);
    printf("as they came: %llu logs, %llu records\n", logs_run, records_run);
    check_tidied(&state, records / 2, log, model_answers, &tally);
    printf("with the tidied lists: %llu logs, %llu records\n", logs_run, records_run);
    printf("events moved: %lu before, %lu after\n", tally.events_before, tally.events_after);
    printf("met:\n");
    demand("set of a fixed case, worked out by hand", sets_by_hand, 1);
    demand("LOAD cut by a fall that tidying would change", fall_differs, 1);
    demand("LOAD cut by a fall that tidying would not change", fall_alike, 1);
    demand_sets(records);
    demand_pins(records, &tally);
    demand_panel(records, &tally);
    free(log);
    free(model_answers);
    printf("no difference\n");
    return 0;
}
