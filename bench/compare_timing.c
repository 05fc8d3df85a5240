/*
 * The proved calls of bit timing against the second model: all bytes there are,
 * whether they are sound and which rules they break; the fixed cases; plans in
 * every room against the search through all sound settings and the choice in its
 * short form, and many more against the short form alone; differences over all
 * oscillators and rates. The first difference ends the run with status 1. What
 * was met is counted, and none of it may be missing.
 *
 *   timing [plans [seed]]
 */
#define _DEFAULT_SOURCE
#include <stdio.h>
#include <stdlib.h>
#include <string.h>
#include <time.h>

#include "cases_timing.h"
#include "fence.h"
#include "gen.h"
#include "mcp2515.h"
#include "timing.h"
#include "timing_candidates.h"
#include "timing_targets.h"

enum {
    DEFAULT_PLANS = 1000,
    DEFAULT_SEED = 2515,
    SHORT_FORM_PLANS = 100, /* by the short form, for each by the search */
    DIFFERENCES = 1000000,
    LONGEST_ROOM = 64
};

#define COUNT(list) (sizeof(list) / sizeof *(list))

_Static_assert((int)TIMING_BYTES == MCP2515_TIMING_SIZE, "bytes of a plan");
_Static_assert((int)FAULT_BTLMODE == MCP2515_FAULT_BTLMODE, "BTLMODE");
_Static_assert((int)FAULT_SPARE == MCP2515_FAULT_SPARE, "spare bits");
_Static_assert((int)FAULT_PS2 == MCP2515_FAULT_PS2, "phase 2");
_Static_assert((int)FAULT_PROPSEG_PS1 == MCP2515_FAULT_PROPSEG_PS1, "before the sample point");
_Static_assert((int)FAULT_SJW == MCP2515_FAULT_SJW, "jump width");
_Static_assert((int)FAULT_QUANTA == MCP2515_FAULT_QUANTA, "quanta of a bit");
_Static_assert((int)REFUSED_OSCILLATOR == MCP2515_REFUSED_OSCILLATOR, "refusal 12");
_Static_assert((int)REFUSED_RATE == MCP2515_REFUSED_RATE, "refusal 13");
_Static_assert((int)REFUSED_SHORT == MCP2515_REFUSED_SHORT, "refusal 19");

static struct fence cnf_fence;
static unsigned long long seed_given, calls_done;
static uint64_t dice;

_Noreturn static void stop(const char *what)
{
    printf("DIFFERENCE: %s\nseed %llu\n", what, seed_given);
    exit(1);
}

static void stop_at(const char *what, const char *where, int64_t want, int64_t got)
{
    printf("%s: expected %lld, got %lld\n", where, (long long)want, (long long)got);
    stop(what);
}

static uint32_t below(uint32_t n)
{
    return (uint32_t)((gen_next(&dice) >> 33) % n);
}

static double now(void)
{
    struct timespec t;
    clock_gettime(CLOCK_MONOTONIC, &t);
    return (double)t.tv_sec + (double)t.tv_nsec * 1e-9;
}

/* ---- what was met ---- */

enum { RESULT_NONE, RESULT_PLAN, RESULT_12, RESULT_13, RESULT_19, RESULTS };

/* How near a plan was decided. */
enum near {
    AT_LIMIT_ABOVE,
    AT_LIMIT_BELOW,
    WITHIN_LIMIT_ABOVE, /* by one */
    WITHIN_LIMIT_BELOW,
    BEYOND_LIMIT_ABOVE, /* by one */
    BEYOND_LIMIT_BELOW,
    TIE_OF_BRPS,
    TIE_OF_BRPS_OFF, /* the difference is not 0 */
    TIE_OF_SIGNS_TAKEN_ABOVE,
    TIE_OF_SIGNS_TAKEN_BELOW,
    TIE_OF_BRPS_NONE,
    TIE_OF_QUANTA_NONE, /* of one BRP; only where the answer is none, see cases_timing.c */
    NEARS
};

static const char *const near_name[NEARS] = {
    [AT_LIMIT_ABOVE] = "plan at the limit, above zero",
    [AT_LIMIT_BELOW] = "plan at the limit, below zero",
    [WITHIN_LIMIT_ABOVE] = "plan one within the limit, above zero",
    [WITHIN_LIMIT_BELOW] = "plan one within the limit, below zero",
    [BEYOND_LIMIT_ABOVE] = "none, one beyond the limit, above zero",
    [BEYOND_LIMIT_BELOW] = "none, one beyond the limit, below zero",
    [TIE_OF_BRPS] = "plan, tie of BRPs",
    [TIE_OF_BRPS_OFF] = "plan, tie of BRPs, not at zero",
    [TIE_OF_SIGNS_TAKEN_ABOVE] = "plan, tie of two signs, above zero taken",
    [TIE_OF_SIGNS_TAKEN_BELOW] = "plan, tie of two signs, below zero taken",
    [TIE_OF_BRPS_NONE] = "none, tie of BRPs",
    [TIE_OF_QUANTA_NONE] = "none, tie of quanta of one BRP",
};

static unsigned long long results[RESULTS], nears[2][NEARS]; /* [1]: by the short form */
static unsigned long long short_for_none, null_rooms, longer_rooms, two_refusals[3];
static unsigned long long plans_done, short_form_done, of_boards, of_sorts[TARGET_SORTS];
static unsigned long long brps_taken[CANDIDATE_BRPS], quanta_taken[CANDIDATE_QUANTA_MOST + 1];
static unsigned long long fault_sets[FAULT_SETS];
static unsigned long long differences[3], outside_32_bits; /* below, at, above zero */

static void demand(const char *what, unsigned long long count)
{
    printf("  %-56s %12llu\n", what, count);
    if (count == 0)
        stop("never met");
}

static unsigned long long count_met(const unsigned long long *counts, unsigned size)
{
    unsigned long long met = 0;
    for (unsigned i = 0; i < size; i++)
        met += counts[i] > 0;
    return met;
}

static void demand_faults(void)
{
    demand("bytes that are sound", fault_sets[0]);
    demand("BTLMODE clear, nothing else", fault_sets[FAULT_BTLMODE]);
    demand("spare bits, nothing else", fault_sets[FAULT_SPARE]);
    demand("phase 2 below 2, with it the jump width, nothing else",
           fault_sets[FAULT_PS2 | FAULT_SJW]);
    demand("propagation and phase 1 too short, nothing else", fault_sets[FAULT_PROPSEG_PS1]);
    demand("jump width too long, nothing else", fault_sets[FAULT_SJW]);
    demand("quanta of a bit, nothing else", fault_sets[FAULT_QUANTA]);
    if (fault_sets[FAULT_PS2] > 0)
        stop("phase 2 below 2 and longer than the jump width");
}

static void demand_plans(void)
{
    demand("plan made", results[RESULT_PLAN]);
    demand("none", results[RESULT_NONE]);
    demand("refusal 12", results[RESULT_12]);
    demand("refusal 13", results[RESULT_13]);
    demand("refusal 19", results[RESULT_19]);
    demand("refusal 19 where the answer is none", short_for_none);
    demand("refusal 12, the rate is outside too", two_refusals[0]);
    demand("refusal 12, too little room too", two_refusals[1]);
    demand("refusal 13, too little room too", two_refusals[2]);
    demand("no room, NULL", null_rooms);
    demand("plan with more room than it needs", longer_rooms);
    demand("targets of boards", of_boards);
    demand("any oscillator and rate", of_sorts[TARGET_ANY]);
    for (unsigned i = 0; i < NEARS; i++)
        demand(near_name[i], nears[0][i]);
    demand("BRPs taken", count_met(brps_taken, CANDIDATE_BRPS));
    demand("numbers of quanta taken", count_met(quanta_taken, CANDIDATE_QUANTA_MOST + 1));
    if (count_met(brps_taken, CANDIDATE_BRPS) < CANDIDATE_BRPS ||
        count_met(quanta_taken, CANDIDATE_QUANTA_MOST + 1) <
            CANDIDATE_QUANTA_MOST - CANDIDATE_QUANTA_LEAST + 1)
        stop("not all were taken");
}

static void demand_short_form(void)
{
    char text[80];
    for (unsigned i = 0; i < NEARS; i++) {
        snprintf(text, sizeof text, "short form: %s", near_name[i]);
        demand(text, nears[1][i]);
    }
}

static void demand_differences(void)
{
    demand("difference below zero", differences[0]);
    demand("difference at zero", differences[1]);
    demand("difference above zero", differences[2]);
    demand("difference below -2^32", outside_32_bits);
}

/* ---- all bytes ---- */

static void stop_at_bytes(const char *what, const uint8_t *cnf, int64_t want, int64_t got)
{
    char text[64];
    snprintf(text, sizeof text, "%02Xh %02Xh %02Xh", cnf[0], cnf[1], cnf[2]);
    stop_at(what, text, want, got);
}

static void compare_bytes(const uint8_t cnf[TIMING_BYTES])
{
    unsigned want = timing_faults(cnf[0], cnf[1], cnf[2]);
    bool sound = timing_sound(cnf[0], cnf[1], cnf[2]);
    int64_t got = mcp2515_timing_faults(cnf[0], cnf[1], cnf[2]);
    if (got != want)
        stop_at_bytes("mcp2515_timing_faults and the model", cnf, want, got);
    got = mcp2515_check_timing(cnf[0], cnf[1], cnf[2]);
    if (got != sound)
        stop_at_bytes("mcp2515_check_timing and the model", cnf, sound, got);
    calls_done += 2;
    fault_sets[want]++;
}

static void compare_all_bytes(void)
{
    double start = now();
    for (unsigned i = 0; i < 1u << 24; i++) {
        uint8_t cnf[TIMING_BYTES] = {(uint8_t)(i >> 16), (uint8_t)(i >> 8), (uint8_t)i};
        compare_bytes(cnf);
    }
    printf("all 2^24 triples of bytes: %.2f s\n", now() - start);
}

/* ---- differences ---- */

static void compare_difference(uint32_t oscillator, uint32_t rate, const uint8_t *cnf)
{
    int64_t want = timing_difference(oscillator, rate, cnf[0], cnf[1], cnf[2]);
    int64_t got = mcp2515_timing_difference(oscillator, rate, cnf[0], cnf[1], cnf[2]);
    if (got != want) {
        printf("oscillator %u, rate %u\n", (unsigned)oscillator, (unsigned)rate);
        stop_at_bytes("mcp2515_timing_difference and the model", cnf, want, got);
    }
    differences[want < 0 ? 0 : want == 0 ? 1 : 2]++;
    outside_32_bits += want < -(int64_t)UINT32_MAX - 1;
    calls_done++;
}

/* A number of any length in bits. */
static uint32_t some_number(void)
{
    return (uint32_t)(gen_next(&dice) >> (32 + below(32)));
}

/* A rate with an oscillator that fits, or is off by one. */
static void compare_near_zero(const uint8_t *cnf)
{
    int64_t clocks = -timing_difference(0, 1, cnf[0], cnf[1], cnf[2]);
    uint32_t rate = some_number() % (uint32_t)(UINT32_MAX / clocks);
    uint32_t oscillator = (uint32_t)(rate * clocks);
    compare_difference(oscillator, rate, cnf);
    compare_difference(oscillator + 1, rate, cnf);
    if (oscillator > 0)
        compare_difference(oscillator - 1, rate, cnf);
}

static void compare_differences(void)
{
    static const uint32_t edges[] = {0,          1,          5000,       1000000,   40000000,
                                     0x7FFFFFFF, 0x80000000, 0xFFFFFFFE, 0xFFFFFFFF};
    for (unsigned i = 0; i < DIFFERENCES; i++) {
        uint8_t cnf[TIMING_BYTES] = {(uint8_t)below(256), (uint8_t)below(256), (uint8_t)below(256)};
        if (i < 8) /* the shortest and the longest of each */
            for (unsigned k = 0; k < TIMING_BYTES; k++)
                cnf[k] = i >> k & 1 ? 0xFF : 0;
        if (i % 1000 < 8)
            for (unsigned k = 0; k < COUNT(edges) * COUNT(edges); k++)
                compare_difference(edges[k / COUNT(edges)], edges[k % COUNT(edges)], cnf);
        compare_difference(some_number(), some_number(), cnf);
        compare_near_zero(cnf);
    }
}

/* ---- plans ---- */

/* A plan in this room, with everything around it watched; the bytes are 0 if there are none. */
static int64_t watched_plan(struct target w, size_t room, bool null, uint8_t cnf[TIMING_BYTES])
{
    uint8_t *lent = fence_lend(&cnf_fence, room);
    int64_t result = mcp2515_plan_timing(w.oscillator, w.rate, null ? NULL : lent, room);
    size_t written = result == TIMING_BYTES ? TIMING_BYTES : 0;
    if (written > room)
        stop("a plan without room for it");
    if (!fence_filled(lent + written, room - written))
        stop(written > 0 ? "a byte past the plan was changed" : "no plan, but written to");
    if (!fence_intact(&cnf_fence, room))
        stop("a byte before the plan was changed");
    memset(cnf, 0, TIMING_BYTES);
    if (written > 0)
        memcpy(cnf, lent, written);
    calls_done++;
    return result;
}

static void stop_at_plan(const char *what, struct target w, size_t room, const uint8_t *want,
                         const uint8_t *got)
{
    printf("oscillator %u, rate %u, room %zu: expected %02Xh %02Xh %02Xh, "
           "got %02Xh %02Xh %02Xh\n",
           (unsigned)w.oscillator, (unsigned)w.rate, room, want[0], want[1], want[2], got[0],
           got[1], got[2]);
    stop(what);
}

static void check_plan(const char *what, struct target w, size_t room, bool null, int64_t want,
                       const uint8_t want_cnf[TIMING_BYTES])
{
    uint8_t cnf[TIMING_BYTES];
    int64_t got = watched_plan(w, room, null, cnf);
    char text[80];
    snprintf(text, sizeof text, "oscillator %u, rate %u, room %zu", (unsigned)w.oscillator,
             (unsigned)w.rate, room);
    if (got != want)
        stop_at(what, text, want, got);
    if (want == TIMING_BYTES && memcmp(cnf, want_cnf, TIMING_BYTES) != 0)
        stop_at_plan(what, w, room, want_cnf, cnf);
}

/* What the calls say of a plan that they made. */
static void check_made(struct target w, const uint8_t *cnf)
{
    int64_t difference = mcp2515_timing_difference(w.oscillator, w.rate, cnf[0], cnf[1], cnf[2]);
    if (mcp2515_check_timing(cnf[0], cnf[1], cnf[2]) != 1)
        stop("a plan that is not sound");
    if (llabs(difference) * 1000 > w.oscillator)
        stop("a plan beyond the limit");
    compare_difference(w.oscillator, w.rate, cnf);
}

static void count_result(struct target w, size_t room, int64_t result)
{
    bool short_room = room < TIMING_BYTES;
    results[result == TIMING_BYTES          ? RESULT_PLAN
            : result == 0                   ? RESULT_NONE
            : result == -REFUSED_OSCILLATOR ? RESULT_12
            : result == -REFUSED_RATE       ? RESULT_13
                                            : RESULT_19]++;
    two_refusals[0] += result == -REFUSED_OSCILLATOR && (w.rate < RATE_LEAST || w.rate > RATE_MOST);
    two_refusals[1] += result == -REFUSED_OSCILLATOR && short_room;
    two_refusals[2] += result == -REFUSED_RATE && short_room;
    longer_rooms += result == TIMING_BYTES && room > TIMING_BYTES;
}

static void count_limit(unsigned long long *met, struct target w, const struct candidates *r)
{
    int64_t beyond = 1000 * r->size - w.oscillator;
    if (beyond < -1 || beyond > 1 || (r->above && r->below))
        return;
    unsigned above = beyond == 0   ? AT_LIMIT_ABOVE
                     : beyond == 1 ? BEYOND_LIMIT_ABOVE
                                   : WITHIN_LIMIT_ABOVE;
    met[above + r->below]++;
}

static void count_near(unsigned long long *met, struct target w, const struct candidates *r)
{
    bool none = candidates_none(r, w.oscillator), tie = r->brps > 1;
    int64_t clocks = 2 * (int64_t)(r->brp + 1) * r->quanta;
    bool taken_above = w.oscillator > w.rate * clocks;
    count_limit(met, w, r);
    met[TIE_OF_BRPS] += tie && !none;
    met[TIE_OF_BRPS_OFF] += tie && !none && r->size > 0;
    met[TIE_OF_BRPS_NONE] += tie && none;
    met[TIE_OF_QUANTA_NONE] += r->of_one_brp;
    if (tie && !none && r->above && r->below)
        met[taken_above ? TIE_OF_SIGNS_TAKEN_ABOVE : TIE_OF_SIGNS_TAKEN_BELOW]++;
    if (r->of_one_brp && !none)
        stop("a tie of one BRP that is taken");
}

/* By the call and the model, in every room. */
static void compare_target(struct target w)
{
    static const size_t rooms[] = {TIMING_BYTES, 0, 1, 2, 4, 5, LONGEST_ROOM};
    int64_t first = 0;
    for (unsigned i = 0; i < COUNT(rooms); i++) {
        uint8_t cnf[TIMING_BYTES] = {0};
        int64_t want = timing_plan(w.oscillator, w.rate, rooms[i], cnf);
        check_plan("mcp2515_plan_timing and the model", w, rooms[i], false, want, cnf);
        if (i == 0)
            first = want;
        count_result(w, rooms[i], want);
        short_for_none += want == -REFUSED_SHORT && first == 0;
        if (rooms[i] == 0) {
            check_plan("a plan with no room, NULL", w, 0, true, want, cnf);
            null_rooms++;
        }
        if (want == TIMING_BYTES)
            check_made(w, cnf);
    }
    plans_done++;
}

/* By the call and the short form, with room for the plan. */
static void compare_short_form(struct target w, unsigned long long *met)
{
    struct candidates r = candidates_of(w.oscillator, w.rate);
    uint8_t cnf[TIMING_BYTES];
    bool none = candidates_none(&r, w.oscillator);
    candidates_bytes(r.brp, r.quanta, cnf);
    check_plan("mcp2515_plan_timing and the short form", w, TIMING_BYTES, false,
               none ? 0 : TIMING_BYTES, cnf);
    count_near(met, w, &r);
    brps_taken[r.brp] += !none;
    quanta_taken[r.quanta] += !none;
}

static void compare_both_forms(struct target w)
{
    compare_target(w);
    compare_short_form(w, nears[0]);
}

static void compare_refused(void)
{
    static const uint32_t oscillators[] = {0,        1,          999999,    1000000,
                                           1000001,  16000000,   39999999,  40000000,
                                           40000001, 0x80000000, 0xFFFFFFFF};
    static const uint32_t rates[] = {0,      1,       4999,    5000,       5001,      500000,
                                     999999, 1000000, 1000001, 0x80000000, 0xFFFFFFFF};
    for (unsigned i = 0; i < COUNT(oscillators) * COUNT(rates); i++)
        compare_target((struct target){oscillators[i / COUNT(rates)], rates[i % COUNT(rates)]});
}

static void compare_plans(unsigned long long plans)
{
    for (unsigned i = 0; i < TARGETS_OF_BOARDS; i++, of_boards++)
        compare_both_forms(target_of_board(i));
    for (unsigned long long i = 0; i < plans; i++) {
        enum target_sort sort = (enum target_sort)(i % TARGET_SORTS);
        compare_both_forms(target_new(sort, &dice));
        of_sorts[sort]++;
    }
    for (unsigned long long i = 0; i < SHORT_FORM_PLANS * plans; i++, short_form_done++)
        compare_short_form(target_new((enum target_sort)(i % TARGET_SORTS), &dice), nears[1]);
}

/* ---- fixed cases ---- */

static void check_faults_case(const struct faults_case *c)
{
    int64_t faults = mcp2515_timing_faults(c->cnf[0], c->cnf[1], c->cnf[2]);
    int64_t sound = mcp2515_check_timing(c->cnf[0], c->cnf[1], c->cnf[2]);
    if (faults != c->faults)
        stop_at("faults of a fixed case", c->name, c->faults, faults);
    if (sound != (c->faults == 0))
        stop_at("a fixed case sound or not", c->name, c->faults == 0, sound);
}

static void check_difference_case(const struct difference_case *c)
{
    int64_t got =
        mcp2515_timing_difference(c->oscillator, c->rate, c->cnf[0], c->cnf[1], c->cnf[2]);
    if (got != c->difference)
        stop_at("difference of a fixed case", c->name, c->difference, got);
}

static void check_plan_case(const struct plan_case *c)
{
    struct target w = {c->oscillator, c->rate};
    check_plan(c->name, w, c->room, false, c->result, c->cnf);
    if (c->result >= 0)
        compare_both_forms(w);
}

int main(int argc, char **argv)
{
    static const struct timing_checks checks = {check_faults_case, check_difference_case,
                                                check_plan_case};
    unsigned long long plans = argc > 1 ? strtoull(argv[1], NULL, 0) : DEFAULT_PLANS;
    seed_given = argc > 2 ? strtoull(argv[2], NULL, 0) : DEFAULT_SEED;
    dice = seed_given;
    cnf_fence = fence_new(LONGEST_ROOM);
    setvbuf(stdout, NULL, _IOLBF, 0); /* the seed has to show even if a call crashes */
    printf("bit timing: %llu random plans, seed %llu\n", plans, seed_given);
    size_t cases = timing_cases(&checks);
    compare_all_bytes();
    compare_differences();
    compare_refused();
    compare_plans(plans);
    printf("met:\n");
    demand_faults();
    demand_differences();
    demand_plans();
    demand_short_form();
    printf("no difference in %zu fixed cases, %llu plans and %llu by the short form, %llu calls\n",
           cases, plans_done, short_form_done, calls_done);
    return 0;
}
