/*
 * Mean time of a plan by mcp2515_plan_timing over the targets of a sort, and time
 * of the slowest of them, beside the second model's search. A plan may take 20
 * microseconds, the slowest one too.
 */
#include <stdio.h>
#include <stdlib.h>
#include <string.h>

#include "mcp2515.h"
#include "speed.h"
#include "timing.h"
#include "timing_targets.h"

enum { TARGETS = TARGETS_OF_BOARDS, CALLS = 20, LIMIT_NS = 20000, MORE_TURNS = 3 };

static void make_boards(struct target *targets)
{
    for (unsigned i = 0; i < TARGETS; i++)
        targets[i] = target_of_board(i);
}

static void make_any(struct target *targets)
{
    uint64_t dice = SEED;
    for (unsigned i = 0; i < TARGETS; i++)
        targets[i] = target_new(TARGET_ANY, &dice);
}

/* One of each sort after the other. */
static void make_aimed(struct target *targets)
{
    uint64_t dice = SEED;
    for (unsigned i = 0; i < TARGETS; i++)
        targets[i] = target_new((enum target_sort)(i % TARGET_SORTS), &dice);
}

static const struct {
    const char *name;
    void (*make)(struct target *targets);
} sorts[] = {{"boards", make_boards}, {"any", make_any}, {"aimed", make_aimed}};

struct plan_times {
    double call, model;    /* ns a plan, over all targets */
    double single[TARGETS]; /* of each by the call, several times in a row */
};

static void check_targets(const char *name, const struct target *targets)
{
    for (unsigned i = 0; i < TARGETS; i++) {
        uint8_t want[TIMING_BYTES] = {0}, got[TIMING_BYTES] = {0};
        struct target t = targets[i];
        int64_t result = timing_plan(t.oscillator, t.rate, sizeof want, want);
        if (mcp2515_plan_timing(t.oscillator, t.rate, got, sizeof got) == result &&
            memcmp(want, got, sizeof got) == 0)
            continue;
        fprintf(stderr, "%s: mcp2515_plan_timing and the model disagree\n", name);
        exit(1);
    }
}

static void take_best(double *best, double start, unsigned plans)
{
    double ns = (now() - start) * 1e9 / plans;
    if (*best == 0 || ns < *best)
        *best = ns;
}

static void plan_by_call(const struct target *w)
{
    uint8_t cnf[TIMING_BYTES];
    mcp2515_plan_timing(w->oscillator, w->rate, cnf, sizeof cnf);
}

/* Once over all targets before each turn that is timed. */
static void time_call(const struct target *targets, struct plan_times *t)
{
    for (unsigned i = 0; i < TARGETS; i++)
        plan_by_call(&targets[i]);
    double start = now();
    for (unsigned i = 0; i < CALLS * TARGETS; i++)
        plan_by_call(&targets[i % TARGETS]);
    take_best(&t->call, start, CALLS * TARGETS);
    for (unsigned i = 0; i < TARGETS; i++) {
        start = now();
        for (unsigned k = 0; k < CALLS; k++)
            plan_by_call(&targets[i]);
        take_best(&t->single[i], start, CALLS);
    }
}

static void time_model(const struct target *targets, struct plan_times *t)
{
    uint8_t cnf[TIMING_BYTES];
    double start = now();
    for (unsigned i = 0; i < TARGETS; i++)
        timing_plan(targets[i].oscillator, targets[i].rate, sizeof cnf, cnf);
    take_best(&t->model, start, TARGETS);
}

static double slowest(const struct plan_times *t)
{
    double most = 0;
    for (unsigned i = 0; i < TARGETS; i++)
        most = t->single[i] > most ? t->single[i] : most;
    return most;
}

static bool is_over(const struct plan_times *t)
{
    return t->call > LIMIT_NS || slowest(t) > LIMIT_NS;
}

/* Over the limit they get more turns, as other work may have slowed them down. */
static bool time_sort(unsigned sort)
{
    static struct target targets[TARGETS];
    struct plan_times t = {0};
    sorts[sort].make(targets);
    check_targets(sorts[sort].name, targets);
    for (unsigned turn = 0; turn <= MORE_TURNS && (turn == 0 || is_over(&t)); turn++)
        for (unsigned go = 0; go < GOES; go++) {
            time_call(targets, &t);
            time_model(targets, &t);
        }
    printf("%-8s %8d %13.1f %8.1f %6d %14.1f %8.4f%s\n", sorts[sort].name, TARGETS, t.call,
           slowest(&t), LIMIT_NS, t.model, t.call / t.model, is_over(&t) ? "  OVER THE LIMIT" : "");
    fflush(stdout);
    return !is_over(&t);
}

bool time_plans(void)
{
    bool kept = true;
    printf("%-8s %8s %13s %8s %6s %14s %8s\n", "targets", "plans", "call ns/plan", "slowest",
           "limit", "model ns/plan", "ratio");
    for (unsigned sort = 0; sort < sizeof sorts / sizeof *sorts; sort++)
        kept = time_sort(sort) && kept;
    return kept;
}
