/*
 * Time of mcp2515_compare_logs in parts of the runs of the same logs by
 * mcp2515_run_log: of one run for two equal logs, of both for two that differ.
 */
#include <stdio.h>
#include <stdlib.h>
#include <string.h>

#include "differences.h"
#include "gen.h"
#include "mcp2515.h"
#include "speed.h"

_Static_assert((int)ENTRY_BYTES == MCP2515_ENTRY_SIZE, "an entry of the model and of the call");

/* Logs of one size, as many as fit, each with another one to compare it with. */
struct pairs {
    uint8_t *first, *second;
    size_t records; /* of each log */
    size_t count;   /* of pairs */
    size_t *entries;
    bool equal;
};

static uint8_t answers[2 * MOST], entries[ENTRY_BYTES * MOST], model_entries[ENTRY_BYTES * MOST];

/* ---- what is timed ---- */

static void run_logs(const struct pairs *p, size_t i)
{
    size_t length = RECORD_BYTES * p->records;
    mcp2515_run_log(p->first + length * i, length, answers, sizeof answers);
    if (!p->equal)
        mcp2515_run_log(p->second + length * i, length, answers, sizeof answers);
}

static void compare_into(size_t room, const struct pairs *p, size_t i)
{
    size_t length = RECORD_BYTES * p->records;
    mcp2515_compare_logs(p->first + length * i, length, p->second + length * i, length, entries,
                         ENTRY_BYTES * room);
}

static void compare_exact(const struct pairs *p, size_t i)
{
    compare_into(p->entries[i], p, i);
}

static void compare_all(const struct pairs *p, size_t i)
{
    compare_into(p->records, p, i);
}

enum { RUNS, EXACT, ALL, WAYS };
static void (*const ways[WAYS])(const struct pairs *, size_t) = {run_logs, compare_exact,
                                                                 compare_all};

static void run_pairs(unsigned way, const struct pairs *p, unsigned passes)
{
    for (unsigned pass = 0; pass < passes; pass++)
        for (size_t i = 0; i < p->count; i++)
            ways[way](p, i);
}

/* By turns, so that all meet the same load, in rising and falling order; the first pass of
 * each turn is not timed. */
static void time_ways(const struct pairs *p, double ns[WAYS])
{
    double timed = (double)PASSES * (double)p->count * (double)p->records;
    for (unsigned go = 0; go < GOES; go++)
        for (unsigned i = 0; i < WAYS; i++) {
            unsigned way = go % 2 ? WAYS - 1 - i : i;
            run_pairs(way, p, 1);
            double start = now();
            run_pairs(way, p, PASSES);
            double took = (now() - start) * 1e9 / timed;
            if (go == 0 || took < ns[way])
                ns[way] = took;
        }
}

/* ---- pairs ---- */

static void copy_first(struct pairs *p, make_log *make)
{
    (void)make;
    memcpy(p->second, p->first, RECORD_BYTES * p->records * p->count);
    p->equal = true;
}

static void make_others(struct pairs *p, make_log *make)
{
    for (size_t i = 0; i < p->count; i++)
        make(SEED + p->count + i, p->second + RECORD_BYTES * p->records * i, p->records);
}

/* The first record is a receive error, in Configuration without effect, large in one log
 * and small in the other: a single entry, and the chips stay alike. */
static void change_first(struct pairs *p, make_log *make)
{
    static const uint8_t error[RECORD_BYTES] = {KIND_RECEIVE_ERROR};
    size_t length = RECORD_BYTES * p->records;
    for (size_t i = 0; i < p->count; i++) {
        uint8_t *log = p->first + length * i;
        memcpy(log, error, RECORD_BYTES);
        make(SEED + i, log + RECORD_BYTES, p->records - 1);
    }
    memcpy(p->second, p->first, length * p->count);
    for (size_t i = 0; i < p->count; i++)
        p->second[length * i + 1] = 1;
}

/* The whole log before the only entry, which is for a record of no kind. */
static void change_last(struct pairs *p, make_log *make)
{
    size_t length = RECORD_BYTES * p->records;
    (void)make;
    memcpy(p->second, p->first, length * p->count);
    for (size_t i = 1; i <= p->count; i++)
        p->second[length * i - RECORD_BYTES] = KINDS;
}

/* Others, but for the last record, which is of no kind: the call must count before it writes,
 * unless there is room for all. */
static void make_almost_others(struct pairs *p, make_log *make)
{
    make_others(p, make);
    for (size_t i = 1; i <= p->count; i++) {
        size_t last = RECORD_BYTES * (p->records * i - 1);
        p->first[last] = KINDS;
        memcpy(p->second + last, p->first + last, RECORD_BYTES);
    }
}

struct sort {
    const char *name;
    void (*make)(struct pairs *, make_log *);
    double limit; /* 0 for none */
};

/* Comparing works out the sets, and the runs that it is measured by do not. */
static const struct sort sorts[] = {
    {"equal", copy_first, 1.3},
    {"different", make_others, 2.5},
    {"first rec.", change_first, 2.5},
    {"last rec.", change_last, 2.3},
};
enum { SORTS = sizeof sorts / sizeof *sorts };

/* Nearly all records are refused, and none costs less: here comparing outweighs running. */
static const struct sort noise_sort = {"different", make_almost_others, 0};

static size_t noise_log(uint64_t seed, uint8_t *log, size_t records)
{
    gen_noise(seed, log, RECORD_BYTES * records);
    return records;
}

/* The entries of each pair by the model, which the call must give too. */
static void check_pairs(const char *name, struct pairs *p)
{
    struct log_part leftover;
    size_t length = RECORD_BYTES * p->records;
    for (size_t i = 0; i < p->count; i++) {
        const uint8_t *first = p->first + length * i, *second = p->second + length * i;
        int64_t want = model_compare_logs(first, length, second, length, model_entries,
                                          sizeof model_entries, &leftover);
        p->entries[i] = (size_t)want;
        for (unsigned way = EXACT; way <= ALL; way++) {
            size_t room = ENTRY_BYTES * (way == EXACT ? p->entries[i] : p->records);
            memset(entries, 0xFF, room);
            if (mcp2515_compare_logs(first, length, second, length, entries, room) == want &&
                memcmp(entries, model_entries, ENTRY_BYTES * p->entries[i]) == 0)
                continue;
            fprintf(stderr, "%s: mcp2515_compare_logs and the model disagree\n", name);
            exit(1);
        }
    }
}

void print_pairs_head(void)
{
    printf("%-8s %8s %-10s %12s %8s %8s %6s\n", "log", "records", "pair", "runs ns/rec", "compare",
           "all room", "limit");
}

static bool time_row(const char *name, struct pairs *p, const struct sort *sort)
{
    double ns[WAYS] = {0};
    char limit[16] = "-";
    check_pairs(name, p);
    time_ways(p, ns);
    double exact = ns[EXACT] / ns[RUNS], all = ns[ALL] / ns[RUNS];
    bool kept = sort->limit == 0 || (exact <= sort->limit && all <= sort->limit);
    if (sort->limit > 0)
        snprintf(limit, sizeof limit, "%.2f", sort->limit);
    printf("%-8s %8zu %-10s %12.1f %8.2f %8.2f %6s%s\n", name, p->records, sort->name, ns[RUNS],
           exact, all, limit, kept ? "" : "  OVER THE LIMIT");
    fflush(stdout);
    return kept;
}

static const size_t sizes[] = {1000, 10000, MOST};
enum { SIZES = sizeof sizes / sizeof *sizes };

static bool time_sort(const char *name, make_log *make, const struct sort *sort, size_t records)
{
    static uint8_t first[RECORD_BYTES * MOST], second[RECORD_BYTES * MOST];
    static size_t counts[MOST / 1000];
    struct pairs p = {first, second, records, MOST / records, counts, false};
    for (size_t i = 0; i < p.count; i++)
        make(SEED + i, first + RECORD_BYTES * records * i, records);
    sort->make(&p, make);
    return time_row(name, &p, sort);
}

bool time_pairs(const char *name, make_log *make)
{
    bool kept = true;
    for (size_t s = 0; s < SIZES; s++)
        for (unsigned sort = 0; sort < SORTS; sort++)
            kept = time_sort(name, make, &sorts[sort], sizes[s]) && kept;
    return kept;
}

void time_noise_pairs(void)
{
    for (size_t s = 0; s < SIZES; s++)
        time_sort("noise", noise_log, &noise_sort, sizes[s]);
}
