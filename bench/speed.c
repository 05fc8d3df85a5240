/*
 * Time a record of the proved call and of the second model on the same logs,
 * and what a record costs by mcp2515_run_from, by mcp2515_step and by
 * mcp2515_step_set in parts of the whole-log call; the same for logs of hardly
 * anything but frames, by the frame; records a second and peak memory of the
 * replay program; then mcp2515_compare_logs in parts of the runs of its logs,
 * mcp2515_plan_timing by the plan, and the profile loader by the load. An older
 * archive that is linked in (make speed BEFORE=..) is timed beside, on whole logs;
 * of it only mcp2515_run_log is called. The status is 1 if a ratio, a plan or a
 * load is over its limit.
 *
 *   speed replay log-file-to-write
 */
#define _DEFAULT_SOURCE
#include <fcntl.h>
#include <stdbool.h>
#include <stdio.h>
#include <stdlib.h>
#include <string.h>
#include <sys/resource.h>
#include <sys/time.h>
#include <sys/wait.h>
#include <time.h>
#include <unistd.h>

#include "gen.h"
#include "mcp2515.h"
#include "model.h"
#include "speed.h"
#include "speed_logs.h"

enum { REPLAY_RUNS = 5, MORE_TURNS = 3 };
enum { ALL_FILTERS = 0x3F, OUTCOME_BYTES = MCP2515_ANSWER_SET_SIZE };

/* What a log that is rich in frames may take, in times of the archive before. */
static const double frames_limit = 1.10;

/* The whole-log call of the older archive, its name changed; NULL if there is none. */
int64_t before_mcp2515_run_log(const uint8_t *log, size_t log_len, uint8_t *answers,
                               size_t answers_len) __attribute__((weak));

static uint8_t answers_of_call[2 * MOST], answers_of_model[2 * MOST];
static uint8_t outcomes_of_call[OUTCOME_BYTES * MOST]; /* refusal, answer, set */

double now(void)
{
    struct timespec t;
    clock_gettime(CLOCK_MONOTONIC, &t);
    return (double)t.tv_sec + (double)t.tv_nsec * 1e-9;
}

static void die(const char *what)
{
    perror(what);
    exit(1);
}

/* As many different logs of one size as fit: a short log run over and over
 * would be learnt by the branch predictor and look too fast. */
struct pool {
    const uint8_t *bytes;
    size_t records; /* of each log */
    size_t logs;
    size_t counted; /* in all logs: what a time is given for, records or frames */
};

static void run_call(const struct pool *p, size_t i)
{
    size_t length = RECORD_BYTES * p->records;
    mcp2515_run_log(p->bytes + length * i, length, answers_of_call, 2 * p->records);
}

static void run_before(const struct pool *p, size_t i)
{
    size_t length = RECORD_BYTES * p->records;
    before_mcp2515_run_log(p->bytes + length * i, length, answers_of_call, 2 * p->records);
}

static void run_model(const struct pool *p, size_t i)
{
    size_t length = RECORD_BYTES * p->records;
    model_run_log(p->bytes + length * i, length, answers_of_model, 2 * p->records);
}

static void run_from(const struct pool *p, size_t i)
{
    uint8_t chip[MCP2515_CHIP_SIZE];
    size_t length = RECORD_BYTES * p->records;
    mcp2515_power_on(chip, sizeof chip);
    mcp2515_run_from(chip, sizeof chip, p->bytes + length * i, length, answers_of_call,
                     2 * p->records);
}

static void run_steps(const struct pool *p, size_t i)
{
    uint8_t chip[MCP2515_CHIP_SIZE];
    const uint8_t *log = p->bytes + RECORD_BYTES * p->records * i;
    mcp2515_power_on(chip, sizeof chip);
    for (size_t at = 0; at < p->records; at++)
        mcp2515_step(chip, sizeof chip, log + RECORD_BYTES * at, RECORD_BYTES,
                     answers_of_call + 2 * at, 2);
}

static void run_step_sets(const struct pool *p, size_t i)
{
    uint8_t chip[MCP2515_CHIP_SIZE];
    const uint8_t *log = p->bytes + RECORD_BYTES * p->records * i;
    mcp2515_power_on(chip, sizeof chip);
    for (size_t at = 0; at < p->records; at++)
        mcp2515_step_set(chip, sizeof chip, log + RECORD_BYTES * at, RECORD_BYTES,
                         outcomes_of_call + OUTCOME_BYTES * at, OUTCOME_BYTES);
}

/* What is timed. */
enum { CALL, BEFORE, MODEL, FROM, STEPS, STEP_SETS, WAYS };
static const struct {
    const char *name;
    void (*run)(const struct pool *, size_t);
} ways[WAYS] = {
    {"the call", run_call},      {"the call of the archive before", run_before},
    {"the model", run_model},    {"mcp2515_run_from", run_from},
    {"mcp2515_step", run_steps}, {"mcp2515_step_set", run_step_sets},
};

static bool is_there(unsigned way)
{
    return way != BEFORE || before_mcp2515_run_log;
}

/* Refusal, answer and set of each record as mcp2515_step_set gave them. */
static bool outcomes_agree(const struct pool *p, size_t i)
{
    struct model m;
    model_power_on(&m);
    for (size_t at = 0; at < p->records; at++) {
        uint8_t want[OUTCOME_BYTES];
        const uint8_t *record = p->bytes + RECORD_BYTES * (p->records * i + at);
        model_step_set(&m, record, &want[0], &want[1], &want[2]);
        if (memcmp(outcomes_of_call + OUTCOME_BYTES * at, want, OUTCOME_BYTES) != 0)
            return false;
    }
    return true;
}

static bool agrees(unsigned way, const struct pool *p, size_t i)
{
    memset(answers_of_call, 0xFF, 2 * p->records);
    memset(outcomes_of_call, 0xFF, OUTCOME_BYTES * p->records);
    run_model(p, i);
    ways[way].run(p, i);
    if (way == STEP_SETS)
        return outcomes_agree(p, i);
    return memcmp(answers_of_call, answers_of_model, 2 * p->records) == 0;
}

/* The archive before follows the rules of its day: what it answers otherwise is told. */
static void tell_before(const char *name, const struct pool *p)
{
    size_t otherwise = 0;
    for (size_t i = 0; i < p->logs; i++) {
        run_model(p, i);
        run_before(p, i);
        for (size_t at = 0; at < p->records; at++)
            otherwise += memcmp(answers_of_call + 2 * at, answers_of_model + 2 * at, 2) != 0;
    }
    if (otherwise > 0)
        fprintf(stderr, "%s: the archive before answers %zu of %zu records otherwise\n", name,
                otherwise, p->logs * p->records);
}

static void check_pool(const char *name, const struct pool *p)
{
    for (size_t i = 0; i < p->logs; i++)
        for (unsigned way = 0; way < WAYS; way++) {
            if (way == MODEL || way == BEFORE || agrees(way, p, i))
                continue;
            fprintf(stderr, "%s: %s and the model disagree\n", name, ways[way].name);
            exit(1);
        }
    if (is_there(BEFORE))
        tell_before(name, p);
}

static void run_pool(unsigned way, const struct pool *p, unsigned passes)
{
    for (unsigned pass = 0; pass < passes; pass++)
        for (size_t i = 0; i < p->logs; i++)
            ways[way].run(p, i);
}

/* The first pass is not timed: after a way that runs the same code it would be shorter. */
static void take_best(double *best, unsigned way, const struct pool *p)
{
    run_pool(way, p, 1);
    double start = now();
    run_pool(way, p, PASSES);
    double ns = (now() - start) * 1e9 / ((double)PASSES * (double)p->counted);
    if (*best == 0 || ns < *best)
        *best = ns;
}

/* By turns, so that all meet the same load, in rising and falling order. */
static void time_by_turns(const struct pool *p, const uint8_t *timed, unsigned count,
                          double ns[WAYS])
{
    for (unsigned go = 0; go < GOES; go++)
        for (unsigned i = 0; i < count; i++) {
            unsigned way = timed[go % 2 ? count - 1 - i : i];
            if (is_there(way))
                take_best(&ns[way], way, p);
        }
}

/* Without the panel, so that times can be held against those of an older archive. */
static size_t quiet_log(uint64_t seed, uint8_t *log, size_t records)
{
    gen_log_alone(GEN_QUIET, seed, log, records);
    return records;
}

static size_t busy_log(uint64_t seed, uint8_t *log, size_t records)
{
    gen_log_alone(GEN_BUSY, seed, log, records);
    return records;
}

static size_t random_log(uint64_t seed, uint8_t *log, size_t records)
{
    gen_log_alone(GEN_MIXED, seed, log, records);
    return records;
}

/* Each frame is for RXB0 and has all six filters in its set; some are stored. */
static void check_first_log(uint8_t *log)
{
    size_t frames = 0, stored = 0, others = 0;
    struct model m;
    model_power_on(&m);
    size_t counted = first_log(SEED, log, MOST);
    for (size_t i = 0; i < MOST; i++) {
        const uint8_t *record = log + RECORD_BYTES * i;
        uint8_t refusal, answer, set;
        model_step_set(&m, record, &refusal, &answer, &set);
        if (record[0] != KIND_FRAME)
            continue;
        frames++;
        stored += answer == RX_IN_RXB0;
        others += set != ALL_FILTERS || (answer != RX_IN_RXB0 && answer != RX_LOST);
    }
    if (others == 0 && frames == counted && frames > MOST * 3 / 4 && stored > frames / 50)
        return;
    fprintf(stderr, "the log first: of %zu frames %zu are stored, %zu not as they should be\n",
            frames, stored, others);
    exit(1);
}

static void print_head(const char *unit)
{
    char call[16], model[16];
    snprintf(call, sizeof call, "call ns/%s", unit);
    snprintf(model, sizeof model, "model ns/%s", unit);
    printf("%-8s %8s %13s", "log", "records", call);
    if (is_there(BEFORE))
        printf(" %8s %8s %6s", "before", "ratio", "limit");
    printf(" %14s %8s %9s %9s %9s\n", model, "ratio", "run_from", "step", "step_set");
}

/* What is timed, and how it is made. */
struct sort {
    const char *name;
    make_log *make;
    bool has_limit; /* to the archive before: half of the records are frames, or nearly all */
};

static bool is_over(const struct sort *sort, const double ns[WAYS])
{
    return sort->has_limit && is_there(BEFORE) && ns[CALL] > frames_limit * ns[BEFORE];
}

static void print_before(const struct sort *sort, const double ns[WAYS])
{
    char limit[16] = "-";
    if (sort->has_limit)
        snprintf(limit, sizeof limit, "%.2f", frames_limit);
    printf(" %8.1f %8.2f %6s", ns[BEFORE], ns[CALL] / ns[BEFORE], limit);
}

/* The archives and the model by themselves first: timed among the live calls, which run the
 * code of one archive only, that archive came out faster than its own copy. Over the limit
 * they get more turns, as other work may have slowed one of them down. */
static bool time_row(const struct sort *sort, const struct pool *p)
{
    static const uint8_t whole[] = {CALL, MODEL, BEFORE}, live[] = {CALL, FROM, STEPS, STEP_SETS};
    double ns[WAYS] = {0}, parts[WAYS] = {0};
    time_by_turns(p, whole, sizeof whole, ns);
    for (unsigned more = 0; more < MORE_TURNS && is_over(sort, ns); more++)
        time_by_turns(p, whole, sizeof whole, ns);
    time_by_turns(p, live, sizeof live, parts);
    printf("%-8s %8zu %13.1f", sort->name, p->records, ns[CALL]);
    if (is_there(BEFORE))
        print_before(sort, ns);
    printf(" %14.1f %8.2f %9.2f %9.2f %9.2f%s\n", ns[MODEL], ns[CALL] / ns[MODEL],
           parts[FROM] / parts[CALL], parts[STEPS] / parts[CALL], parts[STEP_SETS] / parts[CALL],
           is_over(sort, ns) ? "  OVER THE LIMIT" : "");
    fflush(stdout);
    return !is_over(sort, ns);
}

static bool time_logs(const struct sort *sort, uint8_t *bytes)
{
    static const size_t sizes[] = {1000, 10000, MOST};
    bool kept = true;
    for (size_t s = 0; s < sizeof sizes / sizeof *sizes; s++) {
        struct pool p = {.bytes = bytes, .records = sizes[s], .logs = MOST / sizes[s]};
        for (size_t i = 0; i < p.logs; i++)
            p.counted += sort->make(SEED + i, bytes + RECORD_BYTES * p.records * i, p.records);
        check_pool(sort->name, &p);
        kept = time_row(sort, &p) && kept;
    }
    return kept;
}

static void write_log(const char *path, const uint8_t *log)
{
    FILE *out = fopen(path, "wb");
    if (!out || fwrite(log, RECORD_BYTES, MOST, out) != MOST || fclose(out) != 0)
        die(path);
}

static double run_replay(const char *replay, const char *path, long *peak_kb)
{
    struct rusage usage;
    int status;
    double start = now();
    pid_t child = fork();
    if (child < 0)
        die("fork");
    if (child == 0) {
        int null = open("/dev/null", O_WRONLY);
        if (null < 0 || dup2(null, STDOUT_FILENO) < 0)
            _exit(127);
        execl(replay, replay, path, (char *)NULL);
        _exit(127);
    }
    if (wait4(child, &status, 0, &usage) != child)
        die("wait4");
    double seconds = now() - start;
    if (!WIFEXITED(status) || WEXITSTATUS(status) != 0) {
        fprintf(stderr, "%s failed\n", replay);
        exit(1);
    }
    *peak_kb = usage.ru_maxrss;
    return seconds;
}

static void time_replay(const char *replay, const char *path)
{
    double best = 0;
    long peak_kb = 0;
    for (unsigned i = 0; i < REPLAY_RUNS; i++) {
        double seconds = run_replay(replay, path, &peak_kb);
        if (i == 0 || seconds < best)
            best = seconds;
    }
    printf("replay: %d records in %.1f ms, %.0f records a second, peak memory %ld KiB\n", MOST,
           best * 1e3, MOST / best, peak_kb);
}

static bool time_all_pairs(void)
{
    print_pairs_head();
    bool quiet = time_pairs("quiet", quiet_log), busy = time_pairs("busy", busy_log);
    bool random = time_pairs("random", random_log);
    time_noise_pairs();
    return quiet && busy && random;
}

/* By the record. The last one leaves its log, of full length, to be written. */
static const struct sort by_record[] = {
    {"quiet", quiet_log, false},
    {"busy", busy_log, true},
    {"pins", pins_log, false},
    {"panel", panel_log, false},
    {"random", random_log, false},
};

/* By the frame. */
static const struct sort by_frame[] = {
    {"late", late_log, true},
    {"last", last_log, true},
    {"first", first_log, true},
};

static bool time_sorts(const struct sort *sorts, size_t count, uint8_t *log)
{
    bool kept = true;
    for (size_t i = 0; i < count; i++)
        kept = time_logs(&sorts[i], log) && kept;
    return kept;
}

int main(int argc, char **argv)
{
    uint8_t *log = malloc((size_t)MOST * RECORD_BYTES);
    if (argc != 3 || !log) {
        fprintf(stderr, "usage: speed replay log-file-to-write\n");
        return 1;
    }
    check_first_log(log);
    print_head("rec");
    bool records = time_sorts(by_record, sizeof by_record / sizeof *by_record, log);
    write_log(argv[2], log);
    print_head("frame");
    bool frames = time_sorts(by_frame, sizeof by_frame / sizeof *by_frame, log);
    time_replay(argv[1], argv[2]); /* before the pairs: a fork counts the memory of this program */
    free(log);
    bool pairs = time_all_pairs(), plans = time_plans(), loads = time_loads();
    if (!records || !frames)
        fprintf(stderr, "logs rich in frames: more than %.2f times the archive before\n",
                frames_limit);
    if (!pairs)
        fprintf(stderr, "comparing two logs: a ratio is over its limit\n");
    if (!plans)
        fprintf(stderr, "planning bit timing: a plan takes longer than its limit\n");
    if (!loads)
        fprintf(stderr, "loading a profile: a load takes longer than its limit\n");
    return records && frames && pairs && plans && loads ? 0 : 1;
}
