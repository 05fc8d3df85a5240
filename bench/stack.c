/*
 * The stack that each call needs, by painting a thread's stack and looking
 * where the paint is gone; and the smallest stack limit with which the replay
 * program still runs, in steps of 4 KiB. All of it is shown; the status is 1 if
 * something needs more than it may.
 *
 *   stack replay log
 */
#define _DEFAULT_SOURCE
#include <fcntl.h>
#include <pthread.h>
#include <stdbool.h>
#include <stdio.h>
#include <stdlib.h>
#include <string.h>
#include <sys/mman.h>
#include <sys/resource.h>
#include <sys/wait.h>
#include <unistd.h>

#include "mcp2515.h"

enum { STACK = 1 << 20, PAINT = 0x5C, RECORDS = 4096, STEP_KIB = 4, MOST_KIB = 8192 };

/* Comparing holds the answers of two blocks, the loader some chips; replay its buffers, beside
 * what the system needs. */
enum { CALL_LIMIT = 1024, COMPARE_LIMIT = 9 * 1024, LOAD_LIMIT = 4 * 1024, REPLAY_LIMIT_KIB = 160 };

static uint8_t chip[MCP2515_CHIP_SIZE];
static uint8_t records[RECORDS * MCP2515_RECORD_SIZE];
static uint8_t out[(RECORDS + 1) * MCP2515_LINE_SIZE];

static void die(const char *what)
{
    perror(what);
    exit(1);
}

/* ---- a call on a painted stack ---- */

static void do_nothing(void)
{
}

static void do_run_log(void)
{
    mcp2515_run_log(records, sizeof records, out, sizeof out);
}

/* A log against itself, whole and without its first record: all alike, and hardly anything. */
static void do_compare_logs(void)
{
    size_t length = sizeof records - MCP2515_RECORD_SIZE;
    mcp2515_compare_logs(records, length, records, length, out, sizeof out);
    mcp2515_compare_logs(records, length, records + MCP2515_RECORD_SIZE, length, out, sizeof out);
}

static void do_power_on(void)
{
    mcp2515_power_on(chip, sizeof chip);
}

static void do_step(void)
{
    for (size_t i = 0; i < RECORDS; i++)
        mcp2515_step(chip, sizeof chip, records + MCP2515_RECORD_SIZE * i, MCP2515_RECORD_SIZE, out,
                     MCP2515_ANSWER_SIZE);
}

static void do_step_set(void)
{
    for (size_t i = 0; i < RECORDS; i++)
        mcp2515_step_set(chip, sizeof chip, records + MCP2515_RECORD_SIZE * i, MCP2515_RECORD_SIZE,
                         out, MCP2515_ANSWER_SET_SIZE);
}

static void do_run_from(void)
{
    mcp2515_run_from(chip, sizeof chip, records, sizeof records, out, sizeof out);
}

static void do_hold(void)
{
    for (unsigned address = 0; address < 128; address++)
        out[address] = (uint8_t)mcp2515_hold(chip, sizeof chip, (uint8_t)address);
}

static void do_read(void)
{
    for (unsigned address = 0; address < 128; address++)
        out[address] = (uint8_t)mcp2515_read(chip, sizeof chip, (uint8_t)address);
}

static void do_int_is_low(void)
{
    out[0] = (uint8_t)mcp2515_int_is_low(chip, sizeof chip);
}

static void do_render(void)
{
    mcp2515_render(chip, sizeof chip, 0, records, sizeof records, out, sizeof out);
}

static void do_part_refusal(void)
{
    out[0] = (uint8_t)mcp2515_part_refusal(0, sizeof records);
}

/* Plans of a zero difference, of another one, of a tie, and none for either reason. */
static void do_plan_timing(void)
{
    static const uint32_t targets[][2] = {{16000000, 500000},
                                         {14745600, 10000},
                                         {5125000, 5000},
                                         {40000000, 5000},
                                         {1000000, 1000000}};
    for (unsigned i = 0; i < sizeof targets / sizeof *targets; i++)
        mcp2515_plan_timing(targets[i][0], targets[i][1], out, MCP2515_TIMING_SIZE);
}

static void do_check_timing(void)
{
    out[0] = (uint8_t)mcp2515_check_timing(0x04, 0xB1, 0x05);
}

static void do_timing_faults(void)
{
    out[0] = (uint8_t)mcp2515_timing_faults(0xC0, 0x00, 0x3A);
}

static void do_timing_difference(void)
{
    out[0] = (uint8_t)mcp2515_timing_difference(20000000, 125000, 0x04, 0xB1, 0x05);
}

static void send_session(uint8_t *to, const uint8_t *bytes, size_t count)
{
    uint8_t record[MCP2515_RECORD_SIZE] = {0}, answer[MCP2515_ANSWER_SIZE];
    mcp2515_step(to, MCP2515_CHIP_SIZE, record, sizeof record, answer, sizeof answer);
    for (size_t i = 0; i < count; i++) {
        record[0] = 1;
        record[1] = bytes[i];
        mcp2515_step(to, MCP2515_CHIP_SIZE, record, sizeof record, answer, sizeof answer);
    }
    record[0] = 2;
    record[1] = 0;
    mcp2515_step(to, MCP2515_CHIP_SIZE, record, sizeof record, answer, sizeof answer);
}

/* A chip that a load goes into and one that it waits for; entries of the log's records. */
enum { ENTRIES = 200 };
static uint8_t ready[MCP2515_CHIP_SIZE], waiting[MCP2515_CHIP_SIZE];
static uint8_t events[ENTRIES * MCP2515_EVENT_SIZE];
static const uint8_t profile[MCP2515_PROFILE_SIZE] = {0x24, 0x60, [32] = 0x64, [33] = 0x60};

static void do_load_profile(void)
{
    memcpy(chip, ready, sizeof chip);
    mcp2515_load_profile(chip, sizeof chip, profile, sizeof profile, events, sizeof events);
    memcpy(chip, waiting, sizeof chip);
    mcp2515_load_profile(chip, sizeof chip, profile, sizeof profile, events, sizeof events);
}

static void do_load_records(void)
{
    mcp2515_load_records(ready, sizeof ready, profile, sizeof profile, events, sizeof events, out,
                         sizeof out);
    mcp2515_load_records(waiting, sizeof waiting, profile, sizeof profile, events, sizeof events,
                         out, sizeof out);
}

static void make_loads(void)
{
    static const uint8_t normal[] = {0x02, 0x0F, 0x00}, rts[] = {0x81};
    mcp2515_power_on(ready, sizeof ready);
    send_session(ready, normal, sizeof normal);
    memcpy(waiting, ready, sizeof waiting);
    send_session(waiting, rts, sizeof rts);
    for (unsigned i = 0; i < ENTRIES; i++) {
        uint8_t *entry = events + MCP2515_EVENT_SIZE * i;
        entry[3] = (uint8_t)(i / 3); /* about three a gap */
        memcpy(entry + 4, records + MCP2515_RECORD_SIZE * i, MCP2515_RECORD_SIZE);
    }
}

static const struct call {
    const char *name;
    void (*run)(void);
    size_t limit; /* bytes */
} calls[] = {
    {"no call at all", do_nothing, CALL_LIMIT},
    {"mcp2515_run_log", do_run_log, CALL_LIMIT},
    {"mcp2515_power_on", do_power_on, CALL_LIMIT},
    {"mcp2515_step", do_step, CALL_LIMIT},
    {"mcp2515_step_set", do_step_set, CALL_LIMIT},
    {"mcp2515_run_from", do_run_from, CALL_LIMIT},
    {"mcp2515_hold", do_hold, CALL_LIMIT},
    {"mcp2515_read", do_read, CALL_LIMIT},
    {"mcp2515_int_is_low", do_int_is_low, CALL_LIMIT},
    {"mcp2515_render", do_render, CALL_LIMIT},
    {"mcp2515_part_refusal", do_part_refusal, CALL_LIMIT},
    {"mcp2515_compare_logs", do_compare_logs, COMPARE_LIMIT},
    {"mcp2515_plan_timing", do_plan_timing, CALL_LIMIT},
    {"mcp2515_check_timing", do_check_timing, CALL_LIMIT},
    {"mcp2515_timing_faults", do_timing_faults, CALL_LIMIT},
    {"mcp2515_timing_difference", do_timing_difference, CALL_LIMIT},
    {"mcp2515_load_profile", do_load_profile, LOAD_LIMIT},
    {"mcp2515_load_records", do_load_records, LOAD_LIMIT},
};

struct painted {
    const struct call *call;
    volatile uint8_t *stack; /* its lowest byte */
    size_t used;
};

/*
 * Paints all of the stack below this frame, calls, and looks for the lowest byte
 * without paint. No function but the call may run between the loops: the stack
 * pointer is taken by hand (x86-64).
 */
static void *call_on_paint(void *argument)
{
    struct painted *p = argument;
    volatile uint8_t *top, *at;
    __asm__ volatile("mov %%rsp, %0" : "=r"(top));
    for (at = p->stack; at < top; at++)
        *at = PAINT;
    p->call->run();
    for (at = p->stack; at < top && *at == PAINT; at++)
        continue;
    p->used = (size_t)(top - at);
    return NULL;
}

/* Bytes of stack that a call needs, with its return address and the few of its wrapper here. */
static size_t stack_used(const struct call *c)
{
    void *stack = mmap(NULL, STACK, PROT_READ | PROT_WRITE, MAP_PRIVATE | MAP_ANONYMOUS, -1, 0);
    struct painted p = {c, stack, 0};
    pthread_attr_t attributes;
    pthread_t thread;
    if (stack == MAP_FAILED)
        die("mmap");
    pthread_attr_init(&attributes);
    if (pthread_attr_setstack(&attributes, stack, STACK) != 0 ||
        pthread_create(&thread, &attributes, call_on_paint, &p) != 0 ||
        pthread_join(thread, NULL) != 0)
        die("thread");
    munmap(stack, STACK);
    return p.used;
}

/* The records of a log over and over, until the calls have seen a good many. */
static void fill_records(const char *path)
{
    FILE *in = fopen(path, "rb");
    size_t got = in ? fread(records, MCP2515_RECORD_SIZE, RECORDS, in) : 0;
    if (got == 0)
        die(path);
    for (size_t i = got; i < RECORDS; i++)
        memcpy(records + MCP2515_RECORD_SIZE * i, records + MCP2515_RECORD_SIZE * (i - got),
               MCP2515_RECORD_SIZE);
    fclose(in);
}

static bool within(const char *what, size_t needs, size_t limit, const char *unit)
{
    if (needs <= limit)
        return true;
    fprintf(stderr, "%s: %zu %s of stack, more than the limit of %zu\n", what, needs, unit, limit);
    return false;
}

static bool measure_calls(void)
{
    bool good = true;
    mcp2515_power_on(chip, sizeof chip);
    make_loads();
    for (size_t i = 0; i < sizeof calls / sizeof *calls; i++) {
        size_t used = stack_used(&calls[i]);
        printf("%-25s %6zu bytes of stack\n", calls[i].name, used);
        good &= within(calls[i].name, used, calls[i].limit, "bytes");
    }
    return good;
}

/* ---- the replay program ---- */

static bool replay_runs(const char *replay, const char *log, unsigned kib)
{
    int status;
    pid_t child = fork();
    if (child < 0)
        die("fork");
    if (child == 0) {
        struct rlimit limit = {kib * 1024ul, kib * 1024ul};
        struct rlimit no_core = {0, 0};
        int null = open("/dev/null", O_WRONLY);
        if (null < 0 || dup2(null, STDOUT_FILENO) < 0 || setrlimit(RLIMIT_CORE, &no_core) != 0 ||
            setrlimit(RLIMIT_STACK, &limit) != 0)
            _exit(127);
        execl(replay, replay, log, (char *)NULL);
        _exit(127);
    }
    if (waitpid(child, &status, 0) != child)
        die("waitpid");
    return WIFEXITED(status) && WEXITSTATUS(status) == 0;
}

static bool measure_replay(const char *replay, const char *log)
{
    unsigned fails = 0, runs = MOST_KIB;
    if (!replay_runs(replay, log, MOST_KIB)) {
        fprintf(stderr, "%s fails with a stack of %d KiB\n", replay, MOST_KIB);
        exit(1);
    }
    while (runs - fails > STEP_KIB) {
        unsigned middle = (fails + runs) / 2 / STEP_KIB * STEP_KIB;
        if (replay_runs(replay, log, middle))
            runs = middle;
        else
            fails = middle;
    }
    printf("the replay program runs with a stack limit of %u KiB, and not with %u KiB\n", runs,
           fails);
    return within("the replay program", runs, REPLAY_LIMIT_KIB, "KiB");
}

int main(int argc, char **argv)
{
    if (argc != 3) {
        fprintf(stderr, "usage: stack replay log\n");
        return 1;
    }
    fill_records(argv[2]);
    bool calls_good = measure_calls(), replay_good = measure_replay(argv[1], argv[2]);
    return calls_good && replay_good ? 0 : 1;
}
