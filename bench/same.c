/*
 * Two archives on logs without the panel: the one of today and one from before there was a
 * panel give the same results, answers and sets. Random logs with byte 2 of kinds 0 to 2
 * always 0, and log files. The model of today has to give the answers too. The first
 * difference ends the run with status 1; what was met is counted.
 *
 *   same records seed [log...]
 */
#include <stdio.h>
#include <stdlib.h>
#include <string.h>

#include "gen.h"
#include "mcp2515.h"
#include "model.h"

enum {
    LONGEST = LOG_RECORDS_MAX + 4, /* some logs are too long on purpose */
    LOG_BYTES = LONGEST * RECORD_BYTES + RECORD_BYTES,
    ANSWER_BYTES = 2 * LONGEST + 256,
    FILL = 0xA5,
    REFUSALS = REFUSED_SPEAKER + 1
};

/* The calls of the archive before, their names changed. */
int64_t before_mcp2515_run_log(const uint8_t *log, size_t log_len, uint8_t *answers,
                               size_t answers_len);
int64_t before_mcp2515_power_on(uint8_t *chip, size_t chip_len);
int64_t before_mcp2515_step_set(uint8_t *chip, size_t chip_len, const uint8_t *record,
                                size_t record_len, uint8_t *answer, size_t answer_len);

static unsigned long long seed_given, seed_of_log, logs_run, records_run;
static unsigned long long refusals[REFUSALS], results[3], kinds[KINDS + 1], replies, sets;
static uint8_t log_bytes[LOG_BYTES], of_today[ANSWER_BYTES], of_before[ANSWER_BYTES],
    of_model[ANSWER_BYTES];

static void stop(const char *what)
{
    printf("DIFFERENCE: %s\nseed %llu, log seed %llu\n", what, seed_given, seed_of_log);
    exit(1);
}

static unsigned below(uint64_t *state, unsigned n)
{
    return (unsigned)((gen_next(state) >> 33) % n);
}

/* ---- one log by all three ---- */

static void stop_at_record(size_t i)
{
    const uint8_t *record = log_bytes + RECORD_BYTES * i;
    printf("record %zu:", i + 1);
    for (unsigned j = 0; j < RECORD_BYTES; j++)
        printf(" %02X", record[j]);
    printf("\nbefore %u %u, today %u %u, model %u %u\n", of_before[2 * i], of_before[2 * i + 1],
           of_today[2 * i], of_today[2 * i + 1], of_model[2 * i], of_model[2 * i + 1]);
    stop("an answer");
}

static void check_speakers(size_t records)
{
    for (size_t i = 0; i < records; i++)
        if (log_bytes[RECORD_BYTES * i] <= KIND_SELECT_HIGH && log_bytes[RECORD_BYTES * i + 2])
            stop("the panel is in the log");
}

static void count_records(size_t records)
{
    for (size_t i = 0; i < records; i++) {
        uint8_t kind = log_bytes[RECORD_BYTES * i], refusal = of_today[2 * i];
        kinds[kind < KINDS ? kind : KINDS]++;
        refusals[refusal < REFUSALS ? refusal : 0]++;
        replies += kind == KIND_EXCHANGE && of_today[2 * i + 1] != 0;
    }
    records_run += records;
}

/* The sets, which the whole-log call does not tell: each archive steps a chip of its own. */
static void compare_sets(size_t records)
{
    uint8_t chip[MCP2515_CHIP_SIZE], chip_before[MCP2515_CHIP_SIZE];
    mcp2515_power_on(chip, sizeof chip);
    before_mcp2515_power_on(chip_before, sizeof chip_before);
    for (size_t i = 0; i < records; i++) {
        const uint8_t *record = log_bytes + RECORD_BYTES * i;
        uint8_t now[MCP2515_ANSWER_SET_SIZE] = {0}, then[MCP2515_ANSWER_SET_SIZE] = {0};
        mcp2515_step_set(chip, sizeof chip, record, RECORD_BYTES, now, sizeof now);
        before_mcp2515_step_set(chip_before, sizeof chip_before, record, RECORD_BYTES, then,
                                sizeof then);
        if (memcmp(now, then, sizeof now) != 0 || memcmp(now, of_today + 2 * i, 2) != 0)
            stop("a step with its set");
        sets += now[2] != 0;
    }
}

static void compare_log(size_t log_len, size_t answers_len)
{
    check_speakers(log_len / RECORD_BYTES);
    memset(of_today, FILL, sizeof of_today);
    memset(of_before, FILL, sizeof of_before);
    memset(of_model, FILL, sizeof of_model);
    int64_t before = before_mcp2515_run_log(log_bytes, log_len, of_before, answers_len);
    int64_t today = mcp2515_run_log(log_bytes, log_len, of_today, answers_len);
    int64_t model = model_run_log(log_bytes, log_len, of_model, answers_len);
    if (before != today || model != today) {
        printf("log of %zu bytes: before %lld, today %lld, model %lld\n", log_len,
               (long long)before, (long long)today, (long long)model);
        stop("result of the call");
    }
    for (int64_t i = 0; i < today; i++)
        if (memcmp(of_before + 2 * i, of_today + 2 * i, 2) != 0 ||
            memcmp(of_model + 2 * i, of_today + 2 * i, 2) != 0)
            stop_at_record((size_t)i);
    if (memcmp(of_before, of_today, sizeof of_today) != 0)
        stop("a byte past the answers");
    logs_run++;
    if (today < 0)
        results[-today - REFUSED_RAGGED]++;
    else {
        count_records((size_t)today);
        compare_sets((size_t)today);
    }
}

/* ---- random logs ---- */

static size_t some_length(uint64_t *state)
{
    unsigned pick = below(state, 100);
    if (pick < 2)
        return LOG_RECORDS_MAX - below(state, 3);
    if (pick < 3)
        return LOG_RECORDS_MAX + 1 + below(state, 3);
    return pick < 40 ? 1000 + below(state, 4000) : below(state, 1000);
}

/* As compare has them. */
static void some_log(uint64_t *state, size_t records)
{
    unsigned pick = below(state, 100);
    seed_of_log = gen_next(state);
    if (pick < 8)
        gen_noise(seed_of_log, log_bytes, RECORD_BYTES * records);
    else
        gen_log_alone(pick < 16   ? GEN_QUIET
                      : pick < 24 ? GEN_BUSY
                                  : GEN_MIXED,
                      seed_of_log, log_bytes, records);
    if (pick >= 84)
        gen_damage(seed_of_log, log_bytes, records);
    gen_hide_speakers(log_bytes, records);
}

static void random_logs(unsigned long long records)
{
    uint64_t state = seed_given;
    while (records_run < records) {
        size_t length = some_length(&state), log_len = RECORD_BYTES * length;
        size_t answers_len = 2 * length + below(&state, 40);
        unsigned pick = below(&state, 100);
        some_log(&state, length);
        if (pick < 4)
            log_len += 1 + below(&state, RECORD_BYTES - 1);
        else if (pick < 8 && length > 0)
            answers_len = below(&state, (unsigned)(2 * length));
        compare_log(log_len, answers_len);
    }
}

/* ---- log files ---- */

static void file_log(const char *path)
{
    FILE *in = fopen(path, "rb");
    if (!in) {
        perror(path);
        exit(1);
    }
    size_t length = fread(log_bytes, 1, LOG_BYTES, in);
    fclose(in);
    seed_of_log = 0;
    compare_log(length, 2 * (length / RECORD_BYTES));
    printf("%s: %zu records, the same answers\n", path, length / RECORD_BYTES);
}

/* ---- what was met ---- */

static void demand(const char *what, unsigned number, unsigned long long count)
{
    printf("  %s %u: %llu\n", what, number, count);
    if (count == 0) {
        printf("NEVER MET\n");
        exit(1);
    }
}

static void demand_all(void)
{
    for (unsigned i = 0; i <= KINDS; i++)
        demand("records of kind", i, kinds[i]);
    for (unsigned i = 0; i <= REFUSED_STATE; i++)
        demand("records with refusal", i, refusals[i]);
    for (unsigned i = 0; i < 3; i++)
        demand("logs with refusal", REFUSED_RAGGED + i, results[i]);
    demand("replies other than", 0, replies);
    demand("sets other than", 0, sets);
    if (refusals[REFUSED_SPEAKER] > 0)
        stop("refusal 18 without a panel");
}

int main(int argc, char **argv)
{
    if (argc < 3) {
        fprintf(stderr, "usage: same records seed [log...]\n");
        return 1;
    }
    seed_given = strtoull(argv[2], NULL, 0);
    for (int i = 3; i < argc; i++)
        file_log(argv[i]);
    random_logs(records_run + strtoull(argv[1], NULL, 0));
    demand_all();
    printf("no difference in %llu logs, %llu records\n", logs_run, records_run);
    return 0;
}
