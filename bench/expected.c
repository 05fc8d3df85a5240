/*
 * Prints what the replay program has to print for a log file, by the second
 * model; with --sets instead the set of each record, also where it has no place
 * in the line. Without a file the log comes from standard input.
 *
 *   expected [--sets] [log]
 */
#include <stdbool.h>
#include <stdio.h>
#include <string.h>

#include "model.h"

/* A frame's line shows its set too, also where the frame is refused. */
static void print_line(struct model *m, unsigned long number, const uint8_t *record)
{
    uint8_t refusal, answer, set;
    model_step_set(m, record, &refusal, &answer, &set);
    printf("%lu %u %u", number, refusal, answer);
    if (record[0] == KIND_FRAME)
        printf(" %u", set);
    printf("\n");
}

static void print_lines(FILE *in)
{
    struct model m;
    uint8_t record[RECORD_BYTES];
    size_t got;
    model_power_on(&m);
    for (unsigned long number = 1; (got = fread(record, 1, sizeof record, in)) > 0; number++) {
        if (got < sizeof record) {
            printf("%lu %d 0\n", number, REFUSED_RAGGED);
            return;
        }
        if (number > LOG_RECORDS_MAX) {
            printf("%lu %d 0\n", number, REFUSED_TOO_LONG);
            return;
        }
        print_line(&m, number, record);
    }
}

static void print_sets(FILE *in)
{
    struct model m;
    uint8_t record[RECORD_BYTES], refusal, answer, set;
    model_power_on(&m);
    while (fread(record, 1, sizeof record, in) == sizeof record) {
        model_step_set(&m, record, &refusal, &answer, &set);
        printf("%u\n", set);
    }
}

int main(int argc, char **argv)
{
    bool sets = argc > 1 && strcmp(argv[1], "--sets") == 0;
    const char *log = argv[1 + sets];
    FILE *in = log ? fopen(log, "rb") : stdin;
    if (!in) {
        perror(log);
        return 1;
    }
    (sets ? print_sets : print_lines)(in);
    if (ferror(in)) {
        perror("reading the log");
        return 1;
    }
    return fflush(stdout) == 0 ? 0 : 1;
}
