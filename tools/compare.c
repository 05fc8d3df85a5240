/* mcp2515 compare: where two logs differ, each run by a chip of its own. */
#include <inttypes.h>
#include <stdio.h>
#include <string.h>

#include "mcp2515.h"
#include "tool.h"

/* ---- reading and comparing ---- */

struct log {
    struct input in;
    uint8_t bytes[MOST_LOG + 2 * MCP2515_RECORD_SIZE];
    size_t length;
    uint8_t chip[MCP2515_CHIP_SIZE]; /* after the first `stepped` records; words ask it */
    size_t stepped;
};

struct comparison {
    struct log first, second;
    uint8_t entries[MCP2515_MOST_RECORDS * MCP2515_ENTRY_SIZE];
    size_t count;
    bool words;
    size_t limit;
};

/*
 * Whether refusal 6 or 8 applies goes by the length alone. A log that does not
 * fit is cut to a length to which the same one applies: over 65,535 records, and
 * as many bytes past the last whole one.
 */
static int read_whole(struct log *log)
{
    ssize_t got = read_all(&log->in, log->bytes, sizeof log->bytes);
    if (got < 0)
        return STATUS_TROUBLE;
    log->length = (size_t)got;
    if (log->length < sizeof log->bytes)
        return STATUS_GOOD;
    int64_t rest = skip_rest(&log->in);
    if (rest < 0)
        return STATUS_TROUBLE;
    log->length = MOST_LOG + MCP2515_RECORD_SIZE + (size_t)(rest % MCP2515_RECORD_SIZE);
    return STATUS_GOOD;
}

/* Both are opened before one is read, so that a wrong name is told at once. */
static int read_both(struct comparison *c, const struct arguments *a)
{
    if (open_input(&c->first.in, a->operand[0]) != STATUS_GOOD)
        return STATUS_TROUBLE;
    int status = open_input(&c->second.in, a->operand[1]);
    if (status == STATUS_GOOD) {
        status = read_whole(&c->first);
        if (status == STATUS_GOOD)
            status = read_whole(&c->second);
        close_input(&c->second.in);
    }
    close_input(&c->first.in);
    return status;
}

/* There is room for an entry of each record, so a refusal is one of a log. */
static int compare(struct comparison *c)
{
    const struct log *first = &c->first, *second = &c->second;
    int64_t count = mcp2515_compare_logs(first->bytes, first->length, second->bytes, second->length,
                                         c->entries, sizeof c->entries);
    if (count < 0) {
        bool is_first = mcp2515_compare_logs(first->bytes, first->length, NULL, 0, NULL, 0) < 0;
        return trouble(is_first ? first->in.name : second->in.name, refusal_text(-count));
    }
    c->count = (size_t)count;
    return STATUS_GOOD;
}

/* ---- printing ---- */

static struct words words_of(struct log *log, size_t number, const struct result *result)
{
    struct words words;
    uint8_t ignored[MCP2515_ANSWER_SIZE];
    if (log->stepped == 0)
        mcp2515_power_on(log->chip, sizeof log->chip);
    for (; log->stepped < number - 1; log->stepped++)
        mcp2515_step(log->chip, sizeof log->chip, log->bytes + MCP2515_RECORD_SIZE * log->stepped,
                     MCP2515_RECORD_SIZE, ignored, sizeof ignored);
    tell_record(&words, log->chip, log->bytes + MCP2515_RECORD_SIZE * (number - 1), result);
    return words;
}

static const char *outcome_or_taken(const struct words *words)
{
    return words->outcome[0] != '\0' ? words->outcome : "taken";
}

/* What is the same on both sides is said once, and not at all of two outcomes. */
static void print_words(const struct words *first, const struct words *second)
{
    bool outcomes_differ = strcmp(first->outcome, second->outcome) != 0;
    printf(" # %s", first->record);
    if (strcmp(first->record, second->record) == 0) {
        printf(": %s | %s", outcome_or_taken(first), outcome_or_taken(second));
        return;
    }
    if (outcomes_differ && first->outcome[0] != '\0')
        printf(": %s", first->outcome);
    printf(" | %s", second->record);
    if (outcomes_differ && second->outcome[0] != '\0')
        printf(": %s", second->outcome);
}

/* An entry: the number in four bytes, both refusals with their answers, then both sets. */
static void print_entry(struct comparison *c, const uint8_t *entry)
{
    uint32_t number = four_bytes(entry);
    struct result first = {.refusal = entry[4], .answer = entry[5], .set = entry[8]};
    struct result second = {.refusal = entry[6], .answer = entry[7], .set = entry[9]};
    printf("%" PRIu32 " %u %u %u %u %u %u", number, first.refusal, first.answer, second.refusal,
           second.answer, first.set, second.set);
    if (c->words) {
        struct words in_first = words_of(&c->first, number, &first);
        struct words in_second = words_of(&c->second, number, &second);
        print_words(&in_first, &in_second);
    }
    putchar('\n');
}

static const char *plural(size_t count)
{
    return count == 1 ? "" : "s";
}

/* The lines after the entries start with a letter. */
static void print_entries(struct comparison *c)
{
    size_t shown = c->count < c->limit ? c->count : c->limit;
    size_t hidden = c->count - shown;
    for (size_t i = 0; i < shown && !ferror(stdout); i++)
        print_entry(c, c->entries + MCP2515_ENTRY_SIZE * i);
    if (hidden > 0)
        printf("not shown: %zu more difference%s\n", hidden, plural(hidden));
}

static void print_leftover(const struct comparison *c)
{
    size_t first = c->first.length / MCP2515_RECORD_SIZE;
    size_t second = c->second.length / MCP2515_RECORD_SIZE;
    size_t shorter = first < second ? first : second;
    size_t more = first + second - 2 * shorter;
    if (more > 0)
        printf("%s log: %zu more record%s, from %zu\n", first > second ? "first" : "second", more,
               plural(more), shorter + 1);
}

static int run(int argc, char **argv)
{
    static struct comparison c;
    struct flag flags[] = {{"--words", &c.words}};
    struct number_option numbers[] = {{"--limit", &c.limit}};
    struct arguments a = {
        .flags = flags, .flag_count = 1, .numbers = numbers, .number_count = 1, .most = 2};
    c.limit = SIZE_MAX;
    int status = take_arguments(&compare_command, argc, argv, &a);
    if (status != GO_ON)
        return status;
    if (a.count < 2)
        return wrong_usage(&compare_command,
                           "two logs are needed, FIRST and SECOND (- is standard input)");
    if (strcmp(a.operand[0], "-") == 0 && strcmp(a.operand[1], "-") == 0)
        return wrong_usage(&compare_command, "standard input can be only one of the two logs");
    if (one_pipe(a.operand[0], a.operand[1]))
        return wrong_usage(&compare_command, "one pipe can be only one of the two logs");
    if (read_both(&c, &a) != STATUS_GOOD || compare(&c) != STATUS_GOOD)
        return STATUS_TROUBLE;
    print_entries(&c);
    print_leftover(&c);
    if (flush_out() != STATUS_GOOD)
        return STATUS_TROUBLE;
    return c.count > 0 || c.first.length != c.second.length ? STATUS_DIFFERENT : STATUS_GOOD;
}

const struct subcommand compare_command = {
    .name = "compare",
    .summary = "print the records in which two logs differ",
    .help = "usage: mcp2515 compare [--words] [--limit N] [--] FIRST SECOND\n\n"
            "Runs two logs (- for one of them is standard input) from power-on, each by a chip\n"
            "of its own. Prints a line for each record number at which the record, its refusal,\n"
            "its answer or its set differ: the number from 1, refusal and answer in FIRST,\n"
            "refusal and answer in SECOND, the set in FIRST, the set in SECOND. A set has the\n"
            "filters that match a frame that the chip listens to, or its own in Loopback, bit n\n"
            "for filter n (5 is filters 0 and 2); else it is 0. Where one log is longer, a last\n"
            "line says which, by how many records and from which number on. The logs are not\n"
            "lined up again: after a record that only one of them has, all others are compared\n"
            "one place off.\n\n"
            "  --words    behind a #, what the record is and what came of it, in FIRST | in\n"
            "             SECOND; what both have is said once. The panel is named where it\n"
            "             speaks; of a frame that the chip listens to, or of its own in Loopback,\n"
            "             the filters that match are named\n"
            "  --limit N  print at most N of the lines, then how many more there are\n\n"
            "Exit status: 0 where nothing differs and both logs are of one length; 1 where\n"
            "something differs or one is longer; 2 for trouble. A log that ends inside a record\n"
            "(refusal 6) or has more than 65,535 (refusal 8) is trouble: its name is told on\n"
            "standard error, and nothing is printed.\n",
    .run = run,
};
