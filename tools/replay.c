/* mcp2515 replay: the text of a log, as the replay program prints it. */
#include <string.h>

#include "mcp2515.h"
#include "tool.h"

enum {
    PART_RECORDS = 4096,
    PART_BYTES = PART_RECORDS * MCP2515_RECORD_SIZE,
    TEXT_BYTES = (PART_RECORDS + 1) * MCP2515_LINE_SIZE
};

/* A replay under way. The bytes of part are not rendered yet. */
struct replay {
    struct input in;
    uint8_t chip[MCP2515_CHIP_SIZE];
    uint32_t number; /* records so far */
    uint8_t part[PART_BYTES];
    size_t length;
    bool refused_only;
};

/* A line is number, refusal, answer, and behind them the set where the record is a frame. */
static bool line_is_refused(const uint8_t *line, size_t length)
{
    const uint8_t *refusal = memchr(line, ' ', length);
    return refusal != NULL && memcmp(refusal, " 0 ", 3) != 0;
}

/* Moves the lines of refused records to the front; gives their length. */
static size_t keep_refused(uint8_t *text, size_t length)
{
    size_t kept = 0;
    for (size_t at = 0; at < length;) {
        const uint8_t *newline = memchr(text + at, '\n', length - at);
        size_t line = newline == NULL ? length - at : (size_t)(newline - text) + 1 - at;
        if (line_is_refused(text + at, line)) {
            memmove(text + kept, text + at, line);
            kept += line;
        }
        at += line;
    }
    return kept;
}

/* Prints the first length bytes of the part; *end gets the refusal that ends the replay. */
static int print_part(struct replay *r, size_t length, int64_t *end)
{
    static uint8_t text[TEXT_BYTES];
    *end = mcp2515_part_refusal(r->number, length);
    int64_t written =
        mcp2515_render(r->chip, sizeof r->chip, r->number, r->part, length, text, sizeof text);
    if (written < 0)
        return trouble(r->in.name, "the archive refused its part");
    r->number += (uint32_t)(length / MCP2515_RECORD_SIZE);
    memmove(r->part, r->part + length, r->length - length);
    r->length -= length;
    return write_out(text, r->refused_only ? keep_refused(text, (size_t)written) : (size_t)written);
}

/* Each read is printed at once, as far as its records are whole. */
static int replay_input(struct replay *r)
{
    int64_t end = 0;
    int status = STATUS_GOOD;
    ssize_t got = 1;
    while (status == STATUS_GOOD && end == 0 && got > 0) {
        got = read_input(&r->in, r->part + r->length, PART_BYTES - r->length);
        if (got < 0)
            return STATUS_TROUBLE;
        r->length += (size_t)got;
        size_t whole = r->length - r->length % MCP2515_RECORD_SIZE;
        status = print_part(r, got > 0 ? whole : r->length, &end);
    }
    return status == STATUS_GOOD && end != 0 ? STATUS_REFUSED : status;
}

static int run(int argc, char **argv)
{
    static struct replay r;
    struct flag flags[] = {{"--refused", &r.refused_only}};
    struct arguments a = {.flags = flags, .flag_count = 1, .most = 1};
    int status = take_arguments(&replay_command, argc, argv, &a);
    if (status != GO_ON)
        return status;
    if (open_input(&r.in, a.count > 0 ? a.operand[0] : NULL) != STATUS_GOOD)
        return STATUS_TROUBLE;
    mcp2515_power_on(r.chip, sizeof r.chip);
    status = replay_input(&r);
    close_input(&r.in);
    return status;
}

const struct subcommand replay_command = {
    .name = "replay",
    .summary = "print each record's number, refusal and answer, and a frame's set",
    .help = "usage: mcp2515 replay [--refused] [--] [LOG]\n\n"
            "Replays LOG, or standard input where LOG is missing or -, from power-on.\n"
            "Prints a line for each record: its number from 1, refusal, answer. The line of a\n"
            "frame (kind 3) has a fourth number, the set of the filters that match it, bit n for\n"
            "filter n (5 is filters 0 and 2); it is 0 where the frame is refused, not listened to\n"
            "or wakes the chip. Lines are printed as the records come.\n\n"
            "  --refused  print the lines of refused records only\n\n"
            "Exit status: 0; 1 where the log ended in refusal 6 (it ends inside a record) or\n"
            "8 (more than 65,535 records); 2 for trouble. Refused records change it not.\n",
    .run = run,
};
