/*
 * mcp2515 load: a profile loaded into the chip after a log. What the loader sends,
 * what it says and what it refuses is the archive's; here are files and words.
 */
#include <stdio.h>
#include <string.h>

#include "mcp2515.h"
#include "tool.h"

/* PROFILE, and what --chip and --events read. */
enum { PROFILE, LOG, EVENTS, INPUTS };

/* So many that the records of the run are a log in any case. */
enum { MOST_EVENTS = MCP2515_MOST_RECORDS - MCP2515_LOAD_RECORDS };

struct load {
    const char *path[INPUTS]; /* NULL where it is not given */
    struct input in[INPUTS];
    const char *record_to; /* NULL where nothing is recorded */
    uint8_t profile[MCP2515_PROFILE_SIZE];
    uint8_t events[MOST_EVENTS * MCP2515_EVENT_SIZE + 1]; /* one byte more shows too many */
    size_t events_length;
    struct ran before;
    uint8_t after[MCP2515_CHIP_SIZE];
    bool is_in;
    uint8_t records[MCP2515_MOST_RECORDS * MCP2515_RECORD_SIZE]; /* of the run */
    size_t count;
};

/* ---- inputs ---- */

static int check_inputs(const struct load *l)
{
    for (int i = 0; i < INPUTS; i++)
        for (int other = 0; other < i; other++) {
            const char *first = l->path[other], *second = l->path[i];
            if (first == NULL || second == NULL)
                continue;
            if (strcmp(first, "-") == 0 && strcmp(second, "-") == 0)
                return wrong_usage(&load_command, "standard input can be read only once");
            if (one_pipe(first, second))
                return wrong_usage(&load_command, "one pipe can be read only once");
        }
    return GO_ON;
}

static int check_output(const struct load *l)
{
    if (l->record_to == NULL)
        return GO_ON;
    if (strcmp(l->record_to, "-") == 0)
        return wrong_usage(&load_command, "--record needs a file; the words go to standard output");
    for (int i = 0; i < INPUTS; i++)
        if (l->path[i] != NULL && is_input(l->record_to, l->path[i]))
            return wrong_argument(&load_command, "--record", l->record_to,
                                  "is a file that is read");
    return GO_ON;
}

static int read_events(struct load *l)
{
    ssize_t length = read_all(&l->in[EVENTS], l->events, sizeof l->events);
    if (length < 0)
        return STATUS_TROUBLE;
    if (length == sizeof l->events)
        return trouble(l->in[EVENTS].name, "more than 65,178 events");
    l->events_length = (size_t)length;
    return STATUS_GOOD;
}

static int read_opened(struct load *l)
{
    mcp2515_power_on(l->before.chip, sizeof l->before.chip);
    if (read_profile(&l->in[PROFILE], l->profile) != STATUS_GOOD)
        return STATUS_TROUBLE;
    if (l->path[EVENTS] != NULL && read_events(l) != STATUS_GOOD)
        return STATUS_TROUBLE;
    return l->path[LOG] != NULL ? run_log(&l->in[LOG], &l->before) : STATUS_GOOD;
}

/* All are opened before one is read, so that a wrong name is told at once. */
static int read_inputs(struct load *l)
{
    int opened = 0, status = STATUS_GOOD;
    for (; opened < INPUTS && status == STATUS_GOOD; opened++)
        if (l->path[opened] != NULL)
            status = open_input(&l->in[opened], l->path[opened]);
    if (status == STATUS_GOOD)
        status = read_opened(l);
    while (opened-- > 0)
        if (l->path[opened] != NULL)
            close_input(&l->in[opened]);
    return status;
}

/* ---- the load ---- */

static int refused_mode(const struct load *l)
{
    fprintf(stderr,
            "mcp2515: %s: refusal %d: the chip is in %s; a profile is loaded in Normal, "
            "Listen-Only or Configuration\n",
            l->in[LOG].name, MCP2515_REFUSED_MODE, mode_of(l->before.chip));
    return STATUS_TROUBLE;
}

/* Without a log the chip is after power-on, where only the profile and the events are refused. */
static int tell_refusal(const struct load *l, int64_t refusal)
{
    switch (refusal) {
    case MCP2515_REFUSED_LENGTH:
        return trouble(l->in[EVENTS].name, "refusal 6: the events end inside an entry of 20 bytes");
    case MCP2515_REFUSED_SELECT:
        return trouble(l->in[LOG].name, "refusal 1: select is low, the log ends inside a session");
    case MCP2515_REFUSED_PROFILE:
        return tell_unwritable(l->in[PROFILE].name, l->profile);
    case MCP2515_REFUSED_MODE:
        return refused_mode(l);
    }
    return trouble(load_command.name, refusal_text(refusal));
}

static int run_load(struct load *l)
{
    memcpy(l->after, l->before.chip, sizeof l->after);
    int64_t loaded = mcp2515_load_profile(l->after, sizeof l->after, l->profile, sizeof l->profile,
                                          l->events, l->events_length);
    if (loaded < 0)
        return tell_refusal(l, -loaded);
    int64_t count =
        mcp2515_load_records(l->before.chip, sizeof l->before.chip, l->profile, sizeof l->profile,
                             l->events, l->events_length, l->records, sizeof l->records);
    if (count < 0)
        return tell_refusal(l, -count);
    l->is_in = loaded == MCP2515_LOAD_IN;
    l->count = (size_t)count;
    return STATUS_GOOD;
}

/* ---- words ---- */

/* The chip when its mode was read: after the second command, with all that came before. */
static void chip_at_reading(const struct load *l, uint8_t *chip)
{
    uint8_t ignored[MCP2515_ANSWER_SIZE];
    unsigned commands = 0;
    memcpy(chip, l->before.chip, MCP2515_CHIP_SIZE);
    for (size_t i = 0; i < l->count && commands < 2; i++) {
        const uint8_t *record = l->records + MCP2515_RECORD_SIZE * i;
        mcp2515_step(chip, MCP2515_CHIP_SIZE, record, MCP2515_RECORD_SIZE, ignored, sizeof ignored);
        commands += record[0] == SELECT_HIGH;
    }
}

/* Configuration has to wait for every message that is requested or on the bus. */
static void print_waiting(const struct load *l)
{
    enum { BUFFERS = 3, TXREQ = 0x08 };
    static const uint8_t control[BUFFERS] = {0x30, 0x40, 0x50}; /* TXBnCTRL */
    uint8_t chip[MCP2515_CHIP_SIZE];
    unsigned messages = 0;
    chip_at_reading(l, chip);
    printf("waiting: Configuration was not reached");
    for (unsigned n = 0; n < BUFFERS; n++) {
        bool in_flight = chip[MCP2515_PLACE_FLIGHT] == n;
        if (!in_flight && !(mcp2515_hold(chip, sizeof chip, control[n]) & TXREQ))
            continue;
        printf("%s TXB%u %s", messages == 0 ? ", since" : " and", n,
               in_flight ? "is being sent" : "waits to be sent");
        messages++;
    }
    printf("\nno byte of the profile was written; try again when %s gone out\n",
           messages == 1 ? "it has" : "they have");
}

/* The loader's commands are the sessions of the run; all that is not theirs are events. */
static void print_run(const struct load *l)
{
    size_t commands = 0, events = 0;
    for (size_t i = 0; i < l->count; i++) {
        uint8_t kind = l->records[MCP2515_RECORD_SIZE * i];
        commands += kind == SELECT_HIGH;
        events += kind > SELECT_HIGH;
    }
    printf("mode %s, %zu commands", mode_of(l->after), commands);
    if (l->path[EVENTS] != NULL)
        printf(", %zu of %zu entries came between them", events,
               l->events_length / MCP2515_EVENT_SIZE);
    putchar('\n');
}

static int print_load(const struct load *l)
{
    if (l->is_in)
        puts("in: the chip holds the profile");
    else
        print_waiting(l);
    print_run(l);
    if (flush_out() != STATUS_GOOD)
        return STATUS_TROUBLE;
    return l->is_in ? STATUS_GOOD : STATUS_WAITING;
}

static int run(int argc, char **argv)
{
    static struct load l;
    struct file_option files[] = {
        {"--chip", &l.path[LOG]}, {"--events", &l.path[EVENTS]}, {"--record", &l.record_to}};
    struct arguments a = {.files = files, .file_count = 3, .most = 1};
    int status = take_arguments(&load_command, argc, argv, &a);
    if (status != GO_ON)
        return status;
    if (a.count == 0)
        return wrong_usage(&load_command, "no PROFILE given (- is standard input)");
    l.path[PROFILE] = a.operand[0];
    if (check_inputs(&l) != GO_ON || check_output(&l) != GO_ON)
        return STATUS_TROUBLE;
    if (read_inputs(&l) != STATUS_GOOD || run_load(&l) != STATUS_GOOD)
        return STATUS_TROUBLE;
    if (l.record_to != NULL &&
        write_file(l.record_to, l.records, l.count * MCP2515_RECORD_SIZE) != STATUS_GOOD)
        return STATUS_TROUBLE;
    return print_load(&l);
}

const struct subcommand load_command = {
    .name = "load",
    .summary = "load a profile of filters and masks into the chip after a log",
    .help = "usage: mcp2515 load [--chip LOG] [--events FILE] [--record OUT] [--] PROFILE\n\n"
            "Loads PROFILE, 34 raw bytes or text ('mcp2515 profile --help' has its form), as the\n"
            "controller would over SPI: asks for Configuration, reads the mode once, writes the\n"
            "34 bytes, reads them back and asks for the mode at the start. Says 'in' where the\n"
            "chip then holds the profile. Says 'waiting' where a message that waits or is being\n"
            "sent holds Configuration back, and which; no byte of the profile is written then.\n"
            "A line below has the mode after it and the number of the loader's commands.\n\n"
            "  --chip LOG     load into the chip after LOG, run from power-on; without it into\n"
            "                 the chip after power-on\n"
            "  --events FILE  bus events that come between the loader's commands, at most 65,178\n"
            "                 entries of 20 bytes: in four, high byte first, after how many\n"
            "                 commands it comes, then its record, of kind 3 to 8\n"
            "  --record OUT   write the records of the run, its own and the events that came, as\n"
            "                 a log. Behind LOG they bring a chip to where the load leaves it.\n\n"
            "In place of one of the files that are read, - is standard input.\n\n"
            "Exit status: 0 in; 1 waiting; 2 refused or trouble. Refused are a chip whose select\n"
            "is low (1), a profile with a bit set that is not writable (10), and a chip in Sleep\n"
            "or Loopback (11); then OUT is not written.\n",
    .run = run,
};
