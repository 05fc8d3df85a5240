/*
 * The command-line tool: what its subcommands share. A subcommand is a file of
 * its own and an entry in the table of mcp2515.c.
 */
#ifndef TOOLS_TOOL_H
#define TOOLS_TOOL_H

#include <stdbool.h>
#include <stddef.h>
#include <stdint.h>
#include <sys/types.h>

#include "mcp2515.h"

/* Exit statuses, as cmp and diff have them. */
enum {
    STATUS_GOOD = 0,
    STATUS_REFUSED = 1,
    STATUS_DIFFERENT = 1,
    STATUS_NONE = 1,
    STATUS_UNSOUND = 1,
    STATUS_WAITING = 1,
    STATUS_TROUBLE = 2
};

struct subcommand {
    const char *name;
    const char *summary; /* a line for `mcp2515 --help` */
    const char *help;
    int (*run)(int argc, char **argv); /* argv[0] is its name; returns the status */
};

extern const struct subcommand replay_command, chip_command, compare_command, timing_command,
    load_command, profile_command;

/* ---- arguments ---- */

struct flag {
    const char *name; /* with its dashes */
    bool *given;
};

/* NAME N or NAME=N, N in decimal; what is too large for size_t counts as the largest. */
struct number_option {
    const char *name; /* with its dashes */
    size_t *number;   /* stays as it was where the option is not given */
};

/* NAME FILE or NAME=FILE. */
struct file_option {
    const char *name;  /* with its dashes */
    const char **path; /* stays as it was where the option is not given */
};

enum { MOST_OPERANDS = 5, GO_ON = -1 };

struct arguments {
    const struct flag *flags;
    size_t flag_count;
    const struct number_option *numbers;
    size_t number_count;
    const struct file_option *files;
    size_t file_count;
    int most; /* operands allowed */
    const char *operand[MOST_OPERANDS];
    int count;
};

/* GO_ON, or the status to end with: --help was printed, or something is wrong. */
int take_arguments(const struct subcommand *c, int argc, char **argv, struct arguments *a);

/* ---- messages on standard error, and standard output ---- */

/* `mcp2515: WHAT: REASON`; gives STATUS_TROUBLE. */
int trouble(const char *what, const char *reason);

/* The same with the reason of errno. */
int trouble_errno(const char *what);

/* `mcp2515: SUBCOMMAND: REASON`, and where to read on; gives STATUS_TROUBLE. */
int wrong_usage(const struct subcommand *c, const char *reason);

/* `mcp2515: SUBCOMMAND: NAME 'VALUE' REASON`, and where to read on; gives STATUS_TROUBLE. */
int wrong_argument(const struct subcommand *c, const char *name, const char *value,
                   const char *reason);

/* What a refusal of a log or of a plan means, in words. */
const char *refusal_text(int64_t refusal);

/* Writes all of the bytes at once; gives STATUS_GOOD or STATUS_TROUBLE. */
int write_out(const uint8_t *bytes, size_t length);

/* Prints what stdio still holds; gives STATUS_GOOD or STATUS_TROUBLE. */
int flush_out(void);

/* ---- input ---- */

struct input {
    const char *name; /* for messages */
    int file;
};

/* path may be NULL or "-" for standard input. STATUS_GOOD or STATUS_TROUBLE. */
int open_input(struct input *in, const char *path);
void close_input(struct input *in);

/* Whether two such paths are of the same pipe, which could be read only once. */
bool one_pipe(const char *first, const char *second);

/* What is there now, at most length bytes; 0 at the end, -1 for trouble (told). */
ssize_t read_input(const struct input *in, uint8_t *bytes, size_t length);

enum { MOST_LOG = MCP2515_MOST_RECORDS * MCP2515_RECORD_SIZE };

/* All that comes, at most most bytes; gives the length, -1 for trouble (told). */
ssize_t read_all(const struct input *in, uint8_t *bytes, size_t most);

/* How many bytes follow, which are not kept; -1 for trouble (told). */
int64_t skip_rest(const struct input *in);

/* The number that four bytes make, the high one first. */
uint32_t four_bytes(const uint8_t *bytes);

/* ---- output files ---- */

/* Whether output to a path would change an input, whose path may be "-". */
bool is_input(const char *output, const char *input);

/*
 * Makes a file of these bytes, or leaves all as it was: a file that was there is
 * replaced only when they are written. STATUS_GOOD or STATUS_TROUBLE.
 */
int write_file(const char *path, const uint8_t *bytes, size_t length);

/* ---- a chip after a log, and its bytes by name ---- */

struct ran {
    uint8_t chip[MCP2515_CHIP_SIZE];
    size_t records;
    size_t refused;
};

/* Runs a whole log from power-on. STATUS_GOOD or STATUS_TROUBLE. */
int run_log(const struct input *in, struct ran *ran);

/* The name of the mode that a chip is in. */
const char *mode_of(const uint8_t *chip);

/* What SIDH, SIDL, EID8 and EID0 hold. */
struct identifier {
    unsigned sid;
    uint32_t eid;
    bool extended;
    uint8_t sidl;
    uint8_t eid8, eid0;
};

struct identifier identifier_of(const uint8_t *bytes);

/* The 29 bits of an extended one. */
uint32_t extended_number(const struct identifier *id);

/* ---- profiles ---- */

/* 34 raw bytes, or text; gives STATUS_GOOD or STATUS_TROUBLE. Raw bytes may have refusal 10. */
int read_profile(const struct input *in, uint8_t *profile);

/* Names the bytes for which a profile has refusal 10; gives STATUS_TROUBLE. */
int tell_unwritable(const char *name, const uint8_t *profile);

/* ---- words ---- */

/* Kinds of a record. */
enum {
    SELECT_LOW,
    EXCHANGE,
    SELECT_HIGH,
    FRAME,
    BUS_IDLE,
    FRAME_ENDS,
    RECEIVE_ERROR,
    RECOVERY,
    REQUEST_PIN
};

enum { WORDS_ROOM = 100 };

struct words {
    char record[WORDS_ROOM];  /* what a record is */
    char outcome[WORDS_ROOM]; /* what came of it; empty where it was taken and that is all */
};

/* What the archive says of a record; set has a bit for each filter that matches. */
struct result {
    uint8_t refusal, answer, set;
};

/* The chip is the one before the record. */
void tell_record(struct words *words, const uint8_t *chip, const uint8_t *record,
                 const struct result *result);

#endif
