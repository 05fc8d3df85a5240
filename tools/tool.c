#define _POSIX_C_SOURCE 200809L
#include "tool.h"

#include <errno.h>
#include <fcntl.h>
#include <limits.h>
#include <stdio.h>
#include <string.h>
#include <sys/stat.h>
#include <unistd.h>

#include "mcp2515.h"

/* ---- messages ---- */

int trouble(const char *what, const char *reason)
{
    fprintf(stderr, "mcp2515: %s: %s\n", what, reason);
    return STATUS_TROUBLE;
}

int trouble_errno(const char *what)
{
    return trouble(what, strerror(errno));
}

static int point_to_help(const struct subcommand *c)
{
    fprintf(stderr, "Try 'mcp2515 %s --help'.\n", c->name);
    return STATUS_TROUBLE;
}

int wrong_usage(const struct subcommand *c, const char *reason)
{
    trouble(c->name, reason);
    return point_to_help(c);
}

int wrong_argument(const struct subcommand *c, const char *name, const char *value,
                   const char *reason)
{
    fprintf(stderr, "mcp2515: %s: %s '%s' %s\n", c->name, name, value, reason);
    return point_to_help(c);
}

const char *refusal_text(int64_t refusal)
{
    switch (refusal) {
    case MCP2515_REFUSED_LENGTH:
        return "refusal 6: the log ends inside a record";
    case MCP2515_REFUSED_COUNT:
        return "refusal 8: the log has more than 65,535 records";
    case MCP2515_REFUSED_OSCILLATOR:
        return "refusal 12: the oscillator is outside 1,000,000 to 40,000,000 Hz";
    case MCP2515_REFUSED_RATE:
        return "refusal 13: the bit rate is outside 5,000 to 1,000,000 bit/s";
    }
    return "refused";
}

static bool write_all(int file, const uint8_t *bytes, size_t length)
{
    while (length > 0) {
        ssize_t written = write(file, bytes, length);
        if (written < 0 && errno == EINTR)
            continue;
        if (written < 0)
            return false;
        bytes += written;
        length -= (size_t)written;
    }
    return true;
}

int write_out(const uint8_t *bytes, size_t length)
{
    return write_all(STDOUT_FILENO, bytes, length) ? STATUS_GOOD : trouble_errno("standard output");
}

int flush_out(void)
{
    if (fflush(stdout) != 0 || ferror(stdout))
        return trouble_errno("standard output");
    return STATUS_GOOD;
}

/* ---- arguments ---- */

static int usage_trouble(const struct subcommand *c, const char *what, const char *argument)
{
    fprintf(stderr, "mcp2515: %s: %s '%s'\n", c->name, what, argument);
    return point_to_help(c);
}

static bool take_flag(const struct arguments *a, const char *argument)
{
    for (size_t i = 0; i < a->flag_count; i++)
        if (strcmp(argument, a->flags[i].name) == 0) {
            *a->flags[i].given = true;
            return true;
        }
    return false;
}

static int number_trouble(const struct subcommand *c, const char *name, const char *value)
{
    fprintf(stderr, "mcp2515: %s: %s needs a decimal number", c->name, name);
    if (value != NULL)
        fprintf(stderr, ", not '%s'", value);
    fprintf(stderr, "\n");
    return point_to_help(c);
}

/* Digits and nothing else. */
static bool read_number(const char *text, size_t *number)
{
    size_t value = 0;
    if (text[0] == '\0' || text[strspn(text, "0123456789")] != '\0')
        return false;
    for (; *text != '\0'; text++) {
        size_t digit = (size_t)(*text - '0');
        value = value > (SIZE_MAX - digit) / 10 ? SIZE_MAX : value * 10 + digit;
    }
    *number = value;
    return true;
}

/* Whether an argument is NAME or NAME=VALUE. */
static bool names_option(const char *argument, const char *name)
{
    size_t length = strcspn(argument, "=");
    return strlen(name) == length && strncmp(argument, name, length) == 0;
}

/* The value of the option at argv[*at]; where it is the argument after it, that is taken too. */
static const char *take_value(char **argv, int *at)
{
    const char *equals = strchr(argv[*at], '=');
    return equals != NULL ? equals + 1 : argv[++*at]; /* argv ends with NULL */
}

static int take_number(const struct subcommand *c, const struct number_option *option,
                       const char *value)
{
    if (value == NULL || !read_number(value, option->number))
        return number_trouble(c, option->name, value);
    return GO_ON;
}

static int take_file(const struct subcommand *c, const struct file_option *option,
                     const char *value)
{
    if (value == NULL || value[0] == '\0') {
        fprintf(stderr, "mcp2515: %s: %s needs a file\n", c->name, option->name);
        return point_to_help(c);
    }
    *option->path = value;
    return GO_ON;
}

static int take_option(const struct subcommand *c, char **argv, int *at, const struct arguments *a)
{
    const char *argument = argv[*at];
    if (take_flag(a, argument))
        return GO_ON;
    for (size_t i = 0; i < a->number_count; i++)
        if (names_option(argument, a->numbers[i].name))
            return take_number(c, &a->numbers[i], take_value(argv, at));
    for (size_t i = 0; i < a->file_count; i++)
        if (names_option(argument, a->files[i].name))
            return take_file(c, &a->files[i], take_value(argv, at));
    return usage_trouble(c, "unknown option", argument);
}

static bool looks_like_option(const char *argument)
{
    return argument[0] == '-' && argument[1] != '\0';
}

int take_arguments(const struct subcommand *c, int argc, char **argv, struct arguments *a)
{
    bool options = true;
    a->count = 0;
    for (int i = 1; i < argc; i++) {
        if (options && strcmp(argv[i], "--") == 0) {
            options = false;
        } else if (options && strcmp(argv[i], "--help") == 0) {
            fputs(c->help, stdout);
            return flush_out();
        } else if (options && looks_like_option(argv[i])) {
            if (take_option(c, argv, &i, a) != GO_ON)
                return STATUS_TROUBLE;
        } else if (a->count == a->most) {
            return usage_trouble(c, "one argument too many,", argv[i]);
        } else {
            a->operand[a->count++] = argv[i];
        }
    }
    return GO_ON;
}

/* ---- input ---- */

/*
 * Where a standard stream is closed, a file must not take its number: it would be
 * read as -, or get what is printed.
 */
static int open_file(const char *path, int flags)
{
    int file = open(path, flags, 0666);
    if (file < 0 || file > STDERR_FILENO)
        return file;
    int above = fcntl(file, F_DUPFD, STDERR_FILENO + 1);
    close(file);
    return above;
}

int open_input(struct input *in, const char *path)
{
    if (path == NULL || strcmp(path, "-") == 0) {
        *in = (struct input){"standard input", STDIN_FILENO};
        return STATUS_GOOD;
    }
    *in = (struct input){path, open_file(path, O_RDONLY)};
    return in->file < 0 ? trouble_errno(path) : STATUS_GOOD;
}

void close_input(struct input *in)
{
    if (in->file != STDIN_FILENO)
        close(in->file);
}

/* By the paths: to open a pipe a second time might wait for ever. */
static bool find_pipe(const char *path, struct stat *file)
{
    int found = strcmp(path, "-") == 0 ? fstat(STDIN_FILENO, file) : stat(path, file);
    return found == 0 && S_ISFIFO(file->st_mode);
}

bool one_pipe(const char *first, const char *second)
{
    struct stat a, b;
    return find_pipe(first, &a) && find_pipe(second, &b) && a.st_dev == b.st_dev &&
           a.st_ino == b.st_ino;
}

ssize_t read_input(const struct input *in, uint8_t *bytes, size_t length)
{
    ssize_t got;
    do
        got = read(in->file, bytes, length);
    while (got < 0 && errno == EINTR);
    if (got < 0)
        trouble_errno(in->name);
    return got;
}

ssize_t read_all(const struct input *in, uint8_t *bytes, size_t most)
{
    size_t length = 0;
    while (length < most) {
        ssize_t got = read_input(in, bytes + length, most - length);
        if (got < 0)
            return -1;
        if (got == 0)
            break;
        length += (size_t)got;
    }
    return (ssize_t)length;
}

/* A file is asked for its size. Of anything else the end has to be seen. */
int64_t skip_rest(const struct input *in)
{
    static uint8_t bytes[65536];
    struct stat file;
    off_t at = lseek(in->file, 0, SEEK_CUR);
    if (at >= 0 && fstat(in->file, &file) == 0 && S_ISREG(file.st_mode) && file.st_size >= at)
        return file.st_size - at;
    int64_t rest = 0;
    ssize_t got;
    while ((got = read_input(in, bytes, sizeof bytes)) > 0)
        rest += got;
    return got < 0 ? -1 : rest;
}

uint32_t four_bytes(const uint8_t *bytes)
{
    return (uint32_t)bytes[0] << 24 | (uint32_t)bytes[1] << 16 | (uint32_t)bytes[2] << 8 | bytes[3];
}

/* ---- output files ---- */

bool is_input(const char *output, const char *input)
{
    struct stat out, in;
    int found = strcmp(input, "-") == 0 ? fstat(STDIN_FILENO, &in) : stat(input, &in);
    return found == 0 && S_ISREG(in.st_mode) && stat(output, &out) == 0 &&
           out.st_dev == in.st_dev && out.st_ino == in.st_ino;
}

/* Writes, and closes the file in any case. */
static bool fill(int file, const uint8_t *bytes, size_t length)
{
    bool written = write_all(file, bytes, length);
    int why = errno;
    bool closed = close(file) == 0;
    if (!written)
        errno = why;
    return written && closed;
}

/* A device, a pipe or a link keeps its place: what is behind it is written. */
static int write_through(const char *path, const uint8_t *bytes, size_t length)
{
    int file = open_file(path, O_WRONLY | O_CREAT | O_TRUNC);
    return file >= 0 && fill(file, bytes, length) ? STATUS_GOOD : trouble_errno(path);
}

/* By a file beside it, which has the rights of the old one. */
static int replace(const char *path, const struct stat *old, const uint8_t *bytes, size_t length)
{
    enum { NAME_ROOM = 40 };
    char part[PATH_MAX + NAME_ROOM];
    const char *slash = strrchr(path, '/');
    int directory = slash == NULL ? 0 : (int)(slash + 1 - path);
    snprintf(part, sizeof part, "%.*smcp2515-%ld.part", directory, path, (long)getpid());
    int file = open_file(part, O_WRONLY | O_CREAT | O_EXCL);
    if (file < 0)
        return trouble_errno(errno == EEXIST ? part : path);
    if (old != NULL)
        fchmod(file, old->st_mode & 07777);
    if (fill(file, bytes, length) && rename(part, path) == 0)
        return STATUS_GOOD;
    int status = trouble_errno(path);
    unlink(part);
    return status;
}

int write_file(const char *path, const uint8_t *bytes, size_t length)
{
    struct stat old;
    if (lstat(path, &old) != 0)
        return errno == ENOENT ? replace(path, NULL, bytes, length) : trouble_errno(path);
    if (!S_ISREG(old.st_mode))
        return write_through(path, bytes, length);
    if (access(path, W_OK) != 0)
        return trouble_errno(path);
    return replace(path, &old, bytes, length);
}
