/*
 * mcp2515 profile: the 34 bytes of a profile from text, and as text. Which bits
 * may be set the archive says; the text has a place for each of them, so that
 * every profile that can be loaded is shown, and read back as the same bytes.
 */
#define _POSIX_C_SOURCE 200809L
#include <ctype.h>
#include <inttypes.h>
#include <stdarg.h>
#include <stdio.h>
#include <stdlib.h>
#include <string.h>
#include <strings.h>

#include "mcp2515.h"
#include "tool.h"

/* A setting is a line of the text. The filters and masks are identifiers of four bytes. */
enum {
    FILTERS = 6,
    MASK_0 = FILTERS,
    MASK_1,
    RXB0,
    RXB1,
    SETTINGS,
    IDENTIFIER_SIZE = 4,
    CONTROL = RXB0 * IDENTIFIER_SIZE /* RXB0CTRL, and RXB1CTRL behind it */
};

static const char *const setting_names[SETTINGS] = {
    "filter 0", "filter 1", "filter 2", "filter 3", "filter 4",
    "filter 5", "mask 0",   "mask 1",   "rxb0",     "rxb1",
};

/* By the code in RXM; the data sheet reserves two of them. */
static const char *const rxm_names[] = {"filters", "reserved-01", "reserved-10", "any"};
enum { RXM_CODES = sizeof rxm_names / sizeof *rxm_names, RXM_BIT = 5, BUKT = 0x04, EXIDE = 0x08 };

/* ---- text: words ---- */

enum { MOST_TEXT = 65536, MOST_WORDS = 9 }; /* in a line that is right there are at most 8 */

/* A text under way. */
struct text {
    const char *name; /* of the file */
    unsigned line;
    char *word[MOST_WORDS + 1]; /* of the line; NULL behind the last */
    unsigned next;
    unsigned given[SETTINGS]; /* in which line; 0 where not yet */
    uint8_t *profile;
};

/* `mcp2515: FILE:LINE: REASON`; gives false. */
static bool wrong(const struct text *t, const char *reason, ...)
{
    va_list values;
    fprintf(stderr, "mcp2515: %s:%u: ", t->name, t->line);
    va_start(values, reason);
    vfprintf(stderr, reason, values);
    va_end(values);
    fputc('\n', stderr);
    return false;
}

/* NULL behind the last word. */
static const char *next_word(struct text *t)
{
    const char *word = t->word[t->next];
    t->next += word != NULL;
    return word;
}

/* Takes the next word only where it is this one, in capitals or not. */
static bool take_word(struct text *t, const char *wanted)
{
    const char *word = t->word[t->next];
    bool found = word != NULL && strcasecmp(word, wanted) == 0;
    t->next += found;
    return found;
}

/* How many hex digits 0x123 or 123h has; 0 where it is neither. More than 8 are only counted. */
static size_t read_hex(const char *word, uint32_t *number)
{
    bool prefix = word[0] == '0' && (word[1] == 'x' || word[1] == 'X');
    const char *digits = prefix ? word + 2 : word;
    size_t count = strspn(digits, "0123456789ABCDEFabcdef");
    const char *end = digits + count;
    if (!prefix && *end != 'h' && *end != 'H')
        return 0;
    if (end[prefix ? 0 : 1] != '\0')
        return 0;
    if (count <= 8)
        *number = (uint32_t)strtoul(digits, NULL, 16); /* which stops at an h */
    return count;
}

/* ---- text: settings ---- */

static bool take_byte(struct text *t, const char *missing, unsigned most, uint8_t *byte)
{
    uint32_t number;
    const char *word = next_word(t);
    if (word == NULL)
        return wrong(t, "%s", missing);
    size_t digits = read_hex(word, &number);
    if (digits == 0 || digits > 2)
        return wrong(t, "'%s' is no byte; 0x5A and 5Ah are", word);
    if (number > most)
        return wrong(t, "'%s' is above 0x%X", word, most);
    *byte = (uint8_t)number;
    return true;
}

/* Behind a standard identifier: EID8 and EID0, which are for data bytes, and the other EID bits. */
static bool take_eid(struct text *t, uint8_t *bytes)
{
    static const char two[] = "data needs two bytes", bits[] = "eid17-16 needs 0x0 to 0x3";
    uint8_t eid17_16 = 0;
    if (take_word(t, "data") &&
        !(take_byte(t, two, 0xFF, &bytes[2]) && take_byte(t, two, 0xFF, &bytes[3])))
        return false;
    if (take_word(t, "eid17-16") && !take_byte(t, bits, 3, &eid17_16))
        return false;
    bytes[1] |= eid17_16;
    return true;
}

/* 29 bits to SIDH, SIDL, EID8 and EID0. */
static void put_identifier(uint8_t *bytes, uint32_t number)
{
    bytes[0] = (uint8_t)(number >> 21);
    bytes[1] = (uint8_t)((number >> 18 & 7) << 5 | (number >> 16 & 3));
    bytes[2] = (uint8_t)(number >> 8);
    bytes[3] = (uint8_t)number;
}

static bool put_extended(struct text *t, unsigned setting, uint32_t number)
{
    uint8_t *bytes = t->profile + IDENTIFIER_SIZE * setting;
    put_identifier(bytes, number);
    if (setting < MASK_0) /* a mask has no EXIDE */
        bytes[1] |= EXIDE;
    if (take_word(t, "data") || take_word(t, "eid17-16"))
        return wrong(t, "8 digits are all bits; data and eid17-16 go with 1 to 3 digits");
    return true;
}

/* How many digits there are decides: 0x00000123 is extended, 0x123 is not. */
static bool take_identifier(struct text *t, unsigned setting)
{
    enum { STANDARD_DIGITS = 3, EXTENDED_DIGITS = 8 };
    uint8_t *bytes = t->profile + IDENTIFIER_SIZE * setting;
    uint32_t number;
    const char *word = next_word(t);
    if (word == NULL)
        return wrong(t, "%s needs an identifier", setting_names[setting]);
    size_t digits = read_hex(word, &number);
    bool extended = digits == EXTENDED_DIGITS;
    if (digits == 0)
        return wrong(t, "'%s' is no identifier; 0x123 and 123h are", word);
    if (!extended && digits > STANDARD_DIGITS)
        return wrong(t, "'%s' has %zu digits; 1 to 3 are standard, 8 are extended", word, digits);
    uint32_t most = extended ? 0x1FFFFFFF : 0x7FF;
    if (number > most)
        return wrong(t, "'%s' is above 0x%" PRIX32, word, most);
    if (extended)
        return put_extended(t, setting, number);
    put_identifier(bytes, number << 18);
    return take_eid(t, bytes);
}

static bool take_control(struct text *t, unsigned setting)
{
    const char *word = next_word(t);
    unsigned rxm = 0;
    if (word == NULL)
        return wrong(t, "%s needs filters or any", setting_names[setting]);
    while (rxm < RXM_CODES && strcasecmp(word, rxm_names[rxm]) != 0)
        rxm++;
    if (rxm == RXM_CODES)
        return wrong(t, "'%s' is no RXM; filters, any, reserved-01 and reserved-10 are", word);
    bool bukt = take_word(t, "bukt");
    if (bukt && setting != RXB0)
        return wrong(t, "bukt goes with rxb0 only");
    t->profile[CONTROL + setting - RXB0] = (uint8_t)(rxm << RXM_BIT | (bukt ? BUKT : 0));
    return true;
}

/* Which setting the first words name; SETTINGS where none (told). */
static unsigned take_setting(struct text *t)
{
    const char *word = next_word(t);
    for (unsigned setting = RXB0; setting <= RXB1; setting++)
        if (strcasecmp(word, setting_names[setting]) == 0)
            return setting;
    bool filter = strcasecmp(word, "filter") == 0;
    if (!filter && strcasecmp(word, "mask") != 0) {
        wrong(t, "'%s' is no setting; filter, mask, rxb0 and rxb1 are", word);
        return SETTINGS;
    }
    unsigned first = filter ? 0 : MASK_0, count = filter ? MASK_0 : RXB0 - MASK_0;
    const char *digit = next_word(t);
    if (digit != NULL && digit[1] == '\0' && *digit >= '0' && *digit < '0' + (char)count)
        return first + (unsigned)(*digit - '0');
    wrong(t, "%s needs a number, 0 to %u", filter ? "filter" : "mask", count - 1);
    return SETTINGS;
}

static bool take_words(struct text *t)
{
    unsigned setting = take_setting(t);
    if (setting == SETTINGS)
        return false;
    if (t->given[setting] != 0)
        return wrong(t, "%s is given twice, first in line %u", setting_names[setting],
                     t->given[setting]);
    t->given[setting] = t->line;
    if (!(setting < RXB0 ? take_identifier(t, setting) : take_control(t, setting)))
        return false;
    const char *rest = next_word(t);
    return rest == NULL || wrong(t, "'%s' is not understood here", rest);
}

/* ---- text: lines ---- */

/* Comments may be in any language, the rest is ASCII. A text has no other control characters. */
static bool is_text(uint8_t byte, bool comment)
{
    return byte >= 0x80 ? comment : !iscntrl(byte) || byte == '\t' || byte == '\r';
}

static bool take_line(struct text *t, char *line, size_t length)
{
    static const char spaces[] = " \t\r";
    const char *comment = memchr(line, '#', length);
    unsigned count = 0;
    for (size_t i = 0; i < length; i++)
        if (!is_text((uint8_t)line[i], comment != NULL && line + i > comment))
            return wrong(t, "byte %02Xh is no text, and a raw profile is %d bytes",
                         (uint8_t)line[i], MCP2515_PROFILE_SIZE);
    line[comment != NULL ? (size_t)(comment - line) : length] = '\0';
    for (char *word = strtok(line, spaces); word != NULL && count < MOST_WORDS;
         word = strtok(NULL, spaces))
        t->word[count++] = word;
    t->word[count] = NULL;
    t->next = 0;
    return count == 0 || take_words(t);
}

static int tell_missing(const struct text *t)
{
    const char *before = "missing: ";
    bool any = false;
    for (unsigned i = 0; i < SETTINGS; i++) {
        if (t->given[i] != 0)
            continue;
        if (!any)
            fprintf(stderr, "mcp2515: %s: ", t->name);
        fprintf(stderr, "%s%s", before, setting_names[i]);
        before = ", ";
        any = true;
    }
    if (any)
        fputc('\n', stderr);
    return any ? STATUS_TROUBLE : STATUS_GOOD;
}

/* The byte behind the text is lent too. */
static int read_text(const char *name, char *bytes, size_t length, uint8_t *profile)
{
    struct text t = {.name = name, .profile = profile};
    for (size_t at = 0; at < length;) {
        const char *newline = memchr(bytes + at, '\n', length - at);
        size_t line = newline != NULL ? (size_t)(newline - bytes) - at : length - at;
        t.line++;
        if (!take_line(&t, bytes + at, line))
            return STATUS_TROUBLE;
        at += line + 1;
    }
    return tell_missing(&t);
}

/* Text of 34 bytes would have no room for all settings. */
int read_profile(const struct input *in, uint8_t *profile)
{
    static uint8_t bytes[MOST_TEXT + 1];
    ssize_t length = read_all(in, bytes, sizeof bytes);
    if (length < 0)
        return STATUS_TROUBLE;
    if (length > MOST_TEXT)
        return trouble(in->name, "is too long for a profile, which is 34 raw bytes, or text of "
                                 "at most 65,536");
    if (length != MCP2515_PROFILE_SIZE)
        return read_text(in->name, (char *)bytes, (size_t)length, profile);
    memcpy(profile, bytes, MCP2515_PROFILE_SIZE);
    return STATUS_GOOD;
}

/* ---- bits that are not writable ---- */

/* After power-on a chip takes every profile that has no refusal of its own. */
static bool is_writable(const uint8_t *profile)
{
    uint8_t chip[MCP2515_CHIP_SIZE];
    mcp2515_power_on(chip, sizeof chip);
    return mcp2515_load_profile(chip, sizeof chip, profile, MCP2515_PROFILE_SIZE, NULL, 0) >= 0;
}

/* Those of a byte, each asked alone in a profile that is 0 otherwise. */
static uint8_t unwritable_bits(const uint8_t *profile, unsigned at)
{
    uint8_t bits = 0;
    for (unsigned bit = 0x01; bit <= 0x80; bit <<= 1) {
        uint8_t asked[MCP2515_PROFILE_SIZE] = {0};
        asked[at] = (uint8_t)(profile[at] & bit);
        if (!is_writable(asked))
            bits |= asked[at];
    }
    return bits;
}

static void print_byte_name(unsigned at)
{
    static const char *const names[IDENTIFIER_SIZE] = {"SIDH", "SIDL", "EID8", "EID0"};
    unsigned setting = at / IDENTIFIER_SIZE;
    if (at >= CONTROL)
        fprintf(stderr, "RXB%uCTRL", at - CONTROL);
    else if (setting < MASK_0)
        fprintf(stderr, "RXF%u%s", setting, names[at % IDENTIFIER_SIZE]);
    else
        fprintf(stderr, "RXM%u%s", setting - MASK_0, names[at % IDENTIFIER_SIZE]);
}

int tell_unwritable(const char *name, const uint8_t *profile)
{
    for (unsigned i = 0; i < MCP2515_PROFILE_SIZE; i++) {
        uint8_t bits = unwritable_bits(profile, i);
        if (bits == 0)
            continue;
        fprintf(stderr, "mcp2515: %s: refusal %d: byte %u (", name, MCP2515_REFUSED_PROFILE, i);
        print_byte_name(i);
        fprintf(stderr, "): %02Xh has bits that are not writable, %02Xh\n", profile[i], bits);
    }
    return STATUS_TROUBLE;
}

/* ---- a profile as text ---- */

static void print_identifier(const uint8_t *profile, unsigned setting, bool extended)
{
    struct identifier id = identifier_of(profile + IDENTIFIER_SIZE * setting);
    unsigned eid17_16 = id.sidl & 3;
    if (extended) {
        printf("%s 0x%08" PRIX32 "\n", setting_names[setting], extended_number(&id));
        return;
    }
    printf("%s 0x%03X", setting_names[setting], id.sid);
    if (id.eid8 != 0 || id.eid0 != 0)
        printf(" data 0x%02X 0x%02X", id.eid8, id.eid0);
    if (eid17_16 != 0)
        printf(" eid17-16 0x%X", eid17_16);
    putchar('\n');
}

static bool is_extended(const uint8_t *profile, unsigned filter)
{
    return profile[IDENTIFIER_SIZE * filter + 1] & EXIDE;
}

/* A mask is shown as its filters are, extended where one of them is. */
static void print_mask(const uint8_t *profile, unsigned setting)
{
    enum { FIRST_OF_MASK_1 = 2 };
    unsigned filter = setting == MASK_0 ? 0 : FIRST_OF_MASK_1;
    unsigned end = setting == MASK_0 ? FIRST_OF_MASK_1 : FILTERS;
    bool extended = false;
    for (; filter < end; filter++)
        extended = extended || is_extended(profile, filter);
    print_identifier(profile, setting, extended);
}

static int print_profile(const uint8_t *profile)
{
    for (unsigned n = 0; n < FILTERS; n++)
        print_identifier(profile, n, is_extended(profile, n));
    print_mask(profile, MASK_0);
    print_mask(profile, MASK_1);
    for (unsigned setting = RXB0; setting <= RXB1; setting++) {
        uint8_t control = profile[CONTROL + setting - RXB0];
        printf("%s %s%s\n", setting_names[setting], rxm_names[control >> RXM_BIT & 3],
               control & BUKT ? " bukt" : "");
    }
    return flush_out();
}

/* ---- the subcommand ---- */

static int write_profile(const char *path, const uint8_t *profile)
{
    if (strcmp(path, "-") == 0)
        return write_out(profile, MCP2515_PROFILE_SIZE);
    return write_file(path, profile, MCP2515_PROFILE_SIZE);
}

static int run(int argc, char **argv)
{
    uint8_t profile[MCP2515_PROFILE_SIZE];
    struct input in;
    struct arguments a = {.most = 2};
    int status = take_arguments(&profile_command, argc, argv, &a);
    if (status != GO_ON)
        return status;
    if (a.count == 0)
        return wrong_usage(&profile_command, "no FILE given (- is standard input)");
    if (a.count == 2 && is_input(a.operand[1], a.operand[0]))
        return wrong_argument(&profile_command, "OUT", a.operand[1], "is the file that is read");
    if (open_input(&in, a.operand[0]) != STATUS_GOOD)
        return STATUS_TROUBLE;
    status = read_profile(&in, profile);
    close_input(&in);
    if (status != STATUS_GOOD)
        return status;
    if (!is_writable(profile))
        return tell_unwritable(in.name, profile);
    return a.count == 2 ? write_profile(a.operand[1], profile) : print_profile(profile);
}

const struct subcommand profile_command = {
    .name = "profile",
    .summary = "print a profile of filters and masks as text, or write its 34 bytes",
    .help =
        "usage: mcp2515 profile [--] FILE [OUT]\n\n"
        "Reads a profile (- is standard input) and prints it as text, or writes its 34 bytes\n"
        "to OUT (- is standard output). A file of 34 bytes is a raw profile, any other one is\n"
        "text with ten settings, one in a line and in any order:\n\n"
        "  filter N IDENTIFIER   N is 0 to 5\n"
        "  mask N IDENTIFIER     N is 0 (for filters 0 and 1) or 1 (for filters 2 to 5)\n"
        "  rxb0 RXM [bukt]       bukt: a frame for a full RXB0 goes to RXB1\n"
        "  rxb1 RXM\n\n"
        "IDENTIFIER is 0x123 or 123h. With 8 digits it is extended and has all 29 bits; with 1\n"
        "to 3 digits it is standard, up to 0x7FF. Behind a standard one may stand 'data 0xAB\n"
        "0xCD' (EID8 and EID0, which are compared with data bytes 0 and 1) and then 'eid17-16\n"
        "0x3' (bits that no standard frame is compared with); what is not given is 0. RXM is\n"
        "filters (00), any (11: every frame, whatever the filters are), reserved-01 or\n"
        "reserved-10. What follows a # is a comment. Each setting is given once, all ten are\n"
        "needed. What is printed reads back as the same bytes; a mask is printed with 8 digits\n"
        "where one of its filters is extended.\n\n"
        "Exit status: 0, or 2 for trouble. A line that is wrong and a raw profile with a bit\n"
        "set that is not writable (refusal 10) are trouble: OUT stays as it was.\n",
    .run = run,
};
