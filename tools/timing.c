/*
 * mcp2515 timing: the bytes of CNF1, CNF2 and CNF3 for an oscillator and a bit
 * rate, and whether three bytes are sound. What is sound, what is planned and
 * how far it is off the archive says; here are only the fields in words.
 */
#include <inttypes.h>
#include <stdio.h>
#include <stdlib.h>
#include <string.h>

#include "mcp2515.h"
#include "tool.h"

/* ---- arguments ---- */

enum reading { READ, NO_NUMBER, NOT_WHOLE, TOO_LARGE, TOO_SMALL };

/* How far a suffix moves the decimal point; -1 where it is none. */
static int places_of(const char *suffix)
{
    if (suffix[0] == '\0')
        return 0;
    if (strcmp(suffix, "k") == 0 || strcmp(suffix, "K") == 0)
        return 3;
    return strcmp(suffix, "M") == 0 ? 6 : -1;
}

/* Digit by digit: 14.7456M is exact that way. */
static enum reading read_quantity(const char *text, uint32_t *quantity)
{
    static const char digits[] = "0123456789";
    size_t whole = strspn(text, digits);
    bool has_point = text[whole] == '.';
    const char *fraction = text + whole + has_point;
    size_t decimals = has_point ? strspn(fraction, digits) : 0;
    int suffix = places_of(fraction + decimals);
    if (whole == 0 || (has_point && decimals == 0) || suffix < 0)
        return NO_NUMBER;
    size_t places = (size_t)suffix;
    uint64_t value = 0;
    for (size_t i = 0; i < whole + places; i++) {
        char digit = i < whole ? text[i] : i < whole + decimals ? fraction[i - whole] : '0';
        value = value * 10 + (uint64_t)(digit - '0');
        if (value > UINT32_MAX)
            return TOO_LARGE;
    }
    if (decimals > places && strspn(fraction + places, "0") < decimals - places)
        return NOT_WHOLE;
    *quantity = (uint32_t)value;
    return READ;
}

/* 86, 0x86 or 86h, of one digit or two. */
static bool read_byte(const char *text, uint8_t *byte)
{
    bool prefix = text[0] == '0' && (text[1] == 'x' || text[1] == 'X');
    const char *digits = prefix ? text + 2 : text;
    size_t count = strspn(digits, "0123456789ABCDEFabcdef");
    const char *end = digits + count;
    if (!prefix && (*end == 'h' || *end == 'H'))
        end++;
    if (count < 1 || count > 2 || *end != '\0')
        return false;
    *byte = (uint8_t)strtoul(digits, NULL, 16); /* which stops at an h */
    return true;
}

struct target {
    uint32_t oscillator, rate;
};

static int take_quantity(const char *name, const char *text, uint32_t least, uint32_t *quantity)
{
    static const char *const reasons[] = {
        [NO_NUMBER] = "is no number; 500000, 500k and 0.5M are",
        [NOT_WHOLE] = "is no whole number",
        [TOO_LARGE] = "is above 4294967295",
        [TOO_SMALL] = "is below 1",
    };
    enum reading reading = read_quantity(text, quantity);
    if (reading == READ && *quantity < least)
        reading = TOO_SMALL;
    return reading == READ ? GO_ON : wrong_argument(&timing_command, name, text, reasons[reading]);
}

static int take_target(const char *const *operand, uint32_t least, struct target *target)
{
    int status = take_quantity("OSCILLATOR", operand[0], least, &target->oscillator);
    return status == GO_ON ? take_quantity("RATE", operand[1], least, &target->rate) : status;
}

static int take_bytes(const char *const *operand, uint8_t *cnf)
{
    static const char *const names[MCP2515_TIMING_SIZE] = {"CNF1", "CNF2", "CNF3"};
    for (int i = 0; i < MCP2515_TIMING_SIZE; i++)
        if (!read_byte(operand[i], &cnf[i]))
            return wrong_argument(&timing_command, names[i], operand[i],
                                  "is no byte in hex; 86, 0x86 and 86h are");
    return GO_ON;
}

/* ---- words ---- */

/* What three bytes say. Lengths are in quanta, a quantum in clocks. The jump width is sjw. */
struct setting {
    uint8_t cnf1, cnf2, cnf3;
    unsigned brp, quantum;
    unsigned sync_seg, prop_seg, ps1, ps2, sjw;
    unsigned sample_point, quanta;
};

static struct setting setting_of(const uint8_t *cnf)
{
    struct setting s = {.cnf1 = cnf[0], .cnf2 = cnf[1], .cnf3 = cnf[2], .sync_seg = 1};
    s.brp = s.cnf1 & 0x3F;
    s.quantum = 2 * (s.brp + 1);
    s.sjw = (s.cnf1 >> 6) + 1;
    s.prop_seg = (s.cnf2 & 0x07) + 1;
    s.ps1 = (s.cnf2 >> 3 & 0x07) + 1;
    s.ps2 = (s.cnf3 & 0x07) + 1;
    s.sample_point = s.sync_seg + s.prop_seg + s.ps1;
    s.quanta = s.sample_point + s.ps2;
    return s;
}

static uint64_t rounded(uint64_t dividend, uint64_t divisor)
{
    return (dividend + divisor / 2) / divisor;
}

/* number / scale, the scale a power of ten; a fraction has no zeros at its end. */
static void print_decimal(uint64_t number, uint64_t scale)
{
    printf("%" PRIu64, number / scale);
    uint64_t rest = number % scale;
    if (rest != 0)
        putchar('.');
    for (; rest != 0; rest %= scale) {
        scale /= 10;
        printf("%" PRIu64, rest / scale);
    }
}

static void print_bytes(const struct setting *s)
{
    printf("CNF1 %02Xh, CNF2 %02Xh, CNF3 %02Xh\n", s->cnf1, s->cnf2, s->cnf3);
}

static const char *quanta_word(unsigned count)
{
    return count == 1 ? "quantum" : "quanta";
}

static void print_setting(const struct setting *s)
{
    printf("prescaler     BRP %u: a quantum is 2 x (%u + 1) = %u clocks\n", s->brp, s->brp,
           s->quantum);
    printf("bit           %u quanta: SyncSeg %u, PropSeg %u, PS1 %u, PS2 %u\n", s->quanta,
           s->sync_seg, s->prop_seg, s->ps1, s->ps2);
    printf("sample point  ");
    print_decimal(rounded(UINT64_C(10000) * s->sample_point, s->quanta), 100);
    printf(" %% (after %u of %u quanta)\n", s->sample_point, s->quanta);
    printf("jump width    %u %s\n", s->sjw, quanta_word(s->sjw));
}

/* Where three decimals do not show that the rate is not the one wanted, words do. */
static void print_rate(const struct setting *s, const struct target *target, int64_t difference)
{
    uint64_t scale = 1000;
    uint64_t rate = rounded(scale * target->oscillator, (uint64_t)s->quantum * s->quanta);
    const char *side = "";
    if (difference != 0 && rate == scale * target->rate)
        side = difference > 0 ? "just above " : "just below ";
    printf("bit rate      %s", side);
    print_decimal(rate, scale);
    printf(" bit/s");
    if (difference != 0)
        printf(", wanted %" PRIu32, target->rate);
    putchar('\n');
}

static void print_target(const struct setting *s, const struct target *target)
{
    int64_t difference =
        mcp2515_timing_difference(target->oscillator, target->rate, s->cnf1, s->cnf2, s->cnf3);
    print_rate(s, target, difference);
    printf("difference    %" PRId64 " = %" PRIu32 " - %" PRIu32 " x 2 x %u x %u\n", difference,
           target->oscillator, target->rate, s->brp + 1, s->quanta);
}

static void print_faults(const struct setting *s, int64_t faults)
{
    unsigned before = s->prop_seg + s->ps1;
    if (faults & MCP2515_FAULT_BTLMODE)
        puts("  BTLMODE (CNF2 bit 7) is clear");
    if (faults & MCP2515_FAULT_SPARE)
        puts("  bits 5-3 of CNF3 are not clear");
    if (faults & MCP2515_FAULT_PS2)
        printf("  PS2 is %u %s; it has to be at least 2\n", s->ps2, quanta_word(s->ps2));
    if (faults & MCP2515_FAULT_PROPSEG_PS1)
        printf("  PropSeg and PS1, %u quanta, are shorter than PS2, %u\n", before, s->ps2);
    if (faults & MCP2515_FAULT_SJW)
        printf("  PS2 of %u %s is not longer than the jump width, %u\n", s->ps2,
               quanta_word(s->ps2), s->sjw);
    if (faults & MCP2515_FAULT_QUANTA)
        printf("  a bit has %u quanta; it has to have 8 to 25\n", s->quanta);
}

/* ---- the two forms ---- */

enum { BYTES = MCP2515_TIMING_SIZE, QUANTITIES = 2 };

static const char forms[] = "needs OSCILLATOR RATE, or --check CNF1 CNF2 CNF3 [OSCILLATOR RATE]";

static int plan(const struct arguments *a)
{
    struct target target;
    uint8_t cnf[MCP2515_TIMING_SIZE];
    if (a->count != QUANTITIES)
        return wrong_usage(&timing_command, forms);
    if (take_target(a->operand, 0, &target) != GO_ON)
        return STATUS_TROUBLE;
    int64_t planned = mcp2515_plan_timing(target.oscillator, target.rate, cnf, sizeof cnf);
    if (planned < 0)
        return trouble(timing_command.name, refusal_text(-planned));
    if (planned == 0) {
        printf("none: with %" PRIu32 " Hz and %" PRIu32 " bit/s no sound setting has a difference "
               "within a thousandth of the oscillator\n",
               target.oscillator, target.rate);
        return flush_out() == STATUS_GOOD ? STATUS_NONE : STATUS_TROUBLE;
    }
    struct setting s = setting_of(cnf);
    print_bytes(&s);
    print_setting(&s);
    print_target(&s, &target);
    return flush_out();
}

static int check(const struct arguments *a)
{
    struct target target;
    uint8_t cnf[MCP2515_TIMING_SIZE];
    bool targeted = a->count == BYTES + QUANTITIES;
    if (a->count != BYTES && !targeted)
        return wrong_usage(&timing_command, forms);
    if (take_bytes(a->operand, cnf) != GO_ON)
        return STATUS_TROUBLE;
    if (targeted && take_target(a->operand + BYTES, 1, &target) != GO_ON)
        return STATUS_TROUBLE;
    struct setting s = setting_of(cnf);
    bool sound = mcp2515_check_timing(s.cnf1, s.cnf2, s.cnf3) == 1;
    print_bytes(&s);
    puts(sound ? "sound" : "not sound");
    print_faults(&s, mcp2515_timing_faults(s.cnf1, s.cnf2, s.cnf3));
    print_setting(&s);
    if (targeted)
        print_target(&s, &target);
    if (flush_out() != STATUS_GOOD)
        return STATUS_TROUBLE;
    return sound ? STATUS_GOOD : STATUS_UNSOUND;
}

static int run(int argc, char **argv)
{
    bool checks = false;
    struct flag flags[] = {{"--check", &checks}};
    struct arguments a = {.flags = flags, .flag_count = 1, .most = BYTES + QUANTITIES};
    int status = take_arguments(&timing_command, argc, argv, &a);
    if (status != GO_ON)
        return status;
    return checks ? check(&a) : plan(&a);
}

const struct subcommand timing_command = {
    .name = "timing",
    .summary = "plan CNF1, CNF2 and CNF3 for a bit rate, or check them",
    .help = "usage: mcp2515 timing [--] OSCILLATOR RATE\n"
            "       mcp2515 timing --check [--] CNF1 CNF2 CNF3 [OSCILLATOR RATE]\n\n"
            "Prints CNF1, CNF2 and CNF3 in hex for an oscillator of 1,000,000 to 40,000,000 Hz\n"
            "and a bit rate of 5,000 to 1,000,000 bit/s: of the sound settings the one with the\n"
            "smallest size of the difference, then with the lowest BRP, then with the lowest\n"
            "bytes. Lines below say what they mean: the prescaler, each segment and the jump\n"
            "width in quanta, the sample point, the true bit rate to three decimals, and the\n"
            "difference, which is the oscillator less the rate times the clocks of a bit. Where\n"
            "its size is more than a thousandth of the oscillator, there is no setting.\n\n"
            "  --check  say of three bytes whether they are sound or which rules they break, and\n"
            "           what they mean; with OSCILLATOR and RATE, each from 1 to 4294967295 here,\n"
            "           also the true bit rate and the difference\n\n"
            "OSCILLATOR and RATE are decimal; k or K behind a number means thousands, M\n"
            "millions: 16M, 14.7456M, 500k. A byte is hex, one digit or two: 86, 0x86, 86h.\n\n"
            "Exit status: 0; 1 where there is no setting, or the bytes are not sound; 2 for\n"
            "trouble. How large the difference is does not change the status of --check.\n",
    .run = run,
};
