/*
 * The live calls against the second model: random logs record by record, with
 * the set and without, and INT after each, by run_from in pieces, as text by
 * render; random bytes as a chip, as filters and masks, around the request pins
 * and around the panel; every refusal of every call. The first difference ends the run with
 * status 1. What was met is counted, and none of it may be missing.
 *
 *   live [records [seed]]
 */
#include "live.h"

#include <pthread.h>
#include <stdio.h>
#include <stdlib.h>
#include <string.h>

#include "chip_bytes.h"
#include "gen.h"
#include "match.h"
#include "panel_met.h"
#include "pins_met.h"
#include "registers.h"
#include "sets_met.h"

enum {
    DEFAULT_RECORDS = 3000000,
    DEFAULT_SEED = 2515,
    CHIP = MCP2515_CHIP_SIZE,
    LONGEST = LOG_RECORDS_MAX + 20,
    LONGEST_LINE = 40,
    REFUSALS = 22,
    OUTCOME_BYTES = MCP2515_ANSWER_SET_SIZE /* refusal, answer, set */
};

struct fence chip_fence, in_fence, out_fence;

const struct step_call step_calls[STEP_CALLS] = {
    {CALL_STEP, mcp2515_step, MCP2515_ANSWER_SIZE},
    {CALL_STEP_SET, mcp2515_step_set, MCP2515_ANSWER_SET_SIZE},
};

static unsigned long long seed_given, seed_of_log;
static uint64_t dice;

/* ---- what was met ---- */

static const char *const call_name[CALLS] = {"run_log",  "power_on", "step", "step_set",
                                             "run_from", "hold",     "read", "int_is_low",
                                             "render",   "part_refusal"};

/* Lines of a text that show a set, or look as if they would. */
enum line {
    LINE_SET,
    LINE_SET_TWO_DIGITS,
    LINE_NO_MATCH,
    LINE_NOT_LISTENING,
    LINE_WOKE,
    LINE_FRAME_REFUSED,
    LINE_LOOPBACK, /* a set that is not shown */
    LINE_SHORT_FRAME,
    LINE_FRAME_TOO_MANY,
    LINES
};

/* What a bit of a mask would decide if it counted. */
enum { DECIDES_SET, DECIDES_ANSWER, DECIDES };

static unsigned long long results[CALLS][REFUSALS];       /* 0: accepted */
static unsigned long long refusals[2][REFUSALS];          /* of records; [1]: on random chips */
static unsigned long long resets[2];                      /* [1]: on random chips */
static unsigned long long int_lines[2], modes[MODES], opens[OPEN_SPENT + 1];
static unsigned long long waits, flights, bus_offs, hidden, addresses, wrong_versions,
    wrong_lengths, random_chips, pieces, parts[REFUSALS];
static unsigned long long sets_met[2][SETS_MET]; /* [1]: of random chips */
static unsigned long long pins_met[2][PINS_MET]; /* [1]: of random chips */
/* Of random chips: a pin record lets a mode request go, or its TXREQ holds one that was free;
 * it requests by a fall from a level that is neither 0 nor 1. */
static unsigned long long carried_out, held_back, other_levels;
/* Of random chips: exchanges by the panel with an instruction that it cannot have opened, by
 * the number of its place; select highs that clear nothing or something then. */
enum { OPEN_NUMBERS = 16 };
static unsigned long long panel_met[2][PANELS_MET]; /* [1]: of random chips */
static unsigned long long impossible[OPEN_NUMBERS], impossible_high[OPEN_NUMBERS], other_speakers,
    of_nobody;
static unsigned long long lines[LINES];
static unsigned long long junk_decides[DECIDES][3]; /* SIDL bits 4, 3, 2 of mask and filter */
static unsigned long long srr_decides[DECIDES];     /* SIDL bit 4 of the mask, not of the filter */
static unsigned long long exide_decides[DECIDES][2]; /* by SIDL bit 3 of the mask */
static unsigned long long refused_parts[2]; /* each record run refused; [1]: random chips */

_Noreturn void live_stop(const char *what)
{
    printf("DIFFERENCE: %s\nseed %llu, log seed %llu\n", what, seed_given, seed_of_log);
    exit(1);
}

void live_result(enum live_call call, int64_t want, int64_t got)
{
    if (want != got) {
        printf("mcp2515_%s: expected %lld, got %lld\n", call_name[call], (long long)want,
               (long long)got);
        live_stop("result of a call");
    }
    results[call][call == CALL_PART_REFUSAL ? got : got < 0 ? -got : 0]++;
}

static void demand(const char *what, unsigned long long count)
{
    printf("  %-56s %12llu\n", what, count);
    if (count == 0)
        live_stop("never met");
}

static void demand_numbers(const char *what, const unsigned long long *counts, unsigned size)
{
    char text[64];
    for (unsigned i = 0; i < size; i++) {
        snprintf(text, sizeof text, "%s %u", what, i);
        demand(text, counts[i]);
    }
}

static void demand_results(void)
{
    static const struct {
        uint8_t call, refusal;
    } wanted[] = {
        {CALL_RUN_LOG, 0},      {CALL_RUN_LOG, 6},      {CALL_RUN_LOG, 7},
        {CALL_RUN_LOG, 8},      {CALL_POWER_ON, 0},     {CALL_POWER_ON, 19},
        {CALL_STEP, 0},         {CALL_STEP, 6},         {CALL_STEP, 7},
        {CALL_STEP, 21},        {CALL_STEP_SET, 0},     {CALL_STEP_SET, 6},
        {CALL_STEP_SET, 7},     {CALL_STEP_SET, 21},    {CALL_RUN_FROM, 0},
        {CALL_RUN_FROM, 6},     {CALL_RUN_FROM, 7},     {CALL_RUN_FROM, 8},
        {CALL_RUN_FROM, 21},    {CALL_HOLD, 0},         {CALL_HOLD, 21},
        {CALL_READ, 0},         {CALL_READ, 21},        {CALL_INT_IS_LOW, 0},
        {CALL_INT_IS_LOW, 21},  {CALL_RENDER, 0},       {CALL_RENDER, 7},
        {CALL_RENDER, 21},      {CALL_PART_REFUSAL, 0}, {CALL_PART_REFUSAL, 6},
        {CALL_PART_REFUSAL, 8},
    };
    for (size_t i = 0; i < sizeof wanted / sizeof *wanted; i++) {
        char text[64];
        snprintf(text, sizeof text, "mcp2515_%s, refusal %u", call_name[wanted[i].call],
                 wanted[i].refusal);
        demand(text, results[wanted[i].call][wanted[i].refusal]);
    }
}

static void demand_sets(void)
{
    for (unsigned i = 0; i < 2 * SETS_MET; i++) {
        unsigned random = i / SETS_MET, sort = i % SETS_MET;
        char text[96];
        snprintf(text, sizeof text, "%s%s", random ? "random chip: " : "", set_met_name[sort]);
        demand(text, sets_met[random][sort]);
    }
}

static void demand_pins(void)
{
    for (unsigned i = 0; i < 2 * PINS_MET; i++) {
        unsigned random = i / PINS_MET, sort = i % PINS_MET;
        char text[96];
        snprintf(text, sizeof text, "%s%s", random ? "random chip: " : "", pin_met_name[sort]);
        demand(text, pins_met[random][sort]);
    }
    demand("random chip: pin record lets a mode request go", carried_out);
    demand("random chip: pin requests, and a mode waits for it", held_back);
    demand("random chip: pin requests, its level was above 1", other_levels);
}

/* Instructions that the panel cannot have opened, at any address or outside its buffers. */
static bool is_impossible(unsigned number, uint8_t address)
{
    address &= 0x7F;
    return number == 4 || (number >= 6 && number <= 9) ||
           (number == 5 && (address < 0x51 || address > 0x5D)) ||
           (number == 10 && (address < 0x71 || address > 0x7D));
}

static void demand_panel(void)
{
    char text[96];
    for (unsigned i = 0; i < 2 * PANELS_MET; i++) {
        unsigned random = i / PANELS_MET, sort = i % PANELS_MET;
        snprintf(text, sizeof text, "%s%s", random ? "random chip: " : "", panel_met_name[sort]);
        demand(text, panel_met[random][sort]);
    }
    for (unsigned i = 4; i <= 10; i++) {
        snprintf(text, sizeof text, "random chip: panel, impossible open instruction %u", i);
        demand(text, impossible[i]);
    }
    demand("random chip: select high after 9, RX0IF stays", impossible_high[9]);
    demand("random chip: select high after 10 elsewhere clears RX1IF", impossible_high[10]);
    demand("random chip: who selected is a byte above 1", other_speakers);
    demand("random chip: who selected is said, select is high", of_nobody);
}

static void demand_refusals(const char *what, const unsigned long long *counts)
{
    static const uint8_t of_records[] = {0, 1, 2, 3, 4, 5, REFUSED_SPEAKER};
    char text[64];
    for (size_t i = 0; i < sizeof of_records; i++) {
        snprintf(text, sizeof text, "%s %u", what, of_records[i]);
        demand(text, counts[of_records[i]]);
    }
}

static void demand_junk(void)
{
    static const char *const decided[DECIDES] = {"the set", "the answer"};
    char text[96];
    for (unsigned i = 0; i < DECIDES; i++) {
        for (unsigned bit = 0; bit < 3; bit++) {
            snprintf(text, sizeof text, "SIDL bit %u of mask, filter would decide %s", 4 - bit,
                     decided[i]);
            demand(text, junk_decides[i][bit]);
        }
        snprintf(text, sizeof text, "SIDL bit 4 of the mask, as SRR, would decide %s", decided[i]);
        demand(text, srr_decides[i]);
        snprintf(text, sizeof text, "EXIDE decides %s, that mask bit is", decided[i]);
        demand_numbers(text, exide_decides[i], 2);
    }
}

static void demand_lines(void)
{
    static const char *const line_name[LINES] = {
        [LINE_SET] = "line with a set",
        [LINE_SET_TWO_DIGITS] = "line with a set of two digits",
        [LINE_NO_MATCH] = "line of a frame without a match",
        [LINE_NOT_LISTENING] = "line of a frame not listened to",
        [LINE_WOKE] = "line of a frame that woke the chip",
        [LINE_FRAME_REFUSED] = "line of a frame refused",
        [LINE_LOOPBACK] = "line of an own frame with a set, not shown",
        [LINE_SHORT_FRAME] = "line of refusal 6, the tail starts as a frame",
        [LINE_FRAME_TOO_MANY] = "line of refusal 8, the record is a frame",
    };
    for (unsigned i = 0; i < LINES; i++)
        demand(line_name[i], lines[i]);
}

static void demand_all(void)
{
    printf("met:\n");
    demand_results();
    demand_sets();
    demand_pins();
    demand_panel();
    demand_refusals("record of a reached chip, refusal", refusals[0]);
    demand_refusals("record of a random chip, refusal", refusals[1]);
    demand("RESET of a reached chip", resets[0]);
    demand("RESET of a random chip", resets[1]);
    demand_numbers("INT after a record, low is 1:", int_lines, 2);
    demand_numbers("record in mode", modes, MODES);
    demand_numbers("record with the open instruction", opens, OPEN_SPENT + 1);
    demand("record while a mode request waits", waits);
    demand("record during a flight", flights);
    demand("record in bus-off", bus_offs);
    demand("address asked by hold and by read", addresses);
    demand("address that reads other than it holds", hidden);
    demand("random chip", random_chips);
    demand("random bytes of another version", wrong_versions);
    demand("random bytes of another length", wrong_lengths);
    demand_junk();
    demand_lines();
    demand("piece of a log by run_from", pieces);
    demand("part of a text that goes on", parts[0]);
    demand("part of a text that ends in refusal 6", parts[REFUSED_RAGGED]);
    demand("part of a text that ends in refusal 8", parts[REFUSED_TOO_LONG]);
    demand("part of a text, every record refused", refused_parts[0]);
    demand("the same of a random chip", refused_parts[1]);
}

static unsigned below(unsigned n)
{
    return (unsigned)((gen_next(&dice) >> 33) % n);
}

/* ---- a chip by both ---- */

struct pair {
    uint8_t chip[CHIP];
    struct model m;
    bool random; /* of random bytes */
};

static void start_pair(struct pair *p)
{
    struct model decoded;
    memset(p, 0, sizeof *p);
    model_power_on(&p->m);
    live_result(CALL_POWER_ON, CHIP, mcp2515_power_on(p->chip, CHIP));
    chip_decode(p->chip, &decoded);
    if (memcmp(&decoded, &p->m, sizeof decoded) != 0)
        live_stop("the bytes of the chip after power-on");
}

static void count_state(const struct model *m)
{
    modes[m->mode]++;
    opens[m->open]++;
    waits += m->request != NO_REQUEST;
    flights += m->flight != NO_FLIGHT;
    bus_offs += model_bus_off(m);
}

static void print_state(const struct pair *p, const uint8_t *before)
{
    printf("chip before:");
    for (unsigned i = 0; i < CHIP; i++)
        printf("%s%02X", i % 16 ? " " : "\n  ", before[i]);
    printf("\nchip after:");
    for (unsigned i = 0; i < CHIP; i++)
        printf("%s%02X", i % 16 ? " " : "\n  ", p->chip[i]);
    printf("\n");
}

static void check_bytes(const struct pair *p, const uint8_t *before, bool refused)
{
    struct model decoded;
    if (refused && memcmp(before, p->chip, CHIP) != 0) {
        print_state(p, before);
        live_stop("a refused record changed the chip");
    }
    if (memcmp(before + SPARE_FROM, p->chip + SPARE_FROM, CHIP - SPARE_FROM) != 0)
        live_stop("a spare byte or the version was changed");
    chip_decode(p->chip, &decoded);
    if (memcmp(&decoded, &p->m, sizeof decoded) != 0) {
        print_state(p, before);
        live_stop("the bytes of the chip after a step");
    }
}

static void check_int(const struct pair *p)
{
    bool low = model_int_low(&p->m);
    live_result(CALL_INT_IS_LOW, low, mcp2515_int_is_low(p->chip, CHIP));
    int_lines[low]++;
}

static void check_addresses(const struct pair *p)
{
    uint8_t *chip = fence_lend(&chip_fence, CHIP);
    memcpy(chip, p->chip, CHIP);
    for (unsigned i = 0; i < 256; i++) {
        uint8_t address = (uint8_t)i;
        uint8_t held = model_holds(&p->m, address), replied = model_reads(&p->m, address);
        live_result(CALL_HOLD, held, mcp2515_hold(chip, CHIP, address));
        live_result(CALL_READ, replied, mcp2515_read(chip, CHIP, address));
        hidden += held != replied;
    }
    addresses += 256;
    if (memcmp(chip, p->chip, CHIP) != 0)
        live_stop("a question changed the chip");
}

/* One record by one of the calls, from the chip before; what it leaves goes to p. */
static void step_by(const struct step_call *step, struct pair *p, const uint8_t *before,
                    const uint8_t *record, const uint8_t *want)
{
    size_t size = step->answer_size, room = size + below(3);
    uint8_t *chip = fence_lend(&chip_fence, CHIP);
    uint8_t *lent = fence_lend(&in_fence, RECORD_BYTES), *answer = fence_lend(&out_fence, room);
    uint8_t got[OUTCOME_BYTES], given[RECORD_BYTES]; /* comparing next to a fence is slow */
    memcpy(chip, before, CHIP);
    memcpy(lent, record, RECORD_BYTES);
    live_result(step->call, (int64_t)size, step->run(chip, CHIP, lent, RECORD_BYTES, answer, room));
    memcpy(p->chip, chip, CHIP);
    memcpy(got, answer, size);
    memcpy(given, lent, RECORD_BYTES);
    if (memcmp(got, want, size) != 0) {
        printf("mcp2515_%s, kind %u: expected refusal %u answer %u set %02Xh, got",
               call_name[step->call], record[0], want[0], want[1], want[2]);
        for (size_t i = 0; i < size; i++)
            printf(" %02Xh", got[i]);
        printf("\n");
        print_state(p, before);
        live_stop("a step");
    }
    if (!fence_filled(answer + size, room - size) || !fence_intact(&chip_fence, CHIP) ||
        !fence_intact(&out_fence, room) || memcmp(given, record, RECORD_BYTES) != 0)
        live_stop("a step wrote beside its answer");
}

/* A pin record and what it did, on random chips beyond what a log reaches. */
static void count_pins(const struct pair *p, const struct model *met, const uint8_t *before,
                       const uint8_t *record, uint8_t refusal)
{
    unsigned long long *counts = pins_met[p->random], requested = counts[PIN_REQUESTS];
    count_pin(counts, met, record, refusal);
    if (!p->random || record[0] != KIND_REQUEST_PIN || refusal != REFUSED_NOT)
        return;
    bool requests = counts[PIN_REQUESTS] > requested;
    bool sends = met->mode == MODE_NORMAL || met->mode == MODE_LOOPBACK;
    bool holds = (met->reg[TXB0CTRL] | met->reg[TXB1CTRL] | met->reg[TXB2CTRL]) & TXREQ;
    bool is_free = met->request != NO_REQUEST && !(sends && (holds || met->flight != NO_FLIGHT));
    carried_out += is_free && p->m.request == NO_REQUEST;
    held_back += is_free && requests && p->m.request != NO_REQUEST;
    other_levels += requests && before[MCP2515_PLACE_PINS + record[1]] > 1;
}

/* What a random chip has that no log reaches, by its bytes before. */
static void count_impossible(const struct model *met, const uint8_t *before,
                             const uint8_t *record, uint8_t refusal)
{
    uint8_t open = before[MCP2515_PLACE_OPEN], who = before[MCP2515_PLACE_SPEAKER];
    if (record[0] > KIND_SELECT_HIGH || refusal != REFUSED_NOT)
        return;
    of_nobody += open == 0 && who != 0;
    other_speakers += open != 0 && who > 1;
    if (met->selected != SELECT_BY_PANEL || !is_impossible(open, before[MCP2515_PLACE_OPEN + 1]))
        return;
    if (record[0] == KIND_EXCHANGE)
        impossible[open]++;
    else
        impossible_high[open] += (met->reg[CANINTF] & (open == 9 ? RX0IF : RX1IF)) != 0;
}

/* By both calls from the same chip: they leave the same bytes. The set is told a third time
 * by match.c. */
static void step_pair(struct pair *p, const uint8_t *record)
{
    uint8_t before[CHIP], after[CHIP], want[OUTCOME_BYTES];
    struct model met = p->m;
    bool resets_it = met.open == OPEN_CODE && met.selected == SELECT_BY_CONTROLLER &&
                     record[0] == KIND_EXCHANGE && record[1] == SPI_RESET;
    memcpy(before, p->chip, CHIP);
    count_state(&met);
    model_step_set(&p->m, record, &want[0], &want[1], &want[2]);
    if (want[2] != match_set_of_step(&met, record, want[0]))
        live_stop("the set of the model is not that of match.c");
    step_by(&step_calls[0], p, before, record, want);
    memcpy(after, p->chip, CHIP);
    step_by(&step_calls[1], p, before, record, want);
    if (memcmp(after, p->chip, CHIP) != 0) {
        print_state(p, before);
        live_stop("mcp2515_step and mcp2515_step_set leave different chips");
    }
    check_bytes(p, before, want[0] != REFUSED_NOT);
    check_int(p);
    count_set(sets_met[p->random], &p->m, met.mode == MODE_LOOPBACK, record, want);
    count_pins(p, &met, before, record, want[0]);
    count_panel(panel_met[p->random], &met, record, want[0], want[1], &p->m);
    if (p->random)
        count_impossible(&met, before, record, want[0]);
    refusals[p->random][want[0]]++;
    resets[p->random] += resets_it && want[0] == REFUSED_NOT;
}

/* ---- random logs ---- */

static size_t some_log(uint8_t *log, size_t records)
{
    unsigned pick = below(100);
    seed_of_log = gen_next(&dice);
    if (pick < 8)
        gen_noise(seed_of_log, log, RECORD_BYTES * records);
    else
        gen_log(pick < 16   ? GEN_QUIET
                : pick < 24 ? GEN_BUSY
                            : GEN_MIXED,
                seed_of_log, log, records);
    if (pick >= 84)
        gen_damage(seed_of_log, log, records);
    if (pick % 8 == 1)
        gen_swap_speakers(seed_of_log, log, records);
    return records;
}

static void live_log(uint8_t *log)
{
    struct pair p;
    size_t records = some_log(log, below(4) ? below(300) : below(5000));
    start_pair(&p);
    for (size_t i = 0; i < records; i++) {
        step_pair(&p, log + RECORD_BYTES * i);
        if (below(100) == 0)
            check_addresses(&p);
    }
    check_addresses(&p);
}

/* ---- the same in pieces ---- */

static void run_piece(struct pair *p, const uint8_t *log, size_t records)
{
    size_t log_len = RECORD_BYTES * records, room = 2 * records + below(20);
    uint8_t *chip = fence_lend(&chip_fence, CHIP), *lent = fence_lend(&in_fence, log_len);
    uint8_t *got = fence_lend(&out_fence, room), before[CHIP];
    bool all_refused = true;
    memcpy(before, p->chip, CHIP);
    memcpy(chip, p->chip, CHIP);
    memcpy(lent, log, log_len);
    live_result(CALL_RUN_FROM, (int64_t)records,
                mcp2515_run_from(chip, CHIP, lent, log_len, got, room));
    memcpy(p->chip, chip, CHIP);
    for (size_t i = 0; i < records; i++) {
        uint8_t refusal, answer;
        model_step(&p->m, log + RECORD_BYTES * i, &refusal, &answer);
        if (got[2 * i] != refusal || got[2 * i + 1] != answer)
            live_stop("a record of run_from");
        all_refused = all_refused && refusal != REFUSED_NOT;
    }
    if (!fence_filled(got + 2 * records, room - 2 * records) || !fence_intact(&chip_fence, CHIP) ||
        !fence_intact(&out_fence, room) || memcmp(lent, log, log_len) != 0)
        live_stop("run_from wrote beside its answers");
    check_bytes(p, before, all_refused);
    pieces++;
}

static void pieces_of_log(uint8_t *log)
{
    struct pair p;
    size_t records = some_log(log, below(20) ? below(3000) : below(LOG_RECORDS_MAX));
    start_pair(&p);
    for (size_t done = 0; done < records;) {
        size_t most = records - done, size = below(3) ? below(20) : below(5000);
        if (size > most)
            size = most;
        run_piece(&p, log + RECORD_BYTES * done, size);
        done += size;
    }
    check_addresses(&p);
}

/* ---- as text ---- */

/* What the model makes of a part. */
struct told {
    size_t bytes;   /* of the text */
    unsigned end;   /* the refusal that ended the text, or 0 */
    size_t run;     /* records; a short one and one past the limit are not run */
    size_t refused; /* of these, by the chip */
};

static void count_line(uint8_t kind, const uint8_t *outcome)
{
    bool set = outcome[2] != 0;
    lines[LINE_LOOPBACK] += kind == KIND_FRAME_ENDS && set;
    if (kind != KIND_FRAME)
        return;
    lines[LINE_SHORT_FRAME] += outcome[0] == REFUSED_RAGGED;
    lines[LINE_FRAME_TOO_MANY] += outcome[0] == REFUSED_TOO_LONG;
    lines[LINE_FRAME_REFUSED] += outcome[0] != REFUSED_NOT && outcome[0] <= REFUSED_STATE;
    lines[LINE_NO_MATCH] += outcome[0] == REFUSED_NOT && outcome[1] <= RX_LOST && !set;
    lines[LINE_NOT_LISTENING] += outcome[1] == RX_NOT_LISTENING;
    lines[LINE_WOKE] += outcome[1] == RX_WOKE;
    lines[LINE_SET] += set;
    lines[LINE_SET_TWO_DIGITS] += outcome[2] > 9;
}

/* A frame that was run shows its set, refused or not. */
static size_t print_line(char *text, unsigned long number, const uint8_t *outcome, bool shows_set)
{
    int bytes = snprintf(text, LONGEST_LINE, "%lu %u %u", number, outcome[0], outcome[1]);
    if (shows_set)
        bytes += snprintf(text + bytes, LONGEST_LINE, " %u", outcome[2]);
    text[bytes] = '\n';
    return (size_t)bytes + 1;
}

/* The lines that expected.c would print from here on. */
static struct told model_text(struct model *m, unsigned long number, const uint8_t *part,
                              size_t part_len, char *text)
{
    struct told told = {.end = REFUSED_NOT};
    for (size_t i = 0; i < part_len && told.end == REFUSED_NOT; i += RECORD_BYTES) {
        uint8_t outcome[OUTCOME_BYTES] = {0};
        number++;
        if (part_len - i < RECORD_BYTES) {
            told.end = outcome[0] = REFUSED_RAGGED;
        } else if (number > LOG_RECORDS_MAX) {
            told.end = outcome[0] = REFUSED_TOO_LONG;
        } else {
            model_step_set(m, part + i, &outcome[0], &outcome[1], &outcome[2]);
            told.run++;
            told.refused += outcome[0] != REFUSED_NOT;
        }
        count_line(part[i], outcome);
        told.bytes += print_line(text + told.bytes, number, outcome,
                                 told.end == REFUSED_NOT && part[i] == KIND_FRAME);
    }
    return told;
}

/* Returns the refusal that ended the text, or 0. */
static unsigned render_part(struct pair *p, uint32_t number, const uint8_t *part, size_t part_len,
                            char *text)
{
    size_t room = (part_len / RECORD_BYTES + 1) * MCP2515_LINE_SIZE + below(20);
    uint8_t *chip = fence_lend(&chip_fence, CHIP), *lent = fence_lend(&in_fence, part_len);
    uint8_t *got = fence_lend(&out_fence, room), before[CHIP];
    memcpy(before, p->chip, CHIP);
    memcpy(chip, p->chip, CHIP);
    memcpy(lent, part, part_len);
    struct told want = model_text(&p->m, number, part, part_len, text);
    live_result(CALL_RENDER, (int64_t)want.bytes,
                mcp2515_render(chip, CHIP, number, lent, part_len, got, room));
    if (memcmp(got, text, want.bytes) != 0)
        live_stop("the text of a part");
    if (!fence_filled(got + want.bytes, room - want.bytes) || !fence_intact(&chip_fence, CHIP) ||
        !fence_intact(&out_fence, room) || memcmp(lent, part, part_len) != 0)
        live_stop("render wrote beside its text");
    live_result(CALL_PART_REFUSAL, want.end, mcp2515_part_refusal(number, part_len));
    memcpy(p->chip, chip, CHIP);
    check_bytes(p, before, want.refused == want.run);
    parts[want.end]++;
    refused_parts[p->random] += want.run > 0 && want.refused == want.run;
    return want.end;
}

static void text_of_log(uint8_t *log, char *text)
{
    struct pair p;
    size_t done = 0, records = some_log(log, below(3000));
    size_t length = RECORD_BYTES * records + (below(2) ? below(RECORD_BYTES) : 0);
    unsigned end = REFUSED_NOT;
    uint32_t first = below(2)   ? 0
                     : below(8) ? LOG_RECORDS_MAX - below(3000)
                                : UINT32_MAX - below(4);
    start_pair(&p);
    while (end == REFUSED_NOT && done < length) {
        size_t size = RECORD_BYTES * (size_t)(below(3) ? below(20) : below(3000));
        if (size > length - done)
            size = length - done;
        end = render_part(&p, first + (uint32_t)(done / RECORD_BYTES), log + done, size, text);
        done += size;
    }
}

/* ---- random bytes as a chip ---- */

static void random_bytes(uint8_t *bytes, size_t length)
{
    for (size_t i = 0; i < length; i++)
        bytes[i] = (uint8_t)below(256);
}

/* A reached chip with a few bytes changed, or bytes of no run at all. */
static void random_chip(struct pair *p, const uint8_t *log, size_t records)
{
    static const uint8_t near[] = {0, 1, 2, 3, 4, 5, 7, 95, 96, 127, 128, 255};
    start_pair(p);
    for (size_t i = 0; i < records; i++)
        step_pair(p, log + RECORD_BYTES * i);
    if (below(4) == 0)
        random_bytes(p->chip, CHIP);
    for (unsigned n = below(12); n > 0; n--)
        p->chip[below(CHIP)] = (uint8_t)below(256);
    for (unsigned n = below(12); n > 0; n--)
        p->chip[128 + below(SPARE_FROM - 128)] =
            below(2) ? (uint8_t)below(256) : near[below(sizeof near)];
    for (unsigned n = 0; n < REQUEST_PINS; n++)
        if (below(3) == 0)
            p->chip[MCP2515_PLACE_PINS + n] = (uint8_t)(below(2) ? below(256) : 0);
    if (below(2))
        p->chip[TXRTSCTRL] = (uint8_t)below(256);
    if (below(2))
        p->chip[MCP2515_PLACE_SPEAKER] = (uint8_t)(below(2) ? below(2) : below(256));
    p->chip[MCP2515_PLACE_VERSION] = MCP2515_CHIP_VERSION;
    p->random = true;
    chip_decode(p->chip, &p->m);
    random_chips++;
}

/* Records that follow this chip, as the generator would choose them. */
static void step_from_here(struct pair *p, unsigned records)
{
    struct gen g;
    uint8_t record[RECORD_BYTES];
    gen_start(&g, GEN_MIXED, gen_next(&dice));
    g.chip = p->m;
    g.planned = below(24);
    random_bytes(g.plan, g.planned);
    check_int(p);
    check_addresses(p);
    while (records-- > 0) {
        gen_record(&g, record);
        step_pair(p, record);
        if (below(8) == 0)
            g.chip = p->m;
    }
    check_addresses(p);
}

static void refuse_bytes(void)
{
    uint8_t record[RECORD_BYTES] = {0};
    size_t length = below(2) ? CHIP : below(2 * CHIP);
    uint8_t *bytes = fence_lend(&chip_fence, length), before[2 * CHIP];
    uint8_t *answer = fence_lend(&out_fence, 2 * MCP2515_LINE_SIZE);
    random_bytes(bytes, length);
    if (length == CHIP && bytes[MCP2515_PLACE_VERSION] == MCP2515_CHIP_VERSION)
        return;
    memcpy(before, bytes, length);
    live_result(CALL_STEP, -21, mcp2515_step(bytes, length, record, 16, answer, 2));
    live_result(CALL_STEP_SET, -21, mcp2515_step_set(bytes, length, record, 16, answer, 3));
    live_result(CALL_RUN_FROM, -21, mcp2515_run_from(bytes, length, record, 16, answer, 2));
    live_result(CALL_RENDER, -21,
                mcp2515_render(bytes, length, 0, record, 16, answer, 2 * MCP2515_LINE_SIZE));
    live_result(CALL_HOLD, -21, mcp2515_hold(bytes, length, (uint8_t)below(256)));
    live_result(CALL_READ, -21, mcp2515_read(bytes, length, (uint8_t)below(256)));
    live_result(CALL_INT_IS_LOW, -21, mcp2515_int_is_low(bytes, length));
    if (memcmp(before, bytes, length) != 0 || !fence_filled(answer, 2 * MCP2515_LINE_SIZE))
        live_stop("a refused call changed a byte");
    *(length == CHIP ? &wrong_versions : &wrong_lengths) += 1;
}

static void random_start(uint8_t *log, char *text)
{
    struct pair stepped, run, rendered;
    uint32_t number = below(2) ? 0 : LOG_RECORDS_MAX - below(4);
    size_t records = some_log(log, below(60));
    random_chip(&stepped, log, records);
    run = rendered = stepped;
    step_from_here(&stepped, 1 + below(60));
    records = some_log(log, below(60));
    run_piece(&run, log, records);
    records = some_log(log, below(2) ? below(4) : below(60)); /* of a few, often all are refused */
    render_part(&rendered, number, log, RECORD_BYTES * records, text);
    for (unsigned i = 0; i < 4; i++)
        refuse_bytes();
}

/* ---- any bytes in filters and masks ---- */

static void write_register(struct pair *p, uint8_t address, uint8_t value)
{
    uint8_t bytes[] = {SPI_WRITE, address, value}, record[RECORD_BYTES] = {KIND_SELECT_LOW};
    step_pair(p, record);
    for (unsigned i = 0; i < sizeof bytes; i++) {
        record[0] = KIND_EXCHANGE;
        record[1] = bytes[i];
        step_pair(p, record);
    }
    record[0] = KIND_SELECT_HIGH;
    record[1] = 0;
    step_pair(p, record);
}

/* A chip in this mode with any bytes in filters and masks, also where WRITE sets none. */
static void junk_chip(struct pair *p, uint8_t mode)
{
    start_pair(p);
    write_register(p, CANCTRL, (uint8_t)(mode << 5));
    for (unsigned a = RXF0SIDH; a < CNF3; a++)
        if ((a & 0x0F) < BFPCTRL)
            p->chip[a] = (uint8_t)(below(3) ? below(256) : below(256) & below(256));
    p->random = true;
    chip_decode(p->chip, &p->m);
}

/* A filter that matches, and would not if its mask counted as it stands: SIDL bits 4, 3
 * and 2 too, where a frame has 0, or at bit 4 the SRR of a standard remote frame. */
static void count_junk_bits(unsigned decides, uint32_t filter, uint32_t mask, bool srr)
{
    for (unsigned i = 0; i < 3; i++)
        junk_decides[decides][i] += filter >> (20 - i) & mask >> (20 - i) & 1;
    srr_decides[decides] += srr && (~filter & mask & (uint32_t)SRR << 16) != 0;
}

/* Counts these, and filters that EXIDE alone keeps from matching, as it should whether mask
 * bit 3 is set or not. Each would change the set, some the answer too. */
static void count_junk(const struct model *m, const uint8_t *record, const struct match_frame *f,
                       bool remote, uint8_t answer)
{
    unsigned set = match_set(m, f);
    bool srr = remote && !(f->bits & MATCH_EXIDE);
    for (unsigned n = 0; n < MATCH_FILTERS; n++) {
        uint32_t filter = match_filter(m, n), mask = match_mask(m, match_mask_of(n));
        bool matches = set >> n & 1, alone = match_differs(filter, mask, f) == MATCH_EXIDE;
        if (!matches && !alone)
            continue;
        bool of_answer = match_answer(m, record, f, set ^ 1u << n) != answer;
        for (unsigned i = DECIDES_SET; i <= (of_answer ? DECIDES_ANSWER : DECIDES_SET); i++) {
            if (matches)
                count_junk_bits(i, filter, mask, srr);
            else
                exide_decides[i][(mask & MATCH_EXIDE) != 0]++;
        }
    }
}

static void hear_pair(struct pair *p, const uint8_t *record, const struct match_frame *f,
                      bool remote)
{
    struct model after = p->m;
    uint8_t refusal, answer;
    model_step(&after, record, &refusal, &answer);
    count_junk(&p->m, record, f, remote, answer);
    step_pair(p, record);
}

/* A word that a filter has, but for a bit or two. */
static uint32_t near_word(const struct model *m)
{
    uint32_t word = match_filter(m, below(MATCH_FILTERS));
    for (unsigned n = below(3); n > 0; n--)
        word ^= 1u << below(32);
    return word;
}

static void hear_near(struct pair *p)
{
    uint8_t record[RECORD_BYTES], remote = below(3) ? 0 : FRAME_REMOTE;
    uint32_t word = near_word(&p->m);
    match_record(record, remote | (word & MATCH_EXIDE ? FRAME_EXTENDED : 0),
                 (uint8_t)below(below(2) ? 3 : LENGTH_CODE_MAX + 1), word);
    struct match_frame frame = match_heard(record);
    hear_pair(p, record, &frame, remote);
}

/* Sent in Loopback, from a buffer with bytes that LOAD TX BUFFER does not make. */
static void send_near(struct pair *p)
{
    uint8_t idle[RECORD_BYTES] = {KIND_BUS_IDLE}, end[RECORD_BYTES] = {KIND_FRAME_ENDS};
    uint32_t word = near_word(&p->m);
    write_register(p, TXB1CTRL, TXREQ);
    step_pair(p, idle);
    for (unsigned i = 0; i < 4; i++)
        p->chip[TXB1CTRL + SIDH + i] = (uint8_t)(word >> (24 - 8 * i));
    p->chip[TXB1CTRL + DLC] = (uint8_t)below(256) & (below(2) ? 0xF3 : 0xFF);
    for (unsigned i = 0; i < DATA_BYTES_MAX; i++)
        p->chip[TXB1CTRL + D0 + i] = (uint8_t)(i == 0 ? word >> 8 : i == 1 ? word : below(256));
    if (!(word & MATCH_EXIDE)) /* the filters see the data instead */
        p->chip[TXB1CTRL + EID8 + below(2)] = (uint8_t)below(256);
    chip_decode(p->chip, &p->m);
    struct match_frame frame = match_own(&p->m, 1);
    hear_pair(p, end, &frame, p->chip[TXB1CTRL + DLC] & RTR);
}

static void junk_in_filters(void)
{
    static const uint8_t modes_heard[] = {MODE_NORMAL, MODE_LISTEN_ONLY, MODE_LOOPBACK};
    struct pair p;
    uint8_t mode = modes_heard[below(sizeof modes_heard)];
    junk_chip(&p, mode);
    for (unsigned i = 0; i < 30; i++) {
        if (mode == MODE_LOOPBACK)
            send_near(&p);
        else
            hear_near(&p);
        if (below(2))
            write_register(&p, CANINTF, 0);
    }
}

/* ---- pin records on any chip ---- */

/* Any mode, request, flight, enables and levels, also a request that is free to go. Half of the
 * chips have no TXREQ, so that the pin's is the first. */
static void any_pins(struct pair *p)
{
    enum { CANCTRL_AT = 128, TXB0CTRL_AT = 132, MODE_AT = 140 };
    uint8_t keeps = below(2) ? 0xFF : (uint8_t)~TXREQ;
    for (unsigned n = 0; n < REQUEST_PINS; n++) {
        p->chip[TXB0CTRL_AT + n] = (uint8_t)below(256) & keeps;
        p->chip[MCP2515_PLACE_PINS + n] = (uint8_t)(below(3) ? below(256) : 0);
    }
    p->chip[TXRTSCTRL] = (uint8_t)below(256);
    p->chip[CANCTRL_AT] = (uint8_t)below(256) & (below(3) ? (uint8_t)~ABAT : 0xFF);
    p->chip[MODE_AT] = (uint8_t)below(MODES);
    p->chip[MCP2515_PLACE_FLIGHT] = (uint8_t)(below(2) ? NO_FLIGHT : below(NO_FLIGHT));
    p->chip[MCP2515_PLACE_MODE_REQUESTED] = (uint8_t)below(MODES + 1);
    chip_decode(p->chip, &p->m);
}

static void pins_of_any_chip(void)
{
    struct pair p;
    start_pair(&p);
    p.random = true;
    for (unsigned i = 0; i < 20; i++) {
        uint8_t record[RECORD_BYTES] = {KIND_REQUEST_PIN, (uint8_t)below(REQUEST_PINS),
                                        (uint8_t)below(2)};
        any_pins(&p);
        if (below(8) == 0)
            record[1 + below(RECORD_BYTES - 1)] = (uint8_t)below(8);
        step_pair(&p, record);
        check_addresses(&p);
    }
}

/* ---- the panel on any chip ---- */

/* Any open instruction by whomever, mostly near the ends of the panel's buffers. */
static void any_session(struct pair *p)
{
    enum { CANINTF_AT = 130, TXB2CTRL_AT = 134, MODE_AT = 140 };
    static const uint8_t edges[] = {0x50, 0x51, 0x52, 0x5C, 0x5D, 0x5E, 0x5F, 0x60,
                                    0x70, 0x71, 0x72, 0x7C, 0x7D, 0x7E, 0x7F, 0x00};
    random_bytes(p->chip, SPARE_FROM);
    p->chip[CANINTF_AT] |= (uint8_t)below(4);
    p->chip[TXB2CTRL_AT] &= below(2) ? 0xFF : (uint8_t)~TXREQ;
    p->chip[MODE_AT] = (uint8_t)below(MODES);
    p->chip[MCP2515_PLACE_FLIGHT] = (uint8_t)(below(2) ? NO_FLIGHT : below(NO_FLIGHT));
    p->chip[MCP2515_PLACE_MODE_REQUESTED] = (uint8_t)below(MODES + 1);
    p->chip[MCP2515_PLACE_OPEN] = (uint8_t)below(OPEN_NUMBERS);
    if (below(4))
        p->chip[MCP2515_PLACE_OPEN + 1] = edges[below(sizeof edges)] | (below(4) ? 0 : 0x80);
    p->chip[MCP2515_PLACE_SPEAKER] = (uint8_t)(below(3) ? below(2) : below(256));
    chip_decode(p->chip, &p->m);
}

/* A few bytes, then select high, mostly by the one whose session it is. */
static void speak(struct pair *p, unsigned bytes)
{
    static const uint8_t codes[] = {0x03, 0xA0, 0xB0, 0x94, 0x96, 0x44, 0x45, 0x84,
                                    0x02, 0x05, 0xC0, 0x90, 0x92, 0x40, 0x43, 0x80,
                                    0x81, 0x85, 0x87, 0x46, 0x00, 0xFF};
    for (unsigned i = 0; i <= bytes; i++) {
        uint8_t record[RECORD_BYTES] = {i < bytes ? KIND_EXCHANGE : KIND_SELECT_HIGH};
        uint8_t owner = p->m.selected == SELECT_BY_PANEL;
        record[1] = (uint8_t)(i == bytes ? 0 : below(2) ? codes[below(sizeof codes)] : below(256));
        record[2] = (uint8_t)(below(8) ? owner : !owner);
        if (below(16) == 0)
            record[0] = (uint8_t)below(KINDS);
        if (below(16) == 0)
            record[2] = (uint8_t)below(256);
        if (p->m.selected == SELECT_HIGH && below(2)) {
            record[0] = KIND_SELECT_LOW;
            record[1] = 0;
        }
        step_pair(p, record);
    }
}

static void panel_on_any_chip(void)
{
    struct pair p;
    start_pair(&p);
    p.random = true;
    for (unsigned i = 0; i < 20; i++) {
        any_session(&p);
        speak(&p, below(6));
        if (i % 5 == 0)
            check_addresses(&p);
    }
}

/* ---- two threads at once ---- */

struct worker {
    const uint8_t *log;
    size_t records;
    uint8_t *answers;             /* three bytes a record, of which a call may fill two */
    const struct step_call *step; /* record by record; NULL for the whole log at once */
};

static size_t worker_answer(const struct worker *w)
{
    return w->step ? w->step->answer_size : MCP2515_ANSWER_SIZE;
}

static void *work(void *argument)
{
    struct worker *w = argument;
    uint8_t chip[CHIP];
    size_t size = worker_answer(w);
    if (!w->step) {
        mcp2515_run_log(w->log, RECORD_BYTES * w->records, w->answers, size * w->records);
        return NULL;
    }
    mcp2515_power_on(chip, CHIP);
    for (size_t i = 0; i < w->records; i++)
        w->step->run(chip, CHIP, w->log + RECORD_BYTES * i, RECORD_BYTES, w->answers + size * i,
                     size);
    return NULL;
}

static void check_worker(const struct worker *w)
{
    struct model m;
    size_t size = worker_answer(w);
    model_power_on(&m);
    for (size_t i = 0; i < w->records; i++) {
        uint8_t want[OUTCOME_BYTES];
        model_step_set(&m, w->log + RECORD_BYTES * i, &want[0], &want[1], &want[2]);
        if (memcmp(w->answers + size * i, want, size) != 0)
            live_stop("calls in several threads");
    }
}

static void check_threads(uint8_t *log)
{
    enum { WORKERS = 6, RECORDS = 60000 };
    pthread_t thread[WORKERS];
    struct worker w[WORKERS];
    some_log(log, RECORDS);
    for (unsigned i = 0; i < WORKERS; i++) {
        const struct step_call *step = i % 3 < STEP_CALLS ? &step_calls[i % 3] : NULL;
        w[i] = (struct worker){log, RECORDS, malloc(OUTCOME_BYTES * RECORDS), step};
        if (pthread_create(&thread[i], NULL, work, &w[i]) != 0)
            live_stop("no thread");
    }
    for (unsigned i = 0; i < WORKERS; i++) {
        pthread_join(thread[i], NULL);
        check_worker(&w[i]);
        free(w[i].answers);
    }
}

static unsigned long long steps_done(void)
{
    unsigned long long sum = 0;
    for (unsigned i = 0; i < REFUSALS; i++)
        sum += refusals[0][i] + refusals[1][i];
    return sum;
}

int main(int argc, char **argv)
{
    unsigned long long records = argc > 1 ? strtoull(argv[1], NULL, 0) : DEFAULT_RECORDS;
    seed_given = argc > 2 ? strtoull(argv[2], NULL, 0) : DEFAULT_SEED;
    dice = seed_given;
    uint8_t *log = malloc((size_t)LONGEST * RECORD_BYTES);
    char *text = malloc(4000 * LONGEST_LINE);
    chip_fence = fence_new(2 * CHIP);
    in_fence = fence_new((size_t)LONGEST * RECORD_BYTES);
    out_fence = fence_new((size_t)LONGEST * MCP2515_LINE_SIZE);
    setvbuf(stdout, NULL, _IOLBF, 0); /* the seed has to show even if a call crashes */
    printf("live calls: %llu random records, seed %llu\n", records, seed_given);
    check_edges();
    while (steps_done() < records) {
        live_log(log);
        pieces_of_log(log);
        text_of_log(log, text);
        for (unsigned i = 0; i < 30; i++)
            random_start(log, text);
        for (unsigned i = 0; i < 3; i++)
            junk_in_filters();
        pins_of_any_chip();
        panel_on_any_chip();
    }
    check_threads(log);
    demand_all();
    free(log);
    free(text);
    printf("no difference in %llu steps\n", steps_done());
    return 0;
}
