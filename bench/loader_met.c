#include "loader_met.h"

#include <stdio.h>
#include <string.h>

#include "registers.h"

/* ---- the records in another form ---- */

static bool is_event(const uint8_t *entry)
{
    return entry[ENTRY_PLACE_BYTES] >= KIND_FRAME && entry[ENTRY_PLACE_BYTES] <= KIND_REQUEST_PIN;
}

static uint32_t place_of(const uint8_t *entry)
{
    uint32_t place = 0;
    for (unsigned i = 0; i < ENTRY_PLACE_BYTES; i++)
        place = place << 8 | entry[i];
    return place > 0 ? place : 1;
}

static size_t entries_of(const struct load_seen *s)
{
    return s->load->events_len / ENTRY_BYTES;
}

static const uint8_t *entry_of(const struct load_seen *s, size_t i)
{
    return s->load->events + ENTRY_BYTES * i;
}

/* Where each entry comes: the latest place of the events up to it. */
static void find_gaps(const struct load_seen *s, uint32_t *gaps)
{
    uint32_t latest = 1;
    for (size_t i = 0; i < entries_of(s); i++) {
        const uint8_t *entry = entry_of(s, i);
        if (is_event(entry) && place_of(entry) > latest)
            latest = place_of(entry);
        gaps[i] = latest;
    }
}

static unsigned commands_of(const struct load_seen *s)
{
    return s->result == LOAD_IN ? COMMANDS_IN : COMMANDS_WAITING;
}

/* The bytes of command n, from 1. */
static unsigned command_bytes(const struct load_seen *s, unsigned n, uint8_t bytes[4])
{
    uint8_t asked = n == 1 ? MODE_CONFIGURATION : s->before->mode;
    uint8_t ask[4] = {0x05, 0x0F, 0xE0, (uint8_t)(asked << 5)}, other[3] = {0x03, 0x0E, 0x00};
    if (n == 1 || n == commands_of(s)) {
        memcpy(bytes, ask, sizeof ask);
        return sizeof ask;
    }
    if (n > 2) {
        unsigned i = (n - 3) % PROFILE_BYTES;
        bool writes = n < 3 + PROFILE_BYTES;
        other[0] = writes ? 0x02 : 0x03;
        other[1] = loader_address(i);
        other[2] = writes ? s->load->profile[i] : 0x00;
    }
    memcpy(bytes, other, sizeof other);
    return sizeof other;
}

struct cursor {
    const struct load_seen *s;
    size_t at; /* records found to be right */
    bool good;
};

static void expect_record(struct cursor *c, const uint8_t *record)
{
    const uint8_t *got = c->s->records + RECORD_BYTES * c->at;
    if (c->at == c->s->count || memcmp(got, record, RECORD_BYTES) != 0)
        c->good = false;
    else
        c->at++;
}

static void expect_command(struct cursor *c, unsigned n)
{
    uint8_t bytes[4], low[RECORD_BYTES] = {0}, high[RECORD_BYTES] = {2};
    unsigned count = command_bytes(c->s, n, bytes);
    expect_record(c, low);
    for (unsigned i = 0; i < count; i++) {
        uint8_t exchange[RECORD_BYTES] = {1, bytes[i]};
        expect_record(c, exchange);
    }
    expect_record(c, high);
}

static bool records_are_right(const struct load_seen *s)
{
    struct cursor c = {s, 0, true};
    uint32_t gaps[LOAD_ENTRIES_MOST];
    size_t next = 0;
    find_gaps(s, gaps);
    for (unsigned n = 1; n <= commands_of(s) && c.good; n++) {
        expect_command(&c, n);
        if (n == commands_of(s))
            break;
        for (; next < entries_of(s) && gaps[next] == n; next++)
            if (is_event(entry_of(s, next)))
                expect_record(&c, entry_of(s, next) + ENTRY_PLACE_BYTES);
    }
    return c.good && c.at == s->count;
}

/* ---- what it keeps ---- */

/* None of its own is refused, and the verdict is the mode that its look was told. */
static const char *run_is_right(const struct load_seen *s)
{
    struct model chip = *s->before;
    unsigned commands = 0;
    uint8_t last = 0, look = 0;
    for (size_t i = 0; i < s->count; i++) {
        const uint8_t *record = s->records + RECORD_BYTES * i;
        uint8_t refusal, answer;
        model_step(&chip, record, &refusal, &answer);
        if (record[0] <= KIND_SELECT_HIGH && refusal != REFUSED_NOT)
            return "the chip refuses a record of the loader";
        if (record[0] == KIND_EXCHANGE)
            last = answer;
        if (record[0] == KIND_SELECT_HIGH && ++commands == 2)
            look = last;
    }
    if ((look >> 5 == MODE_CONFIGURATION) != (s->result == LOAD_IN))
        return "the verdict is not that of its look at the mode";
    if (memcmp(&chip, s->after, sizeof chip) != 0)
        return "its records do not make the chip after the load";
    return NULL;
}

/* A frame in a gap may change RXRTR and the hit, nothing else. */
static const char *registers_are_right(const struct load_seen *s)
{
    for (unsigned i = 0; i < PROFILE_BYTES; i++) {
        uint8_t bits = i < PROFILE_RXB0CTRL ? 0xFF : i == PROFILE_RXB0CTRL ? 0xF6 : 0xF0;
        uint8_t was = model_holds(s->before, loader_address(i));
        uint8_t is = model_holds(s->after, loader_address(i));
        if (s->result == LOAD_IN && (is ^ s->load->profile[i]) & loader_writable(i))
            return "in, but a register does not hold its profile byte";
        if (s->result == LOAD_IN && (is ^ was) & bits & ~loader_writable(i) & ~BUKT1)
            return "in, but a bit that no WRITE changes was changed";
        if (s->result == LOAD_WAITING && (is ^ was) & bits)
            return "waiting, but a register was changed";
    }
    return NULL;
}

/* The mode and the request of a chip that no log reaches are promised where it is in. */
static const char *mode_is_right(const struct load_seen *s)
{
    uint8_t was = model_holds(s->before, CANCTRL), is = model_holds(s->after, CANCTRL);
    if ((was ^ is) & ~REQOP)
        return "another bit of CANCTRL was changed";
    if (is >> 5 != s->before->mode)
        return "CANCTRL does not ask for the mode at the start";
    if (s->after->selected != SELECT_HIGH)
        return "select is low after the load";
    if (!s->reached && s->result == LOAD_WAITING)
        return NULL;
    if (s->after->mode != s->before->mode)
        return "the mode is not that at the start";
    if (s->after->request != NO_REQUEST)
        return "a mode request is left";
    if (s->result == LOAD_WAITING && s->before->mode != MODE_NORMAL)
        return "waiting, though nothing can hold the mode";
    return NULL;
}

const char *load_broken(const struct load_seen *s)
{
    const char *broken;
    if (s->result < 0)
        return memcmp(s->before, s->after, sizeof *s->after) == 0 ? NULL : "refused, but changed";
    if (!records_are_right(s))
        return "the records are not those of the rules";
    if ((broken = run_is_right(s)) != NULL || (broken = registers_are_right(s)) != NULL)
        return broken;
    return mode_is_right(s);
}

/* ---- what it met: by the chip and the verdict ---- */

/* Bit n for TXBn. */
static unsigned txreqs(const struct model *m)
{
    return (m->reg[TXB0CTRL] & TXREQ ? 1u : 0) | (m->reg[TXB1CTRL] & TXREQ ? 2u : 0) |
           (m->reg[TXB2CTRL] & TXREQ ? 4u : 0);
}

/* A request that nothing holds back. */
static bool is_free(const struct model *m)
{
    bool sends = m->mode == MODE_NORMAL || m->mode == MODE_LOOPBACK;
    return m->request != NO_REQUEST && !(sends && (txreqs(m) || m->flight != NO_FLIGHT));
}

static bool is_sound(const uint8_t *profile)
{
    for (unsigned i = 0; i < PROFILE_BYTES; i++)
        if (profile[i] & ~loader_writable(i))
            return false;
    return true;
}

static void count_refused(unsigned long long *met, const struct load_seen *s)
{
    uint8_t mode = s->before->mode;
    bool no_mode = mode == MODE_SLEEP || mode == MODE_LOOPBACK, bad = !is_sound(s->load->profile);
    switch (-s->result) {
    case REFUSED_SELECT:
        met[LOAD_REFUSED_1]++;
        met[LOAD_REFUSED_1_OF_ALL] += bad && no_mode;
        break;
    case REFUSED_PROFILE:
        met[LOAD_REFUSED_10]++;
        met[LOAD_REFUSED_10_OF_TWO] += no_mode;
        break;
    case REFUSED_MODE:
        met[mode == MODE_SLEEP ? LOAD_REFUSED_11_SLEEP : LOAD_REFUSED_11_LOOPBACK]++;
        break;
    }
}

static unsigned verdict_sort(const struct load_seen *s)
{
    uint8_t mode = s->before->mode;
    unsigned by_mode = mode == MODE_NORMAL ? 0 : mode == MODE_LISTEN_ONLY ? 1 : 2;
    if (s->result == LOAD_IN)
        return (s->reached ? LOAD_REACHED_IN : LOAD_UNREACHED_IN) + by_mode;
    return s->reached ? LOAD_REACHED_WAITING : LOAD_UNREACHED_WAITING + by_mode;
}

static bool holds_another(const struct load_seen *s)
{
    for (unsigned i = 0; i < PROFILE_BYTES; i++)
        if ((model_holds(s->before, loader_address(i)) ^ s->load->profile[i]) & loader_writable(i))
            return true;
    return false;
}

/* What the chip at the start had. */
static void count_start(unsigned long long *met, const struct load_seen *s)
{
    const struct model *b = s->before;
    bool in = s->result == LOAD_IN;
    uint8_t canctrl = model_holds(b, CANCTRL);
    met[LOAD_NEW_PROFILE] += in && holds_another(s);
    if (b->request != NO_REQUEST && b->request != MODE_CONFIGURATION)
        met[in ? LOAD_DROPS_REQUEST_IN : LOAD_DROPS_REQUEST]++;
    met[LOAD_SAME_REQUEST] += b->request == MODE_CONFIGURATION;
    met[LOAD_CANCTRL_DIFFERS] += canctrl >> 5 != b->mode && b->request == NO_REQUEST;
    if (canctrl & ABAT)
        met[in ? LOAD_ABAT_IN : LOAD_ABAT_WAITING]++;
    if (canctrl & OSM)
        met[in ? LOAD_OSM_IN : LOAD_OSM_WAITING]++;
    if (model_bus_off(b))
        met[in ? LOAD_BUS_OFF_IN : LOAD_BUS_OFF_WAITING]++;
}

static void count_rxctrl(unsigned long long *met, const struct load_seen *s)
{
    bool changes = false, beside = false;
    for (unsigned i = PROFILE_RXB0CTRL; i < PROFILE_BYTES; i++) {
        uint8_t was = model_holds(s->before, loader_address(i));
        uint8_t is = model_holds(s->after, loader_address(i));
        changes = changes || was != is;
        beside = beside || (is & ~(loader_writable(i) | BUKT1));
    }
    met[LOAD_RXCTRL_CHANGES] += s->result == LOAD_WAITING && changes;
    met[LOAD_RXCTRL_BESIDE] += s->result == LOAD_IN && beside;
}

/* ---- what it met: by its entries ---- */

static void count_entries(unsigned long long *met, const struct load_seen *s)
{
    uint32_t gaps[LOAD_ENTRIES_MOST], commands = commands_of(s);
    find_gaps(s, gaps);
    met[LOAD_NO_ENTRY] += entries_of(s) == 0;
    for (size_t i = 0; i < entries_of(s); i++) {
        const uint8_t *entry = entry_of(s, i);
        uint32_t place = place_of(entry);
        bool comes = gaps[i] < commands, behind = i + 1 < entries_of(s);
        if (!is_event(entry)) {
            met[LOAD_PASSED_OVER]++;
            met[LOAD_PASSED_OVER_FAR] += behind && is_event(entry_of(s, i + 1)) &&
                                         gaps[i + 1] < commands && gaps[i + 1] < place;
            continue;
        }
        met[LOAD_PLACE_0] += comes && (entry[0] | entry[1] | entry[2] | entry[3]) == 0;
        met[LOAD_GONE_BY] += comes && place < gaps[i];
        met[LOAD_LAST_GAP] += comes && gaps[i] + 1 == commands;
        met[LOAD_DUE_AT_LAST] += place == commands;
        met[LOAD_NOT_REACHED] += place >= commands;
        met[LOAD_BEHIND_NOT_REACHED] += !comes && place < commands;
    }
}

/* ---- what it met: by its records ---- */

/* The run up to a record. */
struct watch {
    struct model chip;
    unsigned commands;
    bool normal_before_look; /* after the first command */
};

static unsigned gap_of(unsigned commands, bool in)
{
    if (commands == 1)
        return GAP_LOOK;
    if (commands == 2)
        return in ? GAP_FIRST_WRITE : GAP_WAITING;
    if (commands < COMMANDS_IN - 1)
        return commands < 3 + PROFILE_BYTES ? GAP_WRITES : GAP_READS;
    return GAP_LAST;
}

static void count_event(unsigned long long *met, const struct load_seen *s, struct watch *w,
                        const uint8_t *record)
{
    struct model was = w->chip;
    uint8_t refusal, answer;
    unsigned gap = gap_of(w->commands, s->result == LOAD_IN);
    model_step(&w->chip, record, &refusal, &answer);
    if (refusal != REFUSED_NOT) {
        met[LOAD_EVENT_REFUSED_2 + refusal - REFUSED_FIELD]++;
        return;
    }
    met[LOAD_EVENTS + EVENT_KINDS * gap + record[0] - KIND_FRAME]++;
    if (!s->reached)
        return;
    if (record[0] == KIND_FRAME) {
        met[LOAD_STORES_RXB0] += answer == RX_IN_RXB0;
        met[LOAD_STORES_RXB1] += answer == RX_IN_RXB1;
        met[LOAD_LOSES_FRAME] += answer == RX_LOST;
    }
    if (record[0] == KIND_REQUEST_PIN && txreqs(&w->chip) != txreqs(&was))
        met[was.mode == MODE_CONFIGURATION ? LOAD_PIN_REQUESTS : LOAD_PIN_HOLDS]++;
    if (gap == GAP_WAITING && was.mode == MODE_NORMAL && w->chip.mode == MODE_CONFIGURATION) {
        met[LOAD_PASSES_THROUGH]++;
        met[LOAD_PASSING_CLEARS] += was.tec > 1 || was.rec > 0;
    }
}

/* At the look. */
static void count_look(unsigned long long *met, const struct load_seen *s, const struct watch *w)
{
    const struct model *m = &w->chip;
    if (!s->reached)
        return;
    met[LOAD_CODE_BESIDE_MODE] += (model_holds(m, CANSTAT) & ~REQOP) != 0;
    met[LOAD_MESSAGE_GOES_IN_TIME] += s->result == LOAD_IN && w->normal_before_look;
    if (s->result == LOAD_IN)
        return;
    if (m->flight == NO_FLIGHT)
        met[LOAD_WAITS_FOR_TXREQ]++;
    else
        met[txreqs(m) ? LOAD_WAITS_FOR_FLIGHT : LOAD_WAITS_FOR_FLIGHT_ALONE]++;
}

static void count_records(unsigned long long *met, const struct load_seen *s)
{
    struct watch w = {.chip = *s->before};
    for (size_t i = 0; i < s->count; i++) {
        const uint8_t *record = s->records + RECORD_BYTES * i;
        uint8_t refusal, answer;
        if (record[0] > KIND_SELECT_HIGH) {
            count_event(met, s, &w, record);
            continue;
        }
        model_step(&w.chip, record, &refusal, &answer);
        if (record[0] != KIND_SELECT_HIGH)
            continue;
        w.commands++;
        if (w.commands == 1)
            w.normal_before_look = w.chip.mode == MODE_NORMAL;
        if (w.commands == 2)
            count_look(met, s, &w);
    }
}

static void count_unreached(unsigned long long *met, const struct load_seen *s)
{
    met[LOAD_UNREACHED_FREE_REQUEST] += is_free(s->before);
    met[LOAD_UNREACHED_OTHER_MODE] += s->after->mode != s->before->mode;
}

void load_count(unsigned long long met[LOADS_MET], const struct load_seen *s)
{
    if (s->result < 0) {
        count_refused(met, s);
        return;
    }
    met[verdict_sort(s)]++;
    if (s->reached) {
        count_start(met, s);
        count_rxctrl(met, s);
    } else {
        count_unreached(met, s);
    }
    count_entries(met, s);
    count_records(met, s);
}

/* ---- names, and how often in 10,000 loads ---- */

static const struct {
    const char *name;
    unsigned floor;
} sorts[LOAD_EVENTS] = {
    [LOAD_REFUSED_1] = {"refusal 1", 177},
    [LOAD_REFUSED_10] = {"refusal 10", 249},
    [LOAD_REFUSED_11_SLEEP] = {"refusal 11, in Sleep", 9},
    [LOAD_REFUSED_11_LOOPBACK] = {"refusal 11, in Loopback", 58},
    [LOAD_REFUSED_1_OF_ALL] = {"refusal 1 where 10 and 11 apply too", 2},
    [LOAD_REFUSED_10_OF_TWO] = {"refusal 10 where 11 applies too", 4},
    [LOAD_REACHED_IN] = {"in, from Normal", 658},
    [LOAD_REACHED_IN_LISTEN_ONLY] = {"in, from Listen-Only", 197},
    [LOAD_REACHED_IN_CONFIGURATION] = {"in, from Configuration", 407},
    [LOAD_REACHED_WAITING] = {"waiting, from Normal", 718},
    [LOAD_UNREACHED_IN] = {"unreached chip: in, from Normal", 124},
    [LOAD_UNREACHED_IN_LISTEN_ONLY] = {"unreached chip: in, from Listen-Only", 106},
    [LOAD_UNREACHED_IN_CONFIGURATION] = {"unreached chip: in, from Configuration", 236},
    [LOAD_UNREACHED_WAITING] = {"unreached chip: waiting, from Normal", 159},
    [LOAD_UNREACHED_WAITING_LISTEN_ONLY] = {"unreached chip: waiting, from Listen-Only", 15},
    [LOAD_UNREACHED_WAITING_CONFIGURATION] = {"unreached chip: waiting, from Configuration", 29},
    [LOAD_UNREACHED_FREE_REQUEST] = {"unreached chip: a request is free to go", 267},
    [LOAD_UNREACHED_OTHER_MODE] = {"unreached chip: it ends in another mode", 44},
    [LOAD_NEW_PROFILE] = {"in, the chip held another profile", 1149},
    [LOAD_WAITS_FOR_TXREQ] = {"waiting for a TXREQ", 448},
    [LOAD_WAITS_FOR_FLIGHT] = {"waiting for a flight", 242},
    [LOAD_WAITS_FOR_FLIGHT_ALONE] = {"waiting for a flight, every TXREQ is clear", 22},
    [LOAD_MESSAGE_GOES_IN_TIME] = {"in, the message went before the look", 33},
    [LOAD_PASSES_THROUGH] = {"waiting, in Configuration after the look", 32},
    [LOAD_PASSING_CLEARS] = {"and counters cleared by that", 18},
    [LOAD_DROPS_REQUEST] = {"waiting, the request of someone else dropped", 64},
    [LOAD_DROPS_REQUEST_IN] = {"in, the request of someone else dropped", 2},
    [LOAD_SAME_REQUEST] = {"someone else has asked for Configuration", 20},
    [LOAD_CANCTRL_DIFFERS] = {"CANCTRL has another mode, no request", 148},
    [LOAD_ABAT_IN] = {"in, ABAT set", 239},
    [LOAD_ABAT_WAITING] = {"waiting, ABAT set", 21},
    [LOAD_OSM_IN] = {"in, OSM set", 346},
    [LOAD_OSM_WAITING] = {"waiting, OSM set", 180},
    [LOAD_BUS_OFF_IN] = {"in, bus-off at the start", 11},
    [LOAD_BUS_OFF_WAITING] = {"waiting, bus-off at the start", 62},
    [LOAD_CODE_BESIDE_MODE] = {"an interrupt code beside the mode", 323},
    [LOAD_RXCTRL_CHANGES] = {"waiting, a frame changes low bits of RXBnCTRL", 14},
    [LOAD_RXCTRL_BESIDE] = {"in, RXBnCTRL has more than the profile", 368},
    [LOAD_NO_ENTRY] = {"no entry", 887},
    [LOAD_PLACE_0] = {"entry of place 0 that comes", 910},
    [LOAD_GONE_BY] = {"entry that comes after its place", 2228},
    [LOAD_LAST_GAP] = {"entry that comes before the last command", 943},
    [LOAD_DUE_AT_LAST] = {"entry due right after the last command", 1376},
    [LOAD_NOT_REACHED] = {"entry due after the last command", 4310},
    [LOAD_BEHIND_NOT_REACHED] = {"entry behind such a one", 2928},
    [LOAD_PASSED_OVER] = {"entry that is no event", 2705},
    [LOAD_PASSED_OVER_FAR] = {"entry that is no event, overtaken", 574},
    [LOAD_EVENT_REFUSED_2] = {"event refused with 2", 975},
    [LOAD_EVENT_REFUSED_3] = {"event refused with 3", 71},
    [LOAD_EVENT_REFUSED_4] = {"event refused with 4", 294},
    [LOAD_EVENT_REFUSED_5] = {"event refused with 5", 180},
    [LOAD_STORES_RXB0] = {"frame stored in RXB0 in a gap", 34},
    [LOAD_STORES_RXB1] = {"frame stored in RXB1 in a gap", 6},
    [LOAD_LOSES_FRAME] = {"frame lost in a gap", 25},
    [LOAD_PIN_HOLDS] = {"pin requests in a gap, in Normal", 9},
    [LOAD_PIN_REQUESTS] = {"pin requests in a gap, in Configuration", 99},
};

static const struct {
    const char *name;
    unsigned floors[EVENT_KINDS]; /* kinds 3 to 8 */
} gap_sorts[GAPS] = {
    [GAP_LOOK] = {"before the look", {325, 153, 156, 85, 22, 198}},
    [GAP_WAITING] = {"after the look, waiting", {87, 96, 131, 63, 13, 85}},
    [GAP_FIRST_WRITE] = {"before the first WRITE", {265, 60, 8, 27, 3, 117}},
    [GAP_WRITES] = {"behind a WRITE", {1558, 434, 20, 171, 8, 710}},
    [GAP_READS] = {"behind a READ of the profile", {690, 194, 11, 77, 5, 316}},
    [GAP_LAST] = {"before the last command, in", {141, 35, 4, 13, 1, 63}},
};

static void name_of(unsigned sort, char *text, size_t size)
{
    unsigned event = sort - LOAD_EVENTS;
    if (sort < LOAD_EVENTS)
        snprintf(text, size, "%s", sorts[sort].name);
    else
        snprintf(text, size, "event of kind %u %s", KIND_FRAME + event % EVENT_KINDS,
                 gap_sorts[event / EVENT_KINDS].name);
}

static unsigned floor_of(unsigned sort)
{
    unsigned event = sort - LOAD_EVENTS;
    return sort < LOAD_EVENTS ? sorts[sort].floor
                              : gap_sorts[event / EVENT_KINDS].floors[event % EVENT_KINDS];
}

bool load_demand(const unsigned long long met[LOADS_MET], unsigned long long loads, bool tells)
{
    bool good = true;
    for (unsigned sort = 0; sort < LOADS_MET; sort++) {
        unsigned long long least = floor_of(sort) * loads / 10000;
        char name[80];
        least = least > 0 ? least : 1;
        name_of(sort, name, sizeof name);
        if (tells || met[sort] < least)
            printf("  %-56s %10llu %8llu%s\n", name, met[sort], least,
                   met[sort] < least ? "  TOO FEW" : "");
        good = good && met[sort] >= least;
    }
    return good;
}
