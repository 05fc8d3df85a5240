#include "tidy.h"

#include <stdbool.h>
#include <string.h>

#include "model.h"
#include "registers.h"

const char *const tidy_command_name[TIDY_COMMANDS] = {
    "no exchange", "RESET",     "RTS",            "BIT MODIFY",     "READ",         "WRITE",
    "READ STATUS", "RX STATUS", "READ RX BUFFER", "LOAD TX BUFFER", "unknown code",
    "forbidden code",
};

enum { MOMENT_MAX = 4 }; /* no command acts later than its fourth exchange */

struct session {
    size_t low;                    /* index of its select low */
    bool panels;
    bool wide;                     /* bytes without effect past the last do not matter */
    size_t exchange_at[MOMENT_MAX];
    size_t exchanges;
    uint8_t code;
    uint8_t rx_full;               /* RXnIF as met at select low */
    bool tx_free[3];               /* TXREQ clear and not in flight at select low */
    bool fell[3];                  /* TXnRTS fell inside, enabled */
    size_t refused_pins;           /* pin records refused inside */
};

/* What a session was, judged at its end. */
struct verdict {
    enum tidy_command command;
    bool listed;
    size_t moment_exchange; /* counted from 1; 0 is select high */
    bool cut;
};

static void open_session(struct session *s, const struct model *m, const uint8_t *record,
                         size_t index)
{
    bool wide = s->wide;
    memset(s, 0, sizeof *s);
    s->wide = wide;
    s->low = index;
    s->panels = record[2] == SPEAKER_PANEL;
    s->rx_full = m->reg[CANINTF] & (RX0IF | RX1IF);
    for (unsigned n = 0; n < 3; n++)
        s->tx_free[n] = !(m->reg[TXB0CTRL + 0x10 * n] & TXREQ) && m->flight != n;
}

static void note_exchange(struct session *s, uint8_t sent, size_t index)
{
    if (s->exchanges == 0)
        s->code = sent;
    if (s->exchanges < MOMENT_MAX)
        s->exchange_at[s->exchanges] = index;
    s->exchanges++;
}

/* By the chip that the record met. ABAT does not matter: a fall is one though it
 * requests nothing. */
static void note_pin(struct session *s, const struct model *before, const uint8_t *record,
                     bool refused)
{
    unsigned n = record[1];
    if (refused) {
        s->refused_pins++;
        return;
    }
    bool enabled = before->reg[TXRTSCTRL] & B0RTSM << n;
    if (enabled && before->level[n] == 1 && record[2] == 0)
        s->fell[n] = true;
}

/* A command of exactly last exchanges that acts at the last of them. */
static struct verdict acts_at(const struct session *s, enum tidy_command command, size_t last)
{
    struct verdict v = {.command = command, .listed = s->exchanges <= last};
    v.cut = s->exchanges < last;
    v.moment_exchange = v.cut ? 0 : last;
    return v;
}

/* The same, and further bytes do nothing. */
static struct verdict acts_once(const struct session *s, enum tidy_command command, size_t last)
{
    struct verdict v = acts_at(s, command, last);
    v.listed = v.listed || s->wide;
    return v;
}

/* A command of at most most exchanges that acts at select high. */
static struct verdict acts_at_high(const struct session *s, enum tidy_command command, bool ready,
                                   size_t most)
{
    struct verdict v = {.command = command, .listed = ready && s->exchanges <= most};
    v.cut = s->exchanges < most;
    return v;
}

/* Code byte and the bytes from the start address through data byte 7. */
static size_t buffer_exchanges(bool from_data)
{
    return 1 + (from_data ? 8 : 13);
}

/* Bytes before a fall on the buffer's own pin go in, those behind it do not: the LOAD
 * has no single moment. */
static struct verdict judge_load(const struct session *s)
{
    unsigned n = (s->code & 7) / 2;
    bool ready = s->tx_free[n] && !s->fell[n];
    struct verdict v = acts_at_high(s, TIDY_LOAD_TX, ready, buffer_exchanges(s->code & 1));
    v.listed = v.listed || (s->wide && s->panels && ready);
    return v;
}

static struct verdict judge_read_rx(const struct session *s)
{
    bool ready = s->rx_full & (s->code & 4 ? RX1IF : RX0IF);
    struct verdict v = acts_at_high(s, TIDY_READ_RX, ready, buffer_exchanges(s->code & 2));
    v.listed = v.listed || (s->wide && s->panels && ready);
    return v;
}

/* A code that does nothing, alone. */
static struct verdict judge_idle_code(const struct session *s, enum tidy_command command)
{
    struct verdict v = acts_at_high(s, command, true, 1);
    v.listed = v.listed || s->wide;
    return v;
}

/* Codes of the listed commands that are the controller's alone. */
static bool is_forbidden(const struct session *s)
{
    static const uint8_t codes[] = {SPI_RESET, SPI_WRITE, SPI_BIT_MODIFY, 0x90, 0x92, 0x40,
                                    0x41,      0x42,      0x43,           0x80, 0x81, 0x82,
                                    0x83,      0x85,      0x86,           0x87};
    return s->panels && memchr(codes, s->code, sizeof codes) != NULL;
}

static struct verdict judge(const struct session *s)
{
    if (s->exchanges == 0)
        return acts_at_high(s, TIDY_EMPTY, true, 0);
    if (is_forbidden(s))
        return judge_idle_code(s, TIDY_FORBIDDEN);
    switch (s->code) {
    case SPI_RESET:
        return acts_once(s, TIDY_RESET, 1);
    case SPI_READ:
        return acts_at(s, TIDY_READ, 3);
    case SPI_WRITE:
        return acts_at(s, TIDY_WRITE, 3);
    case SPI_BIT_MODIFY:
        return acts_once(s, TIDY_BIT_MODIFY, 4);
    case SPI_READ_STATUS:
        return acts_at(s, TIDY_READ_STATUS, 2);
    case SPI_RX_STATUS:
        return acts_at(s, TIDY_RX_STATUS, 2);
    case 0x90: case 0x92: case 0x94: case 0x96:
        return judge_read_rx(s);
    case 0x40: case 0x41: case 0x42: case 0x43: case 0x44: case 0x45:
        return judge_load(s);
    case 0x80: case 0x81: case 0x82: case 0x83: case 0x84: case 0x85: case 0x86: case 0x87:
        return acts_once(s, TIDY_RTS, 1);
    }
    return judge_idle_code(s, TIDY_UNKNOWN);
}

static bool is_event(const uint8_t *log, size_t i)
{
    uint8_t kind = log[RECORD_BYTES * i];
    return kind >= KIND_FRAME && kind <= KIND_REQUEST_PIN;
}

/* Puts the records low..high of a listed session in their tidied order. */
static void arrange(const uint8_t *log, size_t low, size_t moment, size_t high, size_t *map,
                    size_t *before, size_t *after)
{
    size_t place = low;
    for (size_t i = low; i < moment; i++)
        if (is_event(log, i))
            map[place++] = i;
    *before = place - low;
    for (size_t i = low; i <= high; i++)
        if (!is_event(log, i))
            map[place++] = i;
    *after = high + 1 - place;
    for (size_t i = moment; i <= high; i++)
        if (is_event(log, i))
            map[place++] = i;
}

static bool unlisted_by_fall(const struct session *s)
{
    struct session without = *s;
    memset(without.fell, 0, sizeof without.fell);
    return judge(&without).listed;
}

static bool only_widely(const struct session *s)
{
    struct session strictly = *s;
    strictly.wide = false;
    return !judge(&strictly).listed;
}

static void count_pins(const struct session *s, const uint8_t *log, size_t moment, size_t high,
                       struct tidy_tally *tally)
{
    for (size_t i = s->low; i <= high; i++)
        if (log[RECORD_BYTES * i] == KIND_REQUEST_PIN)
            *(i < moment ? &tally->pins_before : &tally->pins_after) += 1;
    tally->refused_pins += s->refused_pins;
}

static void count_unlisted(const struct session *s, struct tidy_tally *tally)
{
    bool by_fall = unlisted_by_fall(s);
    tally->unlisted_by_fall += by_fall;
    tally->panel_unlisted_by_fall += by_fall && s->panels;
}

static void count_listed(const struct session *s, const struct verdict *v, bool events,
                         struct tidy_tally *tally)
{
    bool widely = events && only_widely(s), cut = events && v->cut;
    tally->listed[v->command]++;
    tally->with_events[v->command] += events;
    tally->cut_with_events[v->command] += cut;
    tally->widely += widely;
    if (!s->panels)
        return;
    tally->panel_listed[v->command]++;
    tally->panel_with_events[v->command] += events;
    tally->panel_cut_with_events[v->command] += cut;
    tally->panel_widely += widely;
}

static void close_session(const struct session *s, const uint8_t *log, size_t high, size_t *map,
                          struct tidy_tally *tally)
{
    struct verdict v = judge(s);
    size_t before, after;
    size_t moment = v.moment_exchange ? s->exchange_at[v.moment_exchange - 1] : high;
    if (!v.listed) {
        if (tally)
            count_unlisted(s, tally);
        return;
    }
    arrange(log, s->low, moment, high, map, &before, &after);
    if (!tally)
        return;
    count_pins(s, log, moment, high, tally);
    tally->events_before += before;
    tally->events_after += after;
    count_listed(s, &v, before + after > 0, tally);
}

static void tidy(const uint8_t *log, size_t records, uint8_t *tidied, size_t *map, bool wide,
                 struct tidy_tally *tally)
{
    struct model m;
    struct session s = {.wide = wide};
    model_power_on(&m);
    for (size_t i = 0; i < records; i++) {
        const uint8_t *record = log + RECORD_BYTES * i;
        uint8_t refusal, answer;
        map[i] = i;
        struct model before = m;
        if (record[0] == KIND_SELECT_LOW && !m.selected)
            open_session(&s, &m, record, i);
        model_step(&m, record, &refusal, &answer);
        if (record[0] == KIND_REQUEST_PIN)
            note_pin(&s, &before, record, refusal != REFUSED_NOT);
        if (refusal != REFUSED_NOT)
            continue;
        if (record[0] == KIND_EXCHANGE)
            note_exchange(&s, record[1], i);
        else if (record[0] == KIND_SELECT_HIGH)
            close_session(&s, log, i, map, tally);
    }
    for (size_t i = 0; i < records; i++)
        memcpy(tidied + RECORD_BYTES * i, log + RECORD_BYTES * map[i], RECORD_BYTES);
}

void tidy_log(const uint8_t *log, size_t records, uint8_t *tidied, size_t *map,
              struct tidy_tally *tally)
{
    tidy(log, records, tidied, map, false, tally);
}

void tidy_log_widely(const uint8_t *log, size_t records, uint8_t *tidied, size_t *map,
                     struct tidy_tally *tally)
{
    tidy(log, records, tidied, map, true, tally);
}
