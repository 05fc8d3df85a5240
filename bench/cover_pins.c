/* What of the rules of the request pins random logs reach, by its effect: each point counts
 * records for which a rule that misses it would give another answer, register or tidied
 * list. */
#include <string.h>

#include "cover.h"
#include "registers.h"

enum { LEVELS_SHOWN = 0x38, ENABLES = 0x07 };

static void count_if(struct cover *c, bool condition, unsigned point)
{
    c->count[point] += condition;
}

static uint8_t bit_of(unsigned n)
{
    return (uint8_t)(1u << n);
}

static uint8_t enables_of(const struct model *m)
{
    return m->reg[TXRTSCTRL] & ENABLES;
}

static uint8_t levels_of(const struct model *m)
{
    return (uint8_t)(m->level[0] | m->level[1] << 1 | m->level[2] << 2);
}

static uint8_t ctrl_of(const struct model *m, unsigned n)
{
    return m->reg[TXB0CTRL + 0x10 * n];
}

static uint8_t txreqs_of(const struct model *m)
{
    uint8_t set = 0;
    for (unsigned n = 0; n < REQUEST_PINS; n++)
        set |= (uint8_t)(ctrl_of(m, n) & TXREQ ? bit_of(n) : 0);
    return set;
}

/* A pin record that was accepted, by what it met. */
struct moved {
    const struct model *m;
    unsigned n;
    bool falls, rises, enabled, abat;
    uint8_t ctrl;
};

static struct moved moved_by(const struct model *m, const uint8_t *record)
{
    unsigned n = record[1];
    return (struct moved){.m = m,
                          .n = n,
                          .falls = m->level[n] && !record[2],
                          .rises = !m->level[n] && record[2],
                          .enabled = enables_of(m) & bit_of(n),
                          .abat = m->reg[CANCTRL] & ABAT,
                          .ctrl = ctrl_of(m, n)};
}

/* ---- falls that request ---- */

static void request_places(struct cover *c, const struct moved *p)
{
    const struct model *m = p->m;
    count_if(c, true, COVER_PIN_REQUESTS_0 + p->n);
    count_if(c, true, COVER_PIN_MODE_0 + m->mode);
    count_if(c, m->selected, COVER_PIN_IN_SESSION);
    count_if(c, m->open == OPEN_CODE, COVER_PIN_BEFORE_CODE);
    count_if(c, m->flight == p->n, COVER_PIN_OWN_FLIGHT);
    count_if(c, m->flight != p->n && m->flight != NO_FLIGHT, COVER_PIN_OTHER_FLIGHT);
    count_if(c, model_bus_off(m), COVER_PIN_BUS_OFF);
    count_if(c, levels_of(m) != ENABLES, COVER_PIN_OWN_LEVEL);
    count_if(c, p->ctrl & TXERR, COVER_PIN_CLEARS_TXERR);
    count_if(c, p->ctrl & MLOA, COVER_PIN_CLEARS_MLOA);
    count_if(c, p->ctrl & ABTF, COVER_PIN_CLEARS_ABTF);
}

/* Nothing but the condition named keeps TXREQ at 0. */
static void no_request(struct cover *c, const struct moved *p)
{
    bool repeats = !p->falls && !p->rises;
    if (p->falls && p->abat && p->enabled) {
        count_if(c, true, COVER_PIN_ABAT);
        count_if(c, p->ctrl & (ABTF | MLOA | TXERR), COVER_PIN_ABAT_KEEPS);
        count_if(c, p->m->flight == p->n, COVER_PIN_ABAT_FLIGHT);
    }
    if (p->abat)
        return;
    count_if(c, p->falls && !p->enabled, COVER_PIN_DISABLED_0 + p->n);
    count_if(c, p->rises && p->enabled, COVER_PIN_RISE);
    count_if(c, repeats && p->enabled && !p->m->level[p->n], COVER_PIN_REPEAT_LOW);
    count_if(c, repeats && p->enabled && p->m->level[p->n], COVER_PIN_REPEAT_HIGH);
    count_if(c, repeats && p->enabled && (c->pins.reset_low & bit_of(p->n)),
             COVER_PIN_RESET_REPEAT);
    count_if(c, p->falls && (c->pins.reset_enabled & bit_of(p->n)), COVER_PIN_RESET_DISABLED);
}

/* Its own enable decides, and another pin's would decide otherwise. */
static void by_enable(struct cover *c, const struct moved *p)
{
    uint8_t enables = enables_of(p->m);
    bool next = enables & bit_of((p->n + 1) % REQUEST_PINS);
    bool before = enables & bit_of((p->n + 2) % REQUEST_PINS);
    count_if(c, next != p->enabled, COVER_PIN_ENABLE_NEXT);
    count_if(c, before != p->enabled, COVER_PIN_ENABLE_BEFORE);
}

static void note_session(struct cover *c, const struct moved *p, bool requests)
{
    uint8_t *in_session = c->pins.in_session, bit = bit_of(p->n);
    if (p->falls && !p->enabled)
        in_session[COVER_PIN_DISABLED] |= bit;
    if (!p->enabled)
        return;
    if (p->falls)
        in_session[COVER_PIN_UNLISTED] |= bit;
    if (p->falls && p->abat)
        in_session[COVER_PIN_UNLISTED_ABAT] |= bit;
    if (requests && (c->pins.changed & bit))
        in_session[COVER_PIN_UNLISTED_LATE] |= bit;
    if (p->rises)
        in_session[COVER_PIN_ROSE] |= bit;
    if (!p->falls && !p->rises)
        in_session[COVER_PIN_REPEATED] |= bit;
}

static void note_move(struct cover *c, const struct moved *p)
{
    uint8_t bit = bit_of(p->n);
    if (!p->falls && !p->rises)
        return;
    c->pins.moved_enabled &= (uint8_t)~bit;
    if (p->enabled)
        c->pins.moved_enabled |= bit;
    c->pins.reset_low &= (uint8_t)~bit;
    c->pins.reset_high &= (uint8_t)~bit;
}

static void pin_moved(struct cover *c, const struct model *before, const uint8_t *record,
                      const struct model *after)
{
    struct moved p = moved_by(before, record);
    bool requests = !(p.ctrl & TXREQ) && (ctrl_of(after, p.n) & TXREQ);
    if (requests)
        request_places(c, &p);
    else if (!(p.ctrl & TXREQ))
        no_request(c, &p);
    if (p.falls && !(p.ctrl & TXREQ) && !p.abat)
        by_enable(c, &p);
    bool over = p.falls && p.enabled && !p.abat && (p.ctrl & TXREQ);
    count_if(c, over && (p.ctrl & TXERR), COVER_PIN_KEEPS_TXERR);
    count_if(c, over && (p.ctrl & MLOA), COVER_PIN_KEEPS_MLOA);
    note_session(c, &p, requests);
    note_move(c, &p);
    if (requests)
        c->pins.requested |= bit_of(p.n);
}

/* ---- refused ---- */

/* Taken once this byte is in its range. */
static bool mended(struct model m, const uint8_t *r, unsigned byte, uint8_t value,
                   struct model *after)
{
    uint8_t record[RECORD_BYTES], refusal, answer;
    memcpy(record, r, RECORD_BYTES);
    record[byte] = value;
    model_step(&m, record, &refusal, &answer);
    *after = m;
    return refusal == REFUSED_NOT;
}

static void pin_refused(struct cover *c, const struct model *m, const uint8_t *r)
{
    struct model after;
    if (mended(*m, r, 1, 0, &after)) {
        count_if(c, r[1] == REQUEST_PINS, COVER_PIN_REFUSED_3);
        count_if(c, r[1] > REQUEST_PINS, COVER_PIN_REFUSED_ABOVE);
    }
    if (mended(*m, r, 2, 0, &after)) {
        count_if(c, r[2] == PIN_LEVEL_MAX + 1, COVER_PIN_REFUSED_LEVEL_2);
        count_if(c, r[2] > PIN_LEVEL_MAX + 1, COVER_PIN_REFUSED_LEVEL);
    }
    for (unsigned i = 3; i < RECORD_BYTES; i++)
        if (mended(*m, r, i, 0, &after)) {
            c->pin_spare[i]++;
            count_if(c, txreqs_of(&after) != txreqs_of(m), COVER_PIN_REFUSED_FALL);
        }
    c->pins.refused_in_session = true;
}

/* ---- TXRTSCTRL ---- */

static void txrtsctrl_read(struct cover *c, const struct model *m)
{
    uint8_t enables = enables_of(m), levels = levels_of(m), shown = ENABLES & ~enables;
    c->txrtsctrl[enables][levels]++;
    count_if(c, c->pins.moved_enabled & shown, COVER_PIN_MOVED_ENABLED);
    for (unsigned n = 0; n < REQUEST_PINS; n++)
        count_if(c, c->pins.reset_low & shown & bit_of(n), COVER_PIN_RESET_LOW_0 + n);
    count_if(c, c->pins.reset_high & shown, COVER_PIN_RESET_HIGH);
}

static void txrtsctrl_stored(struct cover *c, const struct model *m, uint8_t value)
{
    bool open = m->mode == MODE_CONFIGURATION, modify = m->open == OPEN_MODIFY_DATA;
    uint8_t held = model_holds(m, TXRTSCTRL), mask = modify ? m->mask : 0xFF;
    uint8_t other = (uint8_t)((held ^ value) & mask);
    count_if(c, open && !modify && (other & LEVELS_SHOWN), COVER_PIN_WRITE_LEVELS);
    count_if(c, open && modify && (other & LEVELS_SHOWN), COVER_PIN_MODIFY_LEVELS);
    count_if(c, !open && !modify && (other & ENABLES), COVER_PIN_WRITE_CLOSED);
    count_if(c, !open && modify && (other & ENABLES), COVER_PIN_MODIFY_CLOSED);
    count_if(c, open && modify && ((held ^ value) & ~mask & ENABLES), COVER_PIN_MODIFY_MASKED);
}

/* Enabled by this step while low, and TXREQ stays clear. */
static void enabled_low(struct cover *c, const struct model *before, const struct model *after)
{
    uint8_t enabled = enables_of(after) & ~enables_of(before);
    uint8_t low = ENABLES & ~levels_of(after), asked = txreqs_of(after);
    bool abat = after->reg[CANCTRL] & ABAT;
    count_if(c, !abat && (enabled & low & ~asked), COVER_PIN_ENABLED_LOW);
    c->pins.reset_high &= (uint8_t)~enabled;
    c->pins.reset_enabled &= (uint8_t)~enabled;
}

static void reset_met(struct cover *c, const struct model *m)
{
    c->pins.reset_low = ENABLES & ~levels_of(m);
    c->pins.reset_high = levels_of(m) & enables_of(m);
    c->pins.reset_enabled = enables_of(m);
    c->pins.moved_enabled = 0;
}

static void exchanged(struct cover *c, const struct model *before, const uint8_t *r,
                      const struct model *after)
{
    bool store = before->open == OPEN_WRITE || before->open == OPEN_MODIFY_DATA;
    if (before->open == OPEN_READ && before->pointer == TXRTSCTRL)
        txrtsctrl_read(c, before);
    if (store && before->pointer == TXRTSCTRL)
        txrtsctrl_stored(c, before, r[1]);
    enabled_low(c, before, after);
    for (unsigned n = 0; n < REQUEST_PINS; n++) {
        unsigned at = TXB0CTRL + 0x10 * n + SIDH;
        if (memcmp(&before->reg[at], &after->reg[at], D7) != 0)
            c->pins.changed |= bit_of(n);
    }
    if (cover_is_reset(before, r))
        reset_met(c, before);
}

/* ---- what comes of a request, and of a LOAD ---- */

/* The mode would change in this step if what the pins requested were not there. */
static bool delays(const struct cover *c, const struct model *before, const uint8_t *record,
                   const struct model *after)
{
    struct model without = *before;
    uint8_t refusal, answer;
    if (after->request == NO_REQUEST || (c->pins.requested & txreqs_of(before)) == 0)
        return false;
    for (unsigned n = 0; n < REQUEST_PINS; n++)
        if (c->pins.requested & bit_of(n))
            without.reg[TXB0CTRL + 0x10 * n] &= (uint8_t)~TXREQ;
    model_step(&without, record, &refusal, &answer);
    return refusal == REFUSED_NOT && without.mode != after->mode;
}

static void load_ended(struct cover *c)
{
    const uint8_t *in_session = c->pins.in_session;
    uint8_t own = bit_of((c->code & 7) / 2);
    if (!cover_loads(c))
        return;
    if (in_session[COVER_PIN_UNLISTED] & own) {
        bool abat = in_session[COVER_PIN_UNLISTED_ABAT] & own;
        bool late = in_session[COVER_PIN_UNLISTED_LATE] & own;
        count_if(c, abat, COVER_PIN_LOAD_UNLISTED_ABAT);
        count_if(c, late, COVER_PIN_LOAD_UNLISTED);
        count_if(c, !abat && !late, COVER_PIN_LOAD_UNLISTED_ALIKE);
        return;
    }
    count_if(c, in_session[COVER_PIN_UNLISTED], COVER_PIN_LOAD_OTHER);
    count_if(c, in_session[COVER_PIN_DISABLED] & own, COVER_PIN_LOAD_DISABLED);
    count_if(c, in_session[COVER_PIN_ROSE] & own, COVER_PIN_LOAD_RISE);
    count_if(c, in_session[COVER_PIN_REPEATED] & own, COVER_PIN_LOAD_REPEAT);
    count_if(c, c->pins.refused_in_session, COVER_PIN_LOAD_REFUSED);
}

static void start_session(struct cover *c)
{
    c->pins.changed = 0;
    c->pins.refused_in_session = false;
    memset(c->pins.in_session, 0, sizeof c->pins.in_session);
}

void cover_pins(struct cover *c, const struct model *before, const uint8_t *record,
                uint8_t refusal, const struct model *after)
{
    if (refusal != REFUSED_NOT) {
        if (record[0] == KIND_REQUEST_PIN)
            pin_refused(c, before, record);
        return;
    }
    count_if(c, delays(c, before, record, after), COVER_PIN_DELAYS);
    switch (record[0]) {
    case KIND_SELECT_LOW:
        start_session(c);
        break;
    case KIND_EXCHANGE:
        exchanged(c, before, record, after);
        break;
    case KIND_SELECT_HIGH:
        load_ended(c);
        break;
    case KIND_BUS_IDLE:
        count_if(c, after->flight < REQUEST_PINS && (c->pins.requested & bit_of(after->flight)),
                 COVER_PIN_SENT);
        break;
    case KIND_REQUEST_PIN:
        pin_moved(c, before, record, after);
        break;
    }
    c->pins.requested &= txreqs_of(after);
}
