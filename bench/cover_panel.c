/* What of the panel's rules random logs reach, by its effect: beside each of its sessions
 * runs the chip that the controller would have had, and where the two part, a rule of the
 * panel has decided. */
#include <string.h>

#include "cover.h"
#include "registers.h"

enum { ROUND = 128, TXB2 = 2 };

static void count_if(struct cover *c, bool condition, unsigned point)
{
    c->count[point] += condition;
}

static bool is_panels(const struct model *m)
{
    return m->selected == SELECT_BY_PANEL;
}

/* Bytes behind the code up to data byte 7. */
static unsigned limit_of(uint8_t code)
{
    return code == 0x94 || code == 0x44 ? 13 : 8;
}

static bool reads_rxb1(const struct cover_panel *p)
{
    return p->exchanges > 0 && (p->code == 0x94 || p->code == 0x96);
}

static bool loads_txb2(const struct cover_panel *p)
{
    return p->exchanges > 0 && (p->code == 0x44 || p->code == 0x45);
}

/* This many bytes have come behind the code. */
static bool is_past(const struct cover_panel *p, unsigned bytes)
{
    return p->exchanges > 1 + bytes;
}

static bool differ(const struct model *a, const struct model *b, unsigned from, unsigned bytes)
{
    return memcmp(&a->reg[from], &b->reg[from], bytes) != 0;
}

/* ---- a session ---- */

static void start_session(struct cover *c, const struct model *after)
{
    struct cover_panel *p = &c->panel;
    p->obeyed = *after;
    p->obeyed.selected = SELECT_BY_CONTROLLER;
    p->code = 0;
    p->exchanges = 0;
    p->replies = p->stores = p->requests_txb2 = p->stores_past = p->stores_canctrl = false;
    p->changed = p->locked = false;
}

/* The record as the controller's, by the other chip. */
static uint8_t obey(struct cover_panel *p, const uint8_t *record)
{
    uint8_t same[RECORD_BYTES], refusal, answer;
    memcpy(same, record, RECORD_BYTES);
    if (same[0] <= KIND_SELECT_HIGH)
        same[2] = SPEAKER_CONTROLLER;
    model_step(&p->obeyed, same, &refusal, &answer);
    return answer;
}

static void rts_met(struct cover *c, const struct model *before, const struct model *after)
{
    uint8_t was = before->reg[TXB2CTRL], is = after->reg[TXB2CTRL];
    bool abat = before->reg[CANCTRL] & ABAT, requests = !(was & TXREQ) && (is & TXREQ);
    count_if(c, requests, COVER_PANEL_84);
    count_if(c, requests, COVER_PANEL_RTS_MODE_0 + before->mode);
    count_if(c, requests && (was & (ABTF | MLOA | TXERR)), COVER_PANEL_RTS_CLEARS);
    count_if(c, requests && before->flight == TXB2, COVER_PANEL_RTS_FLIGHT);
    count_if(c, !(was & TXREQ) && abat, COVER_PANEL_RTS_ABAT);
    count_if(c, (was & TXREQ) && (was & (MLOA | TXERR)), COVER_PANEL_RTS_KEEPS);
    c->panel.requested = c->panel.requested || requests;
}

static void read_met(struct cover *c, const struct model *m, uint8_t answer)
{
    uint8_t a = m->pointer, row = a & 0x70;
    bool filter = a < 0x28 && (a & 0x0F) < 0x0C;
    bool controllers = filter || (a >= CNF3 && a <= CNF1) || row == TXB0CTRL || row == TXB1CTRL ||
                       row == RXB0CTRL || (a & 0x0F) == CANCTRL;
    count_if(c, answer != 0, COVER_PANEL_READ);
    count_if(c, answer != 0 && controllers, COVER_PANEL_READ_OF_CONTROLLER);
    count_if(c, filter && m->reg[a] != 0 && answer == 0, COVER_PANEL_READ_HIDDEN);
    count_if(c, a == 0x7F, COVER_PANEL_READ_WRAPS);
}

static void load_met(struct cover *c, const struct model *before, uint8_t sent,
                     const struct model *after)
{
    struct cover_panel *p = &c->panel;
    bool other = before->reg[before->pointer] != sent && before->pointer <= TXB2CTRL + D7;
    bool asked = before->reg[TXB2CTRL] & TXREQ, flies = before->flight == TXB2;
    bool stores = differ(before, after, TXB2CTRL + SIDH, D7);
    count_if(c, stores, p->code == 0x44 ? COVER_PANEL_44 : COVER_PANEL_45);
    count_if(c, other && asked, COVER_PANEL_LOAD_TXREQ);
    count_if(c, other && flies && !asked, COVER_PANEL_LOAD_FLIGHT);
    count_if(c, other && asked && p->locked, COVER_PANEL_LOAD_FALL);
    p->changed = p->changed || stores;
    p->loaded = p->loaded || stores;
}

/* A byte behind the code. */
static void byte_met(struct cover *c, const struct model *before, uint8_t sent, uint8_t answer,
                     const struct model *after)
{
    const struct cover_panel *p = &c->panel;
    switch (p->code) {
    case SPI_READ:
        if (p->exchanges > 2)
            read_met(c, before, answer);
        break;
    case SPI_READ_STATUS:
        count_if(c, answer != 0, COVER_PANEL_READ_STATUS);
        break;
    case SPI_RX_STATUS:
        count_if(c, answer != 0, COVER_PANEL_RX_STATUS);
        break;
    case 0x94:
        count_if(c, answer != 0, COVER_PANEL_94);
        break;
    case 0x96:
        count_if(c, answer != 0, COVER_PANEL_96);
        break;
    case 0x44:
    case 0x45:
        load_met(c, before, sent, after);
        break;
    }
}

/* What this byte would have done behind data byte 7. */
static void past_met(struct cover *c, bool replies, const struct model *obeyed_before)
{
    struct cover_panel *p = &c->panel;
    bool stores = differ(obeyed_before, &p->obeyed, 0, COVER_ADDRESSES);
    if (!is_past(p, limit_of(p->code)))
        return;
    count_if(c, reads_rxb1(p) && replies, COVER_PANEL_READ_PAST);
    count_if(c, reads_rxb1(p) && replies && is_past(p, ROUND), COVER_PANEL_READ_ROUND);
    count_if(c, loads_txb2(p) && stores && is_past(p, ROUND), COVER_PANEL_LOAD_ROUND);
    if (!loads_txb2(p))
        return;
    p->stores_past = p->stores_past || stores;
    p->stores_canctrl = p->stores_canctrl || differ(obeyed_before, &p->obeyed, CANCTRL, 1);
}

static void exchanged(struct cover *c, const struct model *before, const uint8_t *r,
                      uint8_t answer, const struct model *after)
{
    struct cover_panel *p = &c->panel;
    struct model obeyed_before = p->obeyed;
    bool replies = obey(p, r) != answer;
    if (p->exchanges++ == 0)
        p->code = r[1];
    if (p->exchanges == 1 && p->code == 0x84)
        rts_met(c, before, after);
    else if (p->exchanges > 1)
        byte_met(c, before, r[1], answer, after);
    past_met(c, replies, &obeyed_before);
    p->replies = p->replies || replies;
    p->stores = p->stores || differ(after, &p->obeyed, 0, COVER_ADDRESSES) ||
                after->mode != p->obeyed.mode || after->flight != p->obeyed.flight;
    p->requests_txb2 = p->requests_txb2 || differ(after, &p->obeyed, TXB2CTRL, 1);
    count_if(c, p->cut_in, COVER_PANEL_GOES_ON);
    p->cut_in = false;
}

/* ---- the end of a session ---- */

static void rxb1_read(struct cover *c, const struct model *before)
{
    const struct cover_panel *p = &c->panel;
    bool full = before->reg[CANINTF] & RX1IF, past = is_past(p, limit_of(p->code));
    count_if(c, full && !past, COVER_PANEL_CLEARS);
    count_if(c, full && past, COVER_PANEL_CLEARS_PAST);
    count_if(c, full && is_past(p, ROUND), COVER_PANEL_CLEARS_ROUND);
    count_if(c, full && p->exchanges == 1, COVER_PANEL_CLEARS_CUT);
    count_if(c, full && !(c->at_low.reg[CANINTF] & RX1IF), COVER_PANEL_CLEARS_LATE);
    count_if(c, full && (before->reg[CANINTF] & RX0IF), COVER_PANEL_CLEARS_NOT_RX0IF);
    count_if(c, !full, COVER_PANEL_CLEARS_NONE);
}

/* A session that began with what the panel must not send. */
static void forbidden_met(struct cover *c, const struct model *before)
{
    const struct cover_panel *p = &c->panel;
    bool full = before->reg[CANINTF] & RX0IF;
    static const uint16_t point_of[256] = {
        [0x81] = COVER_PANEL_81,           [0x82] = COVER_PANEL_82,
        [0x83] = COVER_PANEL_83,           [0x85] = COVER_PANEL_85,
        [0x86] = COVER_PANEL_86,           [0x87] = COVER_PANEL_87,
        [0x40] = COVER_PANEL_40,           [0x41] = COVER_PANEL_41,
        [0x42] = COVER_PANEL_42,           [0x43] = COVER_PANEL_43,
        [SPI_WRITE] = COVER_PANEL_WRITE,   [SPI_BIT_MODIFY] = COVER_PANEL_BIT_MODIFY,
        [SPI_RESET] = COVER_PANEL_RESET,
    };
    if (point_of[p->code])
        count_if(c, p->stores, point_of[p->code]);
    count_if(c, p->requests_txb2 && p->code > 0x84 && p->code < 0x88, COVER_PANEL_RTS_TXB2);
    count_if(c, p->code == 0x80, COVER_PANEL_80);
    count_if(c, p->code == 0x90 && p->replies, COVER_PANEL_90);
    count_if(c, p->code == 0x92 && p->replies, COVER_PANEL_92);
    count_if(c, p->code == 0x90 && full, COVER_PANEL_90_CLEARS);
    count_if(c, p->code == 0x92 && full, COVER_PANEL_92_CLEARS);
    bool named = point_of[p->code] || p->code == 0x80 || p->code == 0x90 || p->code == 0x92;
    count_if(c, !named, COVER_PANEL_UNKNOWN);
    count_if(c, named && is_past(p, ROUND - 1), COVER_PANEL_FORBIDDEN_LONG);
}

static void ended(struct cover *c, const struct model *before)
{
    const struct cover_panel *p = &c->panel;
    uint8_t code[RECORD_BYTES] = {KIND_EXCHANGE, p->code};
    if (reads_rxb1(p))
        rxb1_read(c, before);
    count_if(c, loads_txb2(p) && p->stores_past, COVER_PANEL_LOAD_PAST);
    count_if(c, loads_txb2(p) && p->stores_canctrl, COVER_PANEL_LOAD_CANCTRL);
    if (p->exchanges > 0 && cover_code(before, code) == 0)
        forbidden_met(c, before);
}

/* ---- refused ---- */

static uint8_t refusal_with(struct model m, const uint8_t *r, unsigned byte, uint8_t value)
{
    uint8_t record[RECORD_BYTES], refusal, answer;
    memcpy(record, r, RECORD_BYTES);
    record[byte] = value;
    model_step(&m, record, &refusal, &answer);
    return refusal;
}

/* Refusal 2 for who speaks, and for a byte of a record that the panel sends. */
static void field_refused(struct cover *c, const struct model *m, const uint8_t *r)
{
    uint8_t by_controller = refusal_with(*m, r, 2, SPEAKER_CONTROLLER);
    uint8_t by_panel = refusal_with(*m, r, 2, SPEAKER_PANEL);
    if (r[2] >= SPEAKERS) {
        bool taken = by_controller == REFUSED_NOT || by_panel == REFUSED_NOT;
        bool one = by_controller == REFUSED_SELECT && by_panel == REFUSED_SELECT;
        count_if(c, taken && r[2] == SPEAKERS, COVER_PANEL_SPEAKER_2);
        count_if(c, taken && r[2] > SPEAKERS, COVER_PANEL_SPEAKER_ABOVE);
        count_if(c, one, COVER_PANEL_SPEAKER_BEFORE_1);
        count_if(c, taken && m->selected, COVER_PANEL_SPEAKER_BEFORE_18);
        return;
    }
    for (unsigned i = 1; i < RECORD_BYTES; i++) {
        uint8_t mended = i == 2 ? REFUSED_FIELD : refusal_with(*m, r, i, 0);
        count_if(c, i > 2 && mended == REFUSED_SPEAKER, COVER_PANEL_SPARE_BEFORE_18);
        if (mended == REFUSED_NOT && r[2] == SPEAKER_PANEL)
            count_if(c, true, i == 1 ? COVER_PANEL_BYTE_1 : COVER_PANEL_SPARE);
    }
}

static void low_refused(struct cover *c, const struct model *m, bool by_panel)
{
    count_if(c, by_panel && is_panels(m), COVER_PANEL_LOW_OWN);
    count_if(c, by_panel && !is_panels(m), COVER_PANEL_LOW_OTHER);
    count_if(c, !by_panel && is_panels(m), COVER_PANEL_LOW_BY_OTHER);
}

/* Exchange or select high with select high. */
static void high_refused(struct cover *c, bool exchange, bool by_panel)
{
    bool after = !by_panel && c->panel.last == SELECT_BY_PANEL;
    count_if(c, by_panel, exchange ? COVER_PANEL_XFER_HIGH : COVER_PANEL_HIGH_HIGH);
    count_if(c, after, exchange ? COVER_PANEL_XFER_HIGH_AFTER : COVER_PANEL_HIGH_HIGH_AFTER);
}

static void refused(struct cover *c, const struct model *m, const uint8_t *r, uint8_t refusal)
{
    bool by_panel = r[2] == SPEAKER_PANEL, exchange = r[0] == KIND_EXCHANGE;
    if (r[0] > KIND_SELECT_HIGH)
        return;
    if (refusal == REFUSED_FIELD)
        field_refused(c, m, r);
    else if (refusal == REFUSED_SELECT && r[0] == KIND_SELECT_LOW)
        low_refused(c, m, by_panel);
    else if (refusal == REFUSED_SELECT)
        high_refused(c, exchange, by_panel);
    else if (by_panel)
        count_if(c, true, exchange ? COVER_PANEL_REFUSED_XFER : COVER_PANEL_REFUSED_HIGH);
    else
        count_if(c, true, exchange ? COVER_PANEL_REFUSES_XFER : COVER_PANEL_REFUSES_HIGH);
    c->panel.cut_in = c->panel.cut_in || (is_panels(m) && refusal == REFUSED_SPEAKER);
}

/* ---- events ---- */

static void event_met(struct cover *c, const struct model *before, const uint8_t *r,
                      uint8_t answer, const struct model *after)
{
    struct cover_panel *p = &c->panel;
    bool asked = before->reg[TXB2CTRL] & TXREQ;
    obey(p, r);
    count_if(c, r[0] == KIND_FRAME && (answer == RX_IN_RXB0 || answer == RX_IN_RXB1),
             COVER_PANEL_FRAME);
    count_if(c, r[0] == KIND_FRAME_ENDS, COVER_PANEL_END);
    count_if(c, r[0] == KIND_BUS_IDLE && after->flight != NO_FLIGHT, COVER_PANEL_IDLE);
    count_if(c, r[0] == KIND_REQUEST_PIN && differ(before, after, TXB0CTRL, 0x30),
             COVER_PANEL_PIN);
    count_if(c, before->mode != after->mode, COVER_PANEL_MODE);
    p->locked = p->locked || (r[0] == KIND_REQUEST_PIN && p->changed && !asked &&
                              (after->reg[TXB2CTRL] & TXREQ));
}

/* The mode would change in this step if what 84h requested were not there. */
static bool delays(const struct cover *c, const struct model *before, const uint8_t *record,
                   const struct model *after)
{
    struct model without = *before;
    uint8_t refusal, answer;
    if (after->request == NO_REQUEST || !c->panel.requested)
        return false;
    without.reg[TXB2CTRL] &= (uint8_t)~TXREQ;
    model_step(&without, record, &refusal, &answer);
    return refusal == REFUSED_NOT && without.mode != after->mode;
}

/* Bus idle and own frames' ends, inside a session or not. */
static void tx_met(struct cover *c, const struct model *before, const uint8_t *r, uint8_t answer)
{
    uint8_t txp = before->reg[TXB2CTRL] & TXP;
    bool tie = false;
    if (r[0] == KIND_FRAME_ENDS && before->flight == TXB2 && before->mode == MODE_LOOPBACK)
        count_if(c, c->panel.loaded && answer == RX_IN_RXB0, COVER_PANEL_LOOPED);
    if (r[0] != KIND_BUS_IDLE || answer != TXB2 || !c->panel.requested)
        return;
    for (unsigned n = 0; n < TXB2; n++) {
        uint8_t ctrl = before->reg[TXB0CTRL + 0x10 * n];
        tie = tie || ((ctrl & TXREQ) && (ctrl & TXP) == txp);
    }
    count_if(c, true, COVER_PANEL_SENT);
    count_if(c, tie, COVER_PANEL_TIE);
}

static void selected(struct cover *c, const struct model *after)
{
    uint8_t last = c->panel.last;
    count_if(c, is_panels(after) && last == SELECT_BY_CONTROLLER, COVER_PANEL_AFTER_CONTROLLER);
    count_if(c, !is_panels(after) && last == SELECT_BY_PANEL, COVER_PANEL_BEFORE_CONTROLLER);
    c->panel.last = after->selected;
    if (is_panels(after))
        start_session(c, after);
}

void cover_panel(struct cover *c, const struct model *before, const uint8_t *record,
                 uint8_t refusal, uint8_t answer, const struct model *after)
{
    if (refusal != REFUSED_NOT) {
        refused(c, before, record, refusal);
        return;
    }
    count_if(c, delays(c, before, record, after), COVER_PANEL_DELAYS);
    tx_met(c, before, record, answer);
    if (record[0] == KIND_SELECT_LOW)
        selected(c, after);
    else if (is_panels(before) && record[0] == KIND_EXCHANGE)
        exchanged(c, before, record, answer, after);
    else if (is_panels(before) && record[0] == KIND_SELECT_HIGH)
        ended(c, before);
    else if (is_panels(before))
        event_met(c, before, record, answer, after);
    else if (record[0] == KIND_EXCHANGE && differ(before, after, TXB2CTRL + SIDH, D7))
        c->panel.loaded = false;
    c->panel.requested = c->panel.requested && (after->reg[TXB2CTRL] & TXREQ);
    if (record[0] == KIND_SELECT_HIGH)
        c->panel.cut_in = false;
}
