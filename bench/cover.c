#include "cover.h"

#include <string.h>

#include "registers.h"

const char *const cover_text[COVER_POINTS] = {
#define COVER_NAME(name, text) text,
    COVER_LIST(COVER_NAME)
#undef COVER_NAME
};

const uint8_t cover_buffer_code[COVER_BUFFER_CODES] = {0x90, 0x92, 0x94, 0x96, 0x40,
                                                       0x41, 0x42, 0x43, 0x44, 0x45};
const uint8_t cover_length[COVER_LENGTHS] = {8, 9, 13, 14};

const char *const cover_class_name[COVER_CLASSES] = {"length code 0", "length code 1",
                                                     "length codes 2 to 8",
                                                     "length codes 9 to 15", "a remote frame"};

static void hit(struct cover *c, unsigned point)
{
    c->count[point]++;
}

static void hit_if(struct cover *c, bool condition, unsigned point)
{
    if (condition)
        c->count[point]++;
}

/* ---- codes ---- */

uint8_t cover_code(const struct model *before, const uint8_t *record)
{
    static const uint8_t of_panel[] = {SPI_READ, SPI_READ_STATUS, SPI_RX_STATUS, 0x94,
                                       0x96,     0x44,            0x45,          0x84};
    if (before->selected != SELECT_BY_PANEL)
        return record[1];
    return memchr(of_panel, record[1], sizeof of_panel) ? record[1] : 0;
}

bool cover_is_reset(const struct model *before, const uint8_t *record)
{
    return record[0] == KIND_EXCHANGE && before->open == OPEN_CODE &&
           cover_code(before, record) == SPI_RESET;
}

/* Behind data byte 7 of the panel's READ RX BUFFER or LOAD. */
static bool is_stopped(const struct model *m)
{
    bool reads = m->open == OPEN_READ && m->clears != 0, writes = m->open == OPEN_WRITE;
    return m->selected == SELECT_BY_PANEL && (reads || writes) && (m->pointer & 0x0F) > D7;
}

/* ---- RESET ---- */

const uint8_t cover_reset_bits[COVER_ADDRESSES] = {
    0xFF, 0xEB, 0xFF, 0xFF, 0xFF, 0xEB, 0xFF, 0xFF, 0xFF, 0xEB, 0xFF, 0xFF, 0x3F, 0x07, 0x00, 0xFF,
    0xFF, 0xEB, 0xFF, 0xFF, 0xFF, 0xEB, 0xFF, 0xFF, 0xFF, 0xEB, 0xFF, 0xFF, 0xFF, 0xFF, 0x00, 0x00,
    0xFF, 0xE3, 0xFF, 0xFF, 0xFF, 0xE3, 0xFF, 0xFF, 0xC7, 0xFF, 0xFF, 0xFF, 0xFF, 0xC0, 0x00, 0x00,
    0x7B, 0xFF, 0xEB, 0xFF, 0xFF, 0x4F, 0xFF, 0xFF, 0xFF, 0xFF, 0xFF, 0xFF, 0xFF, 0xFF, 0x00, 0x00,
    0x7B, 0xFF, 0xEB, 0xFF, 0xFF, 0x4F, 0xFF, 0xFF, 0xFF, 0xFF, 0xFF, 0xFF, 0xFF, 0xFF, 0x00, 0x00,
    0x7B, 0xFF, 0xEB, 0xFF, 0xFF, 0x4F, 0xFF, 0xFF, 0xFF, 0xFF, 0xFF, 0xFF, 0xFF, 0xFF, 0x00, 0x00,
    0x6F, 0xFF, 0xFB, 0xFF, 0xFF, 0x4F, 0xFF, 0xFF, 0xFF, 0xFF, 0xFF, 0xFF, 0xFF, 0xFF, 0x00, 0x00,
    0x6F, 0xFF, 0xFB, 0xFF, 0xFF, 0x4F, 0xFF, 0xFF, 0xFF, 0xFF, 0xFF, 0xFF, 0xFF, 0xFF, 0x00, 0x00,
};

bool cover_reset_keeps(unsigned address)
{
    static const uint8_t kept[][2] = {{0x00, 0x0B}, {0x10, 0x1B}, {0x31, 0x3D}, {0x41, 0x4D},
                                      {0x51, 0x5D}, {0x61, 0x6D}, {0x71, 0x7D}};
    for (size_t i = 0; i < sizeof kept / sizeof *kept; i++)
        if (address >= kept[i][0] && address <= kept[i][1])
            return true;
    return false;
}

/* The bits of an address that are other than at power-on; EFLG's own two alone. */
static uint8_t other_bits(const struct model *m, unsigned address)
{
    if (address == TEC || address == REC)
        return model_holds(m, (uint8_t)address);
    return address == CANCTRL ? m->reg[CANCTRL] ^ 0x87 : m->reg[address];
}

/* The address that the open instruction has reached, CANCTRL at 0Fh alone. */
static unsigned reached(const struct model *m)
{
    return (m->pointer & 0x0F) == CANCTRL ? CANCTRL : m->pointer % COVER_ADDRESSES;
}

static void reset_met(struct cover *c, const struct model *m)
{
    uint8_t full = m->reg[CANINTF] & (RX0IF | RX1IF);
    c->resets++;
    c->reset_flight = m->flight != NO_FLIGHT;
    c->reset_mode = m->mode;
    c->reset_request = m->request;
    hit(c, COVER_RESET_MODE_0 + m->mode);
    hit_if(c, m->flight != NO_FLIGHT, COVER_RESET_IN_FLIGHT);
    hit_if(c, m->flight != NO_FLIGHT, COVER_RESET_FLIGHT_0 + m->flight);
    hit_if(c, m->request != NO_REQUEST, COVER_RESET_REQUEST);
    hit_if(c, m->request != NO_REQUEST && m->flight != NO_FLIGHT, COVER_RESET_REQUEST_FLIGHT);
    hit_if(c, model_bus_off(m), COVER_RESET_BUS_OFF);
    hit_if(c, full & RX0IF, COVER_RESET_FULL_0);
    hit_if(c, full & RX1IF, COVER_RESET_FULL_1);
    hit_if(c, full == (RX0IF | RX1IF), COVER_RESET_FULL_BOTH);
    for (unsigned a = 0; a < COVER_ADDRESSES; a++) {
        uint8_t bits = other_bits(m, a);
        for (unsigned i = 0; i < 8; i++)
            c->reset_bit[a][i] += bits >> i & 1;
        c->in_hand[a] = bits != 0;
    }
}

/* Nothing to show by CANSTAT any more. */
static void forget_mode(struct cover *c)
{
    c->reset_mode = MODE_CONFIGURATION;
    c->reset_request = NO_REQUEST;
}

/* Stored to, by an instruction or a frame, or moved by an event. */
static void let_go(struct cover *c, const struct model *before, const uint8_t *r, uint8_t answer,
                   const struct model *after)
{
    bool heard = r[0] == KIND_FRAME || (r[0] == KIND_FRAME_ENDS && before->mode == MODE_LOOPBACK);
    bool rxb0 = heard && answer == RX_IN_RXB0, rxb1 = heard && answer == RX_IN_RXB1;
    bool store = r[0] == KIND_EXCHANGE &&
                 (before->open == OPEN_WRITE || before->open == OPEN_MODIFY_DATA);
    if (store)
        c->in_hand[reached(before)] = false;
    for (unsigned byte = 0; byte <= D7; byte++) {
        c->in_hand[RXB0CTRL + byte] &= !rxb0;
        c->in_hand[RXB1CTRL + byte] &= !rxb1;
    }
    if (memcmp(before->reg, after->reg, sizeof after->reg) != 0)
        for (unsigned a = 0; a < COVER_ADDRESSES; a++)
            c->in_hand[a] &= before->reg[a] == after->reg[a];
    if (after->tec || after->rec)
        c->in_hand[TEC] = c->in_hand[REC] = false;
    c->reset_flight &= after->flight == NO_FLIGHT;
    if (after->mode != MODE_CONFIGURATION)
        forget_mode(c);
}

/* A reply at an address; filters and masks show in Configuration alone. */
static void read_after_reset(struct cover *c, const struct model *m)
{
    unsigned a = reached(m);
    bool hidden = a < 0x28 && (a & 0x0F) < 0x0C && m->mode != MODE_CONFIGURATION;
    if ((a & 0x0F) == CANSTAT) {
        hit_if(c, c->reset_mode != MODE_CONFIGURATION, COVER_RESET_LEFT_0 + c->reset_mode);
        hit_if(c, c->reset_request != NO_REQUEST, COVER_RESET_REQUEST_GONE);
        forget_mode(c);
    }
    if (c->in_hand[a] && !hidden)
        c->reset_read[a]++;
}

/* RX STATUS of a buffer whose bytes were there before the RESET. */
static void status_after_reset(struct cover *c, const struct model *m)
{
    unsigned n = m->reg[CANINTF] & RX0IF ? 0 : 1;
    const bool *in_hand = &c->in_hand[n ? RXB1CTRL : RXB0CTRL];
    const uint8_t *buffer = &m->reg[n ? RXB1CTRL : RXB0CTRL];
    if (!(m->reg[CANINTF] & (RX0IF | RX1IF)))
        return;
    hit_if(c, in_hand[SIDL], COVER_RESET_STATUS_0 + n);
    hit_if(c, in_hand[SIDL] && (buffer[SIDL] & SRR), COVER_RESET_SRR_0 + n);
    hit_if(c, in_hand[DLC] && (buffer[DLC] & RTR), COVER_RESET_RTR_0 + n);
}

/* A frame stored by a filter that was there before the RESET. */
static void filter_after_reset(struct cover *c, const struct model *after, uint8_t answer)
{
    static const uint8_t filter_at[8] = {RXF0SIDH, RXF1SIDH, RXF2SIDH,
                                         RXF3SIDH, RXF4SIDH, RXF5SIDH};
    unsigned n = answer == RX_IN_RXB1;
    uint8_t ctrl = after->reg[n ? RXB1CTRL : RXB0CTRL];
    unsigned number = ctrl & (n ? FILHIT : FILHIT0);
    unsigned sidl = filter_at[number] + RXF_SIDL;
    if ((ctrl & RXM) == RXM || (n && number < 2))
        return;
    hit_if(c, c->in_hand[sidl] && (after->reg[sidl] & IDE), COVER_RESET_FILTER_0 + n);
}

/* Would be refused in a flight, or is refused for want of one. */
static void flight_after_reset(struct cover *c, const uint8_t *r, uint8_t refusal)
{
    bool free_bus = r[0] == KIND_FRAME || r[0] == KIND_BUS_IDLE || r[0] == KIND_RECEIVE_ERROR;
    if (!c->reset_flight || !(refusal == REFUSED_NO_FLIGHT || (free_bus && !refusal)))
        return;
    hit(c, COVER_RESET_FLIGHT_GONE);
    c->reset_flight = false;
}

/* ---- length codes ---- */

struct given {
    uint8_t refusal;
    uint8_t answer;
};

static struct given step_gives(struct model m, const uint8_t *r)
{
    struct given given;
    model_step(&m, r, &given.refusal, &given.answer);
    return given;
}

/* Not refused for its fields once byte 2 has this length code, or the data is gone. */
static bool mended(const struct model *m, const uint8_t *r, uint8_t length_code, bool with_data)
{
    uint8_t record[RECORD_BYTES] = {0};
    memcpy(record, r, with_data ? RECORD_BYTES : 8);
    record[2] = length_code;
    return step_gives(*m, record).refusal != REFUSED_FIELD;
}

/* Frames that are refused for one thing alone. */
static void damaged_frame(struct cover *c, const struct model *m, const uint8_t *r)
{
    if (r[2] > LENGTH_CODE_MAX)
        hit_if(c, mended(m, r, LENGTH_CODE_MAX, true),
               r[2] == LENGTH_CODE_MAX + 1 ? COVER_REFUSED_LENGTH_CODE_16
                                           : COVER_REFUSED_LENGTH_CODE_ABOVE);
    else
        hit_if(c, mended(m, r, r[2], false),
               r[1] & FRAME_REMOTE ? COVER_REFUSED_DATA_REMOTE : COVER_REFUSED_DATA_PAST);
}

/* The frame that the receive buffers are offered: from the bus as its record
 * says, or sent in Loopback as the transmit buffer says before the step. */
struct offered {
    bool own;
    bool remote;
    bool extended;
    uint8_t length_code;
};

static struct offered offered_frame(const struct model *before, const uint8_t *r)
{
    if (r[0] == KIND_FRAME)
        return (struct offered){.remote = r[1] & FRAME_REMOTE,
                                .extended = r[1] & FRAME_EXTENDED,
                                .length_code = r[2]};
    const uint8_t *buffer = &before->reg[TXB0CTRL + 0x10 * before->flight];
    return (struct offered){.own = true,
                            .remote = buffer[DLC] & RTR,
                            .extended = buffer[SIDL] & IDE,
                            .length_code = buffer[DLC] & DLC_CODE};
}

static bool has_byte(const struct offered *f, unsigned byte)
{
    return !f->remote && byte < f->length_code;
}

static enum cover_class class_of(const struct offered *f)
{
    return f->remote             ? COVER_REMOTE
           : f->length_code == 0 ? COVER_LENGTH_CODE_0
           : f->length_code == 1 ? COVER_LENGTH_CODE_1
           : f->length_code <= 8 ? COVER_LENGTH_CODE_2_TO_8
                                 : COVER_LENGTH_CODE_9_TO_15;
}

/* The filters see no data byte of this number. */
static void hide(struct model *m, unsigned byte)
{
    m->reg[RXM0SIDH + RXF_EID8 + byte] = 0;
    m->reg[RXM1SIDH + RXF_EID8 + byte] = 0;
}

static uint8_t answer_without_byte(struct model m, const uint8_t *r, unsigned byte)
{
    hide(&m, byte);
    return step_gives(m, r).answer;
}

/* As a data frame just long enough to have this byte. Byte 1 comes with byte
 * 0: if the frame had neither, byte 0 is hidden, so that byte 1 alone is new. */
static uint8_t answer_with_byte(struct model m, const uint8_t *r, unsigned byte)
{
    struct offered frame = offered_frame(&m, r);
    uint8_t record[RECORD_BYTES], length_code = (uint8_t)(byte + 1);
    memcpy(record, r, RECORD_BYTES);
    if (frame.own) {
        m.reg[TXB0CTRL + 0x10 * m.flight + DLC] = length_code;
    } else {
        record[1] = 0;
        record[2] = length_code;
    }
    if (byte == 1 && !has_byte(&frame, 0))
        hide(&m, 0);
    return step_gives(m, record).answer;
}

/* A standard frame's answer, had the filters not seen a data byte that it has
 * or seen one that it has not. */
static void filtered(struct cover *c, const struct model *m, const uint8_t *r, uint8_t answer)
{
    struct offered frame = offered_frame(m, r);
    for (unsigned byte = 0; byte < 2 && !frame.extended; byte++) {
        uint8_t other = has_byte(&frame, byte) ? answer_without_byte(*m, r, byte)
                                               : answer_with_byte(*m, r, byte);
        if (other != answer)
            c->filtered[byte][class_of(&frame)]++;
    }
}

/* ---- single records ---- */

static void refused(struct cover *c, const struct model *m, const uint8_t *r, uint8_t refusal)
{
    static const uint8_t in_flight[KINDS] = {
        [KIND_FRAME] = COVER_REFUSAL_3_FRAME,
        [KIND_BUS_IDLE] = COVER_REFUSAL_3_IDLE,
        [KIND_RECEIVE_ERROR] = COVER_REFUSAL_3_ERROR,
    };
    hit_if(c, m->selected, COVER_REFUSED_IN_SESSION);
    switch (refusal) {
    case REFUSED_SELECT:
        hit(c, r[0] == KIND_SELECT_LOW ? COVER_REFUSAL_1_LOW : COVER_REFUSAL_1_HIGH);
        break;
    case REFUSED_FIELD:
        if (r[0] == KIND_FRAME)
            damaged_frame(c, m, r);
        hit(c, r[0] >= KINDS        ? COVER_REFUSAL_2_KIND
               : r[0] == KIND_FRAME ? COVER_REFUSAL_2_FRAME
               : r[0] > KIND_FRAME  ? COVER_REFUSAL_2_EVENT
                                    : COVER_REFUSAL_2_SPI);
        break;
    case REFUSED_IN_FLIGHT:
        hit(c, in_flight[r[0]]);
        break;
    case REFUSED_NO_FLIGHT:
        hit(c, COVER_REFUSAL_4);
        break;
    case REFUSED_STATE:
        hit(c, r[0] == KIND_RECOVERY ? COVER_REFUSAL_5_RECOVERY : COVER_REFUSAL_5_LOOPBACK);
        break;
    }
}

static void lost(struct cover *c, const struct model *before, const struct model *after)
{
    uint8_t raised = after->reg[EFLG] & ~before->reg[EFLG];
    bool bukt = before->reg[RXB0CTRL] & BUKT;
    if (raised & RX0OVR)
        hit(c, COVER_LOST_NO_BUKT);
    if ((raised & RX1OVR) && bukt && (before->reg[CANINTF] & RX0IF))
        hit(c, COVER_LOST_BUKT);
    if ((raised & RX1OVR) && !bukt)
        hit(c, COVER_LOST_RXB1);
}

static void stored(struct cover *c, const struct model *before, const uint8_t *r,
                   const struct model *after, uint8_t ctrl)
{
    struct offered frame = offered_frame(before, r);
    bool rxm = (after->reg[ctrl] & RXM) == RXM;
    unsigned number = after->reg[ctrl] & (ctrl == RXB0CTRL ? FILHIT0 : FILHIT);
    hit_if(c, rxm && ctrl == RXB0CTRL, COVER_RXM_RXB0);
    hit_if(c, rxm && ctrl == RXB1CTRL && number == 0, COVER_RXM_RXB1);
    hit_if(c, !rxm, COVER_HIT_0 + number);
    hit_if(c, !rxm && ctrl == RXB1CTRL && number < 2 && (before->reg[RXB0CTRL] & BUKT),
           COVER_ROLLED);
    hit_if(c, frame.remote && !frame.extended, COVER_STORED_STANDARD_REMOTE);
    hit_if(c, frame.remote && frame.extended, COVER_STORED_EXTENDED_REMOTE);
    hit_if(c, !frame.remote && frame.extended, COVER_STORED_EXTENDED);
    if (frame.length_code <= LENGTH_CODE_MAX) /* a wrong model may take others */
        c->stored[frame.own][frame.remote][frame.extended][frame.length_code]++;
}

static void received(struct cover *c, const struct model *before, const uint8_t *r, uint8_t answer,
                     const struct model *after)
{
    if (answer <= RX_LOST) {
        filtered(c, before, r, answer);
        cover_match(c, before, r, answer);
    }
    if (answer == RX_IN_RXB0 || answer == RX_IN_RXB1)
        filter_after_reset(c, after, answer);
    if (answer == RX_LOST)
        lost(c, before, after);
    if (answer == RX_IN_RXB0)
        stored(c, before, r, after, RXB0CTRL);
    if (answer == RX_IN_RXB1)
        stored(c, before, r, after, RXB1CTRL);
}

static void idle(struct cover *c, const struct model *m, uint8_t answer)
{
    unsigned ties = 0;
    bool beaten = false;
    hit(c, COVER_IDLE_0 + answer);
    if (answer == NO_FLIGHT) {
        bool asked = (m->reg[TXB0CTRL] | m->reg[TXB1CTRL] | m->reg[TXB2CTRL]) & TXREQ;
        hit_if(c, model_bus_off(m) && asked && m->mode == MODE_NORMAL, COVER_IDLE_BUS_OFF);
        hit_if(c, model_bus_off(m) && asked && m->mode == MODE_LOOPBACK,
               COVER_IDLE_BUS_OFF_LOOPBACK);
        return;
    }
    uint8_t won = m->reg[TXB0CTRL + 0x10 * answer] & TXP;
    for (unsigned n = 0; n < 3; n++) {
        uint8_t ctrl = m->reg[TXB0CTRL + 0x10 * n];
        if (n == answer || !(ctrl & TXREQ))
            continue;
        ties += (ctrl & TXP) == won;
        beaten = beaten || n > answer;
    }
    hit_if(c, ties > 0, COVER_IDLE_TIE);
    hit_if(c, beaten, COVER_IDLE_TXP);
    hit_if(c, m->request != NO_REQUEST, COVER_SENT_UNDER_REQUEST);
}

static void own_end(struct cover *c, const struct model *before, const uint8_t *r, uint8_t answer,
                    const struct model *after)
{
    const uint8_t *buffer = &before->reg[TXB0CTRL + 0x10 * before->flight];
    if (before->mode == MODE_LOOPBACK) {
        hit(c, COVER_LOOP_0 + answer);
        hit_if(c, c->in_hand[TXB0CTRL + 0x10 * before->flight + SIDH] &&
                      (answer == RX_IN_RXB0 || answer == RX_IN_RXB1),
               COVER_RESET_SENT);
        received(c, before, r, answer, after);
    } else {
        hit(c, COVER_SENT_NORMAL + r[1]);
    }
    if (r[1] != END_SENT) {
        hit_if(c, before->reg[CANCTRL] & OSM, COVER_END_OSM);
        hit_if(c, before->reg[CANCTRL] & ABAT, COVER_END_ABAT);
        hit_if(c, !(buffer[0] & TXREQ), COVER_END_NO_RETRY);
    }
    hit_if(c, after->mode != before->mode, COVER_REQUEST_AT_END);
}

static void written(struct cover *c, const struct model *m)
{
    uint8_t a = m->pointer;
    bool filter = a < 0x28 && (a & 0x0F) < 0x0C;
    hit_if(c, a == 0x7F, COVER_WRITE_WRAPS);
    hit_if(c, (a & 0x0F) == CANCTRL, COVER_CANCTRL_IN_RUN);
    hit_if(c, (filter || (a >= CNF3 && a <= CNF1)) && m->mode != MODE_CONFIGURATION,
           COVER_WRITE_CLOSED);
    if (a > TXB0CTRL && a < RXB0CTRL && (a & 0x0F) != 0 && (a & 0x0F) <= D7)
        hit_if(c, (m->reg[a & 0x70] & TXREQ) || m->flight == (a >> 4) - 3, COVER_WRITE_LOCKED);
}

static void aborted(struct cover *c, const struct model *before, const struct model *after)
{
    for (unsigned n = 0; n < 3; n++) {
        uint8_t was = before->reg[TXB0CTRL + 0x10 * n], is = after->reg[TXB0CTRL + 0x10 * n];
        hit_if(c, (was & TXREQ) && !(is & TXREQ) && (is & ABTF), COVER_ABAT_CLEARS);
    }
}

static void exchanged(struct cover *c, const struct model *before, const uint8_t *r,
                      const struct model *after)
{
    uint8_t code = cover_code(before, r);
    if (is_stopped(before))
        return;
    switch (before->open) {
    case OPEN_CODE:
        hit_if(c, code > SPI_RTS && code < SPI_RTS + 8 && (before->reg[CANCTRL] & ABAT),
               COVER_ABAT_BARS);
        hit_if(c, code == SPI_RTS, COVER_RTS_NONE);
        break;
    case OPEN_READ_ADDRESS:
        hit_if(c, r[1] > 0x7F, COVER_READ_ABOVE);
        break;
    case OPEN_WRITE_ADDRESS:
        hit_if(c, r[1] > 0x7F, COVER_WRITE_ABOVE);
        break;
    case OPEN_MODIFY_ADDRESS:
        hit_if(c, r[1] > 0x7F && (r[1] & 0x7F) < BFPCTRL, COVER_MODIFY_ABOVE);
        hit_if(c, r[1] >= (0x80 | CNF3) && r[1] <= (0x80 | EFLG), COVER_MODIFY_ABOVE_MASKED);
        break;
    case OPEN_READ:
        hit_if(c, before->pointer == 0x7F, COVER_READ_WRAPS);
        read_after_reset(c, before);
        break;
    case OPEN_RX_STATUS:
        status_after_reset(c, before);
        break;
    case OPEN_WRITE:
        written(c, before);
        break;
    case OPEN_MODIFY_DATA:
        if (before->mask == 0xFF)
            break;
        hit_if(c, before->pointer == CANINTF, COVER_MODIFY_MASKED);
        hit_if(c, before->pointer < BFPCTRL && before->mode == MODE_CONFIGURATION,
               COVER_MODIFY_FULL);
        break;
    }
    aborted(c, before, after);
}

static void counters(struct cover *c, const struct model *before, const uint8_t *r,
                     const struct model *after)
{
    hit_if(c, before->tec < 96 && after->tec >= 96, COVER_WARNING_TX);
    hit_if(c, before->rec < 96 && after->rec >= 96, COVER_WARNING_RX);
    hit_if(c, before->rec < 128 && after->rec >= 128, COVER_PASSIVE_RX);
    hit_if(c, before->rec > 127 && after->rec == 127, COVER_REC_TO_127);
    hit_if(c, before->rec > 247 && after->rec == REC_STOP, COVER_REC_STOPS);
    hit_if(c, !model_bus_off(before) && model_bus_off(after), COVER_BUS_OFF);
    hit_if(c, before->tec == 255 && after->tec == TEC_STOP, COVER_BUS_OFF_STOP);
    hit_if(c, model_bus_off(after) && after->mode == MODE_SLEEP, COVER_BUS_OFF_SLEEP);
    hit_if(c, model_bus_off(after) && after->mode == MODE_LOOPBACK, COVER_BUS_OFF_LOOPBACK);
    hit_if(c, r[0] == KIND_RECOVERY, COVER_RECOVERED);
    hit_if(c, r[0] == KIND_RECOVERY && before->mode == MODE_LOOPBACK, COVER_RECOVERED_LOOPBACK);
}

static void modes(struct cover *c, const struct model *before, const uint8_t *r,
                  const struct model *after)
{
    hit_if(c, before->mode != after->mode, COVER_MODE_0 + after->mode);
    hit_if(c, before->request == NO_REQUEST && after->request != NO_REQUEST, COVER_REQUEST_WAITS);
    hit_if(c,
           r[0] == KIND_EXCHANGE && before->request != NO_REQUEST && after->request == NO_REQUEST &&
               before->mode == after->mode,
           COVER_REQUEST_CANCELLED);
}

/* INT falls for a single reason. */
static void interrupts(struct cover *c, const struct model *before, const struct model *after)
{
    if (model_int_low(before))
        return;
    for (unsigned i = 0; i < 8; i++)
        hit_if(c, (after->reg[CANINTE] & after->reg[CANINTF]) == 1u << i, COVER_INT_RX0IF + i);
}

/* RXnIF set at select low, or the TX buffer free. */
static bool buffer_was_ready(const struct cover *c)
{
    const struct model *m = &c->at_low;
    unsigned n = (c->code & 7) / 2;
    if (c->code & 0x80)
        return m->reg[CANINTF] & (c->code & 4 ? RX1IF : RX0IF);
    return !(m->reg[TXB0CTRL + 0x10 * n] & TXREQ) && m->flight != n;
}

bool cover_loads(const struct cover *c)
{
    bool load = c->exchanges > 0 && c->code >= SPI_LOAD_TX && c->code < SPI_LOAD_TX + 6;
    return load && buffer_was_ready(c) && c->exchanges <= (c->code & 1 ? 9u : 14u);
}

static void session_ended(struct cover *c, const struct model *before)
{
    uint8_t rose = before->reg[CANINTF] & ~c->at_low.reg[CANINTF];
    hit_if(c, before->clears & rose & c->code_flags, COVER_READ_RX_LATE);
    hit_if(c, before->reg[CANINTF] & before->clears, COVER_READ_RX_CLEARS);
    hit_if(c, before->reg[CANINTF] & before->clears & RX1IF, COVER_READ_RX1_CLEARS);
    if (c->events == 0 || !buffer_was_ready(c) || before->selected == SELECT_BY_PANEL)
        return;
    for (unsigned i = 0; i < COVER_BUFFER_CODES; i++)
        for (unsigned j = 0; j < COVER_LENGTHS; j++)
            if (c->code == cover_buffer_code[i] && c->exchanges == 1u + cover_length[j])
                c->buffer_sessions[i][j]++;
}

/* The session so far: its start, its code, its events. */
static void sessions(struct cover *c, const struct model *before, const uint8_t *r,
                     uint8_t answer, const struct model *after)
{
    if (r[0] == KIND_SELECT_LOW) {
        c->at_low = *before;
        c->code = 0;
        c->exchanges = c->events = 0;
    } else if (r[0] == KIND_EXCHANGE) {
        if (c->exchanges++ == 0) {
            c->code = cover_code(before, r);
            c->code_flags = before->reg[CANINTF];
        }
    } else if (r[0] == KIND_SELECT_HIGH) {
        session_ended(c, before);
    } else if (before->selected) {
        c->events++;
        hit(c, COVER_EVENT_IN_SESSION);
        hit_if(c, before->open == OPEN_CODE && r[0] == KIND_FRAME && (answer == 1 || answer == 2),
               COVER_FRAME_BEFORE_CODE);
        hit_if(c, c->exchanges == 1 && c->code == SPI_RTS, COVER_EVENT_AFTER_RTS_NONE);
        hit_if(c, before->clears && (before->pointer & 0x0F) == CANCTRL &&
                      model_holds(before, CANSTAT) != model_holds(after, CANSTAT),
               COVER_READ_RX_CANSTAT);
    }
}

void cover_step(struct cover *c, const struct model *before, const uint8_t *record,
                uint8_t refusal, uint8_t answer, const struct model *after)
{
    flight_after_reset(c, record, refusal);
    if (refusal != REFUSED_NOT) {
        refused(c, before, record, refusal);
        return;
    }
    counters(c, before, record, after);
    modes(c, before, record, after);
    interrupts(c, before, after);
    sessions(c, before, record, answer, after);
    switch (record[0]) {
    case KIND_EXCHANGE:
        exchanged(c, before, record, after);
        break;
    case KIND_FRAME:
        hit(c, COVER_FRAME_0 + answer);
        hit_if(c, answer == RX_WOKE && model_bus_off(before), COVER_BUS_OFF_WOKE);
        received(c, before, record, answer, after);
        break;
    case KIND_BUS_IDLE:
        idle(c, before, answer);
        break;
    case KIND_FRAME_ENDS:
        own_end(c, before, record, answer, after);
        break;
    }
    let_go(c, before, record, answer, after);
    if (cover_is_reset(before, record))
        reset_met(c, before);
}

struct model cover_log(struct cover *c, const uint8_t *log, size_t records)
{
    struct model m;
    model_power_on(&m);
    forget_mode(c);
    c->reset_flight = false;
    c->set_before = 0;
    memset(&c->pins, 0, sizeof c->pins);
    memset(&c->panel, 0, sizeof c->panel);
    memset(c->in_hand, 0, sizeof c->in_hand);
    for (size_t i = 0; i < records; i++) {
        struct model before = m;
        uint8_t refusal, answer, set;
        model_step_set(&m, log + RECORD_BYTES * i, &refusal, &answer, &set);
        cover_set(c, &before, log + RECORD_BYTES * i, refusal, answer, set);
        cover_step(c, &before, log + RECORD_BYTES * i, refusal, answer, &m);
        cover_pins(c, &before, log + RECORD_BYTES * i, refusal, &m);
        cover_panel(c, &before, log + RECORD_BYTES * i, refusal, answer, &m);
    }
    hit_if(c, m.selected, COVER_ENDS_OPEN);
    hit_if(c, m.selected == SELECT_BY_PANEL, COVER_PANEL_ENDS_OPEN);
    return m;
}
