#include "model.h"

#include <string.h>

#include "registers.h"

enum { NO_HIT = 0xFF, TX_BUFFERS = 3, FILTERS = 6 };

_Static_assert((int)DLC_CODE == (int)LENGTH_CODE_MAX, "DLC bits 3-0 hold every length code");

/* A frame in the form of the message buffers, whether heard or sent. Bits
 * that a standard frame does not have are 0. */
struct frame {
    const uint8_t *data;
    bool extended;
    bool remote;
    uint8_t code; /* length code, as received and as sent */
    uint8_t sidh;
    uint8_t sidl;
    uint8_t eid8;
    uint8_t eid0;
};

unsigned model_data_bytes(uint8_t code)
{
    return code < DATA_BYTES_MAX ? code : DATA_BYTES_MAX;
}

unsigned model_carried_bytes(bool remote, uint8_t code)
{
    return remote ? 0 : model_data_bytes(code);
}

static uint8_t *tx_ctrl(struct model *m, unsigned n)
{
    return &m->reg[TXB0CTRL + 0x10 * n];
}

bool model_bus_off(const struct model *m)
{
    return m->tec >= TEC_BUS_OFF;
}

bool model_int_low(const struct model *m)
{
    return (m->reg[CANINTE] & m->reg[CANINTF]) != 0;
}

static bool can_send(const struct model *m)
{
    return m->mode == MODE_NORMAL || m->mode == MODE_LOOPBACK;
}

static bool any_txreq(const struct model *m)
{
    return ((m->reg[TXB0CTRL] | m->reg[TXB1CTRL] | m->reg[TXB2CTRL]) & TXREQ) != 0;
}

/* ---- counters and error flags ---- */

static uint8_t counter_flags(const struct model *m)
{
    uint8_t flags = 0;
    if (m->tec >= TEC_BUS_OFF)
        flags |= TXBO;
    if (m->tec >= 128)
        flags |= TXEP;
    if (m->rec >= 128)
        flags |= RXEP;
    if (m->tec >= 96)
        flags |= TXWAR | EWARN;
    if (m->rec >= 96)
        flags |= RXWAR | EWARN;
    return flags;
}

/* The only way up for a counter: ERRIF is set if an error flag rises with it. */
static void raise_counter(struct model *m, uint16_t *counter, unsigned add, unsigned stop)
{
    uint8_t before = counter_flags(m);
    unsigned sum = *counter + add;
    *counter = (uint16_t)(sum < stop ? sum : stop);
    if (counter_flags(m) & ~before)
        m->reg[CANINTF] |= ERRIF;
}

static void clear_counters(struct model *m)
{
    m->tec = 0;
    m->rec = 0;
}

/* ---- modes ---- */

static void enter_mode(struct model *m, uint8_t mode)
{
    m->mode = mode;
    if (mode == MODE_LISTEN_ONLY || mode == MODE_CONFIGURATION)
        clear_counters(m);
}

/* Last act of every accepted step. */
static void carry_out_request(struct model *m)
{
    if (m->request == NO_REQUEST)
        return;
    if (can_send(m) && (any_txreq(m) || m->flight != NO_FLIGHT))
        return;
    uint8_t mode = m->request;
    m->request = NO_REQUEST;
    enter_mode(m, mode);
}

void model_power_on(struct model *m)
{
    memset(m, 0, sizeof *m);
    m->reg[CANCTRL] = 0x87;
    m->mode = MODE_CONFIGURATION;
    m->request = NO_REQUEST;
    m->flight = NO_FLIGHT;
    for (unsigned n = 0; n < REQUEST_PINS; n++)
        m->level[n] = 1;
}

/* ---- reading ---- */

static uint8_t canstat(const struct model *m)
{
    static const uint8_t by_code[7] = {ERRIF, WAKIF, TX0IF, TX1IF, TX2IF, RX0IF, RX1IF};
    uint8_t pending = m->reg[CANINTE] & m->reg[CANINTF];
    uint8_t stat = (uint8_t)(m->mode << 5);
    if (pending == 0)
        return stat;
    for (unsigned i = 0; i < 7; i++)
        if (pending & by_code[i])
            return (uint8_t)(stat | (i + 1) << 1);
    return stat; /* MERRF alone has no code */
}

static bool pin_is_enabled(const struct model *m, unsigned n)
{
    return m->reg[TXRTSCTRL] & B0RTSM << n;
}

/* A pin that is not enabled shows its level, an enabled one 0. */
static uint8_t txrtsctrl(const struct model *m)
{
    uint8_t held = m->reg[TXRTSCTRL];
    for (unsigned n = 0; n < REQUEST_PINS; n++) {
        uint8_t shown = (uint8_t)(B0RTS << n);
        held &= (uint8_t)~shown;
        if (!pin_is_enabled(m, n) && m->level[n])
            held |= shown;
    }
    return held;
}

uint8_t model_holds(const struct model *m, uint8_t address)
{
    address &= 0x7F;
    switch (address & 0x0F) {
    case CANSTAT:
        return canstat(m);
    case CANCTRL:
        return m->reg[CANCTRL];
    }
    switch (address) {
    case TXRTSCTRL:
        return txrtsctrl(m);
    case TEC:
        return (uint8_t)(m->tec < 255 ? m->tec : 255);
    case REC:
        return (uint8_t)m->rec;
    case EFLG:
        return m->reg[EFLG] | counter_flags(m);
    }
    return m->reg[address];
}

static bool is_filter_or_mask(uint8_t address)
{
    return address < 0x20 ? (address & 0x0F) < 0x0C : address < 0x28;
}

uint8_t model_reads(const struct model *m, uint8_t address)
{
    address &= 0x7F;
    if (is_filter_or_mask(address) && m->mode != MODE_CONFIGURATION)
        return 0;
    return model_holds(m, address);
}

static uint8_t read_status(const struct model *m)
{
    uint8_t flags = m->reg[CANINTF];
    uint8_t status = flags & (RX0IF | RX1IF);
    for (unsigned n = 0; n < TX_BUFFERS; n++) {
        if (m->reg[TXB0CTRL + 0x10 * n] & TXREQ)
            status |= (uint8_t)(0x04 << 2 * n);
        if (flags & TX0IF << n)
            status |= (uint8_t)(0x08 << 2 * n);
    }
    return status;
}

static uint8_t rx_status(const struct model *m)
{
    uint8_t flags = m->reg[CANINTF];
    uint8_t status = (uint8_t)((flags & (RX0IF | RX1IF)) << 6);
    if (status == 0)
        return 0;
    const uint8_t *buffer = &m->reg[flags & RX0IF ? RXB0CTRL : RXB1CTRL];
    uint8_t hit = buffer[0] & (flags & RX0IF ? FILHIT0 : FILHIT);
    if (!(flags & RX0IF) && hit < 2)
        hit += 6; /* RXF0 and RXF1 reach RXB1 by rollover */
    if (buffer[SIDL] & IDE)
        status |= 0x10;
    if (buffer[0] & RXRTR)
        status |= 0x08;
    return status | hit;
}

/* ---- writing ---- */

static void store_bits(struct model *m, uint8_t address, uint8_t writable, uint8_t value)
{
    uint8_t *held = &m->reg[address];
    *held = (uint8_t)((*held & ~writable) | (value & writable));
}

static void store_config(struct model *m, uint8_t address, uint8_t writable, uint8_t value)
{
    if (m->mode == MODE_CONFIGURATION)
        store_bits(m, address, writable, value);
}

static void set_txreq(struct model *m, uint8_t *ctrl)
{
    if ((*ctrl & TXREQ) || (m->reg[CANCTRL] & ABAT))
        return;
    *ctrl = (uint8_t)((*ctrl & ~(ABTF | MLOA | TXERR)) | TXREQ);
}

static void store_tx_ctrl(struct model *m, unsigned n, uint8_t value)
{
    uint8_t *ctrl = tx_ctrl(m, n);
    *ctrl = (uint8_t)((*ctrl & ~TXP) | (value & TXP));
    if (value & TXREQ)
        set_txreq(m, ctrl);
    else
        *ctrl &= (uint8_t)~TXREQ;
}

static void store_tx(struct model *m, uint8_t address, uint8_t value)
{
    unsigned n = (address >> 4) - 3;
    unsigned byte = address & 0x0F;
    if (byte == 0)
        store_tx_ctrl(m, n, value);
    else if (!(*tx_ctrl(m, n) & TXREQ) && m->flight != n)
        store_bits(m, address, byte == SIDL ? 0xEB : byte == DLC ? 0x4F : 0xFF, value);
}

static void store_canctrl(struct model *m, uint8_t value)
{
    uint8_t mode = value >> 5;
    m->reg[CANCTRL] = value;
    m->request = mode < MODES && mode != m->mode ? mode : NO_REQUEST;
    if (!(value & ABAT))
        return;
    for (unsigned n = 0; n < TX_BUFFERS; n++) {
        uint8_t *ctrl = tx_ctrl(m, n);
        if ((*ctrl & TXREQ) && m->flight != n)
            *ctrl = (uint8_t)((*ctrl & ~TXREQ) | ABTF);
    }
}

static void store_low_rows(struct model *m, uint8_t address, uint8_t value)
{
    if (is_filter_or_mask(address)) {
        uint8_t sidl = address < RXM0SIDH ? 0xEB : 0xE3;
        store_config(m, address, (address & 3) == RXF_SIDL ? sidl : 0xFF, value);
        return;
    }
    switch (address) {
    case BFPCTRL:
        store_bits(m, address, 0x3F, value);
        break;
    case TXRTSCTRL:
        store_config(m, address, 0x07, value);
        break;
    case CNF3:
        store_config(m, address, 0xC7, value);
        break;
    case CNF2:
    case CNF1:
        store_config(m, address, 0xFF, value);
        break;
    case CANINTE:
    case CANINTF:
        store_bits(m, address, 0xFF, value);
        break;
    case EFLG:
        store_bits(m, address, RX1OVR | RX0OVR, value);
        break;
    }
}

static void store(struct model *m, uint8_t address, uint8_t value)
{
    address &= 0x7F;
    if ((address & 0x0F) == CANCTRL) {
        store_canctrl(m, value);
        return;
    }
    if ((address & 0x0F) == CANSTAT)
        return;
    switch (address >> 4) {
    case 0:
    case 1:
    case 2:
        store_low_rows(m, address, value);
        break;
    case 3:
    case 4:
    case 5:
        store_tx(m, address, value);
        break;
    case 6:
        if (address == RXB0CTRL) {
            uint8_t copy = value & BUKT ? BUKT1 : 0;
            store_bits(m, address, RXM | BUKT | BUKT1, (uint8_t)((value & ~BUKT1) | copy));
        }
        break;
    case 7:
        if (address == RXB1CTRL)
            store_bits(m, address, RXM, value);
        break;
    }
}

/* Addresses where BIT MODIFY's mask counts; elsewhere it is taken as FFh. */
static bool bit_modifiable(uint8_t address)
{
    if ((address & 0x0F) == CANCTRL)
        return true;
    switch (address) {
    case BFPCTRL:
    case TXRTSCTRL:
    case CNF3:
    case CNF2:
    case CNF1:
    case CANINTE:
    case CANINTF:
    case EFLG:
    case TXB0CTRL:
    case TXB1CTRL:
    case TXB2CTRL:
    case RXB0CTRL:
    case RXB1CTRL:
        return true;
    }
    return false;
}

static void bit_modify(struct model *m, uint8_t data)
{
    uint8_t mask = bit_modifiable(m->pointer) ? m->mask : 0xFF;
    uint8_t held = model_holds(m, m->pointer);
    store(m, m->pointer, (uint8_t)((held & ~mask) | (data & mask)));
}

/* ---- SPI ---- */

static void open_at(struct model *m, enum open_instruction open, uint8_t pointer)
{
    m->open = (uint8_t)open;
    m->pointer = pointer & 0x7F;
}

static void spent(struct model *m)
{
    m->open = OPEN_SPENT;
    m->pointer = 0;
    m->mask = 0;
}

/* Filters, and the message bytes of the five buffers. */
static bool outlives_reset(unsigned address)
{
    unsigned low = address & 0x0F;
    if (address < RXM0SIDH)
        return low < BFPCTRL;
    return address >= TXB0CTRL && low >= SIDH && low <= D7;
}

/* The pins are driven from outside: their levels outlive it too. */
static void spi_reset(struct model *m)
{
    const struct model met = *m;
    model_power_on(m);
    memcpy(m->level, met.level, sizeof m->level);
    for (unsigned a = 0; a < sizeof m->reg; a++)
        if (outlives_reset(a))
            m->reg[a] = met.reg[a];
    m->selected = met.selected;
    spent(m);
}

static void request_to_send(struct model *m, uint8_t buffers)
{
    for (unsigned n = 0; n < TX_BUFFERS; n++)
        if (buffers & 1u << n)
            set_txreq(m, tx_ctrl(m, n));
    spent(m);
}

static void start_instruction(struct model *m, uint8_t code)
{
    switch (code) {
    case SPI_RESET:
        spi_reset(m);
        break;
    case SPI_READ:
        m->open = OPEN_READ_ADDRESS;
        break;
    case SPI_WRITE:
        m->open = OPEN_WRITE_ADDRESS;
        break;
    case SPI_BIT_MODIFY:
        m->open = OPEN_MODIFY_ADDRESS;
        break;
    case 0x90:
    case 0x92:
        m->clears = RX0IF;
        open_at(m, OPEN_READ, code == 0x90 ? 0x61 : 0x66);
        break;
    case 0x94:
    case 0x96:
        m->clears = RX1IF;
        open_at(m, OPEN_READ, code == 0x94 ? 0x71 : 0x76);
        break;
    case 0x40: case 0x41: case 0x42: case 0x43: case 0x44: case 0x45:
        open_at(m, OPEN_WRITE, (uint8_t)(0x31 + 8 * (code & 6) + 5 * (code & 1)));
        break;
    case 0x80: case 0x81: case 0x82: case 0x83: case 0x84: case 0x85: case 0x86: case 0x87:
        request_to_send(m, code & 7);
        break;
    case SPI_READ_STATUS:
        m->open = OPEN_STATUS;
        break;
    case SPI_RX_STATUS:
        m->open = OPEN_RX_STATUS;
        break;
    default:
        spent(m);
        break;
    }
}

static uint8_t exchange(struct model *m, uint8_t sent)
{
    uint8_t reply = 0;
    switch (m->open) {
    case OPEN_CODE:
        start_instruction(m, sent);
        break;
    case OPEN_READ_ADDRESS:
        open_at(m, OPEN_READ, sent);
        break;
    case OPEN_READ:
        reply = model_reads(m, m->pointer);
        m->pointer = (m->pointer + 1) & 0x7F;
        break;
    case OPEN_WRITE_ADDRESS:
        open_at(m, OPEN_WRITE, sent);
        break;
    case OPEN_WRITE:
        store(m, m->pointer, sent);
        m->pointer = (m->pointer + 1) & 0x7F;
        break;
    case OPEN_MODIFY_ADDRESS:
        open_at(m, OPEN_MODIFY_MASK, sent);
        break;
    case OPEN_MODIFY_MASK:
        m->mask = sent;
        m->open = OPEN_MODIFY_DATA;
        break;
    case OPEN_MODIFY_DATA:
        bit_modify(m, sent);
        spent(m);
        break;
    case OPEN_STATUS:
        reply = read_status(m);
        break;
    case OPEN_RX_STATUS:
        reply = rx_status(m);
        break;
    }
    return reply;
}

static bool is_panels(const struct model *m)
{
    return m->selected == SELECT_BY_PANEL;
}

/* The first bytes that do something when the panel sends them. */
static bool panel_may_start(uint8_t code)
{
    switch (code) {
    case SPI_READ:
    case SPI_READ_STATUS:
    case SPI_RX_STATUS:
    case 0x94: case 0x96: /* READ RX BUFFER of RXB1 */
    case 0x44: case 0x45: /* LOAD TX BUFFER of TXB2 */
    case 0x84:            /* RTS of TXB2 */
        return true;
    }
    return false;
}

/* The message bytes of a buffer, given by its control register. */
static bool is_message_byte(uint8_t address, uint8_t ctrl)
{
    return address >= ctrl + SIDH && address <= ctrl + D7;
}

/* What the panel cannot have opened, and its READ RX BUFFER and LOAD behind data byte 7,
 * from where they do not go on: their address must not come round. */
static bool panel_is_barred(const struct model *m)
{
    switch (m->open) {
    case OPEN_READ:
        return m->clears != 0 &&
               !(m->clears == RX1IF && is_message_byte(m->pointer, RXB1CTRL));
    case OPEN_WRITE:
        return !is_message_byte(m->pointer, TXB2CTRL);
    case OPEN_WRITE_ADDRESS:
    case OPEN_MODIFY_ADDRESS:
    case OPEN_MODIFY_MASK:
    case OPEN_MODIFY_DATA:
        return true;
    }
    return false;
}

static uint8_t panel_exchange(struct model *m, uint8_t sent)
{
    if (panel_is_barred(m))
        return 0;
    if (m->open == OPEN_CODE && !panel_may_start(sent)) {
        spent(m);
        return 0;
    }
    return exchange(m, sent);
}

/* RX0IF is out of the panel's reach on any chip. */
static void select_high(struct model *m)
{
    uint8_t clears = is_panels(m) ? m->clears & RX1IF : m->clears;
    m->reg[CANINTF] &= (uint8_t)~clears;
    m->selected = SELECT_HIGH;
    m->open = OPEN_NONE;
    m->pointer = 0;
    m->mask = 0;
    m->clears = 0;
}

/* ---- receiving ---- */

static bool filter_takes(const struct model *m, unsigned n, const struct frame *f)
{
    static const uint8_t filter_at[FILTERS] = {RXF0SIDH, RXF1SIDH, RXF2SIDH,
                                               RXF3SIDH, RXF4SIDH, RXF5SIDH};
    const uint8_t *filter = &m->reg[filter_at[n]];
    const uint8_t *mask = &m->reg[n < 2 ? RXM0SIDH : RXM1SIDH];
    uint8_t sidl_bits = f->extended ? SID_LOW | EID_HIGH : SID_LOW;

    if (((filter[RXF_SIDL] & IDE) != 0) != f->extended)
        return false;
    if ((filter[RXF_SIDH] ^ f->sidh) & mask[RXF_SIDH])
        return false;
    if ((filter[RXF_SIDL] ^ f->sidl) & mask[RXF_SIDL] & sidl_bits)
        return false;
    if (f->extended)
        return !((filter[RXF_EID8] ^ f->eid8) & mask[RXF_EID8]) &&
               !((filter[RXF_EID0] ^ f->eid0) & mask[RXF_EID0]);
    /* A standard frame shows the first two data bytes that it carries to the EID bytes. */
    unsigned bytes = model_carried_bytes(f->remote, f->code);
    if (bytes > 0 && ((filter[RXF_EID8] ^ f->data[0]) & mask[RXF_EID8]))
        return false;
    return bytes < 2 || !((filter[RXF_EID0] ^ f->data[1]) & mask[RXF_EID0]);
}

/* All filters that match, bit n for filter n, whichever buffer is asked and whatever RXM is. */
static uint8_t matching_filters(const struct model *m, const struct frame *f)
{
    unsigned set = 0;
    for (unsigned n = 0; n < FILTERS; n++)
        if (filter_takes(m, n, f))
            set |= 1u << n;
    return (uint8_t)set;
}

/* The lowest match among the filters of one buffer. */
static unsigned first_hit(const struct model *m, uint8_t ctrl, unsigned from, unsigned past,
                          uint8_t set)
{
    if ((m->reg[ctrl] & RXM) == RXM)
        return 0;
    for (unsigned n = from; n < past; n++)
        if (set & 1u << n)
            return n;
    return NO_HIT;
}

static uint8_t lose(struct model *m, uint8_t overflow)
{
    m->reg[EFLG] |= overflow;
    m->reg[CANINTF] |= ERRIF;
    return RX_LOST;
}

/* Data bytes the frame does not carry keep what the buffer held. */
static void put(struct model *m, uint8_t ctrl, uint8_t hit_bits, unsigned hit,
                const struct frame *f)
{
    uint8_t *b = &m->reg[ctrl];
    b[0] = (uint8_t)((b[0] & ~(RXRTR | hit_bits)) | (f->remote ? RXRTR : 0) | hit);
    b[SIDH] = f->sidh;
    b[SIDL] = (uint8_t)(f->sidl | (f->extended ? IDE : f->remote ? SRR : 0));
    b[EID8] = f->eid8;
    b[EID0] = f->eid0;
    b[DLC] = (uint8_t)(f->code | (f->extended && f->remote ? RTR : 0));
    memcpy(&b[D0], f->data, model_carried_bytes(f->remote, f->code));
}

static uint8_t put_rxb0(struct model *m, unsigned hit, const struct frame *f)
{
    put(m, RXB0CTRL, FILHIT0, hit, f);
    m->reg[CANINTF] |= RX0IF;
    return RX_IN_RXB0;
}

static uint8_t put_rxb1(struct model *m, unsigned hit, const struct frame *f)
{
    if (m->reg[CANINTF] & RX1IF)
        return lose(m, RX1OVR);
    put(m, RXB1CTRL, FILHIT, hit, f);
    m->reg[CANINTF] |= RX1IF;
    return RX_IN_RXB1;
}

static uint8_t receive(struct model *m, const struct frame *f, uint8_t *set)
{
    *set = matching_filters(m, f);
    unsigned hit = first_hit(m, RXB0CTRL, 0, 2, *set);
    if (hit == NO_HIT) {
        hit = first_hit(m, RXB1CTRL, 2, 6, *set);
        return hit == NO_HIT ? RX_UNMATCHED : put_rxb1(m, hit, f);
    }
    if (!(m->reg[CANINTF] & RX0IF))
        return put_rxb0(m, hit, f);
    if (!(m->reg[RXB0CTRL] & BUKT))
        return lose(m, RX0OVR);
    uint8_t answer = put_rxb1(m, hit, f);
    if (answer == RX_IN_RXB1)
        m->reg[RXB0CTRL] = (uint8_t)((m->reg[RXB0CTRL] & ~FILHIT0) | hit);
    return answer;
}

static uint32_t identifier(const uint8_t *r)
{
    return (uint32_t)r[4] << 24 | (uint32_t)r[5] << 16 | (uint32_t)r[6] << 8 | r[7];
}

static struct frame heard_frame(const uint8_t *r)
{
    uint32_t id = identifier(r);
    struct frame f = {.data = r + 8, .code = r[2]};
    f.extended = (r[1] & FRAME_EXTENDED) != 0;
    f.remote = (r[1] & FRAME_REMOTE) != 0;
    if (f.extended) {
        f.sidh = (uint8_t)(id >> 21);
        f.sidl = (uint8_t)((id >> 13 & SID_LOW) | (id >> 16 & EID_HIGH));
        f.eid8 = (uint8_t)(id >> 8);
        f.eid0 = (uint8_t)id;
    } else {
        f.sidh = (uint8_t)(id >> 3);
        f.sidl = (uint8_t)(id << 5);
    }
    return f;
}

static struct frame own_frame(const struct model *m, unsigned n)
{
    const uint8_t *b = &m->reg[TXB0CTRL + 0x10 * n];
    struct frame f = {.data = &b[D0], .sidh = b[SIDH]};
    f.extended = (b[SIDL] & IDE) != 0;
    f.remote = (b[DLC] & RTR) != 0;
    f.code = b[DLC] & DLC_CODE;
    f.sidl = b[SIDL] & SID_LOW;
    if (f.extended) {
        f.sidl |= b[SIDL] & EID_HIGH;
        f.eid8 = b[EID8];
        f.eid0 = b[EID0];
    }
    return f;
}

/* ---- bus events ---- */

static uint8_t frame_comes(struct model *m, const uint8_t *r, uint8_t *set)
{
    if (m->mode == MODE_SLEEP && (m->reg[CANINTE] & WAKIF)) {
        m->reg[CANINTF] |= WAKIF;
        enter_mode(m, MODE_LISTEN_ONLY);
        return RX_WOKE;
    }
    if ((m->mode != MODE_NORMAL && m->mode != MODE_LISTEN_ONLY) || model_bus_off(m))
        return RX_NOT_LISTENING;
    struct frame f = heard_frame(r);
    if (m->mode == MODE_NORMAL) {
        if (m->rec > 127)
            m->rec = 127;
        else if (m->rec > 0)
            m->rec--;
    }
    return receive(m, &f, set);
}

static uint8_t bus_idle(struct model *m)
{
    int best = -1;
    if (!can_send(m) || model_bus_off(m))
        return NO_FLIGHT;
    for (unsigned n = 0; n < TX_BUFFERS; n++) {
        uint8_t ctrl = *tx_ctrl(m, n);
        if ((ctrl & TXREQ) && (ctrl & TXP) >= best) {
            best = ctrl & TXP;
            m->flight = (uint8_t)n;
        }
    }
    return m->flight;
}

static uint8_t frame_sent(struct model *m, unsigned n, uint8_t *set)
{
    *tx_ctrl(m, n) &= (uint8_t)~TXREQ;
    m->reg[CANINTF] |= (uint8_t)(TX0IF << n);
    if (m->mode == MODE_NORMAL && m->tec > 0)
        m->tec--;
    if (m->mode != MODE_LOOPBACK)
        return 0;
    struct frame f = own_frame(m, n);
    return receive(m, &f, set);
}

static void frame_failed(struct model *m, unsigned n, uint8_t outcome)
{
    uint8_t *ctrl = tx_ctrl(m, n);
    if (outcome == END_LOST) {
        *ctrl |= MLOA;
    } else {
        *ctrl |= TXERR;
        m->reg[CANINTF] |= MERRF;
        if (m->mode == MODE_NORMAL)
            raise_counter(m, &m->tec, 8, TEC_STOP);
    }
    if (m->reg[CANCTRL] & (OSM | ABAT))
        *ctrl &= (uint8_t)~TXREQ;
    if (m->reg[CANCTRL] & ABAT)
        *ctrl |= ABTF;
}

static uint8_t own_frame_ends(struct model *m, uint8_t outcome, uint8_t *set)
{
    unsigned n = m->flight;
    m->flight = NO_FLIGHT;
    if (outcome == END_SENT)
        return frame_sent(m, n, set);
    frame_failed(m, n, outcome);
    return 0;
}

static void receive_error(struct model *m, uint8_t large)
{
    if (m->mode != MODE_NORMAL || model_bus_off(m))
        return;
    m->reg[CANINTF] |= MERRF;
    raise_counter(m, &m->rec, large ? 8 : 1, REC_STOP);
}

/* A fall requests as RTS does; a level that repeats and a rise are no more than noted. */
static void request_pin(struct model *m, unsigned n, uint8_t level)
{
    bool falls = m->level[n] && !level;
    m->level[n] = level;
    if (falls && pin_is_enabled(m, n))
        set_txreq(m, tx_ctrl(m, n));
}

/* ---- records ---- */

/* Bytes from (1 to 3) to 15 are 0; two overlapping words cover them. */
static bool rest_is_zero(const uint8_t *r, size_t from)
{
    uint64_t front, back;
    memcpy(&front, r + from, 8);
    memcpy(&back, r + 8, 8);
    return (front | back) == 0;
}

static bool frame_is_sound(const uint8_t *r)
{
    uint32_t limit = r[1] & FRAME_EXTENDED ? 0x1FFFFFFF : 0x7FF;
    if (r[1] > 3 || r[2] > LENGTH_CODE_MAX || r[3] != 0 || identifier(r) > limit)
        return false;
    for (unsigned i = model_carried_bytes(r[1] & FRAME_REMOTE, r[2]); i < DATA_BYTES_MAX; i++)
        if (r[8 + i] != 0)
            return false;
    return true;
}

static bool fields_are_sound(const uint8_t *r)
{
    switch (r[0]) {
    case KIND_SELECT_LOW:
    case KIND_SELECT_HIGH:
        return r[1] == 0 && r[2] < SPEAKERS && rest_is_zero(r, 3);
    case KIND_EXCHANGE:
        return r[2] < SPEAKERS && rest_is_zero(r, 3);
    case KIND_BUS_IDLE:
    case KIND_RECOVERY:
        return rest_is_zero(r, 1);
    case KIND_FRAME:
        return frame_is_sound(r);
    case KIND_FRAME_ENDS:
        return r[1] <= END_ERROR && rest_is_zero(r, 2);
    case KIND_RECEIVE_ERROR:
        return r[1] <= 1 && rest_is_zero(r, 2);
    case KIND_REQUEST_PIN:
        return r[1] < REQUEST_PINS && r[2] <= PIN_LEVEL_MAX && rest_is_zero(r, 3);
    }
    return false;
}

/* What a select or exchange would make of the select line, or finds it to be. */
static uint8_t select_by(const uint8_t *r)
{
    return r[2] == SPEAKER_PANEL ? SELECT_BY_PANEL : SELECT_BY_CONTROLLER;
}

static uint8_t refuse(const struct model *m, const uint8_t *r)
{
    bool in_flight = m->flight != NO_FLIGHT;
    if (!fields_are_sound(r))
        return REFUSED_FIELD;
    switch (r[0]) {
    case KIND_SELECT_LOW:
        return m->selected == SELECT_HIGH ? REFUSED_NOT : REFUSED_SELECT;
    case KIND_EXCHANGE:
    case KIND_SELECT_HIGH:
        if (m->selected == SELECT_HIGH)
            return REFUSED_SELECT;
        return m->selected == select_by(r) ? REFUSED_NOT : REFUSED_SPEAKER;
    case KIND_FRAME:
    case KIND_BUS_IDLE:
    case KIND_RECEIVE_ERROR:
        return in_flight ? REFUSED_IN_FLIGHT : REFUSED_NOT;
    case KIND_FRAME_ENDS:
        if (!in_flight)
            return REFUSED_NO_FLIGHT;
        return m->mode == MODE_LOOPBACK && r[1] != END_SENT ? REFUSED_STATE : REFUSED_NOT;
    case KIND_REQUEST_PIN:
        return REFUSED_NOT; /* it may come at any time */
    }
    return model_bus_off(m) ? REFUSED_NOT : REFUSED_STATE; /* KIND_RECOVERY */
}

void model_step_set(struct model *m, const uint8_t record[RECORD_BYTES], uint8_t *refusal,
                    uint8_t *answer, uint8_t *set)
{
    *answer = 0;
    *set = 0;
    *refusal = refuse(m, record);
    if (*refusal != REFUSED_NOT)
        return;
    switch (record[0]) {
    case KIND_SELECT_LOW:
        m->selected = select_by(record);
        m->open = OPEN_CODE;
        break;
    case KIND_EXCHANGE:
        *answer = is_panels(m) ? panel_exchange(m, record[1]) : exchange(m, record[1]);
        break;
    case KIND_SELECT_HIGH:
        select_high(m);
        break;
    case KIND_FRAME:
        *answer = frame_comes(m, record, set);
        break;
    case KIND_BUS_IDLE:
        *answer = bus_idle(m);
        break;
    case KIND_FRAME_ENDS:
        *answer = own_frame_ends(m, record[1], set);
        break;
    case KIND_RECEIVE_ERROR:
        receive_error(m, record[1]);
        break;
    case KIND_RECOVERY:
        clear_counters(m);
        break;
    case KIND_REQUEST_PIN:
        request_pin(m, record[1], record[2]);
        break;
    }
    carry_out_request(m);
}

void model_step(struct model *m, const uint8_t record[RECORD_BYTES], uint8_t *refusal,
                uint8_t *answer)
{
    uint8_t set;
    model_step_set(m, record, refusal, answer, &set);
}

long model_run_log(const uint8_t *log, size_t log_len, uint8_t *answers, size_t answers_len)
{
    struct model m;
    size_t records = log_len / RECORD_BYTES;
    if (log_len % RECORD_BYTES != 0)
        return -REFUSED_RAGGED;
    if (records > LOG_RECORDS_MAX)
        return -REFUSED_TOO_LONG;
    if (answers_len < 2 * records)
        return -REFUSED_SHORT_OUTPUT;
    model_power_on(&m);
    for (size_t i = 0; i < records; i++)
        model_step(&m, log + RECORD_BYTES * i, &answers[2 * i], &answers[2 * i + 1]);
    return (long)records;
}
