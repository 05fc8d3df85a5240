#include "match.h"

#include <stdio.h>
#include <string.h>

enum { EXTENDED_BITS = 29, STANDARD_BITS = 11, EID_BITS = EXTENDED_BITS - STANDARD_BITS };

/* Bit i of an extended identifier; SIDL bits 4-2 stand between its two parts. */
static unsigned place_of(unsigned i)
{
    return i < EID_BITS ? i : i + 3;
}

static bool is_set(uint32_t word, unsigned place)
{
    return word >> place & 1;
}

void match_record(uint8_t record[RECORD_BYTES], uint8_t flags, uint8_t code, uint32_t word)
{
    uint32_t id = 0;
    memset(record, 0, RECORD_BYTES);
    record[0] = KIND_FRAME;
    record[1] = flags;
    record[2] = code;
    for (unsigned i = flags & FRAME_EXTENDED ? 0 : EID_BITS; i < EXTENDED_BITS; i++)
        id |= (uint32_t)is_set(word, place_of(i)) << i;
    if (!(flags & FRAME_EXTENDED))
        id >>= EID_BITS;
    for (unsigned i = 0; i < 4; i++)
        record[4 + i] = (uint8_t)(id >> (24 - 8 * i));
    for (unsigned i = 0; i < DATA_BYTES_MAX && i < code && !(flags & FRAME_REMOTE); i++)
        record[8 + i] = (uint8_t)(i == 0 ? word >> 8 : word);
}

static void show(struct match_frame *f, unsigned place, bool set)
{
    f->reached |= 1u << place;
    f->bits |= (uint32_t)set << place;
}

/* bytes: how many the frame carries. */
static struct match_frame frame_of(bool extended, uint32_t id, unsigned bytes, const uint8_t *data)
{
    struct match_frame f = {.bits = extended ? MATCH_EXIDE : 0};
    for (unsigned i = 0; extended && i < EXTENDED_BITS; i++)
        show(&f, place_of(i), id >> i & 1);
    for (unsigned i = 0; !extended && i < STANDARD_BITS; i++)
        show(&f, place_of(EID_BITS + i), id >> i & 1);
    for (unsigned i = 0; !extended && i < 8; i++) {
        if (bytes > 0)
            show(&f, 8 + i, data[0] >> i & 1);
        if (bytes > 1)
            show(&f, i, data[1] >> i & 1);
    }
    return f;
}

struct match_frame match_heard(const uint8_t *record)
{
    uint32_t id = 0;
    for (unsigned i = 4; i < 8; i++)
        id = id << 8 | record[i];
    return frame_of(record[1] & FRAME_EXTENDED, id, record[1] & FRAME_REMOTE ? 0 : record[2],
                    record + 8);
}

struct match_frame match_own(const struct model *m, unsigned n)
{
    const uint8_t *buffer = &m->reg[TXB0CTRL + 0x10 * n];
    uint32_t id = (uint32_t)(buffer[SIDH] << 3 | buffer[SIDL] >> 5);
    if (buffer[SIDL] & IDE)
        id = id << EID_BITS | (uint32_t)(buffer[SIDL] & EID_HIGH) << 16 |
             (uint32_t)(buffer[EID8] << 8 | buffer[EID0]);
    return frame_of(buffer[SIDL] & IDE, id, buffer[DLC] & RTR ? 0 : buffer[DLC] & DLC_CODE,
                    &buffer[D0]);
}

static unsigned filter_at(unsigned n)
{
    return n < 3 ? RXF0SIDH + 4 * n : RXF3SIDH + 4 * (n - 3);
}

static uint32_t word_at(const struct model *m, unsigned address)
{
    uint32_t word = 0;
    for (unsigned i = 0; i < 4; i++)
        word = word << 8 | m->reg[address + i];
    return word;
}

uint32_t match_filter(const struct model *m, unsigned n)
{
    return word_at(m, filter_at(n));
}

static void put_filter(struct model *m, unsigned n, uint32_t word)
{
    for (unsigned i = 0; i < 4; i++)
        m->reg[filter_at(n) + i] = (uint8_t)(word >> (24 - 8 * i));
}

uint32_t match_mask(const struct model *m, unsigned number)
{
    return word_at(m, RXM0SIDH + 4 * number);
}

unsigned match_mask_of(unsigned n)
{
    return n == 0 || n == 1 ? 0 : 1;
}

uint32_t match_differs(uint32_t filter, uint32_t mask, const struct match_frame *f)
{
    return (filter ^ f->bits) & (MATCH_EXIDE | (mask & f->reached));
}

unsigned match_set(const struct model *m, const struct match_frame *f)
{
    unsigned set = 0;
    for (unsigned n = 0; n < MATCH_FILTERS; n++)
        if (match_differs(match_filter(m, n), match_mask(m, match_mask_of(n)), f) == 0)
            set |= 1u << n;
    return set;
}

/* By the record, taken, a frame comes to the filters. */
static bool is_received(const struct model *m, const uint8_t *record)
{
    bool listens = m->mode == MODE_NORMAL || m->mode == MODE_LISTEN_ONLY;
    if (record[0] == KIND_FRAME)
        return listens && m->tec < TEC_BUS_OFF;
    return record[0] == KIND_FRAME_ENDS && record[1] == END_SENT && m->mode == MODE_LOOPBACK;
}

unsigned match_set_of_step(const struct model *m, const uint8_t *record, uint8_t refusal)
{
    if (refusal != REFUSED_NOT || !is_received(m, record))
        return 0;
    struct match_frame f = record[0] == KIND_FRAME ? match_heard(record) : match_own(m, m->flight);
    return match_set(m, &f);
}

uint8_t match_answer(const struct model *m, const uint8_t *record, const struct match_frame *f,
                     unsigned set)
{
    struct model other = *m;
    uint8_t refusal, answer;
    for (unsigned n = 0; n < MATCH_FILTERS; n++)
        put_filter(&other, n, f->bits ^ (set >> n & 1 ? 0 : MATCH_EXIDE));
    model_step(&other, record, &refusal, &answer);
    return answer;
}

unsigned match_bit(bool extended, unsigned place)
{
    unsigned identifier = place < EID_BITS ? place : place - 3;
    if (extended)
        return identifier;
    if (identifier >= EID_BITS)
        return EXTENDED_BITS + identifier - EID_BITS;
    return EXTENDED_BITS + STANDARD_BITS + (place ^ 8); /* data byte 0 stands at 15-8 */
}

const char *match_bit_name(unsigned bit)
{
    static char text[48];
    unsigned standard = bit - EXTENDED_BITS, data = standard - STANDARD_BITS;
    if (bit < EXTENDED_BITS)
        snprintf(text, sizeof text, "extended identifier bit %u", bit);
    else if (standard < STANDARD_BITS)
        snprintf(text, sizeof text, "standard identifier bit %u", standard);
    else
        snprintf(text, sizeof text, "data byte %u bit %u", data / 8, data % 8);
    return text;
}
