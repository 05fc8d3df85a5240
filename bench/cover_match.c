/* What of the match rule random logs reach, judged by a frame's answer. */
#include <string.h>

#include "cover.h"
#include "match.h"
#include "registers.h"

/* A frame that filters were asked for, and what they made of it. */
struct asked {
    const struct model *m; /* the chip before */
    const uint8_t *record;
    struct match_frame frame;
    unsigned set; /* of the filters that match */
    uint8_t answer;
};

/* With exactly these filters matching, the answer would be another one. */
static bool decides(const struct asked *a, unsigned set)
{
    return set != a->set && match_answer(a->m, a->record, &a->frame, set) != a->answer;
}

static void count_if(struct cover *c, bool condition, unsigned point)
{
    c->count[point] += condition;
}

/* A standard frame that compared more than it shows: EID17-16 as 0, or the
 * EID bytes of the transmit buffer that it was sent from. */
static void standard_frame(struct cover *c, const struct asked *a)
{
    struct match_frame more = a->frame;
    more.reached |= (uint32_t)EID_HIGH << 16;
    count_if(c, decides(a, match_set(a->m, &more)), COVER_MATCH_EID17_16);
    if (a->record[0] == KIND_FRAME)
        return;
    const uint8_t *buffer = &a->m->reg[TXB0CTRL + 0x10 * a->m->flight];
    more.bits |= (uint32_t)(buffer[SIDL] & EID_HIGH) << 16;
    count_if(c, more.bits != a->frame.bits && decides(a, match_set(a->m, &more)),
             COVER_MATCH_OWN_EID17_16);
    more = a->frame;
    more.bits = (more.bits & ~0xFFFFu) | (uint32_t)(buffer[EID8] << 8 | buffer[EID0]);
    more.reached |= 0xFFFF;
    count_if(c, decides(a, match_set(a->m, &more)), COVER_MATCH_OWN_EID);
}

/* An extended frame that compared data bytes 0 and 1 too, as a standard one does. */
static void extended_frame(struct cover *c, const struct asked *a)
{
    uint8_t record[RECORD_BYTES];
    if (a->record[0] != KIND_FRAME)
        return;
    memcpy(record, a->record, RECORD_BYTES);
    record[1] &= FRAME_REMOTE;
    struct match_frame data = match_heard(record);
    data.bits = (data.bits & 0xFFFF) | MATCH_EXIDE;
    data.reached &= 0xFFFF;
    count_if(c, decides(a, a->set & match_set(a->m, &data)), COVER_MATCH_EXTENDED_DATA);
}

/* One filter more or less, by the other mask, by EXIDE or by a single bit. */
static void filter_asked(struct cover *c, const struct asked *a, unsigned n)
{
    uint32_t filter = match_filter(a->m, n);
    uint32_t mask = match_mask(a->m, match_mask_of(n));
    uint32_t other_mask = match_mask(a->m, 1 - match_mask_of(n));
    uint32_t differs = match_differs(filter, mask, &a->frame);
    bool by_other = match_differs(filter, other_mask, &a->frame) == 0;
    bool extended = a->frame.bits & MATCH_EXIDE;
    if (by_other != (differs == 0))
        count_if(c, decides(a, a->set ^ 1u << n), COVER_MATCH_MASK_0 + n);
    if (differs == 0 || (differs & (differs - 1)) != 0)
        return;
    bool alone = decides(a, a->set | 1u << n);
    if (differs == MATCH_EXIDE)
        count_if(c, alone && mask == 0,
                 extended ? COVER_MATCH_EXIDE_EXTENDED : COVER_MATCH_EXIDE_STANDARD);
    else
        c->one_bit[n][match_bit(extended, (unsigned)__builtin_ctz(differs))] += alone;
}

void cover_match(struct cover *c, const struct model *before, const uint8_t *record, uint8_t answer)
{
    struct asked a = {.m = before, .record = record, .answer = answer};
    a.frame = record[0] == KIND_FRAME ? match_heard(record) : match_own(before, before->flight);
    a.set = match_set(before, &a.frame);
    c->matched_otherwise += match_answer(before, record, &a.frame, a.set) != answer;
    if (a.frame.bits & MATCH_EXIDE)
        extended_frame(c, &a);
    else
        standard_frame(c, &a);
    for (unsigned n = 0; n < MATCH_FILTERS; n++)
        filter_asked(c, &a, n);
}
