/* What of the rules of the set random logs reach, judged by the set: each point counts
 * records for which a rule that misses it would give another one. */
#include "cover.h"
#include "match.h"
#include "registers.h"

/* A frame at the filters, heard or not. */
struct asked {
    const struct model *m; /* the chip before */
    struct match_frame frame;
    unsigned set; /* what the filters say of it */
    uint8_t answer;
    bool own;
};

static void count_if(struct cover *c, bool condition, unsigned point)
{
    c->count[point] += condition;
}

static unsigned lowest(unsigned set)
{
    return set & -set;
}

static uint8_t rxm(const struct model *m, uint8_t ctrl)
{
    return m->reg[ctrl] & RXM;
}

/* For RXB0, by a filter or by RXM 11. */
static bool is_for_rxb0(const struct asked *a)
{
    return (a->set & MATCH_OF_RXB0) || rxm(a->m, RXB0CTRL) == RXM;
}

static void several(struct cover *c, const struct asked *a)
{
    unsigned of_rxb0 = a->set & MATCH_OF_RXB0, of_rxb1 = a->set & MATCH_OF_RXB1;
    count_if(c, a->set != lowest(a->set), COVER_SET_PAST_LOWEST);
    count_if(c, of_rxb0 != lowest(of_rxb0), COVER_SET_PAST_LOWEST_0);
    count_if(c, of_rxb1 != lowest(of_rxb1), COVER_SET_PAST_LOWEST_1);
    for (unsigned n = 0; n < MATCH_FILTERS; n++)
        count_if(c, a->set == 1u << n, COVER_SET_ALONE_0 + n);
    c->sets[a->set]++;
}

/* The share of a buffer that was not asked, and sets of frames that are not stored
 * where their filters would have them. */
static void whatever_becomes(struct cover *c, const struct asked *a)
{
    bool rolled = a->answer == RX_IN_RXB1 && is_for_rxb0(a);
    bool lost_0 = a->answer == RX_LOST && is_for_rxb0(a);
    bool bukt = a->m->reg[RXB0CTRL] & BUKT;
    bool of_rxb0 = a->set & MATCH_OF_RXB0, of_rxb1 = a->set & MATCH_OF_RXB1;
    count_if(c, a->answer == RX_IN_RXB0 && of_rxb1, COVER_SET_IN_RXB0);
    count_if(c, a->answer == RX_IN_RXB1 && !rolled && of_rxb1, COVER_SET_IN_RXB1);
    count_if(c, rolled && of_rxb0, COVER_SET_ROLLED_0);
    count_if(c, rolled && of_rxb1, COVER_SET_ROLLED_1);
    count_if(c, lost_0 && !bukt && of_rxb0, COVER_SET_LOST_0);
    count_if(c, lost_0 && !bukt && of_rxb1, COVER_SET_LOST_0_OF_RXB1);
    count_if(c, lost_0 && bukt && of_rxb0, COVER_SET_LOST_BUKT);
    count_if(c, lost_0 && bukt && of_rxb1, COVER_SET_LOST_BUKT_OF_RXB1);
    count_if(c, a->answer == RX_LOST && !lost_0 && of_rxb1, COVER_SET_LOST_1);
}

/* Sent in Loopback, whatever becomes of it. */
static void own_frame(struct cover *c, const struct asked *a)
{
    bool other = false;
    for (unsigned n = 0; n < 3; n++) {
        struct match_frame frame = match_own(a->m, n);
        other = other || match_set(a->m, &frame) != a->set;
    }
    count_if(c, other, COVER_SET_OWN_BUFFER);
    count_if(c, a->set != lowest(a->set), COVER_SET_OWN_PAST_LOWEST);
    if (a->set == 0)
        return;
    count_if(c, a->answer == RX_IN_RXB0, COVER_SET_OWN_IN_RXB0);
    count_if(c, a->answer == RX_IN_RXB1, COVER_SET_OWN_IN_RXB1);
    count_if(c, a->answer == RX_IN_RXB1 && is_for_rxb0(a), COVER_SET_OWN_ROLLED);
    count_if(c, a->answer == RX_LOST, COVER_SET_OWN_LOST);
    count_if(c, rxm(a->m, RXB0CTRL) == RXM || rxm(a->m, RXB1CTRL) == RXM, COVER_SET_RXM_OWN);
}

/* Each RXM of each buffer that has a share, and what RXM 11 takes without one. */
static void by_rxm(struct cover *c, const struct asked *a)
{
    static const uint8_t ctrl[2] = {RXB0CTRL, RXB1CTRL};
    static const uint8_t share[2] = {MATCH_OF_RXB0, MATCH_OF_RXB1};
    bool any_0 = rxm(a->m, RXB0CTRL) == RXM, any_1 = rxm(a->m, RXB1CTRL) == RXM;
    for (unsigned i = 0; i < 2; i++)
        count_if(c, a->set & share[i], COVER_SET_RXM_00_0 + 2 * (rxm(a->m, ctrl[i]) >> 5) + i);
    count_if(c, any_0 && any_1 && a->set != 0, COVER_SET_RXM_BOTH);
    count_if(c, any_0 && a->answer == RX_IN_RXB0 && !(a->set & 1), COVER_SET_RXM_HIT_0);
    count_if(c, any_0 && a->answer == RX_IN_RXB0 && a->set == 0, COVER_SET_RXM_EMPTY_0);
    count_if(c, any_1 && a->answer == RX_IN_RXB1 && a->set == 0, COVER_SET_RXM_EMPTY_1);
    count_if(c, a->answer == RX_LOST && a->set == 0, COVER_SET_RXM_EMPTY_LOST);
}

/* A filter under the other mask, or without the one bit that keeps it out. */
static void by_mask(struct cover *c, const struct asked *a)
{
    bool extended = a->frame.bits & MATCH_EXIDE;
    for (unsigned n = 0; n < MATCH_FILTERS; n++) {
        uint32_t filter = match_filter(a->m, n);
        uint32_t other = match_mask(a->m, 1 - match_mask_of(n));
        uint32_t differs = match_differs(filter, match_mask(a->m, match_mask_of(n)), &a->frame);
        bool by_other = match_differs(filter, other, &a->frame) == 0;
        count_if(c, by_other != (differs == 0), COVER_SET_MASK_0 + n);
        if (differs == 0 || (differs & (differs - 1)) != 0)
            continue;
        if (differs == MATCH_EXIDE)
            c->set_exide[n][extended]++;
        else
            c->set_byte[n][extended][3 - __builtin_ctz(differs) / 8]++;
    }
}

static bool listens(const struct model *m)
{
    return (m->mode == MODE_NORMAL || m->mode == MODE_LISTEN_ONLY) && !model_bus_off(m);
}

/* No set, though filters match. */
static void not_heard(struct cover *c, const struct model *m, const uint8_t *r, uint8_t refusal,
                      uint8_t answer)
{
    if (r[0] == KIND_FRAME_ENDS) {
        bool ended = refusal == REFUSED_NOT;
        count_if(c, ended && r[1] == END_SENT, COVER_SET_END_SENT);
        count_if(c, ended && r[1] == END_LOST, COVER_SET_END_LOST);
        count_if(c, ended && r[1] == END_ERROR, COVER_SET_END_ERROR);
        count_if(c, refusal == REFUSED_STATE, COVER_SET_END_REFUSED);
        return;
    }
    count_if(c, refusal == REFUSED_FIELD && listens(m), COVER_SET_REFUSED_FIELD);
    count_if(c, refusal == REFUSED_IN_FLIGHT && listens(m), COVER_SET_REFUSED_IN_FLIGHT);
    if (refusal != REFUSED_NOT)
        return;
    count_if(c, answer == RX_WOKE, COVER_SET_WOKE);
    if (answer != RX_NOT_LISTENING)
        return;
    count_if(c, m->mode == MODE_CONFIGURATION, COVER_SET_CONFIGURATION);
    count_if(c, m->mode == MODE_LOOPBACK, COVER_SET_LOOPBACK);
    count_if(c, m->mode == MODE_SLEEP, COVER_SET_SLEEP);
    count_if(c, m->mode == MODE_NORMAL, COVER_SET_BUS_OFF);
}

/* A frame that is heard or would be: of the bus, or the one in flight. */
static bool has_frame(const struct model *m, const uint8_t *r)
{
    return r[0] == KIND_FRAME || (r[0] == KIND_FRAME_ENDS && m->flight != NO_FLIGHT);
}

void cover_set(struct cover *c, const struct model *before, const uint8_t *record,
               uint8_t refusal, uint8_t answer, uint8_t set)
{
    c->set_otherwise += set != match_set_of_step(before, record, refusal);
    count_if(c, record[0] == KIND_EXCHANGE && answer != 0, COVER_SET_REPLY);
    count_if(c, record[0] == KIND_BUS_IDLE && answer != 0, COVER_SET_IDLE);
    count_if(c, c->set_before != 0 && set == 0, COVER_SET_GONE);
    c->set_before = set;
    if (!has_frame(before, record))
        return;
    struct asked a = {.m = before, .answer = answer, .own = record[0] == KIND_FRAME_ENDS};
    a.frame = a.own ? match_own(before, before->flight) : match_heard(record);
    a.set = match_set(before, &a.frame);
    bool heard = refusal == REFUSED_NOT &&
                 (a.own ? before->mode == MODE_LOOPBACK : answer <= RX_LOST);
    if (!heard) {
        if (a.set != 0)
            not_heard(c, before, record, refusal, answer);
        return;
    }
    several(c, &a);
    whatever_becomes(c, &a);
    by_rxm(c, &a);
    by_mask(c, &a);
    if (a.own)
        own_frame(c, &a);
}
