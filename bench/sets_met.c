#include "sets_met.h"

#include "registers.h"

const char *const set_met_name[SETS_MET] = {
    [HEARD_NO_FILTER] = "frame heard, no filter",
    [HEARD_ONE_FILTER] = "frame heard, one filter",
    [HEARD_MORE_FILTERS] = "frame heard, several filters",
    [OWN_NO_FILTER] = "own frame in Loopback, no filter",
    [OWN_ONE_FILTER] = "own frame in Loopback, one filter",
    [OWN_MORE_FILTERS] = "own frame in Loopback, several filters",
    [WITH_FILTER_0] = "set with filter 0",
    [WITH_FILTER_0 + 1] = "set with filter 1",
    [WITH_FILTER_0 + 2] = "set with filter 2",
    [WITH_FILTER_0 + 3] = "set with filter 3",
    [WITH_FILTER_0 + 4] = "set with filter 4",
    [WITH_FILTER_0 + 5] = "set with filter 5",
    [OF_BOTH_BUFFERS] = "set with filters of both buffers",
    [RXM_11_OF_RXB0] = "set with filters of RXB0, whose RXM is 11",
    [RXM_11_OF_RXB1] = "set with filters of RXB1, whose RXM is 11",
};

static unsigned by_size(unsigned none, unsigned one, unsigned more, uint8_t set)
{
    return set == 0 ? none : (set & (set - 1)) == 0 ? one : more;
}

/* RXM is as it was before the frame: receiving does not change it. */
static void count_shares(unsigned long long *met, const struct model *m, uint8_t set)
{
    bool of_rxb0 = set & MATCH_OF_RXB0, of_rxb1 = set & MATCH_OF_RXB1;
    for (unsigned n = 0; n < MATCH_FILTERS; n++)
        met[WITH_FILTER_0 + n] += set >> n & 1;
    met[OF_BOTH_BUFFERS] += of_rxb0 && of_rxb1;
    met[RXM_11_OF_RXB0] += (m->reg[RXB0CTRL] & RXM) == RXM && of_rxb0;
    met[RXM_11_OF_RXB1] += (m->reg[RXB1CTRL] & RXM) == RXM && of_rxb1;
}

bool count_set(unsigned long long met[SETS_MET], const struct model *m, bool loopback,
               const uint8_t *record, const uint8_t *outcome)
{
    bool accepted = outcome[0] == REFUSED_NOT;
    bool heard = accepted && record[0] == KIND_FRAME && outcome[1] <= RX_LOST;
    bool own = accepted && record[0] == KIND_FRAME_ENDS && loopback;
    uint8_t set = outcome[2];
    if (heard)
        met[by_size(HEARD_NO_FILTER, HEARD_ONE_FILTER, HEARD_MORE_FILTERS, set)]++;
    if (own)
        met[by_size(OWN_NO_FILTER, OWN_ONE_FILTER, OWN_MORE_FILTERS, set)]++;
    if (heard || own)
        count_shares(met, m, set);
    return heard || own;
}
