#include "timing_candidates.h"

/* One more with the size that is the smallest so far. */
static void add_candidate(struct candidates *r, unsigned brp, int64_t difference,
                          unsigned *brp_of_last)
{
    if (*brp_of_last == brp)
        r->of_one_brp = true;
    else
        r->brps++;
    r->above |= difference > 0;
    r->below |= difference < 0;
    *brp_of_last = brp;
}

struct candidates candidates_of(uint32_t oscillator, uint32_t rate)
{
    struct candidates r = {.size = INT64_MAX};
    unsigned brp_of_last = CANDIDATE_BRPS;
    for (unsigned brp = 0; brp < CANDIDATE_BRPS; brp++)
        for (unsigned quanta = CANDIDATE_QUANTA_LEAST; quanta <= CANDIDATE_QUANTA_MOST; quanta++) {
            int64_t difference = (int64_t)oscillator - (int64_t)rate * 2 * (brp + 1) * quanta;
            int64_t size = difference < 0 ? -difference : difference;
            if (size < r.size) {
                r = (struct candidates){.size = size, .brp = brp, .quanta = quanta};
                brp_of_last = CANDIDATE_BRPS;
            }
            if (size == r.size)
                add_candidate(&r, brp, difference, &brp_of_last);
        }
    return r;
}

bool candidates_none(const struct candidates *r, uint32_t oscillator)
{
    return r->size > (int64_t)(oscillator / 1000);
}

/*
 * A jump width of 1 is sound with any phase 2 that is. CNF2 is lowest with the
 * fewest quanta before the sample point, since phase 1 is above propagation
 * there: half of the bit without the sync quantum, or more where phase 2 would
 * be above 8. Phase 1 gets one of them, unless propagation were above 8.
 */
void candidates_bytes(unsigned brp, unsigned quanta, uint8_t cnf[TIMING_BYTES])
{
    unsigned shared = quanta - 1, before = (shared + 1) / 2;
    if (shared - before > 8)
        before = shared - 8;
    unsigned phase_1 = before > 9 ? before - 8 : 1;
    cnf[0] = (uint8_t)brp;
    cnf[1] = (uint8_t)(0x80 + 8 * (phase_1 - 1) + (before - phase_1 - 1));
    cnf[2] = (uint8_t)(shared - before - 1);
}
