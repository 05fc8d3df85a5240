#include "timing.h"

enum { BTLMODE = 0x80, SAM = 0x40 };                      /* CNF2 */
enum { SOF = 0x80, WAKFIL = 0x40, SPARE_OF_CNF3 = 0x38 }; /* CNF3 */

enum { SYNC_QUANTA = 1, PHASE_2_LEAST = 2, QUANTA_LEAST = 8, QUANTA_MOST = 25 };

/* Every BRP, jump width, phase 1, propagation and phase 2: more cannot be sound. */
enum { SETTINGS_MOST = 64 * 4 * 8 * 8 * 8 };

/* ---- the fields ---- */

static unsigned jump_width(uint8_t cnf1)
{
    return (cnf1 >> 6) + 1u;
}

static unsigned prescaler(uint8_t cnf1)
{
    return cnf1 & 0x3Fu;
}

static unsigned phase_1(uint8_t cnf2)
{
    return (cnf2 >> 3 & 7) + 1u;
}

static unsigned propagation(uint8_t cnf2)
{
    return (cnf2 & 7) + 1u;
}

static unsigned phase_2(uint8_t cnf3)
{
    return (cnf3 & 7) + 1u;
}

static unsigned quanta_of_bit(uint8_t cnf2, uint8_t cnf3)
{
    return SYNC_QUANTA + propagation(cnf2) + phase_1(cnf2) + phase_2(cnf3);
}

/* ---- sound or not, and how far off ---- */

unsigned timing_faults(uint8_t cnf1, uint8_t cnf2, uint8_t cnf3)
{
    unsigned quanta = quanta_of_bit(cnf2, cnf3), faults = 0;
    if (!(cnf2 & BTLMODE))
        faults |= FAULT_BTLMODE;
    if (cnf3 & SPARE_OF_CNF3)
        faults |= FAULT_SPARE;
    if (phase_2(cnf3) < PHASE_2_LEAST)
        faults |= FAULT_PS2;
    if (propagation(cnf2) + phase_1(cnf2) < phase_2(cnf3))
        faults |= FAULT_PROPSEG_PS1;
    if (phase_2(cnf3) <= jump_width(cnf1))
        faults |= FAULT_SJW;
    if (quanta < QUANTA_LEAST || quanta > QUANTA_MOST)
        faults |= FAULT_QUANTA;
    return faults;
}

bool timing_sound(uint8_t cnf1, uint8_t cnf2, uint8_t cnf3)
{
    return timing_faults(cnf1, cnf2, cnf3) == 0;
}

int64_t timing_difference(uint32_t oscillator, uint32_t rate, uint8_t cnf1, uint8_t cnf2,
                          uint8_t cnf3)
{
    int64_t clocks_of_quantum = 2 * ((int64_t)prescaler(cnf1) + 1);
    int64_t clocks_of_bit = clocks_of_quantum * quanta_of_bit(cnf2, cnf3);
    return oscillator - rate * clocks_of_bit;
}

/* ---- planning ---- */

struct setting {
    uint8_t cnf1, cnf2, cnf3;
};

static struct setting settings[SETTINGS_MOST];
static size_t settings_found;

/* All bytes are asked, once: a plan needs them all, and most are not sound. */
static void find_settings(void)
{
    for (unsigned cnf1 = 0; cnf1 < 256; cnf1++)
        for (unsigned cnf2 = 0; cnf2 < 256; cnf2++)
            for (unsigned cnf3 = 0; cnf3 < 256; cnf3++) {
                struct setting s = {(uint8_t)cnf1, (uint8_t)cnf2, (uint8_t)cnf3};
                if ((cnf2 & SAM) || (cnf3 & (SOF | WAKFIL)))
                    continue;
                if (timing_sound(s.cnf1, s.cnf2, s.cnf3))
                    settings[settings_found++] = s;
            }
}

size_t timing_settings(void)
{
    if (settings_found == 0)
        find_settings();
    return settings_found;
}

static uint64_t size_of_difference(uint32_t oscillator, uint32_t rate, const struct setting *s)
{
    int64_t difference = timing_difference(oscillator, rate, s->cnf1, s->cnf2, s->cnf3);
    return (uint64_t)(difference < 0 ? -difference : difference);
}

/* Of two settings with differences of these sizes, a is taken rather than b. */
static bool is_better(uint64_t size_of_a, const struct setting *a, uint64_t size_of_b,
                      const struct setting *b)
{
    if (size_of_a != size_of_b)
        return size_of_a < size_of_b;
    if (prescaler(a->cnf1) != prescaler(b->cnf1))
        return prescaler(a->cnf1) < prescaler(b->cnf1);
    if (a->cnf1 != b->cnf1)
        return a->cnf1 < b->cnf1;
    if (a->cnf2 != b->cnf2)
        return a->cnf2 < b->cnf2;
    return a->cnf3 < b->cnf3;
}

/* The one taken, whatever the size of its difference, which is told. */
static struct setting best_setting(uint32_t oscillator, uint32_t rate, uint64_t *size)
{
    struct setting best = {0, 0, 0};
    for (size_t i = 0; i < timing_settings(); i++) {
        uint64_t other = size_of_difference(oscillator, rate, &settings[i]);
        if (i > 0 && !is_better(other, &settings[i], *size, &best))
            continue;
        best = settings[i];
        *size = other;
    }
    return best;
}

int64_t timing_plan(uint32_t oscillator, uint32_t rate, size_t room, uint8_t *cnf)
{
    uint64_t size = 0;
    if (oscillator < OSCILLATOR_LEAST || oscillator > OSCILLATOR_MOST)
        return -REFUSED_OSCILLATOR;
    if (rate < RATE_LEAST || rate > RATE_MOST)
        return -REFUSED_RATE;
    if (room < TIMING_BYTES)
        return -REFUSED_SHORT;
    struct setting best = best_setting(oscillator, rate, &size);
    if (size * 1000 > oscillator)
        return 0;
    cnf[0] = best.cnf1;
    cnf[1] = best.cnf2;
    cnf[2] = best.cnf3;
    return TIMING_BYTES;
}
