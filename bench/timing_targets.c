#include "timing_targets.h"

#include <stdbool.h>

#include "gen.h"
#include "timing.h"
#include "timing_candidates.h"

static const uint32_t oscillators[] = {8000000,  10000000, 12000000, 16000000, 20000000,
                                       24000000, 40000000, 14745600, 1000000};
static const uint32_t rates[] = {5000,  10000,  20000,  33333,  47619,  50000,  83333,
                                 95238, 100000, 125000, 250000, 500000, 800000, 1000000};
enum { OSCILLATORS = sizeof oscillators / sizeof *oscillators };
enum { RATES = sizeof rates / sizeof *rates };

_Static_assert((int)TARGETS_OF_BOARDS == (int)OSCILLATORS * (int)RATES, "each with each");

struct target target_of_board(unsigned i)
{
    return (struct target){oscillators[i / RATES], rates[i % RATES]};
}

static uint32_t between(uint64_t *dice, uint32_t least, uint32_t most)
{
    return least + (uint32_t)((gen_next(dice) >> 16) % (most - least + 1u));
}

static bool is_asked_for(int64_t oscillator, int64_t rate)
{
    return oscillator >= OSCILLATOR_LEAST && oscillator <= OSCILLATOR_MOST && rate >= RATE_LEAST &&
           rate <= RATE_MOST;
}

/* (BRP + 1) x quanta of some setting: half the clocks of its bit. */
static uint32_t some_half_bit(uint64_t *dice)
{
    return between(dice, 1, CANDIDATE_BRPS) *
           between(dice, CANDIDATE_QUANTA_LEAST, CANDIDATE_QUANTA_MOST);
}

static bool is_half_bit(uint32_t half)
{
    for (uint32_t quanta = CANDIDATE_QUANTA_LEAST; quanta <= CANDIDATE_QUANTA_MOST; quanta++)
        if (half % quanta == 0 && half / quanta <= CANDIDATE_BRPS)
            return true;
    return false;
}

/* A rate, slow ones as often as fast ones. */
static uint32_t some_rate(uint64_t *dice)
{
    uint32_t most = (uint32_t)RATE_LEAST << between(dice, 1, 8);
    return between(dice, RATE_LEAST, most < RATE_MOST ? most : RATE_MOST);
}

/* An oscillator that is off from clocks x rate by at most this. */
static struct target target_near(uint64_t *dice, uint32_t off)
{
    for (;;) {
        uint32_t rate = some_rate(dice), half = some_half_bit(dice);
        int64_t oscillator = 2 * (int64_t)rate * half + between(dice, 0, 2 * off) - off;
        if (is_asked_for(oscillator, rate))
            return (struct target){(uint32_t)oscillator, rate};
    }
}

/* Half bits that are neighbours, from 500 on, where half a clock is within the limit. */
static struct target target_two_brps(uint64_t *dice)
{
    for (;;) {
        uint32_t half = between(dice, 500, CANDIDATE_BRPS * CANDIDATE_QUANTA_MOST - 1);
        uint32_t rate = between(dice, RATE_LEAST, OSCILLATOR_MOST / (2 * half + 1));
        if (is_half_bit(half) && is_half_bit(half + 1))
            return (struct target){rate * (2 * half + 1), rate};
    }
}

/* A BRP just between two numbers of quanta. Others may be nearer, unless it is 0. */
static struct target target_two_quanta(uint64_t *dice)
{
    for (;;) {
        uint32_t brp = between(dice, 0, 3) ? 0 : between(dice, 1, CANDIDATE_BRPS - 1);
        uint32_t fewer = between(dice, CANDIDATE_QUANTA_LEAST, CANDIDATE_QUANTA_MOST - 1);
        uint32_t halves = (brp + 1) * (2 * fewer + 1);
        uint32_t rate = some_rate(dice);
        if (is_asked_for((int64_t)rate * halves, rate))
            return (struct target){rate * halves, rate};
    }
}

/*
 * A setting whose difference has this sign and a size that x 1,000 is the
 * oscillator less more, and that is the nearest there is. Then its bit, rate x
 * clocks, is the oscillator without that difference.
 */
static struct target target_limit(uint64_t *dice, int more)
{
    for (;;) {
        int64_t clocks = 2 * (int64_t)some_half_bit(dice), sign = between(dice, 0, 1) ? 1 : -1;
        int64_t first = between(dice, OSCILLATOR_LEAST / 1000, OSCILLATOR_MOST / 1000);
        for (int64_t size = first; size < first + clocks; size++) {
            int64_t oscillator = 1000 * size + more, bits = oscillator - sign * size;
            if (bits % clocks != 0 || !is_asked_for(oscillator, bits / clocks))
                continue;
            struct target w = {(uint32_t)oscillator, (uint32_t)(bits / clocks)};
            if (candidates_of(w.oscillator, w.rate).size == size)
                return w;
        }
    }
}

struct target target_new(enum target_sort sort, uint64_t *dice)
{
    uint32_t oscillator = between(dice, OSCILLATOR_LEAST, OSCILLATOR_MOST);
    switch (sort) {
    case TARGET_SLOW:
        return (struct target){oscillator, between(dice, RATE_LEAST, 4 * RATE_LEAST)};
    case TARGET_EXACT:
        return target_near(dice, 0);
    case TARGET_NEAR:
        return target_near(dice, 1000);
    case TARGET_TWO_BRPS:
        return target_two_brps(dice);
    case TARGET_TWO_QUANTA:
        return target_two_quanta(dice);
    case TARGET_AT_LIMIT:
        return target_limit(dice, 0);
    case TARGET_WITHIN_LIMIT:
        return target_limit(dice, 1);
    case TARGET_BEYOND_LIMIT:
        return target_limit(dice, -1);
    default:
        return (struct target){oscillator, between(dice, RATE_LEAST, RATE_MOST)};
    }
}
