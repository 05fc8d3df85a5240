/*
 * Tests of the second model of bit timing by itself: the fixed cases, all
 * bytes that there are by their fields, and plans for boards and random targets
 * against the choice in another form. With a second argument, all, also each
 * fixed plan and those for boards by a search through all bytes, which takes a
 * while.
 *
 *   test_timing [seed [all]]
 */
#include <stdio.h>
#include <stdlib.h>
#include <string.h>

#include "cases_timing.h"
#include "timing.h"
#include "timing_candidates.h"
#include "timing_targets.h"

enum { GUARD = 0xA5, BUFFER_BYTES = 80, TARGETS_OF_SORT = 60 };
enum { TRIPLES = 1 << 24 };

static unsigned failures;

#define EXPECT(what, want, got)                                                                    \
    do {                                                                                           \
        long long want_ = (want), got_ = (got);                                                    \
        if (want_ != got_) {                                                                       \
            printf("%s:%d: %s: expected %lld, got %lld\n", __FILE__, __LINE__, what, want_, got_); \
            failures++;                                                                            \
        }                                                                                          \
    } while (0)

/* ---- fixed cases ---- */

static void check_faults(const struct faults_case *c)
{
    EXPECT(c->name, c->faults, timing_faults(c->cnf[0], c->cnf[1], c->cnf[2]));
    EXPECT(c->name, c->faults == 0, timing_sound(c->cnf[0], c->cnf[1], c->cnf[2]));
}

static void check_difference(const struct difference_case *c)
{
    EXPECT(c->name, c->difference,
           timing_difference(c->oscillator, c->rate, c->cnf[0], c->cnf[1], c->cnf[2]));
}

/* The bytes that a plan may write, with many more behind them that must stay. */
static void check_plan(const struct plan_case *c)
{
    uint8_t buffer[BUFFER_BYTES], want[BUFFER_BYTES];
    memset(buffer, GUARD, sizeof buffer);
    memset(want, GUARD, sizeof want);
    if (c->result == TIMING_BYTES)
        memcpy(want, c->cnf, TIMING_BYTES);
    EXPECT(c->name, c->result, timing_plan(c->oscillator, c->rate, c->room, buffer));
    for (unsigned i = 0; i < sizeof buffer; i++)
        EXPECT(c->name, want[i], buffer[i]);
}

/* ---- all bytes, from their fields ---- */

struct fields {
    unsigned brp, jump, propagation, phase_1, phase_2, btlmode, sam, spare, sof_and_wakfil;
};

static unsigned take(unsigned *rest, unsigned values)
{
    unsigned value = *rest % values;
    *rest /= values;
    return value;
}

/* Each combination there is has a number below TRIPLES. */
static struct fields fields_at(unsigned number)
{
    struct fields f;
    f.brp = take(&number, 64);
    f.jump = 1 + take(&number, 4);
    f.propagation = 1 + take(&number, 8);
    f.phase_1 = 1 + take(&number, 8);
    f.phase_2 = 1 + take(&number, 8);
    f.btlmode = take(&number, 2);
    f.sam = take(&number, 2);
    f.spare = take(&number, 8);
    f.sof_and_wakfil = take(&number, 4);
    return f;
}

static void bytes_of(const struct fields *f, uint8_t cnf[TIMING_BYTES])
{
    cnf[0] = (uint8_t)(64 * (f->jump - 1) + f->brp);
    cnf[1] = (uint8_t)(128 * f->btlmode + 64 * f->sam + 8 * (f->phase_1 - 1) + f->propagation - 1);
    cnf[2] = (uint8_t)(64 * f->sof_and_wakfil + 8 * f->spare + f->phase_2 - 1);
}

static unsigned faults_of(const struct fields *f)
{
    unsigned before = f->propagation + f->phase_1, quanta = before + f->phase_2 + 1;
    return (f->btlmode ? 0 : 0x01) | (f->spare ? 0x02 : 0) | (f->phase_2 >= 2 ? 0 : 0x04) |
           (before >= f->phase_2 ? 0 : 0x08) | (f->phase_2 > f->jump ? 0 : 0x10) |
           (quanta >= 8 && quanta <= 25 ? 0 : 0x20);
}

static int64_t difference_of(uint32_t oscillator, uint32_t rate, const struct fields *f)
{
    int64_t quanta = 1 + f->propagation + f->phase_1 + f->phase_2;
    return oscillator - 2 * quanta * (f->brp + 1) * rate;
}

/* Returns how many are sound. The first that is not as it should be ends it. */
static unsigned test_every_triple(void)
{
    enum { OSCILLATOR = 19999999, RATE = 130003 };
    unsigned sound = 0, failed = failures;
    for (unsigned i = 0; i < TRIPLES && failures == failed; i++) {
        struct fields f = fields_at(i);
        uint8_t cnf[TIMING_BYTES];
        bytes_of(&f, cnf);
        EXPECT("faults of some bytes", faults_of(&f), timing_faults(cnf[0], cnf[1], cnf[2]));
        EXPECT("some bytes sound", faults_of(&f) == 0, timing_sound(cnf[0], cnf[1], cnf[2]));
        EXPECT("difference of some bytes", difference_of(OSCILLATOR, RATE, &f),
               timing_difference(OSCILLATOR, RATE, cnf[0], cnf[1], cnf[2]));
        sound += faults_of(&f) == 0;
    }
    EXPECT("settings of a plan: an eighth, without SAM, SOF and WAKFIL", sound / 8,
           timing_settings());
    return sound;
}

/* ---- plans, in another form ---- */

static unsigned plans_made;

static void check_target(struct target w)
{
    struct candidates r = candidates_of(w.oscillator, w.rate);
    bool none = candidates_none(&r, w.oscillator);
    char name[64];
    struct plan_case c = {name, w.oscillator, w.rate, TIMING_BYTES, 0, {0}};
    snprintf(name, sizeof name, "plan for %u at %u", (unsigned)w.oscillator, (unsigned)w.rate);
    c.result = none ? 0 : TIMING_BYTES;
    candidates_bytes(r.brp, r.quanta, c.cnf);
    check_plan(&c);
    EXPECT("a tie of one BRP that is taken", 0, r.of_one_brp && !none);
    plans_made++;
}

/* What the random targets of a sort are for. */
static bool is_of_sort(enum target_sort sort, struct target w)
{
    struct candidates r = candidates_of(w.oscillator, w.rate);
    int64_t beyond = 1000 * r.size - w.oscillator;
    switch (sort) {
    case TARGET_EXACT:
        return r.size == 0;
    case TARGET_TWO_BRPS:
        return r.brps > 1 && r.above && r.below && beyond <= 0;
    case TARGET_TWO_QUANTA:
        return r.of_one_brp;
    case TARGET_AT_LIMIT:
        return beyond == 0;
    case TARGET_WITHIN_LIMIT:
        return beyond == -1;
    case TARGET_BEYOND_LIMIT:
        return beyond == 1;
    default:
        return true;
    }
}

static void test_plans(uint64_t dice)
{
    for (unsigned i = 0; i < TARGETS_OF_BOARDS; i++)
        check_target(target_of_board(i));
    for (unsigned sort = 0; sort < TARGET_SORTS; sort++) {
        unsigned met = 0;
        for (unsigned i = 0; i < TARGETS_OF_SORT; i++) {
            struct target w = target_new(sort, &dice);
            check_target(w);
            met += is_of_sort(sort, w);
        }
        EXPECT("most targets of a sort are of it", true, met > TARGETS_OF_SORT / 2);
    }
}

/* ---- plans by a search through all bytes ---- */

static uint8_t cnf_of(unsigned triple, unsigned i)
{
    return (uint8_t)(triple >> (16 - 8 * i));
}

static int64_t size_of_triple(uint32_t oscillator, uint32_t rate, unsigned triple)
{
    return llabs(timing_difference(oscillator, rate, cnf_of(triple, 0), cnf_of(triple, 1),
                                   cnf_of(triple, 2)));
}

/* The smallest size of any sound bytes, whatever SAM, SOF and WAKFIL are. */
static int64_t smallest_size(uint32_t oscillator, uint32_t rate, const bool *sound)
{
    int64_t smallest = INT64_MAX;
    for (unsigned t = 0; t < TRIPLES; t++)
        if (sound[t] && size_of_triple(oscillator, rate, t) < smallest)
            smallest = size_of_triple(oscillator, rate, t);
    return smallest;
}

/* Of those with this size and SAM, SOF and WAKFIL 0 the one with the lowest BRP, then the
 * lowest bytes. */
static unsigned lowest_triple(uint32_t oscillator, uint32_t rate, const bool *sound, int64_t size)
{
    unsigned long long lowest = UINT64_MAX;
    for (unsigned t = 0; t < TRIPLES; t++) {
        unsigned long long brp = cnf_of(t, 0) % 64, key = brp << 24 | t;
        bool others = cnf_of(t, 1) & 0x40 || cnf_of(t, 2) & 0xC0;
        if (sound[t] && !others && key < lowest && size_of_triple(oscillator, rate, t) == size)
            lowest = key;
    }
    return (unsigned)(lowest % TRIPLES);
}

static bool *sound_triples;
static unsigned plans_searched;

static void search_plan(const struct plan_case *c)
{
    uint8_t cnf[TIMING_BYTES] = {0};
    if (c->result < 0 || c->room != TIMING_BYTES)
        return;
    int64_t size = smallest_size(c->oscillator, c->rate, sound_triples);
    unsigned lowest = lowest_triple(c->oscillator, c->rate, sound_triples, size);
    EXPECT(c->name, c->result, size * 1000 <= c->oscillator ? TIMING_BYTES : 0);
    EXPECT(c->name, c->result, timing_plan(c->oscillator, c->rate, c->room, cnf));
    for (unsigned i = 0; c->result == TIMING_BYTES && i < TIMING_BYTES; i++) {
        EXPECT(c->name, c->cnf[i], cnf_of(lowest, i));
        EXPECT(c->name, cnf_of(lowest, i), cnf[i]);
    }
    plans_searched++;
}

static void ignore_faults(const struct faults_case *c)
{
    (void)c;
}

static void ignore_difference(const struct difference_case *c)
{
    (void)c;
}

static void search_all(void)
{
    static const struct timing_checks checks = {ignore_faults, ignore_difference, search_plan};
    sound_triples = malloc(TRIPLES * sizeof *sound_triples);
    if (sound_triples == NULL) {
        fprintf(stderr, "no memory for all bytes\n");
        exit(1);
    }
    for (unsigned t = 0; t < TRIPLES; t++)
        sound_triples[t] = timing_sound(cnf_of(t, 0), cnf_of(t, 1), cnf_of(t, 2));
    timing_cases(&checks);
    for (unsigned i = 0; i < TARGETS_OF_BOARDS; i++) {
        struct target w = target_of_board(i);
        struct plan_case c = {"plan for a board", w.oscillator, w.rate, TIMING_BYTES, 0, {0}};
        c.result = timing_plan(w.oscillator, w.rate, TIMING_BYTES, c.cnf);
        search_plan(&c);
    }
    free(sound_triples);
    printf("bit timing: %u plans by a search through all bytes\n", plans_searched);
}

int main(int argc, char **argv)
{
    static const struct timing_checks checks = {check_faults, check_difference, check_plan};
    uint64_t seed = argc > 1 ? strtoull(argv[1], NULL, 0) : 2515;
    size_t cases = timing_cases(&checks);
    unsigned sound = test_every_triple();
    test_plans(seed);
    if (argc > 2 && strcmp(argv[2], "all") == 0)
        search_all();
    if (failures) {
        printf("%u failures\n", failures);
        return 1;
    }
    printf("bit timing, seed %llu: %zu fixed cases, %d triples of bytes (%u sound) and %u plans "
           "agree\n",
           (unsigned long long)seed, cases, TRIPLES, sound, plans_made);
    return 0;
}
