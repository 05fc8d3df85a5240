/*
 * Bit timing by hand. Bytes stand as they are in the registers; what their
 * fields say is beside them, in quanta: propagation + phase 1 + phase 2, jump
 * width 1 where nothing is said.
 */
#include "cases_timing.h"

#define COUNT(list) (sizeof(list) / sizeof *(list))

/* ---- sound or not: each rule kept and broken at its edge ---- */

static const struct faults_case faults_table[] = {
    /* The data sheet's example (5.5): BRP 4, 2 + 7 + 6, 16 quanta, any jump width. */
    {"data sheet, jump width 1", {0x04, 0xB1, 0x05}, 0},
    {"data sheet, jump width 2", {0x44, 0xB1, 0x05}, 0},
    {"data sheet, jump width 3", {0x84, 0xB1, 0x05}, 0},
    {"data sheet, jump width 4", {0xC4, 0xB1, 0x05}, 0},

    {"BTLMODE set, 7 + 1 + 7", {0x00, 0x86, 0x06}, 0},
    {"BTLMODE clear, 7 + 1 + 7", {0x00, 0x06, 0x06}, FAULT_BTLMODE},
    {"BTLMODE clear, SAM set", {0x00, 0x46, 0x06}, FAULT_BTLMODE},
    {"CNF3 bit 3", {0x00, 0x86, 0x0E}, FAULT_SPARE},
    {"CNF3 bit 4", {0x00, 0x86, 0x16}, FAULT_SPARE},
    {"CNF3 bit 5", {0x00, 0x86, 0x26}, FAULT_SPARE},
    {"CNF3 bits 5-3", {0x00, 0x86, 0x3E}, FAULT_SPARE},
    {"SAM", {0x00, 0xC6, 0x06}, 0},
    {"WAKFIL", {0x00, 0x86, 0x46}, 0},
    {"SOF", {0x00, 0x86, 0x86}, 0},
    {"SAM, WAKFIL, SOF", {0x00, 0xC6, 0xC6}, 0},
    {"WAKFIL, SOF, CNF3 bit 5", {0x00, 0x86, 0xE6}, FAULT_SPARE},
    {"BRP 63", {0x3F, 0x86, 0x06}, 0},

    /* Phase 2 of 1 is not longer than any jump width: that rule is always broken with it. */
    {"phase 2 of 1, 8 + 8 + 1", {0x00, 0xBF, 0x00}, FAULT_PS2 | FAULT_SJW},
    {"phase 2 of 2, 8 + 8 + 2", {0x00, 0xBF, 0x01}, 0},
    {"phase 2 of 1, jump width 4", {0xC0, 0xBF, 0x00}, FAULT_PS2 | FAULT_SJW},
    {"phase 2 of 2, jump width 2", {0x40, 0xBF, 0x01}, FAULT_SJW},
    {"phase 2 of 3, jump width 2", {0x40, 0xBF, 0x02}, 0},
    {"phase 2 of 3, jump width 3", {0x80, 0xBF, 0x02}, FAULT_SJW},
    {"phase 2 of 4, jump width 3", {0x80, 0xBF, 0x03}, 0},
    {"phase 2 of 2, jump width 4", {0xC0, 0xBF, 0x01}, FAULT_SJW},
    {"phase 2 of 4, jump width 4", {0xC0, 0xBF, 0x03}, FAULT_SJW},
    {"phase 2 of 5, jump width 4", {0xC0, 0xBF, 0x04}, 0},
    {"phase 2 of 4, jump width 4, BRP 63", {0xFF, 0xBF, 0x03}, FAULT_SJW},

    {"4 + 4 = 8", {0x00, 0x9B, 0x07}, 0},
    {"3 + 4 < 8", {0x00, 0x9A, 0x07}, FAULT_PROPSEG_PS1},
    {"4 + 3 < 8", {0x00, 0x93, 0x07}, FAULT_PROPSEG_PS1},
    {"7 + 1 = 8", {0x00, 0x86, 0x07}, 0},
    {"6 + 1 < 8", {0x00, 0x85, 0x07}, FAULT_PROPSEG_PS1},
    {"1 + 7 = 8", {0x00, 0xB0, 0x07}, 0},
    {"1 + 6 < 8", {0x00, 0xA8, 0x07}, FAULT_PROPSEG_PS1},
    {"2 + 2 = 4", {0x00, 0x89, 0x03}, 0},
    {"2 + 2 < 5", {0x00, 0x89, 0x04}, FAULT_PROPSEG_PS1},

    {"7 quanta, 3 + 1 + 2", {0x00, 0x82, 0x01}, FAULT_QUANTA},
    {"7 quanta, 1 + 3 + 2", {0x00, 0x90, 0x01}, FAULT_QUANTA},
    {"7 quanta, 2 + 1 + 3", {0x00, 0x81, 0x02}, FAULT_QUANTA},
    {"8 quanta, 4 + 1 + 2", {0x00, 0x83, 0x01}, 0},
    {"8 quanta, 3 + 2 + 2", {0x00, 0x8A, 0x01}, 0},
    {"8 quanta, 3 + 1 + 3", {0x00, 0x82, 0x02}, 0},
    {"9 quanta, 3 + 1 + 4", {0x00, 0x82, 0x03}, 0},
    {"24 quanta, 7 + 8 + 8", {0x00, 0xBE, 0x07}, 0},
    {"24 quanta, 8 + 7 + 8", {0x00, 0xB7, 0x07}, 0},
    {"25 quanta, 8 + 8 + 8, the most there are", {0x00, 0xBF, 0x07}, 0},
    {"25 quanta, jump width 4", {0xC0, 0xBF, 0x07}, 0},
    {"5 quanta, 1 + 1 + 2", {0x00, 0x80, 0x01}, FAULT_QUANTA},
    {"6 quanta, 1 + 1 < 3", {0x00, 0x80, 0x02}, FAULT_PROPSEG_PS1 | FAULT_QUANTA},

    {"no bit at all",
     {0x00, 0x00, 0x00},
     FAULT_BTLMODE | FAULT_PS2 | FAULT_SJW | FAULT_QUANTA},
    {"every bit", {0xFF, 0xFF, 0xFF}, FAULT_SPARE},
    {"all rules but phase 2: 1 + 1 + 3, jump width 4",
     {0xC0, 0x00, 0x3A},
     FAULT_BTLMODE | FAULT_SPARE | FAULT_PROPSEG_PS1 | FAULT_SJW | FAULT_QUANTA},
};

/* ---- how far off ---- */

static const struct difference_case difference_table[] = {
    {"data sheet: 160 clocks", 20000000, 125000, {0x04, 0xB1, 0x05}, 0},
    {"a clock more", 20000001, 125000, {0x04, 0xB1, 0x05}, 1},
    {"a clock less", 19999999, 125000, {0x04, 0xB1, 0x05}, -1},
    {"a bit less", 20000000, 124999, {0x04, 0xB1, 0x05}, 160},
    {"a bit more", 20000000, 125001, {0x04, 0xB1, 0x05}, -160},
    {"16 MHz at 500,000: 32 clocks", 16000000, 500000, {0x00, 0x86, 0x06}, 0},
    {"not sound, by its fields", 20000000, 125000, {0xC4, 0x31, 0x3D}, 0},

    {"nothing", 0, 0, {0x00, 0x00, 0x00}, 0},
    {"no rate", 0xFFFFFFFF, 0, {0x3F, 0xBF, 0x07}, 4294967295},
    {"no oscillator, the longest bit", 0, 0xFFFFFFFF, {0x3F, 0xBF, 0x07}, -13743895344000},
    {"both largest, the longest bit", 0xFFFFFFFF, 0xFFFFFFFF, {0xFF, 0xFF, 0xFF}, -13739600376705},
    {"both largest, the shortest bit", 0xFFFFFFFF, 0xFFFFFFFF, {0x00, 0x00, 0x00}, -30064771065},
    {"2^29 x 8", 0, 536870912, {0x00, 0x00, 0x00}, -4294967296},
    {"2^32 - 8 is (2^29 - 1) x 8", 4294967288, 536870911, {0x00, 0x00, 0x00}, 0},
    {"2^31 is 2^28 x 8", 2147483648, 268435456, {0x00, 0x00, 0x00}, 0},

    /* Four quanta of two clocks, and each bit of the three bytes by itself. */
    {"no bit", 0, 1, {0x00, 0x00, 0x00}, -8},
    {"BRP bit 0", 0, 1, {0x01, 0x00, 0x00}, -16},
    {"BRP bit 1", 0, 1, {0x02, 0x00, 0x00}, -24},
    {"BRP bit 2", 0, 1, {0x04, 0x00, 0x00}, -40},
    {"BRP bit 3", 0, 1, {0x08, 0x00, 0x00}, -72},
    {"BRP bit 4", 0, 1, {0x10, 0x00, 0x00}, -136},
    {"BRP bit 5", 0, 1, {0x20, 0x00, 0x00}, -264},
    {"SJW bit 0", 0, 1, {0x40, 0x00, 0x00}, -8},
    {"SJW bit 1", 0, 1, {0x80, 0x00, 0x00}, -8},
    {"propagation bit 0", 0, 1, {0x00, 0x01, 0x00}, -10},
    {"propagation bit 1", 0, 1, {0x00, 0x02, 0x00}, -12},
    {"propagation bit 2", 0, 1, {0x00, 0x04, 0x00}, -16},
    {"phase 1 bit 0", 0, 1, {0x00, 0x08, 0x00}, -10},
    {"phase 1 bit 1", 0, 1, {0x00, 0x10, 0x00}, -12},
    {"phase 1 bit 2", 0, 1, {0x00, 0x20, 0x00}, -16},
    {"SAM", 0, 1, {0x00, 0x40, 0x00}, -8},
    {"BTLMODE", 0, 1, {0x00, 0x80, 0x00}, -8},
    {"phase 2 bit 0", 0, 1, {0x00, 0x00, 0x01}, -10},
    {"phase 2 bit 1", 0, 1, {0x00, 0x00, 0x02}, -12},
    {"phase 2 bit 2", 0, 1, {0x00, 0x00, 0x04}, -16},
    {"CNF3 bit 3", 0, 1, {0x00, 0x00, 0x08}, -8},
    {"CNF3 bit 4", 0, 1, {0x00, 0x00, 0x10}, -8},
    {"CNF3 bit 5", 0, 1, {0x00, 0x00, 0x20}, -8},
    {"WAKFIL", 0, 1, {0x00, 0x00, 0x40}, -8},
    {"SOF", 0, 1, {0x00, 0x00, 0x80}, -8},
    {"every bit", 0, 1, {0xFF, 0xFF, 0xFF}, -3200},
    /* With BTLMODE clear too phase 2 is what CNF3 says, not the longer of phase 1 and 2. */
    {"BTLMODE clear, 1 + 8 + 1", 0, 1, {0x00, 0x38, 0x00}, -22},
};

/* ---- plans ---- */

enum { ROOM = TIMING_BYTES, SHORT = ROOM - 1 };

static const struct plan_case plan_table[] = {
    /*
     * 32 clocks a bit are BRP 0 with 16 quanta, or BRP 1 with 8: the lower BRP. Jump width 1
     * makes CNF1 lowest. 15 quanta are to be shared: phase 1, which is the higher part of CNF2,
     * gets 1; then propagation, the lower part, gets as few as it can: phase 2 must not be
     * longer than both, so 7 (7 + 1 >= 7, and 6 + 1 < 8).
     */
    {"16 MHz at 500,000", 16000000, 500000, ROOM, 3, {0x00, 0x86, 0x06}},
    {"16 MHz at 125,000", 16000000, 125000, ROOM, 3, {0x03, 0x86, 0x06}},
    /* The data sheet has BRP 4 with 16 quanta. */
    {"20 MHz at 125,000", 20000000, 125000, ROOM, 3, {0x03, 0x97, 0x07}},
    {"1 MHz at 5,000", 1000000, 5000, ROOM, 3, {0x03, 0xBF, 0x07}},
    {"40 MHz at 1,000,000", 40000000, 1000000, ROOM, 3, {0x00, 0x97, 0x07}},
    {"the longest bit: 16 MHz at 5,000", 16000000, 5000, ROOM, 3, {0x3F, 0xBF, 0x07}},
    {"the shortest bit: 16 MHz at 1,000,000", 16000000, 1000000, ROOM, 3, {0x00, 0x82, 0x02}},
    {"40 MHz at 5,000: no bit is so long", 40000000, 5000, ROOM, 0, {0}},
    {"1 MHz at 1,000,000: no bit is so short", 1000000, 1000000, ROOM, 0, {0}},

    /* Two BRPs with the same size, which is not 0: 90 clocks are 3 x 15 quanta or 5 x 9. */
    {"two BRPs, both above", 1000000, 11100, ROOM, 3, {0x02, 0x85, 0x06}},
    /* 1,025 clocks less 1,024 (64 x 8, 32 x 16) or 1,026 (57 x 9, 27 x 19): BRP 26, below. */
    {"two BRPs, the lowest below", 5125000, 5000, ROOM, 3, {0x1A, 0x8F, 0x07}},
    /* 1,013 clocks less 1,012 (46 x 11, 22 x 23) or 1,014 (39 x 13): BRP 21, above. */
    {"two BRPs, the lowest above", 5065000, 5000, ROOM, 3, {0x15, 0xAF, 0x07}},
    /*
     * Two quanta of one BRP, +d and -d: d is rate x (BRP + 1), the oscillator (2 x quanta + 1)
     * times that. d x 1,000 is at most the oscillator from 500 quanta on: always none.
     */
    {"17 clocks: 8 or 9 quanta of BRP 0", 17000000, 1000000, ROOM, 0, {0}},
    {"35 clocks: 17 or 18 quanta of BRP 0, 9 of BRP 1", 17500000, 500000, ROOM, 0, {0}},

    /* 22 x 45,500 is 1,001,000 and 18 x 55,500 is 999,000. */
    {"at the limit, below", 1000000, 45500, ROOM, 3, {0x00, 0x83, 0x04}},
    {"at the limit, above", 1000000, 55500, ROOM, 3, {0x00, 0x82, 0x03}},
    /* 18 x 55,778 is 1,004,004 and 16 x 62,500 is 1,000,000. */
    {"one within the limit, below", 1003001, 55778, ROOM, 3, {0x00, 0x82, 0x03}},
    {"one within the limit, above", 1001001, 62500, ROOM, 3, {0x00, 0x82, 0x02}},
    /* 16 x 62,625 is 1,002,000 and 26 x 38,692 is 1,005,992. */
    {"one beyond the limit, below", 1000999, 62625, ROOM, 0, {0}},
    {"one beyond the limit, above", 1006999, 38692, ROOM, 0, {0}},
    /* 4,294,968 off, x 1,000 it is 704 more than 2^32: from 16,000,000 up and down. */
    {"far beyond the limit, above", 20294968, 5000, ROOM, 0, {0}},
    {"far beyond the limit, below", 11705032, 1000000, ROOM, 0, {0}},
    /* 1,476 clocks (41 x 18 quanta) for 1,474.56, and 120 for 117.96. */
    {"14.7456 MHz at 10,000", 14745600, 10000, ROOM, 3, {0x28, 0x87, 0x07}},
    {"14.7456 MHz at 125,000", 14745600, 125000, ROOM, 0, {0}},

    {"oscillator 0", 0, 500000, ROOM, -12, {0}},
    {"oscillator 999,999", 999999, 5000, ROOM, -12, {0}},
    {"oscillator 40,000,001", 40000001, 1000000, ROOM, -12, {0}},
    {"oscillator 2^32 - 1", 0xFFFFFFFF, 1000000, ROOM, -12, {0}},
    {"rate 0", 1000000, 0, ROOM, -13, {0}},
    {"rate 4,999", 1000000, 4999, ROOM, -13, {0}},
    {"rate 1,000,001", 40000000, 1000001, ROOM, -13, {0}},
    {"rate 2^32 - 1", 40000000, 0xFFFFFFFF, ROOM, -13, {0}},
    {"room for two", 16000000, 500000, SHORT, -19, {0}},
    {"room for one", 16000000, 500000, 1, -19, {0}},
    {"no room", 16000000, 500000, 0, -19, {0}},
    {"room for one more", 16000000, 500000, ROOM + 1, 3, {0x00, 0x86, 0x06}},
    {"room for many more", 16000000, 500000, 64, 3, {0x00, 0x86, 0x06}},
    {"none, room for many more", 40000000, 5000, 64, 0, {0}},
    {"none, and no room for it", 40000000, 5000, SHORT, -19, {0}},
    {"oscillator before rate", 999999, 4999, ROOM, -12, {0}},
    {"oscillator before rate, the largest", 0xFFFFFFFF, 0xFFFFFFFF, ROOM, -12, {0}},
    {"oscillator before room", 40000001, 500000, SHORT, -12, {0}},
    {"rate before room", 16000000, 1000001, SHORT, -13, {0}},
    {"oscillator before rate before room", 0, 0, 0, -12, {0}},
};

/* CNF2 and CNF3 for 8 to 25 quanta, shared as in the first plan. From 19 on propagation has its
 * 8, phase 2 as well, and the rest is phase 1. */
static const uint8_t by_quanta[][2] = {
    {0x82, 0x02}, {0x82, 0x03}, {0x83, 0x03}, {0x83, 0x04}, {0x84, 0x04}, {0x84, 0x05},
    {0x85, 0x05}, {0x85, 0x06}, {0x86, 0x06}, {0x86, 0x07}, {0x87, 0x07}, {0x8F, 0x07},
    {0x97, 0x07}, {0x9F, 0x07}, {0xA7, 0x07}, {0xAF, 0x07}, {0xB7, 0x07}, {0xBF, 0x07},
};

/* BRP 0 has every number of quanta. */
static size_t plan_every_quanta(const struct timing_checks *checks)
{
    for (uint32_t i = 0; i < COUNT(by_quanta); i++) {
        struct plan_case c = {"every number of quanta", 200000 * (8 + i), 100000, ROOM, 3, {0}};
        c.cnf[1] = by_quanta[i][0];
        c.cnf[2] = by_quanta[i][1];
        checks->plan(&c);
    }
    return COUNT(by_quanta);
}

/* With 25 quanta, as there are no more, a lower BRP does not make the same bit. */
static size_t plan_every_brp(const struct timing_checks *checks)
{
    for (uint32_t brp = 0; brp < 64; brp++) {
        uint32_t rate = brp < 3 ? 20000 : 5000, oscillator = rate * 2 * (brp + 1) * 25;
        struct plan_case c = {"every BRP", oscillator, rate, ROOM, 3, {0x00, 0xBF, 0x07}};
        c.cnf[0] = (uint8_t)brp;
        checks->plan(&c);
    }
    return 64;
}

size_t timing_cases(const struct timing_checks *checks)
{
    for (size_t i = 0; i < COUNT(faults_table); i++)
        checks->faults(&faults_table[i]);
    for (size_t i = 0; i < COUNT(difference_table); i++)
        checks->difference(&difference_table[i]);
    for (size_t i = 0; i < COUNT(plan_table); i++)
        checks->plan(&plan_table[i]);
    return COUNT(faults_table) + COUNT(difference_table) + COUNT(plan_table) +
           plan_every_quanta(checks) + plan_every_brp(checks);
}
