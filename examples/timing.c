/*
 * Bit timing for a board with an odd crystal: CNF1 to CNF3 are planned, written
 * to a chip in Configuration, as it is after power-on, and read back. Three bytes
 * that somebody else proposed are checked.
 */
#include <stdio.h>

#include "mcp2515.h"

enum { CHIP = MCP2515_CHIP_SIZE, RECORD = MCP2515_RECORD_SIZE, CNF = MCP2515_TIMING_SIZE };
enum { WRITE = 0x02, ADDRESS_CNF3 = 0x28 }; /* CNF2 and CNF1 come behind it */

/* One session: 02h, the address, then a byte for each address on. */
static void write_cnf(uint8_t *chip, const uint8_t *cnf)
{
    const uint8_t records[7][RECORD] = {
        {0}, {1, WRITE}, {1, ADDRESS_CNF3}, {1, cnf[2]}, {1, cnf[1]}, {1, cnf[0]}, {2},
    };
    uint8_t answers[7 * MCP2515_ANSWER_SIZE];
    mcp2515_run_from(chip, CHIP, (const uint8_t *)records, sizeof records, answers,
                     sizeof answers);
}

static int shows(const uint8_t *chip, const uint8_t *cnf)
{
    for (uint8_t i = 0; i < CNF; i++)
        if (mcp2515_read(chip, CHIP, ADDRESS_CNF3 + i) != cnf[CNF - 1 - i])
            return 0;
    return 1;
}

static int fail(const char *what)
{
    fprintf(stderr, "%s\n", what);
    return 1;
}

int main(void)
{
    const uint32_t oscillator = 14745600, rate = 115200;
    uint8_t chip[CHIP], cnf[CNF];

    if (mcp2515_plan_timing(oscillator, rate, cnf, sizeof cnf) != CNF)
        return fail("no setting is planned");
    printf("%lu Hz, %lu bit/s: CNF1 %02Xh, CNF2 %02Xh, CNF3 %02Xh, difference %lld\n",
           (unsigned long)oscillator, (unsigned long)rate, cnf[0], cnf[1], cnf[2],
           (long long)mcp2515_timing_difference(oscillator, rate, cnf[0], cnf[1], cnf[2]));
    if (mcp2515_check_timing(cnf[0], cnf[1], cnf[2]) != 1)
        return fail("the planned setting is not sound");

    mcp2515_power_on(chip, sizeof chip);
    write_cnf(chip, cnf);
    if (!shows(chip, cnf))
        return fail("the chip does not hold the setting");
    printf("the chip holds it\n");

    /* A bit of 1 + 2 + 2 + 2 quanta, and a jump width of 2. */
    if (mcp2515_timing_faults(0x40, 0x89, 0x01) != (MCP2515_FAULT_SJW | MCP2515_FAULT_QUANTA))
        return fail("the faults are not as expected");
    printf("40h, 89h, 01h: PS2 is not longer than the jump width, and a bit has too few quanta\n");
    return 0;
}
