/*
 * Bit timing, the second model: what the bytes of CNF1, CNF2 and CNF3 say,
 * which of them are sound, how far a bit rate is off with them, and which of
 * them to take. Written from the rules alone, and as plainly as they are told: a
 * plan looks at every sound setting there is.
 */
#ifndef BENCH_TIMING_H
#define BENCH_TIMING_H

#include <stdbool.h>
#include <stddef.h>
#include <stdint.h>

enum { TIMING_BYTES = 3 }; /* CNF1, CNF2, CNF3 */

/* The rules that three bytes can break, a bit each. */
enum {
    FAULT_BTLMODE = 0x01,     /* BTLMODE is clear */
    FAULT_SPARE = 0x02,       /* bits 5-3 of CNF3 are not clear */
    FAULT_PS2 = 0x04,         /* phase 2 below 2 quanta */
    FAULT_PROPSEG_PS1 = 0x08, /* propagation and phase 1 shorter than phase 2 */
    FAULT_SJW = 0x10,         /* phase 2 not longer than the jump width */
    FAULT_QUANTA = 0x20,      /* not 8 to 25 quanta a bit */
    FAULT_SETS = 0x40         /* how many sets of them there are */
};

/* Refusals of a plan, and what it can be asked. */
enum { REFUSED_OSCILLATOR = 12, REFUSED_RATE = 13, REFUSED_SHORT = 19 };
enum { OSCILLATOR_LEAST = 1000000, OSCILLATOR_MOST = 40000000 }; /* Hz */
enum { RATE_LEAST = 5000, RATE_MOST = 1000000 };                 /* bit/s */

/* The rules broken. Each is asked by the fields alone: phase 2 is what CNF3 says also
 * where BTLMODE is clear. */
unsigned timing_faults(uint8_t cnf1, uint8_t cnf2, uint8_t cnf3);

/* No rule is broken. SAM, SOF and WAKFIL may be anything. */
bool timing_sound(uint8_t cnf1, uint8_t cnf2, uint8_t cnf3);

/* Oscillator less rate x 2 x (BRP + 1) x quanta, of any bytes by their fields. */
int64_t timing_difference(uint32_t oscillator, uint32_t rate, uint8_t cnf1, uint8_t cnf2,
                          uint8_t cnf3);

/*
 * Of the sound settings with SAM, SOF and WAKFIL 0 the one with the smallest
 * size of the difference, then the lowest BRP, then the lowest CNF1, CNF2, CNF3.
 *
 * 3 with the bytes in cnf; 0 for none, where that size x 1,000 is more than the
 * oscillator; else minus 12, 13 or 19, asked in this order, the last for a room of
 * fewer than three bytes. No byte of cnf changes then, nor for none.
 */
int64_t timing_plan(uint32_t oscillator, uint32_t rate, size_t room, uint8_t *cnf);

/* The sound settings that a plan looks at. */
size_t timing_settings(void);

#endif
