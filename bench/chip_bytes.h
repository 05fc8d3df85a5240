/*
 * The 152 bytes that the live calls take for a chip, read by their documented
 * places into the second model. Every byte stands for something: what is out
 * of range counts as the table of include/mcp2515.h says.
 */
#ifndef BENCH_CHIP_BYTES_H
#define BENCH_CHIP_BYTES_H

#include <stdint.h>

#include "model.h"

/* Bytes that stand for the same chip give the same struct, byte for byte. */
void chip_decode(const uint8_t *chip, struct model *m);

#endif
