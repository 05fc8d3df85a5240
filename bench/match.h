/*
 * Which filters match, told once more in another form than the model's, so
 * that tests can ask which bit decides and what another rule would give. A
 * filter, a mask and what a frame shows them are words of four bytes: SIDH,
 * SIDL, EID8, EID0, the first one highest.
 */
#ifndef BENCH_MATCH_H
#define BENCH_MATCH_H

#include <stdbool.h>
#include <stdint.h>

#include "model.h"
#include "registers.h"

/* Bits that can decide: 29 of an extended identifier, 11 of a standard one,
 * 16 of data bytes 0 and 1. */
enum { MATCH_FILTERS = 6, MATCH_BITS = 29 + 11 + 16, MATCH_EXIDE = IDE << 16 };

/* The shares of a set: RXB0 has filters 0 and 1, RXB1 has 2 to 5. */
enum { MATCH_OF_RXB0 = 0x03, MATCH_OF_RXB1 = 0x3C };

struct match_frame {
    uint32_t bits;    /* EXIDE among them, as the filter for it has it */
    uint32_t reached; /* those that the mask decides about */
};

/* The record of a frame with this length code that shows the word's bits as far as it
 * can; flags are byte 1. */
void match_record(uint8_t record[RECORD_BYTES], uint8_t flags, uint8_t code, uint32_t word);

/* From a frame record; sent from TX buffer n. */
struct match_frame match_heard(const uint8_t *record);
struct match_frame match_own(const struct model *m, unsigned n);

uint32_t match_filter(const struct model *m, unsigned n);

/* Mask 0 or 1, and the number of the one for filter n. */
uint32_t match_mask(const struct model *m, unsigned number);
unsigned match_mask_of(unsigned n);

/* The bits in which the frame differs from the filter and that count; 0 is a match. */
uint32_t match_differs(uint32_t filter, uint32_t mask, const struct match_frame *f);

/* All filters that match, bit n for filter n. */
unsigned match_set(const struct model *m, const struct match_frame *f);

/* The set of a record that this chip meets, with the refusal that it got. */
unsigned match_set_of_step(const struct model *m, const uint8_t *record, uint8_t refusal);

/* The model's answer to the record of this frame, heard or sent, had exactly these
 * filters matched. */
uint8_t match_answer(const struct model *m, const uint8_t *record, const struct match_frame *f,
                     unsigned set);

/* The number (below MATCH_BITS) of a bit at this place of the word, and its name. */
unsigned match_bit(bool extended, unsigned place);
const char *match_bit_name(unsigned bit);

#endif
