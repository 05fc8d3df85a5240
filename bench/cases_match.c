/* Which bits of a frame, a filter and its mask decide: every filter, every bit. */
#include <stdbool.h>

#include "cases.h"
#include "model.h"
#include "registers.h"

enum { FILTERS = 6 };

/* Words are SIDH, SIDL, EID8, EID0, the first one highest. */
static const uint32_t all = 0xFFFFFFFF, exide = 0x00080000;

/* The bits of a filter that a sort of frame has to agree with. */
struct sort {
    uint8_t flags; /* byte 1 of a frame record */
    uint8_t code;
    uint32_t compared;
};

/* The first two have all 56 bits: 29 of the extended identifier, 11 of the
 * standard one and 16 of data bytes 0 and 1. */
enum { SORTS_WITH_ALL = 2 };
static const struct sort sorts[] = {
    {FRAME_EXTENDED, 8, 0xFFE3FFFF}, {0, 2, 0xFFE0FFFF},
    {0, 0, 0xFFE00000},              {0, 1, 0xFFE0FF00},
    {0, 15, 0xFFE0FFFF},             {FRAME_REMOTE, 2, 0xFFE00000},
    {FRAME_EXTENDED, 0, 0xFFE3FFFF}, {FRAME_EXTENDED | FRAME_REMOTE, 8, 0xFFE3FFFF},
};
enum { SORTS = sizeof sorts / sizeof *sorts };

/* A filter for the sort; for n one more or less it has every bit that a frame can have
 * the other way. */
static uint32_t word_for(const struct sort *sort, unsigned n)
{
    uint32_t word = n % 2 ? 0x5A42A569 : 0xA5A15A96;
    return sort->flags & FRAME_EXTENDED ? word | exide : word;
}

static void write_words(struct script *s, uint8_t address, const uint32_t *words, unsigned count)
{
    sc_low(s);
    sc_xfer(s, SPI_WRITE, 0);
    sc_xfer(s, address, 0);
    for (unsigned i = 0; i < 4 * count; i++)
        sc_xfer(s, (uint8_t)(words[i / 4] >> (24 - 8 * (i % 4))), 0);
    sc_high(s);
}

/* The other filters have the same word but for EXIDE, and so take no frame of its sort. */
static void set_filters(struct script *s, const struct sort *sort, unsigned n, uint32_t word)
{
    uint32_t words[FILTERS];
    for (unsigned i = 0; i < FILTERS; i++)
        words[i] = i == n ? word : word_for(sort, n) ^ exide;
    sc_mode(s, MODE_CONFIGURATION);
    write_words(s, RXF0SIDH, &words[0], 3);
    write_words(s, RXF3SIDH, &words[3], 3);
    sc_mode(s, MODE_NORMAL);
}

/* own: the mask of filter n, which is mask 0 for filters 0 and 1, else mask 1. */
static void set_masks(struct script *s, unsigned n, uint32_t own, uint32_t other)
{
    uint32_t masks[2] = {n < 2 ? own : other, n < 2 ? other : own};
    sc_mode(s, MODE_CONFIGURATION);
    write_words(s, RXM0SIDH, masks, 2);
    sc_mode(s, MODE_NORMAL);
}

/* The frame that has these bits. Data that is not compared is unlike the word. */
static void hear(struct script *s, const struct sort *sort, uint32_t word, uint8_t answer)
{
    bool extended = sort->flags & FRAME_EXTENDED, remote = sort->flags & FRAME_REMOTE;
    uint32_t shown = extended ? ~word : word;
    char data[DATA_BYTES_MAX] = {(char)(shown >> 8), (char)shown, 0x11, 0x22, 0x33, 0x44};
    sc_frame(s, sort->flags, extended ? (word >> 21) << 18 | (word & 0x3FFFF) : word >> 21,
             sort->code, remote ? NULL : data, answer);
}

static void hear_taken(struct script *s, const struct sort *sort, unsigned n, uint32_t word)
{
    uint8_t rxrtr = sort->flags & FRAME_REMOTE ? RXRTR : 0;
    hear(s, sort, word, n < 2 ? RX_IN_RXB0 : RX_IN_RXB1);
    sc_read(s, n < 2 ? RXB0CTRL : RXB1CTRL, (uint8_t)(rxrtr | n));
    sc_write(s, CANINTF, 0);
}

/* A bit that differs keeps the frame out while the filter's own mask has it,
 * and does nothing while that mask alone lacks it. */
static void one_bit_decides(struct script *s)
{
    for (unsigned i = 0; i < SORTS_WITH_ALL * FILTERS; i++) {
        const struct sort *sort = &sorts[i / FILTERS];
        unsigned n = i % FILTERS;
        uint32_t word = word_for(sort, n);
        set_filters(AT, sort, n, word);
        for (uint32_t bit = 1; bit != 0; bit <<= 1) {
            if (!(sort->compared & bit))
                continue;
            set_masks(AT, n, ~bit, all);
            hear_taken(AT, sort, n, word ^ bit);
            set_masks(AT, n, all, ~bit);
            hear(AT, sort, word ^ bit, RX_UNMATCHED);
            hear_taken(AT, sort, n, word);
        }
    }
}

/* Where the frame has no bit, neither the filter's nor the mask's counts. */
static void bits_that_no_frame_reaches(struct script *s)
{
    for (unsigned i = 0; i < SORTS * FILTERS; i++) {
        const struct sort *sort = &sorts[i / FILTERS];
        unsigned n = i % FILTERS;
        uint32_t word = word_for(sort, n), unreached = ~sort->compared & ~exide;
        set_filters(AT, sort, n, word ^ unreached);
        set_masks(AT, n, all, all);
        hear_taken(AT, sort, n, word);
        set_masks(AT, n, sort->compared, all);
        hear_taken(AT, sort, n, word);
        set_masks(AT, n, unreached, all);
        hear_taken(AT, sort, n, word ^ sort->compared);
    }
}

/* EXIDE counts under any mask: of six filters alike but for it, one takes the
 * frame, and none if that one has it the other way. Bit 3 of a mask takes no
 * write; live.c sets it. */
static void exide_is_never_masked(struct script *s)
{
    static const uint32_t masks[] = {0, 0xFFFFFFFF};
    for (unsigned i = 0; i < SORTS * FILTERS; i++) {
        const struct sort *sort = &sorts[i / FILTERS];
        unsigned n = i % FILTERS;
        uint32_t word = word_for(sort, n);
        for (unsigned j = 0; j < sizeof masks / sizeof *masks; j++) {
            set_masks(AT, n, masks[j], masks[j]);
            set_filters(AT, sort, n, word);
            hear_taken(AT, sort, n, word);
            set_filters(AT, sort, n, word ^ exide);
            hear(AT, sort, word, RX_UNMATCHED);
        }
    }
}

static const struct fixed_case table[] = {
    {"one bit decides, of every filter", one_bit_decides},
    {"bits that no frame reaches", bits_that_no_frame_reaches},
    {"EXIDE is never masked", exide_is_never_masked},
};

const struct case_group match_cases = {table, sizeof table / sizeof *table};
