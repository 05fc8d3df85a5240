#include "speed_logs.h"

#include <stdbool.h>
#include <string.h>

#include "gen.h"
#include "match.h"
#include "model.h"
#include "registers.h"

/* A log in the making; what does not fit any more is left out. */
struct writer {
    uint64_t dice;
    uint8_t *log;
    size_t records;
    size_t written;
    size_t frames;
};

static unsigned below(struct writer *w, unsigned n)
{
    return (unsigned)((gen_next(&w->dice) >> 33) % n);
}

static uint32_t any_word(struct writer *w)
{
    return (uint32_t)(gen_next(&w->dice) >> 16);
}

static void put(struct writer *w, const uint8_t record[RECORD_BYTES])
{
    if (w->written == w->records)
        return;
    memcpy(w->log + RECORD_BYTES * w->written++, record, RECORD_BYTES);
    w->frames += record[0] == KIND_FRAME;
}

static void put_kind(struct writer *w, uint8_t kind, uint8_t byte1)
{
    uint8_t record[RECORD_BYTES] = {kind, byte1};
    put(w, record);
}

static void write_words(struct writer *w, uint8_t address, const uint32_t *words, unsigned count)
{
    put_kind(w, KIND_SELECT_LOW, 0);
    put_kind(w, KIND_EXCHANGE, SPI_WRITE);
    put_kind(w, KIND_EXCHANGE, address);
    for (unsigned i = 0; i < 4 * count; i++)
        put_kind(w, KIND_EXCHANGE, (uint8_t)(words[i / 4] >> (24 - 8 * (i % 4))));
    put_kind(w, KIND_SELECT_HIGH, 0);
}

static void write_byte(struct writer *w, uint8_t address, uint8_t value)
{
    put_kind(w, KIND_SELECT_LOW, 0);
    put_kind(w, KIND_EXCHANGE, SPI_WRITE);
    put_kind(w, KIND_EXCHANGE, address);
    put_kind(w, KIND_EXCHANGE, value);
    put_kind(w, KIND_SELECT_HIGH, 0);
}

/* Left out by both masks: a bit each of SIDH, SIDL and EID8, so that there are
 * eight different words for six filters. */
enum { IN_SIDH = 0x10000000, IN_SIDL = 0x00400000, IN_EID8 = 0x00000200 };
static const uint32_t left_out = IN_SIDH | IN_SIDL | IN_EID8;

static uint32_t left_out_by(unsigned n)
{
    return (n & 1 ? IN_SIDH : 0) | (n & 2 ? IN_SIDL : 0) | (n & 4 ? IN_EID8 : 0);
}

/* Sets of filters, bit n for filter n. */
enum { NO_FILTER = 0, FILTER_5 = 0x20, ALL_FILTERS = 0x3F };

/* Filters for frames with this word, all but the last bit; those of the set have it too. */
static void configure(struct writer *w, uint32_t word, unsigned set)
{
    uint32_t filters[MATCH_FILTERS], masks[2] = {~left_out, ~left_out};
    for (unsigned n = 0; n < MATCH_FILTERS; n++)
        filters[n] = ((word & ~left_out) | left_out_by(n)) ^ !(set >> n & 1);
    write_byte(w, CANCTRL, MODE_CONFIGURATION << 5 | 7);
    write_words(w, RXF0SIDH, &filters[0], 3);
    write_words(w, RXF3SIDH, &filters[3], 3);
    write_words(w, RXM0SIDH, masks, 2);
    write_byte(w, CANCTRL, MODE_NORMAL << 5 | 7);
}

/* Frames differ in the bits left out, in length and in the data not compared. */
static void put_frame(struct writer *w, uint32_t word)
{
    uint8_t record[RECORD_BYTES];
    bool extended = word & MATCH_EXIDE;
    uint8_t code = (uint8_t)(extended ? below(w, 9) : 2 + below(w, 7));
    match_record(record, extended ? FRAME_EXTENDED : 0, code, word ^ (any_word(w) & left_out));
    for (unsigned i = extended ? 0 : 2; i < code; i++)
        record[8 + i] = (uint8_t)below(w, 256);
    put(w, record);
}

static size_t frames_log(uint64_t seed, uint8_t *log, size_t records, unsigned set)
{
    struct writer w = {.dice = seed, .log = log, .records = records};
    bool extended = seed & 1;
    while (w.written < records) {
        uint32_t word = extended ? any_word(&w) | MATCH_EXIDE : any_word(&w) & ~MATCH_EXIDE;
        configure(&w, word, set);
        for (unsigned left = 600 + below(&w, 400), full = 0; left > 0; left--) {
            if (set != NO_FILTER && full-- == 0) {
                write_byte(&w, CANINTF, 0);
                full = 16 + below(&w, 32);
            }
            put_frame(&w, word);
        }
        extended = !extended;
    }
    return w.frames;
}

static void put_pin(struct writer *w, unsigned n, uint8_t level)
{
    uint8_t record[RECORD_BYTES] = {KIND_REQUEST_PIN, (uint8_t)n, level};
    put(w, record);
}

size_t pins_log(uint64_t seed, uint8_t *log, size_t records)
{
    struct writer w = {.dice = seed, .log = log, .records = records};
    write_byte(&w, TXRTSCTRL, 0x07);
    write_byte(&w, CANCTRL, MODE_NORMAL << 5 | 7);
    while (w.written < records) {
        unsigned n = below(&w, REQUEST_PINS);
        put_pin(&w, n, 0);
        put_kind(&w, KIND_BUS_IDLE, 0);
        put_kind(&w, KIND_FRAME_ENDS, END_SENT);
        put_pin(&w, n, 0); /* repeats */
        put_pin(&w, n, 1);
    }
    return records;
}

static void speak(struct writer *w, uint8_t kind, uint8_t byte1, uint8_t speaker)
{
    uint8_t record[RECORD_BYTES] = {kind, byte1, speaker};
    put(w, record);
}

/* The code and any bytes behind it. */
static void put_session(struct writer *w, uint8_t speaker, uint8_t code, unsigned bytes)
{
    speak(w, KIND_SELECT_LOW, 0, speaker);
    speak(w, KIND_EXCHANGE, code, speaker);
    if (below(w, 16) == 0)
        speak(w, KIND_EXCHANGE, code, !speaker);
    for (unsigned i = 0; i < bytes; i++)
        speak(w, KIND_EXCHANGE, (uint8_t)below(w, 128), speaker);
    speak(w, KIND_SELECT_HIGH, 0, speaker);
}

static void put_frames(struct writer *w)
{
    for (unsigned left = below(w, 4); left > 0; left--)
        put_frame(w, any_word(w) & ~MATCH_EXIDE);
    put_kind(w, KIND_BUS_IDLE, 0);
    put_kind(w, KIND_FRAME_ENDS, END_SENT);
}

/* RXB0 takes what it can and rolls the rest over. The controller's READ RX BUFFER and LOAD
 * end before CANCTRL. */
size_t panel_log(uint64_t seed, uint8_t *log, size_t records)
{
    static const struct {
        uint8_t code, bytes;
    } own[] = {{SPI_READ, 2}, {SPI_READ, 9},      {SPI_READ_STATUS, 1}, {SPI_RX_STATUS, 1},
               {0x90, 13},    {0x96, 8},          {0x44, 13},           {0x87, 0}},
      panels[] = {{SPI_READ, 2}, {SPI_READ, 9}, {SPI_READ_STATUS, 1}, {SPI_RX_STATUS, 1},
                  {0x94, 13},    {0x94, 15},    {0x45, 8},            {0x44, 16},
                  {0x84, 0},     {SPI_WRITE, 3}, {0x90, 13},          {0x87, 0}};
    struct writer w = {.dice = seed, .log = log, .records = records};
    write_byte(&w, RXB0CTRL, RXM | BUKT);
    write_byte(&w, CANCTRL, MODE_NORMAL << 5 | 7);
    while (w.written < records) {
        unsigned i = below(&w, sizeof own / sizeof *own);
        unsigned j = below(&w, sizeof panels / sizeof *panels);
        put_session(&w, SPEAKER_CONTROLLER, own[i].code, own[i].bytes);
        put_frames(&w);
        put_session(&w, SPEAKER_PANEL, panels[j].code, panels[j].bytes);
    }
    return records;
}

size_t late_log(uint64_t seed, uint8_t *log, size_t records)
{
    return frames_log(seed, log, records, NO_FILTER);
}

size_t last_log(uint64_t seed, uint8_t *log, size_t records)
{
    return frames_log(seed, log, records, FILTER_5);
}

size_t first_log(uint64_t seed, uint8_t *log, size_t records)
{
    return frames_log(seed, log, records, ALL_FILTERS);
}
