#include "script.h"

#include <stdio.h>
#include <stdlib.h>
#include <string.h>

#include "model.h"
#include "registers.h"

void script_init(struct script *s)
{
    memset(s, 0, sizeof *s);
}

void script_free(struct script *s)
{
    free(s->records);
    free(s->want);
    script_init(s);
}

void script_clear(struct script *s)
{
    s->count = 0;
    s->speaker = SPEAKER_CONTROLLER;
}

static void make_room(struct script *s)
{
    if (s->count < s->room)
        return;
    s->room = s->room ? 2 * s->room : 64;
    s->records = realloc(s->records, s->room * RECORD_BYTES);
    s->want = realloc(s->want, s->room * sizeof *s->want);
    if (!s->records || !s->want) {
        fprintf(stderr, "out of memory for a script\n");
        exit(1);
    }
}

void sc_raw(struct script *s, const uint8_t record[16], uint8_t refusal, uint8_t answer)
{
    make_room(s);
    memcpy(s->records + RECORD_BYTES * s->count, record, RECORD_BYTES);
    s->want[s->count] = (struct script_want){refusal, answer, SET_UNSAID, s->file, s->line};
    s->count++;
}

void sc_set(struct script *s, uint8_t set)
{
    s->want[s->count - 1].set = set;
}

/* A select or exchange says who speaks. */
static void put(struct script *s, uint8_t kind, uint8_t byte1, uint8_t refusal, uint8_t answer)
{
    uint8_t speaker = kind <= KIND_SELECT_HIGH ? s->speaker : 0;
    uint8_t record[RECORD_BYTES] = {kind, byte1, speaker};
    sc_raw(s, record, refusal, answer);
}

static void accepted(struct script *s, uint8_t kind, uint8_t byte1, uint8_t answer)
{
    put(s, kind, byte1, REFUSED_NOT, answer);
}

void sc_refused(struct script *s, uint8_t refusal, uint8_t kind, uint8_t byte1)
{
    put(s, kind, byte1, refusal, 0);
}

void sc_low(struct script *s)
{
    accepted(s, KIND_SELECT_LOW, 0, 0);
}

void sc_high(struct script *s)
{
    accepted(s, KIND_SELECT_HIGH, 0, 0);
}

void sc_xfer(struct script *s, uint8_t sent, uint8_t reply)
{
    accepted(s, KIND_EXCHANGE, sent, reply);
}

void sc_frame(struct script *s, uint8_t flags, uint32_t id, uint8_t code, const char *data,
              uint8_t answer)
{
    uint8_t record[RECORD_BYTES] = {KIND_FRAME, flags, code};
    for (unsigned i = 0; i < 4; i++)
        record[4 + i] = (uint8_t)(id >> (24 - 8 * i));
    for (unsigned i = 0; i < DATA_BYTES_MAX; i++)
        if (data && i < code)
            record[8 + i] = (uint8_t)data[i];
    sc_raw(s, record, REFUSED_NOT, answer);
}

void sc_std(struct script *s, uint32_t id, uint8_t answer)
{
    sc_frame(s, 0, id, 0, NULL, answer);
}

void sc_idle(struct script *s, uint8_t answer)
{
    accepted(s, KIND_BUS_IDLE, 0, answer);
}

void sc_end(struct script *s, uint8_t outcome, uint8_t answer)
{
    accepted(s, KIND_FRAME_ENDS, outcome, answer);
}

void sc_rx_error(struct script *s, uint8_t large)
{
    accepted(s, KIND_RECEIVE_ERROR, large, 0);
}

void sc_recovery(struct script *s)
{
    accepted(s, KIND_RECOVERY, 0, 0);
}

void sc_pin(struct script *s, uint8_t n, uint8_t level)
{
    uint8_t record[RECORD_BYTES] = {KIND_REQUEST_PIN, n, level};
    sc_raw(s, record, REFUSED_NOT, 0);
}

void sc_write(struct script *s, uint8_t address, uint8_t value)
{
    sc_low(s);
    sc_xfer(s, SPI_WRITE, 0);
    sc_xfer(s, address, 0);
    sc_xfer(s, value, 0);
    sc_high(s);
}

void sc_write4(struct script *s, uint8_t address, uint32_t bytes)
{
    sc_low(s);
    sc_xfer(s, SPI_WRITE, 0);
    sc_xfer(s, address, 0);
    for (unsigned i = 0; i < 4; i++)
        sc_xfer(s, (uint8_t)(bytes >> (24 - 8 * i)), 0);
    sc_high(s);
}

void sc_read(struct script *s, uint8_t address, uint8_t reply)
{
    sc_low(s);
    sc_xfer(s, SPI_READ, 0);
    sc_xfer(s, address, 0);
    sc_xfer(s, 0, reply);
    sc_high(s);
}

void sc_modify(struct script *s, uint8_t address, uint8_t mask, uint8_t data)
{
    sc_low(s);
    sc_xfer(s, SPI_BIT_MODIFY, 0);
    sc_xfer(s, address, 0);
    sc_xfer(s, mask, 0);
    sc_xfer(s, data, 0);
    sc_high(s);
}

void sc_one(struct script *s, uint8_t code)
{
    sc_low(s);
    sc_xfer(s, code, 0);
    sc_high(s);
}

void sc_rts(struct script *s, uint8_t buffers)
{
    sc_one(s, (uint8_t)(SPI_RTS | buffers));
}

void sc_reset(struct script *s)
{
    sc_one(s, SPI_RESET);
}

static void code_and_reply(struct script *s, uint8_t code, uint8_t reply)
{
    sc_low(s);
    sc_xfer(s, code, 0);
    sc_xfer(s, 0, reply);
    sc_high(s);
}

void sc_status(struct script *s, uint8_t reply)
{
    code_and_reply(s, SPI_READ_STATUS, reply);
}

void sc_rx_status(struct script *s, uint8_t reply)
{
    code_and_reply(s, SPI_RX_STATUS, reply);
}

void sc_read_rx(struct script *s, uint8_t code, uint8_t first_reply)
{
    code_and_reply(s, code, first_reply);
}

void sc_mode(struct script *s, uint8_t mode)
{
    sc_write(s, CANCTRL, (uint8_t)(mode << 5 | 0x07));
}
