/*
 * Second model of the MCP2515 stand-in, written from the rules alone so that
 * an error in the proved code is not repeated here. One struct is the chip,
 * one call is a step.
 */
#ifndef BENCH_MODEL_H
#define BENCH_MODEL_H

#include <stdbool.h>
#include <stddef.h>
#include <stdint.h>

enum { RECORD_BYTES = 16, LOG_RECORDS_MAX = 65535 };

/* Byte 0 of a record. */
enum {
    KIND_SELECT_LOW,
    KIND_EXCHANGE,
    KIND_SELECT_HIGH,
    KIND_FRAME,
    KIND_BUS_IDLE,
    KIND_FRAME_ENDS,
    KIND_RECEIVE_ERROR,
    KIND_RECOVERY,
    KIND_REQUEST_PIN,
    KINDS
};

/* Byte 2 of a select or exchange: who speaks. */
enum { SPEAKER_CONTROLLER, SPEAKER_PANEL, SPEAKERS };

/* Byte 1 of a frame record. */
enum { FRAME_EXTENDED = 1, FRAME_REMOTE = 2 };

/* The length code: byte 2 of a frame record, bits 3-0 of a buffer's DLC byte. */
enum { LENGTH_CODE_MAX = 15, DATA_BYTES_MAX = 8 };

/* Byte 1 of an own-frame-ends record. */
enum { END_SENT, END_LOST, END_ERROR };

/* A request-pin record: byte 1 is n of TXnRTS, byte 2 its level, 1 for high. */
enum { REQUEST_PINS = 3, PIN_LEVEL_MAX = 1 };

/* Answers of a frame record; Loopback delivery gives the first four. */
enum { RX_UNMATCHED, RX_IN_RXB0, RX_IN_RXB1, RX_LOST, RX_NOT_LISTENING, RX_WOKE };

enum {
    REFUSED_NOT = 0,
    REFUSED_SELECT = 1,
    REFUSED_FIELD = 2,
    REFUSED_IN_FLIGHT = 3,
    REFUSED_NO_FLIGHT = 4,
    REFUSED_STATE = 5,
    REFUSED_RAGGED = 6,
    REFUSED_SHORT_OUTPUT = 7,
    REFUSED_TOO_LONG = 8,
    REFUSED_SPEAKER = 18
};

/* CANSTAT bits 7-5, as a number. */
enum {
    MODE_NORMAL,
    MODE_SLEEP,
    MODE_LOOPBACK,
    MODE_LISTEN_ONLY,
    MODE_CONFIGURATION,
    MODES
};

enum { NO_FLIGHT = 3, NO_REQUEST = 7 };

/* The select line: high, and then it is nobody's, or low by one of the two. */
enum { SELECT_HIGH, SELECT_BY_CONTROLLER, SELECT_BY_PANEL };

/* TEC from which the chip is bus-off, and the values where the sums stop. */
enum { TEC_BUS_OFF = 256, TEC_STOP = 263, REC_STOP = 255 };

/* What the next exchange means. LOAD TX BUFFER goes on as WRITE, READ RX
 * BUFFER as READ; SPENT takes further bytes without effect. The panel's LOAD and
 * READ RX BUFFER stay at the address behind data byte 7. */
enum open_instruction {
    OPEN_NONE,
    OPEN_CODE,
    OPEN_READ_ADDRESS,
    OPEN_READ,
    OPEN_WRITE_ADDRESS,
    OPEN_WRITE,
    OPEN_MODIFY_ADDRESS,
    OPEN_MODIFY_MASK,
    OPEN_MODIFY_DATA,
    OPEN_STATUS,
    OPEN_RX_STATUS,
    OPEN_SPENT
};

struct model {
    uint8_t reg[128]; /* stored bytes; TEC, REC, CANSTAT, EFLG 5..0 and TXRTSCTRL 5..3
                         are computed, CANCTRL is kept at 0Fh only */
    uint16_t tec;
    uint16_t rec;
    uint8_t mode;
    uint8_t request; /* mode asked for and not yet entered, or NO_REQUEST */
    uint8_t flight;  /* TX buffer on the bus, or NO_FLIGHT */
    uint8_t selected; /* SELECT_HIGH, or by whom it is low */
    uint8_t open;    /* enum open_instruction */
    uint8_t pointer; /* address of the next byte of READ, WRITE or BIT MODIFY */
    uint8_t mask;    /* BIT MODIFY's mask, once given */
    uint8_t clears;  /* RXnIF that select high clears, for READ RX BUFFER */
    uint8_t level[REQUEST_PINS]; /* of TX0RTS to TX2RTS, 1 for high */
    uint8_t unused;              /* 0; chips are compared as bytes, and padding has none */
};

_Static_assert(sizeof(struct model) == 128 + 2 * sizeof(uint16_t) + 12, "no padding");

/* The data bytes that a length code stands for; 9 to 15 mean eight, as 8 does. */
unsigned model_data_bytes(uint8_t code);

/* The data bytes that a frame carries: none if it is remote, whatever its code. */
unsigned model_carried_bytes(bool remote, uint8_t code);

void model_power_on(struct model *m);

/* One record. A refused record leaves the chip as it was and answers 0. */
void model_step(struct model *m, const uint8_t record[RECORD_BYTES], uint8_t *refusal,
                uint8_t *answer);

/*
 * The same with the record's set, bit n for filter n: all that match the frame that
 * the chip hears, from the bus or in Loopback from itself, whatever becomes of it.
 * It is 0 for a record by which the chip hears none.
 */
void model_step_set(struct model *m, const uint8_t record[RECORD_BYTES], uint8_t *refusal,
                    uint8_t *answer, uint8_t *set);

/*
 * A whole log from power-on: refusal and answer of each record go to answers,
 * the number of records is returned. A log that is ragged, too long or without
 * room for its answers gives -6, -8 or -7, asked in this order, and no byte
 * is written.
 */
long model_run_log(const uint8_t *log, size_t log_len, uint8_t *answers, size_t answers_len);

/* The byte an address holds, and the byte READ shows there in the present mode. */
uint8_t model_holds(const struct model *m, uint8_t address);
uint8_t model_reads(const struct model *m, uint8_t address);

bool model_bus_off(const struct model *m);

/* INT is active low: true while an enabled flag is set. */
bool model_int_low(const struct model *m);

#endif
