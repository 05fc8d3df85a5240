/*
 * Hand-written logs: records with the refusal, the answer and often the set that
 * each must give, and the source line that asked for it, so that a failure points
 * at its test.
 */
#ifndef BENCH_SCRIPT_H
#define BENCH_SCRIPT_H

#include <stddef.h>
#include <stdint.h>

/* Of a record whose set the script leaves to match.h. */
enum { SET_UNSAID = -1 };

struct script_want {
    uint8_t refusal;
    uint8_t answer;
    int16_t set; /* or SET_UNSAID */
    const char *file;
    int line;
};

struct script {
    uint8_t *records;
    struct script_want *want;
    size_t count;
    size_t room;
    const char *file; /* file, line and speaker are taken over by the records that follow */
    int line;
    uint8_t speaker;
};

/* First argument of the calls below: the script s, marked with this line. The controller
 * speaks, or the panel. */
#define AT (s->file = __FILE__, s->line = __LINE__, s->speaker = 0, s)
#define PANEL (s->file = __FILE__, s->line = __LINE__, s->speaker = 1, s)

void script_init(struct script *s);
void script_free(struct script *s);
void script_clear(struct script *s);

/* Single records. */
void sc_raw(struct script *s, const uint8_t record[16], uint8_t refusal, uint8_t answer);
void sc_refused(struct script *s, uint8_t refusal, uint8_t kind, uint8_t byte1);
void sc_low(struct script *s);
void sc_high(struct script *s);
void sc_xfer(struct script *s, uint8_t sent, uint8_t reply);
void sc_frame(struct script *s, uint8_t flags, uint32_t id, uint8_t code, const char *data,
              uint8_t answer);
void sc_idle(struct script *s, uint8_t answer);
void sc_end(struct script *s, uint8_t outcome, uint8_t answer);
void sc_rx_error(struct script *s, uint8_t large);
void sc_recovery(struct script *s);
void sc_pin(struct script *s, uint8_t n, uint8_t level); /* TXnRTS */

/* Says the set of the record before. */
void sc_set(struct script *s, uint8_t set);

/* Whole sessions, from select low to select high. */
void sc_write(struct script *s, uint8_t address, uint8_t value);
void sc_write4(struct script *s, uint8_t address, uint32_t bytes);
void sc_read(struct script *s, uint8_t address, uint8_t reply);
void sc_modify(struct script *s, uint8_t address, uint8_t mask, uint8_t data);
void sc_one(struct script *s, uint8_t code);
void sc_rts(struct script *s, uint8_t buffers);
void sc_reset(struct script *s);
void sc_status(struct script *s, uint8_t reply);
void sc_rx_status(struct script *s, uint8_t reply);
void sc_read_rx(struct script *s, uint8_t code, uint8_t first_reply);
void sc_mode(struct script *s, uint8_t mode);

/* A standard frame without data, the plainest frame there is. */
void sc_std(struct script *s, uint32_t id, uint8_t answer);

#endif
