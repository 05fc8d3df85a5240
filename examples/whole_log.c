/*
 * A small program against the proved call: the chip after power-on, and a
 * change from Normal to Configuration that has to wait for a message. A filter
 * written before the change is done has no effect.
 */
#include <stdio.h>

#include "mcp2515.h"

enum { RECORD = 16, MOST_RECORDS = 100, MOST_READS = 10 };

static uint8_t records[RECORD * MOST_RECORDS];
static size_t count;

/* The READs in the log: where the reply is, what it must be, what it shows. */
static struct {
    size_t at;
    uint8_t address;
    uint8_t reply;
    const char *shows;
} reads[MOST_READS];
static size_t read_count;

static void record(uint8_t kind, uint8_t byte1)
{
    records[RECORD * count] = kind;
    records[RECORD * count + 1] = byte1;
    count++;
}

static void write_register(uint8_t address, uint8_t value)
{
    record(0, 0);       /* select low */
    record(1, 0x02);    /* WRITE */
    record(1, address);
    record(1, value);
    record(2, 0);       /* select high */
}

static void read_register(uint8_t address, uint8_t reply, const char *shows)
{
    record(0, 0);
    record(1, 0x03);    /* READ */
    record(1, address);
    reads[read_count].at = count;
    reads[read_count].address = address;
    reads[read_count].reply = reply;
    reads[read_count++].shows = shows;
    record(1, 0x00);    /* the reply comes with this byte */
    record(2, 0);
}

static void write_log(void)
{
    read_register(0x0F, 0x87, "CANCTRL after power-on");
    read_register(0x0E, 0x80, "CANSTAT: Configuration");
    write_register(0x0F, 0x07);
    read_register(0x0E, 0x00, "CANSTAT: Normal");
    write_register(0x30, 0x08); /* TXREQ of TXB0: a message waits */
    write_register(0x0F, 0x87); /* Configuration is asked for */
    read_register(0x0E, 0x00, "CANSTAT: still Normal, TXB0 is not sent yet");
    write_register(0x00, 0x20); /* too early for a filter */
    record(4, 0);               /* bus idle: TXB0 goes */
    read_register(0x0E, 0x00, "CANSTAT: still Normal, TXB0 is on the bus");
    record(5, 0);               /* it is sent, and the mode changes */
    read_register(0x0E, 0x80, "CANSTAT: Configuration now");
    read_register(0x00, 0x00, "filter byte 00h: the early write is gone");
    write_register(0x00, 0x20);
    read_register(0x00, 0x20, "filter byte 00h: the same write now stays");
}

int main(void)
{
    static uint8_t answers[2 * MOST_RECORDS];
    int status = 0;
    write_log();
    int64_t ran = mcp2515_run_log(records, RECORD * count, answers, sizeof answers);
    if (ran != (int64_t)count) {
        fprintf(stderr, "expected %zu records, got %lld\n", count, (long long)ran);
        return 1;
    }
    for (size_t i = 0; i < count; i++)
        if (answers[2 * i] != 0) {
            fprintf(stderr, "record %zu: refusal %u\n", i + 1, answers[2 * i]);
            return 1;
        }
    for (size_t i = 0; i < read_count; i++) {
        uint8_t got = answers[2 * reads[i].at + 1];
        printf("READ %02Xh: %02Xh  %s\n", reads[i].address, got, reads[i].shows);
        if (got != reads[i].reply) {
            fprintf(stderr, "expected %02Xh\n", reads[i].reply);
            status = 1;
        }
    }
    return status;
}
