/*
 * Writes the log files of the replay check into a directory.
 *
 *   mklogs directory [seed]
 */
#include <stdio.h>
#include <stdlib.h>
#include <string.h>

#include "cases.h"
#include "gen.h"
#include "model.h"
#include "registers.h"
#include "script.h"

enum { MOST = LOG_RECORDS_MAX, BYTES = (MOST + 2) * RECORD_BYTES };

static const char *directory;

static void write_file(const char *name, const uint8_t *bytes, size_t length)
{
    char path[4096];
    snprintf(path, sizeof path, "%s/%s", directory, name);
    FILE *out = fopen(path, "wb");
    if (!out || fwrite(bytes, 1, length, out) != length || fclose(out) != 0) {
        perror(path);
        exit(1);
    }
    printf("%s: %zu bytes\n", path, length);
}

/* A RESET session, after closing whatever is open, by whomever. */
static void start_again(struct script *s)
{
    s->speaker = SPEAKER_PANEL;
    sc_high(s);
    s->speaker = SPEAKER_CONTROLLER;
    sc_high(s);
    sc_reset(s);
}

/* The records of fixed cases one after another, from first up to past, then random ones. */
static void write_cases(const char *name, size_t first, size_t past, uint64_t seed, size_t tail)
{
    struct script s;
    struct gen g;
    script_init(&s);
    for (size_t i = first; i < past; i++) {
        case_at(i)->write(&s);
        start_again(&s);
    }
    gen_start(&g, GEN_MIXED, seed);
    for (size_t i = 0; i < tail; i++) {
        uint8_t record[RECORD_BYTES];
        gen_record(&g, record);
        sc_raw(&s, record, 0, 0);
    }
    write_file(name, s.records, RECORD_BYTES * s.count);
    script_free(&s);
}

/* The five-record example: READ of CANSTAT after power-on. */
static void write_five(void)
{
    struct script s;
    script_init(&s);
    sc_read(&s, CANSTAT, 0x80);
    write_file("five.log", s.records, RECORD_BYTES * s.count);
    script_free(&s);
}

/* Frames with and without a set, and records that are none; their lines are in sets.want. */
static void write_set_records(struct script *s)
{
    static const uint8_t damaged[RECORD_BYTES] = {KIND_FRAME, 0, LENGTH_CODE_MAX + 1};
    static const uint8_t damaged_exchange[RECORD_BYTES] = {KIND_EXCHANGE, KIND_FRAME, KIND_FRAME};
    sc_write(s, RXM1SIDH, 0xFF);
    sc_mode(s, MODE_NORMAL);
    sc_std(s, 0x123, RX_IN_RXB0);
    sc_std(s, 0x001, RX_LOST);
    sc_frame(s, FRAME_EXTENDED, 0x123, 0, NULL, RX_UNMATCHED);
    sc_raw(s, damaged, REFUSED_FIELD, 0);
    sc_rts(s, 1);
    sc_idle(s, 0);
    sc_refused(s, REFUSED_IN_FLIGHT, KIND_FRAME, 0);
    sc_end(s, END_SENT, 0);
    sc_mode(s, MODE_LOOPBACK);
    sc_std(s, 0x001, RX_NOT_LISTENING);
    sc_rts(s, 1);
    sc_idle(s, 0);
    sc_end(s, END_SENT, RX_LOST);
    sc_write(s, CANINTE, WAKIF);
    sc_mode(s, MODE_SLEEP);
    sc_std(s, 0x001, RX_WOKE);
    sc_std(s, 0x001, RX_LOST);
    sc_pin(s, 1, 0);
    sc_refused(s, REFUSED_FIELD, KIND_REQUEST_PIN, KIND_FRAME);
    sc_refused(s, REFUSED_FIELD, KINDS, KIND_FRAME);
    sc_raw(s, damaged_exchange, REFUSED_FIELD, 0);
}

/* A frame cut short is the last record. */
static void write_sets(void)
{
    struct script s;
    script_init(&s);
    write_set_records(&s);
    sc_std(&s, 0x001, RX_LOST);
    write_file("sets.log", s.records, RECORD_BYTES * s.count - 1);
    script_free(&s);
}

/* Logs of whole and of cut records, up to one record too many. */
static void write_lengths(uint8_t *log)
{
    static const uint8_t frame[RECORD_BYTES] = {KIND_FRAME};
    write_file("empty.log", log, 0);
    write_file("stub.log", log, 7);
    write_file("ragged.log", log, 1234 * RECORD_BYTES + 5);
    write_file("long.log", log, 40000 * RECORD_BYTES);
    write_file("full.log", log, MOST * RECORD_BYTES);
    write_file("full_ragged.log", log, MOST * RECORD_BYTES + 15);
    write_file("over.log", log, (MOST + 1) * RECORD_BYTES);
    write_file("over_ragged.log", log, (MOST + 1) * RECORD_BYTES + 1);
    memcpy(log + MOST * RECORD_BYTES, frame, RECORD_BYTES);
    write_file("full_frame_ragged.log", log, MOST * RECORD_BYTES + 15);
    write_file("over_frame.log", log, (MOST + 1) * RECORD_BYTES);
}

int main(int argc, char **argv)
{
    uint8_t *log = malloc(BYTES);
    if (argc < 2 || !log) {
        fprintf(stderr, "usage: mklogs directory [seed]\n");
        return 1;
    }
    directory = argv[1];
    uint64_t seed = argc > 2 ? strtoull(argv[2], NULL, 0) : 2515;

    write_five();
    write_sets();
    size_t at_panel = case_count() - panel_cases.count; /* in one log they would be too long */
    size_t at_pins = at_panel - pins_cases.count;
    size_t at_set = at_pins - set_cases.count;
    size_t at_match = at_set - match_cases.count;
    write_cases("marked.log", 0, marked_cases.count, seed, 1000);
    write_cases("cases.log", 0, at_match, seed + 1, 2000);
    write_cases("match.log", at_match, at_set, seed + 4, 2000);
    write_cases("set_cases.log", at_set, at_pins, seed + 5, 2000);
    write_cases("pins.log", at_pins, at_panel, seed + 6, 2000);
    write_cases("panel.log", at_panel, case_count(), seed + 7, 2000);
    gen_log(GEN_MIXED, seed + 2, log, MOST + 2);
    write_lengths(log);
    gen_noise(seed + 3, log, BYTES);
    write_file("noise.log", log, 20000 * RECORD_BYTES + 9);
    gen_swap_speakers(seed + 8, log, 20000);
    write_file("panel_noise.log", log, 20000 * RECORD_BYTES + 9);
    gen_log_alone(GEN_MIXED, seed + 9, log, 20000);
    write_file("alone.log", log, 20000 * RECORD_BYTES);
    free(log);
    return 0;
}
