#include "pair_logs.h"

#include <stdbool.h>
#include <stdio.h>
#include <stdlib.h>
#include <string.h>

#include "gen.h"
#include "registers.h"
#include "script.h"

const char *const pair_sort_name[PAIR_SORTS] = {
    "the same bytes twice", "a log and its own end", "equal copies",
    "one byte changed",     "one byte, no answer",   "one byte of a filter",
    "one request pin",      "one speaker",           "the speaker of one session",
    "records inserted",     "records removed",       "one cut short",
    "unrelated",            "alike, then parted",    "damaged here and there"};

static unsigned below(uint64_t *dice, size_t n)
{
    return (unsigned)((gen_next(dice) >> 33) % n);
}

struct log_pair pair_new(uint64_t seed)
{
    struct log_pair p = {0};
    for (unsigned i = 0; i < 2; i++) {
        p.buffer[i] = malloc(PAIR_BUFFER);
        if (!p.buffer[i]) {
            perror("memory");
            exit(1);
        }
        gen_noise(seed + i, p.buffer[i], PAIR_BUFFER);
    }
    return p;
}

void pair_free(struct log_pair *p)
{
    free(p->buffer[0]);
    free(p->buffer[1]);
}

/* One less than a small multiple of a block size, the multiple itself, or one more. */
static size_t near_block(uint64_t *dice)
{
    size_t block = (size_t)BLOCK_SMALLEST << below(dice, BLOCKS);
    return block * (1 + below(dice, 4)) + below(dice, 3) - 1;
}

size_t pair_records(uint64_t *dice)
{
    unsigned pick = below(dice, 100);
    if (pick < 45)
        return near_block(dice);
    if (pick < 70)
        return below(dice, 60);
    if (pick < 98)
        return below(dice, 1000);
    return 1000 + below(dice, 3000);
}

/* A place in a log of one record or more. */
static size_t some_place(uint64_t *dice, size_t records)
{
    size_t place = near_block(dice);
    unsigned pick = below(dice, 16);
    if (pick == 0)
        return 0;
    if (pick == 1)
        return records - 1;
    return pick < 10 && place < records ? place : below(dice, records);
}

static void some_log(uint64_t *dice, uint8_t *log, size_t records)
{
    unsigned pick = below(dice, 100);
    uint64_t seed = gen_next(dice);
    if (pick < 5)
        gen_noise(seed, log, RECORD_BYTES * records);
    else
        gen_log(pick < 15 ? GEN_QUIET : pick < 25 ? GEN_BUSY : GEN_MIXED, seed, log, records);
}

/* ---- the second log from the first ---- */

/* Each of these gets a first log of this many records, one or more, and the bytes of a
 * copy; it returns the records of the second. */
typedef size_t change_copy(const uint8_t *first, uint8_t *second, size_t records, uint64_t *dice);

static size_t keep(const uint8_t *first, uint8_t *second, size_t records, uint64_t *dice)
{
    (void)first, (void)second, (void)dice;
    return records;
}

static size_t change_byte(const uint8_t *first, uint8_t *second, size_t records, uint64_t *dice)
{
    size_t byte = RECORD_BYTES * some_place(dice, records);
    unsigned pick = below(dice, 4); /* often where the meaning is */
    byte += pick < 2 ? pick : below(dice, RECORD_BYTES);
    uint8_t turned = (uint8_t)(below(dice, 2) ? 1u << below(dice, 8) : 1 + below(dice, 255));
    second[byte] = first[byte] ^ turned;
    return records;
}

/* The exchange gets a reply, or nothing at all, whatever is sent. */
static bool sent_for_nothing(const struct model *m, const uint8_t *record)
{
    return record[0] == KIND_EXCHANGE && (m->open == OPEN_READ || m->open == OPEN_STATUS ||
                                          m->open == OPEN_RX_STATUS || m->open == OPEN_SPENT);
}

static bool is_pin(const struct model *m, const uint8_t *record)
{
    (void)m;
    return record[0] == KIND_REQUEST_PIN;
}

static bool is_spoken(const struct model *m, const uint8_t *record)
{
    (void)m;
    return record[0] <= KIND_SELECT_HIGH;
}

static bool is_select_low(const struct model *m, const uint8_t *record)
{
    (void)m;
    return record[0] == KIND_SELECT_LOW;
}

/* The last such record that is accepted up to a place, or else the first after it; the
 * number of records if there is none. */
static size_t find_record(const uint8_t *log, size_t records, uint64_t *dice,
                          bool (*wanted)(const struct model *, const uint8_t *))
{
    struct model m;
    size_t place = some_place(dice, records), found = records;
    model_power_on(&m);
    for (size_t i = 0; i < records && (i <= place || found == records); i++) {
        uint8_t refusal, answer;
        const uint8_t *record = log + RECORD_BYTES * i;
        bool is_wanted = wanted(&m, record);
        model_step(&m, record, &refusal, &answer);
        if (is_wanted && refusal == REFUSED_NOT)
            found = i;
    }
    return found;
}

static size_t change_silent(const uint8_t *first, uint8_t *second, size_t records, uint64_t *dice)
{
    size_t found = find_record(first, records, dice, sent_for_nothing);
    if (found < records)
        second[RECORD_BYTES * found + 1] ^= (uint8_t)(1 + below(dice, 255));
    return records;
}

/* Still a record that is accepted. */
static size_t change_pin(const uint8_t *first, uint8_t *second, size_t records, uint64_t *dice)
{
    size_t found = find_record(first, records, dice, is_pin);
    uint8_t *record = second + RECORD_BYTES * found;
    if (found == records)
        return records;
    if (below(dice, 2))
        record[2] ^= 1;
    else
        record[1] = (uint8_t)((record[1] + 1 + below(dice, 2)) % REQUEST_PINS);
    return records;
}

static size_t change_speaker(const uint8_t *first, uint8_t *second, size_t records, uint64_t *dice)
{
    size_t found = find_record(first, records, dice, is_spoken);
    if (found < records)
        second[RECORD_BYTES * found + 2] ^= SPEAKER_PANEL;
    return records;
}

/* Up to its select high: what the one may do, the other may not. */
static size_t change_session(const uint8_t *first, uint8_t *second, size_t records, uint64_t *dice)
{
    for (size_t i = find_record(first, records, dice, is_select_low); i < records; i++) {
        uint8_t *record = second + RECORD_BYTES * i;
        if (record[0] <= KIND_SELECT_HIGH && record[2] < SPEAKERS)
            record[2] ^= SPEAKER_PANEL;
        if (record[0] == KIND_SELECT_HIGH)
            break;
    }
    return records;
}

static size_t least(size_t a, size_t b)
{
    return a < b ? a : b;
}

/* Noise, or the records that stand there once more. */
static size_t insert(const uint8_t *first, uint8_t *second, size_t records, uint64_t *dice)
{
    size_t place = some_place(dice, records), extra = 1 + below(dice, 4);
    uint8_t *inserted = second + RECORD_BYTES * place;
    memcpy(inserted + RECORD_BYTES * extra, first + RECORD_BYTES * place,
           RECORD_BYTES * (records - place));
    if (below(dice, 2))
        gen_noise(gen_next(dice), inserted, RECORD_BYTES * extra);
    else
        memcpy(inserted, first + RECORD_BYTES * place,
               RECORD_BYTES * least(extra, records - place));
    return below(dice, 2) ? records : least(records + extra, LOG_RECORDS_MAX);
}

static size_t drop(const uint8_t *first, uint8_t *second, size_t records, uint64_t *dice)
{
    size_t place = some_place(dice, records), dropped = least(1 + below(dice, 4), records - place);
    memcpy(second + RECORD_BYTES * place, first + RECORD_BYTES * (place + dropped),
           RECORD_BYTES * (records - place - dropped));
    return records - dropped;
}

static size_t cut(const uint8_t *first, uint8_t *second, size_t records, uint64_t *dice)
{
    if (below(dice, 2))
        change_byte(first, second, records, dice);
    return some_place(dice, records);
}

static size_t replace(const uint8_t *first, uint8_t *second, size_t records, uint64_t *dice)
{
    (void)first;
    if (below(dice, 2) && records < LOG_RECORDS_MAX / 2)
        records = pair_records(dice);
    some_log(dice, second, records);
    return records;
}

static size_t damage(const uint8_t *first, uint8_t *second, size_t records, uint64_t *dice)
{
    (void)first;
    gen_damage(gen_next(dice), second, records);
    return records;
}

static change_copy *const changes[PAIR_SORTS] = {
    [PAIR_EQUAL] = keep,        [PAIR_ONE_BYTE] = change_byte, [PAIR_SILENT] = change_silent,
    [PAIR_PIN] = change_pin,    [PAIR_INSERTED] = insert,      [PAIR_REMOVED] = drop,
    [PAIR_CUT] = cut,           [PAIR_UNRELATED] = replace,    [PAIR_DAMAGED] = damage,
    [PAIR_SPEAKER] = change_speaker, [PAIR_SESSION] = change_session,
};

/* ---- pairs ---- */

static void part_ways(uint8_t *first, uint8_t *second, size_t records, uint64_t *dice)
{
    struct gen g, other;
    size_t place = some_place(dice, records);
    gen_start(&g, below(dice, 4) ? GEN_MIXED : GEN_BUSY, gen_next(dice));
    for (size_t i = 0; i < place; i++)
        gen_record(&g, first + RECORD_BYTES * i);
    memcpy(second, first, RECORD_BYTES * place);
    other = g;
    other.state = gen_next(dice);
    for (size_t i = place; i < records; i++) {
        gen_record(&g, first + RECORD_BYTES * i);
        gen_record(&other, second + RECORD_BYTES * i);
    }
}

/* A filter and the mask of RXB1, in Configuration, then a mode that receives. RXF0 and RXF1
 * and their mask stay 0: RXB0 takes every standard frame, whatever the others say. */
static void set_up_rxb1(struct script *s, uint8_t mode, uint64_t *dice)
{
    static const uint8_t filters[] = {RXF2SIDH, RXF3SIDH, RXF4SIDH, RXF5SIDH};
    static const uint32_t masks[] = {0, 0xFFE00000, 0xFFE0FF00, 0x0000FFFF, 0xFFE3FFFF};
    sc_write4(s, filters[below(dice, 4)], (uint32_t)gen_next(dice) & ~(uint32_t)(IDE << 16));
    sc_write4(s, RXM1SIDH, masks[below(dice, 5)]);
    sc_mode(s, mode);
}

/* A byte of the filter or of the mask differs, and nothing else. What follows is made for the
 * first log. */
static void filter_apart(uint8_t *first, uint8_t *second, size_t records, uint64_t *dice)
{
    enum { SESSION = 8, FIRST_BYTE = 3 }; /* after select low, the code and the address */
    static const uint8_t modes[] = {MODE_NORMAL, MODE_LISTEN_ONLY, MODE_LOOPBACK, MODE_LOOPBACK};
    struct script s;
    struct gen g;
    size_t byte = SESSION * below(dice, 2) + FIRST_BYTE + below(dice, 4);
    script_init(&s);
    gen_start(&g, below(dice, 4) ? GEN_BUSY : GEN_MIXED, gen_next(dice));
    g.mix.favoured = modes[below(dice, sizeof modes)];
    set_up_rxb1(&s, g.mix.favoured, dice);
    for (size_t i = 0; i < records; i++) {
        uint8_t *record = first + RECORD_BYTES * i, refusal, answer;
        if (i < s.count) {
            memcpy(record, s.records + RECORD_BYTES * i, RECORD_BYTES);
            model_step(&g.chip, record, &refusal, &answer);
        } else {
            gen_record(&g, record);
        }
    }
    memcpy(second, first, RECORD_BYTES * records);
    if (byte < records)
        second[RECORD_BYTES * byte + 1] ^= (uint8_t)(1 + below(dice, 255));
    script_free(&s);
}

static void swap_logs(struct log_pair *p)
{
    struct log_part first = p->first;
    p->first = p->second;
    p->second = first;
}

void pair_fill(struct log_pair *p, enum pair_sort sort, size_t records, uint64_t *dice)
{
    uint8_t *first = p->buffer[0], *second = p->buffer[1];
    size_t other = records;
    if (sort == PAIR_PARTED && records > 0) {
        part_ways(first, second, records, dice);
    } else if (sort == PAIR_FILTER) {
        filter_apart(first, second, records, dice);
    } else {
        some_log(dice, first, records);
        memcpy(second, first, RECORD_BYTES * records);
        if (changes[sort] && records > 0)
            other = changes[sort](first, second, records, dice);
    }
    if (sort == PAIR_TAIL)
        other = below(dice, records + 1);
    if (sort == PAIR_SAME_BYTES || sort == PAIR_TAIL)
        second = first + RECORD_BYTES * (records - other);
    p->first = (struct log_part){first, RECORD_BYTES * records};
    p->second = (struct log_part){second, RECORD_BYTES * other};
    if (below(dice, 2))
        swap_logs(p);
}

void pair_spoil(struct log_part *log, enum pair_length fault, uint64_t *dice)
{
    if (fault == LENGTH_TOO_LONG || fault == LENGTH_BOTH)
        log->length = (size_t)RECORD_BYTES * (LOG_RECORDS_MAX + 1 + below(dice, 3));
    if (fault == LENGTH_RAGGED || fault == LENGTH_BOTH)
        log->length += 1 + below(dice, RECORD_BYTES - 1);
}
