/*
 * Tests of the second model by itself: the fixed cases, the whole-log rule,
 * two logs side by side, chips no log can reach, the tidied list, and random
 * logs.
 */
#include <limits.h>
#include <stdarg.h>
#include <stdio.h>
#include <stdlib.h>
#include <string.h>

#include "cases.h"
#include "cover.h"
#include "differences.h"
#include "gen.h"
#include "match.h"
#include "model.h"
#include "registers.h"
#include "script.h"
#include "speed_logs.h"
#include "tidy.h"

static unsigned failures;

__attribute__((format(printf, 3, 4))) static void fail(const char *file, int line,
                                                       const char *format, ...)
{
    va_list args;
    va_start(args, format);
    printf("%s:%d: ", file, line);
    vprintf(format, args);
    printf("\n");
    va_end(args);
    failures++;
}

#define EXPECT(what, want, got)                                                       \
    do {                                                                              \
        long want_ = (long)(want), got_ = (long)(got);                                \
        if (want_ != got_)                                                            \
            fail(__FILE__, __LINE__, "%s: expected %ld, got %ld", what, want_, got_); \
    } while (0)

/* ---- fixed cases ---- */

struct outcome {
    uint8_t refusal, answer, set;
};

/* Lent as it must not stay: a step writes all three. */
static struct outcome step_gives(struct model *m, const uint8_t *record)
{
    struct outcome o = {0xAA, 0xAA, 0xAA};
    model_step_set(m, record, &o.refusal, &o.answer, &o.set);
    return o;
}

static bool same_outcome(const struct outcome *a, const struct outcome *b)
{
    return a->refusal == b->refusal && a->answer == b->answer && a->set == b->set;
}

static unsigned sets_by_hand;

/* What a script expects of the record that this chip meets. */
static struct outcome wanted(const struct script_want *want, const struct model *before,
                             const uint8_t *record)
{
    struct outcome o = {want->refusal, want->answer, (uint8_t)want->set};
    if (want->set == SET_UNSAID)
        o.set = (uint8_t)match_set_of_step(before, record, want->refusal);
    else
        sets_by_hand++;
    return o;
}

static void check_script(const char *name, const struct script *s)
{
    struct model m;
    model_power_on(&m);
    for (size_t i = 0; i < s->count; i++) {
        const uint8_t *record = s->records + RECORD_BYTES * i;
        struct outcome want = wanted(&s->want[i], &m, record), got = step_gives(&m, record);
        if (same_outcome(&want, &got))
            continue;
        fail(s->want[i].file, s->want[i].line,
             "%s: record %zu: expected refusal %u answer %02Xh set %02Xh, "
             "got refusal %u answer %02Xh set %02Xh", name, i + 1, want.refusal, want.answer,
             want.set, got.refusal, got.answer, got.set);
        return;
    }
    if (m.selected)
        fail(__FILE__, __LINE__, "%s: expected select high at the end, got low", name);
}

/* The whole-log call has to give the same, from the same records. */
static void check_script_as_log(const char *name, const struct script *s)
{
    uint8_t *answers = malloc(2 * s->count);
    long count = model_run_log(s->records, RECORD_BYTES * s->count, answers, 2 * s->count);
    if (count != (long)s->count)
        fail(__FILE__, __LINE__, "%s: expected %zu records, got %ld", name, s->count, count);
    for (size_t i = 0; count >= 0 && i < s->count; i++)
        if (answers[2 * i] != s->want[i].refusal || answers[2 * i + 1] != s->want[i].answer) {
            fail(s->want[i].file, s->want[i].line,
                 "%s: whole log, record %zu: expected %u %u, got %u %u", name, i + 1,
                 s->want[i].refusal, s->want[i].answer, answers[2 * i], answers[2 * i + 1]);
            break;
        }
    free(answers);
}

static void test_fixed_cases(void)
{
    struct script s;
    script_init(&s);
    for (size_t i = 0; i < case_count(); i++) {
        const struct fixed_case *c = case_at(i);
        script_clear(&s);
        c->write(&s);
        check_script(c->name, &s);
        check_script_as_log(c->name, &s);
    }
    script_free(&s);
}

/* ---- whole-log rule: refusals 6, 8 and 7 ---- */

enum { GUARD = 0xA5 };

static bool all_guard(const uint8_t *bytes, size_t length)
{
    for (size_t i = 0; i < length; i++)
        if (bytes[i] != GUARD)
            return false;
    return true;
}

static void test_whole_log_rule(void)
{
    enum { MOST = LOG_RECORDS_MAX, OVER = MOST + 1 };
    uint8_t *log = calloc(OVER + 1, RECORD_BYTES);
    uint8_t *answers = malloc(2 * OVER);
    static const struct {
        size_t log_len, answers_len;
        long want;
    } refused[] = {
        {1, 100, -6},
        {15, 0, -6},                                 /* 6 before 7 */
        {17, 100, -6},
        {OVER * RECORD_BYTES + 1, 2 * OVER, -6},     /* 6 before 8 */
        {OVER * RECORD_BYTES, 2 * OVER, -8},
        {OVER * RECORD_BYTES, 0, -8},                /* 8 before 7 */
        {RECORD_BYTES, 1, -7},
        {RECORD_BYTES, 0, -7},
        {10 * RECORD_BYTES, 19, -7},
        {MOST * RECORD_BYTES, 2 * MOST - 1, -7},
    };
    memset(answers, GUARD, 2 * OVER);
    for (size_t i = 0; i < sizeof refused / sizeof *refused; i++) {
        EXPECT("refused log", refused[i].want,
               model_run_log(log, refused[i].log_len, answers, refused[i].answers_len));
        EXPECT("answers untouched", true, all_guard(answers, 2 * OVER));
    }
    EXPECT("empty log", 0, model_run_log(log, 0, answers, 2 * OVER));
    EXPECT("empty log without buffers", 0, model_run_log(NULL, 0, NULL, 0));
    EXPECT("answers untouched", true, all_guard(answers, 2 * OVER));
    EXPECT("two records", 2, model_run_log(log, 2 * RECORD_BYTES, answers, 2 * OVER));
    EXPECT("second select low", REFUSED_SELECT, answers[2]);
    EXPECT("nothing past the answers", true, all_guard(answers + 4, 2 * OVER - 4));
    EXPECT("longest log", MOST, model_run_log(log, MOST * RECORD_BYTES, answers, 2 * MOST));
    EXPECT("nothing past the answers", true, all_guard(answers + 2 * MOST, 2));
    free(log);
    free(answers);
}

/* ---- two logs side by side ---- */

static unsigned pairs_compared;

static void check_pair(const struct pair_case *c)
{
    enum { PAST = 32 };
    struct log_part leftover;
    uint8_t *entries = malloc(c->entries_len + PAST);
    size_t written = c->result > 0 ? ENTRY_BYTES * (size_t)c->result : 0;
    memset(entries, GUARD, c->entries_len + PAST);
    int64_t got = model_compare_logs(c->first, c->first_len, c->second, c->second_len, entries,
                                     c->entries_len, &leftover);
    EXPECT(c->name, c->result, got);
    EXPECT(c->name, true, written == 0 || memcmp(entries, c->entries, written) == 0);
    EXPECT(c->name, true, all_guard(entries + written, c->entries_len + PAST - written));
    EXPECT(c->name, true, leftover.bytes == c->leftover.bytes);
    EXPECT(c->name, c->leftover.length, leftover.length);
    pairs_compared++;
    free(entries);
}

static void test_pairs(void)
{
    pair_cases(check_pair);
}

/* What differs, by what addresses hold, or NULL. */
static const char *state_difference(const struct model *a, const struct model *b)
{
    static char text[64];
    for (unsigned i = 0; i < 128; i++)
        if (model_holds(a, (uint8_t)i) != model_holds(b, (uint8_t)i)) {
            snprintf(text, sizeof text, "address %02Xh", i);
            return text;
        }
    if (a->tec != b->tec || a->rec != b->rec)
        return "counters";
    if (a->mode != b->mode || a->request != b->request)
        return "mode or mode request";
    if (a->flight != b->flight)
        return "flight";
    if (a->selected != b->selected)
        return "select";
    if (a->open != b->open || a->pointer != b->pointer || a->mask != b->mask ||
        a->clears != b->clears)
        return "open instruction";
    for (unsigned n = 0; n < REQUEST_PINS; n++)
        if (a->level[n] != b->level[n])
            return "level of a request pin";
    return NULL;
}

/* ---- chips that no log reaches ---- */

static struct model step(struct model m, uint8_t kind, uint8_t byte1, uint8_t want_refusal,
                         uint8_t want_answer)
{
    uint8_t record[RECORD_BYTES] = {kind, byte1}, refusal, answer;
    model_step(&m, record, &refusal, &answer);
    EXPECT("refusal", want_refusal, refusal);
    EXPECT("answer", want_answer, answer);
    return m;
}

static struct model step_pin(struct model m, uint8_t n, uint8_t level)
{
    uint8_t record[RECORD_BYTES] = {KIND_REQUEST_PIN, n, level}, refusal, answer;
    model_step(&m, record, &refusal, &answer);
    EXPECT("refusal of a pin record", REFUSED_NOT, refusal);
    EXPECT("answer to a pin record", 0, answer);
    return m;
}

static struct model chip_in(uint8_t mode)
{
    struct model m;
    model_power_on(&m);
    m.mode = mode;
    return m;
}

static void test_unreached_requests(void)
{
    struct model m = chip_in(MODE_CONFIGURATION);
    m.request = MODE_NORMAL;
    struct model after = step(m, KIND_SELECT_HIGH, 0, REFUSED_SELECT, 0);
    EXPECT("a refused step leaves the chip", 0, memcmp(&m, &after, sizeof m));
    after = step(m, KIND_RECEIVE_ERROR, 0, REFUSED_NOT, 0);
    EXPECT("any accepted step carries a request out", MODE_NORMAL, after.mode);
    EXPECT("after the step's own act", 0, after.rec);
    EXPECT("request", NO_REQUEST, after.request);

    m = chip_in(MODE_SLEEP);
    m.request = MODE_LOOPBACK;
    m.tec = 100;
    m.reg[CANINTE] = WAKIF;
    after = step(m, KIND_FRAME, 0, REFUSED_NOT, RX_WOKE);
    EXPECT("waking, then the request", MODE_LOOPBACK, after.mode);
    EXPECT("WAKIF", WAKIF, after.reg[CANINTF]);
    EXPECT("TEC, by Listen-Only in between", 0, after.tec);

    m = chip_in(MODE_CONFIGURATION);
    m.request = MODE_CONFIGURATION;
    m.rec = 9;
    after = step(m, KIND_BUS_IDLE, 0, REFUSED_NOT, NO_FLIGHT);
    EXPECT("entering the present mode clears REC", 0, after.rec);
}

/* From a chip that a log reaches no pin record can carry a request out: TXREQ or a flight
 * holds it before the step and after it. */
static void test_unreached_requests_by_pins(void)
{
    for (uint8_t mode = 0; mode < MODES; mode++)
        for (uint8_t was = 0; was < 2; was++)
            for (uint8_t is = 0; is < 2; is++)
                for (uint8_t enables = 0; enables < 8; enables++) {
                    struct model m = chip_in(mode);
                    bool sends = mode == MODE_NORMAL || mode == MODE_LOOPBACK;
                    bool requests = was && !is && (enables & 2);
                    m.request = mode == MODE_SLEEP ? MODE_NORMAL : MODE_SLEEP;
                    m.reg[TXRTSCTRL] = enables;
                    m.level[1] = was;
                    struct model after = step_pin(m, 1, is);
                    EXPECT("TXREQ by the pin", requests ? TXREQ : 0, after.reg[TXB1CTRL]);
                    EXPECT("a request after a pin record, which TXREQ may hold",
                           sends && requests ? mode : m.request, after.mode);
                    EXPECT("and then still waits", sends && requests ? m.request : NO_REQUEST,
                           after.request);
                }
    struct model m = chip_in(MODE_NORMAL);
    m.request = MODE_SLEEP;
    m.flight = 0;
    EXPECT("a flight holds it too", MODE_NORMAL, step_pin(m, 0, 0).mode);
}

/* A request over TXREQ with every flag, which no log reaches with ABTF. */
static void test_unreached_pin_flags(void)
{
    for (unsigned ctrl = 0; ctrl < 256; ctrl++)
        for (unsigned abat = 0; abat < 2; abat++) {
            struct model m = chip_in(MODE_CONFIGURATION);
            uint8_t set = (uint8_t)((ctrl & ~(ABTF | MLOA | TXERR)) | TXREQ);
            m.reg[TXRTSCTRL] = 4;
            m.reg[TXB2CTRL] = (uint8_t)ctrl;
            if (abat)
                m.reg[CANCTRL] |= ABAT;
            struct model after = step_pin(m, 2, 0);
            EXPECT("TXB2CTRL after a fall", (ctrl & TXREQ) || abat ? ctrl : set,
                   after.reg[TXB2CTRL]);
            m.reg[TXB2CTRL] = after.reg[TXB2CTRL];
            m.level[2] = 0;
            EXPECT("nothing else moves", 0, memcmp(&m, &after, sizeof m));
        }
}

/* Bits 7, 6 and 2-0 are held as stored, bits 5-3 are not, of whatever chip. */
static void test_unreached_txrtsctrl(void)
{
    for (uint8_t mode = 0; mode < MODES; mode++)
        for (unsigned stored = 0; stored < 256; stored++)
            for (unsigned levels = 0; levels < 8; levels++) {
                struct model m = chip_in(mode);
                uint8_t want = (uint8_t)((stored & 0xC7) | (levels & ~stored & 7) << 3);
                m.reg[TXRTSCTRL] = (uint8_t)stored;
                for (unsigned n = 0; n < REQUEST_PINS; n++)
                    m.level[n] = levels >> n & 1;
                EXPECT("TXRTSCTRL held", want, model_holds(&m, TXRTSCTRL));
                EXPECT("TXRTSCTRL read", want, model_reads(&m, TXRTSCTRL));
                EXPECT("TXRTSCTRL read above 7Fh", want, model_reads(&m, 0x80 | TXRTSCTRL));
            }
}

static void test_unreached_abort(void)
{
    struct model m = chip_in(MODE_NORMAL);
    m.selected = 1;
    m.open = OPEN_WRITE;
    m.pointer = CANCTRL;
    m.reg[CANCTRL] = ABAT;
    m.reg[TXB0CTRL] = TXREQ;
    struct model after = step(m, KIND_EXCHANGE, ABAT, REFUSED_NOT, 0);
    EXPECT("a store with ABAT already set aborts too", ABTF, after.reg[TXB0CTRL]);
}

static void test_unreached_flights(void)
{
    for (uint8_t mode = 0; mode < MODES; mode++) {
        struct model m = chip_in(mode);
        m.flight = 1;
        m.reg[TXB1CTRL] = TXREQ;
        m.tec = 20;
        if (mode == MODE_LOOPBACK)
            continue;
        struct model after = step(m, KIND_FRAME_ENDS, END_ERROR, REFUSED_NOT, 0);
        EXPECT("TEC after an error", mode == MODE_NORMAL ? 28 : 20, after.tec);
        EXPECT("TXERR", TXREQ | TXERR, after.reg[TXB1CTRL]);
        EXPECT("MERRF", MERRF, after.reg[CANINTF]);
        EXPECT("flight", NO_FLIGHT, after.flight);
        after = step(m, KIND_FRAME_ENDS, END_SENT, REFUSED_NOT, 0);
        EXPECT("TEC after a send", mode == MODE_NORMAL ? 19 : 20, after.tec);
        EXPECT("TX1IF", TX1IF, after.reg[CANINTF]);
        EXPECT("no frame received", 0, after.reg[CANINTF] & (RX0IF | RX1IF));
    }
}

static void test_unreached_counters(void)
{
    struct model m = chip_in(MODE_NORMAL);
    m.flight = 0;
    m.tec = 260;
    EXPECT("TEC stops", 263, step(m, KIND_FRAME_ENDS, END_ERROR, REFUSED_NOT, 0).tec);
    m.tec = 256;
    EXPECT("TEC falls", 255, step(m, KIND_FRAME_ENDS, END_SENT, REFUSED_NOT, 0).tec);
    m = chip_in(MODE_NORMAL);
    m.rec = 250;
    EXPECT("REC stops", 255, step(m, KIND_RECEIVE_ERROR, 1, REFUSED_NOT, 0).rec);
    m.mode = MODE_LISTEN_ONLY;
    EXPECT("REC rests", 250, step(m, KIND_FRAME, 0, REFUSED_NOT, RX_IN_RXB0).rec);
    for (uint8_t mode = 0; mode < MODES; mode++) {
        m = chip_in(mode);
        m.tec = 300;
        m.reg[TXB0CTRL] = TXREQ;
        step(m, KIND_FRAME, 0, REFUSED_NOT, RX_NOT_LISTENING);
        step(m, KIND_BUS_IDLE, 0, REFUSED_NOT, NO_FLIGHT);
        EXPECT("TEC reads", 255, model_reads(&m, TEC));
        EXPECT("recovery", 0, step(m, KIND_RECOVERY, 0, REFUSED_NOT, 0).tec);
    }
}

/* The chip once RXB0, by RXM 11, has taken a standard frame with the identifier 0. */
static struct model with_rxb0(struct model m, bool remote, uint8_t length_code,
                              const uint8_t *data)
{
    uint8_t *rxb0 = &m.reg[RXB0CTRL];
    rxb0[0] = RXM | (remote ? RXRTR : 0);
    rxb0[SIDL] = remote ? SRR : 0;
    rxb0[DLC] = length_code;
    for (unsigned i = 0; i < DATA_BYTES_MAX; i++)
        if (!remote && i < length_code)
            rxb0[D0 + i] = data[i];
    m.reg[CANINTF] |= RX0IF;
    return m;
}

/* Bits 7, 5 and 4 of a DLC byte are no part of the length code, and the byte
 * behind data byte 7 is no data, of whatever chip. */
static void test_unreached_length_codes(void)
{
    for (unsigned dlc = 0; dlc < 256; dlc++) {
        struct model m = chip_in(MODE_LOOPBACK);
        const uint8_t *data = &m.reg[TXB2CTRL + D0];
        m.flight = 2;
        m.reg[RXB0CTRL] = RXM;
        memset(&m.reg[TXB2CTRL + D0], 0x99, 9);
        m.reg[TXB2CTRL + DLC] = (uint8_t)dlc;
        struct model want = with_rxb0(m, dlc & RTR, dlc & 0x0F, data);
        want.flight = NO_FLIGHT;
        want.reg[CANINTF] |= TX2IF;
        struct model after = step(m, KIND_FRAME_ENDS, END_SENT, REFUSED_NOT, RX_IN_RXB0);
        EXPECT("the chip after any DLC byte was sent", 0, memcmp(&want, &after, sizeof want));
    }
}

/* Bits 4 and 2 of a SIDL byte are no part of the identifier, of whatever chip; bits 1-0
 * and the EID bytes are none of a standard one. */
static void test_unreached_identifiers(void)
{
    for (unsigned sidl = 0; sidl < 256; sidl++) {
        struct model m = chip_in(MODE_LOOPBACK);
        bool extended = sidl & IDE;
        m.flight = 0;
        m.reg[RXB0CTRL] = RXM;
        m.reg[TXB0CTRL + SIDL] = (uint8_t)sidl;
        m.reg[TXB0CTRL + EID8] = 0x56;
        m.reg[TXB0CTRL + EID0] = 0x78;
        struct model want = with_rxb0(m, false, 0, NULL);
        want.flight = NO_FLIGHT;
        want.reg[CANINTF] |= TX0IF;
        want.reg[RXB0CTRL + SIDL] = (uint8_t)(sidl & (extended ? 0xEB : 0xE0));
        want.reg[RXB0CTRL + EID8] = extended ? 0x56 : 0;
        want.reg[RXB0CTRL + EID0] = extended ? 0x78 : 0;
        struct model after = step(m, KIND_FRAME_ENDS, END_SENT, REFUSED_NOT, RX_IN_RXB0);
        EXPECT("the chip after any SIDL byte was sent", 0, memcmp(&want, &after, sizeof want));
    }
}

/* A ninth byte behind the record is not looked at and not stored. */
static void check_no_ninth_byte(bool remote, uint8_t length_code)
{
    uint8_t record[RECORD_BYTES + 8] = {KIND_FRAME, remote ? FRAME_REMOTE : 0, length_code};
    uint8_t refusal, answer;
    struct model m = chip_in(MODE_NORMAL);
    m.reg[RXB0CTRL] = RXM;
    memset(record + RECORD_BYTES, 0x99, 8);
    for (unsigned i = 0; i < DATA_BYTES_MAX; i++)
        if (!remote && i < length_code)
            record[8 + i] = 0x77;
    struct model want = with_rxb0(m, remote, length_code, record + 8);
    model_step(&m, record, &refusal, &answer);
    EXPECT("refusal", REFUSED_NOT, refusal);
    EXPECT("the chip after any length code was heard", 0, memcmp(&want, &m, sizeof want));
}

static void test_no_ninth_byte(void)
{
    for (uint8_t length_code = 0; length_code <= LENGTH_CODE_MAX; length_code++) {
        check_no_ninth_byte(false, length_code);
        check_no_ninth_byte(true, length_code);
    }
}

/* A chip that listens, with any bytes in filters and masks. By WRITE no log
 * sets SIDL bits 4 and 2 there, nor bit 3 of a mask. */
static struct model chip_with_any_filters(uint64_t *state)
{
    struct model m = chip_in(MODE_LISTEN_ONLY);
    for (unsigned a = RXF0SIDH; a < CNF3; a++)
        if ((a & 0x0F) < BFPCTRL)
            m.reg[a] = (uint8_t)(gen_next(state) >> 40);
    return m;
}

/* A frame that mostly misses a filter by one bit or none. */
static void aimed_record(uint8_t record[RECORD_BYTES], uint32_t filter, uint64_t dice)
{
    uint8_t remote = dice >> 40 & 3 ? 0 : FRAME_REMOTE, length_code = dice >> 44 & 3;
    uint8_t extended = filter & MATCH_EXIDE ? FRAME_EXTENDED : 0;
    match_record(record, remote | ((dice >> 50) % 16 ? extended : extended ^ FRAME_EXTENDED),
                 length_code, dice & 64 ? filter : filter ^ 1u << dice % 32);
}

/* Against match.c. */
static void test_unreached_matches(uint64_t state)
{
    for (unsigned i = 0; i < 100000; i++) {
        struct model m = chip_with_any_filters(&state);
        uint8_t record[RECORD_BYTES];
        aimed_record(record, match_filter(&m, i % MATCH_FILTERS), gen_next(&state));
        struct match_frame frame = match_heard(record);
        unsigned set = match_set(&m, &frame), hit = set ? (unsigned)__builtin_ctz(set) : 0;
        struct outcome got = step_gives(&m, record);
        EXPECT("any filters and masks",
               set == 0  ? RX_UNMATCHED
               : hit < 2 ? RX_IN_RXB0
                         : RX_IN_RXB1,
               got.answer);
        EXPECT("their set", set, got.set);
        if (set)
            EXPECT("the lowest of them", hit, m.reg[hit < 2 ? RXB0CTRL : RXB1CTRL] & FILHIT);
        if (failures > 0)
            return;
    }
}

/* The hit that a buffer gives for a frame with this share of the set. */
static unsigned hit_by(uint8_t ctrl, unsigned share)
{
    return (ctrl & RXM) == RXM ? 0 : (unsigned)__builtin_ctz(share);
}

/* Answer and hit follow from the set of a frame that is heard. */
static const char *broken_hit(const struct model *before, const struct outcome *o,
                              const struct model *after)
{
    uint8_t ctrl_0 = before->reg[RXB0CTRL], ctrl_1 = before->reg[RXB1CTRL];
    unsigned of_rxb0 = o->set & MATCH_OF_RXB0, of_rxb1 = o->set & MATCH_OF_RXB1;
    bool for_rxb0 = of_rxb0 || (ctrl_0 & RXM) == RXM, for_rxb1 = of_rxb1 || (ctrl_1 & RXM) == RXM;
    if ((o->answer == RX_UNMATCHED) != (!for_rxb0 && !for_rxb1))
        return "a frame is unmatched where its set is empty and no RXM is 11";
    if (o->answer == RX_IN_RXB0 &&
        (!for_rxb0 || (after->reg[RXB0CTRL] & FILHIT0) != hit_by(ctrl_0, of_rxb0)))
        return "RXB0's hit is the lowest of its share of the set";
    if (o->answer == RX_IN_RXB1 &&
        (after->reg[RXB1CTRL] & FILHIT) !=
            (for_rxb0 ? hit_by(ctrl_0, of_rxb0) : hit_by(ctrl_1, of_rxb1)))
        return "RXB1's hit is the lowest of its share of the set, rolled over that of RXB0's";
    return NULL;
}

/* A set that is none by match.c, or that the chip does not go by. */
static const char *broken_set(const struct model *before, const uint8_t *record,
                              const struct outcome *o, const struct model *after)
{
    bool heard = record[0] == KIND_FRAME
                     ? o->answer <= RX_LOST
                     : record[0] == KIND_FRAME_ENDS && before->mode == MODE_LOOPBACK;
    if (o->set != match_set_of_step(before, record, o->refusal))
        return "the set is that of match.c";
    return heard && o->refusal == REFUSED_NOT ? broken_hit(before, o, after) : NULL;
}

/* Any bytes, with few mask bits, so that filters match. */
static struct model chip_with_any_bytes(uint8_t mode, uint64_t *state)
{
    struct model m = chip_in(mode);
    for (unsigned a = 0; a < COVER_ADDRESSES; a++)
        m.reg[a] = (uint8_t)(gen_next(state) >> 40);
    for (unsigned a = RXM0SIDH; a < CNF3; a++)
        m.reg[a] &= (uint8_t)(gen_next(state) & gen_next(state));
    return m;
}

/* Frames and own frames' ends in any mode, in bus-off or not, in flight or not. */
static void test_unreached_sets(uint64_t state)
{
    unsigned long met[4] = {0};
    for (unsigned i = 0; i < 60000; i++) {
        bool end = i / MODES % 2;
        uint64_t dice = gen_next(&state);
        uint8_t record[RECORD_BYTES] = {KIND_FRAME_ENDS, dice >> 20 & 3 ? END_SENT : dice & 3};
        struct model m = chip_with_any_bytes((uint8_t)(i % MODES), &state);
        m.tec = dice >> 30 & 3 ? 0 : TEC_BUS_OFF;
        m.flight = end || dice >> 40 & 1 ? (uint8_t)(dice >> 50 & 3) : NO_FLIGHT;
        if (!end)
            aimed_record(record, match_filter(&m, i % MATCH_FILTERS), gen_next(&state));
        struct model before = m;
        struct outcome got = step_gives(&m, record);
        const char *fact = broken_set(&before, record, &got, &m);
        if (fact) {
            fail(__FILE__, __LINE__, "chip %u: expected that %s", i, fact);
            return;
        }
        met[2 * end + (got.set != 0)]++;
    }
    for (unsigned i = 0; i < 4; i++)
        EXPECT("frames and ends, without a set and with one", true, met[i] > 1000);
}

/* What a chip after RESET has other than the rule says, or NULL. */
static const char *broken_reset(const struct model *before, const struct model *after)
{
    struct model want;
    memset(&want, 0, sizeof want);
    for (unsigned a = 0; a < COVER_ADDRESSES; a++)
        if (cover_reset_keeps(a))
            want.reg[a] = before->reg[a];
    want.reg[CANCTRL] = 0x87;
    want.mode = MODE_CONFIGURATION;
    want.request = NO_REQUEST;
    want.flight = NO_FLIGHT;
    want.selected = 1;
    want.open = OPEN_SPENT;
    memcpy(want.level, before->level, sizeof want.level);
    return model_int_low(after) ? "INT" : state_difference(&want, after);
}

/* Any bytes, mode, flight, request and levels at all. */
static void test_unreached_resets(uint64_t state)
{
    for (unsigned i = 0; i < 5000; i++) {
        struct model m = chip_in((uint8_t)(i % MODES));
        for (unsigned a = 0; a < COVER_ADDRESSES; a++)
            m.reg[a] = (uint8_t)(gen_next(&state) >> 40);
        m.tec = (uint16_t)(gen_next(&state) >> 40) % 600;
        m.rec = (uint8_t)(gen_next(&state) >> 40);
        m.flight = (uint8_t)(i / MODES % (NO_FLIGHT + 1));
        m.request = i & 1 ? NO_REQUEST : (uint8_t)(i / 20 % MODES);
        for (unsigned n = 0; n < REQUEST_PINS; n++)
            m.level[n] = i / 100 >> n & 1;
        m.selected = 1;
        m.open = OPEN_CODE;
        struct model after = step(m, KIND_EXCHANGE, SPI_RESET, REFUSED_NOT, 0);
        const char *difference = broken_reset(&m, &after);
        if (difference)
            fail(__FILE__, __LINE__, "chip %u after RESET: %s differs", i, difference);
    }
}

/* ---- the panel on chips that no log reaches ---- */

static const uint8_t panel_codes[] = {SPI_READ, SPI_READ_STATUS, SPI_RX_STATUS, 0x94,
                                      0x96,     0x44,            0x45,          0x84};

/* What a byte by the panel is to leave alone: nothing that it may start, or an instruction
 * that it cannot have opened, or one that has gone as far as it goes. */
static bool panel_does_nothing(const struct model *m)
{
    switch (m->open) {
    case OPEN_READ:
        return m->clears == RX0IF ||
               (m->clears == RX1IF && (m->pointer < 0x71 || m->pointer > 0x7D));
    case OPEN_WRITE:
        return m->pointer < 0x51 || m->pointer > 0x5D;
    }
    return m->open >= OPEN_WRITE_ADDRESS && m->open <= OPEN_MODIFY_DATA;
}

/* A chip that the controller's step would leave, but for who has selected. */
static struct model step_as_controller(struct model m, uint8_t kind, uint8_t sent, uint8_t *answer)
{
    uint8_t record[RECORD_BYTES] = {kind, sent}, refusal;
    m.selected = SELECT_BY_CONTROLLER;
    model_step(&m, record, &refusal, answer);
    if (m.selected != SELECT_HIGH)
        m.selected = SELECT_BY_PANEL;
    return m;
}

/* A byte that does nothing: a mode request that is free to go goes all the same. */
static struct model step_in_vain(struct model m, uint8_t *reply)
{
    struct model spent = m;
    spent.open = OPEN_SPENT;
    spent = step_as_controller(spent, KIND_EXCHANGE, 0, reply);
    spent.open = m.open;
    return spent;
}

static void check_panel_byte(const struct model *m, uint8_t sent)
{
    uint8_t record[RECORD_BYTES] = {KIND_EXCHANGE, sent, SPEAKER_PANEL}, reply;
    struct model want = step_as_controller(*m, KIND_EXCHANGE, sent, &reply), got = *m;
    bool forbidden = m->open == OPEN_CODE && !memchr(panel_codes, sent, sizeof panel_codes);
    if (forbidden || panel_does_nothing(m))
        want = step_in_vain(*m, &reply);
    if (forbidden) {
        want.open = OPEN_SPENT;
        want.pointer = want.mask = 0;
    }
    struct outcome o = step_gives(&got, record);
    EXPECT("refusal of a byte by the panel", REFUSED_NOT, o.refusal);
    EXPECT("reply to the panel", reply, o.answer);
    EXPECT("the chip after a byte by the panel", 0, memcmp(&want, &got, sizeof got));
}

/* Select high clears RX1IF where the controller's would, and never RX0IF. */
static void check_panel_high(const struct model *m)
{
    uint8_t record[RECORD_BYTES] = {KIND_SELECT_HIGH, 0, SPEAKER_PANEL}, none;
    struct model want = step_as_controller(*m, KIND_SELECT_HIGH, 0, &none), got = *m;
    want.reg[CANINTF] = (uint8_t)((want.reg[CANINTF] & ~RX0IF) | (m->reg[CANINTF] & RX0IF));
    EXPECT("refusal of select high by the panel", REFUSED_NOT, step_gives(&got, record).refusal);
    EXPECT("the chip after select high by the panel", 0, memcmp(&want, &got, sizeof got));
}

/* By the other: refusals 18, 1 for select low, and 2 before both. */
static void check_other_speaker(const struct model *m)
{
    bool panels = m->selected == SELECT_BY_PANEL;
    for (unsigned i = 0; i < 3 * 6; i++) {
        static const uint8_t speakers[] = {0, 1, 2, 3, 128, 255};
        uint8_t kind = (uint8_t)(i % 3), speaker = speakers[i / 3];
        uint8_t record[RECORD_BYTES] = {kind, 0, speaker};
        struct model got = *m;
        if (kind != KIND_SELECT_LOW && speaker == panels)
            continue;
        EXPECT("refusal by who speaks",
               speaker > 1               ? REFUSED_FIELD
               : kind == KIND_SELECT_LOW ? REFUSED_SELECT
                                         : REFUSED_SPEAKER,
               step_gives(&got, record).refusal);
        EXPECT("nothing changes", 0, memcmp(m, &got, sizeof got));
        record[kind == KIND_EXCHANGE || i & 1 ? 15 : 1] = 1;
        EXPECT("a field comes first", REFUSED_FIELD, step_gives(&got, record).refusal);
    }
}

static void check_panel_chip(const struct model *m)
{
    static const uint8_t sent[] = {0x00, 0x03, 0x5A, 0x84, 0x94, 0xFF};
    if (m->open == OPEN_CODE)
        for (unsigned code = 0; code < 256; code++)
            check_panel_byte(m, (uint8_t)code);
    for (unsigned i = 0; i < sizeof sent; i++)
        check_panel_byte(m, sent[i]);
    check_panel_high(m);
    check_other_speaker(m);
    struct model other = *m;
    other.selected = SELECT_BY_CONTROLLER;
    check_other_speaker(&other);
}

/* Every open instruction at every address, with any bytes in the registers, in every mode. */
static void test_unreached_panel(uint64_t state)
{
    static const uint8_t cleared[] = {0, RX0IF, RX1IF};
    for (unsigned i = 0; i < 2 * MODES * COVER_ADDRESSES; i++) {
        struct model m = chip_in((uint8_t)(i / 2 % MODES));
        for (unsigned a = 0; a < COVER_ADDRESSES; a++)
            m.reg[a] = (uint8_t)(gen_next(&state) >> 40);
        m.reg[TXB2CTRL] &= i & 1 ? (uint8_t)~TXREQ : 0xFF;
        m.flight = (uint8_t)(gen_next(&state) >> 40) % (NO_FLIGHT + 1);
        m.request = i & 1 ? NO_REQUEST : MODE_SLEEP;
        m.selected = SELECT_BY_PANEL;
        for (m.open = OPEN_CODE; m.open <= OPEN_SPENT && failures == 0; m.open++) {
            m.pointer = (uint8_t)(i / (2 * MODES));
            for (unsigned j = 0; j < (m.open == OPEN_READ ? 3 : 1); j++) {
                m.clears = cleared[j];
                check_panel_chip(&m);
            }
            m.clears = 0;
        }
    }
}

/* With select high everybody may select, and there is nobody to be refused for. */
static void test_nobody_speaks(void)
{
    for (unsigned i = 0; i < 4; i++) {
        uint8_t speaker = i & 1, kind = i & 2 ? KIND_EXCHANGE : KIND_SELECT_HIGH;
        uint8_t record[RECORD_BYTES] = {kind, 0, speaker}, low[RECORD_BYTES] = {0, 0, speaker};
        struct model m = chip_in(MODE_NORMAL), before = m;
        EXPECT("with select high", REFUSED_SELECT, step_gives(&m, record).refusal);
        EXPECT("nothing changes", 0, memcmp(&before, &m, sizeof m));
        EXPECT("select low by anybody", REFUSED_NOT, step_gives(&m, low).refusal);
        EXPECT("by whom", speaker ? SELECT_BY_PANEL : SELECT_BY_CONTROLLER, m.selected);
    }
}

static void test_unreached(uint64_t seed)
{
    test_unreached_requests();
    test_unreached_requests_by_pins();
    test_unreached_pin_flags();
    test_unreached_txrtsctrl();
    test_unreached_abort();
    test_unreached_flights();
    test_unreached_counters();
    test_unreached_length_codes();
    test_unreached_identifiers();
    test_unreached_resets(seed);
    test_unreached_matches(seed);
    test_unreached_sets(seed);
    test_unreached_panel(seed);
    test_nobody_speaks();
}

/* The one definition that model and generator share, against the rule's words.
 * Nothing else is tried if it is wrong: random records are filled by it. */
static void test_data_bytes(void)
{
    static const uint8_t want[LENGTH_CODE_MAX + 1] = {0, 1, 2, 3, 4, 5, 6, 7,
                                                      8, 8, 8, 8, 8, 8, 8, 8};
    for (uint8_t i = 0; i <= LENGTH_CODE_MAX; i++) {
        EXPECT("data bytes of a length code", want[i], model_data_bytes(i));
        EXPECT("data bytes of a data frame", want[i], model_carried_bytes(false, i));
        EXPECT("data bytes of a remote frame", 0, model_carried_bytes(true, i));
    }
    if (failures > 0)
        exit(1);
}

/* Power-on leaves nothing of what the memory had. */
static void test_power_on(void)
{
    struct model zeros, used;
    memset(&zeros, 0, sizeof zeros);
    memset(&used, 0xFF, sizeof used);
    model_power_on(&used);
    zeros.reg[CANCTRL] = 0x87;
    zeros.mode = MODE_CONFIGURATION;
    zeros.request = NO_REQUEST;
    zeros.flight = NO_FLIGHT;
    zeros.level[0] = zeros.level[1] = zeros.level[2] = 1;
    EXPECT("power-on", 0, memcmp(&zeros, &used, sizeof zeros));
}

static void test_held_and_read(void)
{
    struct model m = chip_in(MODE_NORMAL);
    m.reg[RXF0SIDH] = 0x12;
    EXPECT("filter held", 0x12, model_holds(&m, RXF0SIDH));
    EXPECT("filter read outside Configuration", 0, model_reads(&m, RXF0SIDH));
    EXPECT("mask address above 7Fh", 0, model_reads(&m, 0x80 | RXM1SIDH));
    m.mode = MODE_CONFIGURATION;
    EXPECT("filter read in Configuration", 0x12, model_reads(&m, RXF0SIDH));
}

/* Every address is told from the others, and has its like above 7Fh. */
static void test_addresses_above_7f(void)
{
    for (uint8_t mode = MODE_NORMAL; mode < MODES; mode++) {
        struct model m = chip_in(mode);
        for (unsigned a = 0; a < 128; a++)
            m.reg[a] = (uint8_t)(a ^ 0x5A);
        m.reg[EFLG] = RX1OVR;
        m.tec = 40;
        m.rec = 100;
        for (unsigned a = 0; a < 128; a++) {
            uint8_t low = (uint8_t)a, above = (uint8_t)(0x80 | a);
            bool filter = a < 0x28 && (a & 0x0F) < 0x0C;
            uint8_t held = (a & 0x0F) == CANCTRL ? CANCTRL ^ 0x5A
                           : a == TEC            ? 40
                           : a == REC            ? 100
                           : a == EFLG           ? RX1OVR | RXWAR | EWARN
                           : a == TXRTSCTRL      ? 0x47 /* every pin enabled: no level shows */
                                                 : (uint8_t)(a ^ 0x5A);
            if ((a & 0x0F) == CANSTAT) /* CANINTE 71h and CANINTF 76h share TX2IF, WAKIF, ERRIF */
                held = (uint8_t)(mode << 5 | 1 << 1);
            EXPECT("held", held, model_holds(&m, low));
            EXPECT("held above 7Fh", held, model_holds(&m, above));
            held = filter && mode != MODE_CONFIGURATION ? 0 : held;
            EXPECT("read", held, model_reads(&m, low));
            EXPECT("read above 7Fh", held, model_reads(&m, above));
        }
    }
}

/* ---- INT ---- */

static void raise_rx0if(struct script *s)
{
    sc_std(s, 0x123, RX_IN_RXB0);
}

static void raise_rx1if(struct script *s)
{
    sc_write(s, RXB0CTRL, BUKT);
    sc_std(s, 0x123, RX_IN_RXB0);
    sc_std(s, 0x123, RX_IN_RXB1);
}

static void raise_txif(struct script *s, uint8_t n)
{
    sc_rts(s, (uint8_t)(1u << n));
    sc_idle(s, n);
    sc_end(s, END_SENT, 0);
}

static void raise_tx0if(struct script *s)
{
    raise_txif(s, 0);
}

static void raise_tx1if(struct script *s)
{
    raise_txif(s, 1);
}

static void raise_tx2if(struct script *s)
{
    raise_txif(s, 2);
}

static void raise_errif(struct script *s)
{
    sc_std(s, 0x123, RX_IN_RXB0);
    sc_std(s, 0x123, RX_LOST);
}

static void raise_wakif(struct script *s)
{
    sc_mode(s, MODE_SLEEP);
    sc_std(s, 0x123, RX_WOKE);
}

static void raise_merrf(struct script *s)
{
    sc_rx_error(s, 0);
}

/* INT after the script, which has to go as written. */
static bool int_after(const struct script *s)
{
    struct model m;
    model_power_on(&m);
    for (size_t i = 0; i < s->count; i++) {
        uint8_t refusal, answer;
        model_step(&m, s->records + RECORD_BYTES * i, &refusal, &answer);
        EXPECT("refusal on the way to INT", s->want[i].refusal, refusal);
        EXPECT("answer on the way to INT", s->want[i].answer, answer);
    }
    return model_int_low(&m);
}

/* Each source brings INT low, and by no other enable than its own. */
static void test_int_sources(void)
{
    static void (*const raise[8])(struct script *) = {raise_rx0if, raise_rx1if, raise_tx0if,
                                                      raise_tx1if, raise_tx2if, raise_errif,
                                                      raise_wakif, raise_merrf};
    struct script s;
    script_init(&s);
    for (unsigned i = 0; i < 8; i++) {
        uint8_t bit = (uint8_t)(1u << i);
        script_clear(&s);
        sc_mode(&s, MODE_NORMAL);
        sc_write(&s, CANINTE, bit);
        EXPECT("INT before its source", false, int_after(&s));
        raise[i](&s);
        EXPECT("INT by its source", true, int_after(&s));
        sc_modify(&s, CANINTF, (uint8_t)~bit, 0);
        EXPECT("INT, its source alone", true, int_after(&s));
        sc_write(&s, CANINTE, (uint8_t)~bit);
        EXPECT("INT, all but its source enabled", false, int_after(&s));
        sc_write(&s, CANINTE, 0xFF);
        EXPECT("INT, all enabled", true, int_after(&s));
        sc_modify(&s, CANINTF, bit, 0);
        EXPECT("INT, its flag cleared", false, int_after(&s));
    }
    script_free(&s);
}

static void test_int_bits(void)
{
    struct model m = chip_in(MODE_NORMAL);
    for (unsigned enabled = 0; enabled < 256; enabled++)
        for (unsigned flags = 0; flags < 256; flags++) {
            m.reg[CANINTE] = (uint8_t)enabled;
            m.reg[CANINTF] = (uint8_t)flags;
            EXPECT("INT", (enabled & flags) != 0, model_int_low(&m));
        }
}

/* ---- tidied list, by hand ---- */

/* Records from first on must stand in the order given; earlier ones in place. */
static void check_order(int line, const struct script *s, const size_t *order, size_t first)
{
    uint8_t *tidied = malloc(RECORD_BYTES * s->count);
    size_t *map = malloc(s->count * sizeof *map);
    tidy_log(s->records, s->count, tidied, map, NULL);
    for (size_t i = 0; i < s->count; i++) {
        size_t want = i < first ? i : first + order[i - first];
        if (map[i] == want && !memcmp(tidied + RECORD_BYTES * i, s->records + RECORD_BYTES * want,
                                      RECORD_BYTES))
            continue;
        fail(__FILE__, line, "tidied place %zu: expected record %zu, got %zu", i, want, map[i]);
        break;
    }
    free(tidied);
    free(map);
}

/* Tidies what was written to s since the mark and starts a new script. */
#define CHECK_ORDER(...)                                          \
    do {                                                          \
        static const size_t order_[] = {__VA_ARGS__};             \
        EXPECT("records", sizeof order_ / sizeof *order_, s->count - mark); \
        check_order(__LINE__, s, order_, mark);                   \
        script_clear(s);                                          \
        sc_mode(s, MODE_NORMAL);                                  \
        mark = s->count;                                          \
    } while (0)

static void test_tidied_moments(struct script *s)
{
    size_t mark;
    script_clear(s);
    sc_mode(s, MODE_NORMAL);
    mark = s->count;

    sc_low(s); /* READ: its reply */
    sc_xfer(s, SPI_READ, 0);
    sc_std(s, 1, 0);
    sc_xfer(s, CANINTF, 0);
    sc_idle(s, 0);
    sc_xfer(s, 0, 0);
    sc_std(s, 2, 0);
    sc_high(s);
    CHECK_ORDER(2, 4, 0, 1, 3, 5, 7, 6);

    sc_low(s); /* BIT MODIFY: its data byte */
    sc_xfer(s, SPI_BIT_MODIFY, 0);
    sc_xfer(s, CANINTF, 0);
    sc_xfer(s, 1, 0);
    sc_std(s, 1, 0);
    sc_xfer(s, 0, 0);
    sc_std(s, 2, 0);
    sc_high(s);
    CHECK_ORDER(4, 0, 1, 2, 3, 5, 7, 6);

    sc_low(s); /* WRITE: the same */
    sc_xfer(s, SPI_WRITE, 0);
    sc_std(s, 1, 0);
    sc_xfer(s, CANINTF, 0);
    sc_xfer(s, 0, 0);
    sc_std(s, 2, 0);
    sc_high(s);
    CHECK_ORDER(2, 0, 1, 3, 4, 6, 5);

    for (unsigned i = 0; i < 2; i++) {
        sc_low(s); /* RESET and RTS: the byte itself */
        sc_std(s, 1, 0);
        sc_xfer(s, i ? SPI_RTS | 3 : SPI_RESET, 0);
        sc_std(s, 2, 0);
        sc_high(s);
        CHECK_ORDER(1, 0, 2, 4, 3);
    }

    for (unsigned i = 0; i < 2; i++) {
        sc_low(s); /* a status: its reply */
        sc_std(s, 1, 0);
        sc_xfer(s, i ? SPI_RX_STATUS : SPI_READ_STATUS, 0);
        sc_std(s, 2, 0);
        sc_xfer(s, 0, 0);
        sc_std(s, 3, 0);
        sc_high(s);
        CHECK_ORDER(1, 3, 0, 2, 4, 6, 5);
    }
}

static void test_tidied_cut_and_long(struct script *s)
{
    size_t mark;
    script_clear(s);
    sc_mode(s, MODE_NORMAL);
    mark = s->count;

    sc_low(s); /* READ cut before its reply: select high */
    sc_xfer(s, SPI_READ, 0);
    sc_xfer(s, CANINTF, 0);
    sc_std(s, 2, 0);
    sc_high(s);
    CHECK_ORDER(3, 0, 1, 2, 4);

    sc_low(s); /* READ of two bytes is not listed */
    sc_xfer(s, SPI_READ, 0);
    sc_xfer(s, CANINTF, 0);
    sc_xfer(s, 0, 0);
    sc_std(s, 2, 0);
    sc_xfer(s, 0, 0);
    sc_high(s);
    CHECK_ORDER(0, 1, 2, 3, 4, 5, 6);

    sc_low(s); /* with a byte more RTS is not listed */
    sc_xfer(s, SPI_RTS, 0);
    sc_std(s, 2, 0);
    sc_xfer(s, 0, 0);
    sc_high(s);
    CHECK_ORDER(0, 1, 2, 3, 4);

    sc_low(s); /* no exchange: select high */
    sc_std(s, 1, 0);
    sc_high(s);
    CHECK_ORDER(1, 0, 2);

    sc_low(s); /* an unknown code alone: select high */
    sc_std(s, 1, 0);
    sc_xfer(s, 0xFF, 0);
    sc_std(s, 2, 0);
    sc_high(s);
    CHECK_ORDER(1, 3, 0, 2, 4);

    sc_low(s); /* and with a byte more: not listed */
    sc_xfer(s, 0xFF, 0);
    sc_std(s, 2, 0);
    sc_xfer(s, 0xFF, 0);
    sc_high(s);
    CHECK_ORDER(0, 1, 2, 3, 4);
}

static void test_tidied_buffers(struct script *s)
{
    size_t mark;
    script_clear(s);
    sc_mode(s, MODE_NORMAL);
    mark = s->count;

    sc_low(s); /* READ RX BUFFER with RX0IF clear at select low */
    sc_xfer(s, 0x90, 0);
    sc_std(s, 1, 0);
    sc_high(s);
    CHECK_ORDER(0, 1, 2, 3);

    sc_std(s, 1, 0);
    sc_low(s); /* with RX0IF set */
    sc_xfer(s, 0x92, 0);
    sc_std(s, 2, 0);
    for (unsigned i = 0; i < 8; i++)
        sc_xfer(s, 0, 0);
    sc_std(s, 3, 0);
    sc_high(s);
    CHECK_ORDER(0, 3, 12, 1, 2, 4, 5, 6, 7, 8, 9, 10, 11, 13);

    sc_std(s, 1, 0);
    sc_low(s); /* past data byte 7 */
    sc_xfer(s, 0x92, 0);
    sc_std(s, 2, 0);
    for (unsigned i = 0; i < 9; i++)
        sc_xfer(s, 0, 0);
    sc_high(s);
    CHECK_ORDER(0, 1, 2, 3, 4, 5, 6, 7, 8, 9, 10, 11, 12, 13);

    sc_rts(s, 1);
    sc_low(s); /* LOAD TX BUFFER of a buffer with TXREQ */
    sc_xfer(s, 0x40, 0);
    sc_std(s, 2, 0);
    sc_high(s);
    sc_low(s); /* of another */
    sc_xfer(s, 0x42, 0);
    sc_std(s, 2, 0);
    sc_high(s);
    CHECK_ORDER(0, 1, 2, 3, 4, 5, 6, 9, 7, 8, 10);

    sc_rts(s, 1);
    sc_idle(s, 0);
    sc_write(s, TXB0CTRL, 0);
    sc_low(s); /* in flight at select low */
    sc_xfer(s, 0x40, 0);
    sc_end(s, END_SENT, 0);
    sc_xfer(s, 0x11, 0);
    sc_high(s);
    CHECK_ORDER(0, 1, 2, 3, 4, 5, 6, 7, 8, 9, 10, 11, 12, 13);
}

static const uint8_t damaged_pin[RECORD_BYTES] = {KIND_REQUEST_PIN, 0, 2};

/* In Configuration pins 0 and 1 are enabled: ten records. */
static void enable_two_pins(struct script *s)
{
    sc_mode(s, MODE_CONFIGURATION);
    sc_write(s, TXRTSCTRL, 3);
}

/* Several pin records in a session that is listed. */
static void test_tidied_pins(struct script *s)
{
    size_t mark;
    script_clear(s);
    sc_mode(s, MODE_NORMAL);
    mark = s->count;

    enable_two_pins(s);
    sc_low(s); /* RTS: pins before its byte and behind it, refused ones too */
    sc_pin(s, 0, 0);
    sc_raw(s, damaged_pin, REFUSED_FIELD, 0);
    sc_xfer(s, SPI_RTS | 2, 0);
    sc_raw(s, damaged_pin, REFUSED_FIELD, 0);
    sc_pin(s, 0, 1);
    sc_high(s);
    CHECK_ORDER(0, 1, 2, 3, 4, 5, 6, 7, 8, 9, 11, 12, 10, 13, 16, 14, 15);

    enable_two_pins(s);
    sc_pin(s, 0, 0);
    sc_write(s, TXB0CTRL, 0);
    sc_low(s); /* LOAD of TXB0, whose pin fell before: inside others fall, and it does not */
    sc_pin(s, 0, 0);
    sc_xfer(s, 0x40, 0);
    sc_pin(s, 1, 0);
    sc_raw(s, damaged_pin, REFUSED_FIELD, 0);
    sc_xfer(s, 0x11, 0);
    sc_pin(s, 2, 0);
    sc_pin(s, 0, 1);
    sc_high(s);
    CHECK_ORDER(0, 1, 2, 3, 4, 5, 6, 7, 8, 9, 10, 11, 12, 13, 14, 15, 17, 19, 20, 22, 23, 16, 18,
                21, 24);
}

/* Pin 0 falls inside a LOAD of TXB0. */
static void test_tidied_falls_in_loads(struct script *s)
{
    size_t mark;
    script_clear(s);
    sc_mode(s, MODE_NORMAL);
    mark = s->count;

    enable_two_pins(s);
    sc_low(s); /* not listed, though it falls after the last byte */
    sc_xfer(s, 0x40, 0);
    sc_std(s, 1, 0);
    sc_xfer(s, 0x11, 0);
    sc_pin(s, 0, 0);
    sc_high(s);
    CHECK_ORDER(0, 1, 2, 3, 4, 5, 6, 7, 8, 9, 10, 11, 12, 13, 14, 15);

    enable_two_pins(s);
    sc_low(s); /* the same before its code */
    sc_pin(s, 0, 0);
    sc_xfer(s, 0x40, 0);
    sc_std(s, 1, 0);
    sc_high(s);
    CHECK_ORDER(0, 1, 2, 3, 4, 5, 6, 7, 8, 9, 10, 11, 12, 13, 14);

    enable_two_pins(s);
    sc_pin(s, 0, 0);
    sc_write(s, TXB0CTRL, 0);
    sc_low(s); /* a rise and then a fall inside */
    sc_xfer(s, 0x40, 0);
    sc_pin(s, 0, 1);
    sc_pin(s, 0, 0);
    sc_high(s);
    CHECK_ORDER(0, 1, 2, 3, 4, 5, 6, 7, 8, 9, 10, 11, 12, 13, 14, 15, 16, 17, 18, 19, 20);

    enable_two_pins(s);
    sc_low(s); /* its fall in the LOAD before does not count for the next one */
    sc_xfer(s, 0x40, 0);
    sc_pin(s, 0, 0);
    sc_high(s);
    sc_write(s, TXB0CTRL, 0);
    sc_low(s);
    sc_xfer(s, 0x40, 0);
    sc_pin(s, 1, 0);
    sc_high(s);
    CHECK_ORDER(0, 1, 2, 3, 4, 5, 6, 7, 8, 9, 10, 11, 12, 13, 14, 15, 16, 17, 18, 21, 19, 20, 22);
}

static void test_tidied_refusals(struct script *s)
{
    static const uint8_t damaged[RECORD_BYTES] = {KIND_FRAME, 0xFF};
    static const uint8_t no_exchange[RECORD_BYTES] = {KIND_EXCHANGE, SPI_RESET, SPEAKERS};
    size_t mark;
    script_clear(s);
    sc_mode(s, MODE_NORMAL);
    mark = s->count;

    sc_low(s);
    sc_refused(s, REFUSED_SELECT, KIND_SELECT_LOW, 0); /* no event: keeps its place */
    sc_refused(s, REFUSED_FIELD, KINDS, 0);
    sc_refused(s, REFUSED_FIELD, 200, 0);
    sc_raw(s, damaged, REFUSED_FIELD, 0);                   /* an event by its kind */
    sc_refused(s, REFUSED_STATE, KIND_RECOVERY, 0);         /* the same */
    sc_xfer(s, SPI_RTS | 1, 0);
    sc_refused(s, REFUSED_NO_FLIGHT, KIND_FRAME_ENDS, 0);
    sc_refused(s, REFUSED_SELECT, KIND_SELECT_LOW, 0);
    sc_high(s);
    CHECK_ORDER(4, 5, 0, 1, 2, 3, 6, 8, 9, 7);

    sc_low(s); /* a refused exchange is none: RTS alone */
    sc_raw(s, no_exchange, REFUSED_FIELD, 0);
    sc_std(s, 1, 0);
    sc_xfer(s, SPI_RTS | 1, 0);
    sc_raw(s, no_exchange, REFUSED_FIELD, 0);
    sc_std(s, 2, 0);
    sc_high(s);
    CHECK_ORDER(2, 0, 1, 3, 4, 6, 5);

    sc_low(s); /* still open at the end */
    sc_xfer(s, SPI_RTS | 1, 0);
    sc_std(s, 1, 0);
    CHECK_ORDER(0, 1, 2);
}

/* By the panel, with the controller cutting in. */
static void test_tidied_panel(struct script *s)
{
    size_t mark;
    script_clear(s);
    sc_mode(s, MODE_NORMAL);
    mark = s->count;

    sc_low(PANEL); /* RTS: records of the other keep their place */
    sc_std(PANEL, 1, 0);
    sc_refused(AT, REFUSED_SPEAKER, KIND_EXCHANGE, SPI_READ);
    sc_xfer(PANEL, 0x84, 0);
    sc_refused(AT, REFUSED_SPEAKER, KIND_SELECT_HIGH, 0);
    sc_std(PANEL, 2, 0);
    sc_refused(AT, REFUSED_SELECT, KIND_SELECT_LOW, 0);
    sc_high(PANEL);
    CHECK_ORDER(1, 0, 2, 3, 4, 6, 7, 5);

    sc_low(PANEL); /* still open at the end, though the controller says select high */
    sc_xfer(PANEL, 0x84, 0);
    sc_std(PANEL, 1, 0);
    sc_refused(AT, REFUSED_SPEAKER, KIND_SELECT_HIGH, 0);
    CHECK_ORDER(0, 1, 2, 3);
}

static void test_tidied_forbidden(struct script *s)
{
    size_t mark;
    script_clear(s);
    sc_mode(s, MODE_NORMAL);
    mark = s->count;

    sc_low(PANEL); /* a forbidden code alone: select high */
    sc_std(PANEL, 1, 0);
    sc_xfer(PANEL, 0x85, 0);
    sc_std(PANEL, 2, 0);
    sc_high(PANEL);
    CHECK_ORDER(1, 3, 0, 2, 4);

    sc_low(PANEL); /* and with a byte more: not listed */
    sc_xfer(PANEL, 0x85, 0);
    sc_std(PANEL, 2, 0);
    sc_xfer(PANEL, 0x84, 0);
    sc_high(PANEL);
    CHECK_ORDER(0, 1, 2, 3, 4);

    sc_low(PANEL); /* what would be a WRITE of one byte: not listed */
    sc_xfer(PANEL, SPI_WRITE, 0);
    sc_xfer(PANEL, CANINTF, 0);
    sc_std(PANEL, 2, 0);
    sc_xfer(PANEL, 0, 0);
    sc_high(PANEL);
    CHECK_ORDER(0, 1, 2, 3, 4, 5);
}

/* Of bus events: WRITE without one, RTS with two, READ and READ RX BUFFER with one. */
static void sessions_to_count(struct script *s)
{
    sc_mode(s, MODE_NORMAL);
    sc_low(s);
    sc_std(s, 1, RX_IN_RXB0);
    sc_xfer(s, SPI_RTS, 0);
    sc_rx_error(s, 0);
    sc_high(s);
    sc_low(s); /* READ, cut */
    sc_xfer(s, SPI_READ, 0);
    sc_rx_error(s, 0);
    sc_high(s);
    sc_low(s); /* READ RX BUFFER, whole */
    sc_xfer(s, 0x92, 0);
    for (unsigned i = 0; i < 8; i++)
        sc_xfer(s, 0, 0);
    sc_rx_error(s, 0);
    sc_high(s);
}

/* Of pins: a LOAD and an RTS with them, two WRITEs without, and two LOADs not listed. */
static void pin_sessions_to_count(struct script *s)
{
    sc_low(s); /* LOAD TX BUFFER, its pin not enabled, and a damaged record */
    sc_xfer(s, 0x40, 0);
    sc_pin(s, 0, 0);
    sc_refused(s, REFUSED_FIELD, KIND_REQUEST_PIN, 3);
    sc_high(s);
    sc_low(s); /* RTS */
    sc_xfer(s, SPI_RTS, 0);
    sc_pin(s, 0, 1);
    sc_high(s);
    sc_mode(s, MODE_CONFIGURATION);
    sc_write(s, TXRTSCTRL, 1);
    sc_low(s); /* a LOAD that the fall cuts */
    sc_xfer(s, 0x40, 0);
    sc_pin(s, 0, 0);
    sc_high(s);
    sc_low(s); /* one that is not listed anyway: TXREQ is set, by the fall before */
    sc_xfer(s, 0x40, 0);
    sc_pin(s, 0, 1);
    sc_pin(s, 0, 0);
    sc_high(s);
}

/* A session with an event before its last byte. */
static void send_bytes(struct script *s, uint8_t code, unsigned bytes)
{
    sc_low(s);
    sc_xfer(s, code, 0);
    for (unsigned i = 0; i < bytes; i++) {
        if (i + 1 == bytes)
            sc_rx_error(s, 0);
        sc_xfer(s, 0, 0);
    }
    sc_high(s);
}

/* Of the panel: RTS with an event on either side, a forbidden code, READ cut, a LOAD that a
 * fall cuts; and what is not listed but widely: RTS, forbidden, unknown, READ RX BUFFER, LOAD. */
static void panel_sessions_to_count(struct script *s)
{
    sc_write(AT, TXRTSCTRL, 4);
    sc_mode(AT, MODE_NORMAL);
    sc_write(AT, CANINTF, RX1IF);
    sc_low(PANEL);
    sc_rx_error(PANEL, 0);
    sc_xfer(PANEL, 0x84, 0);
    sc_rx_error(PANEL, 0);
    sc_high(PANEL);
    sc_write(AT, TXB2CTRL, 0);
    sc_low(PANEL);
    sc_xfer(PANEL, SPI_RESET, 0);
    sc_rx_error(PANEL, 0);
    sc_high(PANEL);
    send_bytes(PANEL, 0x84, 1);
    sc_write(AT, TXB2CTRL, 0);
    send_bytes(PANEL, 0x87, 2);
    send_bytes(PANEL, 0xFF, 1);
    send_bytes(PANEL, 0x96, 9);
    send_bytes(PANEL, 0x96, 9); /* RXB1 is empty by now */
    send_bytes(PANEL, 0x45, 9);
    sc_low(PANEL); /* cut */
    sc_xfer(PANEL, SPI_READ, 0);
    sc_rx_error(PANEL, 0);
    sc_high(PANEL);
    sc_one(PANEL, SPI_READ); /* cut too, without an event */
    sc_low(PANEL);
    sc_xfer(PANEL, 0x44, 0);
    sc_pin(PANEL, 2, 0);
    sc_high(PANEL);
    send_bytes(PANEL, 0x45, 9); /* TXREQ is set by now */
}

/* Of the controller, with a byte more than they have: RESET, BIT MODIFY, RTS and LOAD. */
static void wide_sessions_to_count(struct script *s)
{
    send_bytes(AT, SPI_RESET, 1);
    send_bytes(AT, SPI_BIT_MODIFY, 4);
    send_bytes(AT, 0x80, 1);
    send_bytes(AT, 0x40, 14);
}

static void check_panel_counts(const struct tidy_tally *tally, bool wide)
{
    static const uint8_t listed[TIDY_COMMANDS] = {
        [TIDY_RTS] = 1, [TIDY_FORBIDDEN] = 1, [TIDY_READ] = 1};
    static const uint8_t more[TIDY_COMMANDS] = {[TIDY_RTS] = 1,     [TIDY_FORBIDDEN] = 1,
                                                [TIDY_UNKNOWN] = 1, [TIDY_READ_RX] = 1,
                                                [TIDY_LOAD_TX] = 1};
    static const uint8_t of_controller[TIDY_COMMANDS] = {
        [TIDY_RTS] = 1, [TIDY_RESET] = 1, [TIDY_BIT_MODIFY] = 1};
    for (unsigned i = 0; i < TIDY_COMMANDS; i++) {
        unsigned want = listed[i] + (wide ? more[i] : 0);
        unsigned both = want + (wide ? of_controller[i] : 0);
        EXPECT("listed of the panel", want + (i == TIDY_READ), tally->panel_listed[i]);
        EXPECT("with events", want, tally->panel_with_events[i]);
        EXPECT("cut with events", i == TIDY_READ, tally->panel_cut_with_events[i]);
        EXPECT("listed of both", both + (i == TIDY_WRITE ? 5 : i == TIDY_READ), tally->listed[i]);
        EXPECT("of both with events", both, tally->with_events[i]);
        EXPECT("of both cut with events", i == TIDY_READ, tally->cut_with_events[i]);
    }
    EXPECT("LOAD of the panel not listed for a fall", 1, tally->panel_unlisted_by_fall);
    EXPECT("LOAD not listed for a fall", 1, tally->unlisted_by_fall);
    EXPECT("widely", wide ? 5 : 0, tally->panel_widely);
    EXPECT("widely, by whomever", wide ? 8 : 0, tally->widely);
}

static void test_tidied_panel_tally(struct script *s)
{
    struct tidy_tally tally = {0}, widely = {0};
    script_clear(s);
    panel_sessions_to_count(s);
    wide_sessions_to_count(s);
    uint8_t *tidied = malloc(RECORD_BYTES * s->count);
    size_t *map = malloc(s->count * sizeof *map);
    tidy_log(s->records, s->count, tidied, map, &tally);
    check_panel_counts(&tally, false);
    tidy_log_widely(s->records, s->count, tidied, map, &widely);
    check_panel_counts(&widely, true);
    free(tidied);
    free(map);
}

/* What the tally counts, which the random tests lean on. */
static void test_tidied_tally(struct script *s)
{
    struct tidy_tally tally = {0};
    script_clear(s);
    sessions_to_count(s);
    pin_sessions_to_count(s);
    uint8_t *tidied = malloc(RECORD_BYTES * s->count);
    size_t *map = malloc(s->count * sizeof *map);
    tidy_log(s->records, s->count, tidied, map, &tally);
    for (unsigned i = 0; i < TIDY_COMMANDS; i++) {
        static const uint8_t listed[TIDY_COMMANDS] = {[TIDY_RTS] = 2, [TIDY_READ] = 1,
                                                      [TIDY_READ_RX] = 1, [TIDY_WRITE] = 3,
                                                      [TIDY_LOAD_TX] = 1};
        EXPECT("listed", listed[i], tally.listed[i]);
        EXPECT("with events", i == TIDY_WRITE ? 0 : listed[i], tally.with_events[i]);
        EXPECT("cut with events", i == TIDY_READ || i == TIDY_LOAD_TX, tally.cut_with_events[i]);
    }
    EXPECT("events before", 5, tally.events_before);
    EXPECT("events after", 2, tally.events_after);
    EXPECT("pins before", 2, tally.pins_before);
    EXPECT("pins after", 1, tally.pins_after);
    EXPECT("refused pins", 1, tally.refused_pins);
    EXPECT("LOAD not listed for a fall", 1, tally.unlisted_by_fall);
    EXPECT("of the panel", 0, tally.panel_unlisted_by_fall + tally.panel_listed[TIDY_RTS]);
    free(tidied);
    free(map);
}

static void test_tidied_by_hand(void)
{
    struct script s;
    script_init(&s);
    test_tidied_moments(&s);
    test_tidied_cut_and_long(&s);
    test_tidied_buffers(&s);
    test_tidied_pins(&s);
    test_tidied_falls_in_loads(&s);
    test_tidied_refusals(&s);
    test_tidied_panel(&s);
    test_tidied_forbidden(&s);
    test_tidied_tally(&s);
    test_tidied_panel_tally(&s);
    script_free(&s);
}

/* ---- random logs ---- */

static struct model run(const uint8_t *log, size_t records, struct outcome *outcomes)
{
    struct model m;
    model_power_on(&m);
    for (size_t i = 0; i < records; i++)
        outcomes[i] = step_gives(&m, log + RECORD_BYTES * i);
    return m;
}

/* Demand 3 on one log: outcomes agree through the map, end states are equal. */
static void check_tidied(uint64_t seed, const uint8_t *log, size_t records, bool wide,
                         struct tidy_tally *tally)
{
    uint8_t *tidied = malloc(RECORD_BYTES * records);
    struct outcome *as_came = malloc(records * sizeof *as_came),
                   *in_order = malloc(records * sizeof *in_order);
    size_t *map = malloc(records * sizeof *map);
    (wide ? tidy_log_widely : tidy_log)(log, records, tidied, map, tally);
    struct model m = run(log, records, as_came);
    struct model n = run(tidied, records, in_order);
    for (size_t i = 0; i < records; i++) {
        const struct outcome *want = &as_came[map[i]], *got = &in_order[i];
        if (same_outcome(want, got))
            continue;
        fail(__FILE__, __LINE__,
             "seed %llu, record %zu (tidied place %zu): expected %u %u %u, tidied gave %u %u %u",
             (unsigned long long)seed, map[i] + 1, i + 1, want->refusal, want->answer, want->set,
             got->refusal, got->answer, got->set);
        break;
    }
    const char *difference = state_difference(&m, &n);
    if (difference)
        fail(__FILE__, __LINE__, "seed %llu: expected the same end state, %s differs",
             (unsigned long long)seed, difference);
    free(tidied);
    free(as_came);
    free(in_order);
    free(map);
}

/* ---- lists tidied by hand, one event in each ---- */

/* Both lists give the outcomes worked out by hand, in their own order. */
static void check_answers(const struct tidied_list *t, bool tidied)
{
    struct model m;
    model_power_on(&m);
    for (size_t i = 0; i < t->s.count; i++) {
        size_t from = tidied ? tidied_record(t, i) : i;
        const uint8_t *record = t->s.records + RECORD_BYTES * from;
        struct outcome want = wanted(&t->s.want[from], &m, record), got = step_gives(&m, record);
        if (same_outcome(&want, &got))
            continue;
        fail(__FILE__, __LINE__, "%s, %s: record %zu: expected %u %u %u, got %u %u %u", t->name,
             tidied ? "tidied" : "as it came", from + 1, want.refusal, want.answer, want.set,
             got.refusal, got.answer, got.set);
        return;
    }
}

static unsigned tidied_moved, tidied_stayed, fall_differs, fall_alike;

/* A LOAD that a fall keeps from the list, with the fall put in front of it all the same:
 * it shows why, or that the rule is kept where it would not matter. */
static void check_fall(const struct tidied_list *t)
{
    size_t records = t->s.count, differ = 0;
    uint8_t *fronted = malloc(RECORD_BYTES * records);
    struct outcome *as_came = malloc(records * sizeof *as_came),
                   *with_front = malloc(records * sizeof *with_front);
    for (size_t i = 0; i < records; i++)
        memcpy(fronted + RECORD_BYTES * i, t->s.records + RECORD_BYTES * fronted_record(t, i),
               RECORD_BYTES);
    struct model m = run(t->s.records, records, as_came);
    struct model n = run(fronted, records, with_front);
    for (size_t i = 0; i < records; i++)
        differ += !same_outcome(&as_came[fronted_record(t, i)], &with_front[i]);
    EXPECT(t->name, t->fall == FALL_DIFFERS, differ > 0);
    EXPECT(t->name, t->fall == FALL_DIFFERS, state_difference(&m, &n) != NULL);
    *(t->fall == FALL_DIFFERS ? &fall_differs : &fall_alike) += 1;
    free(fronted);
    free(as_came);
    free(with_front);
}

static void check_tidied_list(const struct tidied_list *t)
{
    uint8_t *tidied = malloc(RECORD_BYTES * t->s.count);
    size_t *map = malloc(t->s.count * sizeof *map);
    tidy_log(t->s.records, t->s.count, tidied, map, NULL);
    for (size_t i = 0; i < t->s.count; i++) {
        size_t want = tidied_record(t, i);
        if (map[i] == want)
            continue;
        fail(__FILE__, __LINE__, "%s: tidied place %zu: expected record %zu, got %zu", t->name,
             i + 1, want + 1, map[i] + 1);
        break;
    }
    check_answers(t, false);
    check_answers(t, true);
    check_tidied(0, t->s.records, t->s.count, false, NULL);
    if (t->fall != NO_FALL)
        check_fall(t);
    *(t->from == t->to ? &tidied_stayed : &tidied_moved) += 1;
    free(tidied);
    free(map);
}

static void test_tidied_lists(void)
{
    tidied_lists(check_tidied_list);
}

static void test_demand_3(uint64_t seeds, struct tidy_tally *tally, struct tidy_tally *widely)
{
    enum { LONG = 1500, LOGS = 2000, SHORT = 40, SHORT_LOGS = 20000 };
    uint8_t *log = malloc(RECORD_BYTES * LONG);
    for (unsigned i = 0; i < LOGS + SHORT_LOGS && failures == 0; i++) {
        size_t records = i < LOGS ? LONG : 1 + i % SHORT;
        uint64_t seed = gen_next(&seeds);
        gen_log(GEN_MIXED, seed, log, records);
        if (i % 8 == 0)
            gen_damage(seed, log, records);
        if (i % 50 == 1)
            gen_noise(seed, log, RECORD_BYTES * records);
        if (i % 5 == 1)
            gen_swap_speakers(seed, log, records);
        check_tidied(seed, log, records, false, tally);
        if (i % 2)
            check_tidied(seed, log, records, true, widely);
    }
    free(log);
}

/* Facts of every chip that a log can reach. */
static const char *broken_fact(const struct model *m)
{
    bool sends = m->mode == MODE_NORMAL || m->mode == MODE_LOOPBACK;
    uint8_t txreq = 0;
    for (unsigned n = 0; n < 3; n++)
        if (m->reg[TXB0CTRL + 0x10 * n] & TXREQ)
            txreq |= (uint8_t)(1u << n);
    if (m->flight != NO_FLIGHT && (!sends || model_bus_off(m)))
        return "a flight is in Normal or Loopback and not in bus-off";
    if (m->request != NO_REQUEST && (!sends || (txreq == 0 && m->flight == NO_FLIGHT)))
        return "a request waits for a TXREQ or a flight";
    if (m->request == m->mode)
        return "a request differs from the mode";
    if ((m->mode == MODE_LISTEN_ONLY || m->mode == MODE_CONFIGURATION) && (m->tec || m->rec))
        return "Listen-Only and Configuration have clear counters";
    if ((m->reg[CANCTRL] & ABAT) && (txreq & ~(m->flight == NO_FLIGHT ? 0 : 1 << m->flight)))
        return "ABAT leaves TXREQ in flight only";
    if (!(m->reg[RXB0CTRL] & BUKT) != !(m->reg[RXB0CTRL] & BUKT1))
        return "RXB0CTRL bit 1 copies bit 2";
    if (m->tec > TEC_STOP || m->rec > REC_STOP)
        return "the counters stop";
    for (unsigned ctrl = TXB0CTRL; ctrl <= RXB1CTRL; ctrl += 0x10)
        if (m->reg[ctrl + DLC] & ~(RTR | DLC_CODE))
            return "a DLC byte is a length code and RTR";
    if (model_int_low(m) != ((model_holds(m, CANINTE) & model_holds(m, CANINTF)) != 0))
        return "INT is low exactly when CANINTE and CANINTF share a bit";
    return NULL;
}

/* Of a reached chip: what an accepted pin record leaves, and that no other moves a level. */
static const char *broken_pins(const struct model *before, const uint8_t *record, uint8_t refusal,
                               const struct model *after)
{
    struct model want = *before;
    uint8_t enables = before->reg[TXRTSCTRL], shown = model_holds(after, TXRTSCTRL);
    for (unsigned n = 0; n < REQUEST_PINS; n++)
        if ((shown >> (3 + n) & 1) != (after->level[n] && !(shown >> n & 1)))
            return "TXRTSCTRL shows the level of a pin that is not enabled, else 0";
    if (record[0] != KIND_REQUEST_PIN || refusal != REFUSED_NOT)
        return memcmp(want.level, after->level, sizeof want.level) == 0
                   ? NULL
                   : "only an accepted pin record moves a level";
    uint8_t *ctrl = &want.reg[TXB0CTRL + 0x10 * record[1]];
    bool fell = want.level[record[1]] == 1 && record[2] == 0;
    want.level[record[1]] = record[2];
    if (fell && (enables >> record[1] & 1) && !(want.reg[CANCTRL] & ABAT) && !(*ctrl & TXREQ))
        *ctrl = TXREQ | (*ctrl & TXP);
    return memcmp(&want, after, sizeof want) == 0
               ? NULL
               : "a pin record moves its level, and a fall requests as RTS does";
}

/* ---- what the panel leaves alone ---- */

/* Counts, and the present session. */
struct isolation {
    unsigned long records;      /* by the panel, accepted */
    unsigned long sessions;     /* that load nothing and request nothing */
    unsigned long with_events;  /* of these */
    unsigned long acting;       /* by LOAD or RTS, with events */
    unsigned long acting_apart; /* of these: another byte where the controller's are */
    struct model alone;         /* the chip that the events of the session alone leave */
    uint8_t code;
    unsigned exchanges, events;
};

static struct isolation isolation;

/* Filters, masks, CNF1-3, CANCTRL, TXB0, TXB1 and RXB0. */
static bool is_controllers(unsigned address)
{
    static const uint8_t parts[][2] = {{0x00, 0x0B}, {0x0F, 0x0F}, {0x10, 0x1B}, {0x20, 0x2A},
                                       {0x30, 0x3D}, {0x40, 0x4D}, {0x60, 0x6D}};
    for (size_t i = 0; i < sizeof parts / sizeof *parts; i++)
        if (address >= parts[i][0] && address <= parts[i][1])
            return true;
    return false;
}

static bool differ_where_controllers(const struct model *a, const struct model *b)
{
    for (unsigned address = 0; address < COVER_ADDRESSES; address++)
        if (is_controllers(address) &&
            model_holds(a, (uint8_t)address) != model_holds(b, (uint8_t)address))
            return true;
    return false;
}

/* All but RX1IF, TXB2CTRL, 51h to 5Dh and the select side is as before. */
static bool leaves_the_rest(const struct model *before, const struct model *after)
{
    struct model want = *after;
    memcpy(want.reg, before->reg, sizeof want.reg);
    memcpy(&want.reg[TXB2CTRL], &after->reg[TXB2CTRL], 1 + D7);
    want.reg[CANINTF] &= (uint8_t)~RX1IF;
    want.reg[CANINTF] |= after->reg[CANINTF] & RX1IF;
    bool moved = want.tec != before->tec || want.rec != before->rec || want.mode != before->mode ||
                 want.request != before->request || want.flight != before->flight ||
                 memcmp(want.level, before->level, sizeof want.level) != 0;
    return !moved && memcmp(&want, after, sizeof want) == 0;
}

/* At select high: what the events alone would have left, but for RX1IF. */
static const char *broken_session(struct isolation *is, const struct model *after)
{
    bool acts = is->exchanges > 0 && (is->code == 0x84 || is->code == 0x44 || is->code == 0x45);
    if (acts) {
        is->acting += is->events > 0;
        is->acting_apart += differ_where_controllers(&is->alone, after);
        return NULL;
    }
    is->sessions++;
    is->with_events += is->events > 0;
    is->alone.reg[CANINTF] &= (uint8_t)~RX1IF;
    is->alone.reg[CANINTF] |= after->reg[CANINTF] & RX1IF;
    return memcmp(&is->alone, after, sizeof *after) == 0
               ? NULL
               : "a session of the panel leaves what its events alone would leave";
}

static void follow_session(struct isolation *is, const struct model *before, const uint8_t *record,
                           const struct outcome *o)
{
    bool event = record[0] >= KIND_FRAME && record[0] < KINDS;
    if (record[0] == KIND_SELECT_LOW && o->refusal == REFUSED_NOT) {
        is->alone = *before;
        is->exchanges = is->events = 0;
    } else if (record[0] == KIND_EXCHANGE && o->refusal == REFUSED_NOT) {
        if (is->exchanges++ == 0)
            is->code = record[1];
    } else if (event) {
        step_gives(&is->alone, record);
        is->events++;
    }
}

static const char *broken_isolation(struct isolation *is, const struct model *before,
                                    const uint8_t *record, const struct outcome *o,
                                    const struct model *after)
{
    bool by_panel = record[0] <= KIND_SELECT_HIGH && record[2] == SPEAKER_PANEL;
    if (before->selected == SELECT_BY_PANEL || after->selected == SELECT_BY_PANEL)
        follow_session(is, before, record, o);
    if (!by_panel || o->refusal != REFUSED_NOT)
        return NULL;
    is->records++;
    if (!leaves_the_rest(before, after))
        return "a record of the panel changes RX1IF, TXB2 and the select side alone";
    if (~before->reg[CANINTF] & after->reg[CANINTF] & RX1IF)
        return "the panel sets no flag";
    return record[0] == KIND_SELECT_HIGH ? broken_session(is, after) : NULL;
}

static void check_isolation(void)
{
    EXPECT("records of the panel", true, isolation.records > 10000);
    EXPECT("sessions of the panel that change nothing", true, isolation.sessions > 1000);
    EXPECT("the same with events inside", true, isolation.with_events > 200);
    EXPECT("its RTS and LOAD with events inside", true, isolation.acting > 100);
    EXPECT("the same, another byte where the controller's are", true, isolation.acting_apart > 2);
}

static void test_every_step(uint64_t seed)
{
    struct gen g;
    struct model m;
    gen_start(&g, GEN_MIXED, seed);
    model_power_on(&m);
    for (unsigned i = 0; i < 300000; i++) {
        uint8_t record[RECORD_BYTES];
        struct model before = m;
        gen_record(&g, record);
        struct outcome got = step_gives(&m, record);
        const char *fact = broken_fact(&m);
        if (!fact)
            fact = broken_set(&before, record, &got, &m);
        if (!fact)
            fact = broken_pins(&before, record, got.refusal, &m);
        if (!fact)
            fact = broken_isolation(&isolation, &before, record, &got, &m);
        if (!got.refusal && cover_is_reset(&before, record) && broken_reset(&before, &m))
            fact = "RESET keeps filters and message bytes and nothing else";
        if (got.refusal && (got.answer != 0 || memcmp(&before, &m, sizeof m) != 0))
            fact = "a refused record answers 0 and changes nothing";
        if (!fact)
            continue;
        fail(__FILE__, __LINE__, "seed %llu, record %u: expected that %s",
             (unsigned long long)seed, i + 1, fact);
        return;
    }
}

/* The logs without the panel are those that there were before it. */
static void test_logs_alone(void)
{
    static const uint64_t want[GEN_PROFILES] = {0x6d0914333137c73a, 0x87ef5735e4ae725c,
                                                0x405e7e0ccaae0fcb};
    uint8_t *log = malloc((size_t)RECORD_BYTES * LOG_RECORDS_MAX);
    for (unsigned profile = 0; profile < GEN_PROFILES; profile++) {
        uint64_t sum = 1469598103934665603u; /* FNV-1a */
        gen_log_alone(profile, 2515, log, LOG_RECORDS_MAX);
        for (size_t i = 0; i < (size_t)RECORD_BYTES * LOG_RECORDS_MAX; i++)
            sum = (sum ^ log[i]) * 1099511628211u;
        EXPECT("sum of a log without the panel", want[profile], sum);
        gen_hide_speakers(log, LOG_RECORDS_MAX);
        for (size_t i = 0; i < LOG_RECORDS_MAX; i++)
            if (log[RECORD_BYTES * i] <= KIND_SELECT_HIGH && log[RECORD_BYTES * i + 2] != 0)
                fail(__FILE__, __LINE__, "record %zu: expected no speaker", i + 1);
    }
    free(log);
}

static void test_generator(uint64_t seed)
{
    enum { RECORDS = 2000 };
    static uint8_t one[RECORD_BYTES * RECORDS], two[RECORD_BYTES * RECORDS];
    gen_log(GEN_MIXED, seed, one, RECORDS);
    gen_log(GEN_MIXED, seed, two, RECORDS);
    EXPECT("same seed, same log", 0, memcmp(one, two, sizeof one));
    gen_log(GEN_MIXED, seed + 1, two, RECORDS);
    EXPECT("another seed, another log", false, memcmp(one, two, sizeof one) == 0);
}

/* The filters that a frame of the speed logs is asked by: all differ, and all
 * but filter hit compare it to its last bit and fail there. */
static void check_asked_filters(const struct model *m, const uint8_t *record, unsigned hit)
{
    struct match_frame frame = match_heard(record);
    for (unsigned n = 0; n < MATCH_FILTERS; n++) {
        uint32_t filter = match_filter(m, n), mask = match_mask(m, match_mask_of(n));
        EXPECT("a filter fails at the last bit alone", n != hit,
               match_differs(filter, mask, &frame));
        for (unsigned other = 0; other < n; other++)
            EXPECT("a filter differs from another", true, filter != match_filter(m, other));
    }
    EXPECT("EID0 is shown", 0xFF, frame.reached & 0xFF);
}

/* What the logs of speed.c are made for; hit is the filter that matches, or 6. */
static void check_speed_log(size_t (*make)(uint64_t, uint8_t *, size_t), unsigned hit)
{
    enum { RECORDS = 10000 };
    uint8_t *log = malloc(RECORD_BYTES * RECORDS);
    size_t frames = 0, extended = 0, stored = 0, counted = make(2515, log, RECORDS);
    struct model m;
    model_power_on(&m);
    for (size_t i = 0; i < RECORDS && failures == 0; i++) {
        const uint8_t *record = log + RECORD_BYTES * i;
        struct model before = m;
        struct outcome got = step_gives(&m, record);
        EXPECT("refusal in a speed log", REFUSED_NOT, got.refusal);
        EXPECT("set in a speed log", record[0] == KIND_FRAME && hit < MATCH_FILTERS ? 1 << hit : 0,
               got.set);
        if (record[0] != KIND_FRAME)
            continue;
        check_asked_filters(&before, record, hit);
        EXPECT("matched", hit < MATCH_FILTERS, got.answer == RX_IN_RXB1 || got.answer == RX_LOST);
        frames++;
        extended += record[1] & FRAME_EXTENDED;
        stored += got.answer == RX_IN_RXB1;
    }
    EXPECT("frames counted", counted, frames);
    EXPECT("mostly frames", true, frames > RECORDS * 8 / 10);
    EXPECT("of both sorts", true, extended > frames / 3 && extended < frames - frames / 3);
    EXPECT("stored", hit < MATCH_FILTERS, stored > frames / 50);
    free(log);
}

/* The log of pins: no refusal, and every fifth record requests. */
static void check_pins_log(void)
{
    enum { RECORDS = 10000 };
    uint8_t *log = malloc(RECORD_BYTES * RECORDS);
    size_t counted = pins_log(2515, log, RECORDS), sent = 0;
    struct model m;
    model_power_on(&m);
    for (size_t i = 0; i < RECORDS && failures == 0; i++) {
        const uint8_t *record = log + RECORD_BYTES * i;
        struct outcome got = step_gives(&m, record);
        EXPECT("refusal in the log of pins", REFUSED_NOT, got.refusal);
        sent += record[0] == KIND_FRAME_ENDS;
    }
    EXPECT("records counted", RECORDS, counted);
    EXPECT("mostly requests that are sent", true, sent > RECORDS / 6);
    free(log);
}

/* The log of the panel: its records and the controller's are about as many, few are refused,
 * and frames are stored and sent. */
static void check_panel_log(void)
{
    enum { RECORDS = 10000 };
    uint8_t *log = malloc(RECORD_BYTES * RECORDS);
    size_t counted = panel_log(2515, log, RECORDS), spoken[SPEAKERS] = {0}, refused = 0, others = 0;
    size_t stored = 0, sent = 0;
    struct model m;
    model_power_on(&m);
    for (size_t i = 0; i < RECORDS; i++) {
        const uint8_t *record = log + RECORD_BYTES * i;
        struct outcome got = step_gives(&m, record);
        refused += got.refusal == REFUSED_SPEAKER;
        others += got.refusal != REFUSED_NOT && got.refusal != REFUSED_SPEAKER &&
                  record[0] != KIND_FRAME_ENDS;
        sent += record[0] == KIND_FRAME_ENDS && got.refusal == REFUSED_NOT;
        stored += record[0] == KIND_FRAME && (got.answer == RX_IN_RXB0 || got.answer == RX_IN_RXB1);
        if (record[0] <= KIND_SELECT_HIGH && got.refusal == REFUSED_NOT)
            spoken[record[2]]++;
    }
    EXPECT("records counted", RECORDS, counted);
    EXPECT("the controller speaks", true, spoken[SPEAKER_CONTROLLER] > RECORDS / 4);
    EXPECT("the panel speaks", true, spoken[SPEAKER_PANEL] > RECORDS / 4);
    EXPECT("the other cuts in", true, refused > 20 && refused < RECORDS / 20);
    EXPECT("refused otherwise", 0, others);
    EXPECT("frames stored and sent", true, stored > RECORDS / 200 && sent > RECORDS / 200);
    free(log);
}

static void check_buffer_sessions(const struct cover *c, bool show)
{
    for (unsigned i = 0; i < COVER_BUFFER_CODES; i++)
        for (unsigned j = 0; j < COVER_LENGTHS; j++) {
            if (c->buffer_sessions[i][j] == 0)
                fail(__FILE__, __LINE__, "random logs: expected %02Xh with %u bytes, got none",
                     cover_buffer_code[i], cover_length[j]);
            if (show)
                printf("%10lu  %02Xh with %u bytes and events\n", c->buffer_sessions[i][j],
                       cover_buffer_code[i], cover_length[j]);
        }
}

/* Each bit that RESET keeps or clears was met, and its address read after. */
static void check_resets(const struct cover *c, bool show)
{
    if (show)
        printf("%10lu  RESET\n", c->resets);
    for (unsigned a = 0; a < COVER_ADDRESSES; a++) {
        uint8_t bits = cover_reset_bits[a];
        bool counter = a == TEC || a == REC;
        unsigned long sum = 0, least = c->resets;
        for (unsigned i = 0; i < 8; i++) {
            sum += c->reset_bit[a][i];
            if ((bits >> i & 1) && c->reset_bit[a][i] < least)
                least = c->reset_bit[a][i];
        }
        if (bits && ((counter ? sum : least) == 0 || c->reset_read[a] == 0))
            fail(__FILE__, __LINE__, "random logs: expected RESET to meet each bit of %02Xh, "
                 "and a READ after it, got %lu of the rarest and %lu", a, least,
                 c->reset_read[a]);
        if (bits && show)
            printf("%10lu  read %02Xh as RESET %s it (rarest bit met: %lu)\n", c->reset_read[a],
                   a, cover_reset_keeps(a) ? "kept" : "cleared", least);
    }
}

/* Of many things that are demanded, the one that was met least often. */
struct rarest {
    unsigned long count;
    char sort[64];
};

/* Frames stored by every length code, from the bus and in Loopback. */
static struct rarest check_stored_length_codes(const struct cover *c, bool show)
{
    enum { LENGTH_CODES = LENGTH_CODE_MAX + 1 };
    struct rarest rarest = {.count = ULONG_MAX};
    for (unsigned i = 0; i < 8 * LENGTH_CODES; i++) {
        unsigned length_code = i % LENGTH_CODES, form = i / LENGTH_CODES;
        unsigned own = form >> 2, remote = form >> 1 & 1, extended = form & 1;
        unsigned long count = c->stored[own][remote][extended][length_code];
        char sort[64];
        snprintf(sort, sizeof sort, "%s, %s, %s, length code %u", own ? "Loopback" : "bus",
                 remote ? "remote" : "data", extended ? "extended" : "standard", length_code);
        if (count == 0)
            fail(__FILE__, __LINE__, "random logs: expected a stored frame (%s), got none", sort);
        if (show)
            printf("%10lu  stored: %s\n", count, sort);
        if (count < rarest.count) {
            rarest.count = count;
            memcpy(rarest.sort, sort, sizeof sort);
        }
    }
    return rarest;
}

/* A corner of a rule, met often enough that another seed meets it too. */
static void demand_corner(struct rarest *rarest, unsigned long count, const char *text, bool show)
{
    enum { LEAST = 3 };
    if (count < LEAST)
        fail(__FILE__, __LINE__, "random logs: expected \"%s\" to decide %d times, got %lu", text,
             LEAST, count);
    if (show)
        printf("%10lu  decides: %s\n", count, text);
    if (count < rarest->count) {
        rarest->count = count;
        snprintf(rarest->sort, sizeof rarest->sort, "%s", text);
    }
}

/* Frames whose answer data byte 0 or 1 decided, by being there or not. */
static void check_filtered_length_codes(const struct cover *c, struct rarest *rarest, bool show)
{
    for (unsigned byte = 0; byte < 2; byte++)
        for (unsigned i = 0; i < COVER_CLASSES; i++) {
            char text[64];
            snprintf(text, sizeof text, "data byte %u for %s", byte, cover_class_name[i]);
            demand_corner(rarest, c->filtered[byte][i], text, show);
        }
}

/* The corners of the match rule, each bit that can decide and each filter. */
static struct rarest check_match(const struct cover *c, bool show)
{
    struct rarest rarest = {.count = ULONG_MAX};
    unsigned long of_filter[MATCH_FILTERS] = {0};
    EXPECT("frames matched otherwise than by match.c", 0, c->matched_otherwise);
    for (unsigned bit = 0; bit < MATCH_BITS; bit++) {
        unsigned long sum = 0;
        for (unsigned n = 0; n < MATCH_FILTERS; n++) {
            sum += c->one_bit[n][bit];
            of_filter[n] += c->one_bit[n][bit];
        }
        demand_corner(&rarest, sum, match_bit_name(bit), show);
    }
    for (unsigned n = 0; n < MATCH_FILTERS; n++) {
        char text[64];
        snprintf(text, sizeof text, "a single bit of RXF%u", n);
        demand_corner(&rarest, of_filter[n], text, show);
    }
    check_filtered_length_codes(c, &rarest, show);
    for (unsigned i = COVER_MATCH_EID17_16; i <= COVER_MATCH_MASK_5; i++)
        demand_corner(&rarest, c->count[i], cover_text[i], show);
    return rarest;
}

/* Each byte of each filter keeps it out of a set, by one bit; so does EXIDE. */
static void check_set_bytes(const struct cover *c, struct rarest *rarest, bool show)
{
    static const char *const byte_name[4] = {"SIDH", "SIDL", "EID8", "EID0"};
    for (unsigned i = 0; i < 2 * MATCH_FILTERS; i++) {
        unsigned n = i / 2, extended = i % 2;
        const char *sort = extended ? "extended" : "standard";
        char text[64];
        for (unsigned byte = 0; byte < 4; byte++) {
            snprintf(text, sizeof text, "set: no RXF%u, by %s, %s", n, byte_name[byte], sort);
            demand_corner(rarest, c->set_byte[n][extended][byte], text, show);
        }
        snprintf(text, sizeof text, "set: no RXF%u, by EXIDE, %s", n, sort);
        demand_corner(rarest, c->set_exide[n][extended], text, show);
    }
}

/* Nearly all sets there are; the fixed cases have every one. */
static void check_sets_met(const struct cover *c, bool show)
{
    enum { LEAST = COVER_SETS * 9 / 10 };
    unsigned met = 0;
    for (unsigned set = 0; set < COVER_SETS; set++) {
        met += c->sets[set] > 0;
        if (show)
            printf("%10lu  frames with set %02Xh\n", c->sets[set], set);
    }
    if (met < LEAST)
        fail(__FILE__, __LINE__, "random logs: expected %d different sets, got %u", LEAST, met);
}

static unsigned long frames_with(const struct cover *c, unsigned filters, unsigned of_filters)
{
    unsigned long sum = 0;
    for (unsigned set = 0; set < COVER_SETS; set++)
        if ((set & of_filters) == filters)
            sum += c->sets[set];
    return sum;
}

/* Any two filters: both in a set, either of them, neither. */
static void check_filter_pairs(const struct cover *c, struct rarest *rarest, bool show)
{
    for (unsigned b = 1; b < MATCH_FILTERS; b++)
        for (unsigned a = 0; a < b; a++)
            for (unsigned has = 0; has < 4; has++) {
                unsigned has_a = has & 1, has_b = has >> 1;
                char text[64];
                snprintf(text, sizeof text, "set %s RXF%u, %s RXF%u", has_a ? "with" : "without",
                         a, has_b ? "with" : "without", b);
                demand_corner(rarest, frames_with(c, has_a << a | has_b << b, 1u << a | 1u << b),
                              text, show);
            }
}

/* The rules of the set by their effect. */
static struct rarest check_sets(const struct cover *c, bool show)
{
    struct rarest rarest = {.count = ULONG_MAX};
    char text[64];
    EXPECT("sets otherwise than by match.c", 0, c->set_otherwise);
    for (unsigned i = COVER_SET_PAST_LOWEST; i <= COVER_SET_GONE; i++) {
        snprintf(text, sizeof text, "set: %s", cover_text[i]);
        demand_corner(&rarest, c->count[i], text, show);
    }
    check_sets_met(c, show);
    check_filter_pairs(c, &rarest, show);
    check_set_bytes(c, &rarest, show);
    return rarest;
}

/* The rules of the request pins by their effect; every enable with every level was read. */
static struct rarest check_pins(const struct cover *c, bool show)
{
    struct rarest rarest = {.count = ULONG_MAX};
    char text[64];
    for (unsigned i = COVER_PIN_REQUESTS_0; i <= COVER_PIN_LOAD_REFUSED; i++) {
        snprintf(text, sizeof text, "pin: %s", cover_text[i]);
        demand_corner(&rarest, c->count[i], text, show);
    }
    for (unsigned i = 3; i < RECORD_BYTES; i++) {
        snprintf(text, sizeof text, "pin: refused for byte %u alone", i);
        demand_corner(&rarest, c->pin_spare[i], text, show);
    }
    for (unsigned i = 0; i < COVER_PIN_STATES * COVER_PIN_STATES; i++) {
        unsigned enables = i / COVER_PIN_STATES, levels = i % COVER_PIN_STATES;
        snprintf(text, sizeof text, "pin: TXRTSCTRL read, enables %u, levels %u", enables, levels);
        demand_corner(&rarest, c->txrtsctrl[enables][levels], text, show);
    }
    return rarest;
}

/* The rules of the panel by their effect. */
static struct rarest check_panel(const struct cover *c, bool show)
{
    struct rarest rarest = {.count = ULONG_MAX};
    char text[96];
    for (unsigned i = COVER_PANEL_READ; i < COVER_POINTS; i++) {
        snprintf(text, sizeof text, "panel: %s", cover_text[i]);
        demand_corner(&rarest, c->count[i], text, show);
    }
    return rarest;
}

static bool can_be_cut(unsigned command)
{
    return command != TIDY_EMPTY && command != TIDY_RESET && command != TIDY_RTS &&
           command != TIDY_UNKNOWN && command != TIDY_FORBIDDEN;
}

/* The same of the panel's, which has not all of them. */
static void check_panel_tally(const struct tidy_tally *tally, bool show)
{
    for (unsigned i = 0; i < TIDY_COMMANDS; i++) {
        bool has = i != TIDY_RESET && i != TIDY_BIT_MODIFY && i != TIDY_WRITE;
        if (!has) {
            EXPECT("listed sessions that the panel cannot have", 0, tally->panel_listed[i]);
            continue;
        }
        if (tally->panel_with_events[i] < 3 ||
            (can_be_cut(i) && tally->panel_cut_with_events[i] < 3))
            fail(__FILE__, __LINE__, "tidied: expected the panel's \"%s\" with events inside",
                 tidy_command_name[i]);
        if (show)
            printf("%10lu  listed %s of the panel with events (cut: %lu)\n",
                   tally->panel_with_events[i], tidy_command_name[i],
                   tally->panel_cut_with_events[i]);
    }
    EXPECT("LOADs of the panel not listed for a fall", true, tally->panel_unlisted_by_fall > 2);
    if (show)
        printf("%10lu  LOAD of the panel not listed for nothing but a fall\n",
               tally->panel_unlisted_by_fall);
}

static void check_wide_tally(const struct tidy_tally *tally, bool show)
{
    EXPECT("sessions listed by the wide reading alone", true, tally->widely > 100);
    EXPECT("the same of the panel", true, tally->panel_widely > 100);
    if (show)
        printf("%10lu  listed with events by the wide reading alone, %lu of them the panel's\n",
               tally->widely, tally->panel_widely);
}

/* Listed commands, whole and cut, with events before and after their moment. */
static void check_tidied_tally(const struct tidy_tally *tally, bool show)
{
    for (unsigned i = 0; i < TIDY_COMMANDS; i++) {
        if (tally->with_events[i] == 0 || (can_be_cut(i) && tally->cut_with_events[i] == 0))
            fail(__FILE__, __LINE__, "tidied: expected listed \"%s\" with events inside, got none",
                 tidy_command_name[i]);
        if (show)
            printf("%10lu  listed %s with events (cut: %lu)\n", tally->with_events[i],
                   tidy_command_name[i], tally->cut_with_events[i]);
    }
    EXPECT("events before a moment", true, tally->events_before > 0);
    EXPECT("events after a moment", true, tally->events_after > 0);
    EXPECT("pin records before a moment", true, tally->pins_before > 100);
    EXPECT("pin records after a moment", true, tally->pins_after > 100);
    EXPECT("refused pin records in a listed command", true, tally->refused_pins > 100);
    EXPECT("LOADs not listed for a fall", true, tally->unlisted_by_fall > 100);
    if (show)
        printf("%10lu  pin records before a moment, %lu after, %lu of them refused\n"
               "%10lu  LOAD TX BUFFER not listed for nothing but a fall\n",
               tally->pins_before, tally->pins_after, tally->refused_pins, tally->unlisted_by_fall);
}

struct rarest_met {
    struct rarest stored, match, set, pin, panel;
};

/* Random logs are worth something only if they get everywhere. */
static struct rarest_met test_coverage(uint64_t seeds, bool show)
{
    enum { RECORDS = 3000, LOGS = 600 };
    struct cover c = {0};
    struct rarest_met rarest;
    uint8_t *log = malloc(RECORD_BYTES * RECORDS);
    for (unsigned i = 0; i < LOGS; i++) {
        gen_log(GEN_MIXED, gen_next(&seeds), log, RECORDS);
        cover_log(&c, log, RECORDS);
    }
    free(log);
    for (unsigned i = 0; i < COVER_MATCH_EID17_16; i++) { /* then check_match and check_sets */
        if (c.count[i] == 0)
            fail(__FILE__, __LINE__, "random logs: expected \"%s\" to happen, got none",
                 cover_text[i]);
        if (show)
            printf("%10lu  %s\n", c.count[i], cover_text[i]);
    }
    check_buffer_sessions(&c, show);
    check_resets(&c, show);
    rarest.stored = check_stored_length_codes(&c, show);
    rarest.match = check_match(&c, show);
    rarest.set = check_sets(&c, show);
    rarest.pin = check_pins(&c, show);
    rarest.panel = check_panel(&c, show);
    return rarest;
}

static void tell(const struct rarest_met *rarest)
{
    printf("%zu fixed cases, %u tidied lists (event moved: %u) and the random logs agree\n",
           case_count(), tidied_moved + tidied_stayed, tidied_moved);
    printf("%u pairs of logs compared\n", pairs_compared);
    printf("frames stored by source, form and length code: the rarest %lu times (%s)\n",
           rarest->stored.count, rarest->stored.sort);
    printf("corners of the match rule: the rarest decides %lu frames (%s)\n",
           rarest->match.count, rarest->match.sort);
    printf("%u sets by hand; corners of their rules: the rarest decides %lu (%s)\n", sets_by_hand,
           rarest->set.count, rarest->set.sort);
    printf("LOADs cut by a fall: %u lists that tidying would change, %u that it would not\n",
           fall_differs, fall_alike);
    printf("corners of the request pins: the rarest decides %lu (%s)\n", rarest->pin.count,
           rarest->pin.sort);
    printf("corners of the panel: the rarest decides %lu (%s)\n", rarest->panel.count,
           rarest->panel.sort);
    printf("isolation: %lu records of the panel, %lu sessions that change nothing, %lu of them "
           "with events; RTS and LOAD with events %lu, another byte of the controller's in %lu\n",
           isolation.records, isolation.sessions, isolation.with_events, isolation.acting,
           isolation.acting_apart);
}

int main(int argc, char **argv)
{
    uint64_t seed = argc > 1 ? strtoull(argv[1], NULL, 0) : 2515;
    bool show = argc > 2 && strcmp(argv[2], "show") == 0;
    struct tidy_tally tally = {0}, widely = {0};
    printf("model tests, seed %llu\n", (unsigned long long)seed);
    test_data_bytes();
    test_fixed_cases();
    test_whole_log_rule();
    test_pairs();
    test_unreached(seed);
    test_no_ninth_byte();
    test_power_on();
    test_held_and_read();
    test_addresses_above_7f();
    test_int_sources();
    test_int_bits();
    test_tidied_by_hand();
    test_tidied_lists();
    test_generator(seed);
    test_logs_alone();
    check_speed_log(late_log, MATCH_FILTERS);
    check_speed_log(last_log, 5);
    check_pins_log();
    check_panel_log();
    test_every_step(seed);
    check_isolation();
    test_demand_3(seed, &tally, &widely);
    check_tidied_tally(&tally, show);
    check_panel_tally(&tally, show);
    check_wide_tally(&widely, show);
    struct rarest_met rarest = test_coverage(seed, show);
    if (failures) {
        printf("%u failures\n", failures);
        return 1;
    }
    tell(&rarest);
    return 0;
}
