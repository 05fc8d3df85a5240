/*
 * Every call at the edges of its lengths: which refusal comes first, that a
 * refused call changes no byte, that an accepted one writes no byte beyond its
 * answer.
 */
#include <string.h>

#include "live.h"

#define COUNT(list) (sizeof(list) / sizeof *(list))

static const size_t chip_lengths[] = {0, 1, 151, 152, 153, 304};
static const uint8_t versions[] = {0, 1, 2, 3, 4, 131, 255}; /* 2 had no panel, 1 no pins */

/* A power-on chip with this version and this length, cut or with a tail. */
static uint8_t *lend_chip(size_t length, uint8_t version)
{
    uint8_t first[MCP2515_CHIP_SIZE];
    uint8_t *chip = fence_lend(&chip_fence, length);
    if (mcp2515_power_on(first, sizeof first) != MCP2515_CHIP_SIZE)
        live_stop("power-on");
    first[MCP2515_PLACE_VERSION] = version;
    memcpy(chip, first, length < sizeof first ? length : sizeof first);
    return chip;
}

static bool is_chip(size_t length, uint8_t version)
{
    return length == MCP2515_CHIP_SIZE && version == MCP2515_CHIP_VERSION;
}

/* A call on a lent chip, and what it must not change if it is refused. */
struct edge {
    const uint8_t *chip;
    size_t chip_len;
    uint8_t before[304];
    const uint8_t *out;
    size_t out_len;
    size_t in_len;
};

static struct edge watch(const uint8_t *chip, size_t chip_len, size_t in_len, const uint8_t *out,
                         size_t out_len)
{
    struct edge e = {.chip = chip, .chip_len = chip_len, .out = out, .out_len = out_len};
    e.in_len = in_len;
    memcpy(e.before, chip, chip_len);
    return e;
}

/* written bytes of the output may have changed, and the chip if the call was accepted. */
static void check_untouched(const struct edge *e, int64_t result, size_t written)
{
    if (!fence_intact(&chip_fence, e->chip_len) || !fence_intact(&out_fence, e->out_len) ||
        !fence_intact(&in_fence, e->in_len))
        live_stop("a byte before a buffer was changed");
    if (result < 0 && memcmp(e->before, e->chip, e->chip_len) != 0)
        live_stop("a refused call changed the chip");
    if (result >= 0 &&
        memcmp(e->before + SPARE_FROM, e->chip + SPARE_FROM, e->chip_len - SPARE_FROM) != 0)
        live_stop("a spare byte or the version was changed");
    if (!fence_filled(e->out + written, e->out_len - written))
        live_stop("a byte past the answer was changed");
}

static void edge_power_on(void)
{
    static const size_t lengths[] = {0, 1, 151, 152, 153, 200, 304};
    for (size_t i = 0; i < COUNT(lengths); i++) {
        uint8_t *chip = fence_lend(&chip_fence, lengths[i]);
        bool room = lengths[i] >= MCP2515_CHIP_SIZE;
        size_t written = room ? MCP2515_CHIP_SIZE : 0;
        live_result(CALL_POWER_ON, room ? MCP2515_CHIP_SIZE : -MCP2515_REFUSED_SHORT,
                    mcp2515_power_on(chip, lengths[i]));
        if (!fence_filled(chip + written, lengths[i] - written) ||
            !fence_intact(&chip_fence, lengths[i]))
            live_stop("power-on wrote beside the chip");
        if (room && chip[MCP2515_PLACE_VERSION] != MCP2515_CHIP_VERSION)
            live_stop("power-on wrote no version");
    }
    live_result(CALL_POWER_ON, -MCP2515_REFUSED_SHORT, mcp2515_power_on(NULL, 0));
}

static void step_at(const struct step_call *step, size_t chip_len, uint8_t version,
                    size_t record_len, size_t answer_len)
{
    uint8_t *chip = lend_chip(chip_len, version);
    uint8_t *record = fence_lend(&in_fence, record_len);
    uint8_t *answer = fence_lend(&out_fence, answer_len);
    struct edge e = watch(chip, chip_len, record_len, answer, answer_len);
    int64_t want = !is_chip(chip_len, version)         ? -MCP2515_REFUSED_NO_CHIP
                   : record_len != MCP2515_RECORD_SIZE ? -MCP2515_REFUSED_LENGTH
                   : answer_len < step->answer_size    ? -MCP2515_REFUSED_ROOM
                                                       : (int64_t)step->answer_size;
    memset(record, 0, record_len); /* select low */
    int64_t got = step->run(chip, chip_len, record, record_len, answer, answer_len);
    live_result(step->call, want, got);
    check_untouched(&e, got, got < 0 ? 0 : step->answer_size);
}

static void edge_step(size_t chip_len, uint8_t version)
{
    static const size_t record_lengths[] = {0, 1, 15, 16, 17, 32};
    for (size_t i = 0; i < COUNT(record_lengths); i++)
        for (size_t answer_len = 0; answer_len < 6; answer_len++)
            for (unsigned n = 0; n < STEP_CALLS; n++)
                step_at(&step_calls[n], chip_len, version, record_lengths[i], answer_len);
}

static int64_t want_of_run(size_t log_len, size_t answers_len)
{
    size_t records = log_len / MCP2515_RECORD_SIZE;
    if (log_len % MCP2515_RECORD_SIZE != 0)
        return -MCP2515_REFUSED_LENGTH;
    if (records > MCP2515_MOST_RECORDS)
        return -MCP2515_REFUSED_COUNT;
    if (answers_len < MCP2515_ANSWER_SIZE * records)
        return -MCP2515_REFUSED_ROOM;
    return (int64_t)records;
}

static void run_at(size_t chip_len, uint8_t version, size_t log_len, size_t answers_len)
{
    uint8_t *chip = lend_chip(chip_len, version);
    uint8_t *log = fence_lend(&in_fence, log_len);
    uint8_t *answers = fence_lend(&out_fence, answers_len);
    struct edge e = watch(chip, chip_len, log_len, answers, answers_len);
    int64_t want = want_of_run(log_len, answers_len);
    int64_t got = mcp2515_run_log(log, log_len, answers, answers_len);
    live_result(CALL_RUN_LOG, want, got);
    check_untouched(&e, got < 0 || chip_len < MCP2515_CHIP_SIZE ? -1 : 0,
                    got < 0 ? 0 : MCP2515_ANSWER_SIZE * (size_t)got);
    memset(answers, FENCE_FILL, answers_len);
    if (!is_chip(chip_len, version))
        want = -MCP2515_REFUSED_NO_CHIP;
    got = mcp2515_run_from(chip, chip_len, log, log_len, answers, answers_len);
    live_result(CALL_RUN_FROM, want, got);
    check_untouched(&e, got, got < 0 ? 0 : MCP2515_ANSWER_SIZE * (size_t)got);
}

static void edge_run(size_t chip_len, uint8_t version)
{
    enum { MOST = MCP2515_MOST_RECORDS * MCP2515_RECORD_SIZE };
    static const size_t log_lengths[] = {0,        1,    15,       16,        17,       160,
                                         MOST - 1, MOST, MOST + 1, MOST + 16, MOST + 17};
    for (size_t i = 0; i < COUNT(log_lengths); i++) {
        size_t room = MCP2515_ANSWER_SIZE * (log_lengths[i] / MCP2515_RECORD_SIZE);
        run_at(chip_len, version, log_lengths[i], 0);
        run_at(chip_len, version, log_lengths[i], room);
        run_at(chip_len, version, log_lengths[i], room + 5);
        if (room > 0)
            run_at(chip_len, version, log_lengths[i], room - 1);
    }
}

static void edge_questions(size_t chip_len, uint8_t version)
{
    uint8_t *chip = lend_chip(chip_len, version);
    struct edge e = watch(chip, chip_len, 0, fence_lend(&out_fence, 0), 0);
    bool good = is_chip(chip_len, version);
    fence_lend(&in_fence, 0);
    live_result(CALL_HOLD, good ? 0x87 : -MCP2515_REFUSED_NO_CHIP,
                mcp2515_hold(chip, chip_len, 0x0F));
    live_result(CALL_HOLD, good ? 0x38 : -MCP2515_REFUSED_NO_CHIP,
                mcp2515_hold(chip, chip_len, 0x0D));
    live_result(CALL_READ, good ? 0x80 : -MCP2515_REFUSED_NO_CHIP,
                mcp2515_read(chip, chip_len, 0xEE));
    live_result(CALL_INT_IS_LOW, good ? 0 : -MCP2515_REFUSED_NO_CHIP,
                mcp2515_int_is_low(chip, chip_len));
    check_untouched(&e, -1, 0);
}

/* The fill is no record, so a line is "1 2 0\n": 6 bytes up to record 9. As a frame, which is
 * refused too, a record has two bytes more, but a short one has not. */
static int64_t bytes_of_text(size_t part_len, bool frames)
{
    size_t records = part_len / MCP2515_RECORD_SIZE, ragged = part_len % MCP2515_RECORD_SIZE != 0;
    return (int64_t)(6 * (records + ragged) + (frames ? 2 * records : 0));
}

static void render_at(size_t chip_len, uint8_t version, size_t part_len, size_t text_len,
                      bool frames)
{
    uint8_t *chip = lend_chip(chip_len, version);
    uint8_t *part = fence_lend(&in_fence, part_len);
    uint8_t *text = fence_lend(&out_fence, text_len);
    struct edge e = watch(chip, chip_len, part_len, text, text_len);
    int64_t want = !is_chip(chip_len, version) ? -MCP2515_REFUSED_NO_CHIP
                   : text_len < (part_len / MCP2515_RECORD_SIZE + 1) * MCP2515_LINE_SIZE
                       ? -MCP2515_REFUSED_ROOM
                       : bytes_of_text(part_len, frames);
    for (size_t i = 0; frames && i < part_len; i += MCP2515_RECORD_SIZE)
        part[i] = KIND_FRAME;
    int64_t got = mcp2515_render(chip, chip_len, 0, part, part_len, text, text_len);
    live_result(CALL_RENDER, want, got);
    check_untouched(&e, got, got < 0 ? 0 : (size_t)got);
}

static void edge_render(size_t chip_len, uint8_t version)
{
    static const size_t part_lengths[] = {0, 1, 15, 16, 17, 31, 32, 33, 128, 129};
    for (size_t i = 0; i < COUNT(part_lengths); i++) {
        size_t room = (part_lengths[i] / MCP2515_RECORD_SIZE + 1) * MCP2515_LINE_SIZE;
        for (unsigned frames = 0; frames < 2; frames++) {
            render_at(chip_len, version, part_lengths[i], 0, frames);
            render_at(chip_len, version, part_lengths[i], room - 1, frames);
            render_at(chip_len, version, part_lengths[i], room, frames);
            render_at(chip_len, version, part_lengths[i], room + 9, frames);
        }
    }
}

static void edge_part_refusal(void)
{
    static const uint32_t numbers[] = {0, 1, 65533, 65534, 65535, 65536, 1000000, UINT32_MAX};
    for (size_t i = 0; i < COUNT(numbers); i++)
        for (size_t part_len = 0; part_len < 100; part_len++) {
            uint64_t last = (uint64_t)numbers[i] + part_len / MCP2515_RECORD_SIZE;
            bool whole = part_len >= MCP2515_RECORD_SIZE;
            int64_t want = whole && last > MCP2515_MOST_RECORDS  ? MCP2515_REFUSED_COUNT
                           : part_len % MCP2515_RECORD_SIZE != 0 ? MCP2515_REFUSED_LENGTH
                                                                 : 0;
            live_result(CALL_PART_REFUSAL, want, mcp2515_part_refusal(numbers[i], part_len));
        }
    live_result(CALL_PART_REFUSAL, MCP2515_REFUSED_COUNT, mcp2515_part_refusal(0, SIZE_MAX));
    live_result(CALL_PART_REFUSAL, MCP2515_REFUSED_COUNT,
                mcp2515_part_refusal(UINT32_MAX, SIZE_MAX));
    live_result(CALL_PART_REFUSAL, 0, mcp2515_part_refusal(0, 65535 * 16));
    live_result(CALL_PART_REFUSAL, 6, mcp2515_part_refusal(0, 65535 * 16 + 1));
    live_result(CALL_PART_REFUSAL, 8, mcp2515_part_refusal(0, 65536 * 16));
}

/* A chip as an older version saved it after power-on. Version 1 has no levels, and the
 * select line where the first of them is now: read as it is, its pins would be low. */
static uint8_t *lend_older_chip(uint8_t version)
{
    enum { CANCTRL_AT = 128, MODE_AT = 140 };
    uint8_t *chip = fence_lend(&chip_fence, MCP2515_CHIP_SIZE);
    memset(chip, 0, MCP2515_CHIP_SIZE);
    chip[CANCTRL_AT] = 0x87;
    chip[MODE_AT] = MODE_CONFIGURATION;
    chip[MCP2515_PLACE_FLIGHT] = NO_FLIGHT;
    chip[MCP2515_PLACE_MODE_REQUESTED] = NO_REQUEST;
    if (version > 1)
        memset(&chip[MCP2515_PLACE_PINS], 1, REQUEST_PINS);
    chip[MCP2515_PLACE_VERSION] = version;
    return chip;
}

/* Refused by every call, and left as it is; with the version of today the bytes are a chip. */
static void edge_older_chip(uint8_t version)
{
    enum { CHIP = MCP2515_CHIP_SIZE, NO_CHIP = -MCP2515_REFUSED_NO_CHIP };
    uint8_t *chip = lend_older_chip(version), *record = fence_lend(&in_fence, MCP2515_RECORD_SIZE);
    uint8_t *out = fence_lend(&out_fence, 2 * MCP2515_LINE_SIZE);
    struct edge e = watch(chip, CHIP, MCP2515_RECORD_SIZE, out, 2 * MCP2515_LINE_SIZE);
    memset(record, 0, MCP2515_RECORD_SIZE);
    for (unsigned n = 0; n < STEP_CALLS; n++)
        live_result(step_calls[n].call, NO_CHIP,
                    step_calls[n].run(chip, CHIP, record, MCP2515_RECORD_SIZE, out,
                                      step_calls[n].answer_size));
    live_result(CALL_RUN_FROM, NO_CHIP,
                mcp2515_run_from(chip, CHIP, record, MCP2515_RECORD_SIZE, out, 2));
    live_result(CALL_HOLD, NO_CHIP, mcp2515_hold(chip, CHIP, 0x0D));
    live_result(CALL_READ, NO_CHIP, mcp2515_read(chip, CHIP, 0x0D));
    live_result(CALL_INT_IS_LOW, NO_CHIP, mcp2515_int_is_low(chip, CHIP));
    live_result(CALL_RENDER, NO_CHIP,
                mcp2515_render(chip, CHIP, 0, record, MCP2515_RECORD_SIZE, out,
                               2 * MCP2515_LINE_SIZE));
    check_untouched(&e, -1, 0);
    chip[MCP2515_PLACE_VERSION] = MCP2515_CHIP_VERSION;
    live_result(CALL_HOLD, version > 1 ? 0x38 : 0x00, mcp2515_hold(chip, CHIP, 0x0D));
}

/* NULL goes with length 0. */
static void edge_null(void)
{
    uint8_t *chip = lend_chip(MCP2515_CHIP_SIZE, MCP2515_CHIP_VERSION);
    uint8_t bytes[MCP2515_LINE_SIZE] = {0};
    live_result(CALL_RUN_LOG, 0, mcp2515_run_log(NULL, 0, NULL, 0));
    for (unsigned n = 0; n < STEP_CALLS; n++) {
        const struct step_call *step = &step_calls[n];
        live_result(step->call, -21, step->run(NULL, 0, NULL, 0, NULL, 0));
        live_result(step->call, -6, step->run(chip, MCP2515_CHIP_SIZE, NULL, 0, NULL, 0));
        live_result(step->call, -7, step->run(chip, MCP2515_CHIP_SIZE, bytes, 16, NULL, 0));
    }
    live_result(CALL_RUN_FROM, -21, mcp2515_run_from(NULL, 0, NULL, 0, NULL, 0));
    live_result(CALL_RUN_FROM, 0, mcp2515_run_from(chip, MCP2515_CHIP_SIZE, NULL, 0, NULL, 0));
    live_result(CALL_RUN_FROM, -7, mcp2515_run_from(chip, MCP2515_CHIP_SIZE, bytes, 16, NULL, 0));
    live_result(CALL_HOLD, -21, mcp2515_hold(NULL, 0, 0));
    live_result(CALL_READ, -21, mcp2515_read(NULL, 0, 0));
    live_result(CALL_INT_IS_LOW, -21, mcp2515_int_is_low(NULL, 0));
    live_result(CALL_RENDER, -21, mcp2515_render(NULL, 0, 0, NULL, 0, NULL, 0));
    live_result(CALL_RENDER, -7, mcp2515_render(chip, MCP2515_CHIP_SIZE, 0, NULL, 0, NULL, 0));
    live_result(CALL_RENDER, 0,
                mcp2515_render(chip, MCP2515_CHIP_SIZE, 0, NULL, 0, bytes, sizeof bytes));
}

void check_edges(void)
{
    edge_power_on();
    for (size_t i = 0; i < COUNT(chip_lengths); i++)
        for (size_t j = 0; j < COUNT(versions); j++) {
            edge_step(chip_lengths[i], versions[j]);
            edge_run(chip_lengths[i], versions[j]);
            edge_questions(chip_lengths[i], versions[j]);
            edge_render(chip_lengths[i], versions[j]);
        }
    edge_part_refusal();
    for (uint8_t version = 1; version < MCP2515_CHIP_VERSION; version++)
        edge_older_chip(version);
    edge_null();
}
