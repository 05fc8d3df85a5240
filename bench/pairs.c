/*
 * mcp2515_compare_logs against the second implementation: fixed pairs of logs,
 * random ones of every sort, every refusal, rooms of every size; and what must
 * hold between calls: a log and itself, the logs swapped, the longer log cut.
 * The first difference ends the run with status 1. What was met is counted,
 * and none of it may be rare.
 *
 *   pairs [pairs [seed]]
 */
#include <stdio.h>
#include <stdlib.h>
#include <string.h>

#include "cases.h"
#include "differences.h"
#include "fence.h"
#include "gen.h"
#include "mcp2515.h"
#include "model.h"
#include "pair_logs.h"

enum { DEFAULT_PAIRS = 30000, DEFAULT_SEED = 2515, LARGER_BY = 40 };

_Static_assert((int)ENTRY_BYTES == MCP2515_ENTRY_SIZE, "an entry of the model and of the call");

/* The room lent for entries. */
enum room {
    ROOM_EXACT,
    ROOM_LARGER,
    ROOM_FOR_ALL, /* for every record of the shorter log */
    ROOM_BYTE_SHORT,
    ROOM_ENTRY_SHORT,
    ROOM_WITHOUT_SETS, /* for the entries that differ in more than the set */
    ROOM_NONE,
    ROOM_NULL,
    ROOMS
};

static const char *const room_name[ROOMS] = {
    "exact",          "larger",           "for every record", "a byte short",
    "an entry short", "without the sets", "none",             "none, NULL"};

static struct fence first_fence, second_fence, entries_fence;
static uint8_t *model_entries;
static unsigned long long seed_given, pairs_done, calls_done;
static uint64_t dice;

static unsigned below(size_t n)
{
    return (unsigned)((gen_next(&dice) >> 33) % n);
}

_Noreturn static void stop(const char *what)
{
    printf("DIFFERENCE: %s\nseed %llu, pair %llu\n", what, seed_given, pairs_done + 1);
    exit(1);
}

/* ---- what was met ---- */

enum {
    DIFFERS_RECORD = 1,
    DIFFERS_REFUSAL = 2,
    DIFFERS_ANSWER = 4,
    DIFFERS_SET = 8,
    DIFFERENCES = 16
};
enum { LEFT_NOTHING, LEFT_OF_FIRST, LEFT_OF_SECOND, LEFTS };
enum { EDGE_FIRST, EDGE_LAST, EDGES };                  /* of a block */
enum { LESS_BY_ONE, WHOLE, MORE_BY_ONE, LENGTHS_NEAR }; /* records, against blocks */
typedef unsigned long long near_blocks[BLOCKS][LENGTHS_NEAR];

static unsigned long long sorts[PAIR_SORTS], faults[LENGTHS][LENGTHS], rooms[ROOMS][2],
    combinations[DIFFERENCES], lefts[LEFTS], first_difference[BLOCKS][EDGES];
/* Of the shorter log: all of its records, and those from the first entry on. */
static near_blocks lengths_near, rests_near;
static unsigned long long in_first_record, in_last_record, alone, record_alone, equal_pairs,
    all_differ, above_255, above_32767, longest, swapped, with_itself, cut_alike, null_logs;
/* Entries with two sets, by what the record is; [1]: nothing else differs. */
static unsigned long long sets_heard[2], sets_in_loopback[2], short_by_set_alone;
/* Entries of two accepted pin records; pairs where one of these is all that the logs differ in,
 * and pairs of these where later records answer otherwise. */
static unsigned long long pin_entries, pins_apart, pins_tell;
/* Entries of two speakers, both accepted; of refusal 18 in one log alone; pairs of the two sorts
 * where later records answer otherwise. */
static unsigned long long speaker_entries, refused_speakers, speakers_tell[2];

static void demand(const char *what, unsigned long long count, unsigned least)
{
    printf("  %-56s %12llu\n", what, count);
    if (count >= least)
        return;
    printf("TOO SELDOM: expected %u at least\nseed %llu\n", least, seed_given);
    exit(1);
}

static void demand_calls(void)
{
    static const char *const fault_name[LENGTHS] = {"sound", "ragged", "too long",
                                                    "ragged and too long"};
    char text[96];
    for (unsigned i = 0; i < PAIR_SORTS; i++) {
        snprintf(text, sizeof text, "pair: %s", pair_sort_name[i]);
        demand(text, sorts[i], 100);
    }
    for (unsigned i = 0; i < LENGTHS * LENGTHS; i++) {
        snprintf(text, sizeof text, "first %s, second %s", fault_name[i / LENGTHS],
                 fault_name[i % LENGTHS]);
        demand(text, faults[i / LENGTHS][i % LENGTHS], 20);
    }
    for (unsigned i = 0; i < ROOMS; i++) {
        snprintf(text, sizeof text, "room: %s, taken", room_name[i]);
        if (i != ROOM_BYTE_SHORT && i != ROOM_ENTRY_SHORT)
            demand(text, rooms[i][0], 100);
        snprintf(text, sizeof text, "room: %s, refusal 7", room_name[i]);
        if (i >= ROOM_BYTE_SHORT)
            demand(text, rooms[i][1], i == ROOM_WITHOUT_SETS ? 50 : 100);
    }
    demand("too short by an entry or a byte of it, of the set alone", short_by_set_alone, 100);
    demand("log of no bytes, NULL", null_logs, 20);
}

/* Where a record is refused in one log only, the other has a set only with an answer: a frame
 * that is answered 0 has no match. */
static bool cannot_be(unsigned differences)
{
    return (differences & DIFFERS_REFUSAL) && (differences & DIFFERS_SET) &&
           !(differences & DIFFERS_ANSWER);
}

static void demand_entries(void)
{
    char text[96];
    for (unsigned i = 1; i < DIFFERENCES; i++) {
        if (cannot_be(i))
            continue;
        snprintf(text, sizeof text, "entry: differ%s%s%s%s", i & DIFFERS_RECORD ? " record" : "",
                 i & DIFFERS_REFUSAL ? " refusal" : "", i & DIFFERS_ANSWER ? " answer" : "",
                 i & DIFFERS_SET ? " set" : "");
        demand(text, combinations[i], 1000);
    }
    demand("entry: two sets of a frame heard", sets_heard[0], 1000);
    demand("entry: nothing but two sets of a frame heard", sets_heard[1], 1000);
    demand("entry: two sets of an own frame in Loopback", sets_in_loopback[0], 300);
    demand("entry: nothing but two sets of such a frame", sets_in_loopback[1], 300);
    demand("entry: two different pin records, both accepted", pin_entries, 100);
    demand("logs that differ in one pin record", pins_apart, 100);
    demand("the same, and later answers differ", pins_tell, 100);
    demand("entry: two speakers, both accepted", speaker_entries, 1000);
    demand("entry: refusal 18 in one log", refused_speakers, 1000);
    demand("logs apart by one speaker, and later answers differ", speakers_tell[0], 100);
    demand("logs apart by a session's speaker, and answers differ", speakers_tell[1], 100);
    demand("entry: number above 255", above_255, 1000);
    demand("entry: number above 32,767", above_32767, 1000);
    demand("no entry", equal_pairs, 100);
    demand("one entry alone", alone, 100);
    demand("one entry alone, both answers the same", record_alone, 100);
    demand("an entry for every record of the shorter log", all_differ, 100);
    demand("nothing left of the longer log", lefts[LEFT_NOTHING], 100);
    demand("some of the first log left", lefts[LEFT_OF_FIRST], 100);
    demand("some of the second log left", lefts[LEFT_OF_SECOND], 100);
    demand("two logs of 65,535 records", longest, 5);
}

static void demand_near(const char *what, const near_blocks counts, unsigned i, unsigned least)
{
    static const char *const near_name[LENGTHS_NEAR] = {"1 less than a", "a", "1 more than a"};
    char text[96];
    for (unsigned near = 0; near < LENGTHS_NEAR; near++) {
        snprintf(text, sizeof text, "%s: %s multiple of %u", what, near_name[near],
                 BLOCK_SMALLEST << i);
        demand(text, counts[i][near], least);
    }
}

static void demand_places(void)
{
    char text[96];
    demand("first entry at the first record", in_first_record, 100);
    demand("first entry at the last record", in_last_record, 100);
    for (unsigned i = 0; i < BLOCKS; i++) {
        unsigned block = BLOCK_SMALLEST << i;
        demand_near("records of the shorter log", lengths_near, i, 100);
        demand_near("from the first entry on", rests_near, i, 20);
        snprintf(text, sizeof text, "first entry starts a block of %u, not the first", block);
        demand(text, first_difference[i][EDGE_FIRST], 20);
        snprintf(text, sizeof text, "first entry ends a block of %u", block);
        demand(text, first_difference[i][EDGE_LAST], 20);
    }
    demand("a log against itself", with_itself, 100);
    demand("the logs swapped", swapped, 100);
    demand("the longer log cut to the shorter", cut_alike, 100);
}

/* ---- counting ---- */

static size_t records_of_both(struct log_part first, struct log_part second)
{
    return (first.length < second.length ? first.length : second.length) / RECORD_BYTES;
}

static size_t number_of(const uint8_t *entry)
{
    return (size_t)entry[0] << 24 | (size_t)entry[1] << 16 | (size_t)entry[2] << 8 | entry[3];
}

static unsigned differences_of(const struct log_pair *p, const uint8_t *entry)
{
    size_t at = RECORD_BYTES * (number_of(entry) - 1);
    unsigned differs = 0;
    if (memcmp(p->first.bytes + at, p->second.bytes + at, RECORD_BYTES) != 0)
        differs |= DIFFERS_RECORD;
    if (entry[4] != entry[6])
        differs |= DIFFERS_REFUSAL;
    if (entry[5] != entry[7])
        differs |= DIFFERS_ANSWER;
    if (entry[8] != entry[9])
        differs |= DIFFERS_SET;
    return differs;
}

/* Of the model's entries of this pair. */
static size_t count_set_alone(const struct log_pair *p, size_t count)
{
    size_t set_alone = 0;
    for (size_t i = 0; i < count; i++)
        set_alone += differences_of(p, model_entries + ENTRY_BYTES * i) == DIFFERS_SET;
    return set_alone;
}

static bool is_pin_entry(const struct log_pair *p, const uint8_t *entry)
{
    size_t at = RECORD_BYTES * (number_of(entry) - 1);
    return p->first.bytes[at] == KIND_REQUEST_PIN && p->second.bytes[at] == KIND_REQUEST_PIN &&
           differences_of(p, entry) == DIFFERS_RECORD && entry[4] == REFUSED_NOT;
}

static void count_speakers(const struct log_pair *p, const uint8_t *entry)
{
    size_t at = RECORD_BYTES * (number_of(entry) - 1);
    const uint8_t *first = p->first.bytes + at, *second = p->second.bytes + at;
    bool spoken = first[0] <= KIND_SELECT_HIGH && first[0] == second[0] && first[2] != second[2];
    speaker_entries += spoken && entry[4] == REFUSED_NOT && entry[6] == REFUSED_NOT;
    refused_speakers += (entry[4] == REFUSED_SPEAKER) != (entry[6] == REFUSED_SPEAKER);
}

/* The records themselves differ at the first entry, two pins, and nowhere else. */
static void count_pins(const struct log_pair *p, size_t count)
{
    if (count == 0 || p->first.length != p->second.length || !is_pin_entry(p, model_entries))
        return;
    for (size_t i = 1; i < count; i++)
        if (differences_of(p, model_entries + ENTRY_BYTES * i) & DIFFERS_RECORD)
            return;
    pins_apart++;
    pins_tell += count > 1;
}

static void count_entry(const struct log_pair *p, const uint8_t *entry)
{
    size_t number = number_of(entry), at = RECORD_BYTES * (number - 1);
    unsigned differs = differences_of(p, entry);
    uint8_t kind = p->first.bytes[at];
    if (cannot_be(differs))
        stop("a set without an answer");
    combinations[differs]++;
    if ((differs & DIFFERS_SET) && p->second.bytes[at] == kind) {
        unsigned long long *met = kind == KIND_FRAME ? sets_heard : sets_in_loopback;
        met[0]++;
        met[1] += differs == DIFFERS_SET;
    }
    pin_entries += is_pin_entry(p, entry);
    count_speakers(p, entry);
    above_255 += number > 255;
    above_32767 += number > 32767;
}

static void count_near(near_blocks counts, size_t records)
{
    for (unsigned i = 0; i < BLOCKS; i++) {
        size_t block = (size_t)BLOCK_SMALLEST << i;
        if (records >= block - 1)
            for (unsigned near = 0; near < LENGTHS_NEAR; near++)
                counts[i][near] += (records + 1) % block == near;
    }
}

/* The first entry is 0 where there is none. */
static void count_places(size_t records, size_t first_entry)
{
    count_near(lengths_near, records);
    if (first_entry > 0)
        count_near(rests_near, records - first_entry + 1);
    in_first_record += first_entry == 1;
    in_last_record += first_entry == records && records > 1;
    for (unsigned i = 0; i < BLOCKS; i++) {
        size_t block = (size_t)BLOCK_SMALLEST << i;
        if (first_entry > block && first_entry % block == 1)
            first_difference[i][EDGE_FIRST]++;
        if (first_entry > 0 && first_entry % block == 0)
            first_difference[i][EDGE_LAST]++;
    }
}

static void count_answers(const struct log_pair *p, size_t count, enum pair_sort sort)
{
    size_t tell = 0;
    if (sort != PAIR_SPEAKER && sort != PAIR_SESSION)
        return;
    for (size_t i = 0; i < count; i++)
        tell += (differences_of(p, model_entries + ENTRY_BYTES * i) &
                 (DIFFERS_REFUSAL | DIFFERS_ANSWER)) != 0;
    speakers_tell[sort == PAIR_SESSION] += tell > 0;
}

static void count_accepted(const struct log_pair *p, size_t count, struct log_part leftover,
                           enum pair_sort sort)
{
    size_t records = records_of_both(p->first, p->second);
    count_answers(p, count, sort);
    for (size_t i = 0; i < count; i++)
        count_entry(p, model_entries + ENTRY_BYTES * i);
    count_pins(p, count);
    count_places(records, count > 0 ? number_of(model_entries) : 0);
    equal_pairs += count == 0 && records > 0;
    alone += count == 1;
    record_alone += count == 1 && differences_of(p, model_entries) == DIFFERS_RECORD;
    all_differ += count == records && records > 1;
    lefts[leftover.length == 0                 ? LEFT_NOTHING
          : p->first.length > p->second.length ? LEFT_OF_FIRST
                                               : LEFT_OF_SECOND]++;
    longest += records == LOG_RECORDS_MAX;
}

/* ---- the call, with everything around it watched ---- */

/* A call and the bytes that it got; entries are valid until the next call. */
struct call {
    const uint8_t *first, *second;
    size_t first_lent, second_lent; /* at their fences */
    uint8_t *entries;
    int64_t result;
};

static bool lies_inside(struct log_part part, struct log_part whole)
{
    uintptr_t from = (uintptr_t)part.bytes, start = (uintptr_t)whole.bytes;
    return from >= start && from + part.length <= start + whole.length;
}

static uint8_t *lend_log(const struct fence *f, struct log_part log)
{
    uint8_t *lent = fence_lend(f, log.length);
    if (log.length == 0 && below(2)) {
        null_logs++;
        return NULL;
    }
    if (log.length > 0)
        memcpy(lent, log.bytes, log.length);
    return lent;
}

/* Logs that lie in the same bytes are lent so, at the fence of the longer one. */
static struct call lend_logs(struct log_part first, struct log_part second)
{
    struct call c = {0};
    if (first.length > 0 && second.length > 0 && lies_inside(second, first)) {
        c.first_lent = first.length;
        c.first = lend_log(&first_fence, first);
        c.second = c.first + (second.bytes - first.bytes);
        fence_lend(&second_fence, 0);
    } else if (first.length > 0 && second.length > 0 && lies_inside(first, second)) {
        c.second_lent = second.length;
        c.second = lend_log(&second_fence, second);
        c.first = c.second + (first.bytes - second.bytes);
        fence_lend(&first_fence, 0);
    } else {
        c.first_lent = first.length;
        c.second_lent = second.length;
        c.first = lend_log(&first_fence, first);
        c.second = lend_log(&second_fence, second);
    }
    return c;
}

static void check_unchanged(const uint8_t *lent, struct log_part log)
{
    if (log.length > 0 && memcmp(lent, log.bytes, log.length) != 0)
        stop("a log was changed");
}

static struct call watched_call(struct log_part first, struct log_part second, size_t entries_len,
                                bool null)
{
    struct call c = lend_logs(first, second);
    c.entries = fence_lend(&entries_fence, entries_len);
    c.result = mcp2515_compare_logs(c.first, first.length, c.second, second.length,
                                    null ? NULL : c.entries, entries_len);
    size_t written = c.result > 0 ? ENTRY_BYTES * (size_t)c.result : 0;
    if (written > entries_len)
        stop("more entries than there is room for");
    if (!fence_filled(c.entries + written, entries_len - written))
        stop(c.result < 0 ? "refused, but written to" : "a byte past the entries was changed");
    check_unchanged(c.first, first);
    check_unchanged(c.second, second);
    if (!fence_intact(&first_fence, c.first_lent) || !fence_intact(&second_fence, c.second_lent) ||
        !fence_intact(&entries_fence, entries_len))
        stop("a byte before a buffer was changed");
    calls_done++;
    return c;
}

static void print_entry(const char *whose, const uint8_t *entry)
{
    printf("%s: record %zu: %u %u, %u %u, sets %02Xh, %02Xh\n", whose, number_of(entry), entry[4],
           entry[5], entry[6], entry[7], entry[8], entry[9]);
}

static void check_result(const char *what, int64_t want, const struct call *c,
                         const uint8_t *entries)
{
    if (c->result != want) {
        printf("expected %lld, got %lld\n", (long long)want, (long long)c->result);
        stop(what);
    }
    for (int64_t i = 0; i < want; i++)
        if (memcmp(c->entries + ENTRY_BYTES * i, entries + ENTRY_BYTES * i, ENTRY_BYTES) != 0) {
            printf("entry %lld\n", (long long)i + 1);
            print_entry("expected", entries + ENTRY_BYTES * i);
            print_entry("got", c->entries + ENTRY_BYTES * i);
            stop(what);
        }
}

/* ---- fixed pairs ---- */

static void check_case(const struct pair_case *c)
{
    struct log_part first = {c->first, c->first_len}, second = {c->second, c->second_len};
    struct call call = watched_call(first, second, c->entries_len, false);
    check_result(c->name, c->result, &call, c->entries);
}

/* ---- random pairs ---- */

/* The model's entries of the pair are there. */
static size_t room_bytes(enum room room, const struct log_pair *p, size_t count)
{
    size_t exact = ENTRY_BYTES * count;
    switch (room) {
    case ROOM_LARGER:
        return exact + 1 + below(LARGER_BY);
    case ROOM_FOR_ALL:
        return ENTRY_BYTES * records_of_both(p->first, p->second);
    case ROOM_WITHOUT_SETS:
        return exact - ENTRY_BYTES * count_set_alone(p, count);
    case ROOM_BYTE_SHORT:
        return count > 0 ? exact - 1 : exact;
    case ROOM_ENTRY_SHORT:
        return count > 0 ? exact - ENTRY_BYTES : exact;
    case ROOM_NONE:
    case ROOM_NULL:
        return 0;
    default:
        return exact;
    }
}

/* By both, with this room; the model is asked again, as it may refuse this time, and then
 * leaves its entries of before. */
static void compare_room(const struct log_pair *p, enum room room, size_t count)
{
    struct log_part leftover;
    size_t entries_len = room_bytes(room, p, count);
    int64_t want = model_compare_logs(p->first.bytes, p->first.length, p->second.bytes,
                                      p->second.length, model_entries, entries_len, &leftover);
    struct call c =
        watched_call(p->first, p->second, entries_len, room == ROOM_NULL && entries_len == 0);
    check_result("the call and the model disagree", want, &c, model_entries);
    if (want >= 0 || want == -REFUSED_SHORT_OUTPUT)
        rooms[room][want < 0]++;
    if (want == -REFUSED_SHORT_OUTPUT && (room == ROOM_BYTE_SHORT || room == ROOM_ENTRY_SHORT))
        short_by_set_alone +=
            differences_of(p, model_entries + ENTRY_BYTES * (count - 1)) == DIFFERS_SET;
}

static void check_itself(struct log_part log)
{
    struct call c = watched_call(log, log, 0, false);
    check_result("a log against itself", 0, &c, NULL);
    with_itself++;
}

static void swap_bytes(uint8_t *entry, unsigned one, unsigned other)
{
    uint8_t byte = entry[one];
    entry[one] = entry[other];
    entry[other] = byte;
}

/* Refusals, answers and sets. */
static void swap_entry(uint8_t *entry)
{
    swap_bytes(entry, 4, 6);
    swap_bytes(entry, 5, 7);
    swap_bytes(entry, 8, 9);
}

/* model_entries has the entries of the pair as it is. */
static void check_swapped(const struct log_pair *p, size_t count)
{
    struct call c = watched_call(p->second, p->first, ENTRY_BYTES * count, false);
    for (int64_t i = 0; i < c.result; i++)
        swap_entry(c.entries + ENTRY_BYTES * i);
    check_result("the logs swapped", (int64_t)count, &c, model_entries);
    swapped++;
}

/* Without what is left of the longer log the entries are the same. */
static void check_cut(const struct log_pair *p, size_t count, struct log_part leftover)
{
    struct log_part first = p->first, second = p->second;
    struct log_part *longer = first.length > second.length ? &first : &second;
    if (leftover.length == 0)
        return;
    longer->length -= leftover.length;
    if (longer->bytes + longer->length != leftover.bytes)
        stop("the leftover is not the end of the longer log");
    struct call c = watched_call(first, second, ENTRY_BYTES * count, false);
    check_result("the longer log cut", (int64_t)count, &c, model_entries);
    cut_alike++;
}

static void check_rising(size_t count, size_t records)
{
    size_t last = 0;
    for (size_t i = 0; i < count; i++) {
        size_t number = number_of(model_entries + ENTRY_BYTES * i);
        if (number <= last || number > records)
            stop("the numbers do not rise");
        last = number;
    }
}

/* The model's entries are those of the call by now. */
static void check_laws(const struct log_pair *p, size_t count, struct log_part leftover)
{
    check_rising(count, records_of_both(p->first, p->second));
    check_swapped(p, count);
    check_cut(p, count, leftover);
    check_itself(below(2) ? p->first : p->second);
}

static void compare_pair(const struct log_pair *p, enum pair_sort sort)
{
    struct log_part leftover;
    int64_t count =
        model_compare_logs(p->first.bytes, p->first.length, p->second.bytes, p->second.length,
                           model_entries, ENTRY_BYTES * LOG_RECORDS_MAX, &leftover);
    enum room other = ROOM_LARGER + below(ROOMS - ROOM_LARGER);
    compare_room(p, other, count > 0 ? (size_t)count : 0);
    compare_room(p, ROOM_EXACT, count > 0 ? (size_t)count : 0);
    if (count >= 0) {
        check_laws(p, (size_t)count, leftover);
        count_accepted(p, (size_t)count, leftover, sort);
    }
    pairs_done++;
}

static void some_pair(struct log_pair *p, enum pair_sort sort, size_t records)
{
    unsigned fault = below(8) ? 0 : below(LENGTHS * LENGTHS);
    pair_fill(p, sort, records, &dice);
    if (records == LOG_RECORDS_MAX)
        fault = 0;
    pair_spoil(&p->first, fault / LENGTHS, &dice);
    pair_spoil(&p->second, fault % LENGTHS, &dice);
    sorts[sort]++;
    faults[fault / LENGTHS][fault % LENGTHS]++;
    compare_pair(p, sort);
}

int main(int argc, char **argv)
{
    unsigned long long pairs = argc > 1 ? strtoull(argv[1], NULL, 0) : DEFAULT_PAIRS;
    seed_given = argc > 2 ? strtoull(argv[2], NULL, 0) : DEFAULT_SEED;
    dice = seed_given;
    struct log_pair p = pair_new(seed_given);
    model_entries = malloc(ENTRY_BYTES * LOG_RECORDS_MAX);
    first_fence = fence_new(PAIR_LONGEST);
    second_fence = fence_new(PAIR_LONGEST);
    entries_fence = fence_new(ENTRY_BYTES * (LOG_RECORDS_MAX + 1) + LARGER_BY);
    setvbuf(stdout, NULL, _IOLBF, 0); /* the seed has to show even if the call crashes */
    printf("comparing %llu pairs of logs, seed %llu\n", pairs, seed_given);
    pair_cases(check_case);
    for (unsigned sort = 0; sort < PAIR_SORTS; sort++)
        some_pair(&p, sort, LOG_RECORDS_MAX);
    while (pairs_done < pairs)
        some_pair(&p, below(PAIR_SORTS), pair_records(&dice));
    printf("met:\n");
    demand_calls();
    demand_entries();
    demand_places();
    pair_free(&p);
    free(model_entries);
    printf("no difference in %llu pairs, %llu calls\n", pairs_done, calls_done);
    return 0;
}
