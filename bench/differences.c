#include "differences.h"

#include <stdbool.h>
#include <string.h>

#include "model.h"

struct outcome {
    uint8_t refusal, answer, set;
};

/* All of a log past its first bytes, of which it may have none. */
static struct log_part past(const uint8_t *log, size_t log_len, size_t bytes)
{
    return (struct log_part){bytes > 0 ? log + bytes : log, log_len - bytes};
}

static struct log_part leftover_of(const uint8_t *first, size_t first_len, const uint8_t *second,
                                   size_t second_len)
{
    if (second_len > first_len)
        return past(second, second_len, first_len);
    return past(first, first_len, second_len);
}

/* The number of records, or minus the refusal of the log. */
static int64_t run(const uint8_t *log, size_t log_len, struct outcome *outcomes)
{
    struct model m;
    size_t records = log_len / RECORD_BYTES;
    if (log_len % RECORD_BYTES != 0)
        return -REFUSED_RAGGED;
    if (records > LOG_RECORDS_MAX)
        return -REFUSED_TOO_LONG;
    model_power_on(&m);
    for (size_t i = 0; i < records; i++)
        model_step_set(&m, log + RECORD_BYTES * i, &outcomes[i].refusal, &outcomes[i].answer,
                       &outcomes[i].set);
    return (int64_t)records;
}

static bool differ(const uint8_t *first_record, const uint8_t *second_record,
                   const struct outcome *first, const struct outcome *second)
{
    return memcmp(first_record, second_record, RECORD_BYTES) != 0 ||
           first->refusal != second->refusal || first->answer != second->answer ||
           first->set != second->set;
}

static void write_entry(uint8_t *entry, size_t number, const struct outcome *first,
                        const struct outcome *second)
{
    entry[0] = (uint8_t)(number >> 24);
    entry[1] = (uint8_t)(number >> 16);
    entry[2] = (uint8_t)(number >> 8);
    entry[3] = (uint8_t)number;
    entry[4] = first->refusal;
    entry[5] = first->answer;
    entry[6] = second->refusal;
    entry[7] = second->answer;
    entry[8] = first->set;
    entry[9] = second->set;
}

int64_t model_compare_logs(const uint8_t *first, size_t first_len, const uint8_t *second,
                           size_t second_len, uint8_t *entries, size_t entries_len,
                           struct log_part *leftover)
{
    static struct outcome first_outcomes[LOG_RECORDS_MAX], second_outcomes[LOG_RECORDS_MAX];
    static size_t listed[LOG_RECORDS_MAX];
    size_t count = 0;
    *leftover = past(first, first_len, first_len);
    int64_t first_records = run(first, first_len, first_outcomes);
    if (first_records < 0)
        return first_records;
    int64_t second_records = run(second, second_len, second_outcomes);
    if (second_records < 0)
        return second_records;
    size_t both = (size_t)(first_records < second_records ? first_records : second_records);
    for (size_t i = 0; i < both; i++)
        if (differ(first + RECORD_BYTES * i, second + RECORD_BYTES * i, &first_outcomes[i],
                   &second_outcomes[i]))
            listed[count++] = i;
    if (entries_len < ENTRY_BYTES * count)
        return -REFUSED_SHORT_OUTPUT;
    for (size_t i = 0; i < count; i++)
        write_entry(entries + ENTRY_BYTES * i, listed[i] + 1, &first_outcomes[listed[i]],
                    &second_outcomes[listed[i]]);
    *leftover = leftover_of(first, first_len, second, second_len);
    return (int64_t)count;
}
