/*
 * Two logs compared. Both write RXF1SIDL and go to Normal, and a standard frame
 * goes to RXB0 by filter 0. In the first log filter 1 would have matched as well,
 * in the second it is for extended frames. The second has a record more.
 */
#include <stdio.h>

#include "mcp2515.h"

enum { RECORD = MCP2515_RECORD_SIZE, ENTRY = MCP2515_ENTRY_SIZE };

/* A WRITE is select low, 02h, address, value, select high. */
static const uint8_t first[11][RECORD] = {
    {0}, {1, 0x02}, {1, 0x05}, {1, 0x00}, {2}, /* RXF1SIDL, EXIDE clear */
    {0}, {1, 0x02}, {1, 0x0F}, {1, 0x07}, {2}, /* CANCTRL: Normal */
    {3, 0, 0, 0, 0, 0, 0x01, 0x00},            /* frame, standard 100h */
};
static const uint8_t second[12][RECORD] = {
    {0}, {1, 0x02}, {1, 0x05}, {1, 0x08}, {2}, /* RXF1SIDL, EXIDE set */
    {0}, {1, 0x02}, {1, 0x0F}, {1, 0x07}, {2},
    {3, 0, 0, 0, 0, 0, 0x01, 0x00},
    {4},                                       /* bus idle */
};

static void print_entry(const uint8_t *entry)
{
    unsigned long number = (unsigned long)entry[0] << 24 | (unsigned long)entry[1] << 16 |
                           (unsigned long)entry[2] << 8 | entry[3];
    printf("record %lu: refusal %u, answer %02Xh, set %02Xh in the first log; "
           "refusal %u, answer %02Xh, set %02Xh in the second\n",
           number, entry[4], entry[5], entry[8], entry[6], entry[7], entry[9]);
}

/* Record 4, the value; record 11, the frame: of its outcome only bit 1 of the set differs. */
static int as_expected(const uint8_t *entries, int64_t count)
{
    const uint8_t *frame = entries + ENTRY;
    return count == 2 && entries[3] == 4 && frame[3] == 11 && frame[5] == 1 && frame[7] == 1 &&
           frame[8] == 0x3F && frame[9] == 0x3D;
}

int main(void)
{
    uint8_t entries[ENTRY * 11]; /* one for each record of the shorter log is always enough */
    int64_t count =
        mcp2515_compare_logs((const uint8_t *)first, sizeof first, (const uint8_t *)second,
                             sizeof second, entries, sizeof entries);
    if (count < 0) {
        fprintf(stderr, "refusal %lld\n", (long long)-count);
        return 1;
    }
    for (int64_t i = 0; i < count; i++)
        print_entry(entries + ENTRY * i);
    size_t more = (sizeof second - sizeof first) / RECORD;
    printf("the second log has %zu more record%s\n", more, more == 1 ? "" : "s");
    if (!as_expected(entries, count)) {
        fprintf(stderr, "the entries are not as expected\n");
        return 1;
    }
    return 0;
}
