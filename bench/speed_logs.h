/*
 * Logs that are mostly frames, which each filter that is asked compares to the
 * last bit; one of request pins; and one of controller and panel by turns.
 */
#ifndef BENCH_SPEED_LOGS_H
#define BENCH_SPEED_LOGS_H

#include <stddef.h>
#include <stdint.h>

/*
 * The filters of a stretch differ from one another, but only in bits that their
 * masks leave out. A frame agrees with each filter in all bits compared but the
 * last one (bit 0 of EID0). Stretches of extended frames and of standard data
 * frames with two bytes or more take turns, each with its own filters; a filter
 * of the other sort would fail at once. Returns the number of frames.
 */
size_t late_log(uint64_t seed, uint8_t *log, size_t records);

/*
 * The same, but filter 5 has that last bit too and so matches. The firmware
 * clears RX1IF now and then; a frame is stored after that, the others are lost.
 */
size_t last_log(uint64_t seed, uint8_t *log, size_t records);

/*
 * The same, but all six match. Filter 0 decides for RXB0, so that the others are
 * compared for the set alone. RX0IF is cleared now and then.
 */
size_t first_log(uint64_t seed, uint8_t *log, size_t records);

/*
 * Hardly anything but request pins: each fall of an enabled pin requests its
 * buffer, which is sent at once. Returns the number of records.
 */
size_t pins_log(uint64_t seed, uint8_t *log, size_t records);

/*
 * A session of the controller, then one of the panel, and so on, with frames between them:
 * READ, statuses, READ RX BUFFER, LOAD, RTS, and of the panel what it must not send. The
 * other cuts in now and then. Returns the number of records.
 */
size_t panel_log(uint64_t seed, uint8_t *log, size_t records);

#endif
