/*
 * The proved MCP2515 stand-in, for C programs. Link the archive libstand_in.a.
 *
 * A record is 16 bytes. Byte 0 is its kind; bytes not named for a kind are 0.
 *
 *   kind  record              fields                           answer
 *   0     select low          byte 2: who speaks, 0 the        0
 *                             controller, 1 the panel
 *   1     exchange            byte 1: byte sent; byte 2: who   the reply byte
 *   2     select high         byte 2: who                      0
 *   3     frame heard         byte 1: bit 0 extended, bit 1    0 no match, 1 in RXB0,
 *                             remote; byte 2: data length      2 in RXB1, 3 lost,
 *                             code (DLC) 0 to 15, where 9 to   4 not listening, 5 woke
 *                             15 mean eight data bytes;
 *                             bytes 4-7: identifier, high
 *                             byte first; bytes 8-15: data, 0
 *                             past those that the code means,
 *                             all 0 in a remote frame
 *   4     bus idle                                             TX buffer that goes, 3 none
 *   5     own frame ends      byte 1: 0 sent, 1 arbitration    0; in Loopback 0 to 3
 *                             lost, 2 error                    as for a frame
 *   6     receive error       byte 1: REC up by 1 (0), 8 (1)   0
 *   7     bus-off recovery                                     0
 *   8     request pin         byte 1: n of TXnRTS, 0 to 2;     0
 *                             byte 2: its level, 0 or 1
 *
 * A session belongs to whoever selected: until its select high an exchange or a
 * select high by the other is refused. The panel may READ (03h), ask READ STATUS
 * (A0h) and RX STATUS (B0h), READ RX BUFFER of RXB1 (94h, 96h), LOAD TX BUFFER of
 * TXB2 (44h, 45h) and RTS by 84h. With any other first byte its session does
 * nothing and replies 0. Its READ RX BUFFER and its LOAD end behind data byte 7:
 * further bytes do nothing and reply 0, and select high still clears RX1IF after
 * the read.
 *
 * A record gets the first refusal that applies, in the order 2, 1, 18, 3, 4, 5.
 * Two bytes come back for each record, refusal then answer. A refused record
 * answers 0 and changes no byte of the chip, which takes the next record.
 *
 * Beside them a record has a set: bit n is 1 where filter n, under its own mask,
 * matches the frame. All six filters are asked whenever the chip listens to a
 * frame, whatever becomes of it, with RXM at 11 too: a record of kind 3, or one
 * of kind 5 by which an own frame is sent in Loopback. The set is 0 where the
 * chip does not listen or wakes, for a refused record and for all other records.
 * mcp2515_step_set gives it, mcp2515_compare_logs and mcp2515_render show it.
 *
 * A log is records one after the other without a header, at most 65,535.
 *
 * Every call that returns a negative number was refused: it is minus one of the
 * MCP2515_REFUSED_ numbers, and no byte of a lent buffer has changed. A pointer
 * may be NULL if its length is 0. Buffers of one call must not overlap, but for
 * two that are only read. There is no state but the bytes lent: calls on
 * different buffers may run in different threads at the same time.
 */
#ifndef MCP2515_H
#define MCP2515_H

#include <stddef.h>
#include <stdint.h>

#ifdef __cplusplus
extern "C" {
#endif

#define MCP2515_VERSION "0.6.0" /* of header, archive and tool */

#define MCP2515_RECORD_SIZE 16
#define MCP2515_ANSWER_SIZE 2     /* refusal and answer of one record */
#define MCP2515_ANSWER_SET_SIZE 3 /* refusal, answer and set */
#define MCP2515_ENTRY_SIZE 10     /* a record in which two logs differ */
#define MCP2515_MOST_RECORDS 65535
#define MCP2515_LINE_SIZE 23  /* room for a line of the replay's text */
#define MCP2515_TIMING_SIZE 3 /* CNF1, CNF2, CNF3 */
#define MCP2515_PROFILE_SIZE 34
#define MCP2515_EVENT_SIZE 20    /* a bus event between the loader's commands */
#define MCP2515_LOAD_RECORDS 357 /* the most records that the loader itself sends */

/*
 * A chip is 152 bytes that the program holds, copies, saves and loads as it
 * likes. Any 152 bytes with the version in the last one are a chip, also one
 * that no run reaches. Any other length or version is no chip.
 *
 *   place    what
 *   0-127    the bytes of 00h to 7Fh at their addresses; those of CANINTE,
 *            CANINTF, EFLG, TXBnCTRL, RXBnCTRL, TEC, REC, CANSTAT and CANCTRL
 *            are not used, nor are bits 3 to 5 of TXRTSCTRL
 *   128-131  CANCTRL, CANINTE, CANINTF, EFLG (its two overflow bits)
 *   132-136  TXB0CTRL, TXB1CTRL, TXB2CTRL, RXB0CTRL, RXB1CTRL
 *   137-139  TEC low byte, REC, TEC high byte
 *   140      mode by number, from 4 on Configuration
 *   141      buffer in flight, from 3 on none
 *   142      mode requested, from 5 on none
 *   143-145  level of TX0RTS, TX1RTS, TX2RTS: 0 low, any other byte high
 *   146      select line and open instruction: 0 select is high; else low, and
 *            the next byte is 1 a code, 2 the address of a READ, 3 a READ's
 *            reply, 4 the address of a WRITE, 5 a byte to WRITE, 6 address,
 *            7 mask, 8 data of a BIT MODIFY, 9 and 10 a reply from RXB0 and
 *            RXB1, 11 READ STATUS, 12 RX STATUS; from 13 on nothing more
 *   147      its address (bit 7 does not count), for 3, 5 and 7 to 10
 *   148      its mask, for 8
 *   149      who selected, for a select that is low: 0 the controller, any other
 *            byte the panel. While the panel has selected, an instruction with
 *            nothing more for it (4, 6 to 9, 5 outside 51h to 5Dh, 10 outside 71h
 *            to 7Dh) does nothing, replies 0 and stays as it is; select high after
 *            9 clears nothing, after 10 it clears RX1IF at any address
 *   150      spare, never changed
 *   151      the version, 3
 *
 * What an address shows is asked by mcp2515_hold; the places below are those
 * of what no address shows whole.
 */
#define MCP2515_CHIP_SIZE 152
#define MCP2515_CHIP_VERSION 3
#define MCP2515_PLACE_TEC_LOW 137
#define MCP2515_PLACE_TEC_HIGH 139
#define MCP2515_PLACE_FLIGHT 141
#define MCP2515_PLACE_MODE_REQUESTED 142
#define MCP2515_PLACE_PINS 143
#define MCP2515_PLACE_OPEN 146
#define MCP2515_PLACE_SPEAKER 149
#define MCP2515_PLACE_VERSION 151

/* Refusals of a record, beside 0. */
#define MCP2515_REFUSED_SELECT 1    /* select low while low; exchange or select high while high */
#define MCP2515_REFUSED_FIELD 2     /* unknown kind, field out of range, spare byte not 0 */
#define MCP2515_REFUSED_IN_FLIGHT 3 /* kind 3, 4 or 6 during the flight of an own frame */
#define MCP2515_REFUSED_NO_FLIGHT 4 /* kind 5 without a flight */
#define MCP2515_REFUSED_STATE 5     /* kind 5 not sent in Loopback; kind 7 without bus-off */
#define MCP2515_REFUSED_SPEAKER 18  /* exchange or select high by the one who did not select */

/* Refusals of a call, returned as negative numbers. */
#define MCP2515_REFUSED_LENGTH 6      /* no whole number of records or events, no profile */
#define MCP2515_REFUSED_ROOM 7        /* too little room for answers, text or entries */
#define MCP2515_REFUSED_COUNT 8       /* more than 65,535 records */
#define MCP2515_REFUSED_PROFILE 10    /* a profile with a bit set that is not writable */
#define MCP2515_REFUSED_MODE 11       /* a mode other than Normal, Listen-Only or Configuration */
#define MCP2515_REFUSED_OSCILLATOR 12 /* an oscillator outside 1,000,000 to 40,000,000 Hz */
#define MCP2515_REFUSED_RATE 13       /* a bit rate outside 5,000 to 1,000,000 bit/s */
#define MCP2515_REFUSED_SHORT 19      /* too little room for a chip, CNF1 to CNF3, or records */
#define MCP2515_REFUSED_NO_CHIP 21    /* the bytes are no chip: length or version */

#define MCP2515_REFUSED_CHIP_ROOM MCP2515_REFUSED_SHORT /* its name up to 0.4.0 */

/*
 * Runs a log from power-on. The first that applies decides:
 *
 *   -6  log_len is no whole number of records
 *   -8  there are more than 65,535
 *   -7  answers_len has no room for two bytes each
 *   otherwise the number of records, 0 for an empty log
 *
 * Refusal and answer of record i, from 0, are answers[2i] and answers[2i + 1];
 * bytes past the last answer stay.
 */
int64_t mcp2515_run_log(const uint8_t *log, size_t log_len, uint8_t *answers, size_t answers_len);

/*
 * Makes the first 152 bytes the chip after power-on; bytes past them stay.
 *
 *   -19  chip_len is below 152
 *   otherwise 152
 */
int64_t mcp2515_power_on(uint8_t *chip, size_t chip_len);

/*
 * One record. answer[0] is its refusal, answer[1] its answer; bytes past them
 * stay. A record that the chip refuses is no refusal of the call.
 *
 *   -21  no chip
 *   -6   record_len is not 16
 *   -7   answer_len is below 2
 *   otherwise 2
 */
int64_t mcp2515_step(uint8_t *chip, size_t chip_len, const uint8_t *record, size_t record_len,
                     uint8_t *answer, size_t answer_len);

/*
 * The same with the record's set: answer[0] is its refusal, answer[1] its
 * answer, answer[2] its set.
 *
 *   -21  no chip
 *   -6   record_len is not 16
 *   -7   answer_len is below 3
 *   otherwise 3
 */
int64_t mcp2515_step_set(uint8_t *chip, size_t chip_len, const uint8_t *record, size_t record_len,
                         uint8_t *answer, size_t answer_len);

/*
 * Runs a log as mcp2515_run_log does, from the chip lent, which is the chip
 * after the log then.
 *
 *   -21  no chip
 *   -6, -8, -7 as there
 *   otherwise the number of records
 */
int64_t mcp2515_run_from(uint8_t *chip, size_t chip_len, const uint8_t *log, size_t log_len,
                         uint8_t *answers, size_t answers_len);

/*
 * Compares two logs, each run from power-on by a chip of its own, record by
 * record as far as both go. A record number, from 1, is listed where the 16
 * bytes of the record, its refusal, its answer or its set differ; no attempt is
 * made to line the logs up again. An entry is ten bytes: the number in four, high
 * byte first; refusal and answer in the first log; refusal and answer in the
 * second; the set in the first; the set in the second. Entries stand one after
 * the other, numbers rising; bytes past them stay. The first that applies
 * decides:
 *
 *   -6  first_len is no whole number of records
 *   -8  there are more than 65,535 in the first log
 *   -6  second_len is no whole number of records
 *   -8  there are more than 65,535 in the second log
 *   -7  entries_len has no room for all entries; ten bytes for each record of
 *       the shorter log are always enough
 *   otherwise the number of entries, 0 where nothing differs as far as both go
 *
 * Which log -6 or -8 is about follows from the lengths.
 *
 * What one log has past the end of the other gets no entries: it starts at the
 * shorter length. The two logs may be the same bytes.
 */
int64_t mcp2515_compare_logs(const uint8_t *first, size_t first_len, const uint8_t *second,
                             size_t second_len, uint8_t *entries, size_t entries_len);

/*
 * The byte that an address holds, and the byte that READ replies there in the
 * present mode: filters and masks read 0 outside Configuration. An address
 * counts modulo 128.
 *
 *   -21  no chip
 *   otherwise the byte, 0 to 255
 */
int64_t mcp2515_hold(const uint8_t *chip, size_t chip_len, uint8_t address);
int64_t mcp2515_read(const uint8_t *chip, size_t chip_len, uint8_t address);

/*
 * The INT line: 1 while it is low (an enabled flag is set), else 0.
 *
 *   -21  no chip
 */
int64_t mcp2515_int_is_low(const uint8_t *chip, size_t chip_len);

/*
 * The replay's text of a part of a log, by the chip lent, which is stepped.
 * number says how many records were run before. Each record gets a line with
 * its number (the first is number + 1), refusal and answer; one whose byte 0 is
 * 3, a frame, has its set as a fourth number, refused or not. Where the part ends
 * short of a whole record, a last line has refusal 6. A whole record past the
 * 65,535th is not run: it gets a last line with refusal 8, and nothing follows.
 * Both have three numbers. Parts cut between records give the text of the whole.
 *
 *   -21  no chip
 *   -7   text_len is below (part_len / 16 + 1) * 23
 *   otherwise the bytes of text written; bytes past them stay
 */
int64_t mcp2515_render(uint8_t *chip, size_t chip_len, uint32_t number, const uint8_t *part,
                       size_t part_len, uint8_t *text, size_t text_len);

/*
 * The refusal that ends a replay in this part, after number records: 6 where it
 * ends short, 8 at a whole record past the 65,535th (which is asked first), 0
 * where the replay goes on.
 */
int64_t mcp2515_part_refusal(uint32_t number, size_t part_len);

/*
 * Bit timing: bytes for CNF1, CNF2 and CNF3, apart from any chip.
 *
 *   CNF1  bits 7-6: SJW - 1; bits 5-0: BRP
 *   CNF2  bit 7: BTLMODE; bit 6: SAM; bits 5-3: PS1 - 1; bits 2-0: PropSeg - 1
 *   CNF3  bit 7: SOF; bit 6: WAKFIL; bits 5-3: spare; bits 2-0: PS2 - 1
 *
 * SJW is the jump width, PropSeg the propagation segment, PS1 and PS2 are the
 * phase segments, all in quanta. A quantum is 2 * (BRP + 1) clocks of the
 * oscillator. A bit is the sync quantum, PropSeg, PS1 and PS2.
 */

/*
 * The rules that three bytes break, a bit for each. SAM, SOF and WAKFIL may be
 * anything. Each rule goes by the fields, PS2 by CNF3 also where BTLMODE is clear.
 */
#define MCP2515_FAULT_BTLMODE 0x01     /* BTLMODE is clear */
#define MCP2515_FAULT_SPARE 0x02       /* bits 5-3 of CNF3 are not clear */
#define MCP2515_FAULT_PS2 0x04         /* PS2 is below 2 */
#define MCP2515_FAULT_PROPSEG_PS1 0x08 /* PropSeg and PS1 together are shorter than PS2 */
#define MCP2515_FAULT_SJW 0x10         /* PS2 is not longer than SJW */
#define MCP2515_FAULT_QUANTA 0x20      /* a bit is not 8 to 25 quanta */
int64_t mcp2515_timing_faults(uint8_t cnf1, uint8_t cnf2, uint8_t cnf3);

/*
 * Whether the three bytes are sound: 1 where they break no rule, else 0.
 */
int64_t mcp2515_check_timing(uint8_t cnf1, uint8_t cnf2, uint8_t cnf3);

/*
 * The oscillator less the one with which the bit rate would be exact:
 * oscillator - rate * 2 * (BRP + 1) * quanta, exact and with its sign. Above 0
 * bits go faster than the rate, below 0 slower. Of any three bytes, sound or not,
 * and any oscillator and rate.
 */
int64_t mcp2515_timing_difference(uint32_t oscillator, uint32_t rate, uint8_t cnf1, uint8_t cnf2,
                                  uint8_t cnf3);

/*
 * Plans the three bytes for an oscillator in Hz and a rate in bit/s: of the sound
 * ones with SAM, SOF and WAKFIL 0 those with the smallest size of the difference,
 * then with the lowest BRP, then with the lowest CNF1, CNF2, CNF3. There are none
 * where that size times 1,000 is more than the oscillator. The first that applies
 * decides:
 *
 *   -12  oscillator outside 1,000,000 to 40,000,000
 *   -13  rate outside 5,000 to 1,000,000
 *   -19  cnf_len is below 3, also where there are none
 *   0    there are none, and cnf stays
 *   otherwise 3, with CNF1, CNF2, CNF3 in cnf[0] to cnf[2]; bytes past them stay
 */
int64_t mcp2515_plan_timing(uint32_t oscillator, uint32_t rate, uint8_t *cnf, size_t cnf_len);

/*
 * The loader: a profile of filters and masks brought into a chip, as the
 * controller would over SPI. A profile is 34 bytes:
 *
 *   0-23   the filters 0 to 5, each SIDH, SIDL, EID8, EID0 (at 00h to 0Bh and 10h
 *          to 1Bh); of SIDL the bits EBh may be set
 *   24-31  the masks 0 and 1, likewise (at 20h to 27h); of SIDL the bits E3h
 *   32     RXB0CTRL (60h); the bits 64h: RXM and BUKT
 *   33     RXB1CTRL (70h); the bits 60h: RXM
 *
 * It sends whole commands, each one session: BIT MODIFY of CANCTRL (0Fh) by mask
 * E0h to ask for Configuration; READ of CANSTAT (0Eh), its one look at the mode.
 * If that is Configuration, it WRITEs the 34 bytes, READs all of them back, and
 * asks for the mode at the start by a BIT MODIFY: 71 commands. If it is not, it
 * asks for the mode at the start and has written nothing: 3 commands. The mode at
 * the start is the mode that the chip is in, not what CANCTRL asks for; a mode
 * request that someone else left is dropped by the first command. The other bits of
 * CANCTRL are as they were. Both error counters are 0 after an entry into
 * Configuration, which ends bus-off too; a load that waits can pass through it when
 * the message goes out after the look.
 *
 * After a load the mode is the one at the start, and no mode request is left: of
 * every chip that a run reaches. Of lent bytes with a mode request that could be
 * carried out at once, which no run leaves, the first select low carries it out.
 *
 * Bus events may come between its commands: events has entries of 20 bytes, in
 * four bytes, high first, after how many commands it comes, then its record. They
 * come in their order. 0 counts as 1; one whose place has gone by comes at once;
 * those due after the last command do not come. An entry that is no bus event
 * (kinds 3 to 8) is passed over, wherever it stands. An event that the chip
 * refuses comes, and changes nothing.
 */
#define MCP2515_LOAD_WAITING 0
#define MCP2515_LOAD_IN 1

/*
 * Loads a profile into the chip lent. The first that applies decides:
 *
 *   -21  no chip
 *   -6   profile_len is not 34, or events_len is no multiple of 20
 *   -1   select is low
 *   -10  the profile has a bit set that is not writable
 *   -11  the mode is not Normal, Listen-Only or Configuration
 *   0    waiting: Configuration was not reached, since a message waits to be sent or
 *        is being sent; no profile byte was written
 *   1    in: the chip holds the profile
 *
 * Refused, nothing is sent and no byte of the chip changes.
 */
int64_t mcp2515_load_profile(uint8_t *chip, size_t chip_len, const uint8_t *profile,
                             size_t profile_len, const uint8_t *events, size_t events_len);

/*
 * The records of that run, its own and the events as they came, one after the
 * other; run by the same chip, they are the load. The chip lent stays.
 *
 *   -21, -6, -1, -10, -11 as there
 *   -19  records_len is below 16 bytes for each record of the run;
 *        16 * (357 + events_len / 20) is always enough
 *   otherwise how many records; bytes past them stay
 */
int64_t mcp2515_load_records(const uint8_t *chip, size_t chip_len, const uint8_t *profile,
                             size_t profile_len, const uint8_t *events, size_t events_len,
                             uint8_t *records, size_t records_len);

#ifdef __cplusplus
}
#endif

#endif
