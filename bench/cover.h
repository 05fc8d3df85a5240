/*
 * Counts what random logs really reach, so that a test can demand that none
 * of it is missing.
 */
#ifndef BENCH_COVER_H
#define BENCH_COVER_H

#include <stdbool.h>
#include <stddef.h>
#include <stdint.h>

#include "match.h"
#include "model.h"

#define COVER_LIST(X)                                                   \
    X(REFUSAL_1_LOW, "select low refused")                              \
    X(REFUSAL_1_HIGH, "exchange or select high refused")                \
    X(REFUSAL_2_KIND, "unknown kind")                                   \
    X(REFUSAL_2_SPI, "damaged select or exchange")                      \
    X(REFUSAL_2_FRAME, "damaged frame")                                 \
    X(REFUSED_LENGTH_CODE_16, "frame refused for length code 16 alone") \
    X(REFUSED_LENGTH_CODE_ABOVE, "frame refused, length code above 16") \
    X(REFUSED_DATA_PAST, "frame refused for data past its length code") \
    X(REFUSED_DATA_REMOTE, "remote frame refused for data alone")       \
    X(REFUSAL_2_EVENT, "other damaged event")                           \
    X(REFUSAL_3_FRAME, "frame during a flight")                         \
    X(REFUSAL_3_IDLE, "bus idle during a flight")                       \
    X(REFUSAL_3_ERROR, "receive error during a flight")                 \
    X(REFUSAL_4, "frame end without a flight")                          \
    X(REFUSAL_5_LOOPBACK, "failure in Loopback")                        \
    X(REFUSAL_5_RECOVERY, "recovery without bus-off")                   \
    X(REFUSED_IN_SESSION, "refused record inside a session")            \
    X(FRAME_0, "frame unmatched")                                       \
    X(FRAME_1, "frame in RXB0")                                         \
    X(FRAME_2, "frame in RXB1")                                         \
    X(FRAME_3, "frame lost")                                            \
    X(FRAME_4, "frame not listened to")                                 \
    X(FRAME_5, "frame woke")                                            \
    X(LOOP_0, "own frame unmatched in Loopback")                        \
    X(LOOP_1, "own frame in RXB0")                                      \
    X(LOOP_2, "own frame in RXB1")                                      \
    X(LOOP_3, "own frame lost")                                         \
    X(LOST_NO_BUKT, "lost at RXB0 with BUKT clear")                     \
    X(LOST_BUKT, "lost with BUKT set")                                  \
    X(LOST_RXB1, "lost at RXB1's own filters")                          \
    X(ROLLED, "rolled over into RXB1")                                  \
    X(HIT_0, "RXF0 hit")                                                \
    X(HIT_1, "RXF1 hit")                                                \
    X(HIT_2, "RXF2 hit")                                                \
    X(HIT_3, "RXF3 hit")                                                \
    X(HIT_4, "RXF4 hit")                                                \
    X(HIT_5, "RXF5 hit")                                                \
    X(RXM_RXB0, "RXM 11 took a frame for RXB0")                         \
    X(RXM_RXB1, "RXM 11 took a frame for RXB1")                         \
    X(STORED_STANDARD_REMOTE, "standard remote frame stored")           \
    X(STORED_EXTENDED_REMOTE, "extended remote frame stored")           \
    X(STORED_EXTENDED, "extended data frame stored")                    \
    X(IDLE_0, "TXB0 goes")                                              \
    X(IDLE_1, "TXB1 goes")                                              \
    X(IDLE_2, "TXB2 goes")                                              \
    X(IDLE_NONE, "nothing goes")                                        \
    X(IDLE_TIE, "equal TXP at bus idle")                                \
    X(IDLE_TXP, "TXP beats the buffer number")                          \
    X(IDLE_BUS_OFF, "bus idle with TXREQ in bus-off")                   \
    X(IDLE_BUS_OFF_LOOPBACK, "bus idle with TXREQ, bus-off in Loopback")\
    X(SENT_NORMAL, "sent in Normal")                                    \
    X(END_LOST_NORMAL, "arbitration lost")                              \
    X(END_ERROR_NORMAL, "transmit error")                               \
    X(END_OSM, "failed under OSM")                                      \
    X(END_ABAT, "failed under ABAT")                                    \
    X(END_NO_RETRY, "failed after TXREQ was cleared")                   \
    X(ABAT_CLEARS, "ABAT cleared a TXREQ")                              \
    X(ABAT_BARS, "RTS under ABAT")                                      \
    X(MODE_0, "Normal entered")                                         \
    X(MODE_1, "Sleep entered")                                          \
    X(MODE_2, "Loopback entered")                                       \
    X(MODE_3, "Listen-Only entered")                                    \
    X(MODE_4, "Configuration entered")                                  \
    X(REQUEST_WAITS, "mode request waits")                              \
    X(REQUEST_CANCELLED, "mode request cancelled")                      \
    X(REQUEST_AT_END, "mode changed at a frame's end")                  \
    X(SENT_UNDER_REQUEST, "bus idle sends under a request")             \
    X(WARNING_TX, "TEC reaches 96")                                     \
    X(WARNING_RX, "REC reaches 96")                                     \
    X(PASSIVE_RX, "REC reaches 128")                                    \
    X(REC_TO_127, "REC falls to 127")                                   \
    X(REC_STOPS, "REC stops at 255")                                    \
    X(BUS_OFF, "bus-off reached")                                       \
    X(BUS_OFF_STOP, "TEC stops at 263")                                 \
    X(BUS_OFF_SLEEP, "bus-off in Sleep")                                \
    X(BUS_OFF_LOOPBACK, "bus-off in Loopback")                          \
    X(BUS_OFF_WOKE, "woke out of bus-off")                              \
    X(RECOVERED, "recovery")                                            \
    X(RECOVERED_LOOPBACK, "recovery in Loopback")                       \
    X(WRITE_CLOSED, "filter or CNF write outside Configuration")        \
    X(WRITE_LOCKED, "TX byte write under TXREQ or flight")              \
    X(WRITE_WRAPS, "WRITE passes 7Fh")                                  \
    X(READ_WRAPS, "READ passes 7Fh")                                    \
    X(READ_ABOVE, "READ from an address above 7Fh")                     \
    X(WRITE_ABOVE, "WRITE to an address above 7Fh")                     \
    X(MODIFY_ABOVE, "BIT MODIFY above 7Fh without mask")                \
    X(MODIFY_ABOVE_MASKED, "BIT MODIFY above 7Fh, its mask counts")     \
    X(CANCTRL_IN_RUN, "WRITE run stores CANCTRL")                       \
    X(MODIFY_MASKED, "BIT MODIFY with a mask that counts")              \
    X(MODIFY_FULL, "BIT MODIFY without mask")                           \
    X(RESET_IN_FLIGHT, "RESET during a flight")                         \
    X(RESET_FLIGHT_0, "RESET with TXB0 in flight")                      \
    X(RESET_FLIGHT_1, "RESET with TXB1 in flight")                      \
    X(RESET_FLIGHT_2, "RESET with TXB2 in flight")                      \
    X(RESET_FLIGHT_GONE, "record that shows that RESET took a flight")  \
    X(RESET_REQUEST, "RESET while a mode request waits")                \
    X(RESET_REQUEST_FLIGHT, "the same during a flight")                 \
    X(RESET_REQUEST_GONE, "CANSTAT read after RESET took a request")    \
    X(RESET_MODE_0, "RESET in Normal")                                  \
    X(RESET_MODE_1, "RESET in Sleep")                                   \
    X(RESET_MODE_2, "RESET in Loopback")                                \
    X(RESET_MODE_3, "RESET in Listen-Only")                             \
    X(RESET_MODE_4, "RESET in Configuration")                           \
    X(RESET_LEFT_0, "CANSTAT read after RESET in Normal")               \
    X(RESET_LEFT_1, "CANSTAT read after RESET in Sleep")                \
    X(RESET_LEFT_2, "CANSTAT read after RESET in Loopback")             \
    X(RESET_LEFT_3, "CANSTAT read after RESET in Listen-Only")          \
    X(RESET_BUS_OFF, "RESET in bus-off")                                \
    X(RESET_FULL_0, "RESET with RXB0 full")                             \
    X(RESET_FULL_1, "RESET with RXB1 full")                             \
    X(RESET_FULL_BOTH, "RESET with both full")                          \
    X(RESET_STATUS_0, "RX STATUS of RXB0, kept from before RESET")      \
    X(RESET_STATUS_1, "RX STATUS of RXB1, kept from before RESET")      \
    X(RESET_SRR_0, "the same of RXB0, SIDL says remote")                \
    X(RESET_SRR_1, "the same of RXB1, SIDL says remote")                \
    X(RESET_RTR_0, "the same of RXB0, DLC says remote")                 \
    X(RESET_RTR_1, "the same of RXB1, DLC says remote")                 \
    X(RESET_FILTER_0, "kept filter took an extended frame for RXB0")    \
    X(RESET_FILTER_1, "kept filter took an extended frame for RXB1")    \
    X(RESET_SENT, "kept identifier sent and stored in Loopback")        \
    X(RTS_NONE, "80h")                                                  \
    X(EVENT_AFTER_RTS_NONE, "accepted event after 80h")                 \
    X(READ_RX_CLEARS, "READ RX BUFFER cleared its flag")                \
    X(READ_RX1_CLEARS, "the same of RX1IF")                             \
    X(READ_RX_LATE, "READ RX BUFFER, flag risen before its code")       \
    X(READ_RX_CANSTAT, "CANSTAT changes after READ RX BUFFER")          \
    X(EVENT_IN_SESSION, "accepted event inside a session")              \
    X(FRAME_BEFORE_CODE, "frame stored between select low and code")    \
    X(INT_RX0IF, "INT falls, by RX0IF alone")                           \
    X(INT_RX1IF, "INT falls, by RX1IF alone")                           \
    X(INT_TX0IF, "INT falls, by TX0IF alone")                           \
    X(INT_TX1IF, "INT falls, by TX1IF alone")                           \
    X(INT_TX2IF, "INT falls, by TX2IF alone")                           \
    X(INT_ERRIF, "INT falls, by ERRIF alone")                           \
    X(INT_WAKIF, "INT falls, by WAKIF alone")                           \
    X(INT_MERRF, "INT falls, by MERRF alone")                           \
    X(ENDS_OPEN, "log ends in an open session")                         \
    X(MATCH_EID17_16, "EID17-16 of a standard frame")                   \
    X(MATCH_OWN_EID17_16, "EID17-16 of a sent standard frame")          \
    X(MATCH_OWN_EID, "EID8 and EID0 of a sent standard frame")          \
    X(MATCH_EXTENDED_DATA, "data of an extended frame")                 \
    X(MATCH_EXIDE_STANDARD, "EXIDE, all mask bits 0, standard frame")   \
    X(MATCH_EXIDE_EXTENDED, "no EXIDE, all mask bits 0, extended frame")\
    X(MATCH_MASK_0, "mask 1 instead of 0 for RXF0")                     \
    X(MATCH_MASK_1, "mask 1 instead of 0 for RXF1")                     \
    X(MATCH_MASK_2, "mask 0 instead of 1 for RXF2")                     \
    X(MATCH_MASK_3, "mask 0 instead of 1 for RXF3")                     \
    X(MATCH_MASK_4, "mask 0 instead of 1 for RXF4")                     \
    X(MATCH_MASK_5, "mask 0 instead of 1 for RXF5")                     \
    X(SET_PAST_LOWEST, "filters past the lowest")                       \
    X(SET_PAST_LOWEST_0, "RXF1 beside RXF0")                            \
    X(SET_PAST_LOWEST_1, "RXB1's filters past their lowest")            \
    X(SET_ALONE_0, "RXF0 alone")                                        \
    X(SET_ALONE_1, "RXF1 alone")                                        \
    X(SET_ALONE_2, "RXF2 alone")                                        \
    X(SET_ALONE_3, "RXF3 alone")                                        \
    X(SET_ALONE_4, "RXF4 alone")                                        \
    X(SET_ALONE_5, "RXF5 alone")                                        \
    X(SET_IN_RXB0, "RXB1's filters, stored in RXB0")                    \
    X(SET_IN_RXB1, "RXB1's filters, stored in RXB1 by them")            \
    X(SET_ROLLED_0, "RXB0's filters, rolled over")                      \
    X(SET_ROLLED_1, "RXB1's filters, rolled over")                      \
    X(SET_LOST_0, "RXB0's filters, lost with BUKT clear")               \
    X(SET_LOST_0_OF_RXB1, "RXB1's filters, lost at RXB0, BUKT clear")   \
    X(SET_LOST_BUKT, "RXB0's filters, lost with BUKT set")              \
    X(SET_LOST_BUKT_OF_RXB1, "RXB1's filters, lost at RXB0, BUKT set")  \
    X(SET_LOST_1, "RXB1's filters, lost at RXB1 by them")               \
    X(SET_RXM_00_0, "RXB0's filters under RXM 00")                      \
    X(SET_RXM_00_1, "RXB1's filters under RXM 00")                      \
    X(SET_RXM_01_0, "RXB0's filters under RXM 01")                      \
    X(SET_RXM_01_1, "RXB1's filters under RXM 01")                      \
    X(SET_RXM_10_0, "RXB0's filters under RXM 10")                      \
    X(SET_RXM_10_1, "RXB1's filters under RXM 10")                      \
    X(SET_RXM_11_0, "RXB0's filters under RXM 11")                      \
    X(SET_RXM_11_1, "RXB1's filters under RXM 11")                      \
    X(SET_RXM_BOTH, "filters under RXM 11 of both buffers")             \
    X(SET_RXM_HIT_0, "no RXF0, though RXB0 has hit 0 by RXM 11")        \
    X(SET_RXM_EMPTY_0, "no filter, in RXB0 by RXM 11")                  \
    X(SET_RXM_EMPTY_1, "no filter, in RXB1 by RXM 11")                  \
    X(SET_RXM_EMPTY_LOST, "no filter, lost under RXM 11")               \
    X(SET_RXM_OWN, "filters under an RXM 11, own frame")                \
    X(SET_OWN_PAST_LOWEST, "filters past the lowest, own frame")        \
    X(SET_OWN_IN_RXB0, "filters, own frame in RXB0")                    \
    X(SET_OWN_IN_RXB1, "filters, own frame in RXB1")                    \
    X(SET_OWN_LOST, "filters, own frame lost")                          \
    X(SET_OWN_ROLLED, "filters, own frame rolled over")                 \
    X(SET_OWN_BUFFER, "filters, by the TX buffer in flight")            \
    X(SET_MASK_0, "RXF0 by mask 0 and not 1")                           \
    X(SET_MASK_1, "RXF1 by mask 0 and not 1")                           \
    X(SET_MASK_2, "RXF2 by mask 1 and not 0")                           \
    X(SET_MASK_3, "RXF3 by mask 1 and not 0")                           \
    X(SET_MASK_4, "RXF4 by mask 1 and not 0")                           \
    X(SET_MASK_5, "RXF5 by mask 1 and not 0")                           \
    X(SET_CONFIGURATION, "none in Configuration")                       \
    X(SET_LOOPBACK, "none for a frame of the bus in Loopback")          \
    X(SET_SLEEP, "none in Sleep")                                       \
    X(SET_BUS_OFF, "none in bus-off")                                   \
    X(SET_WOKE, "none on waking")                                       \
    X(SET_REFUSED_FIELD, "none with refusal 2")                         \
    X(SET_REFUSED_IN_FLIGHT, "none with refusal 3")                     \
    X(SET_END_SENT, "none for a frame sent in Normal")                  \
    X(SET_END_LOST, "none for an own frame that lost")                  \
    X(SET_END_ERROR, "none for an own frame in error")                  \
    X(SET_END_REFUSED, "none for a refused end in Loopback")            \
    X(SET_REPLY, "none for an exchange that replies")                   \
    X(SET_IDLE, "none for bus idle that answers 1 to 3")                \
    X(SET_GONE, "none for the record after one with a set")             \
    X(PIN_REQUESTS_0, "TXB0 requested by a fall")                       \
    X(PIN_REQUESTS_1, "TXB1 requested by a fall")                       \
    X(PIN_REQUESTS_2, "TXB2 requested by a fall")                       \
    X(PIN_MODE_0, "requested in Normal")                                \
    X(PIN_MODE_1, "requested in Sleep")                                 \
    X(PIN_MODE_2, "requested in Loopback")                              \
    X(PIN_MODE_3, "requested in Listen-Only")                           \
    X(PIN_MODE_4, "requested in Configuration")                         \
    X(PIN_IN_SESSION, "requested inside a session")                     \
    X(PIN_BEFORE_CODE, "requested between select low and code")         \
    X(PIN_OTHER_FLIGHT, "requested while another buffer flies")         \
    X(PIN_OWN_FLIGHT, "requested again in its own flight")              \
    X(PIN_BUS_OFF, "requested in bus-off")                              \
    X(PIN_CLEARS_TXERR, "TXERR cleared by a fall")                      \
    X(PIN_CLEARS_MLOA, "MLOA cleared by a fall")                        \
    X(PIN_CLEARS_ABTF, "ABTF cleared by a fall")                        \
    X(PIN_KEEPS_TXERR, "TXERR kept, TXREQ was set")                     \
    X(PIN_KEEPS_MLOA, "MLOA kept, TXREQ was set")                       \
    X(PIN_ABAT, "no request under ABAT")                                \
    X(PIN_ABAT_KEEPS, "no flag cleared under ABAT")                     \
    X(PIN_ABAT_FLIGHT, "no request under ABAT in its own flight")       \
    X(PIN_DISABLED_0, "no request, pin 0 not enabled")                  \
    X(PIN_DISABLED_1, "no request, pin 1 not enabled")                  \
    X(PIN_DISABLED_2, "no request, pin 2 not enabled")                  \
    X(PIN_ENABLE_NEXT, "by its own enable, not the next pin's")         \
    X(PIN_ENABLE_BEFORE, "by its own enable, not the pin's before")     \
    X(PIN_OWN_LEVEL, "requested though another pin is low")             \
    X(PIN_RISE, "no request by a rise")                                 \
    X(PIN_REPEAT_LOW, "no request by a low that repeats")               \
    X(PIN_REPEAT_HIGH, "no request by a high that repeats")             \
    X(PIN_ENABLED_LOW, "no request by enabling a low pin")              \
    X(PIN_MOVED_ENABLED, "level shown that moved while enabled")        \
    X(PIN_WRITE_LEVELS, "WRITE with other levels, in Configuration")    \
    X(PIN_WRITE_CLOSED, "WRITE of other enables, closed")               \
    X(PIN_MODIFY_LEVELS, "BIT MODIFY of levels, in Configuration")      \
    X(PIN_MODIFY_CLOSED, "BIT MODIFY of other enables, closed")         \
    X(PIN_MODIFY_MASKED, "BIT MODIFY whose mask keeps an enable")       \
    X(PIN_RESET_LOW_0, "pin 0 low through RESET, shown after")          \
    X(PIN_RESET_LOW_1, "pin 1 low through RESET, shown after")          \
    X(PIN_RESET_LOW_2, "pin 2 low through RESET, shown after")          \
    X(PIN_RESET_HIGH, "pin high and enabled at RESET, shown after")     \
    X(PIN_RESET_REPEAT, "low through RESET, enabled, low again")        \
    X(PIN_RESET_DISABLED, "enabled before RESET, falls after it")       \
    X(PIN_SENT, "bus idle sends what a pin requested")                  \
    X(PIN_DELAYS, "a mode waits for what a pin requested")              \
    X(PIN_REFUSED_3, "refused for pin 3 alone")                         \
    X(PIN_REFUSED_ABOVE, "refused for a pin above 3 alone")             \
    X(PIN_REFUSED_LEVEL_2, "refused for level 2 alone")                 \
    X(PIN_REFUSED_LEVEL, "refused for a level above 2 alone")           \
    X(PIN_REFUSED_FALL, "refused, would have requested")                \
    X(PIN_LOAD_UNLISTED, "LOAD not listed: a fall locks it half way")        \
    X(PIN_LOAD_UNLISTED_ALIKE, "LOAD not listed, no byte before the fall")   \
    X(PIN_LOAD_UNLISTED_ABAT, "LOAD not listed for a fall under ABAT")       \
    X(PIN_LOAD_OTHER, "LOAD listed, another enabled pin falls")         \
    X(PIN_LOAD_DISABLED, "LOAD listed, its pin falls, not enabled")     \
    X(PIN_LOAD_RISE, "LOAD listed, its enabled pin rises")              \
    X(PIN_LOAD_REPEAT, "LOAD listed, its enabled pin repeats")          \
    X(PIN_LOAD_REFUSED, "LOAD listed, a pin record refused inside") \
    X(PANEL_READ, "READ replies")                                       \
    X(PANEL_READ_STATUS, "READ STATUS replies")                         \
    X(PANEL_RX_STATUS, "RX STATUS replies")                             \
    X(PANEL_94, "94h replies")                                          \
    X(PANEL_96, "96h replies")                                          \
    X(PANEL_44, "44h stores")                                           \
    X(PANEL_45, "45h stores")                                           \
    X(PANEL_84, "84h requests")                                         \
    X(PANEL_READ_OF_CONTROLLER, "READ shows a byte of the controller's")\
    X(PANEL_READ_HIDDEN, "READ of a filter or mask outside Configuration") \
    X(PANEL_READ_WRAPS, "READ passes 7Fh")                              \
    X(PANEL_80, "80h")                                                  \
    X(PANEL_81, "81h would request")                                    \
    X(PANEL_82, "82h would request")                                    \
    X(PANEL_83, "83h would request")                                    \
    X(PANEL_85, "85h would request")                                    \
    X(PANEL_86, "86h would request")                                    \
    X(PANEL_87, "87h would request")                                    \
    X(PANEL_RTS_TXB2, "85h to 87h would request TXB2")                  \
    X(PANEL_90, "90h would reply")                                      \
    X(PANEL_92, "92h would reply")                                      \
    X(PANEL_90_CLEARS, "90h would clear RX0IF")                         \
    X(PANEL_92_CLEARS, "92h would clear RX0IF")                         \
    X(PANEL_40, "40h would store")                                      \
    X(PANEL_41, "41h would store")                                      \
    X(PANEL_42, "42h would store")                                      \
    X(PANEL_43, "43h would store")                                      \
    X(PANEL_WRITE, "WRITE would store")                                 \
    X(PANEL_BIT_MODIFY, "BIT MODIFY would store")                       \
    X(PANEL_RESET, "RESET would change the chip")                       \
    X(PANEL_UNKNOWN, "unknown code")                                    \
    X(PANEL_FORBIDDEN_LONG, "forbidden code and 128 bytes or more")     \
    X(PANEL_READ_PAST, "byte past data byte 7 of RXB1 would reply")     \
    X(PANEL_READ_ROUND, "RXB1's byte 128 or more would come round")     \
    X(PANEL_LOAD_PAST, "byte past data byte 7 of TXB2 would store")     \
    X(PANEL_LOAD_CANCTRL, "the same in CANCTRL")                        \
    X(PANEL_LOAD_ROUND, "TXB2's byte 128 or more would come round")     \
    X(PANEL_CLEARS, "RX1IF cleared, read up to data byte 7")            \
    X(PANEL_CLEARS_PAST, "RX1IF cleared, read past data byte 7")        \
    X(PANEL_CLEARS_ROUND, "RX1IF cleared after 128 bytes or more")      \
    X(PANEL_CLEARS_CUT, "RX1IF cleared after the code alone")           \
    X(PANEL_CLEARS_LATE, "RX1IF cleared that rose inside")              \
    X(PANEL_CLEARS_NONE, "no RX1IF to clear")                           \
    X(PANEL_CLEARS_NOT_RX0IF, "RX0IF stays where RX1IF is cleared")     \
    X(PANEL_RTS_ABAT, "84h under ABAT requests nothing")                \
    X(PANEL_RTS_CLEARS, "84h clears ABTF, MLOA or TXERR")               \
    X(PANEL_RTS_KEEPS, "84h over TXREQ keeps MLOA or TXERR")            \
    X(PANEL_RTS_FLIGHT, "84h in the flight of TXB2")                    \
    X(PANEL_RTS_MODE_0, "84h requests in Normal")                       \
    X(PANEL_RTS_MODE_1, "84h requests in Sleep")                        \
    X(PANEL_RTS_MODE_2, "84h requests in Loopback")                     \
    X(PANEL_RTS_MODE_3, "84h requests in Listen-Only")                  \
    X(PANEL_RTS_MODE_4, "84h requests in Configuration")                \
    X(PANEL_DELAYS, "a mode waits for what 84h requested")              \
    X(PANEL_SENT, "bus idle sends what 84h requested")                  \
    X(PANEL_TIE, "what 84h requested wins a tie")                       \
    X(PANEL_LOAD_TXREQ, "LOAD kept out by TXREQ")                       \
    X(PANEL_LOAD_FLIGHT, "LOAD kept out by the flight alone")           \
    X(PANEL_LOAD_FALL, "LOAD that a fall of TX2RTS locks half way")     \
    X(PANEL_LOOPED, "what the panel loaded comes in at RXB0")           \
    X(PANEL_REFUSED_XFER, "exchange by the panel, the controller's session") \
    X(PANEL_REFUSED_HIGH, "select high by the panel, the same")         \
    X(PANEL_REFUSES_XFER, "exchange by the controller, the panel's session") \
    X(PANEL_REFUSES_HIGH, "select high by the controller, the same")    \
    X(PANEL_LOW_OWN, "select low by the panel, its own session")        \
    X(PANEL_LOW_OTHER, "select low by the panel, the controller's session") \
    X(PANEL_LOW_BY_OTHER, "select low by the controller, the panel's session") \
    X(PANEL_XFER_HIGH, "exchange by the panel, select high")            \
    X(PANEL_HIGH_HIGH, "select high by the panel, select high")         \
    X(PANEL_XFER_HIGH_AFTER, "exchange by the controller after the panel's session") \
    X(PANEL_HIGH_HIGH_AFTER, "select high by the controller after the panel's session") \
    X(PANEL_SPEAKER_2, "refused for speaker 2 alone")                   \
    X(PANEL_SPEAKER_ABOVE, "refused for a speaker above 2 alone")       \
    X(PANEL_SPEAKER_BEFORE_1, "speaker above 1, where 0 and 1 have refusal 1") \
    X(PANEL_SPEAKER_BEFORE_18, "speaker above 1, select is low")        \
    X(PANEL_BYTE_1, "select by the panel refused for byte 1 alone")     \
    X(PANEL_SPARE, "record of the panel refused for a spare byte alone")\
    X(PANEL_SPARE_BEFORE_18, "spare byte, where there is refusal 18 else") \
    X(PANEL_AFTER_CONTROLLER, "the panel's session behind the controller's") \
    X(PANEL_BEFORE_CONTROLLER, "the controller's session behind the panel's") \
    X(PANEL_GOES_ON, "session goes on after a refused record of the other") \
    X(PANEL_FRAME, "frame stored inside a session")                     \
    X(PANEL_END, "own frame ends inside a session")                     \
    X(PANEL_IDLE, "bus idle sends inside a session")                    \
    X(PANEL_PIN, "a pin requests inside a session")                     \
    X(PANEL_MODE, "the mode changes inside a session")                  \
    X(PANEL_ENDS_OPEN, "log ends in an open session")

enum cover_point {
#define COVER_ENUM(name, text) COVER_##name,
    COVER_LIST(COVER_ENUM)
#undef COVER_ENUM
    COVER_POINTS
};

/* Codes of READ RX BUFFER and LOAD TX BUFFER, and the bytes after the code
 * around their limits. */
enum { COVER_BUFFER_CODES = 10, COVER_LENGTHS = 4 };

extern const uint8_t cover_buffer_code[COVER_BUFFER_CODES];
extern const uint8_t cover_length[COVER_LENGTHS];

/* How many data bytes the filters see, by the length code. */
enum cover_class {
    COVER_LENGTH_CODE_0,
    COVER_LENGTH_CODE_1,
    COVER_LENGTH_CODE_2_TO_8,
    COVER_LENGTH_CODE_9_TO_15,
    COVER_REMOTE,
    COVER_CLASSES
};

extern const char *const cover_class_name[COVER_CLASSES];

enum { COVER_SETS = 1 << MATCH_FILTERS };

/* TXRTSCTRL by its enables and the levels of the pins, which it does not all show. */
enum { COVER_PIN_STATES = 1 << REQUEST_PINS };

/* What pin records did in the present session. */
enum cover_pin_event {
    COVER_PIN_UNLISTED,       /* enabled, it fell */
    COVER_PIN_UNLISTED_ABAT,  /* the same under ABAT */
    COVER_PIN_UNLISTED_LATE,  /* the same, TXREQ rose, and bytes of its buffer had changed before */
    COVER_PIN_DISABLED,  /* not enabled, it fell */
    COVER_PIN_ROSE,      /* enabled */
    COVER_PIN_REPEATED,  /* enabled */
    COVER_PIN_EVENTS
};

/* Pins and their buffers, bit n for TXnRTS and TXBn, from record to record. */
struct cover_pins {
    uint8_t requested;     /* TXREQ set by a fall, and not cleared since */
    uint8_t moved_enabled; /* moved last while enabled */
    uint8_t reset_low;     /* low at the last RESET, and not moved since */
    uint8_t reset_high;    /* high and enabled at it, not moved and not enabled since */
    uint8_t reset_enabled; /* enabled at it, and not since */
    uint8_t changed;       /* buffers of which this session has changed a byte */
    uint8_t in_session[COVER_PIN_EVENTS];
    bool refused_in_session;
};

/* The panel's sessions, from record to record. */
struct cover_panel {
    struct model obeyed; /* the chip if the controller had spoken in this session */
    uint8_t code;
    unsigned exchanges;
    bool replies, stores, requests_txb2, stores_past, stores_canctrl, changed, locked;
    bool cut_in;       /* a record of the other was refused */
    bool requested;    /* TXREQ of TXB2 set by 84h, and not cleared since */
    bool loaded;       /* bytes of TXB2 stored by the panel last */
    uint8_t last;      /* who had the last session: 0, or as selected */
};

/* RESET by address, CANCTRL at 0Fh alone. The bits that a log can make other
 * than RESET does; bits of the counters are not told apart. */
enum { COVER_ADDRESSES = 128 };

extern const uint8_t cover_reset_bits[COVER_ADDRESSES];
bool cover_reset_keeps(unsigned address);

struct cover {
    unsigned long count[COVER_POINTS];
    /* Sessions of exactly this length with events inside, RXnIF set at select
     * low, or TXREQ clear and no flight. */
    unsigned long buffer_sessions[COVER_BUFFER_CODES][COVER_LENGTHS];
    /* Stored frames by what was offered: from the bus or sent in Loopback,
     * data or remote, standard or extended, length code. */
    unsigned long stored[2][2][2][LENGTH_CODE_MAX + 1];
    /* Standard frames that would be answered otherwise if the filters saw the
     * absent data byte 0 or 1, or did not see the present one. */
    unsigned long filtered[2][COVER_CLASSES];
    /* Frames that would be answered otherwise if this filter matched them,
     * which it does not for this one bit. */
    unsigned long one_bit[MATCH_FILTERS][MATCH_BITS];
    unsigned long matched_otherwise; /* not as match.h says */
    unsigned long set_otherwise;     /* the same of sets */
    unsigned long sets[COVER_SETS];  /* frames heard, by their set */
    /* Frames heard whose set lacks this filter for one bit alone, which is EXIDE or one
     * that its mask has: standard or extended, byte of the filter. */
    unsigned long set_exide[MATCH_FILTERS][2];
    unsigned long set_byte[MATCH_FILTERS][2][4];
    uint8_t set_before; /* of the last record */
    unsigned long txrtsctrl[COVER_PIN_STATES][COVER_PIN_STATES]; /* read, by enables and levels */
    unsigned long pin_spare[RECORD_BYTES]; /* pin records refused for this byte alone */
    struct cover_pins pins;
    struct cover_panel panel;
    unsigned long resets;
    unsigned long reset_bit[COVER_ADDRESSES][8]; /* met other than RESET would make it */
    unsigned long reset_read[COVER_ADDRESSES];   /* such a byte read while still in hand */
    /* What the last RESET met, as long as nothing later changed or showed it. */
    bool in_hand[COVER_ADDRESSES];
    bool reset_flight;
    uint8_t reset_mode; /* Configuration: nothing to show */
    uint8_t reset_request;
    struct model at_low; /* the present session: the chip before its select low */
    uint8_t code;
    uint8_t code_flags; /* CANINTF at the code byte */
    unsigned exchanges;
    unsigned events;
};

extern const char *const cover_text[COVER_POINTS];

/* A frame that was listened to: which bits and masks decided (cover_match.c). */
void cover_match(struct cover *c, const struct model *before, const uint8_t *record,
                 uint8_t answer);

/* Any record: what its set depended on (cover_set.c). */
void cover_set(struct cover *c, const struct model *before, const uint8_t *record,
               uint8_t refusal, uint8_t answer, uint8_t set);

/* Any record, after cover_step: what it did to the request pins and by them
 * (cover_pins.c). */
void cover_pins(struct cover *c, const struct model *before, const uint8_t *record,
                uint8_t refusal, const struct model *after);

/* Any record, after cover_step: what the panel did and could not do (cover_panel.c). */
void cover_panel(struct cover *c, const struct model *before, const uint8_t *record,
                 uint8_t refusal, uint8_t answer, const struct model *after);

/* The code byte as the chip takes it: one that the panel must not send is as good as
 * unknown, 0. */
uint8_t cover_code(const struct model *before, const uint8_t *record);

/* RESET, which is the controller's. */
bool cover_is_reset(const struct model *before, const uint8_t *record);

/* The present session so far: LOAD TX BUFFER up to data byte 7 at most, its buffer free at
 * select low. */
bool cover_loads(const struct cover *c);

/* One step: chips before and after, what the record gave. */
void cover_step(struct cover *c, const struct model *before, const uint8_t *record,
                uint8_t refusal, uint8_t answer, const struct model *after);

/* Runs a whole log by the model, counting; returns the last chip. */
struct model cover_log(struct cover *c, const uint8_t *log, size_t records);

#endif
