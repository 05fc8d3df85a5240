#!/usr/bin/env bash
# Writes the samples waiting.log, waiting-old.log and waiting-sent.log: filters that
# are to change while a message waits in TXB0, which holds Configuration back. In the
# first log it waits, and the chip is as `mcp2515 load --chip` is to find it. In the
# second the filter is written the old way, without a look at the mode. The third are
# the two bus events by which the message goes out, to be put behind another log.
#
#   samples/waiting.sh DIRECTORY
set -euo pipefail
directory=${1:?usage: samples/waiting.sh DIRECTORY}
# shellcheck source=tools/records.sh
. "$(dirname "$0")/../tools/records.sh"

waiting() {
    session 02 20 FF E0 00 00 FF E0 00 00 # both masks: all bits of a standard identifier count
    session 02 00 20                      # RXF0SIDH: filter 0 takes 100h
    session 02 0F 07                      # CANCTRL: Normal
    session 40 24 60 00 00 01 55          # TXB0: 123h with one data byte
    session 81                            # RTS: it waits for its turn on the bus
}

sent() {
    record 04    # bus idle: TXB0 goes
    record 05 00 # it is sent; a mode that had to wait is reached
}

old() {
    waiting
    session 05 0F E0 80            # CANCTRL: Configuration, which has to wait
    session 02 00 40               # RXF0SIDH: filter 0 is to take 200h
    sent
    session 05 0F E0 00            # CANCTRL: Normal
    record 03 00 00 00 00 00 02 00 # a frame, standard 200h
}

waiting >"$directory/waiting.log"
old >"$directory/waiting-old.log"
sent >"$directory/waiting-sent.log"
