#!/usr/bin/env bash
# Writes the samples switchover-old.log and switchover-new.log: two versions of a
# firmware that is to take frames 200h in place of 100h. A filter takes writes in
# Configuration only, and a message that waits in TXB0 holds that mode back. The
# old version writes the filter at once and looks at the mode afterwards; the new
# one looks first, and again until the mode is reached.
#
#   samples/switchover.sh DIRECTORY
set -euo pipefail
directory=${1:?usage: samples/switchover.sh DIRECTORY}
# shellcheck source=tools/records.sh
. "$(dirname "$0")/../tools/records.sh"

before() {
    session 02 20 FF E0 00 00 FF E0 00 00 # both masks: all bits of a standard identifier count
    session 02 00 20                      # RXF0SIDH: filter 0 takes 100h
    session 02 0F 07                      # CANCTRL: Normal
    session 40 24 60 00 00 01 55          # TXB0: 123h with one data byte
    session 81                            # RTS: it waits for its turn on the bus
    session 02 0F 87                      # CANCTRL: Configuration, which has to wait for it
}

message_goes() {
    record 04    # bus idle: TXB0 goes
    record 05 00 # it is sent; a mode that had to wait is reached
}

read_mode() { session 03 0E 00; }     # CANSTAT
write_filter() { session 02 00 40; }  # RXF0SIDH: filter 0 takes 200h
ask_normal() { session 02 0F 07; }    # CANCTRL
read_flags() { session 03 2C 00; }    # CANINTF

after() {
    record 03 00 02 00 00 00 01 00 01 02 # frames of two data bytes: 100h,
    record 03 00 02 00 00 00 02 00 03 04 # 200h
    read_flags                           # RX0IF is set
    session 90 00                        # READ RX BUFFER: RXB0SIDH
}

old() {
    before
    write_filter
    message_goes
    read_mode
    ask_normal
    read_flags
    after
}

new() {
    before
    read_mode
    message_goes
    read_mode
    write_filter
    ask_normal
    after
    session 81 # the answer to 200h
    message_goes
}

old >"$directory/switchover-old.log"
new >"$directory/switchover-new.log"
