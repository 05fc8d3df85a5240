# The part of tools/check.sh on the request pins TX0RTS to TX2RTS, which sources it:
# in the replay's lines, in the words of compare and in the chip. Helpers and variables
# are from there, from tools/check_compare.sh and from tools/check_filters.sh.
# shellcheck shell=bash disable=SC2154

# pin N LEVEL: TXnRTS goes to a level, 0 or 1
pin() {
    record 08 "$@"
}

# ---- the numbers ----

: >"$work/frames.log" && : >"$work/frames"

# reads NUMBER ADDRESS: a READ and its reply
reads() {
    gives '0 0' 00
    gives '0 0' 01 03
    gives '0 0' 01 "$2"
    gives "0 $1" 01 00
    gives '0 0' 02
}

reads 56 0D # TXRTSCTRL: all pins are high, none is enabled
for level in 0 1 1 0 0; do
    for n in 0 1 2; do gives '0 0' 08 $n $level; done
done
reads 0 0D
gives '0 0' 08 01 01
reads 16 0D
gives '2 0' 08 03
gives '2 0' 08 03 01
gives '2 0' 08 FF
gives '2 0' 08 00 02
gives '2 0' 08 02 FF
for spare in $(seq 3 15); do
    bytes=(08 01 00 00 00 00 00 00 00 00 00 00 00 00 00 00)
    bytes[spare]=01
    gives '2 0' "${bytes[@]}"
done
gives '2 0' 09
reads 16 0D       # what is refused moves no level
quiet 02 0D 02    # TXRTSCTRL: pin 1 is enabled, so its level is not shown
reads 2 0D
gives '0 0' 00    # pins move inside an instruction
gives '0 0' 01 03
gives '0 0' 08 00 01
gives '0 0' 01 0D
gives '0 0' 08 02 01
gives '0 42' 01 00
gives '0 0' 02
quiet 02 0F 07    # Normal
gives '0 3' 04
gives '0 0' 08 01 00
gives '0 1' 04    # TXB1 goes
gives '0 0' 08 01 01
gives '3 0' 04    # the flight refuses this, and no pin
gives '0 0' 08 00 00
gives '2 0' 08 03 # asked before the flight
gives '0 0' 05
gives '0 3' 04

run replay "$work/frames.log"
status 0 $? "replay of pins"
same "$work/frames" "$work/out" "replay of pins"
"$replay" "$work/frames.log" >"$work/out"
same "$work/frames" "$work/out" "the replay program on pins"
awk '$2 != 0' "$work/frames" >"$work/want"
run replay --refused "$work/frames.log"
same "$work/want" "$work/out" "replay --refused of pins"
say "replay of request pins: $(grep -c ' 2 0$' "$work/want") records refused, taken inside an instruction and in flight"

# ---- words ----

: >"$work/a.log" && : >"$work/b.log" && : >"$work/want"
number=0
for n in 0 1 2; do
    for level in 0 1; do
        number=$((number + 1))
        words=("request pin TX${n}RTS low" "request pin TX${n}RTS high")
        pin $n $level >>"$work/a.log"
        pin $n $((1 - level)) >>"$work/b.log"
        echo "$number 0 0 0 0 0 0 # ${words[level]} | ${words[1 - level]}" >>"$work/want"
    done
done
compared 1 --words "$work/a.log" "$work/b.log"
same "$work/want" "$work/out" "words of every pin and level"
pair "$work/a.log" "$work/b.log"

{ pin 3 0; pin 1 0; session 02 0D 02; pin 1 1; pin 1 0; session 03 0D 00; session 02 0F 07; record 04; } >"$work/a.log"
{ pin 2 0; pin 1 2; session 02 0D 01; pin 1 1; pin 1 0; session 03 0D 00; session 02 0F 07; record 04; } >"$work/b.log"
compared 1 --words "$work/a.log" "$work/b.log"
cat >"$work/want" <<'END'
1 2 0 0 0 0 0 # request pin, bytes 08 03 00 00 00 00 00 00 00 00 00 00 00 00 00 00: refused, unknown kind, or a byte out of range | request pin TX2RTS low
2 0 0 2 0 0 0 # request pin TX1RTS low | request pin, bytes 08 01 02 00 00 00 00 00 00 00 00 00 00 00 00 00: refused, unknown kind, or a byte out of range
6 0 0 0 0 0 0 # exchange 02h, WRITE to 0Dh | exchange 01h, WRITE to 0Dh
13 0 42 0 1 0 0 # exchange 00h, READ of 0Dh: reply 2Ah | reply 01h
20 0 1 0 3 0 0 # bus idle: TXB1 goes | no buffer goes
END
same "$work/want" "$work/out" "words of pins that are refused, enabled and not"
pair "$work/a.log" "$work/b.log"
say "compare --words: each pin at each level, refused pins, a fall that sends and one that does not"

# ---- the chip ----

# levels LEVEL LEVEL LEVEL: the lines of the three pins, one after the other
levels() {
    printf 'TX0RTS         %s\nTX1RTS         %s\nTX2RTS         %s\n' "$@" >"$work/want"
    grep '^TX[0-9]RTS ' "$work/out" >"$work/levels"
    same "$work/want" "$work/levels" "the levels of the pins"
}

: >"$work/pins.log"
shows "$work/pins.log" 'TXRTSCTRL 38h  B2RTS B1RTS B0RTS'
levels high high high
pin 0 0 >"$work/pins.log"
shows "$work/pins.log" 'TXRTSCTRL 30h  B2RTS B1RTS' 'TXB0CTRL  00h  TXP 0' # not enabled
levels low high high
{ pin 1 0; pin 1 3; } >"$work/pins.log"
shows "$work/pins.log" 'records        2, refused 1' 'TXRTSCTRL 28h  B2RTS B0RTS'
levels high low high
{ pin 2 0; pin 0 0; pin 0 1; } >"$work/pins.log"
shows "$work/pins.log" 'TXRTSCTRL 18h  B1RTS B0RTS'
levels high high low
{ session 02 0D 02; pin 1 0; } >"$work/pins.log"
shows "$work/pins.log" 'TXRTSCTRL 2Ah  B2RTS B0RTS B1RTSM' 'TXB0CTRL  00h  TXP 0' \
    'TXB1CTRL  08h  TXREQ TXP 0' 'TXB2CTRL  00h  TXP 0'
levels high low high
{ session 02 0D 02; pin 1 0; session C0; } >"$work/pins.log" # RESET
shows "$work/pins.log" 'TXRTSCTRL 28h  B2RTS B0RTS' 'TXB1CTRL  00h  TXP 0'
levels high low high
{ session 02 0D 07; session 02 0F 97; pin 1 0; } >"$work/pins.log" # ABAT
shows "$work/pins.log" 'CANCTRL   97h  REQOP 4 ABAT CLKEN CLKPRE 3' 'TXRTSCTRL 07h  B2RTSM B1RTSM B0RTSM' \
    'TXB1CTRL  00h  TXP 0'
levels high low high
{ session 02 0D 07; for n in 0 1 2; do pin $n 0; done; session 02 30 00; pin 0 0; pin 1 1; } >"$work/pins.log"
shows "$work/pins.log" 'TXB0CTRL  00h  TXP 0' 'TXB1CTRL  08h  TXREQ TXP 0' 'TXB2CTRL  08h  TXREQ TXP 0'
levels low high low
run chip --help
grep -q 'request pins' "$work/out" || stop "chip --help does not name the request pins"
say "chip: the levels of the pins and TXRTSCTRL after power-on, falls, RESET and under ABAT"
