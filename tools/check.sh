#!/usr/bin/env bash
# The command-line tool as a user meets it: its text byte for byte against the
# replay program, its statuses and messages, and how it takes files and pipes
# that misbehave. Stops at the first failure.
#
#   tools/check.sh TOOL REPLAY
#
# Logs are those of bench/build/logs and samples; `make -C bench logs` makes the former
# and bench/build/expected, which tells sets by the second model.
set -u
tool=${1:?usage: tools/check.sh TOOL REPLAY} replay=${2:?usage: tools/check.sh TOOL REPLAY}
root=$(cd "$(dirname "$0")/.." && pwd)
work=$(mktemp -d) || exit 1
trap 'chmod -R u+rw "$work"; rm -rf "$work"' EXIT
tried=0
# shellcheck source=tools/records.sh
. "$root/tools/records.sh"

stop() {
    echo "tool check: FAILED: $*" >&2
    exit 1
}

say() {
    echo "tool check: $*"
    tried=$((tried + 1))
}

# status WANTED GOT WHAT
status() {
    [ "$1" -eq "$2" ] || stop "$3: expected status $1, got $2"
}

# same FILE FILE WHAT
same() {
    cmp -s "$1" "$2" || stop "$3: $(cmp "$1" "$2" 2>&1)"
}

# message WHAT PATTERN: standard error matches, standard output is empty
message() {
    grep -q "$2" "$work/err" || stop "$1: expected a message like '$2', got '$(cat "$work/err")'"
    [ ! -s "$work/out" ] || stop "$1: expected nothing on standard output"
}

# run ARGUMENT..: leaves out, err and $?
run() {
    "$tool" "$@" >"$work/out" 2>"$work/err"
}

# The status that the tool owes for a log: 1 where the text ends in 6 or 8.
owed() {
    case $(tail -n 1 "$1" | cut -d ' ' -f 2) in
    6 | 8) echo 1 ;;
    *) echo 0 ;;
    esac
}

[ -x "$tool" ] || stop "no tool at $tool"
[ -x "$replay" ] || stop "no replay program at $replay"
logs=("$root"/bench/build/logs/*.log "$root"/samples/*.log)
[ -e "${logs[0]}" ] || stop "no logs: make -C bench logs"
full=$root/bench/build/logs/full.log

# ---- the text ----

for log in "${logs[@]}"; do
    name=${log##*/}
    "$replay" "$log" >"$work/want"
    wanted=$(owed "$work/want")
    run replay "$log"
    status "$wanted" $? "replay $name"
    same "$work/want" "$work/out" "replay $name"
    "$tool" replay <"$log" >"$work/out" || true
    same "$work/want" "$work/out" "replay of standard input, $name"
    "$tool" replay - <"$log" >"$work/out"
    status "$wanted" $? "replay -, $name"
    same "$work/want" "$work/out" "replay -, $name"
    for size in 7 1000; do
        dd if="$log" bs="$size" 2>/dev/null | "$tool" replay >"$work/out"
        same "$work/want" "$work/out" "replay in pieces of $size bytes, $name"
        [ -s "$log" ] && [ "$(stat -c %s "$log")" -lt 400000 ] || break
    done
    awk '$2 != 0' "$work/want" >"$work/refused"
    run replay --refused "$log"
    status "$wanted" $? "replay --refused $name"
    same "$work/refused" "$work/out" "replay --refused $name"
    say "replay of $name: by file, standard input, -, in pieces, --refused"
done

# ---- files that misbehave ----

run replay "$work/none.log"
status 2 $? "replay of a missing file"
message "replay of a missing file" "^mcp2515: $work/none.log: No such file or directory$"
run chip "$work/none.log"
status 2 $? "chip of a missing file"
message "chip of a missing file" "^mcp2515: $work/none.log: No such file or directory$"
run replay "$work"
status 2 $? "replay of a directory"
message "replay of a directory" "^mcp2515: $work: Is a directory$"
run chip "$work"
status 2 $? "chip of a directory"
message "chip of a directory" "^mcp2515: $work: Is a directory$"
say "a missing file and a directory"

run replay /proc/self/mem
status 2 $? "replay of a file whose first byte cannot be read"
message "replay of a file whose first byte cannot be read" '^mcp2515: /proc/self/mem: Input/output error$'
say "a file that opens and cannot be read"

# Root may read everything, so the tool is run as nobody, from a place nobody can reach.
closed=$(mktemp) && cp "$tool" "$work/tool" && chmod 755 "$work" "$work/tool" && chmod 000 "$closed"
if [ "$(id -u)" -ne 0 ]; then
    "$work/tool" replay "$closed" >"$work/out" 2>"$work/err"
    permission=$?
elif setpriv --reuid=65534 --clear-groups true 2>/dev/null; then
    setpriv --reuid=65534 --clear-groups "$work/tool" replay "$closed" >"$work/out" 2>"$work/err"
    permission=$?
else
    permission=skipped
fi
rm -f "$closed"
if [ "$permission" = skipped ]; then
    say "a file without permission: SKIPPED, root reads everything and there is no setpriv"
else
    status 2 "$permission" "a file without permission"
    message "a file without permission" "^mcp2515: $closed: Permission denied$"
    say "a file without permission"
fi

"$tool" replay <&- >"$work/out" 2>"$work/err"
status 2 $? "closed input"
message "closed input" '^mcp2515: standard input: Bad file descriptor$'
say "closed input"

# ---- output that misbehaves ----

for arguments in "replay $full" "chip $full" "--help" "--version" "replay --help"; do
    # shellcheck disable=SC2086
    "$tool" $arguments >/dev/full 2>"$work/err"
    status 2 $? "$arguments to a full device"
    grep -q '^mcp2515: standard output: No space left on device$' "$work/err" ||
        stop "$arguments to a full device: $(cat "$work/err")"
    # shellcheck disable=SC2086
    "$tool" $arguments >&- 2>"$work/err"
    status 2 $? "$arguments to a closed output"
    grep -q '^mcp2515: standard output: Bad file descriptor$' "$work/err" ||
        stop "$arguments to a closed output: $(cat "$work/err")"
done
say "a full device and a closed output: replay, chip, --help, --version, replay --help"

first=$("$tool" replay "$full" 2>"$work/err" | head -n 1)
[ "$first" = "$("$replay" "$full" 2>/dev/null | head -n 1)" ] || stop "a pipe that closes early: '$first'"
(trap '' PIPE; "$tool" replay "$full" 2>"$work/err"; echo $? >"$work/status") | head -n 1 >/dev/null
status 2 "$(cat "$work/status")" "a pipe that closes early, SIGPIPE ignored"
grep -q '^mcp2515: standard output: Broken pipe$' "$work/err" || stop "broken pipe: $(cat "$work/err")"
env --default-signal=PIPE "$tool" replay "$full" 2>"$work/err" | true
pipe=${PIPESTATUS[0]}
[ "$pipe" -eq 141 ] || [ "$pipe" -eq 0 ] || stop "a pipe that closes early: status $pipe"
[ ! -s "$work/err" ] || stop "a pipe that closes early: $(cat "$work/err")"
say "a pipe that closes early: quiet by SIGPIPE, a message where it is ignored"

# ---- input that pauses ----

mkfifo "$work/in"
"$tool" replay "$work/in" >"$work/out" 2>"$work/err" &
pid=$!
exec 9<>"$work/in" # opened both ways, so that it waits for nobody
head -c 40 "$full" >&9 # two records and a half
"$replay" "$full" >"$work/all"
for _ in $(seq 100); do
    [ "$(wc -l <"$work/out")" -ge 2 ] && break
    sleep 0.05
done
head -n 2 "$work/all" >"$work/want"
same "$work/want" "$work/out" "lines before a pause in the input"
tail -c +41 "$full" | head -c 56 >&9 # up to record 6
for _ in $(seq 100); do
    [ "$(wc -l <"$work/out")" -ge 6 ] && break
    sleep 0.05
done
exec 9>&-
wait $pid
status 0 $? "input that pauses"
head -n 6 "$work/all" >"$work/want"
same "$work/want" "$work/out" "input that pauses"
say "input that pauses shows its lines before the end"

# ---- logs that end in a refusal ----

for name in stub ragged full_ragged; do
    run chip "$root/bench/build/logs/$name.log"
    status 2 $? "chip of $name.log"
    message "chip of $name.log" '^mcp2515: .*\.log: refusal 6: the log ends inside a record$'
done
for name in over over_ragged; do
    run chip "$root/bench/build/logs/$name.log"
    status 2 $? "chip of $name.log"
    message "chip of $name.log" '^mcp2515: .*\.log: refusal 8: the log has more than 65,535 records$'
done
(cat "$full" "$full" "$full") | "$tool" replay >"$work/out"
status 1 "${PIPESTATUS[1]}" "three logs one after the other"
[ "$(tail -n 1 "$work/out")" = "65536 8 0" ] || stop "three logs one after the other: $(tail -n 1 "$work/out")"
say "ragged and too long logs"

# ---- chip ----

run chip "$root/samples/switchover.log"
status 0 $? "chip of the sample"
for line in 'records        59, refused 0' 'mode           Configuration' 'INT            high' \
    'select         high' 'in flight      none' 'CANCTRL   87h  REQOP 4 CLKEN CLKPRE 3' \
    'CANSTAT   80h  OPMOD 4 ICOD 0' 'CANINTF   04h  TX0IF' 'EFLG      00h' \
    '               standard 123h, DLC 1, data 55 \[00 00 00 00 00 00 00\]' \
    'RXF0           standard 100h, data bytes 00h 00h'; do
    grep -q "^$line\$" "$work/out" || stop "chip of the sample: no line '$line'"
done
"$tool" chip - <"$root/samples/switchover.log" >"$work/again"
status 0 $? "chip -"
same "$work/out" "$work/again" "chip by file and by standard input"
run chip "$root/bench/build/logs/empty.log"
status 0 $? "chip of an empty log"
say "chip of the sample and of an empty log"

# shows LOG LINE..: the chip after the log has these lines
shows() {
    run chip "$1"
    status 0 $? "chip of ${1##*/}"
    shift
    for line in "$@"; do
        grep -qxF -- "$line" "$work/out" || stop "chip: no line '$line' in: $(cat "$work/out")"
    done
}

{
    session 02 20 FF E3 FF 0F # mask 0
    session 02 04 91 AB 56 78 # filter 1, extended
    session 02 28 C1 9A 45    # CNF3, CNF2, CNF1
    session 02 0C 2A 05       # BFPCTRL, TXRTSCTRL
    session 02 2B 03          # CANINTE
    session 02 0F 0F          # Normal, OSM
    record 03 01 02 00 12 37 56 78 A1 A2
    session 42 24 60 00 00 43 11 22 33 # TXB1: 123h, remote, DLC 3
    session 82
    record 04                 # TXB1 goes
    session 02 0F 4F          # Loopback has to wait
    record 00
    record 01 03
    record 04                 # refused
} >"$work/busy.log"
shows "$work/busy.log" \
    'records        63, refused 1' 'mode           Normal, Loopback is requested and waits' \
    'INT            low' 'select         low by the controller, an instruction is open' 'in flight      TXB1' \
    'CANCTRL   4Fh  REQOP 2 OSM CLKEN CLKPRE 3' 'CANSTAT   0Ch  OPMOD 0 ICOD 6' \
    'CANINTE   03h  RX1IE RX0IE' 'CANINTF   01h  RX0IF' 'TXB1CTRL  08h  TXREQ TXP 0' \
    '               standard 123h, RTR, DLC 3, data [11 22 33 00 00 00 00 00]' \
    'RXB0CTRL  01h  RXM 0 FILHIT0' \
    '               extended 12375678h, DLC 2, data A1 A2 [00 00 00 00 00 00]' \
    'RXM0           standard 7FFh, data bytes FFh 0Fh; extended 1FFFFF0Fh' \
    'RXF1           extended 12375678h' 'CNF1      45h  SJW 1 BRP 5' \
    'CNF2      9Ah  BTLMODE PHSEG1 3 PRSEG 2' 'CNF3      C1h  SOF WAKFIL PHSEG2 1' \
    'BFPCTRL   2Ah  B1BFS B1BFE B1BFM' 'TXRTSCTRL 15h  B1RTS B2RTSM B0RTSM'
{
    session 02 0F 07
    session 81
    for _ in $(seq 32); do
        record 04
        record 05 02
    done
} >"$work/bus_off.log"
shows "$work/bus_off.log" 'TEC            256, shown as 255' 'REC            0' \
    'EFLG      35h  TXBO TXEP TXWAR EWARN' 'CANINTF   A0h  MERRF ERRIF' \
    'TXB0CTRL  18h  TXERR TXREQ TXP 0' 'in flight      none' 'INT            high'
say "chip of a log that ends in flight with a request that waits, and of one in bus-off"
{
    session 02 60 64                   # RXB0 takes any frame; BUKT
    session 02 0F 07                   # Normal
    record 03 00 09 00 00 00 01 23 A1 A2 A3 A4 A5 A6 A7 A8
    record 03 00 10                    # refused: there is no length code 16
    session 40 91 A8 56 78 4F 11 22    # TXB0: extended 12345678h, remote, length code 15
    session 02 0F 47                   # Loopback
    session 81
    record 04
    record 05                          # rolls over into RXB1
} >"$work/long_codes.log"
shows "$work/long_codes.log" 'records        32, refused 1' \
    '               standard 123h, DLC 9, data A1 A2 A3 A4 A5 A6 A7 A8' \
    '               extended 12345678h, RTR, DLC 15, data [11 22 00 00 00 00 00 00]' \
    '               extended 12345678h, RTR, DLC 15, data [00 00 00 00 00 00 00 00]'
{
    session 02 60 64
    session 02 0F 07
    record 03 00 08 00 00 00 01 23 A1 A2 A3 A4 A5 A6 A7 A8
    session 02 2C 00                   # CANINTF: RXB0 is free again
    record 03 02 09 00 00 00 01 23     # remote: the old data stay
} >"$work/remote.log"
shows "$work/remote.log" 'records        17, refused 0' \
    '               standard 123h, SRR, DLC 9, data [A1 A2 A3 A4 A5 A6 A7 A8]'
say "chip of logs with length codes above 8"

# ---- arguments ----

for help in "--help" "replay --help" "chip --help" "replay --refused --help"; do
    # shellcheck disable=SC2086
    run $help
    status 0 $? "$help"
    grep -q '^usage: mcp2515 ' "$work/out" || stop "$help: no usage"
    [ ! -s "$work/err" ] || stop "$help: $(cat "$work/err")"
done
run --version
status 0 $? "--version"
grep -q '^mcp2515 [0-9.]*, chip version 3$' "$work/out" || stop "--version: $(cat "$work/out")"
for bad in "" "nonsense" "--nonsense" "replay --nonsense" "replay -x" "replay a b" "chip" "chip a b" \
    "chip --refused a" "-" "--"; do
    # shellcheck disable=SC2086
    run $bad
    status 2 $? "arguments '$bad'"
    message "arguments '$bad'" '^mcp2515: '
done
cp "$root/samples/switchover.log" "$work/--help"
"$replay" "$root/samples/switchover.log" >"$work/want"
tool_path=$(cd "$(dirname "$tool")" && pwd)/${tool##*/}
(cd "$work" && "$tool_path" replay -- --help >"$work/out")
status 0 $? "replay -- --help"
same "$work/want" "$work/out" "a log with the name --help after --"
say "--help, --version, bad arguments, --"

# shellcheck source=tools/check_compare.sh
. "$root/tools/check_compare.sh"
# shellcheck source=tools/check_filters.sh
. "$root/tools/check_filters.sh"
# shellcheck source=tools/check_pins.sh
. "$root/tools/check_pins.sh"
# shellcheck source=tools/check_panel.sh
. "$root/tools/check_panel.sh"
# shellcheck source=tools/check_timing.sh
. "$root/tools/check_timing.sh"
# shellcheck source=tools/check_profile.sh
. "$root/tools/check_profile.sh"
# shellcheck source=tools/check_load.sh
. "$root/tools/check_load.sh"

echo "tool check: $tried groups passed"
