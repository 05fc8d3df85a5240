# The part of tools/check.sh on the panel, which sources it: in the replay's lines, in
# the words of compare and in the chip. Helpers and variables are from there, from
# tools/check_compare.sh and from tools/check_filters.sh.
# shellcheck shell=bash disable=SC2154

for_panel=' 03 44 45 84 94 96 A0 B0 ' # the codes that the panel may give
codes=$(printf '%02X ' {0..255})

# is_for_panel CODE
is_for_panel() {
    [[ $for_panel == *" $1 "* ]]
}

# many COUNT BYTE: the byte so many times
many() {
    local i
    for ((i = 0; i < $1; i++)); do echo "$2"; done
}

# ---- the numbers ----

: >"$work/frames.log" && : >"$work/frames"

# unsound: records of kinds 0 to 2 with a speaker above 1, or with a spare byte that is not 0
unsound() {
    local kind speaker spare bytes
    for kind in 00 01 02; do
        for speaker in 02 03 10 80 FF; do gives '2 0' $kind 00 $speaker; done
        for speaker in 00 01; do
            [ $kind = 01 ] || gives '2 0' $kind 01 $speaker
            for spare in $(seq 3 15); do
                bytes=("$kind" 00 "$speaker" 00 00 00 00 00 00 00 00 00 00 00 00 00)
                bytes[spare]=01
                gives '2 0' "${bytes[@]}"
            done
        done
    done
}

# interrupted SPEAKER OTHER: a READ of CANCTRL; the other's records in it are refused
interrupted() {
    local speaker
    for speaker in 00 01; do # nobody has selected, so there is no 18
        gives '1 0' 01 03 $speaker
        gives '1 0' 02 00 $speaker
    done
    gives '0 0' 00 00 "$1"
    gives '18 0' 01 C0 "$2"
    gives '0 0' 01 03 "$1"
    gives '18 0' 01 02 "$2"
    gives '1 0' 00 00 "$1"
    gives '1 0' 00 00 "$2" # select is low, whoever speaks
    gives '18 0' 02 00 "$2"
    gives '2 0' 01 02 02   # asked before 18
    unsound
    gives '0 3' 04         # events come in any session
    gives '0 0' 01 0F "$1"
    gives '18 0' 01 00 "$2"
    gives '0 0' 08 01 00
    gives '0 135' 01 00 "$1"
    gives '18 0' 02 00 "$2"
    gives '0 0' 02 00 "$1"
}

unsound
interrupted 00 01
interrupted 01 00
interrupted 01 00
interrupted 00 01

run replay "$work/frames.log"
status 0 $? "replay of both speakers"
same "$work/frames" "$work/out" "replay of both speakers"
"$replay" "$work/frames.log" >"$work/out"
same "$work/frames" "$work/out" "the replay program on both speakers"
awk '$2 != 0' "$work/frames" >"$work/want"
run replay --refused "$work/frames.log"
same "$work/want" "$work/out" "replay --refused of both speakers"
say "replay of both speakers: $(grep -c ' 2 0$' "$work/want") records with refusal 2, $(grep -c ' 1 0$' "$work/want") with 1," \
    "$(grep -c ' 18 0$' "$work/want") with 18"

# ---- the codes ----

# set_up: Normal, a frame in each receive buffer
set_up() {
    session 02 60 64 # RXB0 takes any frame; BUKT
    session 02 0F 07
    record 03 00 08 00 00 00 01 23 A1 A2 A3 A4 A5 A6 A7 A8
    record 03 01 08 00 12 34 56 78 B1 B2 B3 B4 B5 B6 B7 B8
}
set_up >"$work/set_up.log"
before=$(($(stat -c %s "$work/set_up.log") / 16))

# after_set_up SESSION BYTE..: answers.got has the replay's numbers of a session that follows
# set_up, chip.got the chip after it, without the line that counts records
after_set_up() {
    { cat "$work/set_up.log"; "$@"; } >"$work/panel.log"
    run replay "$work/panel.log"
    status 0 $? "replay of $*"
    tail -n +$((before + 1)) "$work/out" | cut -d ' ' -f 2- >"$work/answers.got"
    run chip "$work/panel.log"
    status 0 $? "chip of $*"
    grep -v '^records ' "$work/out" >"$work/chip.got"
}

# keep NAME: as what the next ones are compared with
keep() {
    mv "$work/answers.got" "$work/answers.$1" && mv "$work/chip.got" "$work/chip.$1"
}

# as_kept NAME WHAT, unlike NAME WHAT: answers and chip are those kept; one of them is not
as_kept() {
    same "$work/answers.$1" "$work/answers.got" "answers, $2"
    same "$work/chip.$1" "$work/chip.got" "chip, $2"
}
unlike() {
    ! { cmp -s "$work/answers.$1" "$work/answers.got" && cmp -s "$work/chip.$1" "$work/chip.got"; } ||
        stop "$2: the same as $1"
}

after_set_up panel_session FF 0F 47 55 AA # no instruction at all
keep nothing
after_set_up true
same "$work/chip.nothing" "$work/chip.got" "chip, a code that nobody knows"
forbidden=() known=0
for code in $codes; do
    is_for_panel "$code" || forbidden+=("$code")
done
all_forbidden() {
    for code in "${forbidden[@]}"; do panel_session "$code" 0F 47 55 AA; done
}
after_set_up all_forbidden
[ "$(wc -l <"$work/answers.got")" -eq $((7 * 248)) ] || stop "$(wc -l <"$work/answers.got") records of forbidden codes"
[ "$(sort -u "$work/answers.got")" = '0 0' ] || stop "a forbidden code answers: $(sort -u "$work/answers.got")"
same "$work/chip.nothing" "$work/chip.got" "chip, the codes that the panel may not give"
# The same sessions of the controller do something, so the check above could fail.
for code in 02 05 40 41 42 43 81 82 83 85 86 87 90 92 C0; do
    is_for_panel "$code" && stop "$code is for the panel"
    after_set_up session "$code" 0F 47 55 AA
    unlike nothing "session $code of the controller"
    known=$((known + 1))
done
say "replay and chip: ${#forbidden[@]} codes that the panel may not give do nothing, $known of them by the controller do"

# What the panel may do it does as the controller does.
mapfile -t long < <(many 130 5A)
for bytes in '03 0F 47 55 AA' "03 70 ${long[*]}" "A0 ${long[*]}" "B0 ${long[*]}" 94 '94 00' \
    "94 ${long[*]:0:13}" 96 "96 ${long[*]:0:8}" "44 ${long[*]:0:13}" '44 FF FF' "45 ${long[*]:0:8}" 84 '84 01 02'; do
    # shellcheck disable=SC2086
    after_set_up session FF ${bytes:2}
    keep nothing
    # shellcheck disable=SC2086
    after_set_up session $bytes
    unlike nothing "session $bytes of the controller"
    keep controller
    # shellcheck disable=SC2086
    after_set_up panel_session $bytes
    as_kept controller "the panel's $bytes"
done
say "replay and chip: what the panel may do it does as the controller does, up to data byte 7 of a buffer"

# ends CODE LENGTH: in a session of 130 bytes the panel gets LENGTH of them and then nothing
ends() {
    local code=$1 length=$2 first=(11 22 33 44 55 66 77 88 99 AA BB CC DD) rest
    mapfile -t rest < <(many $((130 - length)) FF)
    after_set_up panel_session "$code" "${first[@]:0:length}"
    sed -i '$d' "$work/answers.got" # its select high
    many $((131 - length)) '0 0' >>"$work/answers.got"
    keep short
    after_set_up panel_session "$code" "${first[@]:0:length}" "${rest[@]}"
    as_kept short "130 bytes after the panel's $code"
    [ "$(wc -l <"$work/answers.got")" -eq 133 ] || stop "a session of $(wc -l <"$work/answers.got") records"
    after_set_up session "$code" "${first[@]:0:length}" "${rest[@]}" # comes round
    unlike short "130 bytes after the controller's $code"
}
ends 94 13
ends 96 8
ends 44 13
ends 45 8

# answered NUMBER..: the answers of a session that follows set_up, but for those of its
# select low and its code; what is left out is 0
answered() {
    local rest=$(($(wc -l <"$work/answers.got") - 2 - $#))
    { many 2 '0 0'; [ $# -eq 0 ] || printf '0 %s\n' "$@"; many $rest '0 0'; } >"$work/want"
    same "$work/want" "$work/answers.got" "the replies to the panel"
}
after_set_up panel_session 94 "${long[@]}"
answered 145 168 86 120 8 177 178 179 180 181 182 183 184
after_set_up panel_session 96 "${long[@]}"
answered 177 178 179 180 181 182 183 184
shows "$work/panel.log" 'CANINTF   01h  RX0IF' 'select         high'
after_set_up panel_session A0 00 00
answered 3 3
after_set_up panel_session B0 00 00
answered 192 192
after_set_up panel_session 44 12 60 00 00 03 A1 A2 A3 A4 A5 A6 A7 A8 "${long[@]}"
answered
shows "$work/panel.log" '               standard 093h, DLC 3, data A1 A2 A3 [A4 A5 A6 A7 A8]' \
    'CANCTRL   07h  REQOP 0 CLKEN CLKPRE 3' 'CANINTF   03h  RX1IF RX0IF' 'TXB2CTRL  00h  TXP 0' \
    'RXB0CTRL  66h  RXM 3 BUKT BUKT1'
say "replay and chip: 94h, 96h, 44h and 45h of the panel end behind data byte 7, with 130 bytes too; RX1IF is cleared"

# The panel's request counts as any other: it may go first, and it may hold back a mode.
{ set_up; session 81; panel_session 84; session 02 0F 87; } >"$work/panel.log"
shows "$work/panel.log" 'mode           Normal, Configuration is requested and waits' 'TXB0CTRL  08h  TXREQ TXP 0' \
    'TXB2CTRL  08h  TXREQ TXP 0'
record 04 >>"$work/panel.log"
shows "$work/panel.log" 'in flight      TXB2'
run replay "$work/panel.log"
[ "$(tail -n 1 "$work/out" | cut -d ' ' -f 2-)" = '0 2' ] || stop "the panel's request: $(tail -n 1 "$work/out")"
say "chip: the panel's request goes before that of TXB0 and holds back a mode"

# ---- words ----

: >"$work/told.log" && : >"$work/told"

# told_interrupted BY SPEAKER OTHER_BY OTHER WHO: a READ in which the other speaks, whose
# bytes are none of it
told_interrupted() {
    tells "exchange 03h$1: refused, select is high" 01 03 "$2"
    tells "select high$1: refused, select is high" 02 00 "$2"
    tells "select low$1" 00 00 "$2"
    tells "select low$1: refused, select is low" 00 00 "$2"
    tells "select low$3: refused, select is low" 00 00 "$4"
    tells "exchange 02h$3: refused, the $5 has selected" 01 02 "$4"
    tells "select high$3: refused, the $5 has selected" 02 00 "$4"
    tells "exchange 03h$1, READ" 01 03 "$2"
    tells "exchange 8Fh$1, address to READ" 01 8F "$2"
    tells "exchange 55h$3: refused, the $5 has selected" 01 55 "$4"
    tells 'bus idle: no buffer goes' 04
    tells "exchange FFh$1, READ of 0Fh: reply 87h" 01 FF "$2"
    tells "select high$1" 02 00 "$2"
}
told_interrupted '' 00 ' by the panel' 01 controller
told_interrupted ' by the panel' 01 '' 00 panel
tells 'select low, bytes 00 00 02 00 00 00 00 00 00 00 00 00 00 00 00 00: refused, unknown kind, or a byte out of range' 00 00 02
tells 'exchange, bytes 01 55 FF 00 00 00 00 00 00 00 00 00 00 00 00 00: refused, unknown kind, or a byte out of range' 01 55 FF
tells 'select high, bytes 02 00 01 01 00 00 00 00 00 00 00 00 00 00 00 00: refused, unknown kind, or a byte out of range' 02 00 01 01

cat "$work/set_up.log" >>"$work/told.log"
step 00 00 01
tells 'exchange 94h by the panel, READ RX BUFFER' 01 94 01
tells 'exchange 00h by the panel, READ RX BUFFER of 71h: reply 91h' 01 00 01
for _ in $(seq 11); do step 01 00 01; done
tells 'exchange 00h by the panel, READ RX BUFFER of 7Dh: reply B8h' 01 00 01
for _ in $(seq 117); do tells 'exchange 00h by the panel, past data byte 7 of RXB1' 01 00 01; done
step 02 00 01; step 00
tells 'exchange 96h, READ RX BUFFER' 01 96
for _ in $(seq 8); do step 01; done
tells 'exchange 00h, READ RX BUFFER of 7Eh: reply 00h' 01
tells 'exchange 00h, READ RX BUFFER of 7Fh: reply 07h' 01
step 02; step 00 00 01
tells 'exchange 45h by the panel, LOAD TX BUFFER' 01 45 01
tells 'exchange 11h by the panel, LOAD TX BUFFER to 56h' 01 11 01
for _ in $(seq 6); do step 01 00 01; done
tells 'exchange 22h by the panel, LOAD TX BUFFER to 5Dh' 01 22 01
for _ in $(seq 122); do tells 'exchange 33h by the panel, past data byte 7 of TXB2' 01 33 01; done
step 02 00 01; step 00
tells 'exchange 45h, LOAD TX BUFFER' 01 45
for _ in $(seq 7); do step 01; done
tells 'exchange 22h, WRITE to 5Dh' 01 22
tells 'exchange 33h, WRITE to 5Eh' 01 33
step 02; step 00 00 01
tells 'exchange A0h by the panel, READ STATUS' 01 A0 01
tells 'exchange 00h by the panel, READ STATUS: reply 01h' 01 00 01
step 02 00 01; step 00 00 01
tells 'exchange B0h by the panel, RX STATUS' 01 B0 01
tells 'exchange 00h by the panel, RX STATUS: reply 40h' 01 00 01
step 02 00 01; step 00 00 01
tells 'exchange 90h by the panel, READ RX BUFFER, a code not for the panel' 01 90 01
tells 'exchange 00h by the panel, past the instruction' 01 00 01
step 02 00 01

# code_words CODE: what the panel's code is
code_words() {
    local name=
    case $1 in
    02) name=WRITE ;;
    03) name=READ ;;
    05) name='BIT MODIFY' ;;
    4[0-5]) name='LOAD TX BUFFER' ;;
    8[0-7]) name=RTS ;;
    9[0246]) name='READ RX BUFFER' ;;
    A0) name='READ STATUS' ;;
    B0) name='RX STATUS' ;;
    C0) name=RESET ;;
    esac
    if [ -z "$name" ]; then
        echo 'unknown instruction'
    elif is_for_panel "$1"; then
        echo "$name"
    else
        echo "$name, a code not for the panel"
    fi
}
for code in $codes; do
    step 00 00 01
    tells "exchange ${code}h by the panel, $(code_words "$code")" 01 "$code" 01
    step 02 00 01
done
[ "$(grep -c 'not for the panel$' "$work/told")" -eq 17 ] || stop "not every code that the panel may not give is asked"
all_told
say "compare --words: $(wc -l <"$work/told") records of both speakers, in either log: all codes of the panel, past data byte 7, refusal 18"

session 03 0F 00 >"$work/a.log"
panel_session 03 0F 00 >"$work/b.log"
{ record 00; record 01 84; record 02; } | tee -a "$work/a.log" >>"$work/b.log"
{ record 00; record 01 82; record 02; } >>"$work/a.log"
panel_session 82 >>"$work/b.log"
{ record 00; record 01 A0; record 01; record 01 00 01; record 02; } >>"$work/a.log"
{ record 00 00 01; record 01 A0; record 01; record 01 00 01; record 02; } >>"$work/b.log"
compared 1 --words "$work/a.log" "$work/b.log"
cat >"$work/want" <<'END'
1 0 0 0 0 0 0 # select low | select low by the panel
2 0 0 0 0 0 0 # exchange 03h, READ | exchange 03h by the panel, READ
3 0 0 0 0 0 0 # exchange 0Fh, address to READ | exchange 0Fh by the panel, address to READ
4 0 135 0 135 0 0 # exchange 00h, READ of 0Fh | exchange 00h by the panel, READ of 0Fh
5 0 0 0 0 0 0 # select high | select high by the panel
9 0 0 0 0 0 0 # select low | select low by the panel
10 0 0 0 0 0 0 # exchange 82h, RTS | exchange 82h by the panel, RTS, a code not for the panel
11 0 0 0 0 0 0 # select high | select high by the panel
12 0 0 0 0 0 0 # select low | select low by the panel
13 0 0 18 0 0 0 # exchange A0h, READ STATUS | exchange A0h: refused, the panel has selected
14 0 80 18 0 0 0 # exchange 00h, READ STATUS: reply 50h | exchange 00h: refused, the panel has selected
15 18 0 0 0 0 0 # exchange 00h by the panel: refused, the controller has selected | exchange 00h by the panel, unknown instruction
16 0 0 18 0 0 0 # select high: taken | refused, the panel has selected
END
same "$work/want" "$work/out" "words of two logs with other speakers"
pair "$work/a.log" "$work/b.log"
run compare --help
grep -q 'panel' "$work/out" || stop "compare --help does not name the panel"
say "compare --words: two logs in which others speak"

# ---- the chip ----

# selected WORDS: what the line of the select says, after the log on standard input
selected() {
    cat >"$work/panel.log"
    run chip "$work/panel.log"
    status 0 $? "chip with the select $1"
    printf 'select         %s\n' "$1" >"$work/want"
    grep '^select ' "$work/out" >"$work/line"
    same "$work/want" "$work/line" "chip with the select $1, not '$(cat "$work/line")'"
}
by_panel='low by the panel, an instruction is open' by_controller='low by the controller, an instruction is open'
selected high </dev/null
selected "$by_panel" < <(record 00 00 01)
selected "$by_controller" < <(record 00)
selected high < <(panel_session)
selected high < <(panel_session 84)
selected "$by_panel" < <(record 00 00 01; record 02; record 00) # both are refused
selected "$by_controller" < <(record 00; record 02 00 01; record 00 00 01)
selected "$by_controller" < <(panel_session 03 0F; record 00)
selected "$by_panel" < <(session 03 0F; record 00 00 01; record 01 C0 01)
selected "$by_panel" < <(record 00 00 01; record 01 45 01; for _ in $(seq 20); do record 01 FF 01; done)
selected "$by_controller" < <(record 00; record 01 C0)
selected high < <(record 00 00 02)
run chip --help
grep -q 'who selected' "$work/out" || stop "chip --help does not say that who selected is shown"
say "chip: who selected, while the select is low"
