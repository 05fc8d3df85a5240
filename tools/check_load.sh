# The part of tools/check.sh on `mcp2515 load`, which sources it: helpers and variables are
# from there and from tools/check_profile.sh. What the loader sends is worked out here once
# more, from include/mcp2515.h; what comes of it the second model says.
# shellcheck shell=bash disable=SC2154

# ---- what the loader sends ----

addresses=(00 01 02 03 04 05 06 07 08 09 0A 0B 10 11 12 13 14 15 16 17 18 19 1A 1B 20 21 22 23 24 25 26 27 60 70)

# command_and_events BYTE..: a session, and behind it the events that $between has for its number, a line of bytes each
command_and_events() {
    session "$@"
    commands=$((commands + 1))
    [ $commands -lt "$last" ] || return 0
    while read -r -a event; do
        [ ${#event[@]} -eq 0 ] || record "${event[@]}"
    done <<<"${between[commands]-}"
}

# sent STATUS MODE PROFILE: the records of a load of raw bytes that is in (0) or waits (1), from a mode's REQOP
sent() {
    local commands=0 last=71 bytes byte
    local -a event
    [ "$1" -eq 0 ] || last=3
    read -r -a bytes <<<"$(od -An -v -tx1 -w34 "$3")"
    command_and_events 05 0F E0 80
    command_and_events 03 0E 00
    if [ "$1" -eq 0 ]; then
        for byte in "${!bytes[@]}"; do command_and_events 02 "${addresses[byte]}" "${bytes[byte]}"; done
        for byte in "${!bytes[@]}"; do command_and_events 03 "${addresses[byte]}" 00; done
    fi
    command_and_events 05 0F E0 "$2"
}
between=()

# lines LOG: the registers after a log, without how many records there were
lines() {
    "$tool" chip "$1" | sed '/^records /d'
}

# loads STATUS REQOP NAME [EVENTS]: a load of the sample into the chip after $work/NAME.log; its words are
# those of standard input, its records are as they have to be, and with them the chip holds the profile or is
# as it was. The log of both is left in whole.log.
loads() {
    local wanted=$1 mode=$2 log=$work/$3.log
    shift 3
    says "$wanted" load "$sample" --chip "$log" "${@/#/--events=}" --record "$work/run.log"
    sent "$wanted" "$mode" "$work/sample.bin" >"$work/want.log"
    same "$work/want.log" "$work/run.log" "the records of a load after ${log##*/}"
    cat "$log" "$work/run.log" >"$work/whole.log"
    "$replay" "$work/whole.log" >"$work/replayed"
    "$expected" "$work/whole.log" >"$work/by_model"
    same "$work/by_model" "$work/replayed" "the replay of a load after ${log##*/}, by the second model"
    loads_made=$((loads_made + 1))
}
loads_made=0

# as_before NAME: the registers after whole.log are those after a log
as_before() {
    lines "$work/$1.log" >"$work/before"
    lines "$work/whole.log" >"$work/after"
    same "$work/before" "$work/after" "the chip after a load that waits: $(diff "$work/before" "$work/after")"
}

# holds_sample: after whole.log READs in Configuration reply the profile's bytes, by the second model
holds_sample() {
    local byte
    {
        cat "$work/whole.log"
        for byte in 30 40 50; do session 05 $byte 08 00; done # a message that waits would hold Configuration back
        session 02 0F 87
        for byte in "${addresses[@]}"; do session 03 "$byte" 00; done
    } >"$work/asked.log"
    "$expected" "$work/asked.log" | tail -n 170 | awk 'NR % 5 == 4 { print $3 }' >"$work/replies"
    # RXB0CTRL and RXB1CTRL have bits that are not the profile's.
    awk 'NR == 33 { $1 = int($1 / 32) % 4 * 32 + int($1 / 4) % 2 * 4 } NR == 34 { $1 = int($1 / 32) % 4 * 32 } 1' \
        "$work/replies" >"$work/read"
    od -An -v -tu1 -w1 "$work/sample.bin" | tr -d ' ' >"$work/want"
    same "$work/want" "$work/read" "the 34 bytes that the chip holds"
}

in_words() {
    printf 'in: the chip holds the profile\nmode %s, 71 commands%s\n' "$1" "${2-}"
}

# waiting_words REASON THEY [EVENTS]
waiting_words() {
    printf 'waiting: Configuration was not reached, since %s\n' "$1"
    printf 'no byte of the profile was written; try again when %s gone out\nmode Normal, 3 commands%s\n' "$2" "${3-}"
}

# ---- a load that is in ----

: >"$work/power_on.log"
session 02 0F 07 >"$work/normal.log"
session 02 0F 67 >"$work/listen_only.log"
{ session 02 0F 0F; record 06; record 06 01; } >"$work/osm.log"           # REC is 9
{ session 02 0F 67; session 02 0F 87; session 87; } >"$work/requested.log" # in Configuration TXREQ holds nothing back
{ session 02 2B 40; session 02 0F 27; record 03; } >"$work/woken.log"      # in Listen-Only, CANCTRL asks for Sleep
{ session 02 0F 67; session 83; } >"$work/listening.log"                   # nor does it in Listen-Only
loads 0 80 power_on < <(in_words Configuration)
holds_sample
loads 0 00 normal < <(in_words Normal)
holds_sample
grep -qx 'CANCTRL   07h  REQOP 0 CLKEN CLKPRE 3' <(lines "$work/whole.log") || stop "CANCTRL after a load in Normal"
loads 0 60 listen_only < <(in_words Listen-Only)
holds_sample
loads 0 00 osm < <(in_words Normal)
holds_sample
lines "$work/whole.log" >"$work/after"
grep -qx 'CANCTRL   0Fh  REQOP 0 OSM CLKEN CLKPRE 3' "$work/after" || stop "a load does not keep OSM"
grep -qx 'REC            0' "$work/after" || stop "Configuration clears REC"
loads 0 80 requested < <(in_words Configuration)
holds_sample
loads 0 60 woken < <(in_words Listen-Only)
holds_sample
grep -qx 'CANCTRL   67h  REQOP 3 CLKEN CLKPRE 3' <(lines "$work/whole.log") || stop "CANCTRL after a load of a woken chip"
loads 0 60 listening < <(in_words Listen-Only)
holds_sample
says 0 load "$work/sample.bin" < <(in_words Configuration)
run load "$work/sample.bin" --record "$work/again.log"
sent 0 80 "$work/sample.bin" | cmp -s - "$work/again.log" || stop "the records of a load without a log"
run load - <"$sample"
status 0 $? "load of standard input"
in_words Configuration | cmp -s - "$work/out" || stop "load of standard input: $(cat "$work/out" "$work/err")"
say "load: in, from power-on, Normal, Listen-Only and Configuration; records and registers as they have to be"

# ---- a load that waits ----

# waits REASON THEY NAME: the chip is as it was
waits() {
    loads 1 00 "$3" < <(waiting_words "$1" "$2")
    as_before "$3"
}
for n in 0 1 2; do
    { cat "$work/normal.log"; session 8$((1 << n)); } >"$work/txb$n.log"
    waits "TXB$n waits to be sent" 'it has' "txb$n"
    { cat "$work/txb$n.log"; record 04; } >"$work/flight$n.log"
    waits "TXB$n is being sent" 'it has' "flight$n"
    { cat "$work/flight$n.log"; session 05 $((3 + n))0 08 00; } >"$work/cleared$n.log" # TXREQ; the frame goes on
    waits "TXB$n is being sent" 'it has' "cleared$n"
    { cat "$work/flight$n.log"; record 05 01; } >"$work/lost$n.log"
    waits "TXB$n waits to be sent" 'it has' "lost$n"
done
{ cat "$work/normal.log"; session 85; } >"$work/two.log"
waits 'TXB0 waits to be sent and TXB2 waits to be sent' 'they have' two
{ cat "$work/two.log"; record 04; } >"$work/two_flight.log"
waits 'TXB0 waits to be sent and TXB2 is being sent' 'they have' two_flight
{ cat "$work/normal.log"; session 87; session 02 40 0B; record 04; session 02 40 03; } >"$work/three.log"
waits 'TXB0 waits to be sent and TXB1 is being sent and TXB2 waits to be sent' 'they have' three
{ cat "$work/normal.log"; panel_session 84; } >"$work/panel_waits.log"
waits 'TXB2 waits to be sent' 'it has' panel_waits
{ cat "$work/txb0.log"; for _ in $(seq 32); do record 04; record 05 02; done; } >"$work/off.log"
waits 'TXB0 waits to be sent' 'it has' off
grep -q 'TXBO' "$work/after" || stop "the chip is not in bus-off"
{ cat "$work/txb0.log"; session 02 0F 27; } >"$work/asleep.log"
loads 1 00 asleep < <(waiting_words 'TXB0 waits to be sent' 'it has')
[ "$(lines "$work/asleep.log" | grep '^mode')" = 'mode           Normal, Sleep is requested and waits' ] || stop "Sleep is requested"
[ "$(lines "$work/whole.log" | grep '^mode')" = 'mode           Normal' ] || stop "a mode request that someone left is not dropped"
say "load: waiting for each buffer, requested or in flight, for several, for the panel's, in bus-off; the chip is as it was"

# ---- events ----

# event AFTER BYTE..: an entry; AFTER is in decimal
event() {
    printf '%b' "$(printf '\\x%02x\\x%02x\\x%02x\\x%02x' $(($1 >> 24)) $(($1 >> 16 & 255)) $(($1 >> 8 & 255)) $(($1 & 255)))"
    record "${@:2}"
}
came() {
    echo ", $1 of $2 entries came between them"
}

frame='03 00 02 00 00 00 02 00 03 04' # standard 200h
between=([1]=$'04\n05 00')
{ event 1 04; event 1 05 00; } >"$work/goes.events"
loads 0 00 txb0 "$work/goes.events" < <(in_words Normal "$(came 2 2)")
holds_sample
{ event 0 04; event 0 05 00; } >"$work/zero.events"
loads 0 00 txb0 "$work/zero.events" < <(in_words Normal "$(came 2 2)")
between=([1]=04 [2]='05 00')
{ event 1 04; event 2 05 00; } >"$work/late.events"
loads 1 00 txb0 "$work/late.events" < <(waiting_words 'TXB0 is being sent' 'it has' "$(came 2 2)")
lines "$work/whole.log" | grep -q '^TXB0CTRL  00h' || stop "the message did not go out"
between=([2]=$'04\n05 00')
{ event 2 04; event 2 05 00; } >"$work/after.events"
loads 1 00 txb0 "$work/after.events" < <(waiting_words 'TXB0 waits to be sent' 'it has' "$(came 2 2)")
lines "$work/whole.log" | grep -q '^mode           Normal$' || stop "the mode after a message that goes out late"
between=()
{ event 3 04; event 4 05 00; event 71 04; } >"$work/never.events"
loads 1 00 txb0 "$work/never.events" < <(waiting_words 'TXB0 waits to be sent' 'it has' "$(came 0 3)")
as_before txb0
: >"$work/no.events"
loads 1 00 txb0 "$work/no.events" < <(waiting_words 'TXB0 waits to be sent' 'it has' "$(came 0 0)")
between=([70]=06)
{ event 70 06; event 71 06; event 70 06; event 4294967295 06; } >"$work/last.events"
loads 0 00 normal "$work/last.events" < <(in_words Normal "$(came 1 4)")
between=([3]="$frame"$'\n06 01' [50]="$frame"$'\n08 00 00\n04')
{ event 3 03 00 02 00 00 00 02 00 03 04; event 2 06 01; event 50 03 00 02 00 00 00 02 00 03 04; event 49 08; event 50 04; } >"$work/order.events"
loads 0 60 listen_only "$work/order.events" < <(in_words Listen-Only "$(came 5 5)")
holds_sample
# What is no bus event is passed over, even where it is due later than all that follow; an event in such a place holds
# the others back.
between=([1]=04 [2]='05 02')
{ event 4294967295 00; event 9 01 C0; event 1 04; event 0 02; event 2 05 02; event 1 09; event 1 FF; event 5 2A; } >"$work/over.events"
loads 1 00 txb1 "$work/over.events" < <(waiting_words 'TXB1 is being sent' 'it has' "$(came 2 8)")
between=()
{ event 4294967295 04; event 1 04; event 1 05; } >"$work/held.events"
loads 1 00 txb1 "$work/held.events" < <(waiting_words 'TXB1 waits to be sent' 'it has' "$(came 0 3)")
as_before txb1
# Events that the chip refuses come, and change nothing.
between=([1]=$'05 00\n04 01\n03 00 10\n07' [2]='06 02')
{ event 1 05; event 1 04 01; event 1 03 00 10; event 1 07; event 2 06 02; } >"$work/refused.events"
loads 1 00 txb2 "$work/refused.events" < <(waiting_words 'TXB2 waits to be sent' 'it has' "$(came 5 5)")
as_before txb2
[ "$(awk '$2 != 0' "$work/replayed" | wc -l)" -eq 5 ] || stop "five events are refused"
# The falling pin requests TXB1 when Configuration is reached already, and while it is not.
{ session 02 0D 07; session 02 0F 07; } >"$work/pins.log"
between=([1]=$'08 01 00' [2]='08 00 00')
{ event 1 08 01 00; event 2 08; } >"$work/pins.events"
loads 0 00 pins "$work/pins.events" < <(in_words Normal "$(came 2 2)")
holds_sample
lines "$work/whole.log" | grep -q '^TXB1CTRL  08h  TXREQ' || stop "the pin does not request TXB1"
{ cat "$work/pins.log"; session 84; } >"$work/pins2.log"
loads 1 00 pins2 "$work/pins.events" < <(waiting_words 'TXB1 waits to be sent and TXB2 waits to be sent' 'they have' "$(came 2 2)")
between=()
run load "$sample" --chip "$work/txb0.log" --events - --record "$work/run.log" <"$work/goes.events"
status 0 $? "load with events from standard input"
in_words Normal "$(came 2 2)" | cmp -s - "$work/out" || stop "load with events from standard input: $(cat "$work/out")"
say "load: events that come, in their order, too late, at 0, never, refused by the chip, that are none; $loads_made loads so far"

for length in 1 19 21 39 16; do
    head -c $length "$work/order.events" >"$work/short.events"
    refuses "$work/short.events: refusal 6: the events end inside an entry of 20 bytes" \
        load "$sample" --events "$work/short.events" --record "$work/kept.bin"
done
event 70 04 >"$work/one.events"
yes "$work/one.events" | head -n 65178 | xargs cat >"$work/most.events"
says 0 load "$sample" --events "$work/most.events" --record "$work/most.log" < <(in_words Configuration "$(came 65178 65178)")
run replay "$work/most.log"
status 0 $? "replay of the records of 65,178 events"
[ "$(wc -l <"$work/out")" -eq 65535 ] || stop "65,178 events are $(wc -l <"$work/out") records"
cat "$work/one.events" >>"$work/most.events"
refuses "$work/most.events: more than 65,178 events" load "$sample" --events "$work/most.events" --record "$work/kept.bin"
refuses '/dev/zero: more than 65,178 events' load "$sample" --events /dev/zero
[ "$(cat "$work/kept.bin")" = old ] || stop "a load that is refused changes OUT"
say "load: events that end inside an entry, as many as a log has room for, and one more"

# ---- refusals ----

select_low='refusal 1: select is low, the log ends inside a session'
in_mode() {
    echo "refusal 11: the chip is in $1; a profile is loaded in Normal, Listen-Only or Configuration"
}
record 00 >"$work/low.log"
record 00 00 01 >"$work/low_panel.log"
{ cat "$work/txb0.log"; record 00; record 01 03; record 01 00; } >"$work/low_open.log"
session 02 0F 27 >"$work/sleep.log"
session 02 0F 47 >"$work/loopback.log"
{ cat "$work/sleep.log"; record 00; } >"$work/low_sleep.log"
{ session 02 0F 47; session 81; record 04; } >"$work/loopback_flight.log"
head -c 19 "$work/order.events" >"$work/short.events"
for log in low low_panel low_open low_sleep; do
    for profile in "$sample" "$work/ones.bin"; do
        refuses "$work/$log.log: $select_low" load "$profile" --chip "$work/$log.log" --record "$work/kept.bin"
        refuses "$work/short.events: refusal 6: the events end inside an entry of 20 bytes" \
            load "$profile" --chip "$work/$log.log" --events "$work/short.events"
    done
done
words=$(mapfile -t bytes < <(yes 255 | head -n 34); unwritable "$work/ones.bin")
for log in sleep loopback loopback_flight txb0 normal; do
    refuses "${words#mcp2515: }" load "$work/ones.bin" --chip "$work/$log.log" --record "$work/kept.bin"
done
refuses "$work/sleep.log: $(in_mode Sleep)" load "$sample" --chip "$work/sleep.log" --record "$work/kept.bin"
refuses "$work/loopback.log: $(in_mode Loopback)" load "$sample" --chip "$work/loopback.log" --record "$work/kept.bin"
refuses "$work/loopback_flight.log: $(in_mode Loopback)" load "$sample" --chip "$work/loopback_flight.log"
refuses "standard input: $(in_mode Sleep)" load "$sample" --chip - <"$work/sleep.log"
refuses "standard input: $select_low" load "$sample" --chip=- <"$work/low.log"
for name in stub ragged full_ragged; do
    refuses "$from_bench/$name.log: refusal 6: the log ends inside a record" \
        load "$sample" --chip "$from_bench/$name.log" --record "$work/kept.bin"
done
for name in over over_ragged; do
    refuses "$from_bench/$name.log: refusal 8: the log has more than 65,535 records" \
        load "$sample" --chip "$from_bench/$name.log" --record "$work/kept.bin"
done
[ "$(cat "$work/kept.bin")" = old ] || stop "a load that is refused changes OUT"
no_parts "$work"
say "load: refusals 1, 10 and 11 in this order, 6 and 8 of a log; OUT stays as it was"

# ---- any chip ----

# The chip after each of many logs that others wrote, cut anywhere: what the second model says of it decides.
declare -A outcomes_met=([in]=0 [waiting]=0 [1]=0 [11]=0)
for ((n = 0; n < 144; n++)); do
    logs_to_cut=(cases match noise panel pins panel_noise set_cases long)
    log=$from_bench/${logs_to_cut[n % 8]}.log
    draw 4000
    head -c $((16 * (drawn % ($(stat -c %s "$log") / 16)))) "$log" >"$work/cut.log"
    draw 8
    case $((n / 8 % 6)) in # in some of them select is high, then come a mode, messages, bus idle
    1) { record 02; record 02 00 01; } ;;
    2) { record 02; record 02 00 01; session 02 0F 07; } ;;
    3) { record 02; record 02 00 01; session 02 0F 07; session "8$drawn"; } ;;
    4) { record 02; record 02 00 01; session 02 0F 07; session "8$drawn"; record 04; } ;;
    5) { record 02; record 02 00 01; session 02 0F $((2 + drawn % 2 * 2))7; } ;;
    esac >>"$work/cut.log"
    lines "$work/cut.log" >"$work/before"
    mode=$(sed -n 's/^mode  *\([^,]*\).*/\1/p' "$work/before")
    case $mode in Normal) reqop=00 ;; Listen-Only) reqop=60 ;; Configuration) reqop=80 ;; *) reqop='' ;; esac
    if grep -q '^select  *low' "$work/before"; then
        refuses "$work/cut.log: $select_low" load "$sample" --chip "$work/cut.log"
        outcome=1
    elif [ -z "$reqop" ]; then
        refuses "$work/cut.log: $(in_mode "$mode")" load "$sample" --chip "$work/cut.log"
        outcome=11
    elif { cat "$work/cut.log"; session 05 0F E0 80; session 03 0E 00; } >"$work/asked.log" &&
        [ $(("$("$expected" "$work/asked.log" | tail -n 2 | awk 'NR == 1 { print $3 }')" / 32)) -eq 4 ]; then
        loads 0 $reqop cut < <(in_words "$mode")
        holds_sample
        outcome=in
    else
        lines "$work/asked.log" >"$work/after"
        reason='' they='it has'
        for buffer in TXB0 TXB1 TXB2; do
            words="$buffer waits to be sent"
            ! grep -q "^in flight  *$buffer\$" "$work/after" || words="$buffer is being sent"
            grep -q -e "^in flight  *$buffer\$" -e "^${buffer}CTRL .* TXREQ" "$work/after" || continue
            [ -z "$reason" ] || they='they have'
            reason+="${reason:+ and }$words"
        done
        loads 1 $reqop cut < <(waiting_words "$reason" "$they")
        outcome=waiting
    fi
    outcomes_met[$outcome]=$((outcomes_met[$outcome] + 1))
done
for outcome in in waiting 1 11; do
    [ "${outcomes_met[$outcome]}" -ge 8 ] || stop "$outcome was met ${outcomes_met[$outcome]} times, too few to show something"
done
say "load after 144 logs cut anywhere, by the second model: in ${outcomes_met[in]}, waiting ${outcomes_met[waiting]}," \
    "refusal 1 ${outcomes_met[1]}, refusal 11 ${outcomes_met[11]}"

# ---- the story: a message waits while the filters are to change ----

"$root/samples/waiting.sh" "$work/profiles" || stop "samples/waiting.sh"
for name in waiting waiting-old waiting-sent; do
    same "$root/samples/$name.log" "$work/profiles/$name.log" "samples/$name.log as its script writes it"
    cp "$root/samples/$name.log" "$work/$name.log"
done

# filter_0 LOG: what filter 0 takes after a log
filter_0() {
    lines "$1" | sed -n 's/^RXF0  *\([^,]*\),.*/\1/p'
}

# hears LOG: what becomes of a frame 200h after it
hears() {
    { cat "$1"; record 03 00 00 00 00 00 02 00; } | "$replay" - | tail -n 1 | cut -d ' ' -f 2,3
}
[ "$(filter_0 "$work/waiting.log")" = 'standard 100h' ] || stop "filter 0 at the start"
{ cat "$work/waiting.log"; session 05 0F E0 80; session 02 00 40; } >"$work/written.log"
[ "$(lines "$work/written.log" | grep '^mode')" = 'mode           Normal, Configuration is requested and waits' ] ||
    stop "Configuration does not wait"
[ "$(awk '$2 != 0' <("$replay" "$work/waiting-old.log"))" = '' ] || stop "the old way is not refused"
[ "$(filter_0 "$work/waiting-old.log")" = 'standard 100h' ] || stop "the old way does not lose the filter"
[ "$(hears "$work/waiting-old.log")" = '0 0' ] || stop "a frame 200h after the old way"
waits 'TXB0 waits to be sent' 'it has' waiting
[ "$(filter_0 "$work/whole.log")" = 'standard 100h' ] || stop "a load that waits writes the filter"
cat "$work/whole.log" "$work/waiting-sent.log" >"$work/story.log"
[ "$(lines "$work/story.log" | grep '^mode')" = 'mode           Normal' ] || stop "the mode when the message has gone out"
[ "$(filter_0 "$work/story.log")" = 'standard 100h' ] || stop "the filter when the message has gone out"
loads 0 00 story < <(in_words Normal)
holds_sample
[ "$(filter_0 "$work/whole.log")" = 'standard 200h' ] || stop "a load that is in does not write the filter"
[ "$(hears "$work/whole.log")" = '0 1' ] || stop "a frame 200h after the load"
say "the story: the old way loses the filter; the loader waits and writes nothing; the message goes out; it is in"

# ---- arguments ----

misuses 'no PROFILE given (- is standard input)' load
misuses 'no PROFILE given (- is standard input)' load --chip "$work/normal.log"
misuses 'no FILE given (- is standard input)' profile
misuses 'no FILE given (- is standard input)' profile --
misuses "one argument too many, 'c'" profile a b c
misuses "one argument too many, 'b'" load a b
for option in --chip --events --record; do
    misuses "$option needs a file" load "$sample" $option
    misuses "$option needs a file" load "$sample" $option ''
    misuses "$option needs a file" load "$sample" $option=
done
for option in --chips --chi --chip-log -c --limit=1 --words --record-to=x; do
    misuses "unknown option '$option'" load "$sample" $option
    misuses "unknown option '$option'" profile "$sample" $option
done
misuses "unknown option '--chip'" profile "$sample" --chip "$work/normal.log"
misuses '--record needs a file; the words go to standard output' load "$sample" --record -
misuses 'standard input can be read only once' load - --chip - <"$sample"
misuses 'standard input can be read only once' load - --events - <"$sample"
misuses 'standard input can be read only once' load "$sample" --chip - --events=- </dev/null
misuses 'one pipe can be read only once' load - --chip /dev/stdin < <(cat "$sample")
misuses 'one pipe can be read only once' load "$sample" --chip /dev/stdin --events - < <(cat "$work/normal.log")
refuses "$work/none.log: No such file or directory" load "$sample" --chip "$work/none.log"
refuses "$work/none.events: No such file or directory" load "$sample" --events "$work/none.events"
refuses "$work/none.txt: No such file or directory" load "$work/none.txt" --chip "$work/none.log" --events "$work/none.events"
refuses "$work: Is a directory" load "$sample" --chip "$work"
refuses "$work: Is a directory" load "$sample" --events "$work"
refuses "/proc/self/mem: Input/output error" load "$sample" --chip /proc/self/mem
refuses "/proc/self/mem: Input/output error" load "$sample" --events /proc/self/mem
refuses 'standard input: Bad file descriptor' load "$sample" --chip - <&-
mkfifo "$work/still"
exec 9<>"$work/still" # nothing ever comes
timeout 10 "$tool" load "$work/still" --chip "$work/none.log" >"$work/out" 2>"$work/err"
status 2 $? "load of a pipe with a log that is missing"
message "load of a pipe with a log that is missing" "^mcp2515: $work/none.log: No such file or directory\$"
exec 9>&-
for arguments in "--chip $work/txb0.log --events $work/goes.events $sample" "$sample --events=$work/goes.events --chip=$work/txb0.log" \
    "--chip=$work/none.log --chip $work/txb0.log --events $work/goes.events -- $sample"; do
    # shellcheck disable=SC2086
    says 0 load $arguments < <(in_words Normal "$(came 2 2)")
done
says 0 load <(cat "$sample") --chip <(cat "$work/txb0.log") --events <(cat "$work/goes.events") < <(in_words Normal "$(came 2 2)")
for arguments in 'load --help' 'load x --help' 'profile --help'; do
    # shellcheck disable=SC2086
    run $arguments
    status 0 $? "$arguments"
    [ ! -s "$work/err" ] || stop "$arguments: $(cat "$work/err")"
    [ "$(wc -L <"$work/out")" -le 90 ] || stop "$arguments: a line is too long"
    cp "$work/out" "$work/help_${arguments%% *}"
done
for line in '^usage: mcp2515 load .*\[--chip LOG\] \[--events FILE\] \[--record OUT\].* PROFILE$' '^  --chip LOG ' '^  --events FILE ' \
    '^  --record OUT ' '65,178' '^Exit status: 0 in; 1 waiting; 2 refused or trouble'; do
    grep -q -- "$line" "$work/help_load" || stop "load --help: nothing like '$line'"
done
for line in '^usage: mcp2515 profile .*FILE \[OUT\]$' '^  filter N IDENTIFIER ' '^  mask N IDENTIFIER ' '^  rxb0 RXM \[bukt\] ' '^  rxb1 RXM$' \
    'data 0xAB' 'eid17-16' 'reserved-01' '^Exit status: 0, or 2 for trouble'; do
    grep -q -- "$line" "$work/help_profile" || stop "profile --help: nothing like '$line'"
done
run --help
grep -q '^  load     ' "$work/out" || stop "--help does not name load"
grep -q '^  profile  ' "$work/out" || stop "--help does not name profile"
grep -q 'a profile to load has to wait' "$work/out" || stop "--help does not say when load has status 1"
say "load and profile: arguments, options, standard input and pipes once, --help"

# ---- the README ----

# Each block of commands below the heading, and the block of what it prints; all in one directory, one after the other.
mkdir -p "$work/readme/build"
ln -s "$tool_path" "$work/readme/build/mcp2515"
ln -s "$root/samples" "$work/readme/samples"
sed -n '/^### Loading a profile$/,/^##* /{/^### Loading a profile$/d;/^##* /d;p;}' "$root/README.md" |
    awk -v to="$work/readme/block" '
    /^    / { if (!inside) file = sprintf("%s%02d", to, ++count); inside = 1; print substr($0, 5) >file; next }
    /^$/ { inside = 0; next }
    { inside = 0; status = /with status 1/ ? 1 : 0; print status >sprintf("%s%02d.status", to, count + 1) }'
shown=0
for commands in "$work"/readme/block[0-9][0-9]; do
    grep -q '^build/mcp2515 \|^cat ' "$commands" || continue
    printf -v printed '%s%02d' "${commands%??}" $((10#${commands: -2} + 1))
    (cd "$work/readme" && bash "$commands" >printed 2>&1)
    got=$?
    status "$(cat "$printed.status")" $got "the commands of the README: $(cat "$commands")"
    same "$printed" "$work/readme/printed" "what the README shows for: $(cat "$commands")"
    shown=$((shown + 1))
done
[ $shown -eq 5 ] || stop "README.md has $shown blocks of commands for load and profile"
say "the README's story, as its commands print it"
