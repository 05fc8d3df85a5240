# The part of tools/check.sh on the filters that match a frame, which sources it:
# in the replay's lines, in those of compare and in its words. Helpers and variables
# are from there and from tools/check_compare.sh.
# shellcheck shell=bash disable=SC2154

# frame HIGH LOW: a standard frame without data, by the two bytes of its identifier
frame() {
    record 03 00 00 00 00 00 "$@"
}

# ---- the fourth number of a frame ----

# gives NUMBERS BYTE..: a record, and what its line has to show behind its number
gives() {
    local numbers=$1
    shift
    record "$@" >>"$work/frames.log"
    echo "$(($(stat -c %s "$work/frames.log") / 16)) $numbers" >>"$work/frames"
}

# quiet BYTE..: a session of which every record answers 0
quiet() {
    gives '0 0' 00
    for byte in "$@"; do gives '0 0' 01 "$byte"; done
    gives '0 0' 02
}

gives '0 4 0' 03 00 00 00 00 00 01 00 # Configuration; all filters would match
quiet 02 2B 40                        # CANINTE: WAKIE
quiet 02 20 FF E0 00 00 FF E0 00 00   # both masks: all bits of a standard identifier count
quiet 02 00 20 00 00 00 40 00 00 00 20 00 00 00 # filters 0 to 2: 100h, 200h, 100h
quiet 02 10 40 00 00 00 20 00 00 00 60 00 00 00 # filters 3 to 5: 200h, 100h, 300h
quiet 02 0F 07                        # Normal
gives '0 0 0' 03 00 00 00 00 00 04 00 # no filter is 400h
gives '0 1 21' 03 00 00 00 00 00 01 00
gives '0 3 10' 03 00 00 00 00 00 02 00
gives '0 2 32' 03 00 00 00 00 00 03 00
gives '0 3 32' 03 00 00 00 00 00 03 00
gives '0 0 0' 03 01 00 00 04 00 00 00 # extended, with the bits of 100h
gives '2 0 0' 03 00 10 00 00 00 01 00 # there is no length code 16
gives '2 0 0' 03 04 00 00 00 00 01 00
gives '2 0' 2A
gives '2 0' 05 03
quiet 81
gives '0 0' 04                        # TXB0 goes
gives '3 0 0' 03 00 00 00 00 00 01 00
gives '3 0' 04
gives '2 0 0' 03 00 10 00 00 00 01 00 # asked before the flight
gives '0 0' 05
quiet 02 2C 00                        # CANINTF: both buffers are free
quiet 02 60 60                        # RXB0 takes any frame,
gives '0 1 0' 03 00 00 00 00 00 04 00 # also where no filter matches
quiet 02 2C 00
gives '0 1 10' 03 00 00 00 00 00 02 00
quiet 02 60 04                        # BUKT
gives '0 2 21' 03 00 00 00 00 00 01 00
gives '0 3 21' 03 00 00 00 00 00 01 00
quiet 02 2C 00
quiet 02 0F 47                        # Loopback
gives '0 4 0' 03 00 00 00 00 00 01 00
quiet 40 20 00 00 00 00               # TXB0: 100h
quiet 81
gives '0 0' 04
gives '0 1' 05                        # received, and yet three numbers
quiet 02 2C 00
quiet 02 0F 27                        # Sleep
gives '0 5 0' 03 00 00 00 00 00 01 00 # wakes to Listen-Only
gives '0 1 21' 03 00 00 00 00 00 01 00
quiet 02 2B 00
quiet 02 0F 27
gives '0 4 0' 03 00 00 00 00 00 01 00
printf '\003' >>"$work/frames.log"    # short of a frame
echo "$(($(stat -c %s "$work/frames.log") / 16 + 1)) 6 0" >>"$work/frames"

run replay "$work/frames.log"
status 1 $? "replay of frames.log"
same "$work/frames" "$work/out" "replay of frames"
"$replay" "$work/frames.log" >"$work/out"
same "$work/frames" "$work/out" "the replay program on frames"
awk '$2 != 0' "$work/frames" >"$work/want"
[ "$(grep -c ' [23] 0 0$' "$work/want")" -eq 4 ] || stop "frames.log has other refused frames"
run replay --refused "$work/frames.log"
status 1 $? "replay --refused of frames.log"
same "$work/want" "$work/out" "replay --refused of frames"
{ cat "$full"; frame 01 00; } >"$work/one_more.log"
run replay "$work/one_more.log"
[ "$(tail -n 1 "$work/out")" = '65536 8 0' ] || stop "a frame past the last record: $(tail -n 1 "$work/out")"
{ cat "$work/bus_off.log"; frame 00 00; } >"$work/not_heard.log"
run replay "$work/not_heard.log"
[ "$(tail -n 1 "$work/out" | cut -d ' ' -f 2-)" = '0 4 0' ] || stop "a frame in bus-off: $(tail -n 1 "$work/out")"
run replay --help
grep -q 'fourth number' "$work/out" || stop "replay --help does not name the fourth number"
say "replay of $(awk 'NF == 4' "$work/frames" | wc -l) frames: the filters that match, and of refused ones and of those not heard 0"

# ---- all sets ----

# After power-on all masks are 0: a filter matches a standard frame where its EXIDE is
# clear. One filter is changed before each frame, so that every set comes once.
sidl=(01 05 09 11 15 19)
{ session 02 0F 07; session 02 2C 00; frame 01 00; } >"$work/heard" # Normal, CANINTF
session 02 0F 87 >"$work/configured"

# all_sets TURN: the log of filters 0 to 5, turned by so many places
all_sets() {
    local i bit set=63
    cat "$work/heard"
    for i in $(seq 63); do
        bit=0
        while (((i >> bit & 1) == 0)); do bit=$((bit + 1)); done
        set=$((set ^ 1 << bit))
        cat "$work/configured"
        session 02 "${sidl[(bit + $1) % 6]}" "$( ((set >> bit & 1)) && echo 00 || echo 08)"
        cat "$work/heard"
    done
}
all_sets 0 >"$work/sets.log"
all_sets 1 >"$work/turned.log"

# answer_by SET, words_by SET: where the frame goes, and what is said of it
answer_by() {
    if (($1 & 3)); then echo 1; elif (($1)); then echo 2; else echo 0; fi
}
words_by() {
    local n names=
    for n in 0 1 2 3 4 5; do (($1 >> n & 1)) && names+=" $n"; done
    case $names in
    '') echo 'no match' ;;
    ' '?) echo "in RXB$(($(answer_by "$1") - 1)), filter$names" ;;
    *) echo "in RXB$(($(answer_by "$1") - 1)), filters$names" ;;
    esac
}

alone=0
: >"$work/want" && : >"$work/want_compared"
for i in $(seq 0 63); do
    number=$((11 + 21 * i)) set=$((63 ^ i ^ i >> 1))
    turned=$((set << 1 & 63 | set >> 5))
    echo "$number 0 $(answer_by $set) $set" >>"$work/want"
    [ $set -ne $turned ] || continue
    echo "$number 0 $(answer_by $set) 0 $(answer_by $turned) $set $turned" \
        "# frame standard 100h, DLC 0: $(words_by $set) | $(words_by $turned)" >>"$work/want_compared"
    [ "$(answer_by $set)" -ne "$(answer_by $turned)" ] || alone=$((alone + 1))
done
run replay "$work/sets.log"
awk 'NF == 4' "$work/out" >"$work/frames"
same "$work/want" "$work/frames" "replay of every set"
[ "$(cut -d ' ' -f 4 "$work/frames" | sort -nu | wc -l)" -eq 64 ] || stop "sets.log has not every set"
compared 1 --words "$work/sets.log" "$work/turned.log"
grep ' # frame ' "$work/out" >"$work/frames"
same "$work/want_compared" "$work/frames" "compare --words of every set"
pair "$work/sets.log" "$work/turned.log"
say "each of the 64 sets, replayed and compared with words: $(wc -l <"$work/frames") differ, $alone of them in the set alone"

# ---- what compare says of two frames ----

# filters RXF2SIDH CANCTRL: filter 0 takes 100h, filter 2 what it is given; then a mode
filters() {
    session 02 20 FF E0 00 00 FF E0 00 00 # both masks: all bits of a standard identifier count
    session 02 00 20                      # RXF0SIDH
    session 02 08 "$1"
    session 02 0F "$2"
}

# own: a frame 100h from TXB0
own() {
    session 40 20 00 00 00 00
    session 81
    record 04
    record 05
}

# frames_tell WHAT: standard input is what --words has to say of the frames of a.log and b.log
frames_tell() {
    cat >"$work/want"
    compared 1 --words "$work/a.log" "$work/b.log"
    grep -E ' # (frame|own frame) ' "$work/out" >"$work/frames"
    same "$work/want" "$work/frames" "$1"
    pair "$work/a.log" "$work/b.log"
}

{ filters 40 07; frame 01 00; session 02 0F 47; own; } >"$work/a.log"
{ filters 20 07; frame 01 00; session 02 0F 47; own; } >"$work/b.log"
frames_tell "a set that differs alone" <<'END'
28 0 1 0 1 1 5 # frame standard 100h, DLC 0: in RXB0, filter 0 | in RXB0, filters 0 2
46 0 3 0 3 1 5 # own frame ends, sent: lost, filter 0 | lost, filters 0 2
END
compared 1 --limit 2 "$work/a.log" "$work/b.log"
printf '%s\n' '21 0 0 0 0 0 0' '28 0 1 0 1 1 5' 'not shown: 1 more difference' >"$work/want"
same "$work/want" "$work/out" "sets and --limit"
for log in a b; do
    run replay "$work/$log.log"
    [ "$(tail -n 1 "$work/out")" = '46 0 3' ] || stop "an own frame lost in Loopback: $(tail -n 1 "$work/out")"
done
say "compare: a set that differs alone, of a frame and of an own frame in Loopback, which no replay shows"

{ filters 20 47; own; frame 01 00; } >"$work/a.log" # Loopback
{ filters 20 07; own; frame 01 00; } >"$work/b.log" # Normal
frames_tell "sent in Loopback, heard in Normal" <<'END'
40 0 1 0 0 5 0 # own frame ends, sent: in RXB0, filters 0 2 | taken
41 0 4 0 1 0 5 # frame standard 100h, DLC 0: not listening | in RXB0, filters 0 2
END
{ filters 20 07; session 81; record 04; frame 01 00; } >"$work/a.log" # Normal
{ filters 20 67; session 81; record 04; frame 01 00; } >"$work/b.log" # Listen-Only sends nothing
frames_tell "a frame refused in one log" <<'END'
32 3 0 0 1 0 5 # frame standard 100h, DLC 0: refused, an own frame is in flight | in RXB0, filters 0 2
END
{ session 02 2B 40; filters 20 27; frame 01 00; } >"$work/a.log" # WAKIE, Sleep
{ session 02 2B 40; filters 20 07; frame 01 00; } >"$work/b.log"
frames_tell "a frame that wakes in one log" <<'END'
33 0 5 0 1 0 5 # frame standard 100h, DLC 0: woke | in RXB0, filters 0 2
END
{ session 02 60 60; filters 40 07; frame 02 00; record 03 00 01 00 00 00 02 00 01; } >"$work/a.log" # RXM 11
{ session 02 60 00; filters 40 07; frame 02 00; record 03 00 01 00 00 00 02 00 02; } >"$work/b.log"
frames_tell "a frame taken by RXM 11 in one log" <<'END'
33 0 1 0 2 4 4 # frame standard 200h, DLC 0: in RXB0, filter 2 | in RXB1, filter 2
34 0 3 0 3 4 4 # frame standard 200h, DLC 1, data 01 | frame standard 200h, DLC 1, data 02
END
{ session 02 60 60; filters 20 07; frame 02 00; record 03 00 01 00 00 00 02 00 01; } >"$work/a.log"
frames_tell "a frame that no filter matches, taken by RXM 11" <<'END'
33 0 1 0 2 0 4 # frame standard 200h, DLC 0: in RXB0, no filter | in RXB1, filter 2
34 0 3 0 3 0 4 # frame standard 200h, DLC 1, data 01: lost, no filter | frame standard 200h, DLC 1, data 02: lost, filter 2
END
say "compare: a set in one log only, where the other does not listen, wakes, refuses; RXM 11; equal sets said once"

# ---- the README ----

# The commands of the README's second comparison, and what they print.
sed -n '/^    \. tools\/records\.sh$/,/^$/s/^    //p' "$root/README.md" >"$work/commands"
[ -s "$work/commands" ] || stop "README.md does not show a set that differs alone"
sed -i "s|tools/records.sh|$root/&|; s|build/mcp2515|$tool_path|" "$work/commands"
(cd "$work" && bash "$work/commands" >"$work/out" 2>"$work/err")
status 1 $? "the commands of the README"
grep -q ' 0 1 0 1 1 5 # ' "$work/out" || stop "the commands of the README show no set that differs alone: $(cat "$work/out" "$work/err")"
[[ $'\n'$(cat "$root/README.md")$'\n' == *$'\n\n'"$(sed 's/^/    /' "$work/out")"$'\n\n'* ]] ||
    stop "README.md does not show what its commands print: $(cat "$work/out" "$work/err")"
say "the README's logs with a set that differs alone, as its commands print them"
