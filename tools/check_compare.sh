# The part of tools/check.sh on `mcp2515 compare`, which sources it: helpers and
# variables are from there.
# shellcheck shell=bash disable=SC2154

from_bench=$root/bench/build/logs expected=$root/bench/build/expected
[ -x "$expected" ] || stop "no $expected: make -C bench logs"
five=$from_bench/five.log old=$root/samples/switchover-old.log new=$root/samples/switchover-new.log

# compared WANTED ARGUMENT..: the status is as wanted, standard error is empty
compared() {
    local wanted=$1
    shift
    run compare "$@"
    status "$wanted" $? "compare $*"
    [ ! -s "$work/err" ] || stop "compare $*: $(cat "$work/err")"
}

# ---- the listing, from two replays, the second model's sets and the bytes of the records ----

# The bytes of a record on a line.
bytes_of() {
    od -An -v -tx1 -w16 "$1"
}

# outcomes LOG: the replay's lines with a fourth number, the set, on each. It is the
# replay's own for a frame. For all other records, among them own frames which Loopback
# receives, it is the second model's.
outcomes() {
    paste -d ' ' <("$replay" "$1") <("$expected" --sets "$1")
}

# listing FIRST SECOND: what compare owes for two logs that it takes
listing() {
    paste -d '|' <(outcomes "$1") <(bytes_of "$1") <(outcomes "$2") <(bytes_of "$2") |
        awk -F '|' '
        function leftover(name, more) {
            print name " log: " more (more == 1 ? " more record" : " more records") ", from " both + 1
        }
        $2 == "" { second++; next }
        $4 == "" { first++; next }
        {
            both = NR
            split($1, a, " "); split($3, b, " ")
        }
        a[2] != b[2] || a[3] != b[3] || a[4] != b[4] || $2 != $4 {
            print NR, a[2], a[3], b[2], b[3], a[4], b[4]
        }
        END {
            if (first) leftover("first", first)
            if (second) leftover("second", second)
        }'
}

# A record is changed, added or left out at a place; what follows may answer otherwise.
head -c $((20000 * 16)) "$from_bench/noise.log" >"$work/noise.log"
head -c $((65534 * 16)) "$full" >"$work/one_less.log"
place=$((30000 * 16))
{ head -c $place "$full"; session C0 | head -c 16; tail -c +$((place + 17)) "$full"; } >"$work/changed.log"
{ head -c $place "$full"; record 07; tail -c +$((place + 1)) "$work/one_less.log"; } >"$work/added.log"
{ head -c $place "$full"; tail -c +$((place + 17)) "$full"; } >"$work/left_out.log"
{ record 06 01; tail -c +17 "$full"; } >"$work/first_changed.log"
{ cat "$work/one_less.log"; record 2A 01; } >"$work/last_changed.log"

pairs=0 differences=0 leftovers=0
# pair FIRST SECOND: both ways round, plain and with words
pair() {
    local wanted got first second
    for _ in 1 2; do
        first=$1 second=$2
        run compare "$first" "$second"
        got=$?
        [ ! -s "$work/err" ] || stop "compare $first $second: $(cat "$work/err")"
        listing "$first" "$second" >"$work/want"
        wanted=0
        [ ! -s "$work/want" ] || wanted=1
        status "$wanted" "$got" "compare $first $second"
        same "$work/want" "$work/out" "compare $first $second"
        compared "$wanted" --words "$first" "$second"
        sed 's/^\([0-9 ]*\) # .*/\1/' "$work/out" >"$work/plain"
        same "$work/want" "$work/plain" "the numbers of compare --words $first $second"
        [ "$(grep -cE '^[0-9]+( [0-9]+){6} # [a-z][^|]* \| [A-Za-z][^|]*$' "$work/out")" -eq \
            "$(grep -c '^[0-9]' "$work/want")" ] || stop "compare --words $first $second: a line without words"
        pairs=$((pairs + 1))
        differences=$((differences + $(grep -c '^[0-9]' "$work/want")))
        leftovers=$((leftovers + $(grep -c 'log: ' "$work/want")))
        set -- "$second" "$first"
    done
}
pair "$five" "$from_bench/marked.log"
pair "$from_bench/marked.log" "$from_bench/cases.log"
pair "$from_bench/cases.log" "$from_bench/match.log"
pair "$from_bench/match.log" "$from_bench/long.log"
pair "$from_bench/empty.log" "$five"
for name in noise one_less changed added left_out first_changed last_changed; do
    pair "$full" "$work/$name.log"
done
pair "$old" "$new"
[ "$differences" -gt 100000 ] || stop "the pairs have $differences differences, too few to show something"
[ "$leftovers" -gt 10 ] || stop "the pairs have $leftovers leftovers, too few to show something"
say "compare of $pairs pairs by the replays, the model's sets and the records: $differences differences, $leftovers leftovers"

# nothing FIRST SECOND: no difference and no output
nothing() {
    compared 0 "$@"
    [ ! -s "$work/out" ] || stop "compare $*: expected no output, got '$(head -n 1 "$work/out")'"
}
cp "$full" "$work/copy.log"
nothing "$full" "$work/copy.log"
nothing "$full" "$full"
nothing --words --limit 0 "$full" "$full"
nothing "$from_bench/empty.log" /dev/null
say "compare of equal logs, of one log with itself, of empty logs"

# ---- logs that are refused ----

# refused NAME NUMBER FIRST SECOND: nothing is printed, the message has the name of the log
refused() {
    local name=$1 number=$2 why='the log ends inside a record'
    [ "$number" -eq 6 ] || why='the log has more than 65,535 records'
    shift 2
    run compare "$@"
    status 2 $? "compare $*"
    echo "mcp2515: $name: refusal $number: $why" >"$work/want"
    same "$work/want" "$work/err" "the message of compare $*"
    [ ! -s "$work/out" ] || stop "compare $*: expected nothing on standard output"
}
over=$from_bench/over.log
for name in stub ragged full_ragged over_ragged; do
    log=$from_bench/$name.log
    refused "$log" 6 "$log" "$five"
    refused "$log" 6 "$five" "$log"
    refused "$log" 6 "$log" "$over"
    refused "$over" 8 "$over" "$log"
    refused "$log" 6 "$log" "$from_bench/ragged.log"
    refused "$from_bench/ragged.log" 6 "$from_bench/ragged.log" "$log"
done
refused "$over" 8 "$over" "$five"
refused "$over" 8 "$five" "$over"
cp "$over" "$work/over.log"
refused "$over" 8 "$over" "$work/over.log"
say "compare of ragged and too long logs: the first refusal decides, each side and both"

for extra in '' x; do
    number=$([ -z "$extra" ] && echo 8 || echo 6)
    { cat "$full" "$full"; printf '%s' "$extra"; } >"$work/double.log"
    refused "$work/double.log" "$number" "$work/double.log" "$over"
    refused 'standard input' "$number" - "$over" <"$work/double.log"
    # What somebody else has read already does not count.
    { head -c 5 >/dev/null; refused 'standard input' 6 "$five" -; } <"$work/double.log"
    refused "$over" 8 "$over" <(cat "$work/double.log")
    dd if="$work/double.log" bs=1000 2>/dev/null | refused 'standard input' "$number" - "$five" || exit 1
    dd if="$work/double.log" bs=1000 2>/dev/null | refused 'standard input' "$number" "$five" - || exit 1
done
say "compare of pipes and files that are far too long: refusal 6 or 8 by their whole length"

# Read through, such a file would take minutes.
if truncate -s 200G "$work/huge.log" 2>/dev/null; then
    timeout 20 "$tool" compare "$work/huge.log" "$five" >"$work/out" 2>"$work/err"
    status 2 $? "compare of a file of 200 GB"
    message "compare of a file of 200 GB" "^mcp2515: $work/huge.log: refusal 8: "
    truncate -s +1 "$work/huge.log"
    timeout 20 "$tool" compare "$five" - <"$work/huge.log" >"$work/out" 2>"$work/err"
    status 2 $? "compare of a ragged file of 200 GB"
    message "compare of a ragged file of 200 GB" '^mcp2515: standard input: refusal 6: '
    rm "$work/huge.log"
    say "compare of a file of 200 GB reads no more of it than a log has"
else
    say "compare of a file of 200 GB: SKIPPED, no such file can be made here"
fi

# ---- files and pipes ----

# trouble REASON FIRST SECOND: status 2 and this message
trouble() {
    local reason=$1
    shift
    run compare "$@"
    status 2 $? "compare $*"
    message "compare $*" "^mcp2515: $reason\$"
}
for other in "$five" "$work/none.log" "$from_bench/ragged.log"; do
    trouble "$work/none.log: No such file or directory" "$work/none.log" "$other"
done
trouble "$work/none.log: No such file or directory" "$five" "$work/none.log"
trouble "$work: Is a directory" "$work" "$five"
trouble "$work: Is a directory" "$five" "$work"
trouble "/proc/self/mem: Input/output error" /proc/self/mem "$five"
trouble "/proc/self/mem: Input/output error" "$five" /proc/self/mem
trouble "standard input: Bad file descriptor" - "$five" <&-
trouble "standard input: Bad file descriptor" "$five" - <&-
trouble "compare: standard input can be only one of the two logs" - - <"$five"
trouble "compare: one pipe can be only one of the two logs" - /dev/stdin < <(cat "$five")
trouble "compare: one pipe can be only one of the two logs" /dev/stdin - < <(cat "$five")
mkfifo "$work/quiet"
timeout 10 "$tool" compare "$work/quiet" "$work/../${work##*/}/quiet" >"$work/out" 2>"$work/err"
status 2 $? "compare of one pipe named twice"
message "compare of one pipe named twice" '^mcp2515: compare: one pipe can be only one of the two logs$'
nothing - /dev/stdin <"$five"
nothing /dev/null /dev/null
trouble "$work: Is a directory" "$work" "$work"
exec 9<>"$work/quiet" # nothing ever comes
timeout 10 "$tool" compare "$work/quiet" "$work/none.log" >"$work/out" 2>"$work/err"
status 2 $? "compare of a pipe with a missing file"
message "compare of a pipe with a missing file" "^mcp2515: $work/none.log: No such file or directory\$"
exec 9>&-
say "compare of a missing file, a directory, what cannot be read, standard input closed or twice, one pipe twice"

compared 1 "$old" "$new"
cp "$work/out" "$work/samples_listed"
for size in 7 1000; do
    dd if="$old" bs=$size 2>/dev/null | compared 1 - "$new" || exit 1
    same "$work/samples_listed" "$work/out" "compare with standard input first, in pieces of $size bytes"
    dd if="$new" bs=$size 2>/dev/null | compared 1 "$old" - || exit 1
    same "$work/samples_listed" "$work/out" "compare with standard input second, in pieces of $size bytes"
done
compared 1 <(cat "$old") <(cat "$new")
same "$work/samples_listed" "$work/out" "compare of two pipes"
cp "$old" "$work/--words" && cp "$new" "$work/--limit"
(cd "$work" && "$tool_path" compare -- --words --limit >named)
status 1 $? "compare -- --words --limit"
same "$work/samples_listed" "$work/named" "compare of logs with the names of options"
say "compare by standard input, pipes, after --"

# Output that misbehaves: far more than stdio holds, less than it holds.
for arguments in "compare $full $work/noise.log" "compare $old $new" "compare --words $full $work/noise.log" \
    "compare --limit 0 $old $new" "compare --help"; do
    # shellcheck disable=SC2086
    "$tool" $arguments >/dev/full 2>"$work/err"
    status 2 $? "$arguments to a full device"
    echo 'mcp2515: standard output: No space left on device' | cmp -s - "$work/err" ||
        stop "$arguments to a full device: $(cat "$work/err")"
    # shellcheck disable=SC2086
    "$tool" $arguments >&- 2>"$work/err"
    status 2 $? "$arguments to a closed output"
    echo 'mcp2515: standard output: Bad file descriptor' | cmp -s - "$work/err" ||
        stop "$arguments to a closed output: $(cat "$work/err")"
done
(trap '' PIPE; "$tool" compare "$full" "$work/noise.log" 2>"$work/err"; echo $? >"$work/status") | head -n 1 >/dev/null
status 2 "$(cat "$work/status")" "compare into a pipe that closes early, SIGPIPE ignored"
echo 'mcp2515: standard output: Broken pipe' | cmp -s - "$work/err" || stop "broken pipe: $(cat "$work/err")"
env --default-signal=PIPE "$tool" compare "$full" "$work/noise.log" 2>"$work/err" | true
pipe=${PIPESTATUS[0]}
[ "$pipe" -eq 141 ] || [ "$pipe" -eq 1 ] || stop "compare into a pipe that closes early: status $pipe"
[ ! -s "$work/err" ] || stop "compare into a pipe that closes early: $(cat "$work/err")"
say "compare to a full device, a closed output, a pipe that closes early"

# ---- options ----

total=$(grep -c '^[0-9]' "$work/samples_listed")
[ "$total" -gt 2 ] || stop "the samples differ in $total records"
# limited N OPTION..: at most N lines, and how many more there are
limited() {
    local most=$1 more
    shift
    more=$((total - most))
    {
        grep '^[0-9]' "$work/samples_listed" | head -n "$most"
        [ $more -le 0 ] || echo "not shown: $more more difference$([ $more -eq 1 ] || echo s)"
        tail -n 1 "$work/samples_listed"
    } >"$work/want"
    compared 1 "$@" "$old" "$new"
    same "$work/want" "$work/out" "compare $*"
}
for most in 0 1 2 $((total - 1)) "$total" $((total + 1)); do
    limited "$most" --limit "$most"
    limited "$most" --limit="$most"
done
limited 1 --limit 0 --limit 001
for most in 65536 4294967296 18446744073709551616 99999999999999999999999999; do
    limited "$total" --limit "$most"
done
compared 1 "$old" "$new" --limit 1
[ "$(wc -l <"$work/out")" -eq 3 ] || stop "compare with --limit after the logs: $(cat "$work/out")"
compared 1 --limit 0 "$work/first_changed.log" "$full"
for bad in '' -1 +1 ' 1' '1 ' 1x x 0x1 1.0 1,000 --words --; do
    for option in "--limit=$bad" --limit; do
        if [ "$option" = --limit ]; then run compare --limit "$bad" "$old" "$new"; else run compare "$option" "$old" "$new"; fi
        status 2 $? "compare $option with '$bad'"
        message "compare $option with '$bad'" "^mcp2515: compare: --limit needs a decimal number, not '$bad'\$"
    done
done
run compare "$old" "$new" --limit
status 2 $? "compare with --limit last"
message "compare with --limit last" '^mcp2515: compare: --limit needs a decimal number$'
say "compare --limit: 0, 1, as many as there are, more, and what is no number"

for bad in "compare --nonsense $old $new" "compare --words=1 $old $new" "compare --limits 1 $old $new" \
    "compare --limi=1 $old $new" "compare --refused $old $new" "compare -w $old $new" "replay --limit 1 $old" \
    "chip --limit=1 $old"; do
    # shellcheck disable=SC2086
    run $bad
    status 2 $? "$bad"
    message "$bad" "unknown option '-"
done
for bad in "compare" "compare $old" "compare -- $old" "compare --words -" "compare --limit 1 $old"; do
    # shellcheck disable=SC2086
    run $bad
    status 2 $? "$bad"
    message "$bad" '^mcp2515: compare: two logs are needed'
    message "$bad" "^Try 'mcp2515 compare --help'\.\$"
done
run compare "$old" "$new" "$five"
status 2 $? "compare of three logs"
message "compare of three logs" "^mcp2515: compare: one argument too many, '$five'\$"
run compare --limit 1 --help
status 0 $? "compare --help"
for line in '^usage: mcp2515 compare ' 'the set in FIRST, the set in SECOND' '--words ' '--limit N ' '^Exit status: 0 .* 1 ' ' 2 for trouble'; do
    grep -q -- "$line" "$work/out" || stop "compare --help: nothing like '$line'"
done
run --help
grep -q '^  compare  ' "$work/out" || stop "--help does not name compare"
say "compare: unknown options, too few and too many logs, --help"

# ---- words ----

# tells WORDS BYTE..: a record, and what --words has to say of it
tells() {
    local words=$1
    shift
    record "$@" >>"$work/told.log"
    echo "$(($(stat -c %s "$work/told.log") / 16)) $words" >>"$work/told"
}

# step BYTE.., steps BYTE..: a record, a session of which nothing is asked
step() {
    record "$@" >>"$work/told.log"
}
steps() {
    session "$@" >>"$work/told.log"
}

tells 'select low' 00
tells 'select low: refused, select is low' 00
tells 'exchange 03h, READ' 01 03
tells 'exchange 8Eh, address to READ' 01 8E
tells 'exchange FFh, READ of 0Eh: reply 80h' 01 FF
tells 'exchange 00h, READ of 0Fh: reply 87h' 01 00
tells 'select high' 02
tells 'select high: refused, select is high' 02
tells 'exchange 55h: refused, select is high' 01 55
tells 'select low' 00
tells 'exchange 05h, BIT MODIFY' 01 05
tells 'exchange 2Bh, address to BIT MODIFY' 01 2B
tells 'exchange 40h, mask to BIT MODIFY 2Bh' 01 40
tells 'exchange FFh, data to BIT MODIFY 2Bh' 01 FF # WAKIE
tells 'exchange 02h, past the instruction' 01 02
step 02
steps 02 0F 27 # Sleep
tells 'frame standard 123h, remote, DLC 9: woke' 03 02 09 00 00 00 01 23
tells 'select low' 00
tells 'exchange C0h, RESET' 01 C0
step 02; step 00
tells 'exchange 45h, LOAD TX BUFFER' 01 45
tells 'exchange 24h, WRITE to 56h' 01 24
step 02; step 00
tells 'exchange 46h, unknown instruction' 01 46
step 02; step 00
tells 'exchange 91h, unknown instruction' 01 91
step 02; step 00
tells 'exchange 87h, RTS' 01 87
step 02; step 00
tells 'exchange A0h, READ STATUS' 01 A0
tells 'exchange 00h, READ STATUS: reply 54h' 01 00
step 02; step 00
tells 'exchange B0h, RX STATUS' 01 B0
tells 'exchange 00h, RX STATUS: reply 00h' 01 00
step 02
tells 'frame standard 7FFh, DLC 0: not listening' 03 00 00 00 00 00 07 FF
tells 'bus idle: no buffer goes' 04
steps 02 60 60 # RXB0 takes any frame
steps 02 24 FF E0 # mask 1: filters 2 to 5 take 000h, filters 0 and 1 any standard frame
step 00
tells 'exchange 02h, WRITE' 01 02
tells 'exchange 0Fh, address to WRITE' 01 0F
tells 'exchange 07h, WRITE to 0Fh' 01 07 # Normal
step 02
tells 'bus idle: TXB2 goes' 04
tells 'receive error, adds 1: refused, an own frame is in flight' 06
tells 'request pin TX2RTS low' 08 02
tells 'frame standard 123h, DLC 0: refused, an own frame is in flight' 03 00 00 00 00 00 01 23
tells 'own frame ends, arbitration lost' 05 01
step 04
tells 'own frame ends, error' 05 02
step 04
tells 'own frame ends, sent' 05 00
tells 'bus idle: TXB1 goes' 04
step 05
tells 'bus idle: TXB0 goes' 04
step 05
tells 'own frame ends, sent: refused, no own frame is in flight' 05
tells 'frame extended 12345678h, DLC 2, data 01 02: in RXB0, no filter' 03 01 02 00 12 34 56 78 01 02
tells 'frame standard 123h, DLC 15, data 11 22 33 44 55 66 77 88: lost, filters 0 1' 03 00 0F 00 00 00 01 23 11 22 33 44 55 66 77 88
steps 02 60 00 # RXB0 takes standard frames,
steps 02 70 60 # RXB1 any
tells 'frame extended 12345678h, remote, DLC 9: in RXB1, no filter' 03 03 09 00 12 34 56 78
steps 02 70 00
tells 'frame extended 00000000h, DLC 8, data 00 00 00 00 00 00 00 00: no match' 03 01 08
step 00
tells 'exchange 96h, READ RX BUFFER' 01 96
tells 'exchange 00h, READ RX BUFFER of 76h: reply 00h' 01 00
step 02; step 00
tells 'exchange 90h, READ RX BUFFER' 01 90
tells 'exchange 00h, READ RX BUFFER of 61h: reply 91h' 01 00
step 02
tells 'receive error, adds 1' 06
tells 'receive error, adds 8' 06 01
tells 'unknown kind, bytes 2A 01 02 00 00 00 00 00 00 00 00 00 00 00 00 FF: refused, unknown kind, or a byte out of range' \
    2A 01 02 00 00 00 00 00 00 00 00 00 00 00 00 FF
tells 'frame, bytes 03 00 10 00 00 00 07 FF 01 00 00 00 00 00 00 00: refused, unknown kind, or a byte out of range' 03 00 10 00 00 00 07 FF 01
tells 'own frame ends, bytes 05 03 00 00 00 00 00 00 00 00 00 00 00 00 00 00: refused, unknown kind, or a byte out of range' 05 03
tells 'request pin, bytes 08 03 01 00 00 00 00 00 00 00 00 00 00 00 00 00: refused, unknown kind, or a byte out of range' 08 03 01
tells 'unknown kind, bytes 09 00 00 00 00 00 00 00 00 00 00 00 00 00 00 00: refused, unknown kind, or a byte out of range' 09
steps 02 0F 47 # Loopback
steps 81
step 04
tells 'own frame ends, error: refused, in Loopback an own frame is always sent' 05 02
tells 'own frame ends, sent: in RXB0, filters 0 1 2 3 4 5' 05
steps 02 32 08 # TXB0 has an extended frame
steps 81; step 04
tells 'own frame ends, sent: no match' 05
steps 02 70 60 # RXB1 takes any frame
steps 81; step 04
tells 'own frame ends, sent: in RXB1, no filter' 05
steps 81; step 04
tells 'own frame ends, sent: lost, no filter' 05

# the_told: of the lines of standard input those asked for, without the answers
the_told() {
    awk 'NR == FNR { asked[$1]; next } $1 in asked' "$work/told" - | sed 's/^\([0-9]*\) .* # /\1 /'
}

# all_told: what is told of told.log as the first log and as the second. Beside a log of
# records that are all refused each record has a line.
all_told() {
    local refused='bus-off recovery: refused, not bus-off'
    for _ in $(seq "$(($(stat -c %s "$work/told.log") / 16))"); do record 07; done >"$work/recoveries.log"
    compared 1 --words "$work/told.log" "$work/recoveries.log"
    sed "s/ | $refused\$//" "$work/out" | the_told >"$work/first"
    same "$work/told" "$work/first" "the words of the first log"
    compared 1 --words "$work/recoveries.log" "$work/told.log"
    sed "s/ # $refused | / # /" "$work/out" | the_told >"$work/second"
    same "$work/told" "$work/second" "the words of the second log"
}
all_told
say "compare --words: $(wc -l <"$work/told") records of all kinds, answers and refusals, in either log"

# What is the same in both is said once, what came of two records only where it differs.
{ record 00; record 04; record 01 40; record 03; session 02 0F 47; session 81; record 04; record 05; } >"$work/a.log"
{ record 04; record 04; record 01 20; record 03 01; session 02 0F 07; session 81; record 04; record 05; } >"$work/b.log"
compared 1 --words "$work/a.log" "$work/b.log"
cat >"$work/want" <<'END'
1 0 0 0 3 0 0 # select low | bus idle: no buffer goes
3 0 0 1 0 0 0 # exchange 40h, LOAD TX BUFFER | exchange 20h: refused, select is high
4 0 4 0 4 0 0 # frame standard 000h, DLC 0 | frame extended 00000000h, DLC 0
5 1 0 0 0 0 0 # select low: refused, select is low | taken
8 0 0 0 0 0 0 # exchange 47h, WRITE to 33h | exchange 07h, WRITE to 0Fh
13 0 3 0 0 0 0 # bus idle: no buffer goes | TXB0 goes
14 4 0 0 0 0 0 # own frame ends, sent: refused, no own frame is in flight | taken
END
same "$work/want" "$work/out" "words of two records"
say "compare --words: what both have is said once"

# ---- the samples and the README ----

mkdir "$work/samples"
"$root/samples/switchover.sh" "$work/samples" || stop "samples/switchover.sh"
for name in old new; do
    same "$root/samples/switchover-$name.log" "$work/samples/switchover-$name.log" "samples/switchover-$name.log as its script writes it"
done
compared 1 --words "$old" "$new"
[[ $'\n'$(cat "$root/README.md")$'\n' == *$'\n\n'"$(sed 's/^/    /' "$work/out")"$'\n\n'* ]] ||
    stop "README.md does not show what compare --words prints for the samples"
say "the samples are as their script writes them, and the README shows how they compare"
