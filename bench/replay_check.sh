#!/bin/sh
# Runs a replay program on every log of a directory, by file argument and by
# standard input, and compares what it prints with the second model's text.
#
#   replay_check.sh replay expected logs work [stdin-argument]
#
# A program that reads standard input only under a name (such as -) has this
# name given as the last argument.
set -u
replay=$1 expected=$2 logs=$3 work=$4 stdin_argument=${5-}

stop() {
    echo "replay check: $*" >&2
    exit 1
}

# Status 126 and above: not started, or ended by a signal.
check_run() {
    [ "$2" -lt 126 ] || stop "$1: ended with status $2"
    cmp "$work/want" "$work/got" || stop "$1: expected $work/want, got $work/got"
}

[ -x "$replay" ] || stop "no program at '$replay' (set REPLAY)"
mkdir -p "$work" || exit 1

for log in "$logs"/*.log; do
    "$expected" "$log" >"$work/want" || stop "$expected failed on $log"

    "$replay" "$log" >"$work/got"
    check_run "$log by file" $?

    "$replay" $stdin_argument <"$log" >"$work/got"
    check_run "$log by standard input" $?

    # Pieces of 1,000 bytes: reads that do not end with a record.
    dd if="$log" bs=1000 2>/dev/null | "$replay" $stdin_argument >"$work/got"
    check_run "$log by a pipe" $?
done

printf '1 0 0\n2 0 0\n3 0 0\n4 0 128\n5 0 0\n' >"$work/want"
"$replay" "$logs/five.log" >"$work/got"
check_run "the five-record example" $?

cp "$(dirname "$0")/sets.want" "$work/want" || exit 1
"$replay" "$logs/sets.log" >"$work/got"
check_run "frames with their sets" $?

# A log that gives nothing: no line, a message, and the status that is wanted.
check_failure() {
    "$replay" "$2" >"$work/got" 2>"$work/message"
    status=$?
    [ "$status" -eq "$3" ] || stop "$1: expected status $3, got $status"
    [ ! -s "$work/got" ] || stop "$1: expected nothing on standard output"
    [ -s "$work/message" ] || stop "$1: expected a message on standard error"
}

check_failure "a file that is not there" "$work/no-such.log" 1
check_failure "a directory" "$work" 1
# This one opens, and its first byte cannot be read.
check_failure "a file that cannot be read" /proc/self/mem 1
check_failure "a name that is not text" "$(printf '%s/\377' "$work")" 1
if [ -c /dev/full ]; then
    "$replay" "$logs/five.log" 2>"$work/message" >/dev/full
    [ $? -eq 1 ] || stop "a full device: expected status 1"
    grep -q '^standard output: ' "$work/message" || stop "a full device: expected a message"
fi

# Options: - is standard input, -- ends the options, and anything else that starts with a dash is refused.
"$expected" "$logs/five.log" >"$work/want"
"$replay" - <"$logs/five.log" >"$work/got"
check_run "a dash for standard input" $?
"$replay" -- "$logs/five.log" >"$work/got"
check_run "a name behind --" $?
"$replay" -- <"$logs/five.log" >"$work/got"
check_run "-- and no name" $?
"$replay" --help >"$work/got" 2>"$work/message"
grep -q '^usage: ' "$work/got" || stop "--help: expected the usage on standard output"
check_failure "an unknown option" --no-such-option 0

# Input that pauses inside the second record: the first line comes before the rest of the log.
(head -c 20 "$logs/five.log"; sleep 2; tail -c +21 "$logs/five.log") | "$replay" >"$work/got" &
pid=$!
sleep 1
printf '1 0 0\n' | cmp - "$work/got" || stop "a pause: expected the line of the first record at once"
wait "$pid"
check_run "a log in two parts" $?

echo "replay check: $(ls "$logs"/*.log | wc -l) logs agree"
