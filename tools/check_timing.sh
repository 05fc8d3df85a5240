# The part of tools/check.sh on `mcp2515 timing`, which sources it: helpers and variables
# are from there. What a setting means is worked out here once more, from the data sheet.
# shellcheck shell=bash disable=SC2154

# prints STATUS ARGUMENT..: standard output is that of standard input, standard error is empty
prints() {
    local wanted=$1
    shift
    cat >"$work/want"
    run timing "$@"
    status "$wanted" $? "timing $*"
    same "$work/want" "$work/out" "timing $*"
    [ ! -s "$work/err" ] || stop "timing $*: $(cat "$work/err")"
}

# complains MESSAGE ARGUMENT..: status 2 and just this on standard error
complains() {
    local words=$1
    shift
    run timing "$@"
    status 2 $? "timing $*"
    echo "mcp2515: timing: $words" >"$work/want"
    same "$work/want" "$work/err" "the message of timing $*"
    [ ! -s "$work/out" ] || stop "timing $*: expected nothing on standard output"
}

# misused MESSAGE ARGUMENT..: the same, with where to read on
misused() {
    local words=$1
    shift
    complains "$words"$'\n'"Try 'mcp2515 timing --help'." "$@"
}

# ---- what is printed ----

prints 0 16M 500k <<'END'
CNF1 00h, CNF2 86h, CNF3 06h
prescaler     BRP 0: a quantum is 2 x (0 + 1) = 2 clocks
bit           16 quanta: SyncSeg 1, PropSeg 7, PS1 1, PS2 7
sample point  56.25 % (after 9 of 16 quanta)
jump width    1 quantum
bit rate      500000 bit/s
difference    0 = 16000000 - 500000 x 2 x 1 x 16
END
prints 0 16M 83.333k <<'END'
CNF1 03h, CNF2 B7h, CNF3 07h
prescaler     BRP 3: a quantum is 2 x (3 + 1) = 8 clocks
bit           24 quanta: SyncSeg 1, PropSeg 8, PS1 7, PS2 8
sample point  66.67 % (after 16 of 24 quanta)
jump width    1 quantum
bit rate      83333.333 bit/s, wanted 83333
difference    64 = 16000000 - 83333 x 2 x 4 x 24
END
prints 0 20M 666667 <<'END'
CNF1 00h, CNF2 85h, CNF3 06h
prescaler     BRP 0: a quantum is 2 x (0 + 1) = 2 clocks
bit           15 quanta: SyncSeg 1, PropSeg 6, PS1 1, PS2 7
sample point  53.33 % (after 8 of 15 quanta)
jump width    1 quantum
bit rate      666666.667 bit/s, wanted 666667
difference    -10 = 20000000 - 666667 x 2 x 1 x 15
END
say "timing of three pairs, to the letter"

# rates LINE ARGUMENT..: the line of the bit rate is this one
rates() {
    local line=$1
    shift
    run timing "$@"
    grep -qxF -- "bit rate      $line" "$work/out" || stop "timing $*: no bit rate $line in: $(cat "$work/out")"
}
rates '1000000 bit/s' 16000000 1M
rates '1000000.063 bit/s, wanted 1000000' 16000001 1M # .0625
rates '1000000.125 bit/s, wanted 1000000' 16000002 1M
rates '1000000.25 bit/s, wanted 1000000' 16000004 1M
rates '1000000.5 bit/s, wanted 1000000' 16000008 1M
rates '1000001 bit/s, wanted 1000000' 16000016 1M
rates '999999.938 bit/s, wanted 1000000' 15999999 1M  # .9375
rates '500000 bit/s, wanted 499999' 16M 499999
rates 'just above 5000 bit/s, wanted 5000' 16000001 5k # by 1 / 3200
rates 'just below 5000 bit/s, wanted 5000' 15999999 5k
rates '5000.001 bit/s, wanted 5000' 16000002 5k        # by 2 / 3200
rates '4999.999 bit/s, wanted 5000' 15999998 5k
rates '4999.05 bit/s, wanted 5000' --check 3F BF 07 15996960 5000
rates '0 bit/s, wanted 1' --check 3F BF 07 1 1
rates '536870911.875 bit/s, wanted 4294967295' --check 0 0 0 4294967295 4294967295
say "timing: true bit rates with no decimal to three, rounded, and those that no three decimals show"

# ---- no setting, refusals, ranges ----

# none OSCILLATOR RATE, in digits
none() {
    prints 1 "$@" <<END
none: with $1 Hz and $2 bit/s no sound setting has a difference within a thousandth of the oscillator
END
}
none 16000000 900000
none 8000000 1000000
none 40000000 5000
# The limit itself is within: 16000 of 16000000.
for rate in 499500 500500; do
    run timing 16M $rate
    status 0 $? "timing 16M $rate"
    grep -q '^difference    -\?16000 = ' "$work/out" || stop "timing 16M $rate: $(cat "$work/out")"
done
none 16000000 499499
none 16000000 500501
say "timing: pairs without a setting, and at the limit"

oscillator_range='refusal 12: the oscillator is outside 1,000,000 to 40,000,000 Hz'
rate_range='refusal 13: the bit rate is outside 5,000 to 1,000,000 bit/s'
for oscillator in 0 1 999999 40000001 40.000001M 4294967295; do
    for rate in 0 4999 5000 500k 1000000 1000001 4294967295; do
        complains "$oscillator_range" $oscillator $rate
    done
done
for rate in 0 1 4999 1000001 1.000001M 4294967295; do
    for oscillator in 1000000 16M 40000000; do
        complains "$rate_range" $oscillator $rate
    done
done
for edge in '1000000 5000 0' '40000000 5000 1' '1000000 1000000 1' '40000000 1000000 0'; do
    read -r oscillator rate wanted <<<"$edge"
    run timing "$oscillator" "$rate"
    status "$wanted" $? "timing $edge"
    [ ! -s "$work/err" ] || stop "timing $edge: $(cat "$work/err")"
done
say "timing: refusals 12 and 13 in this order, and the four corners of what is taken"

# ---- the second opinion on a setting ----

# decimal NUMBER PLACES: the number with its point moved, in $text
decimal() {
    printf -v text '%0*d' $(($2 + 1)) "$1"
    text=${text:0:-$2}.${text: -$2}
    while [[ $text == *0 ]]; do text=${text%0}; done
    text=${text%.}
}

declare -A met=([sound]=0 [BTLMODE]=0 [spare]=0 [PS2]=0 [sample]=0 [jump]=0 [quanta]=0 [several]=0)

# breaks RULE WORDS
breaks() {
    met[$1]=$((met[$1] + 1))
    broken+=("  $2")
}

# rules: those that the fields of means break, in $broken
rules() {
    local quanta_of_ps2=quanta
    [ "$ps2" -ne 1 ] || quanta_of_ps2=quantum
    broken=()
    [ $((cnf2 / 128)) -eq 1 ] || breaks BTLMODE 'BTLMODE (CNF2 bit 7) is clear'
    [ $((cnf3 / 8 % 8)) -eq 0 ] || breaks spare 'bits 5-3 of CNF3 are not clear'
    [ "$ps2" -ge 2 ] || breaks PS2 "PS2 is $ps2 $quanta_of_ps2; it has to be at least 2"
    [ $((prop_seg + ps1)) -ge "$ps2" ] ||
        breaks sample "PropSeg and PS1, $((prop_seg + ps1)) quanta, are shorter than PS2, $ps2"
    [ "$ps2" -gt "$sjw" ] || breaks jump "PS2 of $ps2 $quanta_of_ps2 is not longer than the jump width, $sjw"
    [ "$quanta" -ge 8 ] || breaks quanta "a bit has $quanta quanta; it has to have 8 to 25"
    [ ${#broken[@]} -lt 2 ] || met[several]=$((met[several] + 1))
    [ ${#broken[@]} -gt 0 ] || met[sound]=$((met[sound] + 1))
}

# means BYTE BYTE BYTE [OSCILLATOR RATE]: numbers; what --check owes, to want, its status in $owes
means() {
    local cnf1=$1 cnf2=$2 cnf3=$3 text clocks whole difference wanted=''
    local brp=$((cnf1 % 64)) sjw=$((cnf1 / 64 + 1)) prop_seg=$((cnf2 % 8 + 1)) ps1=$((cnf2 / 8 % 8 + 1))
    local ps2=$((cnf3 % 8 + 1)) quanta quanta_of_sjw=quanta
    quanta=$((1 + prop_seg + ps1 + ps2))
    [ "$sjw" -ne 1 ] || quanta_of_sjw=quantum
    rules
    owes=$((${#broken[@]} > 0))
    {
        printf 'CNF1 %02Xh, CNF2 %02Xh, CNF3 %02Xh\n' "$1" "$2" "$3"
        if [ $owes -eq 0 ]; then echo sound; else printf '%s\n' 'not sound' "${broken[@]}"; fi
        echo "prescaler     BRP $brp: a quantum is 2 x ($brp + 1) = $((2 * brp + 2)) clocks"
        echo "bit           $quanta quanta: SyncSeg 1, PropSeg $prop_seg, PS1 $ps1, PS2 $ps2"
        decimal $((((quanta - ps2) * 20000 + quanta) / (2 * quanta))) 2
        echo "sample point  $text % (after $((quanta - ps2)) of $quanta quanta)"
        echo "jump width    $sjw $quanta_of_sjw"
    } >"$work/want"
    [ $# -eq 5 ] || return 0
    clocks=$((2 * (brp + 1) * quanta))
    difference=$(($4 - $5 * clocks))
    whole=$(($4 / clocks))
    decimal $((whole * 1000 + ($4 % clocks * 2000 + clocks) / (2 * clocks))) 3
    [ $difference -eq 0 ] || wanted=", wanted $5"
    [ $difference -eq 0 ] || [ "$text" != "$5" ] || text="just $([ $difference -gt 0 ] && echo above || echo below) $text"
    printf '%s\n' "bit rate      $text bit/s$wanted" \
        "difference    $difference = $4 - $5 x 2 x $((brp + 1)) x $quanta" >>"$work/want"
}

# meets: standard output and the status are those of means
meets() {
    local got
    run timing "$@"
    got=$?
    status $owes $got "timing $*"
    same "$work/want" "$work/out" "timing $*"
    [ ! -s "$work/err" ] || stop "timing $*: $(cat "$work/err")"
}

# ---- each rule ----

# sound BYTE BYTE BYTE, unsound BYTE BYTE BYTE BROKEN..: all rules that are broken, and the status
sound() {
    run timing --check "$@"
    status 0 $? "timing --check $*"
    [ "$(sed -n 2p "$work/out")" = sound ] || stop "timing --check $*: $(cat "$work/out")"
    [ "$(wc -l <"$work/out")" -eq 6 ] || stop "timing --check $*: $(cat "$work/out")"
}
unsound() {
    local bytes=("${@:1:3}")
    shift 3
    run timing --check "${bytes[@]}"
    status 1 $? "timing --check ${bytes[*]}"
    printf '%s\n' 'not sound' "${@/#/  }" >"$work/want"
    sed '1d;/^prescaler /,$d' "$work/out" >"$work/rules"
    same "$work/want" "$work/rules" "the rules that ${bytes[*]} break"
}
sound 00 86 06
unsound 00 06 06 'BTLMODE (CNF2 bit 7) is clear'
for cnf3 in 0E 16 26 3E; do
    unsound 00 86 $cnf3 'bits 5-3 of CNF3 are not clear'
done
sound 00 86 C6 # SOF, WAKFIL
sound 00 C6 06 # SAM
unsound 3F BF 00 'PS2 is 1 quantum; it has to be at least 2' 'PS2 of 1 quantum is not longer than the jump width, 1'
sound 00 84 01
unsound 40 84 01 'PS2 of 2 quanta is not longer than the jump width, 2'
sound 40 83 02
unsound C0 BF 03 'PS2 of 4 quanta is not longer than the jump width, 4'
sound C0 BF 04
unsound 00 81 03 'PropSeg and PS1, 3 quanta, are shorter than PS2, 4'
unsound 00 90 07 'PropSeg and PS1, 4 quanta, are shorter than PS2, 8'
sound 00 89 03
unsound 00 82 01 'a bit has 7 quanta; it has to have 8 to 25'
unsound 00 80 01 'a bit has 5 quanta; it has to have 8 to 25'
sound 00 83 02
sound 00 BF 07 # 25 quanta
unsound FF 00 3A 'BTLMODE (CNF2 bit 7) is clear' 'bits 5-3 of CNF3 are not clear' \
    'PropSeg and PS1, 2 quanta, are shorter than PS2, 3' 'PS2 of 3 quanta is not longer than the jump width, 4' \
    'a bit has 6 quanta; it has to have 8 to 25'
unsound C0 00 08 'BTLMODE (CNF2 bit 7) is clear' 'bits 5-3 of CNF3 are not clear' \
    'PS2 is 1 quantum; it has to be at least 2' 'PS2 of 1 quantum is not longer than the jump width, 4' \
    'a bit has 4 quanta; it has to have 8 to 25'
say "timing --check: each rule at both of its sides, alone where it can be, and five together"

prints 1 --check 0xc0 81 03h 16M 500k <<'END'
CNF1 C0h, CNF2 81h, CNF3 03h
not sound
  PropSeg and PS1, 3 quanta, are shorter than PS2, 4
  PS2 of 4 quanta is not longer than the jump width, 4
prescaler     BRP 0: a quantum is 2 x (0 + 1) = 2 clocks
bit           8 quanta: SyncSeg 1, PropSeg 2, PS1 1, PS2 4
sample point  50 % (after 4 of 8 quanta)
jump width    4 quanta
bit rate      1000000 bit/s, wanted 500000
difference    8000000 = 16000000 - 500000 x 2 x 1 x 8
END
# How far the rate is off does not count for soundness.
for pair in '16000000 499500' '16000000 500500' '16000000 499499' '16000000 500501' '16000001 499500' \
    '15999999 500500' '1023 32' '1025 32' '991 31' '993 31' '32 1' '31 1' '33 1' '1 1' \
    '4294967295 134217727' '4294967295 4294967295' '1 4294967295' '4294967295 1'; do
    read -r oscillator rate <<<"$pair"
    run timing --check 00 86 06 "$oscillator" "$rate"
    status 0 $? "timing --check 00 86 06 $oscillator $rate"
    means 0x00 0x86 0x06 "$oscillator" "$rate"
    meets --check 00 86 06 "$oscillator" "$rate"
done
say "timing --check with oscillator and rate: exact, near, far off, the largest numbers"

# ---- all bytes, in every spelling ----

forms=(%x %X %02x %02X 0x%x 0x%X 0X%02x 0x%02X %xh %XH %02xH %02Xh)
spelled=0
for place in 0 1 2; do
    for ((byte = 0; byte < 256; byte++)); do
        values=(0x00 0x86 0x06) texts=(00 86 06)
        values[place]=$byte
        # shellcheck disable=SC2059
        printf -v "texts[place]" "${forms[(byte + byte / 12 + place) % 12]}" "$byte"
        means "${values[@]}"
        meets --check "${texts[@]}"
        spelled=$((spelled + 1))
    done
done
for form in "${forms[@]}"; do
    for byte in 0 9 10 15 171 255; do
        means "$byte" "$byte" "$byte" 8000000 125000
        # shellcheck disable=SC2059
        printf -v text "$form" "$byte"
        meets --check "$text" "$text" "$text" 8M 125k
        spelled=$((spelled + 1))
    done
done
for text in '' ' ' g G 100 086 000 0x 0X h H 0xh 0x6h 0X6H 86hh 86hH 0x086 0x100 086h x6 \$6 6x '8 6' ' 6' '6 ' +6 '6,' 6.0 \
    0x0x6 00x6 1x6 AX6 6h6 0x+6 0x-6 h6 - 6- $'6\n' $'\xb2' 1000000000000000000000000000000006; do
    misused "CNF1 '$text' is no byte in hex; 86, 0x86 and 86h are" --check "$text" 86 06
    misused "CNF2 '$text' is no byte in hex; 86, 0x86 and 86h are" --check 00 "$text" 06
    misused "CNF3 '$text' is no byte in hex; 86, 0x86 and 86h are" --check 00 86 "$text" 16M 500k
done
misused "CNF2 'x' is no byte in hex; 86, 0x86 and 86h are" --check 00 x y
misused "CNF3 'y' is no byte in hex; 86, 0x86 and 86h are" --check 00 86 y 16X 0
misused "CNF1 '-6' is no byte in hex; 86, 0x86 and 86h are" --check -- -6 86 06
say "timing --check: $spelled spellings of bytes in each place, and what is none"

# ---- every length of every segment ----

for ((n = 0; n < 512; n++)); do # all of PropSeg, PS1 and PS2
    cnf1=$((n * 37 % 256)) cnf2=$((128 + n % 64)) cnf3=$((n / 64))
    means $cnf1 $cnf2 $cnf3 $((n * 8388593 + 7)) $((n * 977 + 1))
    printf -v text '%x %X %x' $cnf1 $cnf2 $cnf3
    # shellcheck disable=SC2086
    meets --check $text $((n * 8388593 + 7)) $((n * 977 + 1))
done
for ((n = 1; n <= 256; n++)); do # anything
    three=$((n * 9699691 % 16777216))
    cnf1=$((three / 65536)) cnf2=$((three / 256 % 256)) cnf3=$((three % 256))
    oscillator=$((n * 7654321 % 4294967295 + 1)) rate=$((n * 123457 % 1000000 + 1))
    means $cnf1 $cnf2 $cnf3 $oscillator $rate
    printf -v text '%02X %02X %02X' $cnf1 $cnf2 $cnf3
    # shellcheck disable=SC2086
    meets --check $text $oscillator $rate
done
tally=''
for rule in sound BTLMODE spare PS2 sample jump quanta several; do
    [ "${met[$rule]}" -ge 40 ] || stop "$rule was met ${met[$rule]} times, too few to show something"
    tally+=" $rule ${met[$rule]},"
done
say "timing --check by a second opinion, how often each was met:${tally%,}"

# ---- numbers ----

# reads_as NUMBER TEXT: as oscillator and as rate
reads_as() {
    means 0x00 0x86 0x06 "$1" 7
    meets --check 00 86 06 "$2" 7
    means 0x00 0x86 0x06 7 "$1"
    meets --check 00 86 06 7 "$2"
}
for text in 16000000 16000k 16000K 16M 16.0M 16.000000M 16.0000000000000000000000M 016M 0000000000000000000000016M \
    16000.000k 16000000.0 16000000.000; do
    reads_as 16000000 "$text"
    run timing "$text" 500k
    cp "$work/out" "$work/first"
    run timing 16000000 500000
    same "$work/out" "$work/first" "timing $text 500k"
done
for text in 500000 500k 500K 0.5M 0.500M 0.500000M 500.000k 00500k; do
    reads_as 500000 "$text"
    run timing 16M "$text"
    cp "$work/out" "$work/first"
    run timing 16M 500000
    same "$work/out" "$work/first" "timing 16M $text"
done
reads_as 14745600 14.7456M
reads_as 83333 83.333k
reads_as 83333 0.083333M
reads_as 1 1
reads_as 1 0.001k
reads_as 1 0.000001M
reads_as 1 0.00000100M
reads_as 1234567 1.234567M
reads_as 100200300 100.2003M
reads_as 4294967295 4294967295
reads_as 4294967295 4294967.295k
reads_as 4294967295 4294.967295M
reads_as 4294000000 4294M

# no_number REASON TEXT: of either argument, in either form; the oscillator is named first
no_number() {
    misused "OSCILLATOR '$2' $1" "$2" 500k
    misused "RATE '$2' $1" 16M "$2"
    misused "OSCILLATOR '$2' $1" --check 00 86 06 "$2" "$2"
    misused "RATE '$2' $1" --check 00 86 06 16M "$2"
}
for text in '' ' ' M k K . .M '16 M' ' 16M' '16M ' +16M 16m 16MM 16Mk 16kM 16kk 16MHz 16Hz 16G 16g 16c .5M 5.M 5. .5 1..5M \
    1.5.5M 1,5M 16,000,000 16_000 1e6 1E6 0x10 16h F nan inf 1/2 - 1- 1+1 1.M5 1M5 1M.5 $'16M\n' $'\t1' $'\xb2'; do
    no_number 'is no number; 500000, 500k and 0.5M are' "$text"
done
for text in 0.5 1.5 500000.1 83.3333k 14.74560001M 0.0000001M 0.0005k 1.0000000000000000000000001M 4294967295.5 0.1; do
    no_number 'is no whole number' "$text"
done
for text in 4294967296 4294967296.0 4294967.296k 4294967.296K 4294.967296M 5000M 4295M 4294968k 18446744073709551616 18446744073709551617 \
    18446744073709551615 340282366920938463463374607431768211457 99999999999999999999999999999999999999M 18446744073709.551617M; do
    no_number 'is above 4294967295' "$text"
done
for text in 0 0k 0.0M 000; do
    complains "$oscillator_range" $text 500k
    complains "$rate_range" 16M $text
    misused "OSCILLATOR '$text' is below 1" --check 00 86 06 $text 500k
    misused "RATE '$text' is below 1" --check 00 86 06 16M $text
done
misused "OSCILLATOR '16X' is no number; 500000, 500k and 0.5M are" 16X 500X
misused "OSCILLATOR '-16M' is no number; 500000, 500k and 0.5M are" -- -16M 500k
misused "RATE '-1' is no number; 500000, 500k and 0.5M are" -- 16M -1
misused "RATE '--' is no number; 500000, 500k and 0.5M are" -- 16M --
say "timing: spellings of numbers, what is none, not whole, too large or 0"

# ---- plans, which are sound by --check and mean the same there ----

# The bytes are those that a search through all settings by another program finds.
while read -r oscillator rate cnf1 cnf2 cnf3; do
    run timing "$oscillator" "$rate"
    status 0 $? "timing $oscillator $rate"
    means "0x$cnf1" "0x$cnf2" "0x$cnf3" "$oscillator" "$rate"
    [ $owes -eq 0 ] || stop "the bytes for $oscillator $rate are not sound"
    sed 2d "$work/want" >"$work/planned"
    same "$work/planned" "$work/out" "the plan of $oscillator $rate"
done <<'END'
16000000 500000 00 86 06
16000000 1000000 00 82 02
16000000 250000 01 86 06
16000000 125000 03 86 06
16000000 33333 09 B7 07
8000000 500000 00 82 02
8000000 95238 01 9F 07
24000000 1000000 00 84 04
10000000 20000 09 BF 07
14745600 115200 03 86 06
40000000 1000000 00 97 07
1000000 5000 03 BF 07
16000001 5000 3F BF 07
32000000 100000 07 97 07
25000000 500000 00 BF 07
1000000 62501 00 82 02
40000000 999999 00 97 07
16000000 499500 00 86 06
END
planned=0 nothing=0
for oscillator in 4M 8M 10M 12M 14.7456M 16M 20M 24M 40M; do
    for rate in 5k 10k 20k 33.333k 47.619k 83333 95.238k 100k 125k 250k 500k 800k 1M; do
        run timing $oscillator $rate
        got=$?
        [ ! -s "$work/err" ] || stop "timing $oscillator $rate: $(cat "$work/err")"
        if [ $got -eq 1 ]; then
            grep -q '^none: ' "$work/out" || stop "timing $oscillator $rate: status 1 with $(cat "$work/out")"
            nothing=$((nothing + 1))
            continue
        fi
        status 0 $got "timing $oscillator $rate"
        read -r bytes < <(sed -n '1s/CNF[123] \|,//gp' "$work/out")
        sed '1a sound' "$work/out" >"$work/want"
        owes=0
        # shellcheck disable=SC2086
        meets --check $bytes $oscillator $rate
        head -n 6 "$work/want" >"$work/first"
        # shellcheck disable=SC2086
        run timing --check $bytes
        status 0 $? "timing --check $bytes"
        same "$work/first" "$work/out" "timing --check $bytes without oscillator and rate"
        planned=$((planned + 1))
    done
done
[ $planned -ge 50 ] || stop "$planned plans, too few to show something"
[ $nothing -ge 10 ] || stop "$nothing pairs without a setting, too few to show something"
say "timing: 18 plans to the letter; $planned plans are sound by --check and mean the same there, $nothing pairs have none"

# ---- arguments and output ----

needs='needs OSCILLATOR RATE, or --check CNF1 CNF2 CNF3 [OSCILLATOR RATE]'
for bad in '' '16M' '00 86 06' '16M 500k 16M 500k' '00 86 06 16M 500k' '--check' '--check 00' '--check 16M 500k' \
    '--check 00 86 06 16M' '--' '-- 16M' '--check --' '-- --check 00 86'; do
    # shellcheck disable=SC2086
    misused "$needs" $bad
done
misused "one argument too many, '1'" --check 00 86 06 16M 500k 1
misused "one argument too many, '6'" 1 2 3 4 5 6
for bad in --checks --check=1 --chec -c --limit --words -1 -16M; do
    misused "unknown option '$bad'" 16M 500k $bad
    misused "unknown option '$bad'" --check 00 $bad 06
done
run timing 16M 500k
cp "$work/out" "$work/want"
owes=0
meets -- 16M 500k
meets 16M -- 500k
means 0x00 0x06 0x06 16000000 500000
for arguments in '--check 00 06 06 16M 500k' '00 06 06 16M 500k --check' '00 06 --check 06 16M 500k' \
    '--check -- 00 06 06 16M 500k' '--check --check 00 06 06 16M 500k' '--check 00 06 06 -- 16M 500k'; do
    # shellcheck disable=SC2086
    meets $arguments
done
say "timing: too few and too many arguments, unknown options, --check and -- in any place"

for arguments in '--help' '--check --help' '16M --help' 'x --help'; do
    # shellcheck disable=SC2086
    run timing $arguments
    status 0 $? "timing $arguments"
    [ ! -s "$work/err" ] || stop "timing $arguments: $(cat "$work/err")"
    for line in '^usage: mcp2515 timing .*OSCILLATOR RATE$' '^  *mcp2515 timing --check .*CNF1 CNF2 CNF3 \[OSCILLATOR RATE\]$' \
        '1,000,000 to 40,000,000 Hz' '5,000 to 1,000,000 bit/s' '^  --check ' '16M' '500k' '0x86' '86h' \
        '^Exit status: 0; 1 .* 2 for$'; do
        grep -q -- "$line" "$work/out" || stop "timing $arguments: nothing like '$line'"
    done
done
run --help
grep -q '^  timing   .*CNF1, CNF2 and CNF3' "$work/out" || stop "--help does not name timing"
grep -q 'no setting for a bit rate' "$work/out" || stop "--help does not say when timing has status 1"
for arguments in '16M 500k' '16M 900k' '--check 00 86 06' '--check 00 06 06' '--check 00 86 06 16M 900k' '--help'; do
    # shellcheck disable=SC2086
    "$tool" timing $arguments >/dev/full 2>"$work/err"
    status 2 $? "timing $arguments to a full device"
    echo 'mcp2515: standard output: No space left on device' | cmp -s - "$work/err" ||
        stop "timing $arguments to a full device: $(cat "$work/err")"
    # shellcheck disable=SC2086
    "$tool" timing $arguments >&- 2>"$work/err"
    status 2 $? "timing $arguments to a closed output"
    echo 'mcp2515: standard output: Bad file descriptor' | cmp -s - "$work/err" ||
        stop "timing $arguments to a closed output: $(cat "$work/err")"
done
say "timing: --help, a full device and a closed output for a plan, none, sound and not sound"

# ---- the README ----

# Each command that it has for timing, and what that prints below it.
shown=0
while read -r arguments; do
    # shellcheck disable=SC2086
    run timing $arguments
    [[ $'\n'$(cat "$root/README.md")$'\n' == *$'\n\n    build/mcp2515 timing '"$arguments"$'\n\nprints'*$'\n\n'"$(sed 's/^/    /' "$work/out")"$'\n\n'* ]] ||
        stop "README.md does not show what timing $arguments prints: $(cat "$work/out" "$work/err")"
    shown=$((shown + 1))
done < <(sed -n 's/^    build\/mcp2515 timing //p' "$root/README.md")
[ $shown -eq 2 ] || stop "README.md has $shown commands for timing"
say "the README's plan and check, as its commands print them"
