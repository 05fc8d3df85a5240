# The part of tools/check.sh on `mcp2515 profile`, and on the profiles and output files of
# `mcp2515 load`, which sources it: helpers and variables are from there. The text of a
# profile is worked out here once more, from the data sheet and from include/mcp2515.h.
# shellcheck shell=bash disable=SC2154

# says STATUS ARGUMENT..: standard output is that of standard input, standard error is empty
says() {
    local wanted=$1
    shift
    cat >"$work/want"
    run "$@"
    status "$wanted" $? "$*"
    same "$work/want" "$work/out" "$*: $(cat "$work/out" "$work/err")"
    [ ! -s "$work/err" ] || stop "$*: $(cat "$work/err")"
}

# refuses MESSAGE ARGUMENT..: status 2, just this on standard error, nothing on standard output
refuses() {
    local words=$1
    shift
    run "$@"
    status 2 $? "$*"
    echo "mcp2515: $words" >"$work/want"
    same "$work/want" "$work/err" "the message of $*: $(cat "$work/err")"
    [ ! -s "$work/out" ] || stop "$*: expected nothing on standard output"
}

# misuses MESSAGE COMMAND ARGUMENT..: the same, with where to read on
misuses() {
    refuses "$2: $1"$'\n'"Try 'mcp2515 $2 --help'." "${@:2}"
}

# no_parts DIRECTORY: nothing half written is left there
no_parts() {
    [ -z "$(find "$1" -name '*.part')" ] || stop "left: $(find "$1" -name '*.part')"
}

# raw BYTE..: bytes, given in hexadecimal
raw() {
    local given
    printf -v given '\\x%s' "$@"
    printf '%b' "$given"
}

# ---- a profile as text, and its bytes ----

sample=$root/samples/profile.txt
raw 40 00 00 00 41 00 00 00 91 A8 56 78 91 A8 56 79 91 A8 56 7A 60 00 01 00 \
    FF E0 00 00 FF E3 FF FF 04 00 >"$work/sample.bin"
run profile "$sample" "$work/made.bin"
status 0 $? "profile of the sample"
[ -z "$(cat "$work/out" "$work/err")" ] || stop "profile with OUT prints: $(cat "$work/out" "$work/err")"
same "$work/sample.bin" "$work/made.bin" "the bytes of samples/profile.txt"
for file in "$sample" "$work/sample.bin"; do
    says 0 profile "$file" <<'END'
filter 0 0x200
filter 1 0x208
filter 2 0x12345678
filter 3 0x12345679
filter 4 0x1234567A
filter 5 0x300 data 0x01 0x00
mask 0 0x7FF
mask 1 0x1FFFFFFF
rxb0 filters bukt
rxb1 filters
END
done
say "profile of the sample: its bytes, and as text from text and from bytes"

# draw N: 0 to N - 1 in $drawn, always the same row of numbers
seed=2515
draw() {
    seed=$(((seed * 1103515245 + 12345) % 2147483648))
    drawn=$((seed / 65536 % $1))
}

declare -A shown_forms=()

# meet NAME
meet() {
    shown_forms[$1]=$((${shown_forms[$1]:-0} + 1))
}

# identifier_line NAME PLACE EXTENDED: the line that four of $bytes are owed
identifier_line() {
    local sidh=${bytes[$2]} sidl=${bytes[$2 + 1]} eid8=${bytes[$2 + 2]} eid0=${bytes[$2 + 3]} form=standard
    if [ "$3" -ne 0 ]; then
        meet extended
        printf '%s 0x%08X\n' "$1" $((sidh << 21 | sidl >> 5 << 18 | (sidl & 3) << 16 | eid8 << 8 | eid0))
        return
    fi
    printf '%s 0x%03X' "$1" $((sidh * 8 + sidl / 32))
    if [ $((eid8 + eid0)) -ne 0 ]; then
        printf ' data 0x%02X 0x%02X' "$eid8" "$eid0"
        form=data
    fi
    if [ $((sidl % 4)) -ne 0 ]; then
        printf ' eid17-16 0x%X' $((sidl % 4))
        form+=+eid17-16
    fi
    meet $form
    echo
}

# text_of: the text that $bytes are owed
text_of() {
    local n rxm=(filters reserved-01 reserved-10 any) extended=() first second bukt=''
    for n in 0 1 2 3 4 5; do
        extended[n]=$((bytes[4 * n + 1] / 8 % 2))
        identifier_line "filter $n" $((4 * n)) "${extended[n]}"
    done
    first=$((extended[0] + extended[1])) second=$((extended[2] + extended[3] + extended[4] + extended[5]))
    [ $first -ne 1 ] || meet mixed
    identifier_line 'mask 0' 24 $first
    identifier_line 'mask 1' 28 $second
    [ $((bytes[32] / 4 % 2)) -eq 0 ] || bukt=' bukt'
    echo "rxb0 ${rxm[bytes[32] / 32]}$bukt"
    echo "rxb1 ${rxm[bytes[33] / 32]}"
    meet "rxb0 ${rxm[bytes[32] / 32]}$bukt"
    meet "rxb1 ${rxm[bytes[33] / 32]}"
}

# writable PLACE: the bits of a profile's byte that may be set, by include/mcp2515.h
writable() {
    case $1 in
    1 | 5 | 9 | 13 | 17 | 21) bits=0xEB ;;
    25 | 29) bits=0xE3 ;;
    32) bits=0x64 ;;
    33) bits=0x60 ;;
    *) bits=0xFF ;;
    esac
}

# hex_of: $bytes in two digits each
hex_of() {
    printf '%02X ' "${bytes[@]}"
}

# reads_back: $bytes are shown as they are owed, and what is shown gives the same bytes
reads_back() {
    # shellcheck disable=SC2046
    raw $(hex_of) >"$work/raw.bin"
    text_of >"$work/want"
    run profile "$work/raw.bin"
    status 0 $? "profile of $(hex_of)"
    same "$work/want" "$work/out" "the text of $(hex_of)"
    cp "$work/out" "$work/text"
    run profile "$work/text" "$work/back.bin"
    status 0 $? "profile of the text of $(hex_of): $(cat "$work/err")"
    same "$work/raw.bin" "$work/back.bin" "the text of $(hex_of) read back"
}

profiles=0
for ((n = 0; n < 250; n++)); do
    bytes=()
    draw 4
    few=$drawn # in every fourth profile most bytes are 0
    for ((place = 0; place < 34; place++)); do
        writable $place
        draw 256
        bytes[place]=$((drawn & bits))
        draw 4
        [ "$few" -ne 0 ] || [ "$drawn" -eq 0 ] || bytes[place]=$((bytes[place] & 0x08 & bits))
        [ "$few" -ne 1 ] || [ $((place % 4)) -ne 1 ] || bytes[place]=$((bytes[place] & 0xE3)) # no EXIDE
    done
    reads_back
    profiles=$((profiles + 1))
done
for byte in 0x00 0xFF 0xAA 0x55; do
    for ((place = 0; place < 34; place++)); do
        writable $place
        bytes[place]=$((byte & bits))
    done
    reads_back
    profiles=$((profiles + 1))
done
tally=''
for form in standard data standard+eid17-16 data+eid17-16 extended mixed 'rxb0 filters' 'rxb0 filters bukt' \
    'rxb0 any' 'rxb0 any bukt' 'rxb0 reserved-01' 'rxb0 reserved-01 bukt' 'rxb0 reserved-10' 'rxb0 reserved-10 bukt' \
    'rxb1 filters' 'rxb1 any' 'rxb1 reserved-01' 'rxb1 reserved-10'; do
    [ "${shown_forms[$form]:-0}" -ge 10 ] || stop "'$form' was shown ${shown_forms[$form]:-0} times, too few"
    tally+=" $form ${shown_forms[$form]},"
done
say "profile: $profiles profiles as text by a second opinion, and read back; how often each form was shown:${tally%,}"

# ---- bits that are not writable ----

names=()
for n in 0 1 2 3 4 5; do names+=("RXF${n}SIDH" "RXF${n}SIDL" "RXF${n}EID8" "RXF${n}EID0"); done
for n in 0 1; do names+=("RXM${n}SIDH" "RXM${n}SIDL" "RXM${n}EID8" "RXM${n}EID0"); done
names+=(RXB0CTRL RXB1CTRL)

# unwritable NAME: for each of $bytes that has refusal 10 a line with the file's name, without its start
unwritable() {
    local place bits line=''
    for ((place = 0; place < 34; place++)); do
        writable $place
        [ $((bytes[place] & ~bits)) -ne 0 ] || continue
        printf '%smcp2515: %s: refusal 10: byte %d (%s): %02Xh has bits that are not writable, %02Xh' "$line" \
            "$1" $place "${names[place]}" "${bytes[place]}" $((bytes[place] & ~bits))
        line=$'\n'
    done
}

# For each bit of each byte the profile that has just this one set.
echo old >"$work/kept.bin"
sound=0 unsound=0
for ((place = 0; place < 34; place++)); do
    writable $place
    for ((bit = 1; bit < 256; bit *= 2)); do
        mapfile -t bytes < <(yes 0 | head -n 34)
        bytes[place]=$bit
        if [ $((bit & bits)) -ne 0 ]; then
            reads_back
            sound=$((sound + 1))
            continue
        fi
        # shellcheck disable=SC2046
        raw $(hex_of) >"$work/raw.bin"
        words=$(unwritable "$work/raw.bin")
        refuses "${words#mcp2515: }" profile "$work/raw.bin"
        refuses "${words#mcp2515: }" profile "$work/raw.bin" "$work/kept.bin"
        refuses "${words#mcp2515: }" load "$work/raw.bin" --record "$work/kept.bin"
        unsound=$((unsound + 1))
    done
done
[ "$(cat "$work/kept.bin")" = old ] || stop "a refused profile changes OUT"
[ "$sound $unsound" = '243 29' ] || stop "$sound single bits are writable, $unsound are not"
mapfile -t bytes < <(yes 255 | head -n 34)
# shellcheck disable=SC2046
raw $(hex_of) >"$work/ones.bin"
words=$(unwritable "$work/ones.bin")
[ "$(wc -l <<<"$words")" -eq 10 ] || stop "ten bytes have bits that are not writable"
refuses "${words#mcp2515: }" profile "$work/ones.bin"
refuses "${words#mcp2515: }" load "$work/ones.bin"
words=$(unwritable 'standard input')
refuses "${words#mcp2515: }" profile - <"$work/ones.bin"
bytes[32]=0x66
[[ $(unwritable x) == *'byte 32 (RXB0CTRL): 66h has bits that are not writable, 02h'* ]] || stop "the names of bytes"
say "profile and load: each of the 272 bits alone, $sound read back, $unsound have refusal 10; all bits at once"

# ---- text that is wrong ----

grep -v '^#' "$sample" >"$work/good.txt"

# bad_line MESSAGE LINE..: behind the lines of a good profile, without those that the first of these sets
bad_line() {
    local words=$1 setting
    shift
    read -r -a setting <<<"${1,,}"
    case ${setting[0]-} in
    filter | mask) grep -v "^${setting[0]} ${setting[1]-}" "$work/good.txt" ;;
    rxb*) grep -v "^${setting[0]}" "$work/good.txt" ;;
    *) cat "$work/good.txt" ;;
    esac >"$work/bad.txt"
    local line=$(($(wc -l <"$work/bad.txt") + 1))
    printf '%s\n' "$@" >>"$work/bad.txt"
    refuses "$work/bad.txt:$line: $words" profile "$work/bad.txt"
    refuses "$work/bad.txt:$line: $words" profile "$work/bad.txt" "$work/kept.bin"
    refuses "$work/bad.txt:$line: $words" load "$work/bad.txt" --record "$work/kept.bin"
    refuses "$work/bad.txt:$line: $words" profile "$work/bad.txt" "$work/new.bin"
    tried_lines=$((tried_lines + 1))
}
tried_lines=0
for word in filters Filter0 filter: masks rxb rxb2 RXB00 bukt any 0x123 = '"filter"' 'filter,'; do
    bad_line "'$word' is no setting; filter, mask, rxb0 and rxb1 are" "$word 0 0x123"
done
for number in '' 6 7 9 -1 00 01 0x0 a 0: 10; do
    bad_line 'filter needs a number, 0 to 5' "filter $number"
done
for number in '' 2 5 -1 00 a 11; do
    bad_line 'mask needs a number, 0 to 1' "MASK $number"
done
bad_line 'filter 3 needs an identifier' 'filter 3'
bad_line 'mask 1 needs an identifier' 'mask 1 # 0x7FF'
for word in 123 0x 0X h H x123 0x12g 0xx1 0x1h 0x-1 -0x1 +0x1 1.0h 123hh '0x123,' 0b1 any standard 2047 12345678 \$123; do
    bad_line "'$word' is no identifier; 0x123 and 123h are" "filter 4 $word"
    bad_line "'$word' is no identifier; 0x123 and 123h are" "mask 0 $word"
done
for word in 0x800 0xFFF 800h FFFH 0XaBc; do
    bad_line "'$word' is above 0x7FF" "filter 0 $word"
    bad_line "'$word' is above 0x7FF" "mask 1 $word"
done
for word in 0x20000000 0xFFFFFFFF 20000000h FFFFFFFFH 0X80000000; do
    bad_line "'$word' is above 0x1FFFFFFF" "filter 5 $word"
    bad_line "'$word' is above 0x1FFFFFFF" "mask 1 $word"
done
for word in 0x0123 0x12345 12345h 0x123456 1234567h 0x1FFFFFF 0x000000123 000000000H 0x11111111111111111111111111111111111111; do
    digits=${word//[xXhH]/}
    [[ $word != 0x* ]] || digits=${digits#0}
    bad_line "'$word' has ${#digits} digits; 1 to 3 are standard, 8 are extended" "filter 2 $word"
    bad_line "'$word' has ${#digits} digits; 1 to 3 are standard, 8 are extended" "mask 0 $word"
done
for behind in 'data' 'data 0x01' 'data 0x01 # 0x02'; do
    bad_line 'data needs two bytes' "filter 0 0x123 $behind"
    bad_line 'data needs two bytes' "mask 0 0x123 $behind"
done
for word in 1 0x100 100h 0x001 0x 0xG eid17-16 '0x1,'; do
    bad_line "'$word' is no byte; 0x5A and 5Ah are" "filter 0 0x123 data $word 0x00"
    bad_line "'$word' is no byte; 0x5A and 5Ah are" "filter 0 0x123 data 0x00 $word"
    bad_line "'$word' is no byte; 0x5A and 5Ah are" "mask 1 0x123 eid17-16 $word"
done
bad_line 'eid17-16 needs 0x0 to 0x3' 'filter 0 0x123 data 0x00 0x00 eid17-16'
for word in 0x4 4h 0xFF 80h; do
    bad_line "'$word' is above 0x3" "filter 0 0x123 eid17-16 $word"
done
for behind in 'data 0x00 0x00' data 'eid17-16 0x0' 'DATA 0x01 0x02 eid17-16 0x3'; do
    bad_line '8 digits are all bits; data and eid17-16 go with 1 to 3 digits' "filter 0 0x00000123 $behind"
    bad_line '8 digits are all bits; data and eid17-16 go with 1 to 3 digits' "mask 1 12345678h $behind"
done
for behind in 0x456 bukt 'data 0x00 0x00 0x00' 'eid17-16 0x0 data 0x00 0x00' 'data 0x00 0x00 data 0x00 0x00' \
    'data 0x00 0x00 eid17-16 0x1 eid17-16 0x1' 'data 0x00 0x00 eid17-16 0x1 2 3 4 5 6 7 8 9 10' 'eid 0x0' /data; do
    case $behind in
    'data 0x00 0x00 0x00') word=0x00 ;;
    'eid17-16 0x0 data '*) word=data ;;
    'data 0x00 0x00 data '*) word=data ;;
    *'eid17-16 0x1 eid17-16 0x1') word=eid17-16 ;;
    *' 10') word=2 ;;
    *) word=${behind%% *} ;;
    esac
    bad_line "'$word' is not understood here" "filter 0 0x123 $behind"
done
bad_line "'0x1' is not understood here" 'filter 0 0x12345678 0x1'
bad_line "'mask' is not understood here" 'filter 0 0x123 mask 0 0x7FF'
bad_line 'rxb0 needs filters or any' 'rxb0'
bad_line 'rxb1 needs filters or any' 'RXB1 #'
for word in 00 0 3 11 filter all reserved reserved-00 reserved-11 01 bukt; do
    bad_line "'$word' is no RXM; filters, any, reserved-01 and reserved-10 are" "rxb0 $word"
    bad_line "'$word' is no RXM; filters, any, reserved-01 and reserved-10 are" "rxb1 $word"
done
bad_line 'bukt goes with rxb0 only' 'rxb1 filters bukt'
bad_line 'bukt goes with rxb0 only' 'rxb1 any BUKT'
bad_line "'any' is not understood here" 'rxb0 filters any'
bad_line "'bukt' is not understood here" 'rxb0 filters bukt bukt'
bad_line "'0' is not understood here" 'rxb1 any 0'
[ ! -e "$work/new.bin" ] || stop "a wrong text leaves a file"
[ "$(cat "$work/kept.bin")" = old ] || stop "a wrong text changes OUT"
say "profile and load: $tried_lines lines that are wrong, each by file, line and reason; OUT is neither made nor changed"

# In any place the first wrong line is told; settings that come twice name the first.
for setting in 'filter 0' 'filter 5' 'mask 0' 'mask 1' rxb0 rxb1; do
    first=$(grep -n "^$setting" "$work/good.txt" | cut -d : -f 1)
    { cat "$work/good.txt"; echo; grep "^$setting" "$work/good.txt"; echo nonsense; } >"$work/twice.txt"
    refuses "$work/twice.txt:12: $setting is given twice, first in line $first" profile "$work/twice.txt"
done
settings=('filter 0' 'filter 1' 'filter 2' 'filter 3' 'filter 4' 'filter 5' 'mask 0' 'mask 1' rxb0 rxb1)
for setting in "${settings[@]}"; do
    grep -v "^$setting" "$work/good.txt" >"$work/less.txt"
    refuses "$work/less.txt: missing: $setting" profile "$work/less.txt"
    refuses "$work/less.txt: missing: $setting" load "$work/less.txt"
done
printf -v all '%s, ' "${settings[@]}"
: >"$work/empty.txt"
refuses "$work/empty.txt: missing: ${all%, }" profile "$work/empty.txt"
echo '# nothing' | refuses "standard input: missing: ${all%, }" profile - || exit 1
grep -v -e '^filter 2' -e '^mask 1' -e '^rxb1' "$work/good.txt" >"$work/less.txt"
refuses "$work/less.txt: missing: filter 2, mask 1, rxb1" profile "$work/less.txt"
say "profile: settings that come twice or are missing, each of the ten, several, all"

# Bytes that are no text: a raw profile of a wrong length, mostly.
for length in 1 33 35 68; do
    head -c $length "$work/ones.bin" >"$work/cut.bin"
    [ $length -lt 35 ] || cat "$work/ones.bin" "$work/ones.bin" | head -c $length >"$work/cut.bin"
    refuses "$work/cut.bin:1: byte FFh is no text, and a raw profile is 34 bytes" profile "$work/cut.bin"
    refuses "$work/cut.bin:1: byte FFh is no text, and a raw profile is 34 bytes" load "$work/cut.bin"
done
for byte in 00 01 07 08 0B 0C 0E 1B 1F 7F 80 EF FF; do
    { echo '#'; echo "filter 0 0x$(raw $byte)123"; cat "$work/good.txt"; } >"$work/strange.txt" 2>/dev/null
    [ $byte != 00 ] || { echo '#'; printf 'filter 0\0'; } >"$work/strange.txt"
    refuses "$work/strange.txt:2: byte ${byte}h is no text, and a raw profile is 34 bytes" profile "$work/strange.txt"
done
{ cat "$work/good.txt"; printf '# \033[1m\n'; } >"$work/strange.txt"
refuses "$work/strange.txt:11: byte 1Bh is no text, and a raw profile is 34 bytes" profile "$work/strange.txt"
long='is too long for a profile, which is 34 raw bytes, or text of at most 65,536'
{ cat "$work/good.txt"; yes '#' | head -c 65536; } | head -c 65536 >"$work/long.txt"
run profile "$work/long.txt" "$work/back.bin"
status 0 $? "profile of a text of 65,536 bytes"
same "$work/sample.bin" "$work/back.bin" "a text of 65,536 bytes"
echo >>"$work/long.txt"
refuses "$work/long.txt: $long" profile "$work/long.txt"
refuses "/dev/zero: $long" load /dev/zero
say "profile: bytes that are no text, raw profiles of a wrong length, text that is too long"

# ---- text that is right ----

# gives: the text of standard input has the bytes of the sample
gives() {
    cat >"$work/text"
    run profile "$work/text" "$work/back.bin"
    status 0 $? "$1: $(cat "$work/err")"
    same "$work/sample.bin" "$work/back.bin" "$1"
}
gives 'settings in the other order' < <(tac "$work/good.txt")
gives 'CR and LF' < <(sed 's/$/\r/' "$work/good.txt")
gives 'tabs, spaces, blank lines' < <(sed 's/ /\t  /g;s/^/ \t/;s/$/ \t/;G' "$work/good.txt")
gives 'no newline at the end' < <(printf %s "$(cat "$work/good.txt")")
gives 'capitals' < <(tr '[:lower:]' '[:upper:]' <"$work/good.txt")
gives 'an h behind digits' < <(sed 's/0x\([0-9A-F]*\)/\1h/g' "$work/good.txt")
gives 'small digits and an H' < <(sed 's/0x\([0-9A-F]*\)/\L\1H/g' "$work/good.txt")
gives 'comments in any language' < <(sed 's/#.*//;s/$/ #\xc3\xa9 # rxb0 \xff/;i # filter 0 0x7FF' "$work/good.txt")
gives 'zeros that are 0 all the same' < <(sed 's/^filter 0 .*/& data 0x0 0h eid17-16 0x00/;s/^mask 0 .*/& eid17-16 0h/' "$work/good.txt")
gives 'the mask of a standard filter as 29 bits' < <(sed 's/^mask 0 .*/mask 0 0x1FFC0000/' "$work/good.txt")
gives 'the mask of extended filters as a standard one' < <(sed 's/^mask 1 .*/mask 1 0x7FF data 0xFF 0xFF eid17-16 0x3/' "$work/good.txt")
sed 's/^filter 0 .*/filter 0 0x5/;s/^filter 1 .*/filter 1 0x00000005/;s/^filter 2 .*/filter 2 0x0/;s/^filter 3 .*/filter 3 0h/' \
    "$work/good.txt" >"$work/text"
run profile "$work/text"
status 0 $? "profile of short identifiers"
for line in 'filter 0 0x005' 'filter 1 0x00000005' 'filter 2 0x000' 'filter 3 0x000'; do
    grep -qxF "$line" "$work/out" || stop "profile of short identifiers: no line '$line' in: $(cat "$work/out")"
done
say "profile: order, spaces, line ends, capitals, comments, spellings of numbers"

# ---- files of profile ----

refuses "$work/none.txt: No such file or directory" profile "$work/none.txt"
refuses "$work/none.txt: No such file or directory" profile "$work/none.txt" "$work/new.bin"
refuses "$work: Is a directory" profile "$work" "$work/new.bin"
refuses "/proc/self/mem: Input/output error" profile /proc/self/mem "$work/new.bin"
refuses 'standard input: Bad file descriptor' profile - "$work/new.bin" <&-
[ ! -e "$work/new.bin" ] || stop "a profile that cannot be read leaves a file"
for size in 1 7 1000; do
    for file in "$work/good.txt" "$work/sample.bin"; do
        dd if="$file" bs=$size 2>/dev/null | "$tool" profile - "$work/piped.bin" || stop "profile of standard input"
        same "$work/sample.bin" "$work/piped.bin" "profile of standard input in pieces of $size bytes"
        rm "$work/piped.bin"
    done
done
"$tool" profile - - <"$work/good.txt" >"$work/piped.bin" || stop "profile - -"
same "$work/sample.bin" "$work/piped.bin" "profile - -"
# Devices are named by links of our own: a tool that replaced what it should write would spoil only these.
mkdir "$work/profiles"
for device in stdout full null; do ln -s /dev/$device "$work/profiles/$device"; done
"$tool" profile "$work/good.txt" "$work/profiles/stdout" >"$work/piped.bin" || stop "profile to /dev/stdout"
same "$work/sample.bin" "$work/piped.bin" "profile to /dev/stdout"
"$tool" profile "$work/good.txt" "$work/profiles/stdout" | cat >"$work/piped.bin"
same "$work/sample.bin" "$work/piped.bin" "profile to /dev/stdout, a pipe"
mkfifo "$work/profiles/pipe"
timeout 10 cat "$work/profiles/pipe" >"$work/piped.bin" &
timeout 10 "$tool" profile "$work/good.txt" "$work/profiles/pipe" || stop "profile to a pipe"
wait $!
same "$work/sample.bin" "$work/piped.bin" "profile to a pipe"
[ -p "$work/profiles/pipe" ] || stop "profile replaces a pipe"
cp "$work/good.txt" "$work/profiles/--help"
(cd "$work/profiles" && "$tool_path" profile -- --help -x) || stop "profile -- --help -x"
same "$work/sample.bin" "$work/profiles/-x" "profile -- --help -x"
say "profile of what cannot be read, of standard input in pieces, to standard output, after --"

# The file that is read is no place for the bytes, by whatever name.
cp "$work/good.txt" "$work/both.txt"
ln "$work/both.txt" "$work/hard.txt"
ln -s both.txt "$work/soft.txt"
for out in "$work/both.txt" "$work/../${work##*/}/both.txt" "$work/hard.txt" "$work/soft.txt"; do
    misuses "OUT '$out' is the file that is read" profile "$work/both.txt" "$out"
    misuses "OUT '$out' is the file that is read" profile "$work/soft.txt" "$out"
    misuses "OUT '$out' is the file that is read" profile - "$out" <"$work/both.txt"
    misuses "--record '$out' is a file that is read" load "$work/both.txt" --record "$out"
    misuses "--record '$out' is a file that is read" load "$sample" --chip "$work/both.txt" --record "$out"
    misuses "--record '$out' is a file that is read" load "$sample" --events "$work/hard.txt" --record "$out"
    misuses "--record '$out' is a file that is read" load "$sample" --chip - --record "$out" <"$work/both.txt"
done
same "$work/good.txt" "$work/both.txt" "a file that is read and named as OUT"
rm "$work/both.txt" "$work/hard.txt" "$work/soft.txt"
run load "$sample" --chip /dev/null --events /dev/null --record "$work/profiles/null"
status 0 $? "load that reads and records /dev/null"
say "profile and load: OUT must not be a file that is read"

# A file that is there keeps its rights and, where it is a link, what it leads to is written.
echo old >"$work/there.bin" && chmod 640 "$work/there.bin"
run profile "$sample" "$work/there.bin"
status 0 $? "profile over a file"
same "$work/sample.bin" "$work/there.bin" "profile over a file"
[ "$(stat -c %a "$work/there.bin")" = 640 ] || stop "profile over a file changes its rights"
(umask 027 && "$tool" profile "$sample" "$work/fresh.bin")
[ "$(stat -c %a "$work/fresh.bin")" = 640 ] || stop "a new file has the rights $(stat -c %a "$work/fresh.bin")"
echo old >"$work/there.bin" && ln -s there.bin "$work/link.bin"
run profile "$sample" "$work/link.bin"
status 0 $? "profile to a link"
same "$work/sample.bin" "$work/there.bin" "profile to a link"
[ -L "$work/link.bin" ] || stop "profile to a link replaces it"
no_parts "$work"

# spoils MESSAGE OUT: neither profile nor load can write there
spoils() {
    refuses "$2: $1" profile "$sample" "$2"
    refuses "$2: $1" load "$sample" --record "$2"
}
spoils 'No such file or directory' "$work/none/out.bin"
spoils 'No such file or directory' "$work/none/"
spoils 'Not a directory' "$work/there.bin/out.bin"
spoils 'Is a directory' "$work/profiles"
spoils 'No space left on device' "$work/profiles/full"
for device in stdout full null; do
    [ -L "$work/profiles/$device" ] || stop "the link to /dev/$device is replaced"
done
(cd "$work" && "$tool_path" profile "$sample" '' 2>"$work/err")
status 2 $? "profile to a file without a name"
[ "$(cat "$work/err")" = 'mcp2515: : No such file or directory' ] || stop "a file without a name: $(cat "$work/err")"
no_parts "$work"
echo old >"$work/there.bin"
# Files may not grow here: what was there stays, and nothing is left of the attempt.
for out in there.bin absent.bin; do
    for arguments in "profile $sample" "load $sample --record"; do
        # shellcheck disable=SC2086
        words=$(ulimit -f 0; trap '' XFSZ; "$tool" $arguments "$work/$out" 2>&1)
        status 2 $? "$arguments $out, a file that cannot grow"
        [ "$words" = "mcp2515: $work/$out: File too large" ] || stop "a file that cannot grow: $words"
    done
done
[ "$(cat "$work/there.bin")" = old ] || stop "a file that cannot grow is changed"
[ ! -e "$work/absent.bin" ] || stop "a file that cannot grow is made"
no_parts "$work"
# shellcheck disable=SC2016
(cd "$work" && bash -c 'echo >"mcp2515-$$.part"; exec "$0" profile "$1" there.bin' "$tool_path" "$sample" 2>"$work/err")
status 2 $? "profile beside a file with the name of the part"
grep -q '^mcp2515: mcp2515-[0-9]*\.part: File exists$' "$work/err" || stop "the part exists: $(cat "$work/err")"
[ "$(cat "$work/there.bin")" = old ] || stop "OUT is changed where the part exists"
rm "$work"/mcp2515-*.part
# Rights count only for those who are not root.
chmod 755 "$work" && mkdir "$work/shut" && echo old >"$work/shut/out.bin" && chmod 444 "$work/shut/out.bin" && chmod 777 "$work/shut"
cp "$tool_path" "$work/tool" && cp "$sample" "$work/shut/profile.txt" && chmod 755 "$work/tool"
unprivileged=()
[ "$(id -u)" -ne 0 ] || unprivileged=(setpriv --reuid=65534 --clear-groups)
if "${unprivileged[@]}" true 2>/dev/null; then
    "${unprivileged[@]}" "$work/tool" profile "$work/shut/profile.txt" "$work/shut/out.bin" >"$work/out" 2>"$work/err"
    status 2 $? "profile over a file that may not be written"
    message "profile over a file that may not be written" "^mcp2515: $work/shut/out.bin: Permission denied\$"
    chmod 555 "$work/shut"
    "${unprivileged[@]}" "$work/tool" profile "$work/shut/profile.txt" "$work/shut/new.bin" >"$work/out" 2>"$work/err"
    status 2 $? "profile into a directory that may not be written"
    message "profile into a directory that may not be written" "^mcp2515: $work/shut/new.bin: Permission denied\$"
    [ "$(cat "$work/shut/out.bin")" = old ] || stop "a file that may not be written is changed"
    say "profile and load to places that cannot be written: what was there stays, nothing is left half written"
else
    say "profile and load to places that cannot be written; without rights: SKIPPED, there is no setpriv"
fi
for arguments in "profile $sample" "profile $sample -" "profile --help" "load $sample" "load --help" \
    "load $sample --chip $root/samples/waiting.log"; do
    # shellcheck disable=SC2086
    "$tool" $arguments >/dev/full 2>"$work/err"
    status 2 $? "$arguments to a full device"
    echo 'mcp2515: standard output: No space left on device' | cmp -s - "$work/err" ||
        stop "$arguments to a full device: $(cat "$work/err")"
    # shellcheck disable=SC2086
    "$tool" $arguments >&- 2>"$work/err"
    status 2 $? "$arguments to a closed output"
    echo 'mcp2515: standard output: Bad file descriptor' | cmp -s - "$work/err" ||
        stop "$arguments to a closed output: $(cat "$work/err")"
done
# What is printed does not get into a file that is opened where standard output was.
"$tool" load "$sample" --record "$work/beside.log" >&- 2>"$work/err"
status 2 $? "load --record with a closed output"
"$tool" load "$sample" --record "$work/open.log" >/dev/null || stop "load --record"
same "$work/open.log" "$work/beside.log" "load --record with a closed output"
say "profile and load: a full device and a closed output"
