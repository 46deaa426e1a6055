#!/bin/bash
# Builds everything and tests it: unit tests; the worked case of FORMATS.md, sections 6 and 7; the curve examples of
# REFUSALS.md, sections 5 and 6; streaming and failures; generated feeds. Fails on any difference.
#
# usage: selftest.sh [SEEDS]     SEEDS: how many seeds of each kind of generated feed are run (default 40)
set -u
sources=$(cd "$(dirname "$0")" && pwd)
seeds=${1:-40}
work=$(mktemp -d)
trap 'rm -rf "$work"' EXIT
passed=0
failed=0

pass() { passed=$((passed + 1)); }

fail() {
    failed=$((failed + 1))
    echo "FAILED: $1"
}

section() { echo "$1: $((passed - before)) passed"; before=$passed; }
before=0

# --- Build -----------------------------------------------------------------------------------------------------------

echo "building"
"$sources/build.sh" "$work/bin" || exit 1
settle=$work/bin/settle
generate=$work/bin/generate
# A second build that aborts on overflow and on any breach of the ledger's balance.
rustc --edition 2021 -D warnings -C opt-level=2 -C debug-assertions=on -C overflow-checks=on \
    -o "$work/bin/settle_checked" "$sources/settle.rs" || exit 1
rustc --edition 2021 -D warnings --test -o "$work/bin/unit_tests" "$sources/settle.rs" || exit 1

if "$work/bin/unit_tests" -q > "$work/unit.txt" 2>&1; then
    pass
else
    cat "$work/unit.txt"
    fail "unit tests"
fi
section "unit tests ($(grep -o '[0-9]* passed' "$work/unit.txt"))"

# --- Bytes -----------------------------------------------------------------------------------------------------------

cd "$work" || exit 1
mkdir case && cd case || exit 1

# Bytes from hexadecimal pairs.
bytes() {
    local pair
    for pair in "$@"; do printf "\\x$pair"; done
}

# Bytes from the lines of a dump as the documents print it: an offset, pairs, and perhaps a remark after three blanks.
dump() { bytes $(sed -e 's/^[0-9a-f]* *//' -e 's/   .*//'); }

# Little-endian numbers of two and of four bytes.
u16() {
    local n
    for n in "$@"; do bytes $(printf '%02x %02x' $((n & 255)) $((n >> 8 & 255))); done
}
u32() {
    local n
    for n in "$@"; do
        bytes $(printf '%02x %02x %02x %02x' $((n & 255)) $((n >> 8 & 255)) $((n >> 16 & 255)) $((n >> 24 & 255)))
    done
}

# check NAME [LINE..]: runs the statement program on the files `feed` and `curves.bin`; expects these lines.
check() {
    local name=$1
    shift
    : > expected
    [ $# -eq 0 ] || printf '%s\n' "$@" > expected
    local program
    for program in "$settle" "$work/bin/settle_checked"; do
        if "$program" < feed > got 2> errors && cmp -s expected got && [ ! -s errors ]; then
            pass
        else
            fail "$name"
            diff expected got | head -5
        fi
    done
}

# --- The worked case -------------------------------------------------------------------------------------------------

dump > case_curves <<'END'
0000  0f 00 04 00 00 00 00 00 00 00 00 00 00 00 00 00
0010  00 00 00 00 00 00 00 00 00 00 00 00 00 00 00 00
0020  4e 25 00 00 96 19 00 00 b8 0b 00 00 00 00 00 00   margins 9,550 6,550 3,000 0
0030  f8 24 01 00 20 4e 00 00 10 27 00 00 c4 09 00 00   prices 75,000 20,000 10,000 2,500
END
dump > case_feed <<'END'
0000  01 00 00 00 00 07 00 00 00 00 00 01 00 e8 03 00
0010  00 0a 00 00 00
0015  02 00 00 00 00 09 00 00 00
001e  03 00 00 00 00 05 00 00 00
0027  04 0f 00 01 00 2c 01 00 00 00 00 00 00 00 00 00
0037  00 00 00 00 00 00 00 00 00 00 00 00 00 00 00 00
0047  00 00 00 00 00 00 00 00 00 00 00 00 00 00 00 00
0057  00 00 00 00 00 00 00 00 00 00 00 00 00 00 00 00
0067  00 64 00 00 00 00 00 00 00 00 00 00 00 00 00 00
0077  00 00 00 00 00 00 00 00 00 00 00 00 00 00 00 00
0087  00 00 00 00 00 00 00 00 00 00 00 00 00 00 00 00
0097  00 00 00 00 00 00 00 00 00 00 00 00 00 07 00 00
00a7  00 00 00 00 00 00 00 00 00 00 00 00 00 00 00 00
00b7  00 64 00 00 00
00bc  05 0f 00 01 00 10 0e 00 00 90 01 00 00 00 00 00
00cc  00 00 00 00 00 00 00 00 00 00 00 00 00 00 00 00
00dc  00 00 00 00 00 00 00 00 00 00 00 00 00 00 00 00
00ec  00 00 00 00 00 00 00 00 00 00 00 00 00 00 00 00
00fc  00 00 00 00 00 64 00 00 00 00 00 00 00 00 00 00
010c  00 00 00 00 00 00 00 00 00 00 00 00 00 00 00 00
011c  00 00 00 00 00 00 00 00 00 00 00 00 00 00 00 00
012c  00 00 00 00 00 00 00 00 00 00 00 00 00 00 00 00
013c  00 07 00 00 00 00 00 00 00 00 00 00 00 00 00 00
014c  00 00 00 00 00 5a 00 00 00
0155  06 00 00 01 00 09 00 00 00 32 00 00 00 00 00 00
0165  00 00 00 00 00
END

# The same records, made from their figures. Of the lists, all but the first number is 0.
first_of_15() { u32 "$1" 0 0 0 0 0 0 0 0 0 0 0 0 0 0; }
market() { first_of_15 "$1"; first_of_15 "$2"; u32 7 0 0 0 0 "$3"; }
enrolments() { bytes 01 00 00 00 00; u32 7; u16 0 1; u32 1000 10; bytes 02 00 00 00 00; u32 9; }
open_hour() { bytes 03 00 00 00 00; u32 "$1"; }
clear() { bytes 04 0f 00 01 00; market "$1" "$2" "$3"; }                  # SP1, target, thirty
interval() { bytes 05 0f 00 01 00; u32 "$1"; market "$2" "$3" "$4"; }     # seconds, SP1, target, thirty
close_hour() { bytes 06 00 00 01 00; u32 9 "$1" "$2" "$3"; }              # gross, station power, exports
opening() { enrolments; open_hour 5; }
clearing() { clear 300 100 100; }
whole_interval() { interval 3600 400 100 90; }
closing() { close_hour 50 0 0; }
same() { opening; clearing; whole_interval; closing; }

[ "$(wc -c < case_curves)" -eq 64 ] && [ "$(wc -c < case_feed)" -eq 362 ] && pass || fail "lengths of the case"
same | cmp -s - case_feed && pass || fail "the case made from its figures"
cp case_curves curves.bin
result=("P 5 7 2600" "C 5 9 2600" "K 5 0")

cp case_feed feed
check "the case" "${result[@]}"

{
    same
    open_hour 6; clear 0 120 120; interval 300 650 120 100; interval 3300 0 120 100; close_hour 50 0 0
    open_hour 7; clear 0 120 100; interval 1200 10 120 101; interval 2400 0 120 100; close_hour 60 4 6
} > feed
check "two more hours" "${result[@]}" "P 6 7 -109" "C 6 9 -109" "K 6 24000" "P 7 7 1" "C 7 9 1" "K 7 0"
"$settle" --held held < feed > with_held && cmp -s expected with_held &&
    printf '%s\n' "H 5 0" "H 6 24000" "H 7 0" | cmp -s - held && pass || fail "held grains after each closing"

: > feed
check "an empty feed"
head -c 341 case_feed > feed
check "cut after 341 bytes"
for length in $(seq 342 361); do
    head -c "$length" case_feed > feed
    check "cut after $length bytes" "R 1 341"
done
{ head -c 30 case_feed; bytes 08; tail -c +32 case_feed; } > feed
check "byte 30 is 8" "R 2 30"
{ head -c 40 case_feed; bytes 00; tail -c +42 case_feed; } > feed
check "byte 40 is 0" "R 3 39"
{ opening; clear 2501 100 100; clearing; whole_interval; closing; } > feed
check "a clearing with SP1 2,501 before" "R 36 39" "${result[@]}"
{ opening; clear 300 100 201; whole_interval; closing; } > feed
check "the clearing with thirty 201" "R 33 39" "R 4 188" "R 4 341"
{ opening; whole_interval; closing; } > feed
check "the clearing left out" "R 4 39" "R 4 192"
{ opening; clearing; closing; } > feed
check "the interval left out" "R 42 188"
{ opening; clearing; for d in 3300 301 300; do interval $d 400 100 90; done; closing; } > feed
check "intervals of 3,300, 301 and 300 seconds" "R 41 341" "${result[@]}"
{ same; closing; } > feed
check "the closing a second time" "${result[@]}" "R 4 362"
{ same; open_hour 5; } > feed
check "hour 5 again" "${result[@]}" "R 21 362"
cp case_feed feed
head -c 63 case_curves > curves.bin
check "curves.bin without its last byte" "R 51 0"
: > curves.bin
check "curves.bin empty" "R 51 0"
{ u16 14 4 0 0 0 0 0 0 0 0 0 0 0 0 0; tail -c 32 case_curves; } > curves.bin
check "curves.bin of 14 curves" "R 34 39" "R 4 188" "R 4 341"
section "FORMATS.md, sections 6 and 7"

# --- Curves (REFUSALS.md, sections 5 and 6) --------------------------------------------------------------------------

: > feed
refused="R 51 0"

# curve NAME "MARGINS" "PRICES" [LINE]: these steps as the only curve, and as each of fifteen.
curve() {
    local name="curve: $1" margins=($2) prices=($3) place i
    shift 3
    { u16 1 ${#margins[@]}; u32 "${margins[@]}"; u32 "${prices[@]}"; } > curves.bin
    check "$name, alone" "$@"
    for place in 0 7 14; do
        {
            u16 15
            for i in $(seq 0 14); do u16 $((i == place ? ${#margins[@]} : 0)); done
            u32 "${margins[@]}"
            u32 "${prices[@]}"
        } > curves.bin
        check "$name, at $place of fifteen" "$@"
    done
}
curve "none" "" ""
curve "0" "0" "1"
curve "5" "5" "10" "$refused"
curve "10, 5" "10 5" "20 10" "$refused"
curve "10, 10, 0" "10 10 0" "30 20 10" "$refused"
curve "prices 20, 20" "10 0" "20 20" "$refused"
curve "0, 0" "0 0" "20 10" "$refused"
curve "prices 100001, 0" "10 0" "100001 0" "$refused"
curve "nine that fall" "8 7 6 5 4 3 2 1 0" "9 8 7 6 5 4 3 2 1" "$refused"
curve "nine, wrong at the eighth" "8 7 6 5 4 3 2 2 0" "9 8 7 6 5 4 3 2 1" "$refused"
curve "eight that fall" "7 6 5 4 3 2 1 0" "8 7 6 5 4 3 2 1"
curve "highest" "1000000 0" "100000 1"
curve "margin too high" "1000001 0" "100000 1" "$refused"

file() {
    local name="file: $1"
    cat > curves.bin
    shift
    check "$name" "$@"
}
file "no byte" "$refused" < /dev/null
bytes 0f | file "one byte" "$refused"
bytes 00 00 | file "00 00" "$refused"
u16 33 | file "count 33, then nothing" "$refused"
u16 33 $(yes 0 | head -33) | file "count 33, empty curves" "$refused"
{ u16 33; tail -c +3 case_curves; } | file "count 33, then the case's" "$refused"
u16 15 | file "count 15, then nothing" "$refused"
bytes 01 00 01 00 00 00 00 00 01 00 00 | file "7 bytes after the counts" "$refused"
bytes 01 00 01 00 00 00 00 00 01 00 00 00 | file "8 bytes after the counts"
bytes 01 00 01 00 00 00 00 00 01 00 00 00 00 | file "9 bytes after the counts" "$refused"
{ u16 2 0 1; u32 5 10; } | file "count 2, curve 1 wrong" "$refused"
u16 32 $(yes 0 | head -32) | file "count 32, empty curves"
u16 65535 | file "count 65,535" "$refused"
{ u16 1 65535; head -c 524280 /dev/zero; } | file "65,535 steps" "$refused"
section "REFUSALS.md, sections 5 and 6"

# --- Streaming, failures ---------------------------------------------------------------------------------------------

cp case_curves curves.bin

# A closing's lines are there before the feed goes on or ends.
mkfifo pipe
"$settle" < pipe > streamed &
child=$!
exec 3> pipe
cat case_feed >&3
for _ in $(seq 100); do
    [ "$(wc -l < streamed)" -eq 3 ] && break
    sleep 0.05
done
printf '%s\n' "${result[@]}" | cmp -s - streamed && pass || fail "lines as the feed arrives"
closing >&3
exec 3>&-
wait "$child" && pass || fail "status after a streamed feed"
printf '%s\n' "${result[@]}" "R 4 362" | cmp -s - streamed && pass || fail "end of a streamed feed"

# failure NAME COMMAND..: expects status 1 and a message.
failure() {
    local name=$1
    shift
    "$@" 2> errors
    [ $? -eq 1 ] && [ -s errors ] && pass || fail "$name"
}
without_curves() { (mkdir -p bare && cd bare && "$settle" < ../case_feed > ../got); }
failure "no curves.bin" without_curves
[ ! -s got ] && pass || fail "no line without curves.bin"
folder_as_curves() { (mkdir -p odd/curves.bin && cd odd && "$settle" < ../case_feed > ../got); }
failure "curves.bin is a folder" folder_as_curves
folder_as_feed() { "$settle" < . > got; }
failure "the feed is a folder" folder_as_feed
[ ! -s got ] && pass || fail "no line of a feed that cannot be read"
if [ -e /dev/full ]; then
    no_room() { "$settle" < case_feed > /dev/full; }
    failure "no room for the statement" no_room
fi
section "streaming and failures"

# --- Generated feeds -------------------------------------------------------------------------------------------------

# Both builds, and the feed arriving in small pieces, give the same statement.
same_statement() {
    "$settle" < feed > got && "$work/bin/settle_checked" < feed > checked && cmp -s got checked &&
        dd bs=613 status=none < feed 2> errors | "$settle" > pieces && cmp -s got pieces
}
: > met
for kind in valid mixed cut noise; do
    for seed in $(seq "$seeds"); do
        if [ $kind = noise ]; then
            "$generate" "$seed" --kind $kind --curves . > feed
        else
            "$generate" "$seed" --kind $kind --curves . --expect expected > feed
        fi
        same_statement && pass || fail "$kind $seed: builds differ"
        grep '^R' got > refusals
        [ $kind = noise ] || { cmp -s expected refusals && pass || fail "$kind $seed: refusals not as expected"; }
        cut -d ' ' -f 2 refusals >> met
    done
    section "generated: $kind"
done
for seed in 1 2 3; do
    "$generate" $seed --kind valid --hours 60 --suppliers 128 --customers 256 --curves . --expect expected > feed
    same_statement && [ ! -s expected ] && ! grep -q '^R' got && [ "$(grep -c '^K' got)" -eq 60 ] &&
        pass || fail "large house $seed"
done
for size in "1 1" "16 8" "128 256"; do
    "$generate" 4 --kind year --hours 30 --suppliers "${size% *}" --customers "${size#* }" --curves . > feed
    same_statement && ! grep -q '^R' got && [ "$(grep -c '^K' got)" -eq 30 ] &&
        [ "$(grep -c '^P' got)" -eq $((30 * ${size% *})) ] && pass || fail "year of $size"
done
"$generate" 7 --kind mixed > feed
"$generate" 7 --kind mixed | cmp -s - feed && pass || fail "the same seed gives the same feed"
if [ "$seeds" -ge 40 ]; then
    for number in 1 2 3 4 11 12 13 21 31 32 33 34 35 36 41 42 43 44 51; do
        grep -qx $number met && pass || fail "no feed met refusal $number"
    done
fi
section "generated: large houses, coverage"

echo "$passed passed, $failed failed"
[ "$failed" -eq 0 ]
