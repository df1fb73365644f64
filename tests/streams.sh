#!/bin/sh
# How `settle_day` takes its input and ends: from a file, from a pipe, in parts, with nothing in it, and far too long.
# $SETTLE_DAY names the program; where nothing is given it is the one that tests/engine.sh builds.
set -eu
cd "$(dirname "$0")/.."
engine=${SETTLE_DAY:-$(tests/engine.sh)}
work=$(mktemp -d)
trap 'rm -rf "$work"' EXIT

fail() { printf 'streams: %s\n' "$1" >&2; exit 1; }

# Runs the program on the standard input that it is given, and keeps its status; a run that does not end is stopped.
settle() {
    status=0
    timeout 20 "$engine" >"$work/text" 2>"$work/said" || status=$?
    echo "$status" >"$work/status"
}

# The last run printed the text of the file $2, and ended with 0.
printed() {
    [ "$(cat "$work/status")" = 0 ] || fail "$1: the program ended with $(cat "$work/status")"
    cmp -s "$work/text" "$2" || { diff "$2" "$work/text" >&2 || :; fail "$1: this is not the text"; }
    [ ! -s "$work/said" ] || fail "$1: the program wrote to standard error"
    echo "streams: $1"
    rm "$work/status" "$work/text"
}

# The last run ended with 1, and so by itself.
failed() {
    [ "$(cat "$work/status")" = 1 ] || fail "$1: the program ended with $(cat "$work/status")"
    echo "streams: $1, status 1"
    rm "$work/status"
}

day=days/worked.day
cp crates/settle_day/stdout "$work/worked"
printf 'refusal 1 file member - currency - place 0\n' >"$work/length"
printf 'refusal 3 file member - currency - place 0\n' >"$work/form"
: >"$work/nothing"

settle <"$day"
printed "a file" "$work/worked"
cat "$day" | settle
printed "a pipe" "$work/worked"
# The reader waits for the rest: a part ends within the counts, within a record and before the last byte.
{
    for part in '0 3' '3 40' '43 128' '171 1'; do
        # shellcheck disable=SC2086
        set -- $part
        dd if="$day" bs=1 skip="$1" count="$2" 2>/dev/null
        sleep 0.2
    done
} | settle
printed "a pipe that delivers the file in four parts" "$work/worked"
dd if="$day" bs=1 2>/dev/null | settle
printed "a pipe that delivers the file byte by byte" "$work/worked"

# A hundred steps that each set the hour to 9, in one packet: a read with less room than the packet would lose the rest.
out=target/streams
mkdir -p "$out"
if [ ! -x "$out/packets" ] || [ -n "$(find tests/packets.rs -newer "$out/packets")" ]; then
    rustc -O --edition 2024 -o "$out/packets" tests/packets.rs
fi
printf '\0\0\0\0\0\0\144\0' >"$work/clocks.day"
place=0
while [ "$place" -lt 100 ]; do
    printf '\2\0\0\11\0\0\0\0' >>"$work/clocks.day"
    printf 'refusal 17 session member - currency - place %d\n' "$place" >>"$work/clocks"
    place=$((place + 1))
done
status=0
timeout 20 "$out/packets" "$engine" "$work/clocks.day" >"$work/text" 2>"$work/said" || status=$?
echo "$status" >"$work/status"
printed "one packet of 808 bytes" "$work/clocks"

settle </dev/null
printed "an empty input" "$work/length"
: | settle
printed "an empty pipe" "$work/length"
head -c 7 /dev/zero | settle
printed "seven bytes" "$work/length"
head -c 8 /dev/zero | settle
printed "eight zero bytes" "$work/nothing"
head -c 40000 /dev/zero | settle
printed "the longest input that is read for its counts" "$work/form"
head -c 40001 /dev/zero | settle
printed "one byte more" "$work/length"

# What is left unread of an input that is far too long: all but 40,001 bytes, in a file and in a pipe.
head -c 10000000 /dev/zero >"$work/long"
{ settle; wc -c >"$work/left"; } <"$work/long"
printed "a file of 10,000,000 bytes" "$work/length"
[ "$(cat "$work/left")" -eq 9959999 ] || fail "of the long file $(cat "$work/left") bytes are left"
cat "$work/long" | { settle; wc -c >"$work/left"; }
printed "a pipe of 10,000,000 bytes" "$work/length"
[ "$(cat "$work/left")" -eq 9959999 ] || fail "of the long pipe $(cat "$work/left") bytes are left"
# A writer that finds its reader gone is ended by the system; that is its own affair.
{ cat /dev/zero 2>/dev/null || :; } | settle
printed "a pipe that does not end" "$work/length"

# Reading and writing that fail.
settle <&-
failed "no input at all"
settle <"$work"
failed "a folder as input"
status=0
timeout 20 "$engine" <"$day" >/dev/full 2>/dev/null || status=$?
echo "$status" >"$work/status"
failed "an output that is full"
