#!/bin/sh
# How many instructions `settle_day` executes on full days, beside two programs in plain Rust: `run.sh [SEED]`, seed 1
# where nothing is given. `plain` is tests/reference/main.rs, `direct` the same with direct.patch. All must print the
# same text for each day, or it ends with 1. It needs rustc, patch and valgrind. $SETTLE_DAY names another program than
# the one that tests/engine.sh builds.
set -eu
cd "$(dirname "$0")/.."
seed=${1:-1}
engine=${SETTLE_DAY:-$(tests/engine.sh)}
out=target/bench
runs=20

fail() { printf '%s\n' "$1" >&2; exit 1; }

rm -rf "$out"
mkdir -p "$out"
cp tests/reference/main.rs "$out/plain.rs"
patch -s -o "$out/direct.rs" "$out/plain.rs" bench/direct.patch
rustc -O --edition 2024 -o "$out/make" bench/make.rs
rustc -O --edition 2024 -o "$out/plain" "$out/plain.rs"
rustc -O --edition 2024 -o "$out/direct" "$out/direct.rs"

# The instructions that the program $1 executes on the day $2, with the start of its process; callgrind's file stays.
instructions() {
    valgrind --tool=callgrind --callgrind-out-file="$out/${1##*/}.$2.callgrind" "$1" <"$out/$2.day" 2>&1 >/dev/null |
        sed -n 's/^==[0-9]*== Collected : //p'
}

# Microseconds for one run of the program $1 on the day $2, over several.
microseconds() {
    begun=$(date +%s%N)
    for _ in $(seq "$runs"); do "$1" <"$out/$2.day" >/dev/null; done
    echo $((($(date +%s%N) - begun) / runs / 1000))
}

# A line of the table: the day $1, then for each program its instructions, its ratio to the first and its time.
measure() {
    day=$1 line=''
    for program in "$engine" "$out/plain" "$out/direct"; do
        "$program" <"$out/$day.day" >"$out/$day.text"
        [ -f "$out/$day.expected" ] || cp "$out/$day.text" "$out/$day.expected"
        cmp -s "$out/$day.text" "$out/$day.expected" || fail "$day: $program prints another text than $engine"
        count=$(instructions "$program" "$day")
        [ -n "$count" ] || fail "$day: callgrind counted nothing of $program"
        line="$line $count $(microseconds "$program" "$day")"
    done
    # shellcheck disable=SC2046,SC2086,SC2183
    printf '%-11s %12d %7d us %12d %7d us %6s %12d %7d us %6s\n' "$day" $(echo $line |
        awk '{ printf "%d %d %d %d %.2f %d %d %.2f", $1, $2, $3, $4, $1 / $3, $5, $6, $1 / $5 }')
}

head -c 8 /dev/zero >"$out/empty.day"
for day in full queue full-queue; do "$out/make" "$day" "$seed" >"$out/$day.day"; done
rt version
printf '%-11s %23s %23s %6s %23s %6s\n' day settle_day plain ratio direct ratio
for day in empty full queue full-queue; do measure "$day"; done
