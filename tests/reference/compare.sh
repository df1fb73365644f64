#!/bin/sh
# Compares the engine with the program in main.rs, which follows the documents and shares nothing with it, on the worked
# day, on days at each bound and one past it, and on days made from a seed: `compare.sh [DAYS [SEED]]`, 2000 days of
# seed 1 where nothing is given. The same seed makes the same days. It stops at the first difference, keeps that day in
# target/reference and ends with 1. It makes no more days after 60 seconds ($SECONDS_AT_MOST). $SETTLE_DAY names another
# engine. rustc is needed.
set -eu
cd "$(dirname "$0")/../.."
days=${1:-2000} seed=${2:-1} at_most=${SECONDS_AT_MOST:-60}
engine=${SETTLE_DAY:-$(tests/engine.sh)}
out=target/reference

mkdir -p "$out"
for name in main compare; do
    if [ ! -x "$out/$name" ] || [ -n "$(find tests/reference -name '*.rs' -newer "$out/$name")" ]; then
        rustc -O --edition 2024 -o "$out/$name" "tests/reference/$name.rs"
    fi
done

"$engine" <days/worked.day >"$out/engine.txt"
"$out/main" <days/worked.day >"$out/reference.txt"
cmp "$out/engine.txt" "$out/reference.txt"

# The program keeps its time by itself between days; `timeout` is for a day that does not end.
timeout $((at_most + 40)) "$out/compare" "$engine" "$out/main" "$out" "$seed" 0 "$days" "$at_most"
