#!/bin/sh
# Programs that the compiler itself refuses: each tests/refused/*.edit is applied to the client beside it, and the
# compiler must then give the error that the edit names. The client as it stands must compile. Nothing is proved here.
set -eu
cd "$(dirname "$0")/.."
work=$(mktemp -d)
trap 'rm -rf "$work"' EXIT

fail() { printf '%s\n' "$1" >&2; exit 1; }

# The client over the sources of all libraries: 0 where it compiles, else 1, with the errors in $work/log.
compiles() {
    (cd "$work/day/crates/client" && rt try --test) >"$work/log" 2>&1
}

# One replacement in the client, of a text that stands in it once.
edited() {
    OLD=$(sed -n 's/^old: //p' "$1") NEW=$(sed -n 's/^new: //p' "$1") awk '
        { text = text $0 "\n" }
        END {
            old = ENVIRON["OLD"]; at = index(text, old); rest = substr(text, at + length(old))
            if (old == "" || !at || index(rest, old)) exit 1
            printf "%s%s%s", substr(text, 1, at - 1), ENVIRON["NEW"], rest
        }' tests/refused/client.txt
}

mkdir -p "$work/day/crates/client/src"
while IFS=: read -r name _; do
    mkdir -p "$work/day/crates/$name"
    for part in src specs; do
        [ ! -d "crates/$name/$part" ] || cp -R "crates/$name/$part" "$work/day/crates/$name/"
    done
done <crates.txt
{ cat crates.txt; echo "client: units intake nostro queue session"; } >"$work/day/crates.txt"

cp tests/refused/client.txt "$work/day/crates/client/src/lib.rt"
compiles || { cat "$work/log" >&2; fail "refused: the client does not compile"; }
for edit in tests/refused/*.edit; do
    code=$(sed -n 's/^error: //p' "$edit")
    [ -n "$code" ] || fail "$edit: no line 'error: CODE'"
    edited "$edit" >"$work/day/crates/client/src/lib.rt" || fail "$edit: its old text is not once in the client"
    ! compiles || fail "$edit: the compiler accepts it"
    grep 'error\[' "$work/log" >"$work/errors" || :
    # Every error is at the client and is the one that is named.
    if [ ! -s "$work/errors" ] || grep -qv "^src/lib.rt:.* error\[$code\]:" "$work/errors"; then
        cat "$work/log" >&2
        fail "$edit: refused, but not by $code alone"
    fi
    sed "s|^src/lib.rt|$edit: client|; q" "$work/errors"
done
