#!/bin/sh
# Prints the path of `settle_day`, proved and built from the sources as they are: this takes some minutes where something
# has changed, and less than a second where nothing has. The program that is built must print the text of its own day.
set -eu
root=$(cd "$(dirname "$0")/.." && pwd -P)
cd "$root/crates/settle_day"
text=$(mktemp)
trap 'rm -f "$text"' EXIT
rt run <stdin >"$text"
cmp "$text" stdout >&2
echo "$root/crates/settle_day/out/settle_day"
