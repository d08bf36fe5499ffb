#!/bin/sh
# Times of reading LVM text: builds lvm_text.rt.in beside a copy of the crate in a folder of its own, runs it, and prints
# each text's figures and their growth from the text before, a tenth as large. It is no test: read them as ratios.
# Where crates/lvm_text/out holds a check, the build takes it over; from nothing it takes some minutes more.
set -eu

top=$(cd "$(dirname "$0")/../.." && pwd)
work=$(mktemp -d)
trap 'rm -rf "$work"' EXIT

program="$work/crates/lvm_text_times"
mkdir -p "$program/src"
cp -r "$top/crates/lvm_text" "$work/crates/lvm_text"
cp "$top/tests/benches/lvm_text.rt.in" "$program/src/main.rt"
grep '^lvm_text:' "$top/crates.txt" > "$work/crates.txt"
echo 'lvm_text_times: lvm_text' >> "$work/crates.txt"

(cd "$program" && rt run) > "$work/lines" 2> "$work/log" || { cat "$work/log" >&2; exit 1; }

awk '
    function growth(now, before) { return kind == $1 && before > 0 ? sprintf("x %.1f", now / before) : "" }
    BEGIN { printf "%-10s %10s %8s %10s %8s %8s %10s %8s\n", "text", "bytes", "", "parse ms", "", "keys", "get ms", "" }
    {
        printf "%-10s %10d %8s %10.1f %8s %8d %10.1f %8s\n", $1, $2, growth($2, bytes), $3 / 1000, growth($3, parse), $4, $5 / 1000, growth($5, get)
        kind = $1; bytes = $2; parse = $3; get = $5
    }
' "$work/lines"
