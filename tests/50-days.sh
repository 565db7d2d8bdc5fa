#!/usr/bin/env bash
# dayrun against the second program: random days, many of them damaged, and what both print for each, byte for byte. The text tool
# gives back document 01's sample.
set -euo pipefail
cd "$(dirname "${BASH_SOURCE[0]}")/.."

export CARGO_TARGET_DIR="$PWD/target/second"
cargo build --quiet --release --offline --manifest-path second/Cargo.toml
second="$CARGO_TARGET_DIR/release/second"

work=target/days
rm -rf "$work"
mkdir -p "$work"
./dayrun < tests/sample.day | diff - tests/sample.out
tools/day write < examples/days/sample.txt | cmp - tests/sample.day
tools/day show < tests/sample.day | tools/day write | cmp - tests/sample.day

count=2000
"$second" days 11 "$count" "$work"
for ((i = 0; i < count; i++)); do
    ./dayrun < "$work/$i.day" > "$work/ours"
    "$second" day < "$work/$i.day" > "$work/theirs"
    cmp -s "$work/ours" "$work/theirs" || { echo "days: $work/$i.day: dayrun and second differ" >&2; diff "$work/ours" "$work/theirs" | head -5 >&2; exit 1; }
    cat "$work/theirs" >> "$work/all"
done
# what came up, so that a run that shows nothing fails
for row in '[0-9]+ 1 8 0' '[0-9]+ [1-5] 3 0' '[0-9]+ [345] 4 0' '[0-9]+ [2345] 5 0' '[0-9]+ [13] 6 0' '[0-9]+ 4 7 0' '[0-9]+ 3 9 0' '[0-9]+ 2 10 0' 'end 0 [0-9 ]+' 'end 1 0 0 0' 'end 11 [0-9 ]+' 'end 12 [0-9 ]+' 'end 13 [0-9 ]+'; do
    grep -qE "^$row\$" "$work/all" || { echo "days: no line like '$row' came up" >&2; exit 1; }
done
echo "days: $count days agree, $(grep -c '^end' "$work/all") ends, $(grep -cE ' 3 0 [1-9]' "$work/all") links that turned lists over"
