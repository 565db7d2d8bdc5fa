#!/usr/bin/env bash
# The library against the second program. Made scripts of calls run through both, and what they print is compared byte for byte:
# every refusal, every number and a digest of every table. tests/expected-rows.txt says what has to come up in them.
set -euo pipefail
cd "$(dirname "${BASH_SOURCE[0]}")/.."
. tests/library.sh

export CARGO_TARGET_DIR="$PWD/target/second"
cargo build --quiet --release --offline --manifest-path second/Cargo.toml
second="$CARGO_TARGET_DIR/release/second"

work=target/compare
mkdir -p "$work"
"${compile[@]}" driver/driver.c -o "$work/driver" "$archive"
driver=("${emulate[@]}" "$work/driver")

fail() {
    echo "compare: $*" >&2
    exit 1
}

# The script line whose output has the line NUMBER: each call prints one line, and `show` five.
script_line() { # SCRIPT NUMBER
    awk -v due="$2" '
        /^(empty|open|close|link|unlink|ask|reading|stream)( |$)/ { printed += 1 }
        /^show$/ { printed += 5 }
        printed >= due { print NR ": " substr($0, 1, 300); exit }' "$1"
}

# Runs a script through both and holds the outputs to each other.
agree() { # NAME SCRIPT
    local ours="$work/$1.library" theirs="$work/$1.second" status=0 at
    "${driver[@]}" < "$2" > "$ours" 2> "$work/$1.trouble" &
    "$second" run --counts < "$2" > "$theirs" 2> "$work/$1.counts" || fail "$1: second failed: $(tail -n 1 "$work/$1.counts")"
    wait $! || status=$?
    [ "$status" -eq 0 ] || fail "$1: the driver ended with $status: $(cat "$work/$1.trouble")"
    cmp -s "$ours" "$theirs" && return
    at=$(awk 'NR == FNR { line[NR] = $0; next } line[FNR] != $0 { print FNR; found = 1; exit } END { if (!found) print FNR + 1 }' "$ours" "$theirs")
    fail "$1: output line $at differs
  library: $(sed -n "${at}p" "$ours")
  second:  $(sed -n "${at}p" "$theirs")
  line of $2: $(script_line "$2" "$at")"
}

# Every row that tests/expected-rows.txt has for a kind came up often enough.
hold_to_rows() { # KIND
    awk -v kind="$1" '
        NR == FNR { at = match($0, /: [0-9]+$/); count[substr($0, 1, at - 1)] = substr($0, at + 2); next }
        $1 == kind {
            least = $2; name = $0; sub(/^[a-z]+ [0-9]+ /, "", name); rows += 1
            if (count[name] + 0 < least + 0) { print "compare: " kind ": `" name "` came up " count[name] + 0 " times, not " least; short = 1 }
        }
        END { if (!rows) { print "compare: no rows are expected of " kind; short = 1 } exit short }' "$work/$1.counts" tests/expected-rows.txt >&2
}

compare() { # KIND SEED COUNT
    local began=$SECONDS
    "$second" make "$1" "$2" "$3" > "$work/$1.txt"
    agree "$1" "$work/$1.txt"
    [ "$(wc -l < "$work/$1.library")" -eq "$3" ] || fail "$1: $3 calls were asked for"
    hold_to_rows "$1"
    calls=$((calls + $3))
    echo "compare: $1: $3 calls agree, $((SECONDS - began)) s"
}

# Each line of tests/scripts/wrong.txt stops both programs, with the same words.
refuse_wrong_lines() {
    local line ours theirs
    while IFS= read -r line; do
        ours=$(printf '# wrong:\n%s\n' "$line" | { "${driver[@]}" 2>&1 || echo "status $?"; })
        theirs=$(printf '# wrong:\n%s\n' "$line" | { "$second" run 2>&1 || echo "status $?"; })
        [ "${ours#driver: }" = "${theirs#second: }" ] || fail "wrong line \`$line\`: the driver says '$ours', second says '$theirs'"
        case $ours in *"script line 2: "*"status 2") ;; *) fail "wrong line \`$line\` was taken: $ours" ;; esac
    done < tests/scripts/wrong.txt
}

# Six runs, D = 2, all fifteen pairs in ORDERS orders, each pair named either way round, and every table shown at the end.
make_six() { # ORDERS
    awk -v orders="$1" '
        function below(k) { seed = seed * 16807 % 2147483647; return seed % k }
        BEGIN {
            seed = 12
            for (a = 2; a <= 6; a++) for (b = 1; b < a; b++) pair[++pairs] = a " " b
            while (orders-- > 0) {
                print "sizes 6 15 2\nstore 0*71\nspare 0*71\nwaiting 0*6\nempty"
                for (a = 1; a <= 6; a++) print "open 1 " a
                for (i = pairs; i > 0; i--) {
                    j = 1 + below(i); held = pair[i]; pair[i] = pair[j]; pair[j] = held
                    split(pair[i], end); first = 1 + below(2)
                    print "link 1 " end[first] " 1 " end[3 - first]
                }
                print "show"
            }
        }'
}

# Each order takes at most twelve of the fifteen, some order twelve, and what is not taken is too dense.
hold_six() { # ORDERS
    awk -v orders="$1" '
        /^link 0 / { taken += 1 }
        /^link/ && $2 != 0 && $2 != 9 { print "compare: six: " $0; bad = 1 }
        /^store:/ { if (taken > 12) bad = 1; if (taken > most) most = taken; taken = 0; seen += 1 }
        END {
            if (bad || most != 12 || seen != orders) { print "compare: six: " seen + 0 " orders, at most " most + 0 " links taken"; exit 1 }
        }' "$work/six.library" >&2
}

agree examples tests/scripts/examples.txt
make_six 2000 > "$work/six.txt"
agree six "$work/six.txt"
hold_six 2000
echo "compare: six runs: 2000 orders agree"
refuse_wrong_lines
calls=0
compare reads 1 300000
compare writes 2 300000
compare links 3 400000
compare streams 4 50000
compare all 5 100000
echo "compare: $calls calls agree in all"
