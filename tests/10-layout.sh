#!/usr/bin/env bash
# Every crate is listed in crates.txt and in docs/MAP.md, docs/TIGHT.md says of every must-fail edit by what it is refused, and
# nothing that rt makes is committed. Whether the files are laid out as rt fmt lays them out is not asked here: rt ci refuses what
# is not.
set -euo pipefail
cd "$(dirname "${BASH_SOURCE[0]}")/.."

wrong() {
    echo "layout: $1" >&2
    exit 1
}

for crate in crates/*/; do
    name=$(basename "$crate")
    grep -qE "^$name( staticlib)?:" crates.txt || wrong "crates/$name is not listed in crates.txt"
    grep -q "^| \`$name\` |" docs/MAP.md || wrong "crates/$name has no row in docs/MAP.md"
done
for edit in crates/*/must-fail/*.edit; do
    name=$(basename "$edit" .edit)
    grep -q "[\`/]$name\`" docs/TIGHT.md || wrong "$edit is not named in docs/TIGHT.md"
done
made=$(git ls-files 'crates/*/out/*' | sed -n 1p)
[ -z "$made" ] || wrong "$made is made by rt, and committed"
