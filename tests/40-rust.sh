#!/usr/bin/env bash
# The library from C and from Rust: the C example and the README's program, then the Rust crate's tests, document 01's p1 to p10
# among them, and its example; last, that all that the benchmark times agree.
set -euo pipefail
cd "$(dirname "${BASH_SOURCE[0]}")/.."
. tests/library.sh
. tests/cargo.sh

work=target/examples
mkdir -p "$work"
"${compile[@]}" examples/ask.c -o "$work/ask" "$archive"
"${emulate[@]}" "$work/ask" | diff - examples/ask.out
sed -n '/^```c$/,/^```$/p' README.md | sed '1d;$d' > "$work/related.c"
"${compile[@]}" "$work/related.c" -o "$work/related" "$archive"
"${emulate[@]}" "$work/related" | diff - <(echo "related: 1")
echo "rust: the C example and the README's program agree"

crate=("${cargo_flags[@]}" --manifest-path bindings/rust/Cargo.toml)
cargo test "${crate[@]}"
cargo run "${crate[@]}" --example connections | diff - bindings/rust/examples/connections.out
echo "rust: the Rust example agrees"
cargo run "${cargo_flags[@]}" --manifest-path bench/Cargo.toml -- --check
