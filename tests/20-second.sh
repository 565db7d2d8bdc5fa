#!/usr/bin/env bash
# The second program: its own tests, and document 01's sample day byte for byte.
set -euo pipefail
cd "$(dirname "${BASH_SOURCE[0]}")/.."

export CARGO_TARGET_DIR="$PWD/target/second"
cargo test --quiet --release --offline --manifest-path second/Cargo.toml
cargo build --quiet --release --offline --manifest-path second/Cargo.toml
"$CARGO_TARGET_DIR/release/second" day < tests/sample.day | diff - tests/sample.out
echo "second: the sample day agrees"
