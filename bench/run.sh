#!/usr/bin/env bash
# Times the library beside other ways to do the same, and writes docs/BENCH.md. Not a test: a time depends on what else runs. On
# a machine that is not x86-64 all of them are built for x86-64 and run by the same emulator.
set -euo pipefail
cd "$(dirname "${BASH_SOURCE[0]}")/.."
tests/tools.sh
. tests/library.sh
. tests/cargo.sh

model=$(sed -n 's/^model name[[:space:]]*: //p' /proc/cpuinfo | head -n 1)
machine="${model:-no model named}, $(nproc) cores, $(uname -m)"
if [ "$(uname -m)" != x86_64 ]; then
    machine+="; all of it is x86-64 code, run by an emulator"
fi

cargo run "${cargo_flags[@]}" --manifest-path bench/Cargo.toml -- "$machine" > target/bench.md
mv target/bench.md docs/BENCH.md
echo "bench: docs/BENCH.md is written"
