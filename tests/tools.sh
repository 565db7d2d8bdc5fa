#!/usr/bin/env bash
# What the tests need beside rt: cargo, a C compiler, and python3 for tools/day; on a machine that is not x86-64 also what compiles and runs x86-64
# programs from C and Rust, since the library's archive is x86-64 code. Installed from Debian's packages only where it is missing.
set -euo pipefail

command -v rt > /dev/null || { echo "tools: rt is not on this machine: install the Rattle kit first" >&2; exit 1; }

# Whether a rustc is there and has Rust's standard library for x86-64.
builds_x86_64() { # RUSTC
    command -v "$1" > /dev/null && [ -d "$("$1" --print target-libdir --target x86_64-unknown-linux-gnu)" ]
}

missing=()
command -v cargo > /dev/null || missing+=(cargo rustc)
command -v cc > /dev/null || missing+=(gcc libc6-dev)
command -v python3 > /dev/null || missing+=(python3)
if [ "$(uname -m)" != x86_64 ]; then
    command -v x86_64-linux-gnu-gcc > /dev/null || missing+=(gcc-x86-64-linux-gnu libc6-dev-amd64-cross)
    command -v qemu-x86_64 > /dev/null || missing+=(qemu-user)
    if ! builds_x86_64 rustc && ! builds_x86_64 /usr/bin/rustc; then
        dpkg --add-architecture amd64
        missing+=(cargo rustc libstd-rust-dev:amd64 libc6-dev:amd64)
    fi
fi

if [ "${#missing[@]}" -gt 0 ]; then
    apt-get update -qq
    DEBIAN_FRONTEND=noninteractive apt-get install -y -qq --no-install-recommends "${missing[@]}" > /dev/null
fi
echo "tools: $(rt version), $(cargo --version)"
