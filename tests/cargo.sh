# For what builds Rust with the library: `cargo_flags`, and what cargo needs to build and run x86-64 programs here. On another
# machine they are linked statically, since its emulator runs no others. To be sourced after tests/library.sh, from the
# repository's root.

cargo_flags=(--quiet --release --offline --target x86_64-unknown-linux-gnu)
export CARGO_TARGET_DIR="$PWD/target/rust"

if [ "$(uname -m)" != x86_64 ]; then
    export CARGO_TARGET_X86_64_UNKNOWN_LINUX_GNU_LINKER=x86_64-linux-gnu-gcc
    export CARGO_TARGET_X86_64_UNKNOWN_LINUX_GNU_RUNNER=qemu-x86_64
    export CARGO_TARGET_X86_64_UNKNOWN_LINUX_GNU_RUSTFLAGS="-C target-feature=+crt-static"
    # Debian's cargo runs doc tests for another machine only by an unstable switch, and would leave them out in silence.
    export RUSTC_BOOTSTRAP=1 RUSTDOCFLAGS="-C target-feature=+crt-static"
    cargo_flags+=(-Zdoctest-xcompile)
    # Where the machine's own Rust has no standard library for x86-64, Debian's has.
    [ -d "$(rustc --print target-libdir --target x86_64-unknown-linux-gnu)" ] || export PATH="/usr/bin:$PATH"
fi
