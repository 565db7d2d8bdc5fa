# For the tests that link the library: builds the archive, and says how x86-64 programs are compiled and run here. The archive
# is x86-64 code, so on another machine they are cross-compiled and run by an emulator, and their times say nothing.
# To be sourced from the repository's root.

archive=target/staticlib/libwormstrand.a
if [ "$(uname -m)" = x86_64 ]; then
    compile=(cc)
    emulate=()
else
    compile=(x86_64-linux-gnu-gcc -static)
    emulate=(qemu-x86_64)
fi
compile+=(-std=c99 -O2 -Wall -Wextra -Wpedantic -Werror -Iinclude)

tools/archive
