#!/usr/bin/env bash
# Compiles known.c against the header, links the proved library and runs the program: its exit status is that of the program.
# The library is for x86-64. On another machine the kit's own compiler, C library and emulator stand in for gcc's.
# A folder that holds a library already built for this machine can be named in BURRCRADLE_LIB_DIR.
set -euo pipefail
cd "$(dirname "$0")/../.."
warnings=(-std=c99 -O2 -Wall -Wextra -Werror -Iinclude)
mkdir -p target/c
if [ -n "${BURRCRADLE_LIB_DIR:-}" ]; then
    gcc "${warnings[@]}" host/c/known.c "$BURRCRADLE_LIB_DIR/libburrcradle.a" -o target/c/known
    exec target/c/known
fi
host/library.sh
archive=target/staticlib/libburrcradle.a
if [ "$(uname -m)" = x86_64 ]; then
    gcc "${warnings[@]}" host/c/known.c "$archive" -o target/c/known
    exec target/c/known
fi
kit=$(dirname "$(dirname "$(rt doc)")")/on/$(uname -m)
tools=$kit/toolchain
gcc "${warnings[@]}" -fsyntax-only host/c/known.c
gcc "${warnings[@]}" -E host/c/known.c -o target/c/known.i
"$tools/bin/clang" --target=x86_64-linux-gnu -O2 -fPIC -c target/c/known.i -o target/c/known.o
"$kit/bin/rattle-link" --target x86_64-unknown-linux-gnu --toolchain "$tools" -o target/c/known target/c/known.o "$archive" 2>target/c/link.log ||
    { cat target/c/link.log; exit 1; }
exec "$tools/bin/qemu-x86_64" "$tools/lib/ld-linux-x86-64.so.2" --library-path "$tools/lib" target/c/known
