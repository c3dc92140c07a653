#!/usr/bin/env bash
# `rt lib` writes the library for x86-64 only. On another machine this compiles the module that rt hands to its
# compiler, with that compiler and for this machine, into target/native/libburrcradle.a, so that the Rust tests can link it:
#
#     host/native.sh && BURRCRADLE_LIB_DIR="$PWD/target/native" cargo test
#
# It stands in for nothing: the archive of record is rt's.
set -euo pipefail
cd "$(dirname "$0")/.."
machine=$(uname -m)
kit=$(dirname "$(dirname "$(rt doc)")")
native=$PWD/target/native
rm -rf "$native"
mkdir -p "$native/kit/on/$machine/toolchain/bin"

# The kit by links, with its compiler behind a script that keeps the module.
for each in "$kit"/*; do [ "${each##*/}" = on ] || ln -s "$each" "$native/kit/"; done
for each in "$kit/on/$machine"/*; do [ "${each##*/}" = toolchain ] || ln -s "$each" "$native/kit/on/$machine/"; done
for each in "$kit/on/$machine/toolchain"/*; do [ "${each##*/}" = bin ] || ln -s "$each" "$native/kit/on/$machine/toolchain/"; done
for each in "$kit/on/$machine/toolchain/bin"/*; do ln -s "$each" "$native/kit/on/$machine/toolchain/bin/"; done
clang=$kit/on/$machine/toolchain/bin/clang
rm "$native/kit/on/$machine/toolchain/bin/clang"
cat >"$native/kit/on/$machine/toolchain/bin/clang" <<KEEP
#!/bin/sh
[ ! -f module.bc ] || cp module.bc "$native/module.bc"
exec "$clang" "\$@"
KEEP
chmod +x "$native/kit/on/$machine/toolchain/bin/clang"

(cd crates/burrcradle_c && RATTLE_HOME=$native/kit rt lib) >"$native/log" 2>&1 || { cat "$native/log"; exit 1; }
"$clang" --target="$machine-unknown-linux-gnu" -Wno-override-module -O3 -fPIC -ffunction-sections -fdata-sections \
    -c -x ir "$native/module.bc" -o "$native/burrcradle.o" 2>>"$native/log" || { cat "$native/log"; exit 1; }
ar rcs "$native/libburrcradle.a" "$native/burrcradle.o"
rm -r "$native/kit"
