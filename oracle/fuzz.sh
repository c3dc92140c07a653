#!/bin/bash
# A fuzzer (libFuzzer, from Debian's clang) over burr_list, burr_halves, burr_add and burr_score with the second program as
# judge.
# Usage: fuzz.sh [minutes]. What it learns is kept in target/fuzz/corpus; a difference is printed and leaves a crash file.
set -euo pipefail
cd "$(dirname "$0")/.."
if ! command -v clang >/dev/null || ! ls /usr/lib/llvm-*/lib/clang/*/lib/linux/libclang_rt.fuzzer-*.a >/dev/null 2>&1; then
    apt-get update && apt-get install -y clang 'libclang-rt-[0-9]*-dev'
fi
out=$PWD/target/fuzz
mkdir -p "$out/corpus"
# Naming the target keeps the instrumentation out of build scripts.
target=$(rustc -vV | sed -n 's/^host: //p')
RUSTFLAGS="-Cpasses=sancov-module -Cllvm-args=-sanitizer-coverage-level=4 \
    -Cllvm-args=-sanitizer-coverage-inline-8bit-counters -Cllvm-args=-sanitizer-coverage-pc-table \
    -Cllvm-args=-sanitizer-coverage-trace-compares -Ccodegen-units=1" \
    cargo build --release --manifest-path oracle/fuzz/Cargo.toml --target "$target" --target-dir "$out/build"
clang -fsanitize=fuzzer -o "$out/fuzz" "$out/build/$target/release/libfuzz.a" -lpthread -ldl -lm
cd "$out"
./fuzz -max_total_time=$((60 * ${1:-5})) -max_len=512 -print_final_stats=1 corpus
