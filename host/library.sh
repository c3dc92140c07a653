#!/usr/bin/env bash
# Proves and builds the boundary, over what earlier checks kept, and puts it where the Rust programs and the C program link it:
# target/staticlib/libburrcradle.a.
set -euo pipefail
cd "$(dirname "$0")/.."
mkdir -p target/staticlib
(cd crates/burrcradle_c && rt lib) >target/staticlib/log 2>&1 || { cat target/staticlib/log; exit 1; }
cp crates/burrcradle_c/out/libburrcradle_c.a target/staticlib/libburrcradle.a
