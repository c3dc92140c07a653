#!/bin/bash
# The boundary under valgrind: a short comparison run in which any read or write outside lent memory, and any decision on
# memory that was never set, is an error. Usage: fire.sh [cases] [seed]
set -euo pipefail
cd "$(dirname "$0")/.."
if ! command -v valgrind >/dev/null; then
    apt-get update && apt-get install -y valgrind
fi
cargo build --release -p oracle --bin compare
valgrind --error-exitcode=9 --leak-check=full --errors-for-leak-kinds=definite \
    target/release/compare --cases "${1:-10000}" --seed "${2:-1}"
