#!/bin/sh
# Measures the engine beside Maude: proves and builds the library, runs every workload on both sides, prints a table.
# ./bench/run.sh [WORKLOAD...]. It needs a C compiler and python3, and installs Maude where apt-get can.
set -eu
cd "$(dirname "$0")/.."
. ./toolchain.sh
log=$(mktemp)
trap 'rm -f "$log"' EXIT
command -v maude >/dev/null || { apt-get update && apt-get install -y maude; } >"$log" 2>&1 || echo "Maude can't be installed here." >&2
(cd crates/calls && rt lib) >"$log" 2>&1 || {
    cat "$log" >&2
    exit 1
}
mkdir -p target/bench
${CC:-cc} -O2 -o target/bench/call bench/call.c crates/calls/out/libcalls.a
python3 bench/run.py target/bench/call target/bench "$@"
