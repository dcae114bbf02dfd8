#!/usr/bin/env bash
# Runs a line display of 8 rows of 80 columns, and a plain Rust program over a Vec of cells, through the same hundred
# thousand displayText of 40 characters, three times, and prints the microseconds that each takes; where valgrind is
# installed also how many instructions each takes for a text. Usage: bench/display.sh [--small]. It needs rt and rustc;
# a run proves the crates. With --small the counts are a thousandth, and nothing is proved.
set -eu
top=$(cd "$(dirname "$0")/.." && pwd)
work=$(mktemp -d)
trap 'rm -rf "$work"' EXIT

. "$top/bench/crates.sh"
lay_out display pos_service pos_common pos_sims pos_display anyhow
build_plain display
run_bench display
[ -z "$is_small" ] || exit 0

# instructions of a run, for each of its texts
instructions() {
  valgrind --tool=callgrind --callgrind-out-file=/dev/null "$2" 2>&1 > /dev/null |
    awk -v w="$1" '/refs:/ { gsub(",", ""); printf "%-8s %8.0f instructions for a text\n", w, $NF / 300000 }'
}

if command -v valgrind > /dev/null; then
  instructions plain "$work/plain"
  instructions proved "$work/crates/display_bench/out/display_bench"
fi
