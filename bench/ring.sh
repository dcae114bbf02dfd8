#!/usr/bin/env bash
# Scrolls a plain line display and one whose rows are a ring, each of 8 rows of 80 columns, by a hundred thousand
# scrollText of a row, and by as many displayText in the last row, of a line feed alone and of one with eleven
# characters behind it, and shows as many texts of forty characters, three times, and prints the microseconds that each
# takes; where valgrind is installed also how many instructions an order takes. Usage: bench/ring.sh [--small]. It needs
# rt; a run proves the crates. With --small the counts are a thousandth, and nothing is proved.
set -eu
top=$(cd "$(dirname "$0")/.." && pwd)
work=$(mktemp -d)
trap 'rm -rf "$work"' EXIT

. "$top/bench/crates.sh"
lay_out ring pos_service pos_sims anyhow
run_bench ring
[ -z "$is_small" ] || exit 0
bench=out/ring_bench
"$bench" < /dev/null
"$bench" < /dev/null

# instructions of a run, for each of its orders
instructions() {
  printf %s "$1" | valgrind --tool=callgrind --callgrind-out-file=/dev/null "$bench" 2>&1 > /dev/null |
    awk -v w="$2" '/refs:/ { gsub(",", ""); printf "%-20s %8.0f instructions an order\n", w, $NF / 100000 }'
}

if command -v valgrind > /dev/null; then
  instructions 1 'plain, scrollText'
  instructions 2 'ring, scrollText'
  instructions 3 'plain, line feed'
  instructions 4 'ring, line feed'
  instructions 5 'plain, line'
  instructions 6 'ring, line'
  instructions 7 'plain, forty'
  instructions 8 'ring, forty'
fi
