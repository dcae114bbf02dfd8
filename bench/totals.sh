#!/usr/bin/env bash
# Runs the console and a plain Rust program over the same script of Hard Totals, and prints how many lines a second each
# carries out: 64 files of 128 bytes are made, one of them is written in each line after, and read at the end. Where
# valgrind is installed it also prints how many instructions each takes for a line that writes.
# Usage: bench/totals.sh [WRITES [PROGRAM]]. It needs rustc, and rt without PROGRAM.
set -eu
top=$(cd "$(dirname "$0")/.." && pwd)
writes=${1:-100000}
work=$(mktemp -d)
trap 'rm -rf "$work"' EXIT

# a script with so many writes
script() {
  printf 'new t HardTotals\nopen t t1\nset t DeviceEnabled true\n'
  awk -v n="$1" 'BEGIN {
    for (i = 0; i < 64; i++) printf "call t create %02x 128 false\n", 48 + i
    for (i = 0; i < n; i++) printf "call t write 1 0 %08X\n", i
    for (i = 0; i < 5; i++) print "call t read 1 0 4"
  }'
}

rustc -O -o "$work/plain" "$top/bench/totals.rs"
[ $# -ge 2 ] || (cd "$top/crates/pos_console" && rt run < /dev/null > /dev/null 2>&1)
cp "${2:-$top/crates/pos_console/out/pos_console}" "$work/console"

seconds() {
  local start end
  start=$(date +%s.%N)
  "$1" < "$2" > "$3"
  end=$(date +%s.%N)
  awk -v a="$start" -v b="$end" 'BEGIN { print b - a }'
}

script "$writes" > "$work/script"
count=$(wc -l < "$work/script")
for which in plain console; do
  best=$(for _ in 1 2 3 4 5; do seconds "$work/$which" "$work/script" "$work/$which.text"; done | sort -g | head -1)
  awk -v w="$which" -v n="$count" -v t="$best" \
    'BEGIN { printf "%-8s %8d lines %8.3f s %12.0f lines a second\n", w, n, t, n / t }'
done
cmp "$work/plain.text" "$work/console.text"

# instructions of a run over a script with so many writes
instructions() {
  script "$2" > "$work/short"
  valgrind --tool=callgrind --callgrind-out-file=/dev/null "$1" < "$work/short" 2>&1 > /dev/null |
    awk '/refs:/ { gsub(",", ""); print $NF }'
}

if command -v valgrind > /dev/null; then
  for which in plain console; do
    few=$(instructions "$work/$which" 1000)
    many=$(instructions "$work/$which" 2000)
    awk -v w="$which" -v n=$((many - few)) \
      'BEGIN { printf "%-8s %8.0f instructions for a line that writes\n", w, n / 1000 }'
  done
fi
