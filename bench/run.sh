#!/usr/bin/env bash
# Runs the console and a plain Rust program over the same scripts, and prints how many lines a second each carries out.
# Usage: bench/run.sh [LINES [PROGRAM]]. It needs rustc, and rt without PROGRAM.
set -eu
top=$(cd "$(dirname "$0")/.." && pwd)
lines=${1:-1000000}
work=$(mktemp -d)
trap 'rm -rf "$work"' EXIT

{
  printf 'new a CashDrawer\nopen a d1\nset a DeviceEnabled true\n'
  awk -v n="$lines" 'BEGIN {
    split("get a State;call a openDrawer;deliver a;input d1 closed;deliver a", line, ";")
    for (i = 0; i < n; i++) print line[i % 5 + 1]
  }'
} > "$work/turns"

# ten thousand events are enqueued on one control, then delivered one by one
{
  printf 'new a CashDrawer\nopen a d1\nset a DeviceEnabled true\n'
  awk 'BEGIN {
    for (i = 0; i < 5000; i++) print "input d1 open\ninput d1 closed"
    for (i = 0; i < 10000; i++) print "deliver a"
  }'
} > "$work/events"

rustc -O -o "$work/baseline" "$top/bench/baseline.rs"
program=${2:-$top/crates/pos_console/out/pos_console}
[ $# -ge 2 ] || (cd "$top/crates/pos_console" && rt run < /dev/null > /dev/null 2>&1)

seconds() {
  local start end
  start=$(date +%s.%N)
  "$1" < "$2" > "$3"
  end=$(date +%s.%N)
  awk -v a="$start" -v b="$end" 'BEGIN { print b - a }'
}

for script in turns events; do
  count=$(wc -l < "$work/$script")
  for which in baseline console; do
    binary=$work/baseline
    [ "$which" = console ] && binary=$program
    best=$(for _ in 1 2 3 4 5; do seconds "$binary" "$work/$script" "$work/$which.$script"; done | sort -g | head -1)
    awk -v w="$which" -v s="$script" -v n="$count" -v t="$best" \
      'BEGIN { printf "%-8s %-8s %8d lines %8.3f s %12.0f lines a second\n", s, w, n, t, n / t }'
  done
  cmp "$work/baseline.$script" "$work/console.$script"
done
