#!/usr/bin/env bash
# Durable changes a second over a file: of the program over Hard Totals, one change a commit and ten changes a
# transaction, beside the bare floor (two writes and two syncs a change from a plain Rust program) and SQLite (WAL,
# synchronous=FULL, each change a commit). In turns, five rounds, the median of each; the start of a process is left
# out. Then from start to exit on an empty script.
# Usage: bench/file.sh [CHANGES [FOLDER [PROGRAM]]]. It needs rustc and python3, and rt where it is given no program;
# the files are made in FOLDER, which has to be on a real disk: one in memory is refused.
set -eu
top=$(cd "$(dirname "$0")/.." && pwd)
changes=${1:-2000}
work=$(mktemp -d -p "${2:-${TMPDIR:-/tmp}}")
trap 'rm -rf "$work"' EXIT

system=$(df --output=fstype "$work" | tail -n 1)
echo "file system: $system ($(df --output=source "$work" | tail -n 1))"
case $system in
  tmpfs | ramfs | devtmpfs)
    echo "a file system in memory has no durable changes: name a FOLDER on a disk" >&2
    exit 2
    ;;
esac

rustc -O -o "$work/floor" "$top/bench/floor.rs"
program=${3:-$top/crates/pos_console/out/pos_console}
[ $# -ge 3 ] || (cd "$top/crates/pos_console" && rt run < /dev/null > /dev/null 2>&1)
printf '[[device]]\nname = "t1"\ncategory = "HardTotals"\n' > "$work/profile.toml"
setup='new t HardTotals\nopen t t1\nset t DeviceEnabled true\ncall t create 41 64 false\n'
printf "$setup" > "$work/start"
awk -v n="$changes" -v s="$setup" 'BEGIN {
  printf s
  for (i = 0; i < n; i++) printf "call t write 1 0 %08X\n", i
}' > "$work/single"
awk -v n="$changes" -v s="$setup" 'BEGIN {
  printf s
  for (i = 0; i < n; i++) {
    if (i % 10 == 0) print "call t beginTrans"
    printf "call t write 1 %d %08X\n", 4 * (i % 10), i
    if (i % 10 == 9) print "call t commitTrans"
  }
}' > "$work/tens"
cat > "$work/changes.py" <<'PYTHON'
import sqlite3, sys, time
rows = sqlite3.connect(sys.argv[1], isolation_level=None)
rows.execute("PRAGMA journal_mode=WAL")
rows.execute("PRAGMA synchronous=FULL")
rows.execute("CREATE TABLE file (name TEXT PRIMARY KEY, bytes BLOB)")
rows.execute("INSERT INTO file VALUES ('A', zeroblob(64))")
start = time.monotonic()
for change in range(int(sys.argv[2])):
    rows.execute("UPDATE file SET bytes = ? WHERE name = 'A'", (change.to_bytes(64, "big"),))
print(time.monotonic() - start)
PYTHON

seconds() {
  local start end
  start=$(date +%s.%N)
  "$@"
  end=$(date +%s.%N)
  awk -v a="$start" -v b="$end" 'BEGIN { print b - a }'
}

# what a script takes, without the start of the program and the lines before the changes
beyond_start() {
  local whole start
  whole=$(timed "$1")
  start=$(timed start)
  awk -v a="$whole" -v b="$start" 'BEGIN { print a - b }'
}
timed() {
  rm -f "$work/disk"
  "$program" format --disk "$work/disk"
  seconds run_script "$1"
}
run_script() { "$program" run --profile "$work/profile.toml" --disk "$work/disk" < "$work/$1" > "$work/text"; }

floor() { rm -f "$work/bare"; "$work/floor" "$work/bare" "$changes" 17; }
single() { beyond_start single; }
tens() { beyond_start tens; }
sqlite() { rm -f "$work/rows" "$work/rows-"*; python3 "$work/changes.py" "$work/rows" "$changes"; }

contenders="floor single tens sqlite"
for _ in 1 2 3 4 5; do
  for which in $contenders; do "$which" >> "$work/$which.times"; done
done
run_script single && [ "$(grep -c '^ok' "$work/text")" -ge "$changes" ]

median() { sort -g "$work/$1.times" | sed -n 3p; }
for which in $contenders; do
  median "$which" |
    awk -v w="$which" -v n="$changes" '{ printf "%-7s %9.0f changes a second (median of 5)\n", w, n / $1 }'
done
awk -v f="$(median floor)" -v s="$(median single)" -v t="$(median tens)" -v q="$(median sqlite)" 'BEGIN {
  printf "a change takes %.2f times the floor; ", s / f
  printf "ten in a transaction %.1f times as many a second as SQLite\n", q / t
}'
for _ in 1 2 3 4 5 6 7 8 9; do
  seconds "$program" run --profile "$work/profile.toml" --disk "$work/disk" < /dev/null
done | sort -g | sed -n 5p |
  awk '{ printf "from start to exit on an empty script: %.1f ms (median of 9)\n", 1000 * $1 }'
