#!/usr/bin/env bash
# Builds and runs every bench on a small size, and compares what it prints, without the times. It runs before a release,
# not in .ci/run. It proves nothing, and its times mean nothing. The benches in Rattle are built and run by `rt try`.
# The others run over PROGRAM, by default the one in crates/pos_console/out. It needs rt, rustc, python3, and a TMPDIR
# on a disk.
# Usage: tests/benches.sh [PROGRAM]. Its last line is 'N passed, M failed', a bench each.
set -u
top=$(cd "$(dirname "$0")/.." && pwd)
bench=$top/bench
program=$(realpath "${1:-$top/crates/pos_console/out/pos_console}")
work=$(mktemp -d)
trap 'rm -rf "$work"' EXIT
cd "$work" || exit 1
passed=0
failed=0

# told NAME FAULT: counts a bench as passed if FAULT is empty
told() {
  if [ -z "$2" ]; then
    passed=$((passed + 1))
    echo "$1: passed"
  else
    failed=$((failed + 1))
    echo "failed: $1: $2"
    tail -n 12 said
  fi
}


# compares NAME LINES: the plain program and the one in Rattle print the same LINES results
compares() {
  local fault=
  "$bench/$1.sh" --small > said 2>&1 || fault="status $?"
  sed -n '/^plain Rust$/,/^tried$/p' said | sed -n 's/ in [0-9]* us//p' > plain
  sed -n '/^tried$/,$p' said | sed -n 's/ in [0-9]* us//p' > tried
  [ "$(wc -l < plain)" -eq "$2" ] || fault="${fault:-the plain program has $(wc -l < plain) results, not $2}"
  cmp -s plain tried || fault="${fault:-$(diff plain tried | head -n 4 | tr '\n' ' ')}"
  told "$1" "$fault"
}

# counts NAME LINES PATTERN: a bench prints so many lines of this form
counts() {
  local name=$1 lines=$2 pattern=$3 fault= found
  shift 3
  "$@" > said 2>&1 || fault="status $?"
  found=$(grep -cE "$pattern" said)
  [ "$found" -eq "$lines" ] || fault="${fault:-$found results, not $lines}"
  told "$name" "$fault"
}

compares display 3
compares events 12
compares printer 6
counts ring 8 '^(plain|ring), .*: 100 in [0-9]+ us$' "$bench/ring.sh" --small
counts store 20 '^layout [12], .*, round [1-5]: [1-9][0-9]* commits a second, [0-9]+ new images$' \
  "$bench/store.sh" --small
# these two compare the texts of two programs themselves
counts run 4 ' lines a second$' "$bench/run.sh" 1000 "$program"
counts totals 2 ' lines a second$' "$bench/totals.sh" 1000 "$program"
counts file 4 '^(floor|single|tens|sqlite) .* changes a second ' "$bench/file.sh" 50 "$work" "$program"
counts typed 8 ' instructions by text, +[0-9]+ typed: [0-9.]+ times$' "$bench/typed.sh"
counts python 8 ': [0-9.]+ of a bare call$' "$bench/python.sh" --small
counts partner 2 '^(pos_console|cat) +100 lines,' "$bench/partner.py" 100 "$program"

listed=$(cd "$bench" && ls *.sh partner.py | grep -vc '^crates.sh$')
if [ "$listed" -ne $((passed + failed)) ]; then
  failed=$((failed + 1))
  echo "failed: there are $listed benches, and $((passed + failed - 1)) ran"
fi
echo "$passed passed, $failed failed"
[ "$failed" -eq 0 ]
