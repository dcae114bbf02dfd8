#!/usr/bin/env bash
# Counts the instructions of a call in C by text and by the typed layer, with callgrind: those of 2,000 calls less those
# of 1,000. By text the line is ready, and its answer isn't read; the typed layer writes the line and reads the answer.
# It prints both counts and their ratio for each case, and names the cases above 1.15. It ends with 1 if all cases
# together are above 1.15. Usage: bench/typed.sh [FOLDER], with a folder that abi/build.sh made; without it one is made.
# It needs gcc and valgrind, and rt to make one.
set -eu
top=$(cd "$(dirname "$0")/.." && pwd)
work=$(mktemp -d)
trap 'rm -rf "$work"' EXIT
built=${1:-$work/built}
if [ ! -e "$built/libkijolvar.a" ]; then
  [ -n "${KIJOLVAR_ARCHIVE:-}" ] || (cd "$top/crates/kijolvar" && rt lib > /dev/null)
  "$top/abi/build.sh" "$built"
fi
gcc -std=c99 -Wall -Wextra -Werror -O2 -I "$built" -o "$work/typed" "$top/bench/typed.c" "$built/libkijolvar.a"

# instructions CASE HOW COUNT: those of a run
instructions() {
  valgrind --tool=callgrind --callgrind-out-file=/dev/null "$work/typed" "$@" 2>&1 |
    awk '/refs:/ { gsub(",", ""); print $NF }'
}

for case in $("$work/typed" cases); do
  for how in text typed; do
    few=$(instructions "$case" "$how" 1000)
    many=$(instructions "$case" "$how" 2000)
    echo $(((many - few) / 1000))
  done | paste -s -d' ' | sed "s/^/$case /"
done | awk '
  { printf "%-14s %7d instructions by text, %7d typed: %.3f times\n", $1, $2, $3, $3 / $2; text += $2; typed += $3
    if ($3 > 1.15 * $2) worse = worse " " $1 }
  END { printf "%-14s %7d instructions by text, %7d typed: %.3f times\n", "together", text, typed, typed / text
    if (worse != "") print "above 1.15 times:" worse
    exit typed > 1.15 * text }'
