#!/usr/bin/env bash
# Plants wrong bodies in the functions of a crate, in a copy of the tree, and compares those that the contracts let
# through with tests/plant/CRATE, the list of those that are known and right. `rt plant --help` says which bodies it
# plants, and what the words proves, no-ensures and untested mean. The lists have its lines without the number of the
# line, and behind ` -- ` of each why it is right; a line without a reason fails.
# Usage: tests/plant.sh [--keep] [CRATE ..]. Without a crate it takes each that has a list; with --keep it writes the
# lists, with the reasons that were there and ` -- ?` behind what is new.
# A body takes a few seconds. A batch that takes over 240 isn't judged, so for the largest crates the machine has to be
# idle. The last line is 'N passed, M failed', a crate each; it ends with 0 where none failed.
set -u
top=$(cd "$(dirname "$0")/.." && pwd)
lists=$top/tests/plant
work=$(mktemp -d)
trap 'rm -rf "$work"' EXIT
keeps=
if [ "${1:-}" = --keep ]; then
  keeps=yes
  shift
fi
if [ $# -eq 0 ]; then
  mapfile -t crates < <(ls "$lists")
  set -- "${crates[@]}"
fi
cp -a "$top/crates" "$top/crates.txt" "$top/HANDLES" "$work" && cd "$work" || exit 1
passed=0
failed=0

# plant CRATE: writes the list of a crate to the file `found`; whether the crate is proved and each body was tried
plant() {
  (cd "crates/$1" && rt plant --jobs 1 --max 100000 --minutes 100000) > said || return 1
  tail -n 1 said
  grep -E '^(proves|no-ensures|untested) ' said | sed -E 's/^(\S+ +\S+):[0-9]+ /\1 /' | LC_ALL=C sort > found
  ! grep -q '^note: the crate is not proved' said && grep -q '^plants .* not-run=0$' said
}

# keep LIST: prints what was found, with the reasons of the list
keep() {
  awk '
    FILENAME == ARGV[1] { at = index($0, " -- "); if (at > 0) why[substr($0, 1, at - 1)] = substr($0, at); next }
    { print $0 (($0 in why) ? why[$0] : " -- ?") }
  ' "$1" found
}

for crate in "$@"; do
  if ! plant "$crate"; then
    echo "$crate: it is not proved, or not each body was tried"
    failed=$((failed + 1))
    continue
  fi
  if [ -n "$keeps" ]; then
    touch "$lists/$crate"
    keep "$lists/$crate" > kept
    cp kept "$lists/$crate"
  fi
  if ! diff <(sed 's/ -- .*//' "$lists/$crate") found; then
    echo "$crate: the lines with > are let through now, those with < no longer"
    failed=$((failed + 1))
  elif grep -vE ' -- [^ ?]' "$lists/$crate"; then
    echo "$crate: these lines have no reason"
    failed=$((failed + 1))
  else
    passed=$((passed + 1))
  fi
done
echo "$passed passed, $failed failed"
[ "$failed" -eq 0 ] && [ "$passed" -gt 0 ]
