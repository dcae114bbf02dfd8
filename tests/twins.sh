#!/usr/bin/env bash
# Tries the twins of the wrong bodies: for each edit of crates/CRATE/must-fail and of tests/edits/CRATE a right body of
# the same shape, tests/twins/CRATE/NAME.edit. In a copy of the tree the twins stand in the place of the edits, and the
# prover has to let each through: then it refuses the wrong body for what it means and not for its form. What was proved
# before is used; what wasn't is proved first.
# Usage: tests/twins.sh [CRATE ..]. Without a word it tries those of each crate. An edit without a twin, and a twin
# without an edit, count as failed. Its last line is 'N passed, M failed'; it ends with 0 where some were tried and none
# failed.
set -u
top=$(cd "$(dirname "$0")/.." && pwd)
edits=$top/tests/edits
twins=$top/tests/twins
work=$(mktemp -d)
trap 'rm -rf "$work"' EXIT
if [ $# -eq 0 ]; then
  mapfile -t crates < <(cd "$top/crates" && basename -a "$edits"/* "$twins"/* && ls -d */must-fail | cut -d / -f 1)
  mapfile -t crates < <(printf '%s\n' "${crates[@]}" | sort -u)
  set -- "${crates[@]}"
fi
cp -a "$top/crates" "$top/crates.txt" "$top/HANDLES" "$work" && cd "$work" || exit 1
passed=0
failed=0
for crate in "$@"; do
  for edit in "$top/crates/$crate/must-fail"/*.edit "$edits/$crate"/*.edit; do
    name=$(basename "$edit")
    if [ -f "$edit" ] && [ ! -f "$twins/$crate/$name" ]; then
      echo "$crate/$name: no twin"
      failed=$((failed + 1))
    fi
  done
  [ -d "$twins/$crate" ] || continue
  for twin in "$twins/$crate"/*.edit; do
    name=$(basename "$twin")
    if [ ! -f "$top/crates/$crate/must-fail/$name" ] && [ ! -f "$edits/$crate/$name" ]; then
      echo "$crate/$name: a twin of no edit"
      failed=$((failed + 1))
    fi
  done
  rm -rf "crates/$crate/must-fail"
  cp -r "$twins/$crate" "crates/$crate/must-fail" || exit 1
  tried=$(ls "$twins/$crate" | wc -l)
  rt must-fail "$crate" 2>&1 | tee said
  proved=$(grep -c "must-fail $crate/.*: NOT REFUSED" said)
  passed=$((passed + proved))
  failed=$((failed + tried - proved))
done
echo "$passed passed, $failed failed"
[ "$failed" -eq 0 ] && [ "$passed" -gt 0 ]
