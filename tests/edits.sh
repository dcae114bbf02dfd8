#!/usr/bin/env bash
# Tries the wrong bodies that the gate leaves out, tests/edits/CRATE/*.edit, in a copy of the tree: the prover has to
# refuse each, and not only because a proof file names what the edit took away. What was proved before is used; what
# wasn't is proved first.
# Usage: tests/edits.sh [CRATE ..]. Without a word it tries those of each crate. Its last line is 'N passed, M failed';
# it ends with 0 where some were tried and none failed.
set -u
top=$(cd "$(dirname "$0")/.." && pwd)
edits=$top/tests/edits
work=$(mktemp -d)
trap 'rm -rf "$work"' EXIT
if [ $# -eq 0 ]; then
  mapfile -t crates < <(ls "$edits")
  set -- "${crates[@]}"
fi
cp -a "$top/crates" "$top/crates.txt" "$top/HANDLES" "$work" && cd "$work" || exit 1
passed=0
failed=0
for crate in "$@"; do
  [ -d "$edits/$crate" ] || continue
  rm -rf "crates/$crate/must-fail"
  cp -r "$edits/$crate" "crates/$crate/must-fail" || exit 1
  tried=$(ls "$edits/$crate" | wc -l)
  rt must-fail "$crate" 2>&1 | tee said
  refused=$(grep "must-fail $crate/.*: refused, as it must be" said | grep -vc "only because a proof file names")
  passed=$((passed + refused))
  failed=$((failed + tried - refused))
done
echo "$passed passed, $failed failed"
[ "$failed" -eq 0 ] && [ "$passed" -gt 0 ]
