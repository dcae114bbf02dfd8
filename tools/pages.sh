#!/usr/bin/env bash
# Writes what is made from the sources: the pages that tools/{contracts,calls,trust,lists,rules}.py write. Run it after
# a change of a contract, a definition or a test. With --check it compares only.
# Usage: tools/pages.sh [--check]. Its last line is 'N passed, M failed'; it ends with 0 if none failed.
set -u
cd "$(dirname "$0")/.." || exit 1
passed=0 failed=0
for tool in contracts calls trust lists rules; do
  said=$(python3 "tools/$tool.py" "$@")
  echo "$tool: $said"
  read -r good bad < <(tail -n 1 <<< "$said" | sed -n 's/^\([0-9]*\) passed, \([0-9]*\) failed$/\1 \2/p')
  passed=$((passed + ${good:-0})) failed=$((failed + ${bad:-1}))
done
echo "$passed passed, $failed failed"
[ "$failed" -eq 0 ]
