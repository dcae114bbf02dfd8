#!/usr/bin/env bash
# Tries the drivers of the Python package over an emulated printer, drawer, display and scanner (tests/devices.py says
# what), and the commands of docs/guide/attach-your-printer.md.
# Usage: tests/devices.sh [--library LIBRARY] [WORD ..]. The words are those of tests/devices.py: --faults N (150 random
# faults by default), --seed N and --only WORD. Without LIBRARY it builds one, a shared object whose heap can refuse
# memory, and needs rt and gcc. Its last line is 'N passed, M failed'.
set -u
top=$(cd "$(dirname "$0")/.." && pwd)
work=$(mktemp -d)
trap 'rm -rf "$work"' EXIT
export PYTHONDONTWRITEBYTECODE=1
library=
if [ "${1:-}" = --library ]; then
  library=$2
  shift 2
fi
if ! command -v python3 > /dev/null; then
  echo "failed: python3 is missing: install the Debian package python3"
  echo "0 passed, 1 failed"
  exit 1
fi
if [ -z "$library" ]; then
  library=$work/libkijolvar.so
  { "$top/tools/libraries" archive && gcc -O2 -shared -fPIC -o "$library" -Wl,--whole-archive \
    "$top/crates/kijolvar/out/libkijolvar.a" -Wl,--no-whole-archive "$top/abi/heap.c" "$top/tests/native/scarce_heap.c" \
    -Wl,--wrap=malloc,--wrap=calloc,--wrap=realloc; } > "$work/said" 2>&1 || {
    tail -n 5 "$work/said"
    echo "failed: the library isn't built: it needs rt, and gcc"
    echo "0 passed, 1 failed"
    exit 1
  }
fi
python3 -W error -W ignore::ResourceWarning "$top/tests/devices.py" "$library" "$@"
