#!/usr/bin/env bash
# Says what a typed call of the Python package costs beside a bare ctypes call of the same bytes (bench/python.py).
# Usage: bench/python.sh [--small]. It needs rt, gcc and python3; it builds the library, a shared object. With --small
# it makes few calls.
set -eu
top=$(cd "$(dirname "$0")/.." && pwd)
work=$(mktemp -d)
trap 'rm -rf "$work"' EXIT

(cd "$top/crates/kijolvar" && rt lib > "$work/said" 2>&1) || { cat "$work/said" && exit 1; }
gcc -O2 -shared -fPIC -o "$work/libkijolvar.so" -Wl,--whole-archive "$top/crates/kijolvar/out/libkijolvar.a" \
  -Wl,--no-whole-archive "$top/abi/heap.c"
PYTHONDONTWRITEBYTECODE=1 python3 "$top/bench/python.py" "$work/libkijolvar.so" "$@"
