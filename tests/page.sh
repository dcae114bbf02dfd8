#!/usr/bin/env bash
# Tries the server of abi/page. Without --server it also tries its page in a browser: a sale by clicks, and the devices
# by hand. The library is the one that rt lib builds. It needs rt, gcc and python3, and for the browser chromium, and
# installs nothing. The gate has it with --server.
# Usage: tests/page.sh [PICTURE], or tests/page.sh --server. KIJOLVAR_ARCHIVE names another library. Its last line is
# 'N passed, M failed'.
set -u
top=$(cd "$(dirname "$0")/.." && pwd)
work=$(mktemp -d)
trap 'rm -rf "$work"' EXIT
archive=${KIJOLVAR_ARCHIVE:-$top/crates/kijolvar/out/libkijolvar.a}
browser=(chromium "$@")
[ "${1:-}" != --server ] || browser=()
tools=(gcc python3 "${browser[@]:0:1}")
[ -n "${KIJOLVAR_ARCHIVE:-}" ] || tools+=(rt)
for tool in "${tools[@]}"; do
  if ! command -v "$tool" > /dev/null; then
    echo "failed: $tool isn't installed"
    echo "0 passed, 1 failed"
    exit 1
  fi
done
[ -n "${KIJOLVAR_ARCHIVE:-}" ] || "$top/tools/libraries" archive > "$work/lib" 2>&1 || tail -n 5 "$work/lib"
gcc -O1 -c -fPIC -o "$work/heap.o" "$top/abi/heap.c"
gcc -shared -o "$work/libkijolvar.so" "$work/heap.o" -Wl,--whole-archive "$archive" -Wl,--no-whole-archive
python3 -B -W error "$top/tests/page.py" "$work/libkijolvar.so" "${browser[@]}"
