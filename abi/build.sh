#!/usr/bin/env bash
# Makes the archive that C, C++ and Rust programs link, and copies the headers beside it. The archive has the proved
# library (the one that rt lib built last; it is built if there is none), the heap, and the typed layer for C.
# Usage: abi/build.sh [FOLDER]; the folder is abi/out if none is given. CC is the compiler, gcc if it isn't set, and
# CFLAGS are added to its flags. KIJOLVAR_ARCHIVE names another library in place of the built one.
set -eu
top=$(cd "$(dirname "$0")/.." && pwd)
out=$(mkdir -p "${1:-$top/abi/out}" && cd "${1:-$top/abi/out}" && pwd)
library=${KIJOLVAR_ARCHIVE:-$top/crates/kijolvar/out/libkijolvar.a}
work=$(mktemp -d)
trap 'rm -rf "$work"' EXIT

[ -e "$library" ] || (cd "$top/crates/kijolvar" && rt lib)
cp "$library" "$work/libkijolvar.a"
for source in "$top"/abi/heap.c "$top"/abi/c/kij*.c; do
  # shellcheck disable=SC2086
  "${CC:-gcc}" -std=c99 -O2 -fPIC -Wall -Wextra -pedantic ${CFLAGS:-} -I "$top/abi" -I "$top/abi/c" -c \
    -o "$work/$(basename "$source" .c).o" "$source"
done
ar r "$work/libkijolvar.a" "$work"/*.o 2> /dev/null
cp "$top"/abi/kijolvar.h "$top"/abi/c/kij.h "$top"/abi/c/kij_controls.h "$out"
mv "$work/libkijolvar.a" "$out/libkijolvar.a"
