#!/usr/bin/env bash
# Tries the library: its archive by both compilers, the header against the exports, the typed layers against their
# description, the sale in C, Rust and Python, which have to print the same, want of memory at each allocation in turn,
# two tills on two threads, and the stack that each export takes. valgrind looks for misuse of the heap by the library
# and by the three layers. It installs nothing, and a tool that is missing is a failure that names its package. Usage:
# tests/abi.sh. Its last line is 'N passed, M failed'.
set -u
top=$(cd "$(dirname "$0")/.." && pwd)
abi=$top/abi
archive=$top/crates/kijolvar/out/libkijolvar.a
work=$(mktemp -d)
trap 'rm -rf "$work"' EXIT
# shellcheck source=tests/common.sh
. "$top/tests/common.sh"

needs rt "the Rattle kit"
needs gcc "the Debian package gcc"
needs ar "the Debian package binutils"
needs rustc "Rust 1.89 or later (the Debian package rustc, or rustup)"
needs python3 "the Debian package python3"
needs valgrind "the Debian package valgrind"
if command -v gcc > /dev/null && [ ! -e "$(gcc -print-file-name=libasan.so)" ]; then
  echo "failed: the address sanitizer is missing: install the Debian package libgcc-$(gcc -dumpversion)-dev"
  failed=$((failed + 1))
fi
if [ "$failed" -gt 0 ]; then
  echo "$passed passed, $failed failed"
  exit 1
fi

# the interpreter itself, for valgrind: python3 may be a script that finds it
python=$(python3 -c 'import sys; print(sys.executable)')

# what a program in C has beside the archive: the heap, and the typed layer
typed=("$abi/heap.c" "$abi"/c/kij_*.c)

# links NAME SOURCE HEAP FLAG ..: builds a program in C over the archive $archive and a heap
links() {
  local name=$1 source=$2 heap=$3
  shift 3
  runs "$name is built" gcc -std=c11 -Wall -Wextra -Werror -O1 -I "$abi" -I "$abi/c" "$@" -o "$work/program" "$source" \
    $heap "$archive" -lpthread
}

# sells NAME COMMAND ..: whether a command, given a new file for totals, prints what a sale has to
sells() {
  local name=$1
  shift
  rm -f "$work/totals"
  told "$name" "$(cat "$abi/sale.stdout")" "$("$@" "$work/totals" 2>&1)"
}

# watched COMMAND ..: runs a command under valgrind, which prints each misuse of the heap, by the library too, and what
# is left there without a pointer to it. Python's own modules leave something.
watched() {
  local leaks=full
  [ "$1" != "$python" ] || leaks=no
  PYTHONMALLOC=malloc valgrind -q --error-exitcode=99 --undef-value-errors=no --leak-check="$leaks" \
    --errors-for-leak-kinds=definite "$@"
}

# reads NAME COMMAND ..: whether a program of a wrapper, watched, gives an answer that is longer than its first room
reads() {
  local name=$1
  shift
  rm -f "$work/totals"
  told "$name" "$(printf 'ready\nok\nok\nok\nok 1\nok\nok '; printf '5a%.0s' {1..400})" \
    "$(watched "$@" create "$work/totals" 'new t HardTotals' 'open t t1' 'set t DeviceEnabled true' \
      'call t create 41 400 false' 'call t setAll 1 90' 'call t read 1 0 400' 2>&1)"
}

# tries WHO FLAG ..: the examples and the tests in C over the archive
tries() {
  local who=$1
  shift
  links "$who: the sale in C" "$abi/c/sale.c" "${typed[*]}" "$@"
  sells "$who: the sale in C" "$work/program"
  links "$who: want of memory" "$abi/c/memory.c" "" "$@"
  told "$who: want of memory" "whole in the end, and nothing is left" "$("$work/program" 2>&1 | tail -n 1)"
  links "$who: short answers" "$abi/c/short.c" "$abi/heap.c" "$@"
  told "$who: short answers" "as they should be" "$("$work/program" 2>&1 | tail -n 1)"
  links "$who: devices of the host's" "$abi/c/orders.c" "${typed[*]}" "$@"
  told "$who: devices of the host's" "as they should be" "$("$work/program" 2>&1 | tail -n 1)"
  links "$who: driven devices" "$abi/c/driven.c" "" "$@"
  told "$who: driven devices" "as they should be" "$("$work/program" 2>&1 | tail -n 1)"
  links "$who: bytes of orders, and replies" "$abi/c/wire.c" "" "$@"
  told "$who: bytes of orders, and replies" "as they should be" "$("$work/program" 2>&1 | tail -n 1)"
  links "$who: the next event" "$abi/c/events.c" "$abi/heap.c" "$@"
  told "$who: the next event" "as they should be" "$("$work/program" 2>&1 | tail -n 1)"
  links "$who: two threads" "$abi/c/threads.c" "$abi/heap.c" "$@"
  told "$who: two threads" "the same" "$("$work/program" 2>&1 | tail -n 1)"
}

# watches WHO: what needs a build without a sanitizer: the sale under valgrind, and the stack
watches() {
  links "$1: the sale in C, watched" "$abi/c/sale.c" "${typed[*]}"
  sells "$1: the sale in C, watched" watched "$work/program"
  links "$1: the stack" "$abi/c/stack.c" "$abi/heap.c"
  "$work/program" "${scripts[@]}" > "$work/stack" 2>&1
  told "$1: a stack of 128 KiB" enough "$(tail -n 1 "$work/stack")"
  printf '%s: bytes of stack: %s\n' "$1" "$(paste -s -d, "$work/stack")"
}

# the console's scripts for the built-in profile
scripts=()
for expected in "$top"/tests/scripts/*.stdout; do
  [ -e "${expected%.stdout}.profile" ] || scripts+=("${expected%.stdout}")
done
[ "${#scripts[@]}" -ge 40 ]
told "scripts for the stack" 0 "$?"

told "the header is that of the exports" "$(python3 "$abi/declare.py" c)" "$(cat "$abi/kijolvar.h")"
told "the numbers for Python" "$(python3 "$abi/declare.py" python)" "$(cat "$abi/python/standard.py")"
runs "what is typed for C" python3 "$abi/typed_c.py" --check
runs "what is typed for Rust" python3 "$abi/typed_rust.py" --check

runs "the archive by LLVM" "$top/tools/libraries" archive
tries "LLVM"
watches "LLVM"
tries "LLVM under the address sanitizer" -fsanitize=address,undefined -fno-sanitize-recover

runs "the heap for Rust" gcc -Wall -Wextra -Werror -O1 -c -fPIC -o "$work/heap.o" "$abi/heap.c"
cp "$archive" "$work/libkijolvar.a"
runs "the heap is added" ar r "$work/libkijolvar.a" "$work/heap.o"
runs "the crate is built" rustc -D warnings -O --edition 2021 --crate-type rlib --crate-name kijolvar \
  -o "$work/libkijolvar.rlib" "$abi/rust/kijolvar/src/lib.rs" -L "native=$work" -l static=kijolvar
crate=(rustc -D warnings -O --edition 2021 --extern "kijolvar=$work/libkijolvar.rlib" -L "native=$work")
runs "the sale in Rust is built" "${crate[@]}" -o "$work/sale_rust" "$abi/rust/sale.rs"
sells "the sale in Rust" "$work/sale_rust"
sells "the sale in Rust, watched" watched "$work/sale_rust"
runs "the totals in Rust are built" "${crate[@]}" -o "$work/totals_rust" "$abi/rust/totals.rs"

runs "the shared object" gcc -shared -o "$work/libkijolvar.so" -Wl,--whole-archive "$work/libkijolvar.a" \
  -Wl,--no-whole-archive
export PYTHONDONTWRITEBYTECODE=1
sells "the sale in Python" python3 -W error "$abi/python/sale.py" "$work/libkijolvar.so"
links "the totals in C" "$abi/c/totals.c" "${typed[*]}"
mv "$work/program" "$work/totals_c"
reads "a long answer in C, watched" "$work/totals_c"
reads "a long answer in Rust, watched" "$work/totals_rust"
reads "a long answer in Python, watched" "$python" "$abi/python/totals.py" "$work/libkijolvar.so"
runs "what records calls is built" gcc -std=c11 -Wall -Wextra -Werror -O1 -shared -fPIC -o "$work/calls.so" \
  "$abi/c/calls.c"
python3 -W error "$top/tests/abi_files.py" "$work/libkijolvar.so" "$work/calls.so" \
  "$work/totals_c" "$work/totals_rust" \
  > "$work/files" 2>&1
told "files, and tills that are killed" "166 passed, 0 failed" "$(cat "$work/files")"

# rt lib builds it in the place of LLVM's, which is put back
cp -p "$archive" "$work/llvm.a"
runs "the archive by Rattle's own compiler" sh -c 'cd "$1" && rt lib --backend rattle' sh "$top/crates/kijolvar"
mv "$archive" "$work/rattle.a"
mv "$work/llvm.a" "$archive"
archive=$work/rattle.a
tries "Rattle's own compiler"
watches "Rattle's own compiler"

echo "$passed passed, $failed failed"
[ "$failed" -eq 0 ]
