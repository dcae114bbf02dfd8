#!/usr/bin/env bash
# Tries the drivers of the typed layers of C and Rust over an emulated printer, drawer, display and scanner
# (tests/native.py says what): the layer of C as it is, and under the address and the undefined behaviour sanitizer;
# the crate of Rust. valgrind looks for what the layer of C forgets, tests/native/system.c tries what only the system
# can do, tests/native/memory.c what the library says without memory, and tests/native/cost.c says what an order costs.
# tests/native/preloaded.c changes what the system does for a host, and tests/native/other_version.c which version the
# library has.
# The line before its last says how often a test ran again, since the machine stood still. It installs nothing, and a
# missing tool is a failure that names its package.
# Usage: tests/native.sh [WORD ..]. The words are those of tests/native.py: --faults N (100 random faults by default),
# --seed N, --only WORD. KIJOLVAR_ARCHIVE names a library in place of the one that rt lib builds. Its last line is
# 'N passed, M failed'.
set -u
top=$(cd "$(dirname "$0")/.." && pwd)
abi=$top/abi
here=$top/tests/native
work=$(mktemp -d)
trap 'rm -rf "$work"' EXIT
export PYTHONDONTWRITEBYTECODE=1
# shellcheck source=tests/common.sh
. "$top/tests/common.sh"
count_runs_again

# times NAME COMMAND ..: whether a command ends well that takes time: it runs again if it fails while the machine stands
# still
times() {
  local name=$1
  shift
  runs "$name" python3 "$top/tests/checks.py" "$@"
}

[ -n "${KIJOLVAR_ARCHIVE:-}" ] || needs rt "the Rattle kit"
needs gcc "the Debian package gcc"
needs g++ "the Debian package g++"
needs ar "the Debian package binutils"
needs cargo "Rust 1.89 or later with cargo (rustup)"
needs cargo-clippy "clippy (rustup component add clippy)"
needs python3 "the Debian package python3"
needs valgrind "the Debian package valgrind"
if [ "$failed" -gt 0 ]; then
  echo "$passed passed, $failed failed"
  exit 1
fi

# tries NAME HOST WORD ..: begins what tests/native.py does with a host. Most of it is waiting, so three run at a time
# for each processor
names=()
tries() {
  while [ "$(jobs -rp | wc -l)" -ge $((3 * $(nproc))) ]; do
    wait -n
  done
  names+=("$1")
  python3 -W error -W ignore::ResourceWarning "$top/tests/native.py" "$@" > "$work/tried-${#names[@]}" 2>&1 &
}

# collects: waits for what was begun, and adds up its checks
collects() {
  local number line
  wait
  for number in "${!names[@]}"; do
    line=$(tail -n 1 "$work/tried-$((number + 1))")
    if [[ $line =~ ^([0-9]+)\ passed,\ ([0-9]+)\ failed$ ]]; then
      passed=$((passed + BASH_REMATCH[1]))
      failed=$((failed + BASH_REMATCH[2]))
      head -n -1 "$work/tried-$((number + 1))"
      echo "${names[number]}: $line"
    else
      told "${names[number]}: the tests end" "N passed, M failed" "$(tail -n 12 "$work/tried-$((number + 1))")"
    fi
  done
}

[ -n "${KIJOLVAR_ARCHIVE:-}" ] || "$top/tools/libraries" archive > "$work/said" 2>&1
told "the library" 0 "$?"
runs "the archive" env CFLAGS="-Werror" "$abi/build.sh" "$work"
strict=(-Wall -Wextra -Werror -pedantic -I "$abi" -I "$abi/c")
runs "the heap is built" gcc -O1 -c -o "$work/heap.o" "$abi/heap.c"
bare=("$work/heap.o" "${KIJOLVAR_ARCHIVE:-$top/crates/kijolvar/out/libkijolvar.a}" -lpthread)

runs "the host in C is built" gcc -std=c99 "${strict[@]}" -O1 -g -o "$work/host" "$here/host.c" "$work/libkijolvar.a"
runs "the host in C is built with sanitizers" gcc -std=c99 "${strict[@]}" -O1 -g -fsanitize=address,undefined \
  -fno-sanitize-recover -o "$work/checked" "$here/host.c" "$abi"/c/kij_*.c "${bare[@]}"
runs "the host in C is built with a heap" gcc -std=c99 "${strict[@]}" -O1 -g -DHOST_HAS_HEAP -o "$work/heap" \
  "$here/host.c" "$here/scarce_heap.c" "$work/libkijolvar.a" -Wl,--wrap=malloc,--wrap=calloc,--wrap=realloc
runs "what measures the cost is built" gcc -std=c99 "${strict[@]}" -O2 -o "$work/cost" "$here/cost.c" \
  "$work/libkijolvar.a"
runs "what tries the system is built" gcc -std=c99 "${strict[@]}" -O1 -g -fsanitize=address,undefined \
  -fno-sanitize-recover -o "$work/system" "$here/system.c" "$abi"/c/kij_*.c "${bare[@]}" \
  -Wl,--wrap=getaddrinfo,--wrap=fsync,--wrap=pread,--wrap=pwrite,--wrap=ioctl,--wrap=tcflush \
  -Wl,--wrap=statx,--wrap=socket,--wrap=poll,--wrap=linkat,--wrap=renameat
times "ports and files where the system does less" sh -c 'rm -rf "$2" && mkdir "$2" && "$1" "$2"' sh "$work/system" \
  "$work/files"
runs "what tries want of memory is built" gcc -std=c99 "${strict[@]}" -O1 -g -fsanitize=address,undefined \
  -fno-sanitize-recover -o "$work/memory" "$here/memory.c" "$abi"/c/kij_*.c -Wl,--wrap=malloc,--wrap=realloc
times "lines that are held where memory runs out" "$work/memory"
runs "the host in C++17 is built" g++ -std=c++17 "${strict[@]}" -O1 -x c++ "$here/host.c" "$abi"/c/kij_*.c -x none \
  -o "$work/plus" "${bare[@]}"
runs "what is preloaded is built" gcc -std=c99 "${strict[@]}" -O1 -shared -fPIC -o "$work/preloaded.so" \
  "$here/preloaded.c"
cat > "$work/watched" <<END
#!/bin/sh
exec valgrind -q --error-exitcode=99 --undef-value-errors=no --leak-check=full --sim-hints=lax-ioctls "$work/host" "\$@"
END
chmod +x "$work/watched"

export KIJOLVAR_LIB=$work CARGO_TARGET_DIR=$work/target CARGO_NET_OFFLINE=true
runs "clippy, the host in Rust" cargo clippy -q --offline --manifest-path "$here/rust/Cargo.toml" -- -D warnings
runs "the host in Rust is built" cargo build -q --offline --release --manifest-path "$here/rust/Cargo.toml"
runs "the heap of the library is built" gcc -std=c99 "${strict[@]}" -O1 -DHEAP_OF_LIBRARY -c -o "$work/scarce.o" \
  "$here/scarce_heap.c"
runs "the host in Rust is built with a heap" env CARGO_TARGET_DIR="$work/heaped" cargo rustc -q --offline --release \
  --features heap --manifest-path "$here/rust/Cargo.toml" -- -C link-arg="$work/scarce.o" \
  -C link-arg=-Wl,--wrap=rattle_alloc,--wrap=rattle_realloc

runs "the library of another version is built" gcc -std=c99 "${strict[@]}" -O1 -c -o "$work/other.o" \
  "$here/other_version.c"
runs "the host in C is built over it" gcc -std=c99 "${strict[@]}" -O1 -o "$work/old" "$here/host.c" "$work/other.o" \
  "$work/libkijolvar.a" -Wl,--wrap=kijolvar_version
runs "the host in Rust is built over it" env CARGO_TARGET_DIR="$work/other" cargo rustc -q --offline --release \
  --manifest-path "$here/rust/Cargo.toml" -- -C link-arg="$work/other.o" -C link-arg=-Wl,--wrap=kijolvar_version
for host in "$work/old" "$work/other/release/host"; do
  told "over a library of another version no call begins anything" \
    "$(printf 'KIJ_WRONG_VERSION %.0s' {1..7})no file" \
    "$("$host" begin "$work/none" 2>&1 | paste -s -d' ') $([ -e "$work/none" ] && echo "a file" || echo "no file")"
done

# (those that take longest first)
tries "C" "$work/host" --preloaded "$work/preloaded.so" "$@"
tries "C with sanitizers" "$work/checked" "$@"
tries "Rust" "$work/target/release/host" --preloaded "$work/preloaded.so" "$@"
for word in plain display scanner drawer; do
  tries "C, watched: $word" "$work/watched" --slack 8 "$@" --only "$word"
done
tries "C, want of memory" "$work/heap" "$@" --only memory
tries "C++" "$work/plus" "$@" --only plain
tries "Rust, want of memory" "$work/heaped/release/host" "$@" --only memory
collects

# nothing else of this runs meanwhile
coproc emulator { python3 "$top/tests/emulator" printer --path "$work/port" --lines 100000; }
to_emulator=${emulator[1]}
read -r port <&"${emulator[0]}"
python3 "$top/tests/checks.py" "$work/cost" "$port"
told "an order in C costs at most 1.3 times a bare round trip" 0 "$?"
exec {to_emulator}>&-
wait

tell_runs_again
echo "$passed passed, $failed failed"
[ "$failed" -eq 0 ]
