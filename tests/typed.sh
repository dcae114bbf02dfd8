#!/usr/bin/env bash
# Tries the typed calls of C, C++ and Rust:
# - what is written from the description is as the description says;
# - the headers and the layer are C99 and C++17 without a warning;
# - each script of tests/scripts gives the same answers by typed calls;
# - want of memory at each allocation in turn, and what the layer refuses;
# - examples/sale.* print the same, and the one in C refuses an unknown article and one too many;
# - examples/TypedTill.java and examples/till.mjs, which drive the program over a pipe, print the same, if a JDK or Node
#   is there. If not, it says that they are skipped;
# - the tests of the crate and of its documentation, and clippy;
# - what a typed call in C costs beside one by text (bench/typed.sh).
# valgrind looks for misuse of the heap. It installs nothing, and a missing tool is a failure that names its package.
# Usage: tests/typed.sh [-v] [PROGRAM]. PROGRAM is by default the one in crates/pos_console/out. -v lists the lines of
# scripts that have no typed call. KIJOLVAR_ARCHIVE names a library in place of the one that rt lib builds. Its last
# line is 'N passed, M failed'.
set -u
top=$(cd "$(dirname "$0")/.." && pwd)
abi=$top/abi
here=$top/tests/typed
list=
[ "${1:-}" != -v ] || { list=list; shift; }
program=$(realpath -m "${1:-$top/crates/pos_console/out/pos_console}")
work=$(mktemp -d)
trap 'rm -rf "$work"' EXIT
# shellcheck source=tests/common.sh
. "$top/tests/common.sh"
count_runs_again

[ -n "${KIJOLVAR_ARCHIVE:-}" ] || needs rt "the Rattle kit"
needs gcc "the Debian package gcc"
needs g++ "the Debian package g++"
needs ar "the Debian package binutils"
needs cargo "Rust 1.89 or later with cargo (rustup)"
needs cargo-clippy "clippy (rustup component add clippy)"
needs python3 "the Debian package python3"
needs valgrind "the Debian package valgrind"
if [ ! -x "$program" ]; then
  echo "failed: $program is missing: build it by (cd crates/pos_console && rt run < /dev/null)"
  failed=$((failed + 1))
fi
if [ "$failed" -gt 0 ]; then
  echo "$passed passed, $failed failed"
  exit 1
fi

# watched COMMAND ..: runs a command under valgrind, which prints each misuse of the heap and each leak
watched() {
  valgrind -q --error-exitcode=99 --undef-value-errors=no --leak-check=full \
    --errors-for-leak-kinds=definite,possible "$@"
}

# ends NAME LINE COMMAND ..: whether a command ends well, with this last line
ends() {
  local name=$1 line=$2
  shift 2
  told "$name" "$line" "$("$@" 2>&1 | tail -n 1)"
}

# sells NAME COMMAND ..: whether a command, given a new file for totals, prints what a sale has to
sells() {
  local name=$1
  shift
  rm -f "$work/sold"
  told "$name" "$(cat "$top/examples/sale.stdout")" "$("$@" "$work/sold" 2>&1)"
}

# scripts NAME RUN: whether each script gives the same answers by typed calls
scripts() {
  python3 "$here/scripts.py" "$1" "$2" "$work/totals" "$program" ${list:+"$list"} > "$work/scripts" 2>&1
  grep -av ' passed, ' "$work/scripts"
  told "$1: each script" "$wanted passed, 0 failed" "$(tail -n 1 "$work/scripts")"
}

runs "the description is that of the definitions" python3 "$abi/describe.py" --check
runs "what is typed for C" python3 "$abi/typed_c.py" --check
runs "what is typed for Rust" python3 "$abi/typed_rust.py" --check
# DeviceEnabled and six methods of totals write the file
texts=("$abi/c/kij_controls.h" "$abi/rust/kijolvar/src/controls.rs")
told "a failed disk has a code of its own in what is typed, and no E_FAILURE" "7 7 0" \
  "$(grep -c 'KIJ_DISK_FAILED:\? [Tt]he disk failed' "${texts[0]}") \
$(grep -c 'Cause::DiskFailed`\]: the disk failed' "${texts[1]}") $(cat "${texts[@]}" | grep -c 'FAILURE.*disk failed')"

strict=(-Wall -Wextra -Werror -pedantic)
bare=${KIJOLVAR_ARCHIVE:-$top/crates/kijolvar/out/libkijolvar.a}
[ -n "${KIJOLVAR_ARCHIVE:-}" ] || "$top/tools/libraries" archive > "$work/said" 2>&1
told "the library" 0 "$?"
runs "the archive" env CFLAGS="-Werror" "$abi/build.sh" "$work"
for header in kij.h kij_controls.h kijolvar.h; do
  echo "#include \"$header\"" > "$work/header.c"
  runs "$header in C99" gcc -std=c99 "${strict[@]}" -I "$work" -fsyntax-only "$work/header.c"
  runs "$header in C++17" g++ -x c++ -std=c++17 "${strict[@]}" -I "$work" -fsyntax-only "$work/header.c"
done

# links NAME OUT SOURCE FLAG ..: builds a program in C99 over the archive
links() {
  local name=$1 out=$2 source=$3
  shift 3
  runs "$name is built" gcc -std=c99 "${strict[@]}" -O1 -g -I "$work" -o "$work/$out" "$source" "$@" \
    "$work/libkijolvar.a" -lpthread
}

links "what runs scripts" run "$here/run.c"
links "what formats files" totals "$abi/c/totals.c" -D_GNU_SOURCE
links "the sale" sale "$top/examples/sale.c"
links "misuse" misuse "$here/misuse.c"
links "want of memory" memory "$here/memory.c" -Wl,--wrap=malloc,--wrap=calloc,--wrap=realloc,--wrap=free
# the layer and its callers as C++, over the bare library
plus=(g++ -std=c++17 "${strict[@]}" -O1 -g -I "$abi" -I "$abi/c" -x c++ "$abi"/c/kij_*.c)
runs "the heap is built" gcc -O1 -c -o "$work/heap.o" "$abi/heap.c"
heap=("$work/heap.o" "$bare" -lpthread)
for source in "$here/run.c" "$here/misuse.c" "$top/examples/sale.c"; do
  name=$(basename "$source" .c)
  runs "$name in C++17" "${plus[@]}" "$source" -x none -o "$work/plus_$name" "${heap[@]}"
done

for name in misuse basket; do
  runs "$name with sanitizers is built" gcc -std=c99 "${strict[@]}" -O1 -g -fsanitize=address,undefined \
    -fno-sanitize-recover -I "$abi" -I "$abi/c" -o "$work/checked_$name" "$here/$name.c" "$abi"/c/kij_*.c "${heap[@]}"
done

# how many runs there are of scripts: one for each, or for each of its disks
wanted=$(python3 "$here/scripts.py" --count)
[ "$wanted" -gt 100 ]
told "there are more than 100 scripts for each language" 0 "$?"
runs "what runs scripts, without SSE2, is built" gcc -std=c99 "${strict[@]}" -U__SSE2__ -O1 -I "$abi" -I "$abi/c" \
  -o "$work/scalar" "$here/run.c" "$abi"/c/kij_*.c "${heap[@]}"
scripts "C" "$work/run"
scripts "C without SSE2" "$work/scalar"
scripts "C++" "$work/plus_run"
rm -f "$work/disk"
"$work/totals" create "$work/disk" > /dev/null
for script in printer.errors scanner.errors display.scroll console.shapes; do
  watched "$work/run" - - < "$top/tests/scripts/$script" > "$work/said" 2> "$work/wrong"
  told "C, watched: $script" 0 "$?"
done
watched "$work/run" "$top/tests/scripts/totals.transactions.profile" "$work/disk" \
  < "$top/tests/scripts/totals.transactions" > "$work/said" 2> "$work/wrong"
told "C, watched: totals.transactions" 0 "$?"

ends "misuse in C" "as they should be" "$work/misuse" "$work/asked"
ends "misuse in C++" "as they should be" "$work/plus_misuse" "$work/asked"
ends "misuse in C with sanitizers" "as they should be" "$work/checked_misuse" "$work/asked"
ends "want of memory" "whole in the end, and nothing is left" "$work/memory" "$work/remembered"
sells "the sale in C" "$work/sale"
sells "the sale in C++" "$work/plus_sale"
sells "the sale in C, watched" watched "$work/sale"
told "the sale in C with an unknown article, and a full basket" \
  "$(printf '%s\n' "Unknown article     Total           0.00" "The basket is full  Total          11.12")" \
  "$("$work/checked_basket" 2>&1 | sed -n '1p;$p')"

export KIJOLVAR_LIB=$work CARGO_TARGET_DIR=$work/target CARGO_NET_OFFLINE=true
crate=$abi/rust/kijolvar
runs "the crate is built" cargo build -q --offline --release --examples --manifest-path "$crate/Cargo.toml"
runs "clippy, the crate" cargo clippy -q --offline --all-targets --manifest-path "$crate/Cargo.toml" -- -D warnings
runs "clippy, what runs scripts" cargo clippy -q --offline --manifest-path "$here/rust/Cargo.toml" -- -D warnings
runs "the documentation" env RUSTDOCFLAGS="-D warnings" cargo doc -q --offline --manifest-path "$crate/Cargo.toml"
# (those of its code take time: they run again if they fail while the machine stands still)
cargo test --offline --no-run --manifest-path "$crate/Cargo.toml" > "$work/built" 2>&1
{
  python3 "$top/tests/checks.py" cargo test --offline --lib --tests --manifest-path "$crate/Cargo.toml" \
    2> "$work/before"
  cargo test --offline --doc --manifest-path "$crate/Cargo.toml" 2>&1
} > "$work/said"
cat "$work/before"
grep -a -A 6 "panicked at\|^error" "$work/said"
told "the crate's tests" "0 failed; 0 failed; 0 failed" \
  "$(grep -o '[0-9]* failed' "$work/said" | paste -s -d';' | sed 's/;/; /g')"
told "the crate's tests ran" "26 passed 65 passed 23 passed" "$(grep -o '[0-9]* passed' "$work/said" | paste -s -d' ')"
(cd "$here/rust" && KIJOLVAR_LIB=nowhere cargo build -q --offline > "$work/said" 2>&1)
told "a crate without the archive says where it looked" 1 \
  "$(grep -c '/abi/rust/kijolvar/nowhere"\]: make it by abi/build.sh' "$work/said")"
runs "what runs scripts in Rust" cargo build -q --offline --release --manifest-path "$here/rust/Cargo.toml"
scripts "Rust" "$work/target/release/run"
sells "the sale in Rust" "$work/target/release/examples/sale"
sells "the sale in Rust, watched" watched "$work/target/release/examples/sale"

# pipes LANGUAGE TOOL COMMAND ..: whether a sale over a pipe prints what it has to, twice over the same file of totals
pipes() {
  local name=$1 tool=$2 round said='' wanted=''
  shift 2
  if ! command -v "$tool" > /dev/null; then
    echo "1 skipped: the sale over a pipe in $name: $tool is missing"
    return
  fi
  rm -rf "$work/pipe"
  mkdir "$work/pipe"
  for round in 1 2; do
    said+=$("$@" "$program" "$work/pipe" 2>&1)$'\n'
    wanted+=$(sed "s/SALES 450, COUNT 1$/SALES $((450 * round)), COUNT $round/" "$top/examples/pipe.stdout")$'\n'
  done
  told "the sale over a pipe in $name, twice" "$wanted" "$said"
}

pipes "Java, in a locale of other digits" javac java -Xshare:auto -Duser.language=ar -Duser.country=EG \
  "$top/examples/TypedTill.java"
pipes "Node" node node "$top/examples/till.mjs"

"$top/bench/typed.sh" "$work" > "$work/costs" 2>&1
told "a typed call in C costs at most 1.15 times one by text" 0 "$?"
cat "$work/costs"

tell_runs_again
echo "$passed passed, $failed failed"
[ "$failed" -eq 0 ]
