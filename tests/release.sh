#!/usr/bin/env bash
# Tries a release: what its files hold, and each way to install it where the kit isn't there. It unpacks, spends the day
# of the archive's README, and rings up the same sale by the shared object, the archive, CMake, the wheel and the crate.
# With --quick it does so with a clean PATH and HOME. It also builds the release again, which must give the same bytes,
# tries tools/install, and sees that tools/release refuses what it must. Without --quick it does so in ROOTS/bookworm,
# which has nothing but Debian's packages. It installs, upgrades and purges those of the release there, and tries the
# programs in ROOTS/bullseye, which has glibc 2.31. A root that isn't there is made by debootstrap, over the network. It
# then looks for misuse of memory by valgrind and the sanitizers, runs the conformance scripts, and asks lintian.
# Usage: tests/release.sh --quick [DIST], or tests/release.sh ROOTS [DIST]. DIST is the folder of the release. Without
# it, it is dist/ if that is of this commit; else a trial is made from what rt ci has built. Its last line is
# 'N passed, M failed'.
set -u
top=$(cd "$(dirname "$0")/.." && pwd)
work=$(mktemp -d)
root=
mounts=()
# shellcheck source=tests/common.sh
. "$top/tests/common.sh"
export PYTHONDONTWRITEBYTECODE=1

# leave_root: takes out of the root what this put there
leave_root() {
  local at
  for at in "${mounts[@]}"; do
    umount "$at"
  done
  mounts=()
  [ -z "$root" ] || rm -rf "$root/tmp/release"
  [ ! -d "$root/opt/rust" ] || rmdir "$root/opt/rust"
}

# enter_root FOLDER: makes a root the place where commands run
enter_root() {
  root=$1
  mount -t proc proc "$root/proc" && mounts+=("$root/proc")
}

# shellcheck disable=SC2317
# leave: removes what this made
leave() {
  leave_root
  rm -rf "$work"
}
trap leave EXIT

# finish: prints the counts, and ends
finish() {
  echo "$passed passed, $failed failed"
  [ "$failed" -eq 0 ]
  exit
}

# ---- the release

# take_object CRATE WORD ..: puts a program's object into that folder. If rt ci kept the program alone, rt run makes it
take_object() {
  local crate=$1 object=$top/crates/$1/out/$1.o
  shift
  grep -q "^$crate:" "$top/crates.txt" || return 0
  [ -f "$object" ] || (cd "$top/crates/$crate" && rt run "$@" < /dev/null > /dev/null 2>&1)
  cp "$object" "$work/built"
}

# snapshot: puts what rt has built into a folder, from which a trial is made
snapshot() {
  local object
  [ -z "${KIJOLVAR_BUILT:-}" ] || return 0
  mkdir "$work/built"
  "$top/tools/libraries" archive > "$work/said" 2>&1
  told "the library is built" 0 "$?"
  cp "$top/crates/kijolvar/out/libkijolvar.a" "$work/built"
  take_object pos_console
  take_object pos_tool -- version
  export KIJOLVAR_BUILT=$work/built
}

# listed DIST: the files of a release, as its SHA256SUMS has them
listed() {
  sed 's/^[0-9a-f]*  //' "$1/SHA256SUMS"
}

# is_of_this_commit DIST: whether a release is of the commit that is checked out
is_of_this_commit() {
  local archive
  archive=$1/$(listed "$1" 2> /dev/null | grep -- '-x86_64-linux-gnu\.tar\.gz$')
  [ -f "$archive" ] && tar -xOzf "$archive" --wildcards '*/MANIFEST' \
    | grep -qx "commit: $(git -C "$top" rev-parse HEAD)"
}

# find_release DIST: sets dist, and how it is built again; makes a trial if there is no release
find_release() {
  dist=${1:-$top/dist}
  again=()
  if [ -n "$1" ] || is_of_this_commit "$dist"; then
    echo "the release is that of $dist"
  else
    echo "there is no release of this commit, so this is a trial"
    dist=$work/dist
    again=(--trial)
    snapshot
    "$top/tools/release" --trial "$dist" > "$work/said" 2>&1
    told "a trial is made" 0 "$?"
    [ -f "$dist/SHA256SUMS" ] || { tail -n 5 "$work/said" && finish; }
  fi
  dist=$(cd "$dist" && pwd)
}

# unpack: sets outside, a folder with the files of the release and its archive unpacked. What runs there sees it as
# inside
unpack() {
  outside=${root:-$work}/tmp/release
  inside=${outside#"$root"}
  mkdir -p "$outside/home"
  listed "$dist" | (cd "$dist" && xargs cp -t "$outside" SHA256SUMS)
  tar -xzf "$outside"/kijolvar-*-x86_64-linux-gnu.tar.gz -C "$outside"
  tree=$(cd "$outside"/kijolvar-*-x86_64-linux-gnu && pwd)
  version=$(sed -n '1s/^kijolvar //p' "$tree/MANIFEST")
  major=${version%%.*}
  examples=$tree/share/doc/kijolvar/examples
  sale=$(cat "$examples/sale.stdout")
}

# ---- the environment

# lay_tools: a folder with the tools that aren't in /usr/bin: Python with venv, and Rust
lay_tools() {
  local rust
  rust=$(rustc --print sysroot)
  if [ -n "$root" ]; then
    mkdir -p "$root/opt/rust"
    mount --bind "$rust" "$root/opt/rust" && mounts+=("$root/opt/rust")
    mount -o remount,bind,ro "$root/opt/rust"
  else
    mkdir "$work/tools"
    ln -s "$rust/bin/cargo" "$rust/bin/rustc" "$work/tools"
    ln -s "$(python3 -c 'import sys; print(sys.executable)')" "$work/tools/python3"
  fi
}

# apart COMMAND ..: runs a command without the kit, in the root or with a clean PATH and HOME, in the folder of the
# release
apart() {
  local run=(env -i "HOME=$inside/home" LC_ALL=C.UTF-8)
  if [ -n "$root" ]; then
    run=(chroot "$root" "${run[@]}" PATH=/opt/rust/bin:/usr/sbin:/usr/bin:/sbin:/bin)
  else
    run+=("PATH=$work/tools:/usr/sbin:/usr/bin:/sbin:/bin")
  fi
  # shellcheck disable=SC2016
  "${run[@]}" sh -c 'cd "$0" && exec "$@"' "$inside" "$@"
}

# sells NAME COMMAND ..: whether a command, given a new file for totals, prints the sale
sells() {
  local name=$1
  shift
  rm -f "$outside/totals"
  told "$name" "$sale" "$(apart "$@" "$inside/totals" 2>&1)"
}

# runs NAME COMMAND ..: whether a command ends well there
runs() {
  local name=$1
  shift
  apart "$@" > "$work/said" 2>&1
  set -- "$?"
  told "$name" 0 "$1"
  [ "$1" -eq 0 ] || tail -n 5 "$work/said"
}

# ---- what the files hold

# try_places: README lists exactly the places of the archive
try_places() {
  local places
  places=$(sed -n '/^## What is in it$/,/^## A till/s/^| \(`[^|]*\) | .*/\1/p' "$tree/README.md" \
    | tr -d '`,' | tr ' ' '\n')
  # (no place at all would fit each file)
  places=${places:-none}
  told "each file of the archive is in a place that README lists" "" \
    "$(find "$tree" ! -type d -printf '%P\n' | grep -vE "^($(paste -s -d'|' <<< "$places"))")"
  told "each place that README lists is there" "" \
    "$(cd "$tree" && xargs -I PLACE find PLACE -prune <<< "$places" 2>&1 > /dev/null)"
}

# try_files: the checksums, the manifest, and what the binaries export and need
try_files() {
  local shared=$tree/lib/libkijolvar.so.$major sum='[0-9a-f]\{64\}' said="kijolvar $version, commit " file
  said+=$(sed -n 's/^commit: //p' "$tree/MANIFEST")
  told "SHA256SUMS" 0 "$(cd "$dist" && sha256sum --quiet -c SHA256SUMS 2>&1; echo $?)"
  told "its files are those of packaging.md" \
    "$(sed -n "s/^| \`\([^\`]*VERSION[^\`]*\)\` .*/\1/p" "$tree/share/doc/kijolvar/packaging/README.md" \
      | sed "s/VERSION/$version/" | LC_ALL=C sort)" \
    "$(listed "$dist")"
  told "the manifest's checksums" 0 "$(cd "$tree" && sed -n "s/^\($sum\) *[0-9]* \(.*\)$/\1  \2/p" MANIFEST \
    | sha256sum --quiet -c 2>&1; echo $?)"
  told "the manifest's files" \
    "$(find "$tree" -type f ! -name MANIFEST -printf '%P\n' | LC_ALL=C sort)" \
    "$(sed -n "s/^$sum *[0-9]* //p" "$tree/MANIFEST")"
  told "the exports are the calls of the headers" "$(declared | LC_ALL=C sort -u)" \
    "$(nm -D --defined-only "$shared" | sed -n 's/^[0-9a-f]* T \(.*\)@@.*/\1/p' | LC_ALL=C sort)"
  told "no other name is exported" "" \
    "$(nm -D --defined-only "$shared" | grep -v ' T \(kij_\|kijolvar_\)\| A KIJOLVAR_')"
  told "the soname" "libkijolvar.so.$major" "$(readelf -dW "$shared" | sed -n 's/.*SONAME.*\[\(.*\)\]/\1/p')"
  for file in "$tree"/bin/* "$shared"; do
    told "${file##*/} needs glibc alone" "libc.so.6" \
      "$(readelf -dW "$file" | sed -n 's/.*NEEDED.*\[\(.*\)\]/\1/p' | grep -vx libm.so.6)"
    told "${file##*/} asks for no glibc after 2.31" "GLIBC_2.31" \
      "$( (readelf -VW "$file" | grep -o 'GLIBC_[0-9.]*'; echo GLIBC_2.31) | sort -V | tail -n 1)"
    told "${file##*/} says its version and commit" "$said" "$(strings -a "$file" | grep '^kijolvar [0-9.]*, commit')"
  done
  told "the wheel has the shared object" "$(sha256sum < "$shared")" \
    "$(unzip_one "$outside"/*.whl kijolvar/libkijolvar.so | sha256sum)"
  told "the crate has the archive" "$(sha256sum < "$tree/lib/libkijolvar.a")" \
    "$(tar -xOzf "$outside/kijolvar-$version.crate" "kijolvar-$version/libkijolvar.a" | sha256sum)"
  told "the sdist has no library" "" "$(tar -tzf "$outside/kijolvar-$version.tar.gz" | grep '\.so')"
  for file in man/man1/kijolvar.1 bash-completion/completions/kijolvar zsh/site-functions/_kijolvar \
    fish/vendor_completions.d/kijolvar.fish; do
    told "share/$file is what kijolvar prints" yes "$(grep -q salvage "$tree/share/$file" && echo yes)"
  done
  told "bash reads the completions" 0 "$(bash -n "$tree/share/bash-completion/completions/kijolvar" 2>&1; echo $?)"
  told "the licence is left open" 4 "$(grep -li 'licence has been chosen yet\|none has been chosen yet' \
    "$tree/README.md" "$tree/MANIFEST" "$top/packaging/python.md" "$top/packaging/rust.md" | wc -l)"
}

# declared: the calls that the headers declare
declared() {
  cat "$tree"/include/*.h | gcc -fpreprocessed -dD -E -P - 2> /dev/null \
    | grep -o '\bkij\(olvar\)\?_[a-z0-9_]*(' | tr -d '('
}

# unzip_one ARCHIVE NAME: a file of a zip archive
unzip_one() {
  python3 -c 'import sys, zipfile; sys.stdout.buffer.write(zipfile.ZipFile(sys.argv[1]).read(sys.argv[2]))' "$1" "$2"
}

# try_again: the release is built once more, into a folder that has files of your own
try_again() {
  mkdir "$work/again"
  echo yours | tee "$work/again/photos.tar.gz" > "$work/again/notes.txt"
  "$top/tools/release" "${again[@]}" "$work/again" > "$work/said" 2>&1
  told "built again, the same bytes" "$(cat "$dist/SHA256SUMS")" "$(cat "$work/again/SHA256SUMS" 2>&1)"
  told "tools/release leaves your files" yoursyours "$(cat "$work/again/photos.tar.gz" "$work/again/notes.txt" 2>&1 \
    | tr -d '\n')"
}

# lay_earlier: an earlier version in $work/prefix: a file that is in use, a folder of another mode, a link to a folder,
# and a list of what it installed, of which one path leads out
lay_earlier() {
  mkdir -p "$work/prefix/elsewhere/kijolvar/gone"
  mkdir -m 2775 "$work/prefix/bin"
  ln -s elsewhere "$work/prefix/share"
  echo old > "$work/prefix/bin/pos_console"
  ln "$work/prefix/bin/pos_console" "$work/in_use"
  touch "$work/prefix/share/kijolvar/gone/one" "$work/prefix/share/kijolvar/yours" "$work/outside"
  printf '%s\n' share/kijolvar/gone/one share/kijolvar/gone bin ../outside > "$work/prefix/share/kijolvar/installed"
}

# try_install: tools/install lays out the same files as the archive, over those of an earlier version, also from a
# checkout whose page was served, where Python has left a folder
try_install() {
  local place left=$top/abi/page/__pycache__
  lay_earlier
  mkdir -p "$left"
  "$top/tools/install" "$work/prefix" > "$work/said" 2>&1
  told "tools/install" 0 "$?"
  rmdir --ignore-fail-on-non-empty "$left"
  told "tools/install leaves a file that is in use" old "$(cat "$work/in_use")"
  told "tools/install leaves the mode of a folder" 2775 "$(stat -c %a "$work/prefix/bin")"
  told "tools/install leaves a link to a folder" elsewhere "$(readlink "$work/prefix/share")"
  told "tools/install removes what is no longer there" "" "$(find "$work/prefix" -name gone)"
  told "tools/install removes nothing else" "$work/outside" "$(find "$work/outside")"
  rm "$work/prefix/share/kijolvar/yours"
  for place in bin include lib share; do
    told "tools/install lays out $place/ as the archive has it" "" \
      "$(diff -r -x __pycache__ -x installed "$tree/$place" "$work/prefix/$place" 2>&1)"
  done
}

# try_uninstall: what tools/install made others may read, and its list removes it
try_uninstall() {
  local held=(env) prefix=$work/private/prefix command
  [ "$(id -u)" -ne 0 ] || held=(setpriv --bounding-set=-dac_override --inh-caps=-dac_override)
  (umask 077 && "$top/tools/install" "$prefix") > "$work/said" 2>&1
  told "others may read what is installed" "" \
    "$(find "$work/private" ! -perm -o+r; find "$work/private" -type d ! -perm -o+x)"
  command=$(blocks "$tree/share/doc/kijolvar/packaging/README.md" "Install it" indented | grep installed)
  touch "$prefix/share/yours"
  (eval "${command/PREFIX/$prefix}") > "$work/said" 2>&1
  told "packaging.md's command removes it" "0 $prefix/share/yours" \
    "$? $(find "$work/private" \( ! -type d -o -name '*kijolvar*' \) | head -n 5)"
  mkdir "$work/locked"
  chmod 555 "$work/locked"
  refused "a prefix that can't be written" "can't be written" "${held[@]}" "$top/tools/install" "$work/locked"
  mkdir "$work/locked/bin"
  chmod 555 "$work/locked/bin"
  chmod 755 "$work/locked"
  refused "a folder of it that can't be written" "can't be written" "${held[@]}" "$top/tools/install" "$work/locked"
}

# refused NAME WORDS COMMAND ..: whether a command is refused with these words
refused() {
  local name=$1 words=$2 said
  shift 2
  said=$("$@" 2>&1)
  told "refused: $name" "1 $words" "$? $(grep -o "$words" <<< "$said" | head -n 1)"
}

# try_refusals: what tools/release refuses, in a clone
try_refusals() {
  local clone=$work/clone release=$work/clone/tools/release built=${KIJOLVAR_BUILT:-}
  unset KIJOLVAR_BUILT
  git clone -q --shared "$top" "$clone"
  git -C "$clone" config user.name tester
  git -C "$clone" config user.email tester@localhost
  refused "a commit without a record" "no gate is recorded" "$release" "$work/none"
  printf '0 skipped, 0 runs again\n5 passed, 1 failed\n' > "$work/log"
  refused "the record of a gate that failed" "the gate didn't pass" "$release" --record "$work/log"
  printf '5 passed, 0 failed\n' > "$work/log"
  refused "the record of another log" "the line before the last isn't" "$release" --record "$work/log"
  printf '0 skipped, 0 runs again\n5 passed, 0 failed\n' > "$work/log"
  echo >> "$clone/README.md"
  refused "the record of a tree with changes" "the tree has changes" "$release" --record "$work/log"
  refused "a tree with changes" "the tree has changes" "$release" "$work/none"
  git -C "$clone" checkout -q README.md
  told "the record of a gate that passed" "5 passed, 0 failed, 0 skipped, 0 runs again" \
    "$("$release" --record "$work/log" | sed 's/^recorded for [0-9a-f]*: //')"
  git -C "$clone" tag v9.9.9
  refused "a tag of another version" "the commit's tag is v9.9.9" "$release" "$work/none"
  git -C "$clone" tag -d v9.9.9 > /dev/null
  KIJOLVAR_BUILT=$work refused "a release of other files" "KIJOLVAR_BUILT is for a trial" "$release" "$work/none"
  sed -i 's/^#define KIJ_RELEASE .*/#define KIJ_RELEASE "9.9.9"/' "$clone/abi/c/kij.h"
  refused "another version in a header" "kij.h has version 9.9.9" "$release" --trial "$work/none"
  git -C "$clone" checkout -q abi
  sed -i 's/kijolvar_[0-9.]*-1_amd64/kijolvar_9.9.9-1_amd64/' "$clone/README.md"
  refused "another version of a package in README" "README.md has version 9.9.9" "$release" --trial "$work/none"
  git -C "$clone" checkout -q README.md
  sed -i 's/"kijolvar [0-9.]*" "Kijolvar"/"kijolvar 9.9.9" "Kijolvar"/' "$clone/crates/pos_tool/src/pages.rt"
  refused "another version in the man page" "pages.rt has version 9.9.9" "$release" --trial "$work/none"
  git -C "$clone" checkout -q crates
  sed -i 's/^#define KIJ_VERSION .*/#define KIJ_VERSION 99/' "$clone/abi/c/kij.h"
  refused "another interface by the same name" "the interfaces are" "$release" --trial "$work/none"
  [ -z "$built" ] || export KIJOLVAR_BUILT=$built
}

# try_record: without a name for the note no gate runs, and a log that git doesn't record stays. In a clone whose gate
# is two lines
try_record() {
  local clone=$work/recorded said
  local unnamed=(env -u EMAIL -u GIT_AUTHOR_EMAIL -u GIT_COMMITTER_EMAIL GIT_CONFIG_GLOBAL=/dev/null)
  local named=(-c user.name=tester -c user.email=tester@localhost)
  git clone -q --shared "$top" "$clone"
  printf '#!/bin/sh\ntouch "%s/ran"\nprintf "0 skipped, 0 runs again\\n5 passed, 0 failed\\n"\n' "$work" \
    > "$clone/.ci/run"
  git -C "$clone" "${named[@]}" commit -qam "A short gate"
  git -C "$clone" config user.useConfigOnly true
  refused "a record without a name" "set git's user.name and user.email" \
    "${unnamed[@]}" GIT_CONFIG_SYSTEM=/dev/null "$clone/tools/release" --record
  told "the gate didn't run for it" "" "$(find "$work/ran" 2> /dev/null)"
  git -C "$clone" config user.name tester
  git -C "$clone" config user.email tester@localhost
  mkdir -p "$clone/.git/refs/notes"
  touch "$clone/.git/refs/notes/gate.lock"
  said=$(TMPDIR=$work "$clone/tools/release" --record 2>&1)
  told "git's reason for no record" 1 "$(grep -c "gate.lock': File exists" <<< "$said")"
  told "the log of the gate stays" "5 passed, 0 failed" "$(tail -n 1 "$(sed -n 's/.*printed is in //p' <<< "$said")")"
}

# ---- installs

# blocks FILE HEADING KIND: the blocks of a section: `sh` and `text` as they are named, `indented` those that are.
# Without any it prints what is no command and no text of a block
blocks() {
  awk -v heading="## $2" -v kind="$3" '
    /^## / { inside = $0 == heading }
    !inside { next }
    /^```/ { open = open == "" ? substr($0, 4) "." : ""; next }
    open == kind "." { print; count++ }
    open == "" && kind == "indented" && /^    / { print substr($0, 5); count++ }
    END { if (!count) print "no_block_" kind }' "$1"
}

# try_readme: what the archive's README says, command by command
try_readme() {
  local readme=$tree/README.md folder=$inside/${tree##*/}
  blocks "$readme" "A till's day" sh > "$outside/day.sh"
  told "a till's day" "$(blocks "$readme" "A till's day" text)" "$(apart sh -ec "cd $folder && . $inside/day.sh" 2>&1)"
  blocks "$readme" "The same sale from your language" indented > "$outside/sale.sh"
  apart sh -ec "cd $folder && . $inside/sale.sh" > "$work/sale" 2> "$work/said"
  told "the sale by README: C, the archive and Python" "$(printf '%s\n' "$sale" "$sale" "$sale")" \
    "$(grep -v '^Processing\|^Installing\|^Successfully' "$work/sale")"
  [ "$failed" -eq 0 ] || tail -n 5 "$work/said"
  told "README names the wheel" 1 "$(grep -cF "$(cd "$outside" && echo ./*.whl | cut -c 3-)" \
    "$tree/share/doc/kijolvar/README.md")"
  refused "the wheel, by a pip of an older glibc or of another C library" "not a supported wheel on this platform" \
    apart sh -c "${tree##*/}/day/venv/bin/pip download --no-index --no-deps --only-binary=:all: -d none \
      --platform manylinux_2_30_x86_64 --platform musllinux_1_2_x86_64 --platform linux_x86_64 ./*.whl"
  blocks "$tree/share/doc/kijolvar/packaging/README.md" "Check it" indented | sed "1a cd $folder" > "$outside/check.sh"
  runs "the commands by which packaging.md checks a release" sh -e check.sh
}

# try_cmake: find_package with both targets, also by a link to the libraries alone, and a version that is refused
try_cmake() {
  local project=$outside/cmake target
  mkdir -p "$project"
  cat > "$project/CMakeLists.txt" <<'PROJECT'
cmake_minimum_required(VERSION 3.16)
project(sale C)
find_package(kijolvar ${WANTED} REQUIRED)
foreach(kind kijolvar static)
  add_executable(sale_${kind} sale.c)
  target_link_libraries(sale_${kind} PRIVATE kijolvar::${kind})
endforeach()
PROJECT
  cp "$examples/sale.c" "$project"
  runs "cmake configures" cmake -S cmake -B cmake/build -DWANTED=0.1 "-DCMAKE_PREFIX_PATH=$inside/${tree##*/}"
  runs "cmake builds" cmake --build cmake/build
  for target in kijolvar static; do
    sells "the sale by CMake's target $target" "cmake/build/sale_$target"
  done
  mkdir "$outside/linked"
  ln -s "../${tree##*/}/lib" "$outside/linked/lib"
  apart cmake -S cmake -B cmake/linked -DWANTED=0.1 "-DCMAKE_PREFIX_PATH=$inside/linked" > "$work/said" 2>&1
  runs "cmake builds by a link to lib" cmake --build cmake/linked
  apart cmake -S cmake -B cmake/other -DWANTED=99 "-DCMAKE_PREFIX_PATH=$inside/${tree##*/}" > "$work/said" 2>&1
  told "cmake refuses another MAJOR" 1 "$?"
}

# lay_crate FOLDER DEPENDENCY: a program in Rust over the crate
lay_crate() {
  mkdir -p "$outside/$1/src"
  cp "$examples/sale.rs" "$outside/$1/src/main.rs"
  printf '[package]\nname = "sale"\nversion = "0.0.0"\nedition = "2021"\n\n[dependencies]\n%s\n\n[workspace]\n' "$2" \
    > "$outside/$1/Cargo.toml"
}

# try_cargo: the crate by its path, vendored, and its own examples and tests, all without a network
try_cargo() {
  local crate=kijolvar-$version
  tar -xzf "$outside/$crate.crate" -C "$outside"
  lay_crate by_path "kijolvar = { path = \"../$crate\" }"
  lay_crate vendored "kijolvar = \"$version\""
  mkdir -p "$outside/vendored/.cargo" "$outside/vendored/vendor"
  cp -r "$outside/$crate" "$outside/vendored/vendor"
  printf '[source.crates-io]\nreplace-with = "vendored"\n\n[source.vendored]\ndirectory = "vendor"\n' \
    > "$outside/vendored/.cargo/config.toml"
  for kind in by_path vendored; do
    runs "cargo builds: $kind" sh -c "cd $kind && cargo build -q --offline"
    sells "the sale in Rust: $kind" "$kind/target/debug/sale"
  done
  runs "cargo builds the crate's examples" sh -c "cd $crate && cargo build -q --offline --examples"
  sells "the sale as the crate's example" "$crate/target/debug/examples/sale"
}

# try_page NAME FOLDER COMMAND: a command serves the page that shows a counter, also beside a connection that waits
try_page() {
  local name=$1
  shift
  cat > "$outside/page.sh" <<'SCRIPT'
address=$PWD/address
rm -f "$address"
cd "$1"
$2 0 > "$address" &
for turn in $(seq 600); do
  [ -s "$address" ] || sleep 0.2
done
python3 -c '
import socket, sys, urllib.parse, urllib.request
place = urllib.parse.urlsplit(sys.argv[1])
waits = socket.create_connection((place.hostname, place.port))
print(urllib.request.urlopen(sys.argv[1], timeout=120).readline().decode().lower(), end="")
' "$(cat "$address")"
kill $!
SCRIPT
  told "$name" "<!doctype html>" "$(apart sh page.sh "$@" 2>&1)"
}

# try_command NAME PYTHON EMULATOR: the command of the installed Python package that tries a device, in a folder without
# the package: at a port that is missing it ends with 1 and says what to do; at an emulated printer it prints
try_command() {
  local name=$1
  shift
  cat > "$outside/command.sh" <<'SCRIPT'
python=$(realpath -s "$1")
emulator=$(realpath "$2")
rm -rf tried
mkdir tried
cd tried
"$python" -m kijolvar printer /dev/usb/lp99
echo "status $?"
mkfifo words
"$python" "$emulator" printer --tcp 0 < words > port &
exec 3> words
for turn in $(seq 600); do
  [ -s port ] || sleep 0.2
done
"$python" -m kijolvar printer "$(head -n 1 port)" --drawer 3>&-
echo "status $?"
printf 'wait\nshow\n' >&3
exec 3>&-
wait
tail -n +2 port
SCRIPT
  told "$name" "port: FAILED: /dev/usb/lp99 can't be opened: No such file or directory
what to do: is the printer plugged in, and on? If it is: \`modprobe usblp\` as root, and take it out of CUPS
status 1
port: tcp://127.0.0.1:PORT is open
printer: it answers; its cover is closed, its paper there
page: done after TIME s
cut: done after TIME s
drawer: done after TIME s
drawer: its sensor says that it is open
look: three short lines, the first bold, a line of 42 x, and one right below it
status 0
*Kijolvar*
              in the centre
                              at the right
$(printf 'x%.0s' {1..42})
right below the full line
$(printf -- '-%.0s' {1..42})" \
    "$(apart sh command.sh "$@" 2>&1 | sed 's/after [0-9.]* s$/after TIME s/; s/\(127.0.0.1:\)[0-9]*/\1PORT/')"
}

# try_sdist: the sources of Python work over the shared object that KIJOLVAR_LIBRARY names
try_sdist() {
  local folder=$inside/kijolvar-$version
  mkdir -p "$outside/sdist"
  tar -xzf "$outside/kijolvar-$version.tar.gz" -C "$outside/sdist"
  sells "the sale by the sdist" env "PYTHONPATH=sdist/kijolvar-$version" \
    "KIJOLVAR_LIBRARY=$inside/${tree##*/}/lib/libkijolvar.so.$major" python3 "$inside/${examples#"$outside/"}/sale.py"
}

# try_sdist_build: the sources of Python are built and installed, by Debian's setuptools
try_sdist_build() {
  runs "pip installs the sdist" sh -c "python3 -m venv --system-site-packages built && \
    built/bin/pip install --no-index --no-build-isolation kijolvar-$version.tar.gz"
  sells "the sale by the sdist that pip installed" env \
    "KIJOLVAR_LIBRARY=$inside/${tree##*/}/lib/libkijolvar.so.$major" built/bin/python "${examples#"$outside/"}/sale.py"
}

# ---- Debian's packages

# listing: every file of the root but those of this test, and what the system keeps of packages and loads
listing() {
  (cd "$root" && find . \( -path ./tmp -o -path ./proc -o -path ./opt/rust -o -path ./var/lib/dpkg \
    -o -path ./var/cache -o -path ./var/log \) -prune -o -print | grep -v '/ld.so.cache$' | LC_ALL=C sort)
}

# renumber DEB VERSION TO: the same package under another version, with a file that the release's hasn't
renumber() {
  local folder=$work/renumbered name=${1##*/}
  rm -rf "$folder"
  dpkg-deb -R "$1" "$folder"
  sed -i "s/^Version: .*/Version: $2/; s/(= [^)]*)/(= $2)/" "$folder/DEBIAN/control"
  echo old > "$(find "$folder/usr/share/doc" -mindepth 1 -maxdepth 1 -type d | head -n 1)/OLD"
  dpkg-deb --root-owner-group -b "$folder" "$3/${name%%_*}_$2_amd64.deb" > /dev/null
}

# try_debs: install, use, upgrade, purge
try_debs() {
  local before deb
  before=$(listing)
  mkdir "$outside/older"
  for deb in "$outside"/*.deb; do
    renumber "$deb" 0.0.1-1 "$outside/older"
  done
  runs "dpkg installs the version before" sh -c 'dpkg -i older/*.deb'
  told "the version before is there" "0.0.1-1 0.0.1-1 0.0.1-1 0.0.1-1" "$(deb_versions)"
  runs "dpkg upgrades to this version" sh -c 'dpkg -i ./*.deb'
  told "this version is there" "$version-1 $version-1 $version-1 $version-1" "$(deb_versions)"
  told "the upgrade leaves nothing old" "" "$(find "$root/usr/share/doc" -name OLD)"
  told "no file of a package differs" "" "$(apart dpkg -V kijolvar libkijolvar libkijolvar-dev python3-kijolvar)"
  # shellcheck disable=SC2016
  runs "the sale in C is built from the packages" sh -c \
    'cc -o sale /usr/share/doc/libkijolvar-dev/examples/sale.c $(pkg-config --cflags --libs kijolvar)'
  sells "the sale in C from the packages" ./sale
  runs "CMake finds the package" sh -c 'cmake -S cmake -B cmake/system -DWANTED=0.1 && cmake --build cmake/system'
  sells "the sale by CMake from the packages" cmake/system/sale_static
  sells "the sale in Python from the packages" python3 /usr/share/doc/python3-kijolvar/examples/sale.py
  try_command "the command that tries a device, from the packages" /usr/bin/python3 /usr/share/kijolvar/emulator
  try_page "the page is served from the packages" / \
    "$(grep -o 'python3 /usr/share/kijolvar/page/[^`]*' "$tree/share/doc/kijolvar/packaging/README.md")"
  told "the day by the packages" "$(blocks "$tree/README.md" "A till's day" text)" \
    "$(apart sh -ec "mkdir other && cd other && . $inside/day.sh" 2>&1)"
  try_dependent
  runs "dpkg purges" dpkg -P python3-kijolvar libkijolvar-dev libkijolvar kijolvar
  told "the purge leaves nothing" "$before" "$(listing)"
}

# try_dependent: a package that was built against the library stays with a later one of the same MAJOR alone
try_dependent() {
  local folder=$work/till needs
  needs=$(apart dpkg-query --control-show libkijolvar shlibs | sed 's/^libkijolvar [0-9]* //')
  mkdir -p "$folder/DEBIAN" "$outside/later"
  printf '%s\n' 'Package: till' 'Version: 1' 'Architecture: amd64' 'Maintainer: A <a@b>' "Depends: $needs" \
    'Description: a till' > "$folder/DEBIAN/control"
  dpkg-deb --root-owner-group -b "$folder" "$outside/till.deb" > /dev/null
  runs "a package that needs the library is installed" dpkg -i till.deb
  told "a later library of this MAJOR leaves it" "Inst libkijolvar" "$(apt_plan "$major.99-1")"
  told "that of the next MAJOR removes it" "Inst libkijolvar,Remv till" "$(apt_plan "$((major + 1)).0-1")"
  runs "it is removed" dpkg -P till
}

# apt_plan VERSION: what apt would do with the library and till, to install this version of the library
apt_plan() {
  renumber "$outside/libkijolvar_$version-1_amd64.deb" "$1" "$outside/later"
  apart apt-get -s install "./later/libkijolvar_$1_amd64.deb" 2>&1 \
    | sed -n 's/^\(Inst libkijolvar\|Remv till\) .*/\1/p' | LC_ALL=C sort | paste -s -d,
}

# deb_versions: the versions of the four packages that are installed
deb_versions() {
  # shellcheck disable=SC2016
  apart dpkg-query -W -f '${Version} ' kijolvar libkijolvar libkijolvar-dev python3-kijolvar | sed 's/ $//'
}

# try_local: unpacked below /usr/local as the archive's README says
try_local() {
  blocks "$tree/README.md" "Install it" indented > "$outside/local.sh"
  runs "it is unpacked below /usr/local" sh -ec '. ./local.sh'
  told "with the documents for C" yes "$([ -s "$root/usr/local/share/doc/kijolvar/abi/README.md" ] && echo yes)"
  # shellcheck disable=SC2016
  runs "the sale in C is built from /usr/local" sh -c \
    'cc -o sale_local /usr/local/share/doc/kijolvar/examples/sale.c $(pkg-config --cflags --libs kijolvar)'
  sells "the sale in C from /usr/local" ./sale_local
  (cd "$tree" && find . ! -type d -printf '%P\n') | (cd "$root/usr/local" && xargs rm -f)
  find "$root/usr/local" -depth -type d -empty -path '*kijolvar*' -delete
  apart ldconfig
}

# ---- what takes longer

# make_root FOLDER SUITE PACKAGE ..: makes a root by debootstrap, if it isn't there
make_root() {
  local folder=$1 suite=$2
  shift 2
  if [ ! -x "$folder/usr/bin/gcc" ]; then
    echo "debootstrap makes $folder"
    {
      debootstrap --variant=minbase "$suite" "$folder" http://deb.debian.org/debian \
        && cp /etc/resolv.conf "$folder/etc/resolv.conf" \
        && chroot "$folder" apt-get update \
        && chroot "$folder" env DEBIAN_FRONTEND=noninteractive apt-get install -y --no-install-recommends "$@"
    } > "$work/said" 2>&1
  fi
  told "the root $folder has a compiler" "$suite 0" \
    "$(sed -n 's/^VERSION_CODENAME=//p' "$folder/etc/os-release") $(chroot "$folder" gcc --version > "$work/gcc"
    echo $?)"
}

# try_memory: a program over the archive under valgrind and the sanitizers
try_memory() {
  runs "the sale for valgrind" cc -g -o watched -I "${tree##*/}/include" "${examples#"$outside/"}/sale.c" \
    "${tree##*/}/lib/libkijolvar.a"
  sells "the sale under valgrind" valgrind -q --error-exitcode=99 --leak-check=full \
    --errors-for-leak-kinds=definite,possible ./watched
  runs "the sale for the sanitizers" cc -g -fsanitize=address,undefined -fno-sanitize-recover -o sanitized \
    -I "${tree##*/}/include" "${examples#"$outside/"}/sale.c" "${tree##*/}/lib/libkijolvar.a"
  sells "the sale under the sanitizers" ./sanitized
}

# try_old_glibc ROOT: the programs and the library where glibc is 2.31
try_old_glibc() {
  enter_root "$1"
  unpack
  told "glibc 2.31" "2.31" "$(apart getconf GNU_LIBC_VERSION | sed 's/glibc //')"
  blocks "$tree/README.md" "A till's day" sh > "$outside/day.sh"
  told "a till's day with glibc 2.31" "$(blocks "$tree/README.md" "A till's day" text)" \
    "$(apart sh -ec "cd ${tree##*/} && . $inside/day.sh" 2>&1)"
  runs "the sale in C is built with glibc 2.31" sh -c "cc -o sale ${examples#"$outside/"}/sale.c \
    -I ${tree##*/}/include -L ${tree##*/}/lib -lkijolvar -Wl,-rpath,$inside/${tree##*/}/lib"
  sells "the sale in C with glibc 2.31" ./sale
  runs "the packages without Python are installed there" sh -c \
    "$(grep -o 'dpkg -i ./kijolvar_[^`]*' "$tree/README.md") && dpkg -s kijolvar libkijolvar libkijolvar-dev"
  runs "they are purged" dpkg -P libkijolvar-dev libkijolvar kijolvar
}

# try_scripts: the conformance scripts over the program that ships
try_scripts() {
  told "the conformance scripts" "0 failed" \
    "$("$top/tests/scripts.sh" "$tree/bin/pos_console" 2>&1 | tail -n 1 | sed 's/^[1-9][0-9]* passed, //')"
}

# try_lintian: what lintian finds in the packages
try_lintian() {
  told "lintian finds nothing" "" "$(lintian --allow-root --fail-on error,warning "$dist"/*.deb 2>&1)"
}

for tool in git gcc:gcc nm:binutils readelf:binutils strings:binutils strip:binutils dpkg-deb:dpkg cmake:cmake \
  pkg-config:pkg-config python3:python3; do
  needs "${tool%:*}" "the Debian package ${tool#*:}"
done
needs rustc "Rust 1.89 or later"
[ "${1:-}" = --quick ] || {
  needs lintian "the Debian package lintian"
  needs chroot "the Debian package coreutils"
}
if [ $# -eq 0 ] || [ "$failed" -gt 0 ]; then
  [ $# -gt 0 ] || echo "usage: tests/release.sh --quick [DIST], or tests/release.sh ROOTS [DIST]"
  failed=$((failed > 0 ? failed : 1))
  finish
fi
find_release "${2:-}"
if [ "$1" != --quick ]; then
  roots=$(mkdir -p "$1" && cd "$1" && pwd)
  make_root "$roots/bookworm" bookworm gcc libc6-dev make cmake pkg-config python3 python3-venv \
    python3-setuptools python3-wheel valgrind
  make_root "$roots/bullseye" bullseye gcc libc6-dev
  [ "$failed" -eq 0 ] || { tail -n 5 "$work/said" && finish; }
  enter_root "$roots/bookworm"
fi
unpack
lay_tools
told "the kit isn't there" "" "$(apart sh -c 'command -v rt')"
try_files
try_places
try_readme
try_cmake
try_cargo
try_page "the page is served from the archive" "${tree##*/}" \
  "$(blocks "$tree/README.md" "A counter to look at" indented)"
try_sdist
if [ "$1" = --quick ]; then
  try_command "the command that tries a device, from the wheel" "${tree##*/}/day/venv/bin/python" \
    "${tree##*/}/share/kijolvar/emulator"
  try_again
  try_install
  try_uninstall
  try_refusals
  try_record
else
  try_sdist_build
  try_debs
  try_local
  try_memory
  try_scripts
  try_lintian
  leave_root
  try_old_glibc "$roots/bullseye"
fi
finish
