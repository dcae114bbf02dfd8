# shellcheck shell=bash
# Builds what a release has, and lays it out below one folder. tools/release and tools/install read this file.
# They set `top`, the checkout, and `work`, an empty folder. KIJOLVAR_BUILT names a folder that has the objects of the
# programs (CRATE.o) and libkijolvar.a in place of what rt builds. tools/release takes it in a trial alone.
# shellcheck disable=SC2034,SC2154

# The oldest glibc with which the programs and the shared object run.
glibc=2.31
# The tag of the wheel: pip takes it where glibc is at least that.
wheel=py3-none-manylinux_${glibc/./_}_x86_64
# A program's crate, the name of the program, and the words with which rt runs it once it is built.
programs=("pos_console pos_console" "pos_tool kijolvar version")
flags=(-std=c11 -O2 -fPIC -Wall -Wextra -Werror)
links=("-Wl,-z,relro,-z,now,-z,noexecstack,-z,defs" "-Wl,--gc-sections,--as-needed,--build-id=sha1")

# stop TEXT: ends with a reason
stop() {
  echo "$(basename "$0"): $1" >&2
  exit 1
}

# make_folder FOLDER: makes a folder, if it isn't there, and prints its path. Stops if no file can be made in it
make_folder() {
  local place probe
  place=$(mkdir -p "$1" && realpath "$1") || stop "$1 can't be made"
  probe=$(mktemp "$place/.kijolvar.XXXXXX") || stop "$place can't be written"
  rm "$probe"
  echo "$place"
}

# The version is that of the first heading of CHANGELOG.md.
version=$(sed -n 's/^## \([0-9][0-9.]*\).*/\1/p' "$top/CHANGELOG.md" | head -n 1)
[ -n "$version" ] || stop "CHANGELOG.md has no heading '## VERSION'"
major=${version%%.*}

# each_version: every place that says the version, with what it says
each_version() {
  local abi=$top/abi
  sed -n 's/^#define KIJ_RELEASE "\(.*\)"$/abi\/c\/kij.h \1/p' "$abi/c/kij.h"
  sed -n 's/^version = "\(.*\)"$/abi\/python\/pyproject.toml \1/p' "$abi/python/pyproject.toml"
  sed -n 's/^__version__ = "\(.*\)"$/abi\/python\/kijolvar\/__init__.py \1/p' "$abi/python/kijolvar/__init__.py"
  sed -n 's/^version = "\(.*\)"$/abi\/rust\/kijolvar\/Cargo.toml \1/p' "$abi/rust/kijolvar/Cargo.toml"
  sed -n 's/.*kijolvar-\([0-9.]*\)\(-x86_64-linux-gnu\|-py3-none\|\.crate\).*/README.md \1/p' "$top/README.md"
  sed -n 's/.*kijolvar_\([0-9.]*\)-1_amd64\.deb.*/README.md \1/p' "$top/README.md"
  sed -n 's/.*"\.TH KIJOLVAR 1 "" "kijolvar \(.*\)" "Kijolvar"$/crates\/pos_tool\/src\/pages.rt \1/p' \
    "$top/crates/pos_tool/src/pages.rt"
}

# check_versions: stops if a place has another version than CHANGELOG.md, or if the interface changed within a MAJOR
check_versions() {
  local place found count=0 wanted
  while read -r place found; do
    count=$((count + 1))
    [ "$found" = "$version" ] || stop "$place has version $found, and CHANGELOG.md has $version"
  done < <(each_version)
  [ "$count" -ge 9 ] || stop "only $count places that say the version were found"
  wanted=$(sed -n "s/^$major //p" "$top/packaging/interfaces")
  found="$(sed -n 's/^#define KIJOLVAR_VERSION \([0-9]*\)u$/\1/p' "$top/abi/kijolvar.h")"
  found="$found $(sed -n 's/^#define KIJ_VERSION \([0-9]*\)$/\1/p' "$top/abi/c/kij.h")"
  [ "$found" = "$wanted" ] || stop "the interfaces are $found; packaging/interfaces has '$wanted' for version $major"
}

# is_crate NAME: whether crates.txt lists it
is_crate() {
  grep -q "^$1\b.*:" "$top/crates.txt"
}

# say_build TEXT: compiles what the binaries say of themselves
say_build() {
  build_text="kijolvar $version, $1"
  "${CC:-gcc}" "${flags[@]}" "-DKIJOLVAR_BUILD=\"$build_text\"" -I "$top/packaging" -c -o "$work/build.o" \
    "$top/packaging/build.c"
}

# build_library: makes libkijolvar.a, with the heap and the typed layer, and the headers, in $work/abi
build_library() {
  if [ -n "${KIJOLVAR_BUILT:-}" ]; then
    KIJOLVAR_ARCHIVE=$KIJOLVAR_BUILT/libkijolvar.a "$top/abi/build.sh" "$work/abi"
  else
    (cd "$top/crates/kijolvar" && rt lib) > "$work/rt.log" 2>&1 || stop "rt lib: $(tail -n 5 "$work/rt.log")"
    "$top/abi/build.sh" "$work/abi"
  fi
  strip --strip-debug --enable-deterministic-archives "$work/abi/libkijolvar.a"
  ar rsD "$work/abi/libkijolvar.a" "$work/build.o" 2> /dev/null
  cp "$top/packaging/kijolvar_build.h" "$work/abi"
}

# exported: the names that the library exports: the calls of the headers
exported() {
  nm --defined-only -g "$1" 2> /dev/null | sed -n 's/^[0-9a-f]* [A-Z] \(kij_.*\|kijolvar_.*\)$/\1/p' \
    | grep -v '^kij_internal_' | LC_ALL=C sort
}

# link_shared TO: links the shared object, which exports the calls of the headers alone
link_shared() {
  {
    echo "KIJOLVAR_$major {"
    echo "global:"
    exported "$work/abi/libkijolvar.a" | sed 's/$/;/'
    echo "local:"
    echo "*;"
    echo "};"
  } > "$work/exports.map"
  "${CC:-gcc}" -shared -o "$1" "-Wl,-soname,libkijolvar.so.$major" "-Wl,--version-script=$work/exports.map" \
    "${links[@]}" -Wl,--whole-archive "$work/abi/libkijolvar.a" -Wl,--no-whole-archive
  strip "$1"
  chmod 644 "$1"
}

# build_program CRATE WORD ..: proves and builds a program, and runs it once with these words
build_program() {
  local crate=$1 input=/dev/null
  shift
  [ ! -f "$top/crates/$crate/stdin" ] || input=$top/crates/$crate/stdin
  [ $# -eq 0 ] || set -- -- "$@"
  (cd "$top/crates/$crate" && rt run "$@") < "$input" > "$work/rt.log" 2>&1 \
    || stop "rt run of $crate: $(tail -n 5 "$work/rt.log")"
}

# link_program OBJECT TO: links a program with the release's start, so that an older glibc runs it
link_program() {
  local kit
  kit=$(dirname "$(rt doc)")
  "${CC:-gcc}" "${flags[@]}" -c -o "$work/start.o" "$top/packaging/start.c"
  "${CC:-gcc}" -pie -nostartfiles -o "$2" -Wl,-u,kijolvar_build "${links[@]}" "$work/start.o" "$work/build.o" "$1" \
    "$kit/c/libos_c.a" "$kit/c/liblibc_c.a" -lm
  if readelf -SW "$2" | grep -q ' \.\(preinit_array\|init\|fini\|ctors\|dtors\) '; then
    stop "$2 has constructors of a kind that packaging/start.c doesn't run"
  fi
  strip "$2"
}

# install_programs TO BUILD: puts the programs into TO. Says in $work/left_out which ones aren't in crates.txt. With
# BUILD they are built first.
install_programs() {
  local words crate name object
  mkdir -p "$1"
  : > "$work/left_out"
  for words in "${programs[@]}"; do
    read -r crate name words <<< "$words"
    object=$top/crates/$crate/out/$crate.o
    [ -z "${KIJOLVAR_BUILT:-}" ] || object=$KIJOLVAR_BUILT/$crate.o
    if ! is_crate "$crate"; then
      echo "bin/$name, its man page and its completions: crates.txt has no $crate yet" >> "$work/left_out"
      continue
    fi
    # shellcheck disable=SC2086
    [ -z "$2" ] || [ -n "${KIJOLVAR_BUILT:-}" ] || build_program "$crate" $words
    [ -f "$object" ] || stop "$object isn't there: rt ci or rt run builds it"
    link_program "$object" "$1/$name"
  done
}

# fill TEMPLATE TO NAME=VALUE ..: writes a file, with a value in place of each @NAME@
fill() {
  local from=$1 to=$2 word text
  shift 2
  text=$(cat "$from")
  for word in "VERSION=$version" "MAJOR=$major" "$@"; do
    text=${text//"@${word%%=*}@"/"${word#*=}"}
  done
  printf '%s\n' "$text" > "$to"
}

# install_library TO LIB UP PREFIX: puts the headers and the library into TO, whose libraries are in TO/LIB. From
# there the prefix is UP. PREFIX is what the pkg-config file calls the prefix.
install_library() {
  local to=$1 lib=$2 up=$3 prefix=$4
  mkdir -p "$to/include" "$to/$lib/pkgconfig" "$to/$lib/cmake/kijolvar"
  cp "$work"/abi/*.h "$to/include"
  cp "$work/abi/libkijolvar.a" "$to/$lib"
  link_shared "$to/$lib/libkijolvar.so.$major"
  ln -sf "libkijolvar.so.$major" "$to/$lib/libkijolvar.so"
  fill "$top/packaging/kijolvar.pc.in" "$to/$lib/pkgconfig/kijolvar.pc" "PREFIX=$prefix" "LIB=$lib"
  fill "$top/packaging/kijolvar-config.cmake.in" "$to/$lib/cmake/kijolvar/kijolvar-config.cmake" "LIB=$lib" "UP=$up"
  fill "$top/packaging/kijolvar-config-version.cmake.in" \
    "$to/$lib/cmake/kijolvar/kijolvar-config-version.cmake"
}

# install_pages TO: puts the man pages and the completions into TO/share. `kijolvar` prints its own.
install_pages() {
  local share=$1/share tool=$1/bin/kijolvar
  mkdir -p "$share/man/man1"
  fill "$top/packaging/man/pos_console.1.in" "$share/man/man1/pos_console.1"
  [ -x "$tool" ] || return 0
  ask_tool "$share/man/man1/kijolvar.1" "$tool" man
  ask_tool "$share/bash-completion/completions/kijolvar" "$tool" completions bash
  ask_tool "$share/zsh/site-functions/_kijolvar" "$tool" completions zsh
  ask_tool "$share/fish/vendor_completions.d/kijolvar.fish" "$tool" completions fish
}

# ask_tool TO COMMAND ..: writes what a command prints to a file
ask_tool() {
  local to=$1
  shift
  mkdir -p "$(dirname "$to")"
  "$@" > "$to" || stop "'$*' prints nothing for ${to##*/share/}"
}

# install_documents TO: puts the documents, the examples, the page and the conformance scripts into TO/share
install_documents() {
  local doc=$1/share/doc/kijolvar data=$1/share/kijolvar
  mkdir -p "$doc/abi" "$doc/examples" "$doc/packaging" "$data/page" "$data/python" "$data/scripts"
  cp "$top/README.md" "$top/CHANGELOG.md" "$doc"
  cp -r "$top/docs" "$doc"
  cp "$top/abi/README.md" "$doc/abi"
  cp "$top/packaging/README.md" "$doc/packaging"
  cp "$top"/examples/* "$doc/examples"
  # Python leaves a folder there once the page was served.
  cp "$top"/abi/page/*.* "$data/page"
  cp "$top/abi/python/till.py" "$top/abi/python/standard.py" "$data/python"
  cp "$top"/tests/scripts/* "$data/scripts"
  cp -r "$top/tests/emulator" "$data"
  rm -rf "$data"/*/__pycache__
}

# lay_out TO BUILD: lays the whole tree out below a folder. With BUILD the programs are built first.
lay_out() {
  build_library
  install_programs "$1/bin" "$2"
  install_library "$1" lib ../../.. "\${pcfiledir}/../.."
  install_pages "$1"
  install_documents "$1"
  chmod -R u=rwX,go=rX "$1"
}
