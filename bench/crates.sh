# Lays out a crate of a bench, and runs it. A bench in Rattle sources this file; it needs `top`, the top of the tree,
# and `work`, an empty folder. `--small` as the first word of the bench sets `is_small`: counts are a thousandth, and
# nothing is proved.

is_small=
if [ "${1:-}" = --small ]; then
  is_small=1
  shift
fi

# crates_below CRATE ..: prints these crates of crates.txt and all that are below them
crates_below() {
  awk -v wanted="$*" '
    !/^#/ && /:/ { name = $1; sub(":", "", name); line = $0; sub(/^[^:]*:/, "", line); below[name] = line }
    END {
      count = split(wanted, todo, " ")
      for (i = 1; i <= count; i++) {
        if (!(todo[i] in below)) continue
        if (todo[i] in seen) continue
        seen[todo[i]] = 1
        print todo[i]
        more = split(below[todo[i]], next_ones, " ")
        for (j = 1; j <= more; j++) todo[++count] = next_ones[j]
      }
    }' "$top/crates.txt"
}

# sized FROM TO: copies a source. On a small size, each count that ends in `_000` loses that end.
sized() {
  if [ -n "$is_small" ]; then
    sed 's/^\(const [A-Z]*: u64 = [0-9_]*\)_000;$/\1;/' "$1" > "$2"
  else
    cp "$1" "$2"
  fi
}

# lay_out NAME LIBRARY ..: makes the crate NAME_bench from NAME.rt.in, over copies of the crates that it uses
lay_out() {
  local name=$1 crate
  shift
  mkdir -p "$work/crates/${name}_bench/src"
  sized "$top/bench/$name.rt.in" "$work/crates/${name}_bench/src/main.rt"
  cp "$top/HANDLES" "$work/HANDLES"
  for crate in $(crates_below "$@"); do
    cp -r "$top/crates/$crate" "$work/crates/$crate"
    rm -rf "$work/crates/$crate/must-fail"
    grep "^$crate[ :]" "$top/crates.txt" >> "$work/crates.txt"
  done
  echo "${name}_bench: $*" >> "$work/crates.txt"
}

# run_bench NAME: proves, builds and runs the crate; on a small size only builds it with checks and runs it
run_bench() {
  cd "$work/crates/${1}_bench"
  if [ -n "$is_small" ]; then
    echo 'tried'
    rt try < /dev/null
  else
    echo 'proved'
    rt run < /dev/null
  fi
}

# build_plain NAME: builds NAME.rs as the program `plain`, and runs it
build_plain() {
  sized "$top/bench/$1.rs" "$work/plain.rs"
  rustc -O -o "$work/plain" "$work/plain.rs"
  echo 'plain Rust'
  "$work/plain"
}
