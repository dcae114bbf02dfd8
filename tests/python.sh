#!/usr/bin/env bash
# Tries the Python package of abi/python: the description and the typed part are what the definitions say, the console's
# scripts run through typed calls (tests/python_package.py), and examples/sale.py prints what it has to. mypy checks the
# types if it is installed, and is reported as skipped if not. It installs nothing; another tool that is missing is a
# failure that names its package.
# Usage: tests/python.sh [PROGRAM [LIBRARY]]. Without words it takes the program that was built in crates/pos_console/out,
# and builds the library, a shared object. Its last line is 'N passed, M failed'.
set -u
top=$(cd "$(dirname "$0")/.." && pwd)
work=$(mktemp -d)
trap 'rm -rf "$work"' EXIT
export PYTHONDONTWRITEBYTECODE=1
program=${1:-$top/crates/pos_console/out/pos_console}
library=${2:-}
# shellcheck source=tests/common.sh
. "$top/tests/common.sh"

needs python3 "the Debian package python3"
python3 -c 'import tomllib' 2> "$work/said" || {
  echo "failed: python3 is older than 3.11"
  failed=$((failed + 1))
}
[ -x "$program" ] || {
  echo "failed: the program is missing: run 'rt run' in crates/pos_console"
  failed=$((failed + 1))
}
[ -n "$library" ] || needs rt "the Rattle kit"
[ -n "$library" ] || needs gcc "the Debian package gcc"
if [ "$failed" -gt 0 ]; then
  echo "$passed passed, $failed failed"
  exit 1
fi

runs "the description is that of the definitions" python3 "$top/abi/describe.py" --check
runs "the typed part is that of the description" python3 "$top/abi/python/generate.py" --check

# copies: a copy of abi/ beside the definitions, in which something can be planted
copies() {
  local crate
  rm -rf "$work/tree"
  mkdir "$work/tree"
  cp -r "$top/abi" "$work/tree/abi"
  for crate in kijolvar pos_service pos_counter pos_display pos_printer pos_script pos_totals pos_profile; do
    mkdir -p "$work/tree/crates/$crate"
    cp -r "$top/crates/$crate/"{src,specs} "$work/tree/crates/$crate"
  done
}

# planted NAME FILE EDIT SCRIPT SAYS: whether a check of a script finds an edit by sed of a file, and says so
planted() {
  copies
  sed -i "$3" "$work/tree/$2"
  if cmp -s "$work/tree/$2" "$top/$2"; then
    told "planted: $1: the edit changes something" yes no
    return
  fi
  if python3 "$work/tree/abi/$4" --check > "$work/said" 2>&1; then
    told "planted: $1" refused "not refused"
  else
    told "planted: $1" "yes" "$(grep -q "$5" "$work/said" && echo yes || cat "$work/said")"
  fi
}

words=abi/documentation.toml
specs=crates/pos_service/specs
planted "a method without an entry" $words '/^\[methods.openDrawer\]/,/^errors/d' \
  describe.py 'methods.openDrawer has no entry'
planted "a property without an entry" $words '/^\[properties.Rows\]/,/^chapter/d' \
  describe.py 'properties.Rows has no entry'
planted "an event without an entry" $words '/^\[events.DataEvent\]/,/^chapter/d' \
  describe.py 'events.DataEvent has no entry'
planted "a constant without an entry" $words '/^S_IDLE = /d' describe.py 'without an entry: S_IDLE'
planted "a code without an entry" $words '/^\[result_codes.E_BUSY\]/,/^chapter/d' \
  describe.py 'result_codes.E_BUSY has no entry'
planted "an argument without an entry" $words '/^arguments.percentage/d' describe.py 'cutPaper: the argument percentage'
planted "an entry that names nothing" $words '$a [methods.paste]\nsummary = "Pastes."\nchapter = "None"' \
  describe.py 'name nothing: methods.paste'
planted "a constant that isn't one" $words 's/^S_IDLE = /S_IDLED = /' describe.py 'S_IDLED has no number'
planted "a type of bar codes without a number" $words '/^SCAN_SDT_AZTEC = 206/d' \
  describe.py "members and numbers differ: {'SCAN_SDT_AZTEC'}"
planted "a number that the definitions have" $words '/^\[constants.ScanDataType/,/^$/s/SCAN_SDT_AZTEC/S_IDLE/' \
  describe.py "the definitions have numbers: {'S_IDLE'}"
planted "an error that is no code" $words 's/"E_BUSY"/"E_BUSIER"/' describe.py 'E_BUSIER is no code'
planted "a number of the definitions" $specs/Statuses.antt 's/^cover_status true = 11/cover_status true = 13/' \
  describe.py "isn't what the definitions say"
planted "a range of the definitions" crates/pos_printer/specs/PrinterCalls.antt 's/is_up_to 100 percentage/is_up_to 90 percentage/' \
  describe.py "isn't what the definitions say"
planted "a property of the definitions" $specs/Properties.antt 's/codes "AutoDisable"/codes "Auto"/' \
  describe.py 'properties.Auto has no entry'
planted "a method of the definitions" $specs/Calls.antt 's/codes "cutPaper"/codes "cut"/' \
  describe.py 'methods.cut has no entry'
planted "what a call asks" $specs/Calls.antt '/^row_of call.OpenDrawer/s/claim_need.NoOther/claim_need.Own/' \
  describe.py "isn't what the definitions say"
planted "a file that was changed by hand" abi/python/kijolvar/_controls.py 's/Opens the drawer/Opens a drawer/' \
  python/generate.py '_controls.py not as'
planted "another description" abi/description.json 's/Opens the drawer/Opens a drawer/' \
  python/generate.py '_controls.py not as'

if [ -z "$library" ]; then
  runs "the archive" "$top/tools/libraries" archive
  library=$work/libkijolvar.so
  runs "the shared object" gcc -O2 -shared -fPIC -o "$library" -Wl,--whole-archive \
    "$top/crates/kijolvar/out/libkijolvar.a" -Wl,--no-whole-archive "$top/abi/heap.c"
fi
library=$(realpath "$library")
program=$(realpath "$program")

python3 -W error -W ignore::ResourceWarning "$top/tests/python_package.py" "$library" "$program" > "$work/package" 2>&1
grep -v ' passed, ' "$work/package"
counts=$(grep -o '^[0-9]* passed, [0-9]* failed$' "$work/package" | tail -n 1)
told "the package's tests came to their end" yes "$([ -n "$counts" ] && echo yes || echo no)"
passed=$((passed + $(cut -d' ' -f1 <<< "${counts:-0}")))
failed=$((failed + $(cut -d' ' -f3 <<< "${counts:-0 - 0}")))

for round in "a new file" "the same file"; do
  KIJOLVAR_LIBRARY=$library python3 -W error "$top/examples/sale.py" "$work/totals" > "$work/sale" 2>&1
  status=$?
  told "the sale ends well, over $round" 0 "$status"
  [ "$status" -eq 0 ] || cat "$work/sale"
  [ "$round" = "a new file" ] && told "the sale's text" "$(cat "$top/examples/sale.stdout")" "$(cat "$work/sale")"
done
told "the second sale adds to the totals" "totals: COUNT 2" "$(tail -n 1 "$work/sale")"

mypy=(mypy)
if python3 -c 'import mypy' 2> "$work/said"; then
  mypy=(python3 -m mypy)
fi
if [ "${#mypy[@]}" -gt 1 ] || command -v mypy > "$work/said"; then
  runs "mypy --strict" "${mypy[@]}" --strict --cache-dir "$work/mypy" "$top/abi/python/kijolvar"
  [ -s "$work/said" ] && tail -n 5 "$work/said"
  { printf 'import kijolvar\n\nprinter = kijolvar.open().printer("r1")\n'
    sed -n '/^@printer.listen/,/^```/{/^```/!p}' "$top/docs/reference/python.md"; } > "$work/listener.py"
  runs "the document has a listener" grep -q '^def ' "$work/listener.py"
  MYPYPATH=$top/abi/python runs "mypy --strict of the document's listener" \
    "${mypy[@]}" --strict --cache-dir "$work/mypy" "$work/listener.py"
  { sed -n '/^```python/,/^```/{/^```/!p}' "$top/README.md"
    printf '%s\n' 'names: list[bytes] = sorted(totals.keys())' \
      'sizes: dict[bytes, int] = {name[:1]: file.size for name, file in totals.items()}'
  } > "$work/example.py"
  MYPYPATH=$top/abi/python runs "mypy --strict of README's example, and of what totals are as a mapping" \
    "${mypy[@]}" --strict --cache-dir "$work/mypy" "$work/example.py"
else
  echo "4 skipped: mypy isn't installed"
fi

echo "$passed passed, $failed failed"
[ "$failed" -eq 0 ]
