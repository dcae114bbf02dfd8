#!/usr/bin/env bash
# Tears the writes of a change at each byte, in copies of a totals file, and opens each copy by the program: it has to
# hold the file before the change up to the write of the last gate, and after it the one that the gate's byte says. What
# wasn't written yet holds the old bytes, open gates or 0xFF. A change is torn that goes to the log, one that makes a
# new image, and the move of the files to layout 2, which keeps them.
# Usage: tests/torn.sh [PROGRAM]. Without a program it builds it, and needs rt. Its last line is 'N passed, M failed'.
set -eu
top=$(cd "$(dirname "$0")/.." && pwd)
program=${1:-$top/crates/pos_console/out/pos_console}
[ $# -ge 1 ] || (cd "$top/crates/pos_console" && rt run < /dev/null > /dev/null 2>&1)
work=$(mktemp -d)
trap 'rm -rf "$work"' EXIT
cd "$work"
passed=0
failed=0
printf '[[device]]\nname = "t1"\ncategory = "HardTotals"\n' > profile.toml
printf 'new a HardTotals\nopen a t1\nset a DeviceEnabled true\n' > begin

# carries out the lines that it is given over the file `disk`, and prints what the last one printed
carry_out() { cat begin - | "$program" run --profile profile.toml --disk disk | tail -n 1; }

# bytes FILE AT COUNT: these bytes of a file
bytes() { tail -c +$(($2 + 1)) "$1" | head -c "$3"; }

# filled COUNT BYTE: so many of this byte, which is given in octal
filled() { head -c "$1" /dev/zero | tr '\000' "\\$2"; }

# finds WHAT WANTED: whether the file `disk` answers so to the line `asked`
finds() {
  local found
  found=$(carry_out <<< "$asked")
  if [ "$found" = "ok $2" ]; then
    passed=$((passed + 1))
  else
    failed=$((failed + 1))
    printf 'failed: %s\n  wanted: ok %s\n  found:  %s\n' "$1" "$2" "$found"
  fi
}

# what is asked of each disk, and what has to be found before the change and after it
asked='call a read 1 0 4'
early=00000000
late=deadbeef

# torn NAME AT COUNT STEP: the change from the file `before` to the file `after` writes COUNT bytes from AT + 1 on, and
# then the gate at AT; each STEP bytes of the first write it is cut
torn() {
  local name=$1 at=$2 count=$3 step=$4 cut fill rest
  for ((cut = 0; cut <= count; cut += step)); do
    for fill in old 245 377; do
      rest=$((count - cut))
      {
        head -c $((at + 1)) before
        bytes after $((at + 1)) "$cut"
        if [ "$fill" = old ]; then bytes before $((at + 1 + cut)) "$rest"; else filled "$rest" "$fill"; fi
        tail -c +$((at + count + 2)) before
      } > disk
      finds "$name, cut at byte $cut of $count, then $fill" "$early"
    done
  done
  for fill in 000 377 245; do
    { head -c "$at" after; filled 1 "$fill"; tail -c +$((at + 2)) after; } > disk
    finds "$name, gate $fill" "$([ "$fill" = 245 ] && echo "$late" || echo "$early")"
  done
}

# a record of the log: behind that of the create, 14 bytes long, comes one with a group of 17 bytes, and a gate
"$program" format --disk disk
carry_out <<< 'call a create 41 4 false' > said
cp disk before
carry_out <<< 'call a write 1 0 deadbeef' > said
cp disk after
torn 'a record' 16398 22 1

rm disk
# a new image in the other slot: a group of 8,192 bytes fits the empty log, one of 8,142 bytes behind it doesn't
"$program" format --disk disk
long() { printf 'call a write 1 0 %s' "$1"; head -c $(($2 - 4)) /dev/zero | od -An -v -tx1 | tr -d ' \n'; echo; }
{ echo 'call a create 46 8192 false'; long 00000000 8192; } | carry_out > said
cp disk before
long deadbeef 8142 | carry_out > said
cp disk after
if [ "$(bytes after 32768 1 | od -An -tx1 | tr -d ' ')" = a5 ]; then
  passed=$((passed + 1))
else
  failed=$((failed + 1))
fi
torn 'a new image' 32768 $((12 + 8200 + 1)) 331

# the move of these files to layout 2: they are found all along, and the layout goes by the gate
cp disk before
"$program" migrate --disk disk
cp disk after
asked='call a read 1 0 4'
early=deadbeef
torn 'a move, its files' 65536 $((12 + 8200)) 331
asked='get a TotalsSize'
early=8192
late=65536
torn 'a move, its layout' 65536 $((12 + 8200)) 331

echo "$passed passed, $failed failed"
[ "$failed" -eq 0 ]
