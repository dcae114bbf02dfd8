#!/usr/bin/env bash
# Runs each script of tests/scripts over the program and compares what it prints byte by byte. Beside the
# script NAME stands
#   NAME.stdout   what it has to print;
#   NAME.profile  the profile that it runs over, with a disk in a file. Without it the program is given no words;
#   NAME.disk     the disks that it runs over in place of a formatted one, each a paragraph: places and the bytes that
#                 stand from there on, in hex, among zero bytes. It has to print the same over each. HEX*N stands for
#                 HEX N times;
#   NAME.before   a script that is run before over the same profile and disk, which is then moved to layout 2;
#   NAME.left     places and the bytes that have to stand there in the end, written likewise.
# Each runs four times: as a file, and through a pipe that gives the program pieces of 1, 2 and 7 bytes. One without a
# profile runs once more over the built-in profile with each optional key, where no ask fails: it has to print the same.
# Usage: tests/scripts.sh [PROGRAM]. Without a word it takes the program that was built in crates/pos_console/out. Its
# last line is 'N passed, M failed'; it ends with 0 where none failed.
set -u
top=$(cd "$(dirname "$0")/.." && pwd)
scripts=$top/tests/scripts
program=$(realpath "${1:-$top/crates/pos_console/out/pos_console}")
work=$(mktemp -d)
trap 'rm -rf "$work"' EXIT
cd "$work" || exit 1
# shellcheck source=tests/common.sh
. "$top/tests/common.sh"

# tell_left FILE: tells the places where the file `disk` has other bytes
tell_left() {
  local place hex found
  while read -r place hex; do
    [ "$place" = '#' ] && continue
    hex=$(expand "$hex")
    found=$(tail -c +$((place + 1)) disk | head -c $((${#hex} / 2)) | od -An -v -tx1 | tr -d ' \n')
    [ "$hex" = "$found" ] || printf 'place %s of the disk\n< %s\n> %s\n' "$place" "$hex" "$found"
  done < "$1"
}

# run_script NAME SCRIPT STDOUT LEFT WORD ..: runs the program with these words over a script; an empty LEFT asks
# nothing
run_script() {
  local name=$1 script=$2 wanted=$3 left=$4 status
  shift 4
  "${cut[@]}" "$program" "$@" < "$script" > out 2> err
  status=$?
  {
    [ "$status" -eq 0 ] || echo "it ended with $status"
    cat err
    cmp -s "$wanted" out || diff "$wanted" out 2>&1 | head -n 12
    [ -z "$left" ] || tell_left "$left"
  } > wrong
  if [ -s wrong ]; then
    failed=$((failed + 1))
    echo "failed: $name, $how (< is wanted)"
    sed 's/^/  /' wrong
  else
    passed=$((passed + 1))
  fi
}

# The built-in profile, with a ring, and with a line that never fails and a recorder round each device.
wrappers='flaky = [1, 0]
record = true'
cat > wrapped.profile << EOF
[[device]]
name = "d1"
category = "CashDrawer"
$wrappers
[[device]]
name = "s1"
category = "Scanner"
$wrappers
[[device]]
name = "p1"
category = "LineDisplay"
rows = 2
columns = 4
ring = true
$wrappers
[[device]]
name = "r1"
category = "POSPrinter"
chars = 8
lines = 5
near = 2
$wrappers
[[device]]
name = "t1"
category = "HardTotals"
[[spare]]
category = "CashDrawer"
$wrappers
EOF

# format_disk: makes the file `disk` anew, formatted
format_disk() {
  rm -f disk
  "$program" format --disk disk
}

# write_line HANDLE COUNT: the line that writes so many bytes at the start of a file
write_line() {
  printf 'call a write %s 0 ' "$1"
  head -c "$2" /dev/zero | tr '\000' '\007' | od -An -v -tx1 | tr -d ' \n'
  echo
}

# over_layout_2 NAME ANSWERS: runs the lines of standard input behind those that enable, over no files by layout 2; they
# have to print ANSWERS, and the disk has the bytes in the file `left` in the end
over_layout_2() {
  format_disk
  "$program" migrate --disk disk
  { printf 'new a HardTotals\nopen a t1\nset a DeviceEnabled true\n'; cat; } > script
  printf "ok\nok\nok\n$2" > stdout
  run_script "$1" script stdout left run --profile wrapped.profile --disk disk
}

# run_cut NUMBER SIZES: whether each read of a program finds one piece of so many bytes, of nine in all
run_cut() {
  local found
  found=$(printf 'abcdefghi' | python3 "$top/tests/cut.py" "$1" python3 -c \
    'import os; print(*iter(lambda: len(os.read(0, 4096)), 0), sep=" ")')
  if [ "$found" = "$2" ]; then
    passed=$((passed + 1))
  else
    failed=$((failed + 1))
    echo "failed: cut.py $1 gives pieces of $found bytes, not $2"
  fi
}
run_cut 1 '1 1 1 1 1 1 1 1 1'
run_cut 2 '2 2 2 2 1'
run_cut 7 '7 2'

for pieces in whole 1 2 7; do
  how="read in pieces of $pieces"
  cut=(python3 "$top/tests/cut.py" "$pieces")
  if [ "$pieces" = whole ]; then
    how='read as a file'
    cut=()
  fi

  for script in "$scripts"/*; do
    case $script in
      *.stdout | *.profile | *.disk | *.left | *.before) continue ;;
    esac
    name=${script##*/}
    left=$script.left
    [ -f "$left" ] || left=
    over=(run --profile "$script.profile" --disk disk)
    if [ ! -f "$script.profile" ]; then
      run_script "$name" "$script" "$script.stdout" ''
      if [ "$pieces" = whole ]; then
        format_disk
        run_script "$name over wrappers" "$script" "$script.stdout" '' run --profile wrapped.profile --disk disk
      fi
    elif [ ! -f "$script.disk" ]; then
      format_disk
      move_disk "$script"
      run_script "$name" "$script" "$script.stdout" "$left" "${over[@]}"
    else
      rm -f paragraph-*
      awk -v RS= '{ print > sprintf("paragraph-%02d", NR) }' "$script.disk"
      for paragraph in paragraph-*; do
        lay_disk "$paragraph"
        move_disk "$script"
        run_script "$name over its ${paragraph/-/ }" "$script" "$script.stdout" "$left" "${over[@]}"
      done
    fi
  done

  # Lines at their greatest length and behind it, with each end of a line, and as many controls as there may be: too
  # long to be kept.
  {
    printf 'show d1%139993s\n'
    printf 'show d1%139993s\r\n'
    printf 'show d1%139994s\n'
    printf 'show d1%139994s\r\n'
    printf '#%140000s\n%140001s\nshow s1\n'
  } > script
  printf 'ok closed\nok closed\nbad line\nbad line\nok\n' > stdout
  run_script 'lines of the greatest length' script stdout ''

  {
    seq -f 'new c%g CashDrawer' 4097
    printf 'new c1 CashDrawer\nget c4096 State\nget c4097 State\nopen c1 d1\nclose c1\nnew c4097 CashDrawer\n'
  } > script
  {
    seq 4096 | sed 's/.*/ok/'
    printf 'refused Full\nbad control\nok 1\nbad control\nok\nok\nrefused Full\n'
  } > stdout
  run_script 'as many controls as there may be' script stdout ''

  # Limits of layout 2, in lines that are too long, or too many, to be kept: what fits its log and its transactions, and
  # how many files it may have.
  create='call a create 46 65536 false'
  begin="$create\ncall a beginTrans\n"
  printf '196608 00\n' > left
  over_layout_2 'the longest record of layout 2' 'ok 1\nok\n' < <(echo "$create"; write_line 1 49119)
  over_layout_2 'the longest transaction of layout 2' 'ok 1\nok\nok\nerr 114 201\n' \
    < <(printf "$begin"; write_line 1 65520; echo 'call a setAll 1 0')
  over_layout_2 'a transaction that is longer' 'ok 1\nok\nerr 114 201\n' < <(printf "$begin"; write_line 1 65521)
  over_layout_2 'as many files as layout 2 may have' "$(printf 'ok %d\\n' $(seq 250))err 114 201\\n" \
    < <(for first in 41 42 43; do printf "call a create $first%02x 0 false\n" $(seq 33 126); done | head -n 251)
  printf '196608 a5 0000000000000002 00010008\n' > left
  over_layout_2 'a record that is longer' 'ok 1\nok\n' < <(echo "$create"; write_line 1 49120)
done

echo "$passed passed, $failed failed"
[ "$failed" -eq 0 ]
