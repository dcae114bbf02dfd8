#!/usr/bin/env bash
# Counts what an addition costs, as docs/contributing/adding.md says: for one of each kind that is there, the files of
# src/, specs/ and proofs/ that name it. Tests and the example pos_till don't count. Neither do pos_escpos and
# pos_report, which name some and need none: but a code needs a row there that explains it. Usage: tests/adding.sh.
# A kind that takes more files than its row says has failed, and so has one that no file names. Of the categories it is
# the median, and so it is of the properties that can be set. Its last line is 'N passed, M failed'.
set -u
cd "$(dirname "$0")/.." || exit 1
passed=0
failed=0

# files_with PATTERN: the files that name it, comments aside. What a file imports of a module of the same name isn't it.
files_with() {
  grep -rnP --include='*.rt' --include='*.antt' "(?<!specs\.)(?<!proofs\.)(?:$1)" \
    crates/*/src crates/*/specs crates/*/proofs |
    grep -vP '^[^:]*:[0-9]+:\s*(//|--)' | cut -d: -f1 | sort -u |
    grep -v '_tests/\|src/tests\.rt\|pos_till/\|pos_escpos/\|pos_report/'
}

# judge KIND MOST NUMBER FILES: a kind that so many files name, of which at most so many are said
judge() {
  if [ "$3" -gt 0 ] && [ "$3" -le "$2" ]; then
    passed=$((passed + 1))
    echo "$1: $3 files"
    return
  fi
  failed=$((failed + 1))
  if [ "$3" -eq 0 ]; then
    echo "$1: no file names it: the pattern is of something that is gone"
  else
    echo "$1: $3 files, and at most $2 are said:"
    echo "$4"
  fi
}

# count KIND MOST PATTERN: the files that name it, at most so many
count() {
  local files number
  files=$(files_with "$3")
  number=$(grep -c . <<< "$files")
  judge "$1" "$2" "$number" "$files"
}

# count_median KIND MOST PATTERN ..: the median of the files that name each, at most so many; none is named by no file
count_median() {
  local kind=$1 most=$2 pattern number counts=() told=
  shift 2
  for pattern in "$@"; do
    number=$(files_with "\b(?:$pattern)\b" | grep -c .)
    told="$told$pattern $number
"
    if [ "$number" -eq 0 ]; then
      judge "$kind $pattern" "$most" 0 ''
      return
    fi
    counts+=("$number")
  done
  mapfile -t counts < <(printf '%s\n' "${counts[@]}" | sort -n)
  judge "$kind" "$most" "${counts[$((${#counts[@]} / 2))]}" "$told"
}

count "a call with an order that is there" 5 'PrintImmediate|printImmediate|print_immediate'
count "a call with a new order" 8 'OpenDrawer|openDrawer|open_drawer'
count "a question about the totals' files" 6 'FindByIndex|findByIndex|find_by_index'
count "an edit of a file of the totals" 13 'SetAll|setAll|set_all'
count "a property that is always the same" 3 'CapTransactions'
count "a property of the device" 3 'NumberOfFiles'
count_median "a property that can be set" 4 'FreezeEvents|freeze_events' 'DataEventEnabled|data_event_enabled' \
  'AutoDisable|auto_disable' 'DecodeData|decode_data' CursorRow CursorColumn CursorUpdate 'AsyncMode|async_mode' \
  'PowerNotify|power_notify' DeviceEnabled
count "an input of every kind" 6 'PowerMoved'
count "a reply with its code" 6 'Offline\b'
count "an extended code with its reply" 6 'EPTR_COVER_OPEN|eptr_cover_open|Reply::CoverOpen|reply\.CoverOpen'
count "a sign" 20 '\bpowered\b'
count "a request of the script" 14 'Deliver\b|deliver_event|"deliver"'
count_median "a category" 16 CashDrawer Scanner LineDisplay PosPrinter HardTotals
echo "$passed passed, $failed failed"
[ "$failed" -eq 0 ]
