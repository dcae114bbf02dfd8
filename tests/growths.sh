#!/usr/bin/env bash
# Refuses each growth of memory in turn. Over the program it runs each script of tests/scripts and refuses the
# first growth of the run, then the second alone, and so on until a run meets none. Each time
#   either the run has ended for want of memory before its first line, with nothing printed, and tells so: of the words,
#   of the profile's file or of the disk's, or of what is made of them;
#   or it went on without that growth, as where room that is only reserved ahead is refused, and printed what is wanted;
#   or one line was answered `memory`, all before it as ever, and where that line is written twice, with the same growth
#   refused, all else is answered as without a refusal, and the disk in the end has the bytes of NAME.left.
# Over the tests crates that `rt test` built it runs the tests that go on after a refusal likewise: they pass, or end
# where they find no memory for what they begin with.
# First it counts the growths of each run without refusing any, and compares them with tests/growths, which records
# them.
# Usage: tests/growths.sh [-v] [-k | -s STEP] [PROGRAM]. With -v it prints how many growths each run has. With -k it
# writes tests/growths in the place of comparing. With -s it refuses each STEP-th growth alone, another one of them
# first in each script, and of the program only; it still compares how many growths each run has. It needs a C compiler:
# the one of the kit, by rt, or cc. Its last line is 'N passed, M failed'; it ends with 0 where none failed.
set -u
export LC_ALL=C
is_loud=
is_kept_anew=
step=1
[ "${1:-}" = -v ] && { is_loud=1; shift; }
[ "${1:-}" = -k ] && { is_kept_anew=1; shift; }
[ "${1:-}" = -s ] && { step=$2; shift 2; }
top=$(cd "$(dirname "$0")/.." && pwd)
recorded=$top/tests/growths
scripts=$top/tests/scripts
program=$(realpath "${1:-$top/crates/pos_console/out/pos_console}")
work=$(mktemp -d)
trap 'rm -rf "$work"' EXIT
cd "$work" || exit 1
# shellcheck source=tests/common.sh
. "$top/tests/common.sh"
all=0
: > found

# malloc and realloc of the C library, but for the growth with the number REFUSED, whose refusal is told at descriptor
# 9. Where
# REFUSED is 0 each growth is told there, and none is refused
cat > refuse.c <<'C'
typedef unsigned long size;
extern void *__libc_malloc(size);
extern void *__libc_realloc(void *, size);
extern char *getenv(const char *);
extern long write(int, const void *, size);
static long left = -1;
static int is_counted;
static int is_refused(void) {
  if (left < 0) {
    const char *digits = getenv("REFUSED");
    is_counted = digits && *digits == '0';
    for (left = 0; digits && *digits; digits++) left = left * 10 + (*digits - '0');
    if (left == 0) left = 1L << 62;
  }
  if (is_counted && write(9, ".", 1) != 1) __builtin_trap();
  if (left == 0 || --left != 0) return 0;
  return write(9, "refused\n", 8) == 8;
}
void *malloc(size n) { return is_refused() ? 0 : __libc_malloc(n); }
void *realloc(void *p, size n) { return is_refused() ? 0 : __libc_realloc(p, n); }
C
kit=$(command -v rt) && kit=$(dirname "$(dirname "$(realpath "$kit")")")/toolchain/bin/clang
[ -x "$kit" ] || kit=cc
# give_up WHY: ends with a failure
give_up() {
  echo "failed: $1"
  echo "0 passed, 1 failed"
  exit 1
}

"$kit" -O1 -shared -fPIC -nostdlib -o refuse.so refuse.c || give_up 'no C compiler: install gcc'
[ -x "$program" ] || give_up "$program isn't there"
[ -n "$is_kept_anew" ] || [ -s "$recorded" ] || give_up "$recorded isn't there: tests/growths.sh -k writes it"

# refuse NUMBER INPUT WORD ..: runs the words with that growth refused. What they print is in `out` and `err`, and `met`
# is empty where there is no such growth
refuse() {
  local number=$1 input=$2
  shift 2
  [ ! -f disk.start ] || cp disk.start disk
  REFUSED=$number LD_PRELOAD=$work/refuse.so "$@" < "$input" > out 2> err 9> met
}

# tell NAME WHAT: a growth that was refused in another way than it has to be
tell() {
  failed=$((failed + 1))
  echo "failed: $1: $2"
}

# count INPUT WORD ..: runs the words with no growth refused, and sets `count` to how many growths the run has
count() {
  refuse 0 "$@"
  status=$?
  count=$(wc -c < met)
}

# record NAME NUMBER ..: writes down how many growths a run has, of each kind, and compares it with what is recorded.
# Where each STEP-th is refused alone, the kinds aren't known, and the sum is compared
record() {
  local name=$1 wanted
  shift
  echo "$name $*" >> found
  [ -z "$is_loud" ] || echo "$name: $*"
  [ -z "$is_kept_anew" ] || return 0
  wanted=$(awk -v name="$name" -v step="$step" '
    $1 == name && step == 1 { sub(/^[^ ]* /, ""); print }
    $1 == name && step > 1 { for (i = 2; i <= NF; i++) sum += $i; print sum }' "$recorded")
  if [ "$wanted" = "$*" ] && [ "$1" != 0 ]; then
    passed=$((passed + 1))
  else
    tell "$name" "it has $* growths, and $recorded has ${wanted:-no number}"
  fi
}

# padded SCRIPT LENGTH: the script behind a comment of so many bytes, so that one with a line more is as long
padded() {
  printf '#%*s\n' "$2" ''
  cat "$1"
}

# repeat SCRIPT WANTED LINE: writes into `script` and `wanted` the script with the line twice that prints the line LINE
# of WANTED, and what that prints
repeat() {
  local asks length
  asks=$(awk '!/^#/ && !/^ *\r?$/ { print NR }' "$1" | sed -n "$3p")
  length=$(sed -n "${asks}p" "$1" | wc -c)
  sed "${asks}p" "$1" > twice
  padded twice $((longest - length)) > script
  { head -n $(($3 - 1)) "$2"; echo memory; tail -n +"$3" "$2"; } > wanted
}

# is_left FILE: whether the file `disk` has these bytes
is_left() {
  local place hex
  while read -r place hex; do
    [ "$place" = '#' ] && continue
    hex=$(expand "$hex")
    [ "$(tail -c +$((place + 1)) disk | head -c $((${#hex} / 2)) | od -An -v -tx1 | tr -d ' \n')" = "$hex" ] || return 1
  done < "$1"
}

# is_told SCRIPT: whether want of memory was told before anything was printed
is_told() {
  [ ! -s out ] || return 1
  case $(cat err) in
    'pos_console: no memory' | "pos_console: $1.profile: no memory to read it") ;;
    'pos_console: disk: no memory to open it') ;;
    *) return 1 ;;
  esac
}

# is_kept SCRIPT: whether the disk in the end has the bytes that it has to have, if there are any
is_kept() {
  [ ! -f "$1.left" ] || is_left "$1.left"
}

# refuse_line NAME SCRIPT NUMBER WORD ..: the growth was refused in a line, which is written twice and has it refused
# again
refuse_line() {
  local name=$1 script=$2 number=$3 line
  shift 3
  line=$(cmp out "$script.stdout" 2> /dev/null | sed 's/.* //')
  if [ -z "$line" ] || [ "$(sed -n "${line}p" out)" != memory ]; then
    tell "$name" "growth $number: line ${line:-none} is answered $(sed -n "${line:-1}p" out)"
    return
  fi
  repeat "$script" "$script.stdout" "$line"
  if ! refuse "$number" script "$program" "$@" || ! cmp -s out wanted; then
    tell "$name" "growth $number: line $line and what follows: $(diff wanted out | head -n 4 | tr '\n' ' ')"
  elif ! is_kept "$script"; then
    tell "$name" "growth $number: the disk is left otherwise"
  else
    passed=$((passed + 1))
  fi
}

# refuse_each NAME SCRIPT WORD ..: refuses each growth of the program with these words over a script
refuse_each() {
  local name=$1 script=$2 number count status before=0 spared=0 lines=0
  shift 2
  longest=$(awk '{ if (length > most) most = length } END { print most + 2 }' "$script")
  padded "$script" "$longest" > first
  count first "$program" "$@"
  [ "$status" -eq 0 ] && cmp -s out "$script.stdout" || tell "$name" "the run that meets no refusal"
  begin=$((begin % step + 1))
  for ((number = begin; number <= count; number += step)); do
    refuse "$number" first "$program" "$@"
    status=$?
    if [ ! -s met ]; then
      tell "$name" "growth $number of $count isn't met"
    elif [ "$status" -eq 6 ]; then
      before=$((before + 1))
      if is_told "$script"; then
        passed=$((passed + 1))
      else
        tell "$name" "growth $number: $(cat out err | head -n 3 | tr '\n' ' ')"
      fi
    elif [ "$status" -ne 0 ]; then
      tell "$name" "growth $number: status $status"
    elif cmp -s out "$script.stdout" && is_kept "$script"; then
      spared=$((spared + 1))
      passed=$((passed + 1))
    else
      lines=$((lines + 1))
      refuse_line "$name" "$script" "$number" "$@"
    fi
  done
  [ $((before + spared + lines)) -gt 0 ] || tell "$name" 'no growth was refused'
  all=$((all + before + spared + lines))
  if [ "$step" -eq 1 ]; then record "$name" "$before" "$lines" "$spared"; else record "$name" "$count"; fi
}

# refuse_each_of VERB FAULT WANTED: refuses each growth of the program as it does VERB with the disk `disk.start`: it
# ends for want of memory, tells so, prints nothing and leaves the disk as it was; or all is as without a refusal, and
# it prints WANTED
refuse_each_of() {
  local verb=$1 fault=$2 wanted=$3 number count status
  count /dev/null "$program" "$verb" --disk disk
  [ "$status:$(cat out err)" = "0:$wanted" ] || tell "$verb" 'the run that meets no refusal'
  for ((number = 1; number <= count; number++)); do
    refuse "$number" /dev/null "$program" "$verb" --disk disk
    status=$?
    if [ ! -s met ]; then
      tell "$verb" "growth $number of $count isn't met"
      continue
    fi
    all=$((all + 1))
    case $status:$(cat out err) in
      '6:pos_console: no memory' | '6:pos_console: disk: no memory to open it' | "6:pos_console: $fault")
        if cmp -s disk disk.start; then
          passed=$((passed + 1))
        else
          tell "$verb" "growth $number: the disk was written"
        fi
        ;;
      "0:$wanted") passed=$((passed + 1)) ;;
      *) tell "$verb" "growth $number: status $status $(cat out err | head -n 3 | tr '\n' ' ')" ;;
    esac
  done
  record "$verb" "$count"
}

# Before all else: a refusal has an effect, it is told, and growths are counted
rm -f disk.start
count /dev/null "$program"
[ "$status:$(cat out err)" = 0: ] && [ "$count" -gt 0 ] ||
  give_up "the preloaded library counts no growth, or the program failed"
refuse 1 /dev/null "$program"
[ "$?:$(cat out err)" = '6:pos_console: no memory' ] && [ "$(cat met)" = refused ] ||
  give_up 'the preloaded library refuses no growth, or a refusal has no effect'
refuse $((count + 1)) /dev/null "$program"
[ "$?:$(cat out err met)" = 0: ] || give_up 'a growth that a run does not have is refused'

begin=0
for script in "$scripts"/*; do
  case $script in
    *.stdout | *.profile | *.disk | *.left | *.before) continue ;;
  esac
  name=${script##*/}
  rm -f disk.start
  over=(run --profile "$script.profile" --disk disk)
  if [ ! -f "$script.profile" ]; then
    refuse_each "$name" "$script"
  elif [ ! -f "$script.disk" ]; then
    rm -f disk
    "$program" format --disk disk
    move_disk "$script"
    mv disk disk.start
    refuse_each "$name" "$script" "${over[@]}"
  else
    rm -f paragraph-*
    awk -v RS= '{ print > sprintf("paragraph-%02d", NR) }' "$script.disk"
    for paragraph in paragraph-*; do
      lay_disk "$paragraph"
      move_disk "$script"
      mv disk disk.start
      refuse_each "$name/${paragraph#*-}" "$script" "${over[@]}"
    done
  fi
done
rm -f disk
"$program" format --disk disk
printf 'new a HardTotals\nopen a t1\nset a DeviceEnabled true\ncall a create 41 64 false\n' |
  "$program" run --profile "$scripts/disk.moved.profile" --disk disk > /dev/null
told=$("$program" files --disk disk)
mv disk disk.start
refuse_each_of files 'disk: no memory to open it' "$told"
refuse_each_of migrate 'disk: no memory to move it to layout 2: free some and move it again' ''
echo "$all growths of the program"

# end PATTERN: compares the names of the runs with those recorded, or writes tests/growths, and ends
end() {
  local name
  if [ -z "$is_kept_anew" ]; then
    # (names like PATTERN are those of runs that are left out)
    while read -r name _; do
      case $name in '' | '#' | $1) continue ;; esac
      grep -q "^$name " found || tell "$name" "$recorded has it, and it wasn't run"
    done < "$recorded"
  elif [ "$failed" -eq 0 ]; then
    {
      echo "# How many growths of memory each run has: of a script before its first line, in its lines, and of those"
      echo "# that it does without; of a command all; of a test all, and those at which it ends. tests/growths.sh -k"
      echo "# wrote it."
      cat found
    } > "$recorded"
  fi
  echo "$passed passed, $failed failed"
  [ "$failed" -eq 0 ]
  exit
}

# is_ended STATUS: whether a test has ended with it for want of memory at its beginning, and says just that
is_ended() {
  local why=$(sed '$d' err)
  case $1:$(cat err) in
    '134:ample memory: NoMemory' | '134:ample memory: AllocFailed { .. }') return 0 ;;
  esac
  [ "$1" -eq 101 ] && [ "$(tail -n 1 err)" = 'the test failed: its result gives status 1' ] || return 1
  case $why in
    'error: AllocError' | 'error: AllocFailed { .. }' | 'error: NoMemory') ;;
    'no memory for a counter' | 'no memory for a list') ;;
    *) return 1 ;;
  esac
}

# refuse_in_test TESTS NAME: refuses each growth of a test. It passes, or ends with a fault of memory
refuse_in_test() {
  local name=${1##*/}:$2 number count status ended=0
  rm -f disk.start
  count /dev/null "$1" "$2"
  [ "$status" -eq 0 ] || tell "$name" 'the run that meets no refusal'
  for ((number = 1; number <= count; number++)); do
    refuse "$number" /dev/null "$1" "$2"
    status=$?
    if [ ! -s met ]; then
      tell "$name" "growth $number of $count isn't met"
    elif [ "$status" -eq 0 ]; then
      passed=$((passed + 1))
    elif is_ended "$status"; then
      ended=$((ended + 1))
      passed=$((passed + 1))
    else
      tell "$name" "growth $number: status $status $(head -n 3 err | tr '\n' ' ')"
    fi
  done
  record "$name" "$count" "$ended"
}

[ "$step" -eq 1 ] || end '*::*'

for module in pos_totals_tests:growths pos_devices_tests:growths pos_profile_tests:profiles \
  pos_profile_tests:registries pos_counter_tests:growths pos_run_tests:growths; do
  tests=$top/crates/${module%:*}/out/${module%:*}_tests
  if [ ! -x "$tests" ]; then
    if [ -z "$is_kept_anew" ]; then
      tell "$module" "$tests isn't there: rt test builds it"
    elif grep "^${tests##*/}:${module#*:}::" "$recorded" >> found; then
      echo "$tests isn't there: the numbers of $module stay as recorded"
    fi
    continue
  fi
  # (a test `ample_..` asks that nothing is refused)
  for name in $("$tests" --list | sed -n "s/^\(${module#*:}::.*\): test$/\1/p" | grep -v '::ample_'); do
    refuse_in_test "$tests" "$name"
  done
done
end ''
