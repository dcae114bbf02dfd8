#!/usr/bin/env bash
# Shows which lines of a script take memory, and when. No contract can say it: a body may grow, ignore a refusal and
# go on. It runs the program over each script of tests/scripts, one line a read, with a `malloc` and a
# `write` of its own that report each event. It wants three things of each run:
#   the program prints NAME.stdout while each growth is refused in the lines that take no memory
#   (docs/reference/model.md, "Where the machine is free"): a delivery, `attach`, `detach`, `claim`, `release`, `close`,
#   reading a number or truth value, setting a property but for enabling, and of the calls clearInput,
#   clearInputProperties, clearOutput, claimFile, releaseFile, beginTrans and rollback;
#   none of these lines asked for a growth;
#   in no line a growth came after a write to the disk.
# It wants the last of `format` and `migrate` too, once a file that is too short has been lengthened. With -t it also
# runs the tests `orders::..` of pos_counter_tests that `rt test` built. Their peripherals report each order, and no
# growth may come between an order and the line's answer.
# Usage: tests/memory.sh [-t] [PROGRAM [TESTS]]. It needs a C compiler: the one of the kit, by rt, or cc. Its last
# line is 'N passed, M failed'; it ends with 0 if nothing failed.
set -u
export LC_ALL=C
is_with_tests=
[ "${1:-}" = -t ] && { is_with_tests=1; shift; }
top=$(cd "$(dirname "$0")/.." && pwd)
scripts=$top/tests/scripts
program=$(realpath "${1:-$top/crates/pos_console/out/pos_console}")
tests=$(realpath -m "${2:-$top/crates/pos_counter_tests/out/pos_counter_tests_tests}")
work=$(mktemp -d)
trap 'rm -rf "$work"' EXIT
cd "$work" || exit 1
# shellcheck source=tests/common.sh
. "$top/tests/common.sh"
quiet_lines=0
written_lines=0

# The C library's calls, each reported at descriptor 9: `l` a line of standard input, of which each read gives one;
# `m` a growth, `R` one that is refused; `d` a write to a file, `s` a sync; `a` a write to standard output. QUIET has
# a digit for each line; if it is 1, each growth is refused until the next line is read. In a test, a growth of ORDER
# bytes reports an order, as `o`, and one of ANSWERED bytes that all answers are written, as `a` (pos_counter_tests,
# src/orders.rt).
cat > observe.c <<'C'
typedef unsigned long size;
extern void *__libc_malloc(size);
extern void *__libc_realloc(void *, size);
extern char *getenv(const char *);
extern long syscall(long, ...);
enum { SYS_READ = 0, SYS_WRITE = 1, SYS_PWRITE = 18, SYS_FSYNC = 74, SYS_FDATASYNC = 75 };
enum { ORDER = 7777, ANSWERED = 7778 };
static const char *quiet;
static int is_begun, is_refusing;
static void tell(const char *event) { if (syscall(SYS_WRITE, 9, event, 1L) != 1) __builtin_trap(); }
static int is_refused(size n) {
  tell(n == ORDER ? "o" : n == ANSWERED ? "a" : is_refusing ? "R" : "m");
  return is_refusing;
}
void *malloc(size n) { return is_refused(n) ? 0 : __libc_malloc(n); }
void *realloc(void *p, size n) { return is_refused(n) ? 0 : __libc_realloc(p, n); }
long pwrite(int file, const void *from, size n, long at) { tell("d"); return syscall(SYS_PWRITE, file, from, n, at); }
int fsync(int file) { tell("s"); return syscall(SYS_FSYNC, file); }
int fdatasync(int file) { tell("s"); return syscall(SYS_FDATASYNC, file); }
long write(int file, const void *from, size n) {
  if (file == 1) tell("a");
  return syscall(SYS_WRITE, file, from, n);
}
long read(int file, void *to, size n) {
  char *bytes = to;
  size got = 0;
  if (file != 0) return syscall(SYS_READ, file, to, n);
  if (!is_begun) quiet = getenv("QUIET");
  is_begun = 1;
  is_refusing = 0;
  while (got < n && syscall(SYS_READ, 0, bytes + got, 1L) == 1)
    if (bytes[got++] == '\n') break;
  if (got == 0) return 0;
  tell("l");
  is_refusing = quiet && *quiet == '1';
  if (bytes[got - 1] == '\n' && quiet && *quiet) quiet++;
  return (long)got;
}
C
kit=$(command -v rt) && kit=$(dirname "$(dirname "$(realpath "$kit")")")/toolchain/bin/clang
[ -x "$kit" ] || kit=cc
# give_up WHY: ends with a failure
give_up() {
  echo "failed: $1"
  echo "0 passed, 1 failed"
  exit 1
}

"$kit" -O1 -shared -fPIC -nostdlib -o observe.so observe.c || give_up 'no C compiler: install gcc'
[ -x "$program" ] || give_up "$program isn't there"

# check WHAT COMMAND ..: whether the command succeeds
check() {
  local what=$1
  shift
  if "$@"; then
    passed=$((passed + 1))
  else
    failed=$((failed + 1))
    echo "failed: $what"
  fi
}

# observe QUIET INPUT WORD ..: runs the words. What they print is in `out` and `err`, and the events in `events`
observe() {
  local quiet=$1 input=$2
  shift 2
  QUIET=$quiet LD_PRELOAD=$work/observe.so "$@" < "$input" > out 2> err 9> events
}

# quiet_of SCRIPT: a digit for each of its lines, 1 where it takes no memory
quiet_of() {
  tr -d '\r' < "$1" | awk '
    BEGIN {
      split("deliver attach detach claim release close", words)
      for (i in words) takes_none[words[i]] = 1
      split("clearInput clearInputProperties clearOutput claimFile releaseFile beginTrans rollback", calls)
      for (i in calls) call_takes_none[calls[i]] = 1
    }
    {
      none = ($1 in takes_none)
      if ($1 == "call") none = ($3 in call_takes_none)
      if ($1 == "get") none = ($3 !~ /^ScanData(Label)?$/)
      if ($1 == "set") none = !($3 == "DeviceEnabled" && $4 == "true")
      printf "%d", none
    }'
}

# has_no EVENT SCRIPT: whether there was no such event; else it prints lines that have one
has_no() {
  ! grep -q "$1" events || { tell_lines "$2" "$1"; return 1; }
}

# tell_lines SCRIPT PATTERN: prints the first lines with such events
tell_lines() {
  tr l '\n' < events | tail -n +2 | grep -n "$2" | head -n 3 | while IFS=: read -r number found; do
    echo "  line $number: $(sed -n "${number}p" "$1"): $found"
  done
}

# is_never_late SCRIPT FIRST: whether no line has a growth after an event FIRST and before its answer
is_never_late() {
  ! tr l '\n' < events | grep -q "$2[^a]*[mR]" || { tell_lines "$1" "$2[^a]*[mR]"; return 1; }
}

# is_as_ever SCRIPT: whether the program printed what it prints with ample memory
is_as_ever() {
  cmp -s out "$1.stdout" || { diff "$1.stdout" out | head -n 4; return 1; }
}

# watch NAME SCRIPT WORD ..: the program with these words over a script
watch() {
  local name=$1 script=$2 quiet
  shift 2
  quiet=$(quiet_of "$script")
  [ ! -f disk.start ] || cp disk.start disk
  observe "$quiet" "$script" "$program" "$@"
  check "$name: what it prints, with growths refused in lines that take no memory" is_as_ever "$script"
  check "$name: a growth in a line that takes no memory" has_no R "$script"
  check "$name: a growth after a write to the disk" is_never_late "$script" d
  quiet=${quiet//0/}
  quiet_lines=$((quiet_lines + ${#quiet}))
  written_lines=$((written_lines + $(tr l '\n' < events | grep -c d)))
}

# Before all else: lines are read one by one, a growth that is refused has an effect, and writes to the disk are seen
printf 'new a CashDrawer\nnew a CashDrawer\nopen a d1\n' > first
observe 100 first "$program"
[ "$(tr '\n' ' ' < out)" = 'memory ok ok ' ] && [ "$(grep -o l events | wc -l)" -eq 3 ] && grep -q 'lR[^l]*al' events ||
  give_up "the preloaded library refuses no growth of the first line alone"
printf 'lmmda' > events
is_never_late first d || give_up "a growth before a write is taken for one after it"
printf 'lmdmalmdRalda' > events
[ "$(is_never_late first d | grep -c 'line [12]: .*d[mR]a')" -eq 2 ] || give_up "a growth after a write isn't seen"
printf 'call a openDrawer\ndeliver a\nget a ScanData\nget a State\nset a DeviceEnabled true\n\n# deliver\n' > first
[ "$(quiet_of first)" = 0101000 ] || give_up 'the lines that take no memory are chosen wrongly'

# a formatting and a move: whatever they take comes before their first write, but for that which lengthens a file
observe '' /dev/null "$program" format --disk short
check 'format of no file: it writes more than its length' grep -q 'd.*d' events
sed -i 's/d//' events
check 'format of no file: a growth after the first write behind its length' is_never_late /dev/null d
truncate -s 327680 disk
for verb in format migrate; do
  observe '' /dev/null "$program" "$verb" --disk disk
  check "$verb: it is done" [ "$?:$(cat out err)" = 0: ]
  check "$verb: it writes" grep -q d events
  check "$verb: a growth after its first write" is_never_late /dev/null d
done

for script in "$scripts"/*; do
  case $script in
    *.stdout | *.profile | *.disk | *.left | *.before) continue ;;
  esac
  name=${script##*/}
  rm -f disk.start
  over=(run --profile "$script.profile" --disk disk)
  if [ ! -f "$script.profile" ]; then
    watch "$name" "$script"
  elif [ ! -f "$script.disk" ]; then
    rm -f disk
    "$program" format --disk disk
    move_disk "$script"
    mv disk disk.start
    watch "$name" "$script" "${over[@]}"
  else
    rm -f paragraph-*
    awk -v RS= '{ print > sprintf("paragraph-%02d", NR) }' "$script.disk"
    for paragraph in paragraph-*; do
      lay_disk "$paragraph"
      move_disk "$script"
      mv disk disk.start
      watch "$name/${paragraph#*-}" "$script" "${over[@]}"
    done
  fi
done
echo "$quiet_lines lines in which each growth was refused, $written_lines that wrote to a disk"
check 'lines that take no memory were run' [ "$quiet_lines" -gt 500 ]
check 'lines that write to a disk were run' [ "$written_lines" -gt 30 ]

# watch_orders NAME: a test whose peripherals tell of their orders, and whose writer tells of each answer
watch_orders() {
  observe '' /dev/null "$tests" "$1"
  check "$1: the test" [ "$?" -eq 0 ]
  check "$1: it orders" grep -q 'o.*a' events
  check "$1: a growth after an order" is_never_late /dev/null o
}

if [ -n "$is_with_tests" ]; then
  [ -x "$tests" ] || give_up "$tests isn't there: rt test builds it"
  orders=0
  for name in $("$tests" --list | sed -n 's/^\(orders::.*\): test$/\1/p'); do
    watch_orders "$name"
    orders=$((orders + 1))
  done
  check 'tests that order something were run' [ "$orders" -gt 0 ]
fi
echo "$passed passed, $failed failed"
[ "$failed" -eq 0 ]
