#!/usr/bin/env bash
# Cuts the power at every moment of what the program and a wrapper do to a totals file. A kill loses no write, so only
# this shows a sync that is missing.
# A library that the loader puts first (tests/powercut/recorder.c) records their writes, lengths, syncs and answers in
# order. After each entry a cut may leave any of the writes since the last sync, and of each a front, a back, or some
# sectors or bytes; a file whose folder isn't synced may be missing (tests/powercut/cuts.py). A reader of its own
# (tests/powercut/reader.py), written from docs/reference/totals-file.md, reads each file that is left. It has to hold
# the files after some first changes, at least all that were answered before the cut, and a transaction whole or not at
# all. The program reads some of the files too, by `files` and by a run, and has to find the same.
# It records `run` by both layouts, over new files, over noise and over what a cut left, also killed and run again;
# `format`; `migrate`, also cut and done again; and a till in Python over the library, also killed as it creates its
# file. In these records it leaves out some syncs of every kind, and has to find a file that is amiss. At the harmless
# kinds it has to find none. It has writes and syncs of the file fail, too, in runs and moves: the change isn't done for
# the till, which asks the file nothing more until its totals are enabled anew; the file has the change whole or not at
# all; and another run goes on from it.
# Usage: tests/powercut.sh [-s STEP] [-r SEED] [PROGRAM [LIBRARY]]. With -s it reads one of STEP files that are left.
# The seed says which, and which changes are made; it is printed, and -r repeats it. LIBRARY is libkijolvar.a. Without
# them it builds both, and needs rt. It needs gcc and python3, and takes some minutes, with -s 10 about one. Its last
# line is 'N passed, M failed', and N + M is the same for each seed and step.
set -u
export LC_ALL=C
step=1
seed=$((RANDOM * 32768 + RANDOM))
[ "${1:-}" = -s ] && { step=$2; shift 2; }
[ "${1:-}" = -r ] && { seed=$2; shift 2; }
top=$(cd "$(dirname "$0")/.." && pwd)

# give_up WHY: ends without a judgement
give_up() {
  echo "failed: $1"
  echo "0 passed, 1 failed"
  exit 1
}

for tool in gcc python3; do
  command -v "$tool" > /dev/null || give_up "$tool isn't there: it is in Debian's package $tool"
done

program=${1:-$top/crates/pos_console/out/pos_console}
library=${2:-$top/crates/kijolvar/out/libkijolvar.a}
[ $# -ge 1 ] || (cd "$top/crates/pos_console" && rt run < /dev/null > /dev/null 2>&1) ||
  give_up "rt run built no program"
[ $# -ge 2 ] || "$top/tools/libraries" archive > /dev/null 2>&1 || give_up "rt lib built no library"
[ -x "$program" ] || give_up "$program isn't there: rt run in crates/pos_console builds it"
[ -f "$library" ] || give_up "$library isn't there: rt lib in crates/kijolvar builds it"

# A sync of a file in memory takes no time. It is recorded all the same.
memory=/dev/shm
[ -w "$memory" ] || memory=${TMPDIR:-/tmp}
work=$(mktemp -d -p "$memory")
trap 'rm -rf "$work"' EXIT
gcc -std=gnu11 -Wall -Wextra -Werror -O1 -shared -fPIC -o "$work/recorder.so" "$top/tests/powercut/recorder.c" ||
  give_up "the recorder isn't built: the headers are in Debian's package libc6-dev"
gcc -Wall -Wextra -Werror -O1 -shared -fPIC -o "$work/libkijolvar.so" "$top/abi/heap.c" -Wl,--whole-archive "$library" \
  -Wl,--no-whole-archive || give_up "the shared object isn't built"
echo "seed $seed"
timeout 7200 python3 -B "$top/tests/powercut/powercut.py" "$work" "$step" "$seed" "$(realpath "$program")" \
  "$work/libkijolvar.so"
