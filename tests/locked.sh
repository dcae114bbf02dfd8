#!/usr/bin/env bash
# Tries the program on a totals file that another program has open. The other is a run of the program, `flock` of
# util-linux, or Python's `fcntl.flock`, which is the lock that the packages of the library take. Usage: tests/locked.sh
# [PROGRAM]. Without a word it builds the program, and needs rt; with one it takes that one. Its last line is
# 'N passed, M failed'; it ends with 0 if none failed.
set -u
top=$(cd "$(dirname "$0")/.." && pwd)
program=$(realpath "${1:-$top/crates/pos_console/out/pos_console}")
if [ $# -eq 0 ]; then
  (cd "$top/crates/pos_console" && rt run < /dev/null > /dev/null) || exit 1
fi
work=$(mktemp -d)
trap 'rm -rf "$work"' EXIT
cd "$work" || exit 1
# shellcheck source=tests/common.sh
. "$top/tests/common.sh"

for needed in flock python3; do
  command -v "$needed" > /dev/null && continue
  told "$needed is there (flock is in the package util-linux)" yes no
  echo "$passed passed, $failed failed"
  exit 1
done

printf '[[device]]\nname = "t1"\ncategory = "HardTotals"\n' > till.toml
printf 'new a HardTotals\nopen a t1\nset a DeviceEnabled true\nget a NumberOfFiles\n' > script
"$program" format --disk till.disk
cp till.disk kept

# ends NAME STATUS MESSAGE OUTPUT WORD ..: whether the program ends so on the words, over the file `script`
ends() {
  local name=$1 status=$2 message=$3 output=$4
  shift 4
  timeout 300 "$program" "$@" < script > out 2> err
  told "$name: status" "$status" $?
  told "$name: message" "$message" "$(cat err)"
  told "$name: output" "$output" "$(cat out)"
}

in_use='pos_console: till.disk: is in use: close the other program that has it open'

# refused NAME: whether each command finds the file in use, and leaves it as it is
refused() {
  cp till.disk before
  ends "run beside $1" 4 "$in_use" '' run --profile till.toml --disk till.disk
  ends "migrate beside $1" 4 "$in_use" '' migrate --disk till.disk
  ends "format beside $1" 4 "$in_use" '' format --disk till.disk
  told "format, migrate and run beside $1 keep the file" same "$(cmp -s till.disk before && echo same)"
}

# untold NAME: whether `files` finds the file in use
untold() {
  ends "files beside $1" 4 "$in_use" '' files --disk till.disk
}

# served NAME: whether the file serves each command that leaves it as it is
served() {
  ends "run after $1" 0 '' "$(printf 'ok\nok\nok\nok 0')" run --profile till.toml --disk till.disk
  ends "files after $1" 0 '' "$(printf 'layout 1\nslot 0\nsequence 1\nrecords 0\nroom 16378\nfiles 0')" \
    files --disk till.disk
}

# --- a run of the program, which has answered a line and waits for the next
mkfifo lines answers
"$program" run --profile till.toml --disk till.disk < lines > answers 2> run.err &
run=$!
exec 3> lines 4< answers
printf 'new a HardTotals\n' >&3
read -r -t 300 answer <&4
told 'a run answers' ok "${answer:-}"
refused 'a run'
untold 'a run'
exec 3>&-
wait "$run"
told 'the run ends: status' 0 $?
told 'the run ends: message' '' "$(cat run.err)"
exec 4<&-
served 'the run'

# --- a run that is killed lets the file go
"$program" run --profile till.toml --disk till.disk < lines > answers 2> run.err &
run=$!
exec 3> lines 4< answers
printf 'new a HardTotals\n' >&3
read -r -t 300 answer <&4
told 'a second run answers' ok "${answer:-}"
untold 'a second run'
kill -KILL "$run"
wait "$run" 2> /dev/null
exec 3>&- 4<&-
served 'a run that was killed'

# --- flock of util-linux: while a program has the lock for itself, and while one has it for reading
# beside LOCK WORD ..: has the file locked so while the words run here
beside() {
  exec 5< till.disk
  told "flock takes a lock ($1)" 0 "$(flock -n "$1" 5 && echo 0)"
  shift
  "$@"
  exec 5<&-
}
beside -x refused flock
beside -x untold flock
beside -s refused 'a reader'
beside -s ends 'files beside a reader' 0 '' "$(printf 'layout 1\nslot 0\nsequence 1\nrecords 0\nroom 16378\nfiles 0')" \
  files --disk till.disk
served flock

# --- the lock that the packages of the library take, and theirs beside a run
cat > hold.py <<'PYTHON'
import fcntl, os, sys
kept = os.open(sys.argv[1], os.O_RDWR)
fcntl.flock(kept, fcntl.LOCK_EX | fcntl.LOCK_NB)
print("locked", flush=True)
sys.stdin.read()
PYTHON
python3 hold.py till.disk < lines > answers 2> /dev/null &
holder=$!
exec 3> lines 4< answers
read -r -t 300 answer <&4
told 'a package locks the file' locked "${answer:-}"
refused 'a package'
untold 'a package'
exec 3>&- 4<&-
wait "$holder"
served 'a package'
"$program" run --profile till.toml --disk till.disk < lines > answers 2> run.err &
run=$!
exec 3> lines 4< answers
printf 'new a HardTotals\n' >&3
read -r -t 300 answer <&4
told 'flock is refused beside a run' 1 "$(flock -n -x till.disk true; echo $?)"
told 'a package is refused beside a run' BlockingIOError \
  "$(python3 hold.py till.disk < /dev/null 2>&1 | tail -n 1 | cut -d: -f1)"
exec 3>&-
wait "$run"
exec 4<&-

# --- a file that is made or lengthened while another has it: nothing of it changes
printf abc > short.disk
exec 5< short.disk
flock -n -x 5
timeout 300 "$program" format --disk short.disk < /dev/null > out 2> err
told 'format of a short file in use: status' 4 $?
told 'format of a short file in use: message' "${in_use/till/short}" "$(cat err)"
told 'format of a short file in use keeps it' abc "$(cat short.disk)"
exec 5<&-
timeout 300 "$program" format --disk short.disk < /dev/null > out 2> err
told 'format of it then: status' 0 $?
told 'format of it then: length' 327680 "$(wc -c < short.disk)"

told 'the file is as it was formatted' same "$(cmp -s till.disk kept && echo same)"
ends 'migrate once no other program has the file' 0 '' '' migrate --disk till.disk
echo "$passed passed, $failed failed"
[ "$failed" -eq 0 ]
