# shellcheck shell=bash
# What scripts of this folder have in common, which read this file: how they count checks, the tools that they need, and
# the disks of tests/scripts. They set `top`, the checkout, `work`, a folder of their own, and `program`, pos_console.
# shellcheck disable=SC2154
passed=0
failed=0

# told NAME WANTED FOUND: whether two texts are the same
told() {
  if [ "$2" = "$3" ]; then
    passed=$((passed + 1))
  else
    failed=$((failed + 1))
    printf 'failed: %s\n  wanted: %s\n  found:  %s\n' "$1" "$2" "$3"
  fi
}

# runs NAME COMMAND ..: whether a command ends well
runs() {
  local name=$1 status
  shift
  "$@" > "$work/said" 2>&1
  status=$?
  told "$name" 0 "$status"
  [ "$status" -eq 0 ] || tail -n 12 "$work/said"
}

# needs TOOL PACKAGE: whether a tool is there
needs() {
  if ! command -v "$1" > /dev/null; then
    echo "failed: $1 is missing: install $2"
    failed=$((failed + 1))
  fi
}

# has_to_run FAULT PACKAGE COMMAND ..: ends with a failure if the command fails, and names the package of Debian that
# has it
has_to_run() {
  local fault=$1 package=$2
  shift 2
  "$@" > /dev/null 2>&1 && return
  echo "failed: $fault: install the package $package, or allow it here"
  echo "0 passed, 1 failed"
  exit 1
}

# count_runs_again: has checks.py write a line to a file for each time that a test runs again
count_runs_again() {
  export KIJOLVAR_RUNS_AGAIN=$work/runs_again
  : > "$KIJOLVAR_RUNS_AGAIN"
}

# tell_runs_again: prints how many lines that file has. .ci/run takes it from the line before the last
tell_runs_again() {
  echo "$(wc -l < "$KIJOLVAR_RUNS_AGAIN") runs again"
}

# expand HEX ..: the bytes in hex, without blanks, with what stands N times written out
expand() {
  local word
  for word in $1; do
    case $word in
      *\**) printf "${word%\**}%.0s" $(seq "${word#*\*}") ;;
      *) printf '%s' "$word" ;;
    esac
  done
}

# lay_disk FILE: makes the file `disk` by places and bytes
lay_disk() {
  local place hex
  rm -f disk
  truncate -s 327680 disk
  while read -r place hex; do
    [ "$place" = '#' ] && continue
    printf "$(sed 's/../\\x&/g' <<< "$(expand "$hex")")" | dd of=disk bs=1 seek="$place" conv=notrunc status=none
  done < "$1"
}

# move_disk SCRIPT: if a script is to be run before this one, runs it, and moves the file `disk` to layout 2
move_disk() {
  [ -f "$1.before" ] || return 0
  "$program" run --profile "$1.profile" --disk disk < "$1.before" > /dev/null
  "$program" migrate --disk disk
}
