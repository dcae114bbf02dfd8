#!/usr/bin/env bash
# Runs the scripts without a profile, and two tests crates, without a proof. It builds the program and the crates with
# checks. It runs each script of tests/scripts that has no profile, and compares what it prints byte by byte. It runs
# the tests of the crates that are built soonest. It takes up to three minutes on four idle hardware threads, and needs
# rt.
# Usage: tests/quick.sh. Its last line is 'N passed, M failed'. It fails if that is fewer than tests/expected has for
# it.
set -u
top=$(cd "$(dirname "$0")/.." && pwd)
scripts=$top/tests/scripts
tests_crates='pos_profile_tests pos_devices_tests'
work=$(mktemp -d)
trap 'rm -rf "$work"' EXIT
cd "$work" || exit 1
passed=0
failed=0
echo 'The quick test: it proves nothing. It only runs the scripts and some tests.'
echo 'The whole test is .ci/run.'

# tell WHAT: something has failed
tell() {
  failed=$((failed + 1))
  echo "failed: $1"
}

# try_tests: runs the tests of the crates, one crate after another
try_tests() {
  local crate
  for crate in $tests_crates; do
    (cd "$top/crates/$crate" && rt try --test) > "$crate" 2>&1 < /dev/null
  done
}

if ! command -v rt > /dev/null; then
  tell "rt isn't on the path: install the Rattle kit"
  echo "$passed passed, $failed failed"
  exit 1
fi
mkdir cases
names=()
for script in "$scripts"/*; do
  case $script in
    *.stdout | *.profile | *.disk | *.left | *.before) continue ;;
  esac
  [ ! -f "$script.profile" ] || continue
  names+=("${script##*/}")
  cp "$script" cases
  cp "$script.stdout" cases || tell "${script##*/} has no .stdout"
done

try_tests &
(cd "$top/crates/pos_console" && rt try --cases "$work/cases") > out 2> err < /dev/null
status=$?
for name in "${names[@]}"; do
  if grep -q "^case=$name run=ended status=0 .*output=expected proved=no$" err; then
    passed=$((passed + 1))
  else
    tell "$name: $(grep "^case=$name " err || echo 'it did not run')"
  fi
done
if [ "$status" -ne 0 ]; then
  tell "rt try --cases ends with $status"
  head -c 100000 out | tail -n 40
  grep -v '^case=.*output=expected' err | tail -n 20
fi
wait
for crate in $tests_crates; do
  good=$(grep -c '^test .* \.\.\. ok$' "$crate")
  passed=$((passed + good))
  if ! grep -q "^test result: ok\. $good passed; 0 failed; 0 ignored; 0 filtered out$" "$crate"; then
    tell "$crate: $(grep '^test .* FAILED$' "$crate" || tail -n 5 "$crate")"
  fi
done

number=$(sed -n 's/^alone \([0-9]*\) tests\/quick.sh$/\1/p' "$top/tests/expected")
if [ $((passed + failed)) -lt "${number:-1}" ] || [ -z "$number" ]; then
  tell "it makes $((passed + failed)) checks, and tests/expected has ${number:-no number}"
elif [ $((passed + failed)) -gt "$number" ]; then
  echo "write $passed in tests/expected, which has $number"
fi
echo "$passed passed, $failed failed"
[ "$failed" -eq 0 ]
