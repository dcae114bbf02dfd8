#!/usr/bin/env bash
# Tries `kijolvar` at a terminal, by tmux: what is typed, completed and printed there.
# Usage: tests/terminal.sh [TOOL]. Without a word it takes the program that was built in crates/pos_tool/out. Its last
# line is 'N passed, M failed'; it ends with 0 where none failed.
set -u
top=$(cd "$(dirname "$0")/.." && pwd)
tool=$(realpath "${1:-$top/crates/pos_tool/out/pos_tool}")
if ! command -v tmux > /dev/null; then
  echo "failed: tmux is missing: install the Debian package tmux"
  echo "0 passed, 1 failed"
  exit 1
fi
work=$(mktemp -d)
socket=$work/socket
trap 'kill $(jobs -p) 2> /dev/null; tmux -S "$socket" kill-server 2> /dev/null; rm -rf "$work"' EXIT
mkdir "$work/bin"
ln -s "$tool" "$work/bin/kijolvar"
"$tool" completions bash > "$work/completions"
passed=0
failed=0

# A text that is waited for is in no command that is typed, and not yet on the screen: else what is typed next may come
# too early, or what is found is old.
# shows NAME TEXT: whether the screen has a line with this text within two minutes
shows() {
  local turn
  for turn in $(seq 1200); do
    if tmux -S "$socket" capture-pane -p -t tool | grep -qF -- "$2"; then
      passed=$((passed + 1))
      return
    fi
    sleep 0.1
  done
  failed=$((failed + 1))
  printf 'failed: %s\n  wanted: %s\n' "$1" "$2"
  tmux -S "$socket" capture-pane -p -t tool | grep . | sed 's/^/  screen: /'
}

# screen NAME LINE ..: whether the screen has these lines and no others within two minutes, from the first on
screen() {
  local name=$1 turn found wanted
  shift
  wanted=$(printf '%s\n' "$@")
  for turn in $(seq 1200); do
    found=$(tmux -S "$socket" capture-pane -p -t tool | sed 's/ *$//' | grep .)
    if [ "$found" = "$wanted" ]; then
      passed=$((passed + 1))
      return
    fi
    sleep 0.1
  done
  failed=$((failed + 1))
  printf 'failed: %s\n' "$name"
  sed 's/^/  wanted: /' <<< "$wanted"
  sed 's/^/  screen: /' <<< "$found"
}

# typed KEY ..: types keys
typed() {
  tmux -S "$socket" send-keys -t tool "$@"
}

cd "$work" || exit 1
PATH="$work/bin:$PATH" PS1='ready> ' tmux -S "$socket" -f /dev/null new-session -d -s tool -x 120 -y 50 \
  'bash --norc --noprofile -i'
typed "PS1='ready> '; . ./completions; clear; echo st''arted" Enter
screen 'a shell is ready' 'started' 'ready>'
typed 'kijolvar help | head -n 1' Enter
shows 'help' 'kijolvar: checks, prints, makes and copies totals files, and runs scripts'
typed 'kijolvar exp' Tab '106' Enter
shows 'a command is completed by the shell' 'E_ILLEGAL 106, result code'
typed 'kijolvar create till.totals; echo "made: $?"' Enter
shows 'a file is made' 'made: 0'
typed 'kijolvar check till.t' Tab '--q' Tab '; echo "status $?"' Enter
shows 'a file and an option are completed' 'status 0'
# --- lines that are typed at the prompt: each is answered before the next is typed
typed 'clear; kijolvar run' Enter
screen 'a prompt' '>'
typed 'new a CashDrawer' Enter
lines=('> new a CashDrawer' '=> ok')
screen 'a line is answered at once' "${lines[@]}" '>'
typed 'open a d1' Enter
lines+=('> open a d1' '=> ok')
screen 'and the next one' "${lines[@]}" '>'
typed 'opn' Enter
lines+=('> opn' '=> bad line: its first word is none that a line has')
screen 'a bad line says why, and the session goes on' "${lines[@]}" '>'
typed 'call a clearText' Enter
lines+=('> call a clearText' '=> err 106 E_ILLEGAL')
screen 'a number has its name' "${lines[@]}" '>'
typed '# note' Enter
lines+=('> # note')
screen 'a quiet line has no answer' "${lines[@]}" '>'
typed ' quit ' Enter
lines+=('>  quit')
screen 'quit ends it' "${lines[@]}" 'ready>'
typed 'clear; kijolvar run' Enter
screen 'a second session' '>'
typed 'help' Enter
shows 'help is answered' 'help, quit                     print this, end'
typed C-d
shows 'the end of what is typed ends it' 'ready>'
typed 'clear; kijolvar run; echo "status $?"' Enter
screen 'a third session' '>'
typed 'open a d1' C-d C-d
screen 'a line without an end is answered too' '> open a d1=> bad control' 'status 0' 'ready>'
typed 'clear; echo "new a CashDrawer" | kijolvar run' Enter
screen 'a pipe has no prompt' '-:1: ok' 'ready>'
# --- a terminal that is read to its end: no prompt asks for lines, and a note says when they are run
waits='kijolvar: reads lines up to Ctrl-D, and then runs them'
typed 'clear; echo be""gun; kijolvar run > answers; cat answers' Enter
shows 'a run into a file' 'begun'
shows 'it says when its lines are run' "$waits"
typed 'new a CashDrawer' Enter C-d
screen 'a file has no prompt' 'begun' "$waits" 'new a CashDrawer' '-:1: ok' 'ready>'
typed 'clear; echo be""gun again; kijolvar run | tee answers; cat answers' Enter
shows 'a run into a pipe' 'begun again'
shows 'it says when its lines are run, too' "$waits"
typed 'new a CashDrawer' Enter C-d
screen 'a pipe has the answers alone' 'begun again' "$waits" 'new a CashDrawer' '-:1: ok' '-:1: ok' 'ready>'
typed 'clear; echo be""gun once more; kijolvar run --json' Enter
shows 'a run without a prompt' 'begun once more'
shows 'so does JSON' "$waits"
typed 'new a CashDrawer' Enter C-d
shows 'and JSON has none' '{"answer":"ok","line":1,"reason":null,"script":"-","text":"new a CashDrawer"}'
typed 'clear; echo be""gun for a file; kijolvar run > answers 2> errors; wc -c < errors' Enter
shows 'a run whose errors go elsewhere' 'begun for a file'
typed 'new a CashDrawer' Enter C-d
screen 'it has no note' 'begun for a file' 'new a CashDrawer' '0' 'ready>'
echo 'new b CashDrawer' > two
typed 'clear; kijolvar run two > answers; cat answers' Enter
screen 'a script in a file has no note' 'two:1: ok' 'ready>'
typed 'clear; kijolvar run --totals none.totals' Enter
shows 'a fault ends it before it asks' "kijolvar: none.totals: can't be opened for reading and writing"
# --- colours at a terminal, and none in a pipe
# coloured NAME TEXT: whether the screen, with its colours, has this text within two minutes
coloured() {
  local turn
  for turn in $(seq 1200); do
    if tmux -S "$socket" capture-pane -e -p -t tool | grep -qF -- "$2"; then
      passed=$((passed + 1))
      return
    fi
    sleep 0.1
  done
  failed=$((failed + 1))
  printf 'failed: %s\n  wanted: %q\n' "$1" "$2"
}
echo 'new d CashDrawer' > one
echo ok > one.stdout
echo 'new d CashDrawer' > two
echo no > two.stdout
typed 'clear; kijolvar test one two' Enter
shows 'scripts are tried' '1 passed, 1 failed'
coloured 'a script that passes is green' $'\e[32mok one'
coloured 'what is found is red' $'\e[31m  found:  ok'
typed 'clear; kijolvar test one two --color never; echo "never $?"' Enter
screen 'scripts are tried without colours' \
  'ok one' 'two:1: new d CashDrawer' '  wanted: no' '  found:  ok' 'failed two' \
  '1 passed, 1 failed' 'never 1' 'ready>'
told=$(tmux -S "$socket" capture-pane -e -p -t tool | grep -c $'\e\[3[12]m')
if [ "$told" = 0 ]; then passed=$((passed + 1)); else failed=$((failed + 1)); echo 'failed: never has colours'; fi
# --- how far it is, after a second, and not before
# writes FILE SECONDS: gives a pipe a script, so long after `kijolvar` has begun to read it
writes() {
  {
    exec > "$1"
    sleep "$2"
    echo 'new d CashDrawer'
  } &
}
mkfifo slow slower
echo ok > slow.stdout
echo ok > slower.stdout
typed 'clear; kijolvar test slow one slower > tried; echo "ended $?"' Enter
writes slow 1.5
shows 'how far it is' 'tried 2 of 3'
writes slower 0
shows 'its end' 'ended 0'
screen 'what was shown is gone' 'ended 0' 'ready>'
typed 'clear; kijolvar test one > tried; echo "soon $?"' Enter
screen 'within a second nothing is shown' 'soon 0' 'ready>'
typed 'clear; kijolvar test slow one slower > tried 2> errors; echo "ended $?"; wc -c < errors' Enter
writes slow 1.5
writes slower 0
screen 'nothing is shown if errors go elsewhere' 'ended 0' '0' 'ready>'
typed 'clear; kijolvar chek' Enter
shows 'an error has a hint' 'hint: `kijolvar help` lists the commands'

echo "$passed passed, $failed failed"
[ "$failed" -eq 0 ]
