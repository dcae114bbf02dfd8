#!/usr/bin/env bash
# Tries the tool `kijolvar` on real files: every command, each error, and each example of docs/reference/tool.md.
# Usage: tests/tool.sh [TOOL PROGRAM], the tool and pos_console, which makes totals with records. Without words it
# builds both, and needs rt. It needs python3, flock, strace, and setpriv of util-linux if root runs it. DAMAGES in the
# environment is how many random damages it tries, 300 if it isn't set. Its last line is 'N passed, M failed'; it ends
# with 0 where none failed.
set -u
top=$(cd "$(dirname "$0")/.." && pwd)
tool=$(realpath "${1:-$top/crates/pos_tool/out/pos_tool}")
program=$(realpath "${2:-$top/crates/pos_console/out/pos_console}")
if [ $# -eq 0 ]; then
  (cd "$top/crates/pos_tool" && rt run -- version > /dev/null) || exit 1
  (cd "$top/crates/pos_console" && rt run < /dev/null > /dev/null) || exit 1
fi
work=$(mktemp -d)
trap 'rm -rf "$work"' EXIT
cd "$work" || exit 1
# shellcheck source=tests/common.sh
. "$top/tests/common.sh"

# what a command runs under so that the modes of files hold for it, also if root runs it
held=()
[ "$(id -u)" -ne 0 ] ||
  held=(setpriv --bounding-set=-dac_override,-dac_read_search --inh-caps=-dac_override,-dac_read_search)
has_to_run 'strace traces nothing' strace strace -o /dev/null true
has_to_run "setpriv can't drop root's rights over files" util-linux "${held[@]}" true
has_to_run 'there is no flock' util-linux flock --version
has_to_run 'there is no python3' python3 python3 --version

# ends NAME STATUS MESSAGE OUTPUT WORD ..: whether the tool ends so on the words, with these two texts whole. Its output
# stays in the file `out`. It runs under the words in `under`.
under=()
ends() {
  local name=$1 status=$2 message=$3 output=$4
  shift 4
  timeout 300 "${under[@]}" "$tool" "$@" > out 2> err
  told "$name: status" "$status" $?
  told "$name: message" "$message" "$(cat err)"
  told "$name: output" "$output" "$(cat out)"
}

# same NAME FILE FILE: whether two files have the same bytes
same() {
  told "$1" same "$(cmp -s "$2" "$3" && echo same)"
}

# put FILE AT HEX: puts bytes into a file
put() {
  printf "$(printf '%s' "$3" | sed 's/../\\x&/g')" | dd of="$1" bs=1 seek="$2" conv=notrunc status=none
}

# script FILE: runs the lines of standard input over the totals in a file, on a control that is ready
printf '[[device]]\nname = "t1"\ncategory = "HardTotals"\n' > till.toml
script() {
  { printf 'new a HardTotals\nopen a t1\nset a DeviceEnabled true\n'; cat; } |
    "$program" run --profile till.toml --disk "$1" > said
}

hint_words='hint: `kijolvar help` lists the commands'
hint_path='hint: check the path, who may read and write it, and if its file system is read-only'
hint_rights="hint: run it as the old file's owner, or as root"
hint_link='hint: if a file is there, give another path; `restore` has --replace'
hint_aside='hint: if a .old file is there: move it away first; the disk must have hard links'
hint_create='hint: is it the right file? Restore a copy if it had totals'
hint_salvage='hint: `kijolvar salvage FILE TO` makes a sound file of what can be had of it'
no_image='no image is left, so nothing can be salvaged'$'\n''hint: `kijolvar check FILE` says if it was damaged or has no totals; restore a copy, or load a dump'
hint_stop='hint: a till that runs locks its totals file: stop it first (`fuser -v FILE` lists who has it)'
none='No such file or directory (os error 2)'
unread="can't be read"
unopened="can't be opened for reading and writing"

# --- words
"$tool" help > help.txt
told 'help: status' 0 $?
told 'help begins' 'kijolvar: checks, prints, makes and copies totals files, and runs scripts' "$(head -n 1 help.txt)"
for command in check files cat dump diff create migrate backup restore load salvage run test explain completions man version help; do
  told "help has $command" 1 "$(grep -c "^  $command " help.txt)"
done
ends 'no words' 0 '' "$(cat help.txt)"
ends '--help' 0 '' "$(cat help.txt)" --help
ends '-h' 0 '' "$(cat help.txt)" -h
ends 'help of a command' 0 '' "$(cat help.txt)" cat --help
ends 'version' 0 '' 'kijolvar 0.1.0' version
ends '--version' 0 '' 'kijolvar 0.1.0' --version
ends '-V' 0 '' 'kijolvar 0.1.0' -V
told 'the version is that of the changes' 1 "$(grep -c '^## 0.1.0' "$top/CHANGELOG.md")"

# refuses NAME REASON WORD ..: whether the command line is wrong
refuses() {
  local name=$1 reason=$2
  shift 2
  ends "$name" 3 "kijolvar: error: $reason"$'\n'"$hint_words" '' "$@"
}
refuses 'a misspelt command' "unrecognized subcommand 'chek'" chek FILE
refuses 'a command in capitals' "unrecognized subcommand 'CHECK'" CHECK FILE
refuses 'an empty word' "unrecognized subcommand ''" ''
refuses 'a command with a line feed' "unrecognized subcommand 'a b'" "$(printf 'a\nb')"
missing='the following required arguments were not provided:'
refuses 'check without a file' "$missing <FILE>" check
refuses 'cat without a name' "$missing <NAME>" cat a
refuses 'backup without a place' "$missing <TO>" backup a
refuses 'restore without words' "$missing <FROM> <FILE>" restore
refuses 'explain without a code' "$missing <CODE>" explain
refuses 'explain with a third word' "unexpected argument '1' found" explain 114 201 1
refuses 'diff of one file' "$missing <OTHER>" diff a
refuses 'salvage without a place' "$missing <TO>" salvage a
refuses 'load without a file' "$missing <FILE>" load a
refuses 'a word too many' "unexpected argument 'b' found" check a b
refuses 'an option of another command' "unexpected argument '--json' found" check a --json
refuses 'an option twice' "the argument '--quiet' cannot be used multiple times" check a --quiet --quiet
refuses 'a word after help' "unexpected argument 'check' found" help check
ends 'a word that is no text' 3 "kijolvar: error: a word is not UTF-8"$'\n'"$hint_words" '' "$(printf '\377')"
told 'no file is made for a wrong command line' 'err help.txt out till.toml' "$(ls | tr '\n' ' ' | sed 's/ $//')"

# --- create
ends 'create makes a file' 0 '' '' create till.totals
told 'create: length' 327680 "$(wc -c < till.totals)"
"$program" format --disk other.totals
same 'create makes what pos_console makes' till.totals other.totals
ends 'create refuses totals' 4 \
  'kijolvar: till.totals: is formatted already: remove it first if its totals may go'$'\n''hint: `kijolvar check FILE` says if it is sound' \
  '' create till.totals
same 'create keeps the totals' till.totals other.totals
hint_taken='hint: if `create` was cut off, remove FILE and make it again; if its totals were cut off, salvage them'

# leaves NAME FILE: whether `create` refuses a file that is no totals file, and leaves it as it is
leaves() {
  cp "$2" kept
  ends "create refuses $1" 4 \
    "kijolvar: $2: is there, and has no whole totals: choose another name"$'\n'"$hint_taken" '' create "$2"
  same "create keeps $1" "$2" kept
}
leaves 'a profile' till.toml
head -c 327680 /dev/zero | tr '\000' x > letters
leaves 'other bytes' letters
head -c 400000 /dev/zero > other
put other 327679 01
leaves 'a last byte' other
head -c 100000 till.totals > other
leaves 'totals that were cut off' other
for length in 0 1000 327680 400000; do
  head -c "$length" /dev/zero > other
  ends "create makes totals of $length zero bytes" 0 '' '' create other
  ends "totals of $length zero bytes" 0 '' 'sound: layout 1, sequence 1, records 0, files 0' check other
done
cp till.totals other
put other 9 0000ffff
cp other kept
ends 'create refuses damaged totals' 4 \
  'kijolvar: other: is formatted already: remove it first if its totals may go'$'\n''hint: `kijolvar check FILE` says if it is sound' \
  '' create other
same 'create keeps damaged totals' other kept
# A link: its file is made, and the folder of that one synced, which is where a crash could lose it.
mkdir far near
ln -s ../far/linked.totals near/link.totals
strace -f -y -e trace=fsync -o trace "$tool" create near/link.totals > out 2> err
told 'create of a link' '0 ' "$? $(cat err)"
told 'create of a link makes its file' "327680 ../far/linked.totals" "$(wc -c < far/linked.totals) $(readlink near/link.totals)"
told 'create of a link syncs the folder of its file, and no other one' 'far linked.totals' \
  "$(sed -n 's,.*<.*/\(.*\)>.*,\1,p' trace | sort -u | tr '\n' ' ' | sed 's/ $//')"
rm far/linked.totals
strace -o trace -e inject=readlink,readlinkat:error=EACCES "$tool" create near/link.totals > out 2> err
told 'create of a link that is not followed: status' 4 $?
told 'create of a link that is not followed: message' \
  "kijolvar: near/link.totals: its folder can't be opened and synced: Permission denied (os error 13)"$'\n'"$hint_path" "$(cat err)"
told 'create of a link that is not followed: nothing was written' 0 "$(wc -c < far/linked.totals)"
ends 'create in no folder' 4 "kijolvar: none/a: $unopened: $none"$'\n'"$hint_path" '' create none/a

# --- check
ends 'check of sound totals' 0 '' 'sound: layout 1, sequence 1, records 0, files 0' check till.totals
ends 'check, quiet' 0 '' '' check till.totals --quiet
ends 'check, the option first' 0 '' '' check --quiet till.totals
printf 'call a create 41 4 false\ncall a write 1 0 01020304\ncall a create 422043 0 false\n' | script till.totals
ends 'check counts' 0 '' 'sound: layout 1, sequence 1, records 3, files 2' check till.totals
ends 'check of no file' 4 "kijolvar: none.totals: $unread: $none"$'\n'"$hint_path" '' check none.totals
ends 'a path with a line feed' 4 "kijolvar: a\\nb: $unread: $none"$'\n'"$hint_path" '' check "$(printf 'a\nb')"
head -c 327680 /dev/zero > zero.totals
makes_new='to do: is it the right file? Restore a copy if it had totals; `kijolvar create FILE` makes new ones'
move_away='for new totals move it away, then `kijolvar create FILE`'
unformatted='no totals: not formatted'
ends 'check of bytes without totals' 1 '' "$unformatted"$'\n'"$makes_new" check zero.totals
ends 'the same, quiet' 1 '' '' check --quiet zero.totals
ends 'check of other bytes' 1 '' \
  "$unformatted, but its bytes aren't all 0"$'\n'"to do: is it the right file? Restore a copy if it had totals; $move_away" check letters
ends 'the same, quiet' 1 '' '' check --quiet letters
head -c 400000 /dev/zero > other
put other 327680 01
ends 'check of zeros with other bytes after them' 1 '' "$unformatted"$'\n'"$makes_new" check other
ends 'create makes totals of them, as check says' 0 '' '' create other
told 'and keeps the other bytes' 01 "$(od -A n -t x1 -j 327680 -N 1 other | tr -d ' ')"
head -c 100000 till.totals > short.totals
short='no totals: shorter than a totals file, which has 327680 bytes'
ends 'check of a short file' 1 '' \
  "$short"$'\n'"to do: is it the right file? If it was cut off, restore a copy, else \`kijolvar salvage\` it; $move_away" check short.totals
: > empty.totals
ends 'check of an empty file' 1 '' "$short"$'\n'"$makes_new" check empty.totals
head -c 1000 /dev/zero > other
ends 'check of a short file of zeros' 1 '' "$short"$'\n'"$makes_new" check other
cp till.totals longer.totals
printf 'more' >> longer.totals
ends 'check of a longer file' 0 '' 'sound: layout 1, sequence 1, records 3, files 2' check longer.totals

# breaks NAME PLACE RULE AT HEX: whether the file with these bytes is damaged there, for each command that reads
breaks() {
  local name=$1 place=$2 rule=$3
  cp till.totals damaged.totals
  put damaged.totals "$4" "$5"
  cp damaged.totals kept
  ends "$name: check" 2 '' \
    "damaged at byte $place: $rule"$'\n''to do: copy the file first, and let no till open it; then restore a copy, else `kijolvar salvage` it' \
    check damaged.totals
  ends "$name: check, quiet" 2 '' '' check --quiet damaged.totals
  for words in 'files damaged.totals' 'files --json damaged.totals' 'cat damaged.totals A' 'backup damaged.totals new' \
    'restore damaged.totals new' 'dump damaged.totals' 'diff damaged.totals till.totals' \
    'diff till.totals damaged.totals'; do
    ends "$name: $words" 2 \
      "kijolvar: damaged.totals: its totals are damaged at byte $place: $rule"$'\n'"$hint_salvage" '' $words
  done
  ends "$name: migrate" 2 \
    'kijolvar: damaged.totals: its totals are damaged: keep it, and restore a copy, or salvage it'$'\n''hint: `kijolvar check FILE` names the rule that is broken' \
    '' migrate damaged.totals
  "$tool" salvage damaged.totals new > out 2> err
  told "$name: salvage: status" "$6" $?
  if [ "$6" -eq 0 ]; then
    local lost='this and all later changes are left out'
    case $7 in 0 | 32768) lost=$left_out ;; esac
    [ "$7" -ne 0 ] || lost+=$'\n'$put_again
    told "$name: salvage says where" "closed gate $7, broken at $place: $rule; $lost" "$(cat out)"
    told "$name: what was salvaged" "$8" "$("$tool" check new)"
    rm new
  else
    told "$name: salvage: message" "kijolvar: damaged.totals: $no_image" "$(cat err)"
  fi
  same "$name: the file is as it was" damaged.totals kept
  told "$name: no other file is there" '' "$(ls new* 2> /dev/null)"
}
sound='sound: layout 1, sequence 1, records'
left_out='this image is left out, and the one before it is used, if there is one'
put_again='put the image of new totals at 0: the file never had another; the changes behind it are kept'
breaks 'a tie' 32769 'both slots are open with the same sequence' 32768 a50000000000000001 0 32768 "$sound 3, files 2"
breaks 'a long body' 9 'the length of the current body is above the longest' 9 0000ffff 0 0 "$sound 3, files 2"
breaks 'a body with bytes left' 15 'bytes of the current body are left over' 9 00000003 0 0 "$sound 3, files 2"
breaks 'a long record' 16384 "a record doesn't end within the log" 16385 00007fff 0 16384 "$sound 0, files 0"
breaks 'a record without a group' 16384 'a record is no group of changes' 16391 09 0 16384 "$sound 0, files 0"
breaks 'a record without changes' 16384 'a record has no changes' 16385 00000002000000 0 16384 "$sound 0, files 0"
breaks 'a change of no file' 16398 "the changes of a record don't fit the files before it" 16406 0009 0 16398 "$sound 1, files 1"

# --- files
"$program" files --disk till.totals > listed
ends 'files' 0 '' "$(cat listed)" files till.totals
told 'files: lines of a file' 'file 41 name A size 4 hex 01020304 text ....' \
  "$(sed -n '7,11p' out | tr '\n' ' ' | sed 's/ $//')"
ends 'files of bytes without totals' 1 "kijolvar: zero.totals: isn't formatted"$'\n'"$hint_create" '' files zero.totals
ends 'files of a short file' 1 \
  "kijolvar: short.totals: is shorter than a totals file, which has 327680 bytes"$'\n''hint: is it the right file? If it was cut off, restore a copy of it, or salvage what is left' \
  '' files short.totals
ends 'files of a folder' 4 "kijolvar: .: $unread: is no file, but a folder, a pipe or a device"$'\n'"$hint_path" '' files .
touch locked.totals
chmod 000 locked.totals
under=("${held[@]}")
ends 'files of a file that may not be read' 4 \
  "kijolvar: locked.totals: $unread: Permission denied (os error 13)"$'\n'"$hint_path" '' files locked.totals
under=()

# json FILE: whether the JSON of a totals file says the same as its lines of text
json() {
  "$tool" files "$1" > listed
  "$tool" files --json "$1" > listed.json
  python3 - <<'PYTHON'
import json
with open('listed', encoding='ascii') as it:
    lines = [line.rstrip('\n').split(' ', 1) for line in it]
wanted = {word: int(value) for word, value in lines[:6] if word not in ('room', 'files')}
room, count = lines[4][1], int(lines[5][1])
wanted['room'] = None if room == 'none' else int(room)
unhex = lambda text: '' if text == '-' else text
rows = lines[6:]
wanted['files'] = [
    {'name': unhex(rows[at][1]), 'size': int(rows[at + 2][1]), 'hex': unhex(rows[at + 3][1])}
    for at in range(0, len(rows), 5)]
with open('listed.json', encoding='utf-8') as it:
    text = it.read()
assert text.count('\n') == 1 and text.endswith('\n')
found = json.loads(text)
assert len(found['files']) == count
print('same' if found == wanted else f'{found} is not {wanted}')
PYTHON
}
told 'files --json: the same facts' same "$(json till.totals)"
told 'files --json: without files' same "$(json other.totals)"

# --- cat
ends 'cat' 0 '' "$(printf '\001\002\003\004')" cat till.totals A
told 'cat: the bytes alone' 01020304 "$(od -An -tx1 out | tr -d ' \n')"
ends 'cat in hex' 0 '' 01020304 cat till.totals A --hex
ends 'cat of an empty file' 0 '' '' cat till.totals 'B C'
told 'cat of an empty file: nothing' 0 "$(wc -c < out)"
ends 'cat of an empty file in hex' 0 '' '' cat --hex till.totals 'B C'
told 'cat of an empty file in hex: a line' 1 "$(wc -c < out)"
ends 'cat of no file' 1 'kijolvar: till.totals: no file has the name a'$'\n''hint: `kijolvar files FILE` lists the files in it' '' cat till.totals a
ends 'cat of a name without letters' 1 'kijolvar: till.totals: no file has the name '$'\n''hint: `kijolvar files FILE` lists the files in it' '' cat till.totals ''

# --- migrate
cp till.totals moved.totals
ends 'migrate' 0 '' '' migrate moved.totals
ends 'check of layout 2' 0 '' 'sound: layout 2, sequence 1, records 0, files 2' check moved.totals
told 'migrate keeps the files' same "$(cmp -s <("$tool" cat till.totals A) <("$tool" cat moved.totals A) && echo same)"
told 'files --json: layout 2' same "$(json moved.totals)"
cp moved.totals kept
ends 'a second move' 4 'kijolvar: moved.totals: has layout 2 already: there is nothing to do'$'\n''hint: nothing is left to do' '' migrate moved.totals
same 'a second move keeps the bytes' moved.totals kept
unmoved="has no totals: it isn't formatted, or it was cut off"$'\n''hint: is it the right file? If it had totals, restore a copy of it, or salvage what is left'
ends 'migrate of bytes without totals' 1 "kijolvar: zero.totals: $unmoved" '' migrate zero.totals
cp short.totals kept
ends 'migrate of a file that was cut off' 1 "kijolvar: short.totals: $unmoved" '' migrate short.totals
same 'migrate keeps a file that was cut off' short.totals kept
ends 'migrate of no file' 4 "kijolvar: none.totals: $unopened: $none"$'\n'"$hint_path" '' migrate none.totals
{ for at in $(seq 250); do printf 'call a create %s 3 false\n' "$(printf 'f%03d' "$at" | od -An -tx1 | tr -d ' \n')"; done; } |
  script moved.totals
ends 'check of 250 files' 0 '' "sound: layout 2, sequence 1, records $((250 - 2)), files 250" check moved.totals
told 'files --json: 250 files' same "$(json moved.totals)"

# --- dump, load and diff
"$tool" dump till.totals > dumped
told 'dump' $'layout 1\n41=01020304\n422043=' "$(cat dumped)"
ends 'load' 0 '' '' load dumped loaded.totals
ends 'dump, load, dump' 0 '' "$(cat dumped)" dump loaded.totals
"$tool" dump moved.totals > dumped2
ends 'load of 250 files' 0 '' '' load dumped2 loaded2.totals
told 'dump, load, dump of 250 files' same "$(cmp -s <("$tool" dump loaded2.totals) dumped2 && echo same)"
# lets_go NAME FIRST WORD ..: whether a command has let its file go once it prints. A pager reads the first line, and
# waits; a pipe has no room for the rest, and a till may open the file all the same.
lets_go() {
  local name=$1 wanted=$2 printer first
  shift 2
  "$@" > page &
  printer=$!
  exec 6< page
  read -r -t 300 first <&6
  told "$name whose reader waits" "$wanted goes on" "$first $(kill -0 "$printer" && echo goes on)"
  told "$name whose reader waits leaves the file free" free "$(flock --nonblock long.totals echo free)"
  told "$name whose reader waited" same "$(cmp -s <("$@" | tail -n +2) - <&6 && echo same)"
  exec 6<&-
}
"$tool" create long.totals
"$tool" migrate long.totals
printf 'call a create 42 30000 false\ncall a create 43 30000 false\n' | script long.totals
mkfifo page
lets_go 'a dump' 'layout 2' "$tool" dump long.totals
lets_go 'pos_console files' 'layout 2' "$program" files --disk long.totals
ends 'diff of the same files' 0 '' '' diff till.totals loaded.totals
ends 'diff with layout 2' 1 '' "$(for at in $(seq 3 250); do printf 'only in the second: f%03d\n' $((at - 2)); done)" diff till.totals moved.totals
printf 'call a write 1 3 05\ncall a delete 422043\ncall a create 44 0 false\n' | script loaded.totals
ends 'diff' 1 '' $'differs: A\nonly in the first: B C\nonly in the second: D' diff till.totals loaded.totals
ends 'diff with no file' 4 "kijolvar: none.totals: $unread: $none"$'\n'"$hint_path" '' diff till.totals none.totals
ends 'diff of no file' 4 "kijolvar: none.totals: $unread: $none"$'\n'"$hint_path" '' diff none.totals till.totals
hint_dump='hint: `kijolvar dump FILE` prints such a text'
for text in '' 'layout 3' 'layout 1 ' $'layout 1\n41' $'layout 1\n41=0' $'layout 1\n4=00' $'layout 1\n41=0A' $'layout 1\n41=\n41=' \
  $'layout 1\n19=00' $'layout 1\n41=00\n\n' "layout 1"$'\n'"41=$(head -c 8193 /dev/zero | od -An -v -tx1 | tr -d ' \n')"; do
  printf '%s\n' "$text" > text
  ends "load of ${text:0:20}" 1 "kijolvar: text: is no dump of totals"$'\n'"$hint_dump" '' load text new
done
printf '\377' > text
ends 'load of bytes that are no text' 1 "kijolvar: text: is no dump of totals"$'\n'"$hint_dump" '' load text new
printf 'layout 1' > text
ends 'load of a text that is cut' 1 "kijolvar: text: is no dump of totals"$'\n'"$hint_dump" '' load text new
ends 'load of no text' 4 "kijolvar: none: $unread: $none"$'\n'"$hint_path" '' load none new
told 'load makes nothing then' '' "$(ls new* 2> /dev/null)"
ends 'load where a file is' 4 \
  "kijolvar: till.totals: can't be put there: File exists (os error 17)"$'\n'"$hint_link" \
  '' load dumped till.totals

# --- salvage
ends 'salvage of sound totals' 0 '' '' salvage till.totals saved.totals
same 'salvage of sound totals copies them' till.totals saved.totals
ends 'salvage of bytes without totals' 1 "kijolvar: zero.totals: $no_image" '' salvage zero.totals new
ends 'salvage of a file that was cut off' 0 '' 'cut off at 100000: each byte that is missing counts as 0' \
  salvage short.totals saved2.totals
same 'salvage adds the bytes that are missing' saved2.totals till.totals
ends 'salvage of no file' 4 "kijolvar: none.totals: $unread: $none"$'\n'"$hint_path" '' salvage none.totals new
ends 'salvage where a file is' 4 \
  "kijolvar: other.totals: can't be put there: File exists (os error 17)"$'\n'"$hint_link" \
  '' salvage till.totals other.totals
"$tool" create two.totals
filler() { printf 'call a write 1 0 %s\n' "$(head -c 8192 /dev/zero | tr '\000' "\\$1" | od -An -v -tx1 | tr -d ' \n')"; }
{ printf 'call a create 41 8192 false\n'; filler 001; filler 002; } | script two.totals
put two.totals 32777 0000ffff
ends 'salvage of the image before' 0 '' \
  'closed gate 32768, broken at 32777: the length of the current body is above the longest; '"$left_out" \
  salvage two.totals saved3.totals
told 'salvage of the image before: what is there' 0101 "$("$tool" cat saved3.totals A --hex | head -c 4)"
put two.totals 9 0000ffff
ends 'salvage without an image, of totals that had several' 1 "kijolvar: two.totals: $no_image" '' salvage two.totals new
cp till.totals lost.totals
put lost.totals 0 "$(head -c 1024 /dev/zero | tr '\000' 0)"
ends 'salvage of totals whose first sector is lost' 0 '' "$put_again" salvage lost.totals saved4.totals
same 'salvage of totals whose first sector is lost: all is there' saved4.totals till.totals
put lost.totals 16384 00
ends 'salvage without an image and a record' 1 "kijolvar: lost.totals: $no_image" '' salvage lost.totals new

# --- explain
ends 'explain a number' 0 '' "E_ILLEGAL 106, result code: an argument is out of its range, or the control's state doesn't allow the call
to do: look up the call's arguments" explain 106
cp out by_number
ends 'explain a name' 0 '' "$(cat by_number)" explain E_ILLEGAL
"$tool" explain 201 > out
told 'explain a number with two meanings' 'ETOT_NOROOM EPTR_COVER_OPEN' "$(grep -o '^E[A-Z_]*' out | tr '\n' ' ' | sed 's/ $//')"
hint_code='hint: give a number as 106, or a name as E_ILLEGAL'
ends 'explain no code' 1 "kijolvar: no code is 999"$'\n'"$hint_code" '' explain 999
ends 'explain nothing' 1 "kijolvar: no code is "$'\n'"$hint_code" '' explain ''
ends 'explain a number with a zero before it' 1 "kijolvar: no code is 0106"$'\n'"$hint_code" '' explain 0106
ends 'explain a result code and its extended code' 0 '' "E_EXTENDED 114, result code: the extended code says what is wrong
to do: what the extended code says
EPTR_REC_EMPTY 203, extended code: the receipt doesn't have enough paper
to do: put in a new roll, or print less at once" explain 114 203
cp out by_number
ends 'explain them by their names' 0 '' "$(cat by_number)" explain E_EXTENDED EPTR_REC_EMPTY
"$tool" explain 114 201 > out
told 'explain an extended code with two meanings' 'E_EXTENDED ETOT_NOROOM EPTR_COVER_OPEN' \
  "$(grep -o '^E[A-Z_]*' out | tr '\n' ' ' | sed 's/ $//')"
"$tool" explain 114 ETOT_NOROOM > out
told 'explain the one of them that is named' 'E_EXTENDED ETOT_NOROOM' "$(grep -o '^E[A-Z_]*' out | tr '\n' ' ' | sed 's/ $//')"
hint_codes='hint: give a result code and its extended code, as 114 203; an extended code of 0 says nothing'
ends 'explain a result code before none' 1 "kijolvar: no extended code is 0"$'\n'"$hint_codes" '' explain 111 0
ends 'explain a code of another kind after it' 1 "kijolvar: no extended code is 12"$'\n'"$hint_codes" '' explain 114 12
ends 'explain a status before an extended code' 1 "kijolvar: no result code is 12"$'\n'"$hint_codes" '' explain 12 203
ends 'explain two words that are none' 1 "kijolvar: no result code is 999"$'\n'"$hint_codes" '' explain 999 999
ends 'explain an empty extended code' 1 "kijolvar: no extended code is "$'\n'"$hint_codes" '' explain 114 ''
# each code of the reference, with its number
while IFS='|' read -r _ number name _; do
  number=$(echo $number) name=$(echo $name)
  told "explain $name" "$name $number" "$("$tool" explain "$name" | head -n 1 | cut -d, -f1)"
done < <(sed -n '/^## Result codes/,/^## Other/p' "$top/docs/reference/calls.md" | grep -E '^\| [0-9]+ \|')

# --- backup
ends 'backup' 0 '' '' backup till.totals copy.totals
same 'backup copies the bytes' till.totals copy.totals
ends 'backup of a longer file' 0 '' '' backup longer.totals copy2.totals
same 'backup copies what counts' till.totals copy2.totals
cp copy.totals kept
there='File exists (os error 17)'
ends 'backup where a file is' 4 \
  "kijolvar: copy.totals: can't be put there: $there"$'\n'"$hint_link" \
  '' backup other.totals copy.totals
same 'backup keeps that file' copy.totals kept
told 'backup leaves nothing beside it' '' "$(ls ./*.part 2> /dev/null)"
touch new.part
ends 'backup beside another one' 4 \
  "kijolvar: new: the file beside it, with .part at its end, can't be made: $there"$'\n''hint: check the folder; remove the .part file if no other command is making it' \
  '' backup till.totals new
told 'backup beside another one keeps its file' 0 "$(wc -c < new.part)"
rm new.part
ends 'backup into no folder' 4 \
  "kijolvar: none/new: the file beside it, with .part at its end, can't be made: $none"$'\n''hint: check the folder; remove the .part file if no other command is making it' \
  '' backup till.totals none/new
ends 'backup of no file' 4 "kijolvar: none.totals: $unread: $none"$'\n'"$hint_path" '' backup none.totals new
ends 'backup of bytes without totals' 1 "kijolvar: zero.totals: isn't formatted"$'\n'"$hint_create" '' backup zero.totals new
ends 'backup of a short file' 1 \
  'kijolvar: short.totals: is shorter than a totals file, which has 327680 bytes'$'\n''hint: if it was cut off, restore a copy of it, or salvage what is left' \
  '' backup short.totals new
(trap '' XFSZ; ulimit -f 32; exec "$tool" backup till.totals new > out 2> err)
told 'backup onto a full disk: status' 4 $?
told 'backup onto a full disk: message' "kijolvar: new: can't be written and synced whole"$'\n''hint: check the device, and the space that is free there' \
  "$(cat err)"
told 'backup onto a full disk leaves nothing' '' "$(ls new* 2> /dev/null)"
strace -f -e trace=openat,pwrite64,fsync,link,linkat,unlink,unlinkat,rename -o trace "$tool" backup till.totals new
told 'backup: it is written, synced, linked, and its folder synced' 'pwrite64 fsync link unlink fsync' \
  "$(sed -n '/new.part/,$p' trace | grep -oE '(pwrite64|fsync|link|linkat|unlink|unlinkat)\(' | tr -d '(' |
    sed 's/linkat/link/; s/unlinkat/unlink/' | tr '\n' ' ' | sed 's/ $//')"
told 'backup opens its source to be read alone' 1 "$(grep -c '"till.totals", O_RDONLY' trace)"
rm -f new
# As on a FAT stick, where a file has one name: an empty file takes the name first, and is replaced.
for error in EPERM EOPNOTSUPP; do
  strace -f -e trace=openat,pwrite64,fsync,rename,renameat,renameat2,unlink,unlinkat,link,linkat \
    -e inject=link,linkat:error=$error -o trace "$tool" backup till.totals new > out 2> err
  told "backup where a file has one name ($error): status and messages" '0 ' "$? $(cat out err)"
  same "backup where a file has one name ($error) copies the bytes" till.totals new
  told "backup where a file has one name ($error): the name is taken, then the file put there, and its folder synced" \
    'pwrite64 fsync link openat rename openat fsync' \
    "$(sed -n '/"new.part"/,$p' trace | tail -n +2 | grep -oE '(openat|pwrite64|fsync|link|rename|unlink)[a-z]*[0-9]*\(' |
      sed 's/linkat/link/; s/renameat2*/rename/' | tr -d '(' | tr '\n' ' ' | sed 's/ $//')"
  told "backup where a file has one name ($error) leaves nothing beside it" new "$(ls new*)"
  rm -f new
done
echo kept > new
strace -f -e inject=link,linkat:error=EPERM -o trace "$tool" backup till.totals new > out 2> err
told 'backup where a file has one name, which is in use: status' 4 $?
told 'backup where a file has one name, which is in use: message' \
  "kijolvar: new: can't be put there: $there"$'\n'"$hint_link" "$(cat err)"
told 'backup where a file has one name, which is in use, keeps that file' 'kept new' "$(cat new) $(ls new*)"
rm -f new
strace -f -e inject=link,linkat:error=EPERM -e inject=rename,renameat,renameat2:error=EIO -o trace \
  "$tool" backup till.totals new > out 2> err
told 'backup where a file has one name, and it fails: status' 4 $?
told 'backup where a file has one name, and it fails: message' \
  "kijolvar: new: can't be put there: Input/output error (os error 5)"$'\n'"$hint_link" "$(cat err)"
told 'backup where a file has one name, and it fails, leaves nothing' '' "$(ls new* 2> /dev/null)"
# Every first reading of two is changed as it arrives: the file seems to change each time.
strace -o trace -P "$work/till.totals" -e inject=pread64:poke_exit=@arg2=ff:when=1+2 "$tool" backup till.totals new > out 2> err
told 'backup of a file that changes each time: status' 4 $?
told 'backup of a file that changes each time: message' \
  'kijolvar: till.totals: changes each time it is read: try again, or end the program that writes to it'$'\n''hint: `backup` works beside a till that runs, if it doesn'"'"'t write all the time' \
  "$(cat err)"
told 'backup of a file that changes each time makes nothing' '' "$(ls new* 2> /dev/null)"
strace -o trace -P "$work/till.totals" -e inject=pread64:poke_exit=@arg2=ff:when=1..9+2 "$tool" backup till.totals new > out 2> err
told 'backup of a file that changes five times' '0 same' "$? $(cmp -s till.totals new && echo same)"
rm -f new

# --- restore
ends 'restore' 0 '' '' restore copy.totals back.totals
same 'restore copies the bytes' copy.totals back.totals
ends 'restore over a file' 4 \
  "kijolvar: other.totals: can't be put there: $there"$'\n'"$hint_link" \
  '' restore copy.totals other.totals
told 'restore over a file keeps it' 'sound: layout 1, sequence 1, records 0, files 0' "$("$tool" check other.totals)"
cp other.totals kept
ends 'restore, replacing' 0 '' '' restore copy.totals other.totals --replace
same 'restore, replacing, copies the bytes' copy.totals other.totals
same 'restore, replacing, keeps the old file' other.totals.old kept
ends 'restore, replacing, where an old file is' 4 \
  "kijolvar: other.totals: the old file can't be kept beside it, with .old at its end: $there"$'\n'"$hint_aside" \
  '' restore copy.totals other.totals --replace
same 'that old file stays' other.totals.old kept
told 'restore leaves nothing beside it' '' "$(ls ./*.part 2> /dev/null)"
rm other.totals.old
strace -f -e trace=flock,rename,renameat,renameat2,close -o trace "$tool" restore copy.totals other.totals --replace
number=$(sed -n 's/.*flock(\([0-9]*\), LOCK_EX.*/\1/p' trace | tail -n 1)
told 'restore, replacing, has the old file locked until the new one has its place' 'flock rename close' \
  "$(sed -n "/flock($number, LOCK_EX/,\$ { s/.*\(flock\)(.*/\1/p; s/.*\(rename\)[a-z0-9]*(.*/\1/p; s/.*\(close\)($number).*/\1/p; }" trace |
    tr '\n' ' ' | sed 's/ $//')"
ends 'restore, replacing no file' 4 "kijolvar: new: $unopened: $none"$'\n'"$hint_path" '' restore copy.totals new --replace
ends 'restore of no file' 4 "kijolvar: none.totals: $unread: $none"$'\n'"$hint_path" '' restore none.totals new
rm other.totals.old
cp other.totals kept
(trap '' XFSZ; ulimit -f 32; exec "$tool" restore till.totals other.totals --replace > out 2> err)
told 'restore onto a full disk: status' 4 $?
same 'restore onto a full disk keeps the file' other.totals kept
told 'restore onto a full disk leaves nothing' '' "$(ls other.totals.* 2> /dev/null)"

strace -o trace -e inject=rename,renameat,renameat2:error=EPERM "$tool" restore till.totals other.totals --replace > out 2> err
told 'restore whose file gets no name: status' 4 $?
same 'restore whose file gets no name keeps the file' other.totals kept
told 'restore whose file gets no name leaves nothing' '' "$(ls other.totals.* 2> /dev/null)"
# Only root may give a file away.
[ "$(id -u)" -ne 0 ] || chown 65534:65533 other.totals
chmod 640 other.totals
rights=$(stat -c '%u %g %a' other.totals)
strace -o trace -e inject=/chmod:error=EPERM "$tool" restore till.totals other.totals --replace > out 2> err
told 'restore whose file gets no mode: status' 4 $?
told 'restore whose file gets no mode: message' \
  "kijolvar: other.totals: can't get the owner and the mode of the old file: Operation not permitted (os error 1)"$'\n'"$hint_rights" "$(cat err)"
same 'restore whose file gets no mode keeps the file' other.totals kept
told 'restore whose file gets no mode leaves nothing' '' "$(ls other.totals.* 2> /dev/null)"
ends 'restore, replacing, of an owner with a group' 0 '' '' restore till.totals other.totals --replace
told 'restore, replacing, keeps owner, group and mode' "$rights" "$(stat -c '%u %g %a' other.totals)"
told 'restore, replacing, keeps those of the old file' "$rights" "$(stat -c '%u %g %a' other.totals.old)"
mv other.totals.old other.totals

no_file='is no file, but a link, a folder, a pipe or a device'
hint_no_file='hint: give the path of a file, and not of a link to it'
ln -s other.totals link.totals
ends 'restore, replacing a link' 4 "kijolvar: link.totals: $no_file"$'\n'"$hint_no_file" \
  '' restore till.totals link.totals --replace
told 'restore, replacing a link, leaves the link' other.totals "$(readlink link.totals)"
same 'restore, replacing a link, keeps the file' other.totals kept
told 'restore, replacing a link, leaves nothing' '' "$(ls link.totals.* other.totals.* 2> /dev/null)"

# --- a file that can't be read: one that can be gives way to a copy all the same
strace -o trace -P "$work/other.totals" -e inject=pread64:error=EIO "$tool" check other.totals > out 2> err
told 'check of a file that is not read: status' 4 $?
told 'check of a file that is not read: message' \
  "kijolvar: other.totals: can't be read whole: check the device that it is on"$'\n''hint: copy it by dd if=FILE of=COPY bs=512 conv=noerror,sync, and salvage COPY, or restore an older copy' \
  "$(cat err)"
strace -o trace -P "$work/other.totals" -e inject=fsync:error=EINVAL "$tool" check other.totals > out 2> err
told 'check of a file on a device without syncs: status' 4 $?
told 'check of a file on a device without syncs: message' \
  "kijolvar: other.totals: can't be synced: check the device that it is on"$'\n''hint: if the device is read-only, copy FILE to another one and take the copy; else check the device' \
  "$(cat err)"
# README's way: dd reads the rest, and that is salvaged.
strace -o trace -P "$work/other.totals" -e inject=read:error=EIO:when=200 \
  dd if=other.totals of=read.totals bs=512 conv=noerror,sync 2> /dev/null
told 'a block that dd does not read' 1 "$(grep -c INJECTED trace)"
ends 'salvage of what dd read' 0 '' '' salvage read.totals salvaged.totals
told 'salvage of what dd read: the files' "$("$tool" dump other.totals)" "$("$tool" dump salvaged.totals)"
rm read.totals salvaged.totals
strace -o trace -P "$work/other.totals" -e inject=pread64:error=EIO "$tool" restore copy.totals other.totals --replace > out 2> err
told 'restore, replacing a file that is not read' '0 ' "$? $(cat err)"
same 'restore, replacing a file that is not read, copies the bytes' copy.totals other.totals
same 'restore, replacing a file that is not read, keeps it' other.totals.old kept
mv other.totals.old other.totals

# --- totals files are their owner's alone, whatever the umask lets
umask 022
"$tool" dump till.totals > dumped
"$tool" create private.create
"$tool" load dumped private.load
strace -e trace=openat -o trace "$tool" backup till.totals private.backup
"$tool" restore copy.totals private.restore
"$tool" salvage till.totals private.salvage > /dev/null
"$program" format --disk private.format
told 'totals files are private' '600 600 600 600 600 600' "$(stat -c %a private.* | tr '\n' ' ' | sed 's/ $//')"
told 'also before they are whole' 1 "$(grep -c '"private.backup.part".*, 0600)' trace)"
rm private.*

# --- what is no file
no_totals='is no file, but a folder, a pipe or a device'
mkfifo pipe.totals
mkdir folder.totals
for there in pipe.totals folder.totals /dev/null; do
  for words in "check $there" "files $there" "diff till.totals $there" "backup $there new" "restore $there new" "salvage $there new"; do
    ends "$words" 4 "kijolvar: $there: $unread: $no_totals"$'\n'"$hint_path" '' $words
  done
  for words in "create $there" "migrate $there" "restore copy.totals $there --replace"; do
    ends "$words" 4 "kijolvar: $there: $unopened: $no_totals"$'\n'"$hint_path" '' $words
  done
done
told 'they are as they were' 'p d' "$(stat -c %A pipe.totals folder.totals | cut -c1 | tr '\n' ' ' | sed 's/ $//')"
rm pipe.totals
rmdir folder.totals

# --- streams that are closed: no file is opened in their place
cp till.totals closed.totals
printf 'new a HardTotals\nopen a t1\nset a DeviceEnabled true\n' > closed.script
over_closed=(run closed.script --profile till.toml --totals closed.totals)
"$tool" "${over_closed[@]}" 2> err >&-
told 'run on closed output: status' 5 $?
told 'run on closed output: message' 1 "$(grep -c "^kijolvar: the output can't be written" err)"
"$tool" "${over_closed[@]}" <&- >&- 2>&-
told 'run on closed streams: status' 5 $?
"$tool" run --profile till.toml --totals closed.totals > out 2> err <&-
told 'run of closed input: status' 4 $?
told 'run of closed input: output' '' "$(cat out)"
for words in 'check closed.totals' 'files closed.totals' 'dump closed.totals'; do
  "$tool" $words 2> err >&-
  told "$words on closed output" 5 $?
done
same 'closed streams leave the file as it was' closed.totals till.totals

# --- a file that a till has open
mkfifo lines answers
"$program" run --profile till.toml --disk till.totals < lines > answers 2> run.err &
run=$!
exec 3> lines 4< answers
printf 'new a HardTotals\nopen a t1\nset a DeviceEnabled true\n' >&3
for _ in 1 2 3; do read -r -t 300 answer <&4; done
told 'a till runs' ok "${answer:-}"
cp till.totals kept
in_use='kijolvar: till.totals: is in use: close the other program that has it open'$'\n'"$hint_stop"
for words in 'check till.totals' 'check --quiet till.totals' 'files till.totals' 'files --json till.totals' \
  'cat till.totals A' 'dump till.totals' 'diff till.totals other.totals' 'diff other.totals till.totals' \
  'salvage till.totals new' 'create till.totals' 'migrate till.totals' 'restore till.totals new' \
  'restore copy.totals till.totals --replace'; do
  ends "$words beside a till" 4 "$in_use" '' $words
done
same 'the file is as it was' till.totals kept
told 'nothing is beside it' '' "$(ls till.totals.* new* 2> /dev/null)"
ends 'backup beside a till' 0 '' '' backup till.totals beside.totals
same 'backup beside a till copies the bytes' till.totals beside.totals

# backups while the till writes: each holds what was acknowledged before it began, and nothing that wasn't written
python3 - "$tool" <<'PYTHON' > counted
import json, os, subprocess, sys, threading
tool = sys.argv[1]
lines, answers = os.fdopen(3, 'w', closefd=False), os.fdopen(4, closefd=False)
done, stop, faults, copies = 0, False, [], 0
def write():
    global done
    for number in range(1, 1001):
        print(f'call a write 1 0 {number:08x}', file=lines, flush=True)
        if answers.readline() != 'ok\n':
            faults.append(f'write {number}')
            return
        done = number
writer = threading.Thread(target=write)
writer.start()
while writer.is_alive() or copies < 20:
    before = done
    name = f'copy{copies}'
    made = subprocess.run([tool, 'backup', 'till.totals', name], capture_output=True, text=True)
    after = done + 1
    if made.returncode:
        faults.append(made.stderr)
    else:
        found = subprocess.run([tool, 'cat', name, 'A', '--hex'], capture_output=True, text=True).stdout.strip()
        number = int(found, 16) if found != '01020304' else 0
        if not before <= number <= after:
            faults.append(f'{name}: {number} is not {before} to {after}')
        os.remove(name)
    copies += 1
writer.join()
print('good' if not faults and done == 1000 else faults[:5])
PYTHON
told 'backups while a till writes 1,000 times' good "$(cat counted)"
exec 3>&- 4<&-
wait "$run"
sound=$("$tool" check till.totals)
told 'check after the till' 'sound: layout 1' "${sound%%,*}"

# --- a second program that locks, and one that reads
flock --exclusive --no-fork till.totals sleep 600 &
other=$!
until ! flock --nonblock till.totals true; do sleep 0.1; done
ends 'check beside a lock' 4 "$in_use" '' check till.totals
kill "$other"
wait "$other" 2> /dev/null
flock --shared --no-fork till.totals sleep 600 &
other=$!
until ! flock --nonblock till.totals true; do sleep 0.1; done
ends 'check beside a reader' 0 '' "$sound" check till.totals
ends 'migrate beside a reader' 4 "$in_use" '' migrate till.totals
kill "$other"
wait "$other" 2> /dev/null

# --- what reads writes nothing
cp till.totals kept
for words in 'check till.totals' 'files till.totals' 'files --json till.totals' 'cat till.totals A' 'dump till.totals' \
  'diff till.totals other.totals' 'salvage till.totals new2' 'backup till.totals new'; do
  strace -f -e trace=openat,write,pwrite64,ftruncate,rename,unlink -o trace "$tool" $words > /dev/null
  told "$words opens the file to be read alone" O_RDONLY \
    "$(grep -o '"till.totals", [A-Z_]*' trace | sed 's/.*, //' | sort -u)"
done
same 'the file is as it was after all that read' till.totals kept

# --- an output that takes nothing
for words in help version 'explain 106' 'explain 114 203' 'dump till.totals' 'check till.totals' 'files till.totals' 'files --json till.totals' 'cat till.totals A'; do
  "$tool" $words > /dev/full 2> err
  told "$words on a full output: status" 5 $?
  told "$words on a full output: message" \
    "kijolvar: the output can't be written"$'\n''hint: check where the output goes, and the space that is free there' "$(cat err)"
done
"$tool" check till.totals --quiet > /dev/full 2> err
told 'a quiet check prints nothing' 0 $?

# --- run
cat > sale.script << 'SCRIPT'
# a comment, and then an empty line

new a CashDrawer
open a d1
set a DeviceEnabled true
call a openDrawer
deliver a
deliver a
call a clearText
get a State
SCRIPT
: > nothing.script
sale="sale.script:3: ok
sale.script:4: ok
sale.script:5: ok
sale.script:6: ok
sale.script:7: event StatusUpdateEvent 1 CASH_SUE_DRAWEROPEN
sale.script:8: none
sale.script:9: err 106 E_ILLEGAL
sale.script:10: ok 2 S_IDLE"
ends 'run' 0 '' "$sale" run sale.script
"$tool" run < sale.script > out 2> err
told 'run of standard input' "$(echo "$sale" | sed 's/^sale.script/-/')" "$(cat out)"
tail -n +4 sale.script > rest.script
rest=$("$tool" run rest.script | sed 's/^rest.script/-/')
{ for _ in 1 2 3; do read -r _; done; "$tool" run -; } < sale.script > out 2> err
told 'run of standard input: from where it stands' "$rest" "$(cat out)"
ends 'run of standard input between scripts' 0 '' "$sale"$'\n'"$(echo "$sale" | sed '1s/ok/bad control/; 2s/ok/err 106 E_ILLEGAL/
  5s/event.*/none/; s/^sale.script/-/')" run sale.script - nothing.script - < sale.script
python3 - "$tool" > out 2> err << 'PYTHON'
import socket
import subprocess
import sys

ours, theirs = socket.socketpair()
with subprocess.Popen([sys.argv[1], 'run', '-'], stdin=theirs, stdout=subprocess.PIPE) as running:
    theirs.close()
    with open('sale.script', 'rb') as script:
        for line in script:
            ours.sendall(line)
    ours.close()
    sys.stdout.buffer.write(running.stdout.read())
PYTHON
told 'run of a socket' "$(echo "$sale" | sed 's/^sale.script/-/')" "$(cat out)"
ends 'run of what can be read by nobody' 4 \
  "kijolvar: standard input can't be read"$'\n''hint: check where the input comes from; nothing was run' '' run sale.script - < /
"$tool" run - <&- > out 2> err
told 'run of no input' 4 $?
ends 'run of a script twice: one counter' 0 '' \
  "$sale"$'\n'"$(echo "$sale" | sed '1s/ok/bad control/; 2s/ok/err 106 E_ILLEGAL/; 5s/event.*/none/')" \
  run sale.script sale.script
sed 's/$/\r/' sale.script > crlf.script
told 'run with carriage returns' "$sale" "$("$tool" run crlf.script | sed 's/^crlf/sale/')"
printf 'close a' > last.script
told 'a last line without a line feed' 'last.script:1: ok' "$("$tool" run sale.script last.script | tail -n 1)"
told 'the answers are those of pos_console' "$("$program" < sale.script)" \
  "$("$tool" run sale.script | cut -d' ' -f2- | sed 's/ [A-Z]*_[A-Z_]*//g')"
for line in "opn a d1:its first word is none that a line has" "open a:open CONTROL DEVICE" \
  "open a_b d1:a name has 1 to 16 letters, digits or hyphens" "open:open CONTROL DEVICE" \
  "new a Drawer:new CONTROL CATEGORY" "close a b:close CONTROL" "claim a:claim CONTROL TIMEOUT" \
  "release a 1:release CONTROL" "set a State:set CONTROL PROPERTY VALUE" "get a state:get CONTROL PROPERTY" \
  "call a open:call CONTROL METHOD, and the method's arguments" \
  "deliver a again:deliver CONTROL, or with retry, clear or continue" \
  "input d1 shut:input DEVICE, and what happens there" "show:show DEVICE" "work r1 r1:work DEVICE" \
  "attach d1 x:attach DEVICE SPARE" "detach d1 1:detach DEVICE" "new a caf$(printf '\303\251'):it has a byte that ASCII doesn't print"; do
  echo "${line%%:*}" > line.script
  ends "why ${line%%:*} is a bad line" 0 '' "line.script:1: bad line: ${line#*:}" run line.script
done
head -c 140001 /dev/zero | tr '\000' x > long.script
ends 'why a long line is one' 0 '' 'long.script:1: bad line: it has more than 140000 bytes' run long.script
cat > printer.script << 'SCRIPT'
new p POSPrinter
open p r1
claim p 0
set p PowerNotify 1
set p DeviceEnabled true
get p PowerState
input r1 cover open
deliver p
deliver p
call p printNormal 2 41
input r1 cover closed
deliver p
input r1 power off
deliver p
SCRIPT
ends 'names of a printer' 0 '' "printer.script:1: ok
printer.script:2: ok
printer.script:3: ok
printer.script:4: ok
printer.script:5: ok
printer.script:6: ok 2001 PS_ONLINE
printer.script:7: ok
printer.script:8: event StatusUpdateEvent 2001 SUE_POWER_ONLINE
printer.script:9: event StatusUpdateEvent 11 PTR_SUE_COVER_OPEN
printer.script:10: err 114 E_EXTENDED 201 ETOT_NOROOM EPTR_COVER_OPEN
printer.script:11: ok
printer.script:12: event StatusUpdateEvent 12 PTR_SUE_COVER_OK
printer.script:13: ok
printer.script:14: event StatusUpdateEvent 2004 SUE_POWER_OFF_OFFLINE" run printer.script
cat > scan.script << 'SCRIPT'
new s Scanner
open s s1
claim s 0
set s DeviceEnabled true
set s DataEventEnabled true
input s1 fault
deliver s clear
SCRIPT
told 'names of an ErrorEvent' 'scan.script:7: event ErrorEvent 111 E_FAILURE 0 2 EL_INPUT' "$("$tool" run scan.script | tail -n 1)"
"$tool" create run.totals
printf 'new a HardTotals\nopen a t1\nset a DeviceEnabled true\ncall a create 41 2 false\ncall a write 1 0 beef\n' > totals.script
ends 'run over a totals file' 0 '' "$(printf 'totals.script:%d: ok\n' 1 2 3; echo 'totals.script:4: ok 1'; echo 'totals.script:5: ok')" \
  run totals.script --profile till.toml --totals run.totals
told 'it is there then' beef "$("$tool" cat run.totals A --hex)"
told 'totals in memory begin without files' 'totals.script:4: ok 1' \
  "$("$tool" run totals.script --profile till.toml | sed -n 4p)"
"$tool" run sale.script line.script --json > out
python3 - << 'PYTHON' > counted
import json
rows = [json.loads(line) for line in open('out', encoding='utf-8')]
assert [list(row) for row in rows] == [['answer', 'line', 'reason', 'script', 'text']] * 9
assert rows[0] == {'answer': 'ok', 'line': 3, 'reason': None, 'script': 'sale.script', 'text': 'new a CashDrawer'}
assert rows[8] == {'answer': 'bad line', 'line': 1, 'reason': "it has a byte that ASCII doesn't print",
                   'script': 'line.script', 'text': 'new a caf\u00e9'}
print('good')
PYTHON
told 'run --json' good "$(cat counted)"
printf 'new a \377\n' > bytes.script
told 'run --json: bytes that are no text' null "$("$tool" run bytes.script --json | python3 -c 'import json; print(json.dumps(json.load(open(0))["text"]))')"
ends 'run of an empty script' 0 '' '' run nothing.script
hint_script='hint: check the path, and who may read it; `-` is standard input'
ends 'run of no script' 4 "kijolvar: none.script: $unread: $none"$'\n'"$hint_script" '' run totals.script none.script --totals run.totals
told 'nothing was run then' 'sound: layout 1, sequence 1, records 2, files 1' "$("$tool" check run.totals)"
hint_profile='hint: docs/reference/profile.md has each key; without --profile the built-in one serves'
ends 'run over no profile' 4 "kijolvar: none.toml: $unread: $none"$'\n'"$hint_profile" '' run sale.script --profile none.toml
echo 'name = 1' > bad.toml
"$tool" run sale.script --profile bad.toml > out 2> err
told 'run over a bad profile' "4 kijolvar: bad.toml: " "$? $(head -c 20 err)"
told 'run over a bad profile prints nothing' 0 "$(wc -c < out)"
ends 'run over no totals' 4 "kijolvar: none.totals: $unopened: $none"$'\n'"$hint_path" '' run sale.script --totals none.totals
told 'none are made' '' "$(ls none.totals 2> /dev/null)"
exec 5< run.totals
flock -n 5
ends 'run over totals in use' 4 'kijolvar: run.totals: is in use: close the other program that has it open'$'\n'"$hint_stop" '' \
  run sale.script --totals run.totals
exec 5<&-
"$tool" run sale.script > /dev/full 2> err
told 'run onto a full disk' "5 kijolvar: the output can't be written" "$? $(head -n 1 err)"
refuses 'run with a profile without a word' "a value is required for '--profile <profile>' but none was supplied" run a --profile

# --- test
mkdir conformance
cp "$top"/tests/scripts/* conformance
scripts=()
for script in conformance/*; do
  case $script in *.stdout | *.profile | *.disk | *.left | *.before) continue ;; esac
  [ -f "$script.profile" ] || scripts+=("$script")
done
ends 'test of the conformance scripts' 0 '' "$(printf 'ok %s\n' "${scripts[@]}"; echo "${#scripts[@]} passed, 0 failed")" test "${scripts[@]}"
told 'there are some' yes "$([ "${#scripts[@]}" -ge 40 ] && echo yes)"
"$program" < sale.script > sale.script.stdout
ends 'test' 0 '' $'ok sale.script\n1 passed, 0 failed' test sale.script
sed '3s/ok/err 105/' sale.script.stdout > sale2.script.stdout
cp sale.script sale2.script
ends 'test: a difference' 1 '' "sale2.script:5: set a DeviceEnabled true
  wanted: err 105
  found:  ok
failed sale2.script
ok sale.script
1 passed, 1 failed" test sale2.script sale.script
head -n 7 sale.script.stdout > sale2.script.stdout
ends 'test: too few answers' 1 '' "sale2.script:10: get a State
  wanted: 
  found:  ok 2
failed sale2.script
0 passed, 1 failed" test sale2.script
{ cat sale.script.stdout; echo none; } > sale2.script.stdout
ends 'test: too many answers' 1 '' "sale2.script: no line is left for: none
failed sale2.script
0 passed, 1 failed" test sale2.script
sed 's/$/\r/' sale.script.stdout > sale2.script.stdout
ends 'test: carriage returns' 0 '' $'ok sale2.script\n1 passed, 0 failed' test sale2.script
printf 'new a HardTotals\nopen a t1\nopen b d1\n' > till.script
printf 'ok\nok\nbad control\n' > till.script.stdout
ends 'test over a profile' 0 '' $'ok till.script\n1 passed, 0 failed' test till.script --profile till.toml
ends 'test without the answers' 4 \
  "kijolvar: scan.script.stdout: $unread: $none"$'\n''hint: the answers that are wanted of SCRIPT are in SCRIPT.stdout' '' test sale.script scan.script
ends 'test of no script' 4 "kijolvar: none.script: $unread: $none"$'\n''hint: check the path, and who may read it' '' test none.script
refuses 'test without a script' "$missing <PATH>..." test

# --- test of folders: of names that end so each, in the order of their bytes, and of no folder inside
mkdir -p folder/inner.stdout folder/inside empty
for name in b a.b a 'c d' B; do
  cp sale.script "folder/$name"
  cp sale.script.stdout "folder/$name.stdout"
done
cp sale.script folder/alone
cp sale.script folder/inside/in
cp sale.script.stdout folder/inside/in.stdout
rmdir folder/inner.stdout
in_folder=$'ok folder/B\nok folder/a\nok folder/a.b\nok folder/b\nok folder/c d'
ends 'test of a folder' 0 '' "$in_folder"$'\n5 passed, 0 failed' test folder
ends 'test of a folder with a slash' 0 '' "$in_folder"$'\n5 passed, 0 failed' test folder/
ends 'test of a folder among scripts' 0 '' $'ok sale.script\n'"$in_folder"$'\nok sale.script\n7 passed, 0 failed' \
  test sale.script folder sale.script
ends 'test of a folder without a script' 1 \
  $'kijolvar: empty: no script is in this folder\nhint: the answers that are wanted of SCRIPT are in SCRIPT.stdout' '' test folder empty
touch folder/gone.stdout
ends 'test of answers without a script' 4 "kijolvar: folder/gone: $unread: $none"$'\n''hint: check the path, and who may read it' '' \
  test folder
rm folder/gone.stdout
mkdir hidden
chmod 111 hidden
under=("${held[@]}")
ends 'test of a folder that may not be read' 4 \
  $'kijolvar: hidden: can\'t be listed: Permission denied (os error 13)\nhint: check who may read it; its names have to be UTF-8' '' test hidden
under=()
mkdir odd
: > "$(printf 'odd/\377')"
"$tool" test odd 2> err
told 'test of a folder with a name that is no UTF-8' "4 kijolvar: odd: can't be listed" "$? $(head -n 1 err | cut -d: -f1-3)"

# --- the report of a test
# suite FILE: what an XML parser reads in a report
suite() {
  python3 - "$1" << 'PYTHON'
import sys, xml.etree.ElementTree as tree
root = tree.parse(sys.argv[1]).getroot()
print(root.tag, root.get('name'), root.get('tests'), root.get('failures'))
for case in root:
    found = [f'{part.tag} {part.text!r}' for part in case]
    print(case.tag, case.get('classname'), repr(case.get('name')), *found)
PYTHON
}
ends 'test with a report' 0 '' "$in_folder"$'\n5 passed, 0 failed' test folder --junit report.xml
told 'the report of scripts that pass' "testsuite kijolvar 5 0
testcase kijolvar 'folder/B'
testcase kijolvar 'folder/a'
testcase kijolvar 'folder/a.b'
testcase kijolvar 'folder/b'
testcase kijolvar 'folder/c d'" "$(suite report.xml)"
printf 'new d CashDrawer\n' > 'odd <"&> é.script'
printf 'no <"&>\t\001 \303\251 \303( \357\277\277 \360\237\230\200 \355\240\200\n' > 'odd <"&> é.script.stdout'
"$tool" test sale.script 'odd <"&> é.script' --junit report.xml > out
told 'test with a report: a difference' 1 $?
told 'what is printed stays' "$("$tool" test sale.script 'odd <"&> é.script' | sha256sum)" "$(sha256sum < out)"
told 'the report has what XML can have, and the rest in hex' 'testsuite kijolvar 2 1
testcase kijolvar '"'sale.script'"'
testcase kijolvar '"'odd <\"&> é.script'"' failure '"'"'odd <"&> é.script:1: new d CashDrawer\n  wanted: no <"&>\t\\x01 é \\xc3( \\xef\\xbf\\xbf 😀 \\xed\\xa0\\x80\n  found:  ok\n'"'" "$(suite report.xml)"
told 'no part of it is left' '' "$(ls report.xml.part 2> /dev/null)"
ends 'a report in no folder' 4 \
  "kijolvar: none/report.xml: the file beside it, with .part at its end, can't be made: $none"$'\n''hint: check the folder; remove the .part file if no other command is making it' \
  $'ok sale.script\n1 passed, 0 failed' test sale.script --junit none/report.xml
cp report.xml before.xml
touch report.xml.part
mkfifo pipe.xml
mkdir folder.xml
ln -s report.xml link.xml
for there in pipe.xml link.xml folder.xml; do
  ends "a report in place of $there" 4 "kijolvar: $there: $no_file"$'\n'"$hint_no_file" \
    $'ok sale.script\n1 passed, 0 failed' test sale.script --junit "$there"
done
told 'they are as they were' 'p l d' "$(stat -c %A pipe.xml link.xml folder.xml | cut -c1 | tr '\n' ' ' | sed 's/ $//')"
rm pipe.xml link.xml
rmdir folder.xml
cp sale.script kept.script
ends 'a report in place of a script' 4 \
  'kijolvar: kept.script: is there, and is no report that may be replaced'$'\n''hint: give the path of a report, or one that is free' \
  $'ok sale.script\n1 passed, 0 failed' test sale.script --junit kept.script
same 'the script stays' sale.script kept.script
: > empty.xml
ends 'a report in place of an empty file' 0 '' $'ok sale.script\n1 passed, 0 failed' test sale.script --junit empty.xml
told 'it is a report' 'testsuite kijolvar 1 0' "$(suite empty.xml | head -n 1)"
told 'its mode is what the umask lets' 644 "$(stat -c %a empty.xml)"
rm kept.script empty.xml
"$tool" test sale.script --junit report.xml > out 2> err
told 'a report beside a part of one' "4 ok sale.script" "$? $(head -n 1 out)"
same 'the old report stays' before.xml report.xml
rm report.xml.part
"$tool" test sale.script --junit report.xml > /dev/full 2> err
told 'a test onto a full disk' "5 kijolvar: the output can't be written" "$? $(head -n 1 err)"
same 'makes no report' before.xml report.xml

# --- colours
plain=$("$tool" test sale.script 'odd <"&> é.script')
told 'auto has no colours in a pipe' "$plain" "$("$tool" test sale.script 'odd <"&> é.script' --color auto)"
told 'never has none' "$plain" "$("$tool" test sale.script 'odd <"&> é.script' --color never)"
told 'always has some' $'\e[32mok sale.script\e[0m' "$("$tool" test sale.script 'odd <"&> é.script' --color always | head -n 1)"
told 'and nothing else' "$plain" "$("$tool" test sale.script 'odd <"&> é.script' --color always | sed 's/\x1b\[[0-9]*m//g')"
told 'what is wanted is green' $'\e[32m' "$("$tool" test 'odd <"&> é.script' --color always | sed -n 2p | head -c 5)"
told 'what is found is red' $'\e[31m  found:  ok\e[0m' "$("$tool" test 'odd <"&> é.script' --color always | sed -n 3p)"
told 'a failure is red' $'\e[31mfailed odd <"&> é.script\e[0m' "$("$tool" test 'odd <"&> é.script' --color always | sed -n 4p)"
ends 'no choice of colour' 3 $'kijolvar: no choice of colour is red\nhint: there are auto, always and never' '' test none --color red

# --- completions and the man page
for shell in bash zsh fish; do
  "$tool" completions $shell > completions.$shell
  for command in check files cat dump diff create migrate backup restore load salvage run test explain completions man version help; do
    told "completions $shell has $command" yes "$(grep -qw -- "$command" completions.$shell && echo yes)"
  done
done
told 'bash reads the completions' 0 "$(bash -n completions.bash; echo $?)"
# completed WORD ..: what bash completes after these words, a line each
completed() {
  bash -c '. ./completions.bash; compopt() { :; }; COMP_WORDS=("$@"); COMP_CWORD=$(($# - 1)); _kijolvar
    printf "%s\n" "${COMPREPLY[@]}"' bash "$@"
}
told 'a command is completed' 'check create' "$(completed kijolvar c | tr ' ' '\n' | grep -E '^(check|create)$' | tr '\n' ' ' | sed 's/ $//')"
told 'an option is completed' '--profile' "$(completed kijolvar run --p)"
told 'a file is completed' 'till.toml' "$(completed kijolvar run till.tom)"
mkdir 'shop 2'
touch 'shop 1.totals' 'shop 2/till.totals'
told 'a name with a space is completed whole' $'shop 1.totals\nshop 2' "$(completed kijolvar check shop | sort)"
told 'a file in a folder is completed' 'shop 2/till.totals' "$(completed kijolvar check 'shop 2/')"
told 'an option of test is completed' '--junit' "$(completed kijolvar test --j)"
told 'a choice of colour is completed' 'always' "$(completed kijolvar test --color al)"
told 'a shell is completed' 'fish' "$(completed kijolvar completions f)"
ends 'completions of no shell' 1 'kijolvar: no completions for tcsh'$'\n''hint: there are some for bash, zsh and fish' '' completions tcsh
"$tool" man > kijolvar.1
told 'the man page begins' ".TH KIJOLVAR 1 \"\" \"kijolvar $("$tool" version | cut -d' ' -f2)\" \"Kijolvar\"" "$(head -n 1 kijolvar.1)"
for command in check files cat dump diff create migrate backup restore load salvage run test explain completions man version help; do
  told "the man page has $command" yes "$(grep -qE "^\.(BI|B|BR) $command\b" kijolvar.1 && echo yes)"
done

# --- random damages: each is answered, and the file stays. DAMAGES is how many
damages=${DAMAGES:-300}
python3 - "$tool" "$damages" <<'PYTHON' > counted
import concurrent.futures, os, random, subprocess, sys
tool, source = sys.argv[1], open('till.totals', 'rb').read()
random.seed(13)
places = [0, *range(1, 40), *range(16384, 16500), 32768, *range(32769, 32790), 65536, 196608]

def damage():
    return [(random.choice(places), random.choice((0, 1, 0xA5, 0xFF, random.randrange(256))))
            for _ in range(random.choice((1, 1, 2, 5, 40)))]

def run(*words):
    return subprocess.run([tool, *words], capture_output=True, text=True)

# what is wrong with the answers of a file with these bytes; nothing if all is well
def fault(turn, changes):
    name, to = f'random.{turn}', f'saved.{turn}'
    bytes_ = bytearray(source)
    for at, byte in changes:
        bytes_[at] = byte
    with open(name, 'wb') as it:
        it.write(bytes_)
    try:
        check = run('check', name)
        files = run('files', name, '--json')
        first = {0: 'sound: ', 1: 'no totals: ', 2: 'damaged at byte '}.get(check.returncode)
        if first is None or not check.stdout.startswith(first) or files.returncode != check.returncode:
            return turn, check, files
        saved = run('salvage', name, to)
        if saved.returncode == 0:
            with open(to, 'rb') as it:
                made = it.read()
            lines = saved.stdout.splitlines()
            # The bytes of the image of new totals, if it is put again.
            put = 15 * any(line.startswith('put ') for line in lines)
            changed = [at for at in range(put, len(made)) if made[at] != bytes_[at]] if made != bytes_ else []
            closed = [line for line in lines if line.startswith('closed gate ') and int(line.split(',')[0][12:]) >= put]
            if any(made[at] for at in changed) or run('check', to).returncode or len(changed) != len(closed):
                return turn, saved, changed
        elif saved.returncode != 1:
            return turn, saved
        with open(name, 'rb') as it:
            if it.read() != bytes_:
                return turn, 'changed'
    finally:
        os.remove(name)
        if os.path.exists(to):
            os.remove(to)

turns = [(turn, damage()) for turn in range(int(sys.argv[2]))]
with concurrent.futures.ThreadPoolExecutor(os.cpu_count()) as pool:
    faults = [it for it in pool.map(lambda turn: fault(*turn), turns) if it]
print('good' if not faults else faults[:3])
PYTHON
told "every one of $damages random damages is answered, and nothing is written" good "$(cat counted)"

# --- the examples of the document: each line that begins with `$ ` is run, and prints what follows it
mkdir examples
cd examples || exit 1
PATH="$work/bin:$PATH"
mkdir -p "$work/bin"
ln -s "$tool" "$work/bin/kijolvar"
ln -s "$program" "$work/bin/pos_console"
python3 - "$top/docs/reference/tool.md" <<'PYTHON' > "$work/counted"
import re, subprocess, sys
text = open(sys.argv[1], encoding='utf-8').read()
count = 0
for block in re.findall(r'^```console\n(.*?)^```$', text, re.M | re.S):
    for part in re.split(r'^\$ ', block, flags=re.M)[1:]:
        command, _, wanted = part.partition('\n')
        made = subprocess.run(['bash', '-c', command], stdout=subprocess.PIPE, stderr=subprocess.STDOUT, text=True)
        found = made.stdout
        print(f'{command}: {"same" if found == wanted else repr(found)}')
PYTHON
while read -r line; do
  told "the example ${line%: *}" same "${line##*: }"
done < "$work/counted"
told 'there are examples' yes "$([ "$(wc -l < "$work/counted")" -ge 12 ] && echo yes)"

echo "$passed passed, $failed failed"
[ "$failed" -eq 0 ]
