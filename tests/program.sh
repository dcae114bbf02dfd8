#!/usr/bin/env bash
# Tries the words, the statuses and the messages of the program on real files. Usage: tests/program.sh [PROGRAM].
# Without a word it builds the program, and needs rt; with one it takes that one. It needs strace, ps, and setpriv of
# util-linux if root runs it. Its last line is 'N passed, M failed'; it ends with 0 where none failed.
set -u
top=$(cd "$(dirname "$0")/.." && pwd)
program=${1:-$top/crates/pos_console/out/pos_console}
if [ $# -eq 0 ]; then
  (cd "$top/crates/pos_console" && rt run < /dev/null > /dev/null) || exit 1
fi
work=$(mktemp -d)
trap 'rm -rf "$work"' EXIT
cd "$work" || exit 1
# shellcheck source=tests/common.sh
. "$top/tests/common.sh"

# what a command runs under so that the modes of files hold for it, also if root runs it
held=()
[ "$(id -u)" -ne 0 ] ||
  held=(setpriv --bounding-set=-dac_override,-dac_read_search --inh-caps=-dac_override,-dac_read_search)
has_to_run 'strace traces nothing' strace strace -o /dev/null true
has_to_run 'there is no ps' procps ps
has_to_run "setpriv can't drop root's rights over files" util-linux "${held[@]}" true

# ends NAME STATUS MESSAGE WORD ..: whether the program ends so on the words, over the script in the file `script`;
# MESSAGE is the whole of standard error. What it prints stays in the file `out`. It runs under the words in `under`.
under=()
ends() {
  local name=$1 status=$2 message=$3 found
  shift 3
  "${under[@]}" "$program" "$@" < script > out 2> err
  found=$?
  told "$name: status" "$status" "$found"
  told "$name: message" "$message" "$(cat err)"
  told "$name: lines of the message" "$([ -z "$message" ] && echo 0 || echo 1)" "$(wc -l < err)"
}

# refuses_words NAME MESSAGE WORD ..: whether the words ask for nothing, for this reason
refuses_words() {
  local name=$1 message=$2
  shift 2
  ends "$name" 2 "pos_console: $message: $usage" "$@"
  told "$name: output" "" "$(cat out)"
}

# refuses_profile NAME MESSAGE: whether the profile in the file `profile.toml` is refused so
refuses_profile() {
  ends "$1" 3 "pos_console: profile.toml: $2" run --profile profile.toml --disk till.disk
  told "$1: output" "" "$(cat out)"
}

# first_bytes FILE COUNT: its first bytes in hex
first_bytes() {
  head -c "$2" "$1" | od -An -tx1 | tr -d ' \n'
}

usage='give no words, `run --profile FILE --disk FILE`, `format --disk FILE`, `migrate --disk FILE` or `files --disk FILE`'

profile() {
  cat <<'PROFILE'
[[device]]
name = "d1"
category = "CashDrawer"

[[device]]
name = "p1"
category = "LineDisplay"
rows = 2
columns = 4

[[device]]
name = "t1"
category = "HardTotals"

[[spare]]
category = "CashDrawer"
PROFILE
}

totals_script() {
  printf 'new a HardTotals\nopen a t1\nset a DeviceEnabled true\n'
  printf 'call a create 41 4 false\ncall a read 1 0 4\nget a FreeData\nget a NumberOfFiles\n'
}

# --- words; the script has a line, which a run would answer
printf 'new a CashDrawer\n' > script
nothing='error: unrecognized subcommand'
refuses_words 'a misspelt command' "$nothing 'rum'" rum --profile p --disk d
refuses_words 'a command in capitals' "$nothing 'RUN'" RUN --profile p --disk d
refuses_words 'a command with a line feed' "$nothing 'r n'" "$(printf 'r\nn')"
refuses_words 'an empty word' "$nothing ''" ''
refuses_words 'a version' "error: unexpected argument '--version' found" --version
refuses_words 'a word that is no text' 'a word is not UTF-8' "$(printf '\377')"
refuses_words 'a delimiter alone' \
  "error: 'pos_console' requires a subcommand but one was not provided [subcommands: run, format, migrate, files]" --
refuses_words 'a command after a delimiter' "error: unexpected argument 'run' found" -- run
refuses_words 'a command with its options after one' "error: unexpected argument 'run' found" -- run --profile p --disk d
refuses_words 'a delimiter after one' "$nothing '--'" -- --
refuses_words 'an option without a command' "error: unexpected argument '--disk' found" --disk x
refuses_words 'help' usage --help
refuses_words 'help in short' usage -h
refuses_words 'the word help' "$nothing 'help'" help
refuses_words 'help of a command' usage run --help
refuses_words 'help of another in short' usage format -h
refuses_words 'help of a move' usage migrate --help
refuses_words 'help of files' usage files --help
missing='error: the following required arguments were not provided:'
refuses_words 'run without options' "$missing --profile <profile> --disk <disk>" run
refuses_words 'run without a disk' "$missing --disk <disk>" run --profile p
refuses_words 'run without a profile' "$missing --profile <profile>" run --disk d
refuses_words 'an option without its word' \
  "error: a value is required for '--disk <disk>' but none was supplied" run --profile p --disk
refuses_words 'an option of format without its word' \
  "error: a value is required for '--disk <disk>' but none was supplied" format --disk
refuses_words 'a move without a disk' "$missing --disk <disk>" migrate
refuses_words 'a move of a profile' "error: unexpected argument '--profile' found" migrate --disk d --profile p
refuses_words 'a word too many' "error: unexpected argument 'e' found" format --disk d e
refuses_words 'a misspelt option' "error: unexpected argument '--dsk' found" format --dsk d
refuses_words 'an option twice' "error: the argument '--disk <disk>' cannot be used multiple times" \
  format --disk d --disk d
refuses_words 'an option of another command' "error: unexpected argument '--profile' found" \
  format --disk d --profile p
refuses_words 'files without a disk' "$missing --disk <disk>" files
refuses_words 'files of two disks' "error: the argument '--disk <disk>' cannot be used multiple times" \
  files --disk d --disk d
refuses_words 'files of a profile' "error: unexpected argument '--profile' found" files --disk d --profile p
told 'no file is made for words that ask for nothing' '' "$(ls | grep -v -x -e script -e out -e err)"

# --- no words: the built-in profile over a disk in memory
totals_script > script
ends 'no words' 0 ''
told 'no words: output' "$(printf 'ok\nok\nok\nok 1\nok 00000000\nok 8188\nok 1')" "$(cat out)"
told 'no file is made without words' '' "$(ls | grep -v -x -e script -e out -e err)"

# --- formatting
: > script
ends 'format makes a file' 0 '' format --disk till.disk
told 'format: output' '' "$(cat out)"
told 'format: length' 327680 "$(wc -c < till.disk)"
told 'format: bytes' a50000000000000001000000020000 "$(first_bytes till.disk 15)"
cp till.disk kept
formatted='is formatted already: remove it first if its totals may go'
ends 'format refuses totals' 4 "pos_console: till.disk: $formatted" format --disk till.disk
told 'format keeps the bytes of totals' same "$(cmp -s till.disk kept && echo same)"
printf abc > short.disk
ends 'format lengthens a file' 0 '' format "--disk=short.disk"
told 'format lengthens: length' 327680 "$(wc -c < short.disk)"
head -c 400000 /dev/zero | tr '\0' '\1' > long.disk
ends 'format takes a longer file' 0 '' format --disk long.disk
told 'format keeps a longer length' 400000 "$(wc -c < long.disk)"
printf '\245\007' > marked.disk
ends 'format refuses a short file with a mark' 4 "pos_console: marked.disk: $formatted" format --disk marked.disk
told 'format lengthens it first' 327680 "$(wc -c < marked.disk)"
told 'format keeps its bytes' a50700 "$(first_bytes marked.disk 3)"
opened="can't be opened for reading and writing"
ends 'format in no folder' 4 "pos_console: none/till.disk: $opened: No such file or directory (os error 2)" \
  format --disk none/till.disk
ends 'format of a folder' 4 "pos_console: .: $opened: is no file, but a folder, a pipe or a device" format --disk .
ends 'a path with a line feed' 4 \
  'pos_console: none/a\nb: '"$opened: No such file or directory (os error 2)" format --disk "$(printf 'none/a\nb')"
ends 'a path with controls' 4 \
  'pos_console: none/é \n\r\t\u{1b}[2J\u{85}\u{2028}\u{2029}\u{7f}: '"$opened: No such file or directory (os error 2)" \
  format --disk "$(printf 'none/\303\251 \\n\r\t\033[2J\302\205\342\200\250\342\200\251\177')"

# --- calls of the system that fail, by strace: at faulty.disk or its folder
# meets NAME FAULT STATUS MESSAGE WORD ..: whether the program ends so if calls have this fault
meets() {
  local name=$1 fault=$2 status=$3 message=$4
  shift 4
  under=(strace -o trace -e quiet=path-resolution -P faulty.disk -P "$work/faulty.disk" -P "$work"
    -e trace=flock,statx,fsync,pread64,pwrite64 -e "inject=$fault")
  ends "$name" "$status" "pos_console: faulty.disk: $message" "$@"
  under=()
}
# formats NAME FAULT STATUS MESSAGE: whether making a file ends so
formats() {
  rm -f faulty.disk
  meets "$@" format --disk faulty.disk
}
failed_format='a read, a write or a sync failed while it was formatted'
in_use='is in use: close the other program that has it open'
formats 'a lock that fails' flock:error=ENOLCK 4 "can't be locked: No locks available (os error 37)"
# What has its path is looked at first: it may be no file.
told 'a file without a lock is asked nothing' 'statxflock' "$(sed -n 's/(.*INJECTED.*//p; t; s/(.*//p' trace | grep -v '^+' | tr -d '\n')"
told 'a file without a lock stays empty' 0 "$(wc -c < faulty.disk)"
formats 'a lock without memory' flock:error=ENOMEM 6 'no memory to open it'
formats 'a length that is not told' statx:error=EIO 4 "its length can't be read: Input/output error (os error 5)"
formats 'a file of whose name nothing is told' statx:error=EIO:when=3 4 "$opened: Input/output error (os error 5)"
formats 'a file that has no name any more' statx:error=ENOENT:when=3 4 "$in_use"
formats 'a file that is told of no second time' statx:error=EIO:when=4 4 "$opened: Input/output error (os error 5)"
told 'a file that may have another name stays empty' 0 "$(wc -c < faulty.disk)"
formats 'a folder that is not synced' fsync:error=EIO:when=1 4 \
  "its folder can't be opened and synced: Input/output error (os error 5)"
formats 'a file that is not lengthened' pwrite64:error=EFBIG:when=1 4 "can't be lengthened: File too large (os error 27)"
formats 'a file that is lengthened in part' pwrite64:retval=15:when=1 4 "can't be lengthened: no storage space"
formats 'a length that is not synced' fsync:error=EIO:when=2 4 "can't be synced: Input/output error (os error 5)"
formats 'a file that is not synced' fsync:error=EIO:when=3 4 "can't be synced: check the device that it is on"
formats 'a file that is not read' pread64:error=EIO 4 "can't be read whole: check the device that it is on"
formats 'a file that is read in part' pread64:retval=15 4 "can't be read whole: check the device that it is on"
formats 'a write that fails' pwrite64:error=ENOSPC:when=4 4 "$failed_format"
formats 'a write of no byte' pwrite64:retval=0:when=3 4 "$failed_format"
formats 'a sync that fails' fsync:error=EIO:when=5 4 "$failed_format"
ends 'format of it once more' 0 '' format --disk faulty.disk
formats 'the last sync fails' fsync:error=EIO:when=6 4 "$failed_format"
ends 'its totals are there' 4 "pos_console: faulty.disk: $formatted" format --disk faulty.disk
# A link: a crash could lose its file from the folder that the file is in.
mkdir far near
ln -s ../far/linked.disk near/link.disk
strace -y -e trace=fsync -o trace "$program" format --disk near/link.disk > out 2> err
told 'format of a link' '0 327680' "$? $(wc -c < far/linked.disk)"
told 'format of a link syncs the folder of its file before the file' far "$(sed -n '1s,.*<.*/\(.*\)>.*,\1,p' trace)"
told 'format of a link syncs no other folder' 'far linked.disk' \
  "$(sed -n 's,.*<.*/\(.*\)>.*,\1,p' trace | sort -u | tr '\n' ' ' | sed 's/ $//')"
meets 'a move whose write fails' pwrite64:error=EIO:when=2 4 \
  'a read, a write or a sync failed while it was moved to layout 2: restart the machine, and move it again' migrate --disk faulty.disk
meets 'files that are not read' pread64:error=EIO 4 "can't be read whole: check the device that it is on" \
  files --disk faulty.disk

# --- moves to layout 2
ends 'a move of no file' 4 "pos_console: none.disk: $opened: No such file or directory (os error 2)" migrate --disk none.disk
told 'a move makes no file' '' "$(ls none.disk 2> /dev/null)"
printf abc > abc.disk
ends 'a move of a short file' 4 \
  "pos_console: abc.disk: has no totals: it isn't formatted, or it was cut off" migrate --disk abc.disk
told 'a move keeps a short file' abc "$(cat abc.disk)"
cp till.disk moved.disk
ends 'a move' 0 '' migrate --disk moved.disk
told 'a move: output' '' "$(cat out)"
told 'a move keeps the length' 327680 "$(wc -c < moved.disk)"
told 'a move keeps layout 1' same "$(cmp -s -n 65536 moved.disk till.disk && echo same)"
told 'a move: bytes' a50000000000000001000000020000 "$(tail -c +65537 moved.disk | head -c 15 | od -An -tx1 | tr -d ' \n')"
cp moved.disk kept
ends 'a second move' 4 'pos_console: moved.disk: has layout 2 already: there is nothing to do' migrate "--disk=moved.disk"
told 'a second move keeps the bytes' same "$(cmp -s moved.disk kept && echo same)"
ends 'format refuses totals that were moved' 4 "pos_console: moved.disk: $formatted" format --disk moved.disk
{ head -c 12 till.disk; printf '\003'; tail -c +14 till.disk; } > damaged.disk
cp damaged.disk kept
ends 'a move of damaged totals' 4 \
  'pos_console: damaged.disk: its totals are damaged: keep it, and restore a copy, or salvage it' migrate --disk damaged.disk
told 'a move keeps damaged totals' same "$(cmp -s damaged.disk kept && echo same)"
cp till.disk small.disk
truncate -s 65536 small.disk
truncate -s 327680 small.disk
(trap '' XFSZ; ulimit -f 32; exec "$program" migrate --disk small.disk > out 2> err)
told 'a move on a disk that takes no more: status' 4 $?
told 'a move on a disk that takes no more: message' \
  'pos_console: small.disk: a read, a write or a sync failed while it was moved to layout 2: restart the machine, and move it again' \
  "$(cat err)"
ends 'and once more' 0 '' migrate --disk small.disk

# --- profiles
profile > sound.toml
rm -f profile.toml
refuses_profile 'no profile' "can't be read: No such file or directory (os error 2)"
mkdir profile.toml
refuses_profile 'a profile that is a folder' "can't be read: Is a directory (os error 21)"
rmdir profile.toml
printf '# a\n# \377\n' > profile.toml
refuses_profile 'a profile that is no text' 'line 2: not UTF-8'
printf '[[device\n' > profile.toml
"$program" run --profile profile.toml --disk till.disk < script > out 2> err
told 'a profile that is no TOML: status' 3 $?
told 'a profile that is no TOML: message' 1 "$(grep -c '^pos_console: profile.toml: line 1: not TOML: .' err)"
printf 'device = []\ndevice = []\n' > profile.toml
"$program" run --profile profile.toml --disk till.disk < script > out 2> err
told 'a profile that has a key twice' 1 "$(grep -c '^pos_console: profile.toml: line 2: not TOML: .' err)"
printf '# a\n\n[[device\n' > profile.toml
"$program" run --profile profile.toml --disk till.disk < script > out 2> err
told 'a profile that is no TOML further down' 1 "$(grep -c '^pos_console: profile.toml: line 3: not TOML: .' err)"
printf 'spare = 1\n' > profile.toml
refuses_profile 'spares that are no array' 'spare must be an array of tables'
printf 'spare = [3]\n' > profile.toml
refuses_profile 'a spare that is no table' 'spare 1: must be a table'
printf 'foo = 1\n' > profile.toml
refuses_profile 'an unknown key of the root' 'unknown key: foo'
printf '"a\\nb" = 1\n' > profile.toml
refuses_profile 'a key with a line feed' 'unknown key: a\nb'
sed 's/rows = 2/rows = 9/' sound.toml > profile.toml
refuses_profile 'a number out of its range' 'device 2: rows must be 1 to 8'
sed '/columns/d' sound.toml > profile.toml
refuses_profile 'a number that is missing' 'device 2: columns must be 1 to 80'
sed '/columns/a ring = "true"' sound.toml > profile.toml
refuses_profile 'an optional truth value that is none' 'device 2: ring must be true or false'
sed '/columns/a flaky = [1, 1000001]' sound.toml > profile.toml
refuses_profile 'an optional number out of its range' 'device 2: flaky must be an array of two numbers, each 0 to 1000000'
sed '/"d1"/a ring = true' sound.toml > profile.toml
refuses_profile "another category's optional key" 'device 1: unknown key: ring'
sed 's/"p1"/"p 1"/' sound.toml > profile.toml
refuses_profile 'a name that is none' 'device 2: name must be 1 to 16 letters, digits or hyphens'
{ cat sound.toml; printf '[[spare]]\ncategory = "LineDisplay"\nrows = 2\ncolumns = 0\n'; } > profile.toml
refuses_profile 'a spare by its own number' 'spare 2: columns must be 1 to 80'
{ cat sound.toml; printf '[[device]]\nname = "t2"\ncategory = "HardTotals"\n'; } > profile.toml
refuses_profile 'a second device of Hard Totals' 'device 4: a second device of category HardTotals'
sed 's/"p1"/"d1"/' sound.toml > profile.toml
refuses_profile 'a name twice' 'two devices have the name d1'

# opens_devices NAME COUNT: whether the devices of a sound profile, so many, open, and one that it hasn't doesn't
opens_devices() {
  {
    grep -o "category='[A-Za-z]*',name='[^']*'" profile.toml |
      awk -F"'" '{ print "new c" NR " " $2; print "open c" NR " " $4 }'
    printf 'new none Scanner\nopen none d1\n'
  } > script
  ends "$1" 0 '' run --profile profile.toml --disk till.disk
  told "$1: devices" "$(yes ok | head -n $((2 * $2 + 1)); echo err 109)" "$(cat out)"
}

# reports_profiles FORMAT COUNT: whether the program reports profiles as it should. Each line of standard input has a
# profile, an arrow, and the message, or `sound`. FORMAT has a place for the profile. A sound one has so many devices.
reports_profiles() {
  local line
  mv script kept.script
  while IFS= read -r line; do
    # shellcheck disable=SC2059
    printf "$1" "$(printf '%b' "${line%% -> *}")" > profile.toml
    if [ "${line#* -> }" = sound ]; then
      opens_devices "$line" "$2"
    else
      : > script
      refuses_profile "$line" "${line#* -> }"
    fi
  done
  mv kept.script script
}
reports_profiles '%s\n' 0 <<'DOCUMENTS'
 -> sound
spare=[]\ndevice=[] -> sound
spare=[{category='CashDrawer'},{category='Scanner'}] -> sound
device=[3]\nx=1 -> unknown key: x
device=3 -> device must be an array of tables
device=[3]\nspare='d' -> spare must be an array of tables
spare=[3]\ndevice=[[]] -> device 1: must be a table
spare=[{category='Scanner'},3] -> spare 2: must be a table
spare=[{category='HardTotals'}] -> spare 1: category must be CashDrawer, Scanner, LineDisplay or POSPrinter
spare=[{category='Scanner',name='s'}] -> spare 1: unknown key: name
spare=[{category='LineDisplay',rows=1,columns=1,ring=true,flaky=[1,1],record=true}] -> sound
spare=[{category='Scanner',ring=false}] -> spare 1: unknown key: ring
device=[{category='HardTotals',name='t',ring=true}] -> device 1: unknown key: ring
device=[{category='HardTotals',name='t',flaky=[1,1]}] -> device 1: unknown key: flaky
device=[{category='HardTotals',name='t',record=false}] -> device 1: unknown key: record
DOCUMENTS
category="category must be CashDrawer, Scanner, LineDisplay, POSPrinter or HardTotals"
named='name must be 1 to 16 letters, digits or hyphens'
flaky='flaky must be an array of two numbers, each 0 to 1000000'
reports_profiles "device=[{category='HardTotals',name='t'},{%s}]\n" 2 <<DEVICES
category='CashDrawer',name='a23456789012345Z' -> sound
category='LineDisplay',name='T',rows=8,columns=80 -> sound
category='POSPrinter',name='-',chars=255,lines=100000,near=0 -> sound
category='Scanner',name='t' -> two devices have the name t
category='HardTotals',name='t' -> device 2: a second device of category HardTotals
name='d' -> device 2: $category
category='cashDrawer' -> device 2: $category
category='Scanner' -> device 2: $named
category='Scanner',name='' -> device 2: $named
category='Scanner',name='é' -> device 2: $named
category='Scanner',name='a234567890123456Z' -> device 2: $named
category='LineDisplay',name='p',rows=4294967297 -> device 2: rows must be 1 to 8
category='LineDisplay',name='p',rows=2.0 -> device 2: rows must be 1 to 8
category='LineDisplay',name='p',rows=8 -> device 2: columns must be 1 to 80
category='POSPrinter',name='r',chars=0 -> device 2: chars must be 1 to 255
category='POSPrinter',name='r',chars=1 -> device 2: lines must be 0 to 100000
category='POSPrinter',name='r',chars=1,lines=0 -> device 2: near must be 0 to 100000
category='LineDisplay',name='p',rows=1,columns=1,ring=1 -> device 2: ring must be true or false
category='LineDisplay',name='p',rows=9,columns=1,ring=1 -> device 2: rows must be 1 to 8
category='CashDrawer',name='d',ring=true -> device 2: unknown key: ring
category='CashDrawer',name='d',record='true' -> device 2: record must be true or false
category='CashDrawer',name='d',flaky=true -> device 2: $flaky
category='CashDrawer',name='d',flaky=[] -> device 2: $flaky
category='CashDrawer',name='d',flaky=[1] -> device 2: $flaky
category='CashDrawer',name='d',flaky=[1,1,1] -> device 2: $flaky
category='CashDrawer',name='d',flaky=[1,1.0] -> device 2: $flaky
category='CashDrawer',name='d',flaky=[-1,1] -> device 2: $flaky
category='CashDrawer',name='d',flaky=[1000001,1] -> device 2: $flaky
category='CashDrawer',name='d',flaky=[1,1000001] -> device 2: $flaky
DEVICES
printf '[[device]]\ncategory = "Scanner"\nname = "s"\n"" = 2\n' > profile.toml
refuses_profile 'an empty key' 'device 1: unknown key: '

# --- the order of faults, and the disk of a run
ends 'a profile before a disk' 3 "pos_console: none.toml: can't be read: No such file or directory (os error 2)" \
  run --profile none.toml --disk none.disk
ends 'no disk' 4 "pos_console: none.disk: $opened: No such file or directory (os error 2)" \
  run --profile sound.toml --disk none.disk
told 'a run makes no disk' '' "$(ls none.disk 2> /dev/null)"

# --- runs
totals_script > script
ends 'the first run on a formatted file' 0 '' run --profile sound.toml --disk till.disk
told 'the first run: output' "$(printf 'ok\nok\nok\nok 1\nok 00000000\nok 8188\nok 1')" "$(cat out)"
ends 'the second run on it' 0 '' run --disk=till.disk --profile=sound.toml
told 'the second run finds the file' "$(printf 'ok\nok\nok\nerr 110\nok 00000000\nok 8188\nok 1')" "$(cat out)"
printf 'new a CashDrawer\nopen a d1\ndetach d1\nnew b HardTotals\nopen b t1\nset b DeviceEnabled true\n' > script
printf abc > short.disk
ends 'a run over a short file' 0 '' run --profile sound.toml --disk short.disk
told 'a short file is no hardware' "$(printf 'ok\nok\nrefused InUse\nok\nok\nerr 107')" "$(cat out)"
told 'a run keeps a short file' abc "$(cat short.disk)"

# --- what a file holds
# tells NAME DISK LAYOUT SLOT RECORDS ROOM FILES: whether the program tells so of a disk, which stays as it is
tells() {
  cp "$2" kept
  ends "$1" 0 '' files --disk "$2"
  told "$1: output" "$(printf 'layout %s\nslot %s\nsequence 1\nrecords %s\nroom %s\nfiles %s' "$3" "$4" "$5" "$6" "$7")" \
    "$(cat out)"
  told "$1: it is only read" same "$(cmp -s "$2" kept && echo same)"
}
# untold NAME DISK MESSAGE: whether it refuses to tell of a disk so
untold() {
  ends "$1" 4 "pos_console: $2: $3" files --disk "$2"
  told "$1: output" '' "$(cat out)"
}
one=$(printf '1\nfile 41\nname A\nsize 4\nhex 00000000\ntext ....')
cp till.disk read.disk
chmod 444 read.disk
# the mode holds here: the commands that write are refused the file, and `files` isn't
under=("${held[@]}")
denied='Permission denied (os error 13)'
ends 'a run over a file that may not be written' 4 "pos_console: read.disk: $opened: $denied" \
  run --profile sound.toml --disk read.disk
ends 'a move of a file that may not be written' 4 "pos_console: read.disk: $opened: $denied" migrate --disk read.disk
tells 'files in a record, which may not be written' read.disk 1 0 1 16364 "$one"
cp read.disk secret.disk
chmod 200 secret.disk
untold 'files of a file that may not be read' secret.disk "can't be read: $denied"
under=()
{ cat read.disk; printf '\001'; } > longer.disk
tells 'files of a longer file' longer.disk 1 0 1 16364 "$one"
"$program" migrate --disk till.disk
tells 'files in an image of layout 2' till.disk 2 65536 0 49146 "$one"
"$program" format --disk new.disk
tells 'files of a formatted disk' new.disk 1 0 0 16378 0
"$program" migrate --disk new.disk
tells 'no files of layout 2' new.disk 2 65536 0 49146 0
head -c 400000 /dev/zero > zero.disk
untold 'files of no file' none.disk "can't be read: No such file or directory (os error 2)"
told 'no file is made to be told of' '' "$(ls none.disk 2> /dev/null)"
untold 'files of a folder' . "can't be read: is no file, but a folder, a pipe or a device"
untold 'files of a short file' abc.disk 'is shorter than a totals file, which has 327680 bytes'
untold 'files of no totals' zero.disk "has no totals: it isn't formatted, or it was cut off"
untold 'files of what has no sync' /proc/version "can't be synced: check the device that it is on"
damage='its totals are damaged at byte'
untold 'files of a body that is longer than its files' damaged.disk "$damage 15: bytes of the current body are left over"
# broken NAME PLACE BYTES MESSAGE: whether it tells so of a disk with a file in a record, and with these bytes there
broken() {
  cp read.disk broken.disk
  chmod 644 broken.disk
  printf "$3" | dd of=broken.disk bs=1 seek="$2" conv=notrunc 2> /dev/null
  untold "$1" broken.disk "$damage $4"
}
broken 'a body that is too long' 9 '\000\001\000\000' '9: the length of the current body is above the longest'
broken 'a body without its file' 14 '\001' '15: bytes of the current body are missing'
broken 'two slots with one sequence' 32768 '\245\000\000\000\000\000\000\000\001' \
  '32769: both slots are open with the same sequence'
broken 'a record that is too long' 16385 '\000\001' "16384: a record doesn't end within the log"
broken 'a record that is no group' 16391 '\011' '16384: a record is no group of changes'
broken 'a record without changes' 16385 '\000\000\000\002\000\000\000' '16384: a record has no changes'
broken 'a record that does not fit' 16394 '\001' "16384: the changes of a record don't fit the files before it"
"$program" files --disk read.disk > /dev/full 2> err
told 'an output that takes nothing of files: status' 5 $?
told 'an output that takes nothing of files: message' "pos_console: the answers can't be written" "$(cat err)"

# --- faults of a run
printf 'new a CashDrawer\n' > script
"$program" run --profile sound.toml --disk till.disk < script > /dev/full 2> err
told 'an output that takes nothing: status' 5 $?
told 'an output that takes nothing: message' "pos_console: the answers can't be written" "$(cat err)"
"$program" run --profile sound.toml --disk till.disk < . > out 2> err
told 'an input that can'"'"'t be read: status' 5 $?
told 'an input that can'"'"'t be read: message' "pos_console: the script can't be read" "$(cat err)"

# --- faults of the disk in a run: a file that takes no byte behind so many KiB
# limited KIB ANSWERS: whether a script that makes a file of 2,000 bytes and writes it prints so over such a disk
limited() {
  rm -f small.disk
  "$program" format --disk small.disk
  (trap '' XFSZ; ulimit -f "$1"; exec "$program" run --profile sound.toml --disk small.disk < script > out 2> err)
  told "a disk that takes $1 KiB: status" 0 $?
  told "a disk that takes $1 KiB: output" "$(printf 'ok\nok\nok\n'"$2")" "$(cat out)"
}
{
  printf 'new a HardTotals\nopen a t1\nset a DeviceEnabled true\ncall a create 41 2000 false\ncall a write 1 0 '
  head -c 2000 /dev/zero | od -An -v -tx1 | tr -d ' \n'
  printf '\ncall a find 41\n'
} > script
limited 16 'err 111\nerr 111\nerr 111' # the first record is refused
limited 17 'ok 1\nerr 111\nerr 111'    # the second is cut short
limited 19 'ok 1\nok\nok 1 2000'

# --- a file in whose place another one is put after it was opened and before it is locked
# overtaken NAME WORD ..: whether the program ends so on the words, and leaves both files as they are
overtaken() {
  local name=$1
  shift
  cp till.disk early.disk
  cp early.disk late.disk
  rm -f kept.disk
  strace -o trace -e quiet=path-resolution -P early.disk -e trace=openat -e inject=openat:signal=STOP:when=1 "$program" "$@" \
    < script > out 2> err &
  local tracer=$! stopped=
  for _ in {1..3000}; do
    stopped=$(ps -o pid=,stat= --ppid "$tracer" | sed -n 's/^ *\([0-9]*\) *[tT].*/\1/p')
    grep -q 'SIGSTOP' trace 2> /dev/null && [ -n "$stopped" ] && break
    kill -0 "$tracer" 2> /dev/null || break
    sleep 0.1
  done
  ln early.disk kept.disk
  mv late.disk early.disk
  kill -CONT "$stopped"
  wait "$tracer"
  told "$name: status" 4 $?
  told "$name: message" "pos_console: early.disk: $in_use" "$(cat err)"
  told "$name: files" same "$(cmp -s kept.disk till.disk && cmp -s early.disk till.disk && echo same)"
}
overtaken 'a run of a file that is replaced' run --profile sound.toml --disk early.disk
overtaken 'a move of a file that is replaced' migrate --disk early.disk
overtaken 'a format of a file that is replaced' format --disk early.disk

# --- streams that are closed: no file is opened in their place
cp till.disk closed.disk
printf 'new a HardTotals\nopen a t1\nset a DeviceEnabled true\n' > script
over_closed=(run --profile sound.toml --disk closed.disk)
"$program" "${over_closed[@]}" < script 2> err >&-
told 'closed output: status' 5 $?
told 'closed output: message' "pos_console: the answers can't be written" "$(cat err)"
"$program" "${over_closed[@]}" > out 2> err <&-
told 'closed input: status' 5 $?
told 'closed input: message' "pos_console: the script can't be read" "$(cat err)"
told 'closed input: output' '' "$(cat out)"
"$program" "${over_closed[@]}" < script > out 2>&-
told 'closed errors: status' 0 $?
told 'closed errors: output' "$(printf 'ok\nok\nok')" "$(cat out)"
"$program" "${over_closed[@]}" <&- >&- 2>&-
told 'all closed: status' 5 $?
"$program" files --disk closed.disk 2> err >&-
told 'files on closed output: status' 5 $?
told 'closed streams leave the file as it was' same "$(cmp -s closed.disk till.disk && echo same)"

# --- syncs, by strace: between what has to settle and what follows, and before an answer is written
# calls WORD ..: the calls of the program on the words that change a file: w where bytes are written, s where it is
# synced, and t where answers are written; several writes in turn are one w
calls() {
  strace -e trace=ftruncate,pwrite64,fsync,write -o trace "$program" "$@" < script > out 2> err
  sed -n 's/^pwrite64(.*/w/p; s/^ftruncate(.*/l/p; s/^fsync(.*/s/p; s/^write(1,.*/t/p' trace | tr -d '\n' | tr -s w
}
rm -f traced.disk
told 'the calls of format' swsswswsws "$(calls format --disk traced.disk)"
told 'a file that was formatted has each of its bytes' yes "$([ "$(stat -c '%b * %B' traced.disk | xargs expr)" -ge 327680 ] && echo yes)"
cp traced.disk traced2.disk
told 'the calls of a move' sswsws "$(calls migrate --disk traced2.disk)"
printf 'new a HardTotals\nopen a t1\nset a DeviceEnabled true\ncall a create 41 4 false\ncall a setAll 1 7\n' > script
told 'the calls of two changes' sswswswswst "$(calls run --profile sound.toml --disk traced.disk)"
printf 'new a HardTotals\nopen a t1\nset a DeviceEnabled true\ncall a create 41 4 false\ncall a read 1 0 4\n' > script
told 'the calls of a refused change and a read' sst "$(calls run --profile sound.toml --disk traced.disk)"
told 'a refused change and a read: output' "$(printf 'ok\nok\nok\nerr 110\nok 07070707')" "$(cat out)"
printf 'new a HardTotals\nopen a t1\nset a DeviceEnabled true\ncall a beginTrans\ncall a write 1 0 0102\n' > script
told 'the calls of a write in a transaction' sst "$(calls run --profile sound.toml --disk traced.disk)"
told 'a write in a transaction: output' "$(printf 'ok\nok\nok\nok\nok')" "$(cat out)"
echo 'call a commitTrans' >> script
told 'the calls of its commit' sswswst "$(calls run --profile sound.toml --disk traced.disk)"

echo "$passed passed, $failed failed"
[ "$failed" -eq 0 ]
