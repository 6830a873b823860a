#!/bin/sh
# What the program does with files, of which no contract can speak. It checks:
# - what is refused: message and status, that the other files are still hashed, and that nothing is written;
# - that a locked file is unlocked again, and that the same file locked twice with one key gives two locked files that differ, so
#   that not every file is locked under one nonce;
# - that OUT.part is never left, whether the writing is done or fails, that one that is there already is not touched and fails the
#   command, and that an older OUT is replaced, and stays where the writing fails;
# - the reports of shelves, and a script for a box.
# Run from the repository's folder, after `rt ci` or after `(cd crates/majgunter && rt run -- help)`: both build the program.
set -u
program=$PWD/crates/majgunter/out/majgunter
folder=$(mktemp -d) && cd "$folder" || exit 1
head -c 65536 /dev/zero > full
head -c 65537 /dev/zero > over
: > empty
failed=0

# expect NAME STATUS STDOUT STDERR: compare the last run
expect() {
    if [ "$status" != "$2" ] || [ "$(cat out)" != "$3" ] || [ "$(cat err)" != "$4" ]; then
        echo "FAILED: $1 (status $status)"
        cat out err
        failed=1
    else
        echo "ok: $1"
    fi
}

run() {
    "$program" "$@" > out 2> err
    status=$?
}

usage='usage: majgunter hash FILE...                            print the Saturnin-Hash of each file
       majgunter lock [--nonce HEX] KEYFILE IN OUT      lock a file with a key of 32 bytes
       majgunter unlock KEYFILE IN OUT                  unlock it again
       majgunter shelf tray FILE                        print what a tray holds
       majgunter shelf plate FILE PLACES                print what a plate of so many places holds
       majgunter box                                    work a box by a script on standard input'
digest=83b15641b09569b04c606108fc8ae268ac0dc9288741b5735d8612d69c0afdfe

run
expect 'no arguments' 1 '' "$usage"
run dance
expect 'unknown command' 1 '' "$usage"
run hash
expect 'no file' 1 '' "$usage"
run help
expect 'help' 0 "$usage" ''
run hash missing over /dev/zero . empty
expect 'refused, and the others done' 1 "$digest  empty" "majgunter: missing: No such file or directory (os error 2)
majgunter: over: refused with 2, layer 1: over its limit; a hash takes at most 65,536 bytes
majgunter: /dev/zero: refused with 2, layer 1: over its limit; a hash takes at most 65,536 bytes
majgunter: .: Is a directory (os error 21)"
run hash full
[ "$status" = 0 ] && echo "ok: 65,536 bytes are taken" || failed=1

printf '0123456789abcdef0123456789abcdef' > key
printf '0123456789abcdef0123456789abcdeF' > other
printf '0123456789abcdef' > short
head -c 40000 /dev/urandom > window
nonce=000102030405060708090A0B0C0D0E0F10111213

# refused WHAT STDERR COMMAND...: the command is refused so, and leaves no file `never`
refused() {
    name=$1
    message=$2
    shift 2
    run "$@"
    expect "$name" 1 '' "$message"
    if [ -e never ] || [ -e never.part ]; then
        echo "FAILED: $name wrote a file"
        failed=1
    fi
}

run lock key window window.locked
expect 'locked' 0 '' ''
run unlock key window.locked window.again
expect 'unlocked' 0 '' ''
cmp window window.again || failed=1
run lock key window twice.locked
expect 'locked twice' 0 '' ''
if cmp -s window.locked twice.locked; then
    echo 'FAILED: two lockings of one file are the same: under one nonce'
    failed=1
else
    echo 'ok: two lockings of one file differ'
fi
run unlock key twice.locked twice.again
cmp window twice.again || failed=1

# none FILE: there is no such file
none() {
    if [ -e "$1" ]; then
        echo "FAILED: $1 is there"
        failed=1
    else
        echo "ok: no $1"
    fi
}

# same NAME FILE FILE: the two hold the same
same() {
    if cmp -s "$2" "$3"; then
        echo "ok: $1"
    else
        echo "FAILED: $1"
        failed=1
    fi
}

for part in window.locked.part window.again.part twice.locked.part twice.again.part; do none $part; done
there='the file to write: File exists (os error 17)'
printf 'of another command' > taken.part
cp taken.part before
run lock key window taken
expect 'a part that is there, to lock' 1 '' "majgunter: window: $there"
none taken
same 'the part is as it was' before taken.part
cp window older
cp taken.part older.part
run unlock key window.locked older
expect 'a part that is there, to unlock' 1 '' "majgunter: window.locked: $there"
same 'the older file is as it was' window older
same 'the part is as it was' before older.part
rm older.part
run lock key window older
expect 'an older file' 0 '' ''
run unlock key older older
expect 'unlocked in its place' 0 '' ''
same 'an older file is replaced' window older
none older.part
mkdir folder
run lock key window folder
expect 'a folder in the way' 1 '' 'majgunter: window: the file to write: Is a directory (os error 21)'
none folder.part
none folder/window

run lock --nonce $nonce key full full.locked
run lock --nonce $nonce key full again.locked
cmp full.locked again.locked || failed=1
run unlock key full.locked full.again
cmp full full.again || failed=1

tag='refused with 11, layer 1: the tag differs; the file is damaged, locked with another key, or no locked file'
length='refused with 1, layer 1: not of its stated length'
limit='refused with 2, layer 1: over its limit'
for place in 0 3 4 23 24 55 56 40055; do
    cp window.locked damaged
    byte=$(od -An -tu1 -j $place -N 1 damaged | tr -d ' ')
    printf "\\$(printf %03o $((byte ^ 1)))" | dd of=damaged bs=1 seek=$place conv=notrunc 2> /dev/null
    refused "damaged at $place" "majgunter: damaged: $tag" unlock key damaged never
done
head -c 40055 window.locked > cut
refused 'cut short' "majgunter: cut: $tag" unlock key cut never
refused 'another key' "majgunter: window.locked: $tag" unlock other window.locked never
refused 'a foreign file' "majgunter: window: $tag" unlock key window never
refused 'a short key to unlock' "majgunter: window.locked: $length; a key file has 32 bytes, and a locked file at least 56" unlock short window.locked never
refused 'a file below 56 bytes' "majgunter: key: $length; a key file has 32 bytes, and a locked file at least 56" unlock key key never
head -c 65593 /dev/zero > long
refused 'a locked file over the limit' "majgunter: long: $limit; a locked file has at most 65,592 bytes" unlock key long never
refused 'a short key to lock' "majgunter: window: $length; a key file has 32 bytes, and a nonce 20" lock short window never
refused 'a short nonce' "majgunter: window: $length; a key file has 32 bytes, and a nonce 20" lock --nonce 00 key window never
refused 'a nonce not in digits' "majgunter: window: the nonce is not in hexadecimal digits" lock --nonce 0g key window never
refused 'a file over the limit' "majgunter: over: $limit; a file to lock has at most 65,536 bytes" lock key over never
refused 'no such file' "majgunter: missing: No such file or directory (os error 2)" lock key missing never
refused 'no key file' "majgunter: window: the key file: No such file or directory (os error 2)" lock missing window never
refused 'no folder to write in' "majgunter: window: the file to write: No such file or directory (os error 2)" lock key window missing/never

# cell MARK NUMBER: a cell of a plate, whose record is its number and a byte more
cell() {
    printf "\\000\\$(printf %03o $1)"
    head -c 15 /dev/zero
    printf "\\$(printf %03o $2)x"
    head -c 1007 /dev/zero
}
{ cell 1 1; cell 2 2; cell 1 3; cell 0 0; } > settled
{ cell 1 1; cell 0 0; cell 2 2; } > gap
unfit='refused with 13, layer 2: the plate is unfit; a plate has 1 to 4,096 places, no mark above their count, and no used cell after an unused one'
refused 'a shelf of no kind' "$usage" shelf drawer full
refused 'a plate without a count' "$usage" shelf plate full
refused 'a count that is no number' 'majgunter: full: the count of places is not a number' shelf plate full -1
refused 'a count over the range' "majgunter: full: $unfit" shelf plate full 4097
refused 'no places' "majgunter: full: $unfit" shelf plate full 0
refused 'marks above the count' "majgunter: window: $unfit" shelf plate window 4096
refused 'a used cell after an unused one' "majgunter: gap: $unfit" shelf plate gap 3
refused 'a tray over its size' 'majgunter: /dev/zero: over 4194304 bytes, the most that such a shelf has' shelf tray /dev/zero
refused 'a plate over its size' 'majgunter: /dev/zero: over 8404992 bytes, the most that such a shelf has' shelf plate /dev/zero 1
refused 'no such shelf' 'majgunter: missing: No such file or directory (os error 2)' shelf tray missing
head -c 4194304 /dev/zero > tray
run shelf tray tray
expect 'a tray of 4,096 places' 0 '4096 places, 4096 open, 0 with a record' ''
head -c 8404992 /dev/zero > plate
run shelf plate plate 4096
expect 'a plate of 4,096 places' 0 '4096 places, 4096 open, 0 with a record' ''
run shelf plate settled 2
expect 'the settled plate' 0 '2 places, 2 open, 2 with a record
place 0: number 3
place 1: number 2' ''
head -c 4000 settled > cut
run shelf plate cut 2
expect 'a plate cut short' 0 '2 places, 0 open, 2 with a record
place 0: number 3
place 1: number 2
922 spare bytes at the end' ''
run shelf tray empty
expect 'a tray of no places' 0 '0 places, 0 open, 0 with a record' ''

refused 'a box with words' "$usage" box key
script() {
    "$program" box > out 2> err
    status=$?
}
script < empty
expect 'an empty script' 0 '' ''
printf 'draw\n' | { script; echo $status > said; }
status=$(cat said)
expect 'a call before there is a box' 1 'line 1: draw: no box yet' ''
{ head -c 65535 /dev/zero | tr '\0' x; echo; head -c 65536 /dev/zero | tr '\0' x; echo; echo draw; } | { script; echo $status > said; }
status=$(cat said)
expect 'lines of the greatest length and over it' 1 "line 1: $(head -c 65535 /dev/zero | tr '\0' x): no such call
line 2: over 65535 bytes, the most that a line has
line 3: draw: no box yet" ''
printf 'key key\ntray tray\nmake 0102030405060708 5\ndraw\nseal 5 7 rose a window\nread 7\nsave tray.again\n' | { script; echo $status > said; }
status=$(cat said)
expect 'a sheet on a tray' 0 'key key: done
tray tray: 4096 places
make 0102030405060708 5: done
draw: 5
seal 5 7 rose a window: done
read 7: number 5, label rose, message a window
save tray.again: done' ''
run shelf tray tray.again
expect 'and in its image' 0 '4096 places, 4096 open, 1 with a record
place 7: number 5' ''
none tray.again.part
cp before saved.part
printf 'key key\ntray tray\nmake 0102030405060708 6\nsave saved\n' | { script; echo $status > said; }
status=$(cat said)
expect 'a part that is there, to save' 1 'key key: done
tray tray: 4096 places
make 0102030405060708 6: done
line 4: save saved: File exists (os error 17)' ''
none saved
same 'the part is as it was' before saved.part

rm -r "$folder"
exit $failed
