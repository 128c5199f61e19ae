#!/bin/sh
# The real edge, outside the gate: files that are missing or can't be read, an output that is full or closed, odd words.
# Prints a line a case, and ends with 0 where each had its exit code and its sentence.
home=$(cd "$(dirname "$0")/.." && pwd)
pqa=$home/pqa
work=$(mktemp -d)
trap 'chmod -R u+rw "$work"; rm -rf "$work"' EXIT
cp "$home"/examples/two_intervals.* "$work"
cd "$work" || exit 2
head -c 5519 two_intervals.dat >cut.dat
(cat two_intervals.dat; printf x) >long.dat
head -c 1048577 /dev/zero >large.cfg
mkdir folder
"$pqa" check two_intervals.cfg >/dev/null || exit 2
failed=0

# expect NAME CODE SENTENCE: compares what the last run left in code, out and err
expect() {
    if [ "$code" = "$2" ] && [ "$(cat err)" = "$3" ] && [ ! -s out ]; then
        echo "ok      $1"
    else
        echo "FAILED  $1: exit code $code, '$(cat err)'"
        failed=1
    fi
}

run() {
    "$pqa" "$@" >out 2>err
    code=$?
}

run intervals --udin 230000 two_intervals.cfg two_intervals.dat
if [ "$code" = 0 ] && [ ! -s err ] && [ "$(wc -l <out)" = 3 ]; then echo "ok      two_intervals"; else echo "FAILED  two_intervals"; failed=1; fi
"$home/crates/pqa/out/pqa" >out 2>err
code=$?
expect "no words, without the launcher" 1 "usage: words not understood"
run intervals --udin 0 two_intervals.cfg two_intervals.dat
expect "a voltage of 0" 1 "usage: words not understood"
run intervals --udin "$(printf '\377')" two_intervals.cfg two_intervals.dat
expect "a word that isn't UTF-8" 1 ""
run intervals --udin 230000 nowhere two_intervals.dat
expect "a missing cfg" 14 "file 1: not found"
run intervals --udin 230000 two_intervals.cfg nowhere
expect "a missing dat" 14 "file 2: not found"
run intervals --udin 230000 folder two_intervals.dat
expect "a directory in place of the cfg" 8 "read failed (1)"
run intervals --udin 230000 two_intervals.cfg folder
expect "a directory in place of the dat" 8 "read failed (1)"
run intervals --udin 230000 two_intervals.cfg/x two_intervals.dat
expect "a file in place of a directory" 8 "read failed (1)"
run intervals --udin 230000 large.cfg two_intervals.dat
expect "a cfg over its limit" 4 "limit passed: cfg bytes"
run intervals --udin 230000 two_intervals.dat two_intervals.dat
expect "a dat in place of the cfg" 2 "cfg line 1: missing, surplus or wrong number of fields"
sed 's/0\.0325/305.2/' two_intervals.cfg >steep.cfg
run intervals --udin 230000 steep.cfg two_intervals.dat
expect "a coefficient past the limit" 4 "cfg line 3: limit passed: value"
sed 's/,V,/,A,/' two_intervals.cfg >current.cfg
run intervals --udin 230000 current.cfg two_intervals.dat
expect "a current alone" 5 "selection: no voltage channel"
run intervals --udin 230000 "$home"/examples/cfg_2013_with_32_states.cfg two_intervals.dat
expect "a dat of other records" 7 "dat record 2: sample number 267144"
(head -c 48 two_intervals.dat; printf '\000\200'; tail -c +51 two_intervals.dat) >missing.dat
run intervals --udin 230000 two_intervals.cfg missing.dat
expect "a missing count" 7 "dat record 5: channel 1 missing"
run intervals --udin 230000 two_intervals.cfg cut.dat
expect "a dat cut off" 7 "dat record 552: cut off"
run intervals --udin 230000 two_intervals.cfg long.dat
expect "a dat too long" 7 "dat: 1 bytes after the last record"
cp two_intervals.cfg unreadable.cfg
chmod 000 unreadable.cfg
if [ "$(id -u)" = 0 ]; then
    if command -v setpriv >/dev/null; then
        chmod 755 "$work"
        cp "$home/crates/pqa/out/pqa" program
        chmod 755 program
        setpriv --reuid 65534 --regid 65534 --clear-groups ./program intervals --udin 230000 unreadable.cfg two_intervals.dat >out 2>err
        code=$?
        expect "an unreadable cfg" 8 "read failed (1)"
    else
        echo "left    an unreadable cfg (root reads all)"
    fi
else
    run intervals --udin 230000 unreadable.cfg two_intervals.dat
    expect "an unreadable cfg" 8 "read failed (1)"
fi
if [ -e /dev/full ]; then
    "$pqa" intervals --udin 230000 two_intervals.cfg two_intervals.dat >/dev/full 2>err
    code=$?
    : >out
    expect "a full device" 9 "write failed (1)"
fi
# a limit of the output's size in mid-text: the front that fits is taken, and the rest is told as a fault
"$pqa" check "$home/examples/cfg_2013_with_32_states.cfg" >whole 2>/dev/null
(
    trap '' XFSZ
    ulimit -f 1
    "$home/crates/pqa/out/pqa" check "$home/examples/cfg_2013_with_32_states.cfg" >front 2>err
    echo $? >code
)
code=$(cat code)
size=$(wc -c <front)
: >out
if [ "$size" = 0 ] || [ "$size" -ge "$(wc -c <whole)" ] || ! head -c "$size" whole | cmp -s - front; then
    code="$code, but no front was taken"
fi
expect "a file full in mid-text" 9 "write failed (1)"
# the reader ends before the program begins
mkfifo pipe gate
(exec 3<pipe; exec 3<&-; echo >gate) &
( exec 4>pipe; read -r _ <gate; "$pqa" intervals --udin 230000 two_intervals.cfg two_intervals.dat >&4 2>err; echo $? >code )
wait
code=$(cat code)
: >out
expect "a closed pipe" 9 "write failed (1)"
exit $failed
