#!/bin/sh
# The launcher `pqa` in each case that it may meet, outside the gate, over a stand-in for `rt` that proves nothing: a minute or two.
# Prints a line a case, and ends with 0 where each was as it should be.
# shellcheck disable=SC2030,SC2031 # cases change the path in subshells
top=$(cd "$(dirname "$0")/.." && pwd)
work=$(mktemp -d)
trap 'chmod -R u+rwx "$work"; rm -rf "$work"' EXIT
mkdir "$work/bin"
export XDG_CACHE_HOME="$work/cache" EVENTS="$work/events" REFUSED="$work/refused" LONG="$work/long"
kit=$(sed -n "s/^kit='\(.*\)'/\1/p" "$top/pqa")
export KIT="$kit"
home="$work/a checkout"
failed=0

# The stand-in for rt: notes what it is asked, checks that the libraries below were lent, and makes the files that rt makes.
cat >"$work/bin/rt" <<'RT'
#!/bin/sh
if [ "$1" = version ]; then echo "$KIT"; exit; fi
name=$(basename "$PWD")
echo "begin $name" >>"$EVENTS"
echo "this is rt $* for $name"
if [ -e "$REFUSED" ] && [ "$(cat "$REFUSED")" = "$name" ]; then echo "fn $name::at_fault: not proved"; exit 1; fi
while read -r line; do
    low=${line%%[: ]*}
    [ "$low" = "$name" ] || [ -f "../$low/out/rlib/$low.rlib" ] || echo "no library $low for $name" >>"$EVENTS"
done <../../crates.txt
stamp=$(cat ../../crates.txt ../*/src/*.rt | cksum)
if [ "$(cat out/rlib/stamp 2>/dev/null)" != "$stamp" ]; then
    sleep 0.1
    if [ -e "$LONG" ] && [ "$(cat "$LONG")" = "$name" ]; then sleep 3; fi
    echo "proved $name" >>"$EVENTS"
fi
mkdir -p out/rlib
echo "$stamp" >out/rlib/stamp
: >"out/rlib/$name.rlib"
if [ "$1" = run ]; then
    [ -f data/two_intervals.dat ] || exit 1
    cat >out/pqa <<'PROGRAM'
#!/bin/sh
printf '<%s>' "$@"
cat
exit "${CODE:-0}"
PROGRAM
    chmod +x out/pqa
fi
echo "end $name" >>"$EVENTS"
RT
chmod +x "$work/bin/rt"
PATH="$work/bin:$PATH"

# begin NAME: a new checkout with nothing built, and nothing noted
begin() {
    case=$1
    rm -rf "$work/cache" "$home" "$work/second" "$EVENTS" "$REFUSED" "$LONG"
    checkout "$home"
    : >"$EVENTS"
}

checkout() {
    mkdir "$1"
    cp "$top/pqa" "$top/crates.txt" "$1"
    mkdir "$1/scripts" "$1/crates"
    cp "$top/scripts/build_program" "$1/scripts"
    for crate in "$top"/crates/*/; do
        name=$(basename "$crate")
        mkdir "$1/crates/$name"
        cp -r "$crate/src" "$1/crates/$name"
        [ ! -d "$crate/data" ] || cp -r "$crate/data" "$1/crates/$name"
    done
}

# run WORD..: the launcher, with its streams in out and err and its exit code in code
run() {
    "$home/pqa" "$@" >"$work/out" 2>"$work/err" <"${input:-/dev/null}"
    code=$?
}

# ends CODE TEXT: the last run ended with the code, and wrote exactly the text
ends() {
    [ "$code" = "$1" ] && [ "$(cat "$work/out")" = "$2" ]
}

# tells TEXT: the last run told it on standard error
tells() {
    grep -q -- "$1" "$work/err"
}

# names_log: the last run named the log of the build on standard error, and the log is there
names_log() {
    tells "the whole log is $work/cache/pqa/build.log" && [ -f "$work/cache/pqa/build.log" ]
}

proved() {
    grep -c '^proved ' "$EVENTS"
}

# done_case: the case is as it should be where the command before succeeded
done_case() {
    if [ $? = 0 ] && ! grep '^no library' "$EVENTS"; then
        echo "ok      $case"
    else
        echo "FAILED  $case: exit code $code"
        sed 's/^/        /' "$work/err"
        failed=1
    fi
}

begin "the launcher answers help itself, with no rt and no build"
(
    PATH=$(dirname "$(command -v sh)")
    for word in "" help --help; do
        # shellcheck disable=SC2086 # no word at all where it is empty
        run $word
        [ "$code" = 0 ] && grep -q 'intervals --udin MV CFG DAT' "$work/out" && grep -q 'check CFG' "$work/out" || exit 1
        [ ! -s "$work/err" ] || exit 1
    done
    [ ! -s "$EVENTS" ] && [ ! -e "$work/cache" ]
)
done_case

case="the launcher answers --version itself"
run --version
grep -q '^pqa [0-9]' "$work/out" && grep -q '^commit ' "$work/out" && grep -q "^kit $kit" "$work/out" && [ ! -s "$EVENTS" ]
done_case

case="the README and the launcher name one kit"
grep -q "Proved with \`$kit\`" "$top/README.md"
done_case

begin "a first call builds, tells each crate, and runs the program"
run check x.cfg
ends 0 "<check><x.cfg>" && crates=$(proved) && [ "$(grep -c "proving .*, [0-9]* of $crates done, 0:0[0-9] gone by" "$work/err")" = "$crates" ] && tells "built, $crates of $crates done" && ! grep -q 'this is rt' "$work/err"
done_case

case="crates are proved side by side, and each after those below it"
awk -F'[: ]+' -v events="$EVENTS" '
    /^[^#]/ { for (it = 2; it <= NF; it++) below[$1] = below[$1] " " $it; known[$1] }
    END {
        while ((getline line <events) > 0) {
            split(line, word, " ")
            if (word[1] == "begin") {
                most = ++running > most ? running : most
                count = split(below[word[2]], low, " ")
                for (it = 1; it <= count; it++) if (low[it] in known && !(low[it] in ended)) early = 1
            }
            if (word[1] == "end") { running--; ended[word[2]] }
        }
        exit early || most < 2 && '"$(nproc)"' > 1
    }' "$home/crates.txt"
done_case

case="only what the program stands on is proved"
! grep -q worked_rows "$EVENTS"
done_case

case="the log holds what rt said of each crate"
[ "$(grep -c '^this is rt' "$work/cache/pqa/build.log")" = "$crates" ]
done_case

case="a second call builds nothing and says nothing"
: >"$EVENTS"
run check x.cfg
ends 0 "<check><x.cfg>" && [ ! -s "$work/err" ] && [ ! -s "$EVENTS" ]
done_case

case="words, input and exit code go through untouched"
printf 'in\000put' >"$work/input"
input=$work/input
newline='
'
for code_wanted in 0 1 14 130 255; do
    export CODE=$code_wanted
    run --help "" "a  b" "c${newline}d" "$(printf '\377')" '*' -- "\$HOME"
    [ "$code" = "$code_wanted" ] || break
done
printf '<--help><><a  b><c\nd><\377><*><--><%s>in\000put' "\$HOME" >"$work/wanted"
[ "$code" = 255 ] && cmp -s "$work/out" "$work/wanted" && [ ! -s "$work/err" ]
done_case

begin "words, input and exit code go through untouched where the call builds"
run --help "" "a  b" "c${newline}d" "$(printf '\377')" '*' -- "\$HOME"
[ "$code" = 255 ] && cmp -s "$work/out" "$work/wanted"
done_case
unset CODE input

case="a source that the program stands on is changed: it is built anew"
: >"$EVENTS"
sleep 0.01
echo >>"$home/crates/zero_cross/src/lib.rt"
run check x.cfg
ends 0 "<check><x.cfg>" && grep -q '^proved zero_cross' "$EVENTS" && ! grep -q '^proved pq_words' "$EVENTS"
done_case

case="a source that the program doesn't stand on is changed: nothing is built"
: >"$EVENTS"
sleep 0.01
echo >>"$home/crates/worked_rows/src/lib.rt"
run check x.cfg
ends 0 "<check><x.cfg>" && [ ! -s "$EVENTS" ]
done_case

case="a source is changed while the build runs: the next call builds anew"
echo >>"$home/crates/half_cycle/src/lib.rt"
echo pq_run >"$LONG"
run check x.cfg &
sleep 1.5
echo >>"$home/crates/half_cycle/src/lib.rt"
wait
: >"$EVENTS"
run check x.cfg
ends 0 "<check><x.cfg>" && grep -q '^proved half_cycle' "$EVENTS"
done_case

case="the launcher is called by a link, from another folder"
ln -s "$home/pqa" "$work/bin/linked"
(cd / && linked check x.cfg >"$work/out" 2>"$work/err")
code=$?
ends 0 "<check><x.cfg>"
done_case

begin "a second checkout proves nothing anew"
run check x.cfg
first=$(proved)
checkout "$work/second"
: >"$EVENTS"
"$work/second/pqa" check y.cfg >"$work/out" 2>"$work/err"
code=$?
ends 0 "<check><y.cfg>" && [ "$first" -gt 1 ] && [ "$(proved)" = 0 ]
done_case

# interrupted SIGNAL CODE: a build that the signal ends is taken up again
interrupted() {
    begin "a build that SIG$1 ended is taken up again"
    echo cfg_fields >"$LONG"
    python3 - "$1" "$home/pqa" "$work" <<'PYTHON'
import os, signal, subprocess, sys, time
name, pqa, work = sys.argv[1:]
with open(f"{work}/err", "w") as err:
    ran = subprocess.Popen([pqa, "check", "x.cfg"], stdout=subprocess.DEVNULL, stderr=err, start_new_session=True)
    while "begin cfg_fields" not in open(f"{work}/events").read():
        time.sleep(0.05)
    # the terminal's Ctrl-C goes to all processes, another signal to the launcher
    (os.killpg if name == "INT" else os.kill)(ran.pid, getattr(signal, f"SIG{name}"))
    status = ran.wait()
    if name != "KILL":
        time.sleep(1)
sys.exit(0 if status == -getattr(signal, f"SIG{name}") else 1)
PYTHON
    ended=$?
    before=$(proved)
    run check x.cfg
    ends 0 "<check><x.cfg>" && [ "$ended" = 0 ] && [ "$before" -gt 1 ] && [ "$(proved)" = "$crates" ]
    done_case
}
interrupted INT
interrupted TERM
interrupted KILL

begin "a build that is killed itself is taken up again, once rt has ended"
echo pq_words >"$LONG"
"$home/pqa" check 1.cfg >/dev/null 2>"$work/err1" &
launcher=$!
until grep -q 'begin pq_words' "$EVENTS"; do sleep 0.1; done
kill -9 "$(sed 's/^process \([0-9]*\),.*/\1/' "$work/cache/pqa/lock")"
wait $launcher
ended=$?
run check x.cfg
ends 0 "<check><x.cfg>" && tells "another build is at work" && [ $ended = 125 ] && grep -q "build_program ended with exit code 137" "$work/err1" && [ "$(proved)" = "$crates" ]
done_case

begin "of two launchers at once the second waits, and both run"
echo pq_words >"$LONG"
"$home/pqa" check 1.cfg >"$work/out1" 2>"$work/err1" &
sleep 1
run check 2.cfg
wait
ends 0 "<check><2.cfg>" && [ "$(cat "$work/out1")" = "<check><1.cfg>" ] && tells "another build is at work (process [0-9]*, for $home); waiting" && [ "$(proved)" = "$crates" ]
done_case

begin "launchers of two checkouts at once"
echo pq_words >"$LONG"
checkout "$work/second"
"$work/second/pqa" check 1.cfg >"$work/out1" 2>"$work/err1" &
sleep 1
run check 2.cfg
wait
ends 0 "<check><2.cfg>" && [ "$(cat "$work/out1")" = "<check><1.cfg>" ] && tells "for $work/second); waiting" && [ "$(proved)" = "$crates" ]
done_case

begin "a crate that rt refuses"
echo cfg_fields >"$REFUSED"
run check x.cfg
ends 125 "" && tells "can't be built: .rt lib. ended with exit code 1 in the crate cfg_fields" && names_log && grep -q at_fault "$work/cache/pqa/build.log"
done_case

case="a refused crate that is mended"
rm "$REFUSED"
run check x.cfg
ends 0 "<check><x.cfg>" && [ "$(proved)" = "$crates" ]
done_case

# path_without COMMAND: a folder of links to all that the launcher needs but the command
path_without() {
    rm -rf "$work/tools"
    mkdir "$work/tools"
    for tool in sh awk basename cat chmod cksum dirname find git grep mkdir readlink sleep rt; do
        [ "$tool" = "$1" ] || ln -s "$(command -v "$tool")" "$work/tools/$tool"
    done
    [ python3 = "$1" ] || ln -s "$(python3 -c 'import sys; print(sys.executable)')" "$work/tools/python3"
    echo "$work/tools"
}

begin "no rt on the path"
(PATH=$(path_without rt) && run check x.cfg && ends 125 "" && tells "the command .rt. of the Rattle kit, which isn't on the path" && names_log)
done_case

case="no rt on the path, and --version"
(PATH=$(path_without rt) && run --version && grep -q '^kit on the path: none' "$work/out")
done_case

case="another command is named rt"
mkdir "$work/other"
printf '#!/bin/sh\necho tickets\n' >"$work/other/rt"
chmod +x "$work/other/rt"
(PATH="$work/other:$PATH" && run check x.cfg && ends 125 "" && tells "of the Rattle kit, and $work/other/rt is another one")
done_case

case="no python3 on the path"
(PATH=$(path_without python3) && run check x.cfg && ends 125 "" && tells "takes python3, which isn't on the path")
done_case

begin "a file where the program's folder is to be"
: >"$home/crates/pqa/out"
run check x.cfg
ends 125 "" && tells "the folder $home/crates/pqa/out can't be written" && names_log && [ ! -s "$EVENTS" ]
done_case

begin "a file where the builds are to be"
: >"$work/cache"
run check x.cfg
ends 125 "" && tells "the folder $work/cache/pqa can't be written" && [ ! -s "$EVENTS" ]
done_case

begin "no folder for the builds"
(unset XDG_CACHE_HOME HOME && run check x.cfg && ends 125 "" && tells "neither XDG_CACHE_HOME nor HOME names one")
done_case

begin "a crate whose folder is missing"
rm -r "$home/crates/pq_time"
run check x.cfg
ends 125 "" && tells "crates/pq_time: No such file or directory"
done_case

begin "a checkout that may not be written"
chmod -R a-w "$home"
if [ "$(id -u)" != 0 ]; then
    run check x.cfg
elif command -v setpriv >/dev/null; then
    chmod 755 "$work" "$work/bin"
    mkdir -m 777 "$work/cache"
    chmod 666 "$EVENTS"
    setpriv --reuid 65534 --regid 65534 --clear-groups "$home/pqa" check x.cfg >"$work/out" 2>"$work/err"
    code=$?
fi
if [ "$(id -u)" != 0 ] || command -v setpriv >/dev/null; then
    ends 125 "" && tells "the folder $home/crates/pqa/out can't be written (Permission denied)" && [ ! -s "$EVENTS" ]
    done_case
else
    echo "left    $case (root writes everywhere)"
fi
chmod -R u+w "$home"

begin "on a terminal one line is renewed"
python3 - "$home/pqa" "$work" <<'PYTHON'
import os, pty, sys
pqa, work = sys.argv[1:]
with open(f"{work}/out", "wb") as out:
    child, terminal = pty.fork()
    if not child:
        os.dup2(os.open(os.devnull, os.O_RDONLY), 0)
        os.dup2(out.fileno(), 1)
        os.execv(pqa, [pqa, "check", "x.cfg"])
    said = b""
    try:
        while more := os.read(terminal, 4096):
            said += more
    except OSError:
        pass
    code = os.waitstatus_to_exitcode(os.waitpid(child, 0)[1])
with open(f"{work}/err", "wb") as err:
    err.write(said)
lines = said.replace(b"\r\n", b"\n").split(b"\n")
renewed = [it for it in lines if it.count(b"\rpqa: ") > 3 and b"proving pq_words" in it]
sys.exit(0 if code == 0 and len(lines) == 4 and len(renewed) == 1 else 1)
PYTHON
code=$?
ends 0 "<check><x.cfg>"
done_case

exit $failed
