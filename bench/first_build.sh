#!/bin/sh
# Times the first build of this commit from nothing, by a plain `rt run` in crates/pqa and by the launcher. Outside the gate:
# wants a quiet machine, half an hour and 5 GB in TMPDIR. Words choose the ways: plain, launcher; both where there is none.
#
# What rt keeps of other checkouts lies beside the kit, and rt finds its kit by the folder of its own script. So each way gets a
# kit of its own here, made of links but for the scripts, beside which nothing is kept.
set -e
home=$(cd "$(dirname "$0")/.." && pwd)
kit=$(dirname "$(dirname "$(readlink -f "$(command -v rt)")")")
work=$(mktemp -d)
trap 'rm -rf "$work"' EXIT

new_kit() {
    mkdir -p "$1/bin"
    for file in "$kit"/*; do
        [ "$file" = "$kit/bin" ] || ln -s "$file" "$1"
    done
    for file in "$kit"/bin/*; do
        case $file in
        */rt | *.py) cp "$file" "$1/bin" ;;
        *) ln -s "$file" "$1/bin" ;;
        esac
    done
}

# timed NAME FOLDER COMMAND..: runs the command in a folder of a new checkout, and prints how long it took
timed() {
    name=$1
    git clone -q --no-hardlinks "$home" "$work/$name/checkout"
    new_kit "$work/$name/kit"
    echo "$name: load before $(cut -d ' ' -f 1-3 /proc/loadavg)"
    (
        cd "$work/$name/checkout/$2"
        shift 2
        PATH="$work/$name/kit/bin:$PATH" XDG_CACHE_HOME="$work/$name/cache" python3 - "$name" "$work/$name/log" "$@" <<'PYTHON'
import os, resource, subprocess, sys, time

def minutes(seconds):
    return f"{int(seconds) // 60} min {int(seconds) % 60} s"

name, log, *words = sys.argv[1:]
begun = time.monotonic()
with open(log, "wb") as out:
    status = subprocess.run(words, stdin=subprocess.DEVNULL, stdout=out, stderr=out).returncode
passed, used = time.monotonic() - begun, resource.getrusage(resource.RUSAGE_CHILDREN)
if status:
    sys.stdout.write(open(log, errors="replace").read()[-2000:])
    sys.exit(f"{name}: ended with exit code {status}")
print(f"{name}: {minutes(passed)}, processors {minutes(used.ru_utime + used.ru_stime)}, of {os.cpu_count()} processors")
with open(f"{os.path.dirname(log)}/seconds", "w") as it:
    it.write(str(max(1, round(passed))))
PYTHON
    )
    [ ! -e "$work/$name/cache/pqa/build.log" ] || grep '^== ' "$work/$name/cache/pqa/build.log"
    rm -rf "$work/$name/checkout" "$work/$name/cache" "$work/$name/kit" "$work/$name/rattle-kept"
}

[ $# -gt 0 ] || set -- plain launcher
for way in "$@"; do
    case $way in
    plain) timed plain crates/pqa rt run -- intervals --udin 230000 data/two_intervals.cfg data/two_intervals.dat ;;
    launcher) timed launcher . ./pqa intervals --udin 230000 examples/two_intervals.cfg examples/two_intervals.dat ;;
    *) echo "no such way: $way" >&2 && exit 2 ;;
    esac
done
if [ -e "$work/plain/seconds" ] && [ -e "$work/launcher/seconds" ]; then
    echo "the launcher takes $((100 * $(cat "$work/launcher/seconds") / $(cat "$work/plain/seconds"))) % of the time of a plain rt run"
fi
