#!/bin/sh
# Times `intervals` on two recordings of ten million samples, on three channels of 13.4 million and on sixteen of
# two million, and `check` on a cfg of a megabyte and 1,998 channels, against plain Rust that does the same steps,
# and compares their output; then `analyse` on all processors and on one. Outside the gate: wants rustc, python3,
# taskset and a gigabyte for files.
set -e
# Large pages, as the launcher asks for them; the plain programs have them too.
export GLIBC_TUNABLES="${GLIBC_TUNABLES:-glibc.malloc.hugetlb=1}"
home=$(cd "$(dirname "$0")/.." && pwd)
work=$(mktemp -d)
trap 'rm -rf "$work"' EXIT
python3 "$home/bench/largest_recording.py" "$work"
python3 "$home/bench/several_channels.py" "$work"
python3 "$home/bench/largest_cfg.py" "$work"
for program in plain plain_check; do
    rustc -O -C opt-level=3 -C target-cpu=x86-64-v2 -o "$work/$program" "$home/bench/$program.rs"
done
cd "$work"

compare() {
    plain=$1
    shift
    "$home/pqa" "$@" >proved.out
    "./$plain" "$@" >plain.out
    cmp proved.out plain.out
    python3 - "$home/crates/pqa/out/pqa" "./$plain" "$@" <<'PYTHON'
import subprocess, sys, time

program, plain, *words = sys.argv[1:]

def best(program):
    times = []
    for _ in range(10):
        start = time.perf_counter()
        subprocess.run([program, *words], stdout=subprocess.DEVNULL, check=True)
        times.append(time.perf_counter() - start)
    return min(times)

proved, unproved = best(program), best(plain)
print(f"{' '.join(words)}: proved {proved * 1000:.1f} ms, plain Rust {unproved * 1000:.1f} ms, ratio {proved / unproved:.2f}")
PYTHON
}

# lanes NAME: `analyse` on a recording whose report by `intervals` was compared
lanes() {
    "$home/crates/pqa/out/pqa" intervals --udin 230000 "$1.cfg" "$1.dat" >proved.out
    "$home/crates/pqa/out/pqa" analyse --udin 230000 "$1.cfg" "$1.dat" >lanes.out
    cmp proved.out lanes.out
    python3 - "$home/crates/pqa/out/pqa" "$1" <<'PYTHON'
import os, subprocess, sys, time

program, name = sys.argv[1:]
words = [program, "analyse", "--udin", "230000", f"{name}.cfg", f"{name}.dat"]

def best(words):
    times = []
    for _ in range(10):
        start = time.perf_counter()
        subprocess.run(words, stdout=subprocess.DEVNULL, check=True)
        times.append(time.perf_counter() - start)
    return min(times)

several, one = best(words), best(["taskset", "-c", "0", *words])
print(f"analyse {name}: {several * 1000:.0f} ms on {os.cpu_count()} processors, {one * 1000:.0f} ms on one,"
      f" ratio {several / one:.2f}")
PYTHON
}

compare plain intervals --udin 230000 largest.cfg largest.dat
compare plain intervals --udin 230000 dips.cfg dips.dat
compare plain intervals --udin 230000 three.cfg three.dat
compare plain intervals --udin 230000 sixteen.cfg sixteen.dat
python3 - "$home/crates/pqa/out/pqa" <<'PYTHON'
import os, subprocess, sys

for name, channels in [("largest", 1), ("three", 3), ("sixteen", 16)]:
    words = ["intervals", "--udin", "230000", f"{name}.cfg", f"{name}.dat"]
    child = subprocess.Popen([sys.argv[1], *words], stdout=subprocess.DEVNULL)
    peak = os.wait4(child.pid, 0)[2].ru_maxrss * 1024
    dat = os.path.getsize(f"{name}.dat")
    samples = dat // (8 + 2 * channels) * channels
    print(f"{name}: {peak / 1e6:.0f} MB at the peak; the dat and 8 bytes a sample are {(dat + 8 * samples) / 1e6:.0f} MB")
PYTHON
for name in largest three sixteen; do
    lanes "$name"
done
compare plain_check check many.cfg
