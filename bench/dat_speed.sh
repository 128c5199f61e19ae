#!/bin/sh
# Times `read_dat` on a dat of 188 MB, three channels and 13.4 million records, against plain Rust that does the same
# steps, and compares what they read; then its memory, and that of a cfg that says as many samples over an empty dat.
# `read_dat` is given the bytes of the whole dat at once; `pqa` feeds a dat in pieces, which is not timed here.
# The program that calls it is built in a copy of this repository. Outside the gate: wants rustc and python3.
set -e
home=$(cd "$(dirname "$0")/.." && pwd)
work=$(mktemp -d)
trap 'rm -rf "$work"' EXIT
git clone -q "$home" "$work/house"
mkdir -p "$work/house/crates/reading_time/src"
cat >"$work/house/crates/reading_time/src/main.rt" <<'PROGRAM'
//! Reads a dat, and tells the sum of its samples.
#![tactic(auto)]

use comtrade_cfg::{read_cfg, select};
use comtrade_dat::read_dat;
use pq_base::{FileShelf, Recording, read_all};
use std::alloc::Global;
use std::env;
use std::rt::{Env, Files};

fn main(rt: HostRuntime) {
    let alloc = rt.alloc();
    match read(&rt, alloc) {
        Some(sum) => {
            let _ = rt.println(&sum);
        }
        None => {
            let _ = rt.println("refused");
        }
    }
}

fn read<R: Files + Env + AllocGlobal>(rt: &R, alloc: Global) -> Option<i64> {
    let mut words = env::args(rt).ok()?.skip(1);
    let cfg = words.next()?;
    let dat = words.next()?;
    let mut shelf = FileShelf::new(rt);
    let cfg = read_all(alloc, &mut shelf, &cfg, 1_000_000).ok()?;
    let dat = read_all(alloc, &mut shelf, &dat, 600_000_000).ok()?;
    sum_of_dat(alloc, &cfg, &dat)
}

fn sum_of_dat(alloc: Global, cfg: &[u8], dat: &[u8]) -> Option<i64> {
    let Ok(cfg) = read_cfg(alloc, cfg) else {
        return None;
    };
    let Ok(selection) = select(alloc, &cfg, None, None) else {
        return None;
    };
    match read_dat(alloc, &cfg, &selection, dat) {
        Ok(recording) => Some(sum_of(&recording)),
        Err(_) => None,
    }
}

fn sum_of(recording: &Recording) -> i64 {
    let mut sum = 0i64;
    for position in 0..recording.channels() {
        for x in recording.samples(position) {
            sum = sum.wrapping_add(*x);
        }
    }
    sum
}
PROGRAM
echo 'reading_time: pq_words pq_base comtrade_cfg comtrade_dat' >>"$work/house/crates.txt"
python3 "$home/bench/three_channels.py" "$work"
rustc -O -C opt-level=3 -C target-cpu=x86-64-v2 -o "$work/plain_dat" "$home/bench/plain_dat.rs"
(cd "$work/house/crates/reading_time" && rt run -- "$work/three.cfg" "$work/three.dat") >"$work/built" 2>&1 || cat "$work/built"
cd "$work"
proved=$work/house/crates/reading_time/out/reading_time
"$proved" three.cfg three.dat >proved.out
./plain_dat three.cfg three.dat >plain.out
cmp proved.out plain.out
python3 - "$proved" ./plain_dat <<'PYTHON'
import os, subprocess, sys, time

def run(program, name):
    start = time.perf_counter()
    child = subprocess.Popen([program, f"{name}.cfg", f"{name}.dat"], stdout=subprocess.DEVNULL)
    _, _, used = os.wait4(child.pid, 0)
    return time.perf_counter() - start, used.ru_utime, used.ru_maxrss * 1024

best = {program: [9e9, 9e9, 0] for program in sys.argv[1:]}
for _ in range(20):
    for program, least in best.items():
        wall, user, peak = run(program, "three")
        best[program] = [min(least[0], wall), min(least[1], user), max(least[2], peak)]
(wall, user, peak), (plain_wall, plain_user, _) = (best[program] for program in sys.argv[1:])
print(f"whole run: proved {wall * 1000:.0f} ms, plain Rust {plain_wall * 1000:.0f} ms, ratio {wall / plain_wall:.2f}")
print(f"without the system: proved {user * 1000:.0f} ms, plain Rust {plain_user * 1000:.0f} ms, ratio {user / plain_user:.2f}")
dat = os.path.getsize("three.dat")
print(f"{peak / 1e6:.0f} MB at the peak; the dat and 8 bytes a sample are {(dat + dat // 14 * 3 * 8) / 1e6:.0f} MB")
print(f"as many samples over an empty dat: {run(sys.argv[1], 'none')[2] / 1e6:.0f} MB at the peak")
PYTHON
