#!/bin/sh
# Times how the ledger of three channels posts and advances over 2.5 million windows, in steps of 64 items of each lane; the
# lanes are measured before. Outside the gate: wants 2 GB, and a copy of the repository in TMPDIR, which `rt run` builds.
set -e
home=$(cd "$(dirname "$0")/.." && pwd)
work=$(mktemp -d)
trap 'rm -rf "$work"' EXIT
mkdir -p "$work/crates/ledger_bench/src"
cp -r "$home"/crates/* "$work/crates"
cp "$home/HANDLES" "$work"
line=$(grep '^worked_ledger:' "$home/crates.txt")
{
    cat "$home/crates.txt"
    echo "ledger_bench: ${line#worked_ledger: } worked_ledger"
} >"$work/crates.txt"
cat >"$work/crates/ledger_bench/src/main.rt" <<'RATTLE'
//! Times posting and advancing.
#![tactic(auto)]
ghost use Rattle.std.specs.Option.{ForSome};
ghost use Rattle.event_detect.specs.Threshold.{IsInOrder};
ghost use Rattle.worked_ledger.specs.Measured.{IsOf};

use comtrade_cfg::{read_cfg, select};
use comtrade_dat::read_dat;
use event_detect::{Limits, Settings};
use interval_ledger::Ledger;
use pq_base::Recording;
use std::alloc::Global;
use std::time::Instant;
use worked_ledger::{Measured, Order, post_all};
use worked_signals::{Signal, WORKED, Written, cfg, dat};

const CHANNELS: &str = "3,3A,0D
1,UA,A,,V,0.0325,0,0,-32767,32767,1,1,P
2,UB,B,,V,0.0325,0,0,-32767,32767,1,1,P
3,UC,C,,V,0.0325,0,0,-32767,32767,1,1,P
";

// A window begins each 8 samples.
const SAMPLES: u32 = 6_666_720;

const SQUARE: Signal = Signal::Square { period: 16, rises: 0, low: 7000, from: 0, until: 0 };

// As many rounds as one detector has steps of 64 windows.
const ORDER: Order = Order { rounds: 13_021, most: 64, downwards: false };

fn main(rt: HostRuntime) -> Result<(), std::io::Error> {
    let alloc = rt.alloc();
    let Some(recording) = recording(alloc) else {
        return Ok(());
    };
    let Some(limits) = usual() else {
        return Ok(());
    };
    let Ok(measured) = Measured::of(alloc, &recording) else {
        return Ok(());
    };
    let Ok(mut ledger) = Ledger::open(alloc, &recording, &limits) else {
        return Ok(());
    };
    let nanoseconds = time(&rt, &mut ledger, &measured)?;
    let items = count(&ledger, &measured);
    let each = nanoseconds / u128::from(items.max(1));
    println!(rt; "{items} lane items, {} released, {each} ns a lane item", ledger.released())
}

// How many nanoseconds posting takes.
fn time(
    rt: &HostRuntime,
    ledger: &mut Ledger,
    measured: &Measured<'_>,
) -> Result<u128, std::io::Error>
    requires { IsOf ledger.old measured.now }
    ensures { IsOf ledger.new measured.now }
{
    let start = Instant::now(rt)?;
    if post_all(ledger, measured, ORDER).is_err() {
        return Ok(0);
    }
    Ok(start.elapsed(rt)?.as_nanos())
}

fn recording(alloc: Global) -> Option<Recording> {
    let written = Written { channels: CHANNELS, rate: "800", samples: SAMPLES, ..WORKED };
    let said = cfg(alloc, written).ok()?;
    let counts = dat(alloc, &[SQUARE, SQUARE, SQUARE], SAMPLES).ok()?;
    let cfg = read_cfg(alloc, &said).ok()?;
    let selection = select(alloc, &cfg, None, None).ok()?;
    read_dat(alloc, &cfg, &selection, &counts).ok()
}

fn usual() -> Option<Limits>
    ensures { ForSome result IsInOrder }
{
    let settings = Settings { udin_mv: 230_000, dip: 900, swell: 1100, interruption: 50, hysteresis: 20 };
    Limits::of(&settings).ok()
}

// How many items are posted.
fn count(ledger: &Ledger, measured: &Measured<'_>) -> u64
    requires { IsOf ledger.now measured.now }
{
    let mut count = 0u64;
    for lane in 0..measured.lanes() {
        count = count.saturating_add(ledger.count(lane));
    }
    count
}
RATTLE
cd "$work/crates/ledger_bench"
rt run
