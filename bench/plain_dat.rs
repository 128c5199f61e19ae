// The steps of `read_dat` in plain Rust, without contracts: the measure of the proved reading's speed, on cfgs of
// revision 1999 whose channels are all in V. Built by bench/dat_speed.sh; no part of the product.
use std::env;
use std::fs;

const MISSING: i16 = -32_768;
const RECORDS_AT_ONCE: usize = 1024;

struct Channel {
    place: usize,
    a: i64,
    b: i128,
    samples: Vec<i64>,
}

#[derive(Debug)]
#[allow(dead_code)]
enum Fault {
    Short(usize),
    Number(usize, u32),
    Missing(usize, usize),
    Long(usize),
}

// A decimal without exponent, in picovolts.
fn picovolts(text: &str) -> i128 {
    let (sign, text) = text.strip_prefix('-').map_or((1, text), |rest| (-1, rest));
    let (whole, fraction) = text.split_once('.').unwrap_or((text, ""));
    let digits: i128 = format!("{whole}{fraction}").parse().unwrap();
    sign * digits * 10i128.pow(12 - fraction.len() as u32)
}

fn number(record: &[u8]) -> u32 {
    u32::from_le_bytes([record[0], record[1], record[2], record[3]])
}

fn count(record: &[u8], place: usize) -> i16 {
    i16::from_le_bytes([record[place], record[place + 1]])
}

fn microvolts(a: i64, b: i128, count: i16) -> i64 {
    let picovolts = i128::from(a) * i128::from(count) + b;
    let size = ((picovolts.unsigned_abs() as u64 + 500_000) / 1_000_000) as i64;
    if picovolts < 0 { -size } else { size }
}

fn read(channels: &mut [Channel], size: usize, n: usize, dat: &[u8]) -> Result<(), Fault> {
    let there = n.min(dat.len() / size);
    for channel in channels.iter_mut() {
        channel.samples.reserve_exact(there);
    }
    let mut before = None;
    let mut at = 0;
    for block in dat[..there * size].chunks(size * RECORDS_AT_ONCE) {
        for record in block.chunks_exact(size) {
            at += 1;
            let found = number(record);
            if before.is_some_and(|before: u32| found != before.wrapping_add(1)) {
                return Err(Fault::Number(at, found));
            }
            before = Some(found);
            for (position, channel) in channels.iter().enumerate() {
                if count(record, channel.place) == MISSING {
                    return Err(Fault::Missing(at, position + 1));
                }
            }
        }
        for channel in channels.iter_mut() {
            let (a, b, place) = (channel.a, channel.b, channel.place);
            let samples = block.chunks_exact(size).map(|record| microvolts(a, b, count(record, place)));
            channel.samples.extend(samples);
        }
    }
    if there < n {
        return Err(Fault::Short(there + 1));
    }
    if dat.len() > size * n {
        return Err(Fault::Long(dat.len() - size * n));
    }
    Ok(())
}

fn main() {
    let words: Vec<String> = env::args().collect();
    let cfg = fs::read_to_string(&words[1]).unwrap();
    let dat = fs::read(&words[2]).unwrap();
    let lines: Vec<&str> = cfg.lines().collect();
    let count: usize = lines[1].split_once(',').unwrap().0.parse().unwrap();
    let mut channels: Vec<Channel> = (0..count)
        .map(|position| {
            let fields: Vec<&str> = lines[2 + position].split(',').collect();
            let (a, b) = (picovolts(fields[5]) as i64, picovolts(fields[6]));
            Channel { place: 8 + 2 * position, a, b, samples: Vec::new() }
        })
        .collect();
    let n: usize = lines[4 + count].split_once(',').unwrap().1.parse().unwrap();
    read(&mut channels, 8 + 2 * count, n, &dat).unwrap();
    let samples = channels.iter().flat_map(|channel| &channel.samples);
    println!("{}", samples.fold(0i64, |sum, x| sum.wrapping_add(*x)));
}
