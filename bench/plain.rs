// The steps of `intervals` in plain Rust, without contracts: the measure of the proved program's speed, on cfgs of
// analogue channels in V at 50 Hz. Built by bench/speed.sh; no part of the product.
use std::io::Write;

struct Rule {
    h: usize,
    lo: usize,
    hi: usize,
}

impl Rule {
    fn of(rate: u64) -> Rule {
        let h = ((rate + 50_000_000) / 100_000_000) as usize;
        Rule { h, lo: h - h / 5, hi: h + h / 4 }
    }
}

// End, rank, start and channel of an item, and its row.
type Item = (usize, u8, usize, usize, String);

fn crossing(s: &[i64], rising: bool, low: usize, high: usize) -> Option<usize> {
    (low..high).find(|&i| {
        if rising {
            s[i - 1] < 0 && s[i] >= 0
        } else {
            s[i - 1] > 0 && s[i] <= 0
        }
    })
}

fn first(s: &[i64], rule: &Rule) -> Option<usize> {
    if s.is_empty() {
        return None;
    }
    Some(crossing(s, true, 1, (2 * rule.hi + 1).min(s.len())).unwrap_or(0))
}

fn next(s: &[i64], rule: &Rule, b: usize, rising: bool) -> Option<usize> {
    let end = (b + rule.hi + 1).min(s.len());
    crossing(s, rising, b + rule.lo, end).or(if b + rule.hi < s.len() { Some(b + rule.h) } else { None })
}

fn isqrt(x: u128) -> u64 {
    let mut root = (x as f64).sqrt() as u64;
    while u128::from(root) * u128::from(root) > x {
        root -= 1;
    }
    while u128::from(root + 1) * u128::from(root + 1) <= x {
        root += 1;
    }
    root
}

fn rms(s: &[i64]) -> u64 {
    let mut sum = 0u128;
    for x in s {
        let size = u128::from(x.unsigned_abs());
        sum += size * size;
    }
    isqrt(sum / s.len() as u128)
}

fn boundaries(s: &[i64], rule: &Rule) -> Vec<usize> {
    let mut places = Vec::with_capacity(s.len() / rule.lo + 1);
    let mut place = first(s, rule);
    let mut rising = true;
    while let Some(b) = place {
        places.push(b);
        rising = !rising;
        place = next(s, rule, b, rising);
    }
    places
}

fn cycle_boundaries(s: &[i64], rule: &Rule) -> Vec<usize> {
    boundaries(s, rule).into_iter().step_by(2).collect()
}

// Start, channel, end and value of a window.
type Window = (usize, usize, usize, u64);

// Start, end, channel, worst value and whether it is open, of an event.
type Event = (usize, usize, usize, u64, bool);

// The windows of all channels, by start and then by channel.
fn windows(channels: &[Vec<i64>], rule: &Rule) -> Vec<Window> {
    let mut all = Vec::with_capacity(channels.iter().map(|s| s.len() / rule.lo + 1).sum());
    for (channel, s) in channels.iter().enumerate() {
        let places = boundaries(s, rule);
        all.extend(places.windows(3).map(|w| (w[0], channel, w[2], rms(&s[w[0]..w[2]]))));
    }
    all.sort_unstable();
    all
}

// How many channels have a latest value, and of how many it is past a threshold, or back.
#[derive(Clone, Copy, Default)]
struct Counts {
    there: usize,
    past: [usize; 3],
    back: [usize; 3],
}

impl Counts {
    fn add(&mut self, udin: u64, v: u64, one: usize) {
        let past = [v < udin * 900, v > udin * 1100, v < udin * 50];
        let back = [v >= udin * 920, v <= udin * 1080, v >= udin * 70];
        self.there = self.there.wrapping_add(one);
        for kind in 0..3 {
            self.past[kind] = self.past[kind].wrapping_add(if past[kind] { one } else { 0 });
            self.back[kind] = self.back[kind].wrapping_add(if back[kind] { one } else { 0 });
        }
    }
}

// The events of all kinds over the windows of all channels.
fn events(windows: &[Window], channels: usize, udin: u64, n: usize) -> [Vec<Event>; 3] {
    let mut found = [Vec::new(), Vec::new(), Vec::new()];
    let mut latest: Vec<Option<u64>> = vec![None; channels];
    let mut counts = Counts::default();
    // start, channel and worst value of the event of a kind that runs
    let mut running: [Option<(usize, usize, u64)>; 3] = [None; 3];
    for &(start, channel, end, value) in windows {
        if let Some(before) = latest[channel].replace(value) {
            counts.add(udin, before, usize::MAX);
        }
        counts.add(udin, value, 1);
        for kind in 0..3 {
            let begins = if kind == 2 { counts.past[2] == channels } else { counts.past[kind] > 0 };
            let ends = if kind == 2 { counts.back[2] > 0 } else { counts.back[kind] == counts.there };
            running[kind] = match running[kind] {
                None if begins => Some((start, channel, value)),
                None => None,
                Some((from, of, worst)) => {
                    let is_worse = if kind == 1 { value > worst } else { value < worst };
                    let (of, worst) = if is_worse { (channel, value) } else { (of, worst) };
                    if ends {
                        found[kind].push((from, end, of, worst, false));
                        None
                    } else {
                        Some((from, of, worst))
                    }
                }
            };
        }
    }
    for kind in 0..3 {
        if let Some((from, of, worst)) = running[kind] {
            found[kind].push((from, n, of, worst, true));
        }
    }
    found
}

// A decimal without exponent, times ten to the power, rounded half up.
fn scaled(text: &str, power: usize) -> i128 {
    let (whole, fraction) = text.split_once('.').unwrap_or((text, ""));
    let digits: i128 = format!("{whole}{fraction}").parse().unwrap();
    digits * 10i128.pow((power - fraction.len()) as u32)
}

// The days of a civil date since 1970, and the date of such days.
fn days(year: i64, month: i64, day: i64) -> i64 {
    let year = if month <= 2 { year - 1 } else { year };
    let era = year.div_euclid(400);
    let of_era = year - era * 400;
    let of_year = (153 * ((month + 9) % 12) + 2) / 5 + day - 1;
    era * 146_097 + of_era * 365 + of_era / 4 - of_era / 100 + of_year - 719_468
}

fn date(days: i64) -> (i64, i64, i64) {
    let z = days + 719_468;
    let era = z.div_euclid(146_097);
    let of_era = z - era * 146_097;
    let year = (of_era - of_era / 1460 + of_era / 36_524 - of_era / 146_096) / 365;
    let of_year = of_era - (365 * year + year / 4 - year / 100);
    let shifted = (5 * of_year + 2) / 153;
    let month = if shifted < 10 { shifted + 3 } else { shifted - 9 };
    (year + era * 400 + i64::from(month <= 2), month, of_year - (153 * shifted + 2) / 5 + 1)
}

// `dd/mm/yyyy` and `hh:mm:ss.ffffff` in nanoseconds since 1970.
fn moment(written: &str) -> i64 {
    let (day, clock) = written.split_once(',').unwrap();
    let day: Vec<i64> = day.split('/').map(|x| x.parse().unwrap()).collect();
    let clock: Vec<&str> = clock.split(':').collect();
    let minutes = clock[0].parse::<i64>().unwrap() * 60 + clock[1].parse::<i64>().unwrap();
    (days(day[2], day[1], day[0]) * 86_400 + minutes * 60) * 1_000_000_000 + scaled(clock[2], 9) as i64
}

fn printed(t: i64) -> String {
    let (year, month, day) = date(t.div_euclid(86_400_000_000_000));
    let within = t.rem_euclid(86_400_000_000_000);
    let seconds = within / 1_000_000_000;
    let (hour, minute, second) = (seconds / 3600, seconds / 60 % 60, seconds % 60);
    format!("{year:04}-{month:02}-{day:02}T{hour:02}:{minute:02}:{second:02}.{:09}Z", within % 1_000_000_000)
}

struct Clock {
    t0: i64,
    rate: u64,
}

impl Clock {
    fn time_of(&self, i: usize) -> i64 {
        self.t0 + (i as u128 * 1_000_000_000_000_000 / u128::from(self.rate)) as i64
    }

    fn place_of(&self, t: i64, n: usize) -> usize {
        if t <= self.t0 {
            return 0;
        }
        let passed = u128::from(t.abs_diff(self.t0)) * u128::from(self.rate);
        passed.div_ceil(1_000_000_000_000_000).min(n as u128) as usize
    }

    // The ticks of a period in seconds, with their places.
    fn ticks(&self, n: usize, period: i64) -> Vec<(i64, usize)> {
        let nanoseconds = period * 1_000_000_000;
        let first = -(-self.t0).div_euclid(nanoseconds);
        let last = self.time_of(n).div_euclid(nanoseconds);
        (first..=last).map(|k| (k * period, self.place_of(k * nanoseconds, n))).collect()
    }
}

// A reading: its tick, its span, cycles and microhertz.
type Reading = (i64, usize, usize, u64, u64);

fn readings(clock: &Clock, n: usize, places: &[usize]) -> Vec<Reading> {
    let ticks = clock.ticks(n, 10);
    let mut found = Vec::new();
    for pair in ticks.windows(2) {
        let (tick, p, q) = (pair[0].0, pair[0].1, pair[1].1);
        let from = places.partition_point(|place| *place < p);
        let until = places.partition_point(|place| *place <= q);
        if from + 2 <= until {
            let cycles = (until - from - 1) as u64;
            let samples = (places[until - 1] - places[from]) as u64;
            found.push((tick, p, q, cycles, cycles * clock.rate / samples));
        }
    }
    found
}

// A basic interval or a group of them: whether it is the first after a tick, its span, its values and its flag.
struct Part {
    front: bool,
    span: (usize, usize),
    values: Vec<u64>,
    flagged: bool,
}

// A group as a part, with its tick and how many intervals it has.
type Group = (Option<i64>, usize, Part);

fn group(tick: Option<i64>, parts: &[&Part]) -> Group {
    let root = |channel: usize| {
        let sum: u128 = parts.iter().map(|part| u128::from(part.values[channel]).pow(2)).sum();
        isqrt(sum / parts.len() as u128)
    };
    let part = Part {
        front: false,
        span: (parts[0].span.0, parts[parts.len() - 1].span.1),
        values: (0..parts[0].values.len()).map(root).collect(),
        flagged: parts.iter().any(|part| part.flagged),
    };
    (tick, parts.len(), part)
}

// Fifteen basic intervals each, begun anew at each front.
fn shorts(basics: &[Part]) -> Vec<Group> {
    let fronts: Vec<usize> = (0..basics.len()).filter(|i| basics[*i].front).collect();
    let mut found = Vec::new();
    for (k, front) in fronts.iter().enumerate() {
        let next = fronts.get(k + 1).copied().unwrap_or(basics.len());
        let mut start = *front;
        while start < next && start + 15 <= basics.len() {
            found.push(group(None, &basics[start..start + 15].iter().collect::<Vec<&Part>>()));
            start += 15;
        }
    }
    found
}

// The basic intervals of each tick's segment, where it reaches the next tick.
fn tens(clock: &Clock, n: usize, basics: &[Part]) -> Vec<Group> {
    let mut found = Vec::new();
    for pair in clock.ticks(n, 600).windows(2) {
        let Some(first) = basics.iter().position(|b| b.front && b.span.0 >= pair[0].1) else { continue };
        let after = basics[first + 1..].iter().position(|b| b.front).map_or(basics.len(), |i| first + 1 + i);
        let segment: Vec<&Part> = basics[first..after].iter().collect();
        if segment.iter().any(|b| b.span.0 < pair[1].1 && pair[1].1 <= b.span.1) {
            found.push(group(Some(pair[0].0), &segment));
        }
    }
    found
}

fn two_hours(clock: &Clock, n: usize, tens: &[Group]) -> Vec<Group> {
    let mut found = Vec::new();
    for (tick, _) in clock.ticks(n, 7200) {
        let twelve: Vec<&Part> = (0..12)
            .filter_map(|i| tens.iter().find(|ten| ten.0 == Some(tick + 600 * i)).map(|ten| &ten.2))
            .collect();
        if twelve.len() == 12 {
            found.push(group(Some(tick), &twelve));
        }
    }
    found
}

// Runs of ten cycles from each front on, each completed, and whether it begins at a front.
fn runs(places: &[usize], ticks: &[(i64, usize)]) -> Vec<(usize, usize, bool)> {
    let mut fronts = vec![0];
    fronts.extend(ticks.iter().map(|tick| places.partition_point(|place| *place < tick.1)).filter(|j| *j < places.len()));
    fronts.dedup();
    let cycles = places.len().saturating_sub(1);
    let mut found = Vec::new();
    for (k, front) in fronts.iter().enumerate() {
        let next = fronts.get(k + 1).copied().unwrap_or(cycles);
        let mut start = *front;
        while start < next && start + 10 <= cycles {
            found.push((start, start + 10, start == *front));
            start += 10;
        }
    }
    found
}

// Where events begin, in rising order, each with the furthest end of those that begin there or before.
fn reaches<'a>(events: impl Iterator<Item = &'a Event>) -> Vec<(usize, usize)> {
    let mut found: Vec<(usize, usize)> = events.map(|event| (event.0, event.1)).collect();
    found.sort_unstable();
    let mut furthest = 0;
    for reach in &mut found {
        furthest = furthest.max(reach.1);
        reach.1 = furthest;
    }
    found
}

fn is_touched(reaches: &[(usize, usize)], start: usize, end: usize) -> bool {
    let count = reaches.partition_point(|reach| reach.0 < end);
    count > 0 && start < reaches[count - 1].1
}

fn number(record: &[u8]) -> u32 {
    u32::from_le_bytes([record[0], record[1], record[2], record[3]])
}

// The samples of all channels in microvolts, or the number of the first record that is at fault.
fn samples(coefficients: &[(i128, i128)], n: usize, dat: &[u8]) -> Result<Vec<Vec<i64>>, usize> {
    let size = 8 + 2 * coefficients.len();
    let room = n.min(dat.len() / size);
    let mut samples: Vec<Vec<i64>> = coefficients.iter().map(|_| Vec::with_capacity(room)).collect();
    for i in 0..n {
        let record = dat.get(size * i..size * (i + 1)).ok_or(i + 1)?;
        if i > 0 && number(record) != number(&dat[size * (i - 1)..]).wrapping_add(1) {
            return Err(i + 1);
        }
        for (channel, &(a, b)) in coefficients.iter().enumerate() {
            let count = i16::from_le_bytes([record[8 + 2 * channel], record[9 + 2 * channel]]);
            if count == -32_768 {
                return Err(i + 1);
            }
            let picovolts = a * i128::from(count) + b;
            let size = ((picovolts.unsigned_abs() as u64 + 500_000) / 1_000_000) as i64;
            samples[channel].push(if picovolts < 0 { -size } else { size });
        }
    }
    Ok(samples)
}

// What a row says besides its channel: kind, span, tick and count.
#[derive(Clone, Copy)]
struct Row<'a> {
    kind: &'a str,
    span: (usize, usize),
    tick: Option<i64>,
    count: u64,
}

fn row(clock: &Clock, row: Row, channel: usize, value: u64, mark: &str) -> String {
    let Row { kind, span: (start, end), tick, count } = row;
    let (from, to) = (printed(clock.time_of(start)), printed(clock.time_of(end)));
    let tick = tick.map_or(String::new(), |second| printed(second * 1_000_000_000));
    format!("{kind},{channel},{start},{end},{from},{to},{tick},{value},{count},{mark}\n")
}

fn word(flagged: bool) -> &'static str {
    if flagged { "flagged" } else { "clear" }
}

// Adds the items of an interval, one a channel.
fn push_part(items: &mut Vec<Item>, clock: &Clock, rank: u8, says: Row, part: &Part) {
    for (channel, value) in part.values.iter().enumerate() {
        let text = row(clock, says, channel + 1, *value, word(part.flagged));
        items.push((part.span.1, rank, part.span.0, channel + 1, text));
    }
}

fn main() {
    let words: Vec<String> = std::env::args().collect();
    let udin: u64 = words[3].parse().unwrap();
    let cfg = std::fs::read_to_string(&words[4]).unwrap();
    let lines: Vec<&str> = cfg.lines().collect();
    let count: usize = lines[1].split(',').nth(1).unwrap().trim_end_matches('A').parse().unwrap();
    let coefficients: Vec<(i128, i128)> = lines[2..2 + count]
        .iter()
        .map(|line| line.split(',').collect::<Vec<&str>>())
        .map(|fields| (scaled(fields[5], 12), scaled(fields[6], 12)))
        .collect();
    let (rate, n) = lines[4 + count].split_once(',').unwrap();
    let clock = Clock { t0: moment(lines[5 + count]), rate: scaled(rate, 6) as u64 };
    let rule = Rule::of(clock.rate);
    let n: usize = n.parse().unwrap();
    let dat = std::fs::read(&words[5]).unwrap();
    let channels = samples(&coefficients, n, &dat).unwrap();
    assert_eq!(dat.len(), (8 + 2 * count) * n);
    drop(dat);
    let found = events(&windows(&channels, &rule), count, udin, n);
    let places = cycle_boundaries(&channels[0], &rule);
    let reaches = reaches(found.iter().flatten());
    let basics: Vec<Part> = runs(&places, &clock.ticks(n, 600))
        .into_iter()
        .map(|(first, last, front)| {
            let span = (places[first], places[last]);
            let values = channels.iter().map(|s| rms(&s[span.0..span.1])).collect();
            Part { front, span, values, flagged: is_touched(&reaches, span.0, span.1) }
        })
        .collect();
    let tens = tens(&clock, n, &basics);
    let mut items: Vec<Item> = Vec::new();
    for (tick, start, end, cycles, microhertz) in readings(&clock, n, &places) {
        let says = Row { kind: "freq", span: (start, end), tick: Some(tick), count: cycles };
        items.push((end, 0, start, 0, row(&clock, says, 0, microhertz, word(is_touched(&reaches, start, end)))));
    }
    for part in &basics {
        push_part(&mut items, &clock, 1, Row { kind: "basic", span: part.span, tick: None, count: 10 }, part);
    }
    for (kind, rank, groups) in [("short", 2, &shorts(&basics)), ("ten", 3, &tens), ("two", 4, &two_hours(&clock, n, &tens))] {
        for (tick, count, part) in groups {
            push_part(&mut items, &clock, rank, Row { kind, span: part.span, tick: *tick, count: *count as u64 }, part);
        }
    }
    for (kind, &(name, rank)) in [("dip", 5u8), ("swell", 6), ("interruption", 7)].iter().enumerate() {
        for &(start, end, channel, value, open) in &found[kind] {
            let says = Row { kind: name, span: (start, end), tick: None, count: 0 };
            let text = row(&clock, says, channel + 1, value, if open { "open" } else { "closed" });
            items.push((end, rank, start, channel + 1, text));
        }
    }
    items.sort_unstable();
    let mut text = b"kind,channel,start,end,from,to,tick,value,count,mark\n".to_vec();
    for item in &items {
        text.write_all(item.4.as_bytes()).unwrap();
    }
    std::io::stdout().write_all(&text).unwrap();
}
