// The steps of `check` on a good cfg of 2013 in plain Rust, without contracts: the measure of the proved program's speed.
// Built by bench/speed.sh; no part of the product. Faults end it with exit code 2.
use std::io::Write;

type Reading<T> = Option<T>;

fn trimmed(mut field: &[u8]) -> &[u8] {
    while let [b' ' | b'\t', rest @ ..] = field {
        field = rest;
    }
    while let [rest @ .., b' ' | b'\t'] = field {
        field = rest;
    }
    field
}

fn text(field: &[u8]) -> Reading<Vec<u8>> {
    if field.contains(&b'\r') { None } else { Some(field.to_vec()) }
}

fn digits(field: &[u8], most: usize) -> Reading<u128> {
    if field.is_empty() || field.len() > most || !field.iter().all(u8::is_ascii_digit) {
        return None;
    }
    Some(field.iter().fold(0, |n, c| 10 * n + u128::from(c - b'0')))
}

fn cut_sign(field: &[u8]) -> (bool, &[u8]) {
    match field {
        [b'-', rest @ ..] => (true, rest),
        [b'+', rest @ ..] => (false, rest),
        _ => (false, field),
    }
}

// Negative, digits, exponent.
fn decimal(field: &[u8]) -> Reading<(bool, u128, i32)> {
    let (negative, unsigned) = cut_sign(field);
    let mut parts = unsigned.splitn(2, |c| *c == b'e' || *c == b'E');
    let mantissa = parts.next()?;
    let exponent = match parts.next() {
        Some(written) => {
            let (below, unsigned) = cut_sign(written);
            let size = digits(unsigned, 3)? as i32;
            if below { -size } else { size }
        }
        None => 0,
    };
    let mut parts = mantissa.splitn(2, |c| *c == b'.');
    let whole = parts.next()?;
    let fraction = parts.next().unwrap_or(b"");
    let joined = [whole, fraction].concat();
    Some((negative, digits(&joined, 32)?, exponent - fraction.len() as i32))
}

fn microhertz(field: &[u8]) -> Reading<u64> {
    let (_, digits, exponent) = decimal(field)?;
    let power = exponent + 6;
    if power >= 0 {
        digits.checked_mul(10u128.checked_pow(power as u32)?).map(|n| n as u64)
    } else {
        let unit = 10u128.checked_pow(-power as u32)?;
        Some(((2 * digits + unit) / (2 * unit)) as u64)
    }
}

struct Channel {
    fields: Vec<Vec<u8>>,
}

fn channel(line: &[u8], position: u128, count: usize, decimals: &[usize]) -> Reading<Channel> {
    let fields: Vec<&[u8]> = line.split(|c| *c == b',').map(trimmed).collect();
    if fields.len() != count || digits(fields[0], 10)? != position {
        return None;
    }
    for index in decimals {
        decimal(fields[*index])?;
    }
    let fields = fields[1..].iter().map(|field| text(field)).collect::<Option<Vec<_>>>()?;
    Some(Channel { fields })
}

fn row(out: &mut Vec<u8>, position: usize, channel: &Channel) {
    write!(out, "{position}").unwrap();
    for field in &channel.fields {
        out.push(b',');
        out.extend_from_slice(field);
    }
    out.extend_from_slice(b"\r\n");
}

fn check(bytes: &[u8]) -> Reading<Vec<u8>> {
    let mut lines = bytes.split(|c| *c == b'\n').map(|line| line.strip_suffix(b"\r").unwrap_or(line));
    let mut fields = || -> Reading<Vec<&[u8]>> { Some(lines.next()?.split(|c| *c == b',').map(trimmed).collect()) };
    let station = fields()?;
    let counts = fields()?;
    let (nd, letter_d) = counts[2].split_at(counts[2].len() - 1);
    let (na, letter_a) = counts[1].split_at(counts[1].len() - 1);
    if !letter_a.eq_ignore_ascii_case(b"a") || !letter_d.eq_ignore_ascii_case(b"d") {
        return None;
    }
    let (na, nd) = (digits(na, 10)? as usize, digits(nd, 10)? as usize);
    let mut out = Vec::new();
    write!(out, "{},{},{}\r\n", str(&text(station[0])?), str(&text(station[1])?), digits(station[2], 10)?).unwrap();
    write!(out, "{},{na}A,{nd}D\r\n", digits(counts[0], 10)?).unwrap();
    let analogue: Vec<Channel> = (1..=na).map(|n| channel(lines.next()?, n as u128, 13, &[5, 6])).collect::<Option<_>>()?;
    let status: Vec<Channel> = (1..=nd).map(|n| channel(lines.next()?, n as u128, 5, &[])).collect::<Option<_>>()?;
    for (index, channel) in analogue.iter().enumerate() {
        row(&mut out, index + 1, channel);
    }
    for (index, channel) in status.iter().enumerate() {
        row(&mut out, index + 1, channel);
    }
    let mut fields = || -> Reading<Vec<&[u8]>> { Some(lines.next()?.split(|c| *c == b',').map(trimmed).collect()) };
    write!(out, "{}\r\n{}\r\n", microhertz(fields()?[0])? / 1_000_000, digits(fields()?[0], 10)?).unwrap();
    let sampling = fields()?;
    write!(out, "{},{}\r\n", microhertz(sampling[0])? / 1_000_000, digits(sampling[1], 10)?).unwrap();
    for _ in 0..2 {
        let stamp = fields()?;
        write!(out, "{},{}\r\n", str(stamp[0]), str(stamp[1])).unwrap();
    }
    write!(out, "{}\r\n", str(fields()?[0]).to_uppercase()).unwrap();
    write!(out, "{}\r\n", str(fields()?[0])).unwrap();
    let codes = fields()?;
    write!(out, "{},{}\r\n", str(codes[0]), str(codes[1])).unwrap();
    let quality = fields()?;
    write!(out, "{},{}\r\n", str(quality[0]).to_uppercase(), str(quality[1])).unwrap();
    Some(out)
}

fn str(bytes: &[u8]) -> &str {
    std::str::from_utf8(bytes).unwrap()
}

fn main() {
    let name = std::env::args().nth(2).unwrap();
    match check(&std::fs::read(name).unwrap()) {
        Some(text) => std::io::stdout().write_all(&text).unwrap(),
        None => std::process::exit(2),
    }
}
