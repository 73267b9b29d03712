//! The plain Rust program that `profile.sh` compares with: it makes the same profile, and writes and reads it by ordinary loops.
//! The arguments are ROWS and ROUNDS.

use std::time::Instant;

#[derive(Clone, Copy)]
struct Row {
    offset: u64,
    count: u64,
}

fn made(count: u32) -> Vec<Row> {
    let mut rows = Vec::new();
    let mut position: u64 = 0;
    for i in 0..count {
        let mixed = u64::from(i.wrapping_mul(2_654_435_761));
        position += 1 + mixed % 300;
        rows.push(Row { offset: 4 * position, count: 1 + mixed % 65_535 });
    }
    rows
}

fn put(out: &mut Vec<u8>, mut n: u64) {
    while n >= 128 {
        out.push((128 + n % 128) as u8);
        n /= 128;
    }
    out.push(n as u8);
}

fn write(rows: &[Row]) -> Vec<u8> {
    let mut out = Vec::new();
    put(&mut out, 1);
    put(&mut out, rows.len() as u64);
    let mut last = 0;
    for row in rows {
        let position = row.offset / 4;
        put(&mut out, position - last);
        put(&mut out, row.count);
        last = position;
    }
    out
}

/// A canonical number from `low` to `high`, or the index where it begins.
fn field(bytes: &[u8], at: usize, low: u64, high: u64) -> Result<(u64, usize), usize> {
    let mut value: u64 = 0;
    let mut shift = 0;
    let mut next = at;
    loop {
        let byte = *bytes.get(next).ok_or(at)?;
        let group = u64::from(byte % 128);
        if shift == 63 && group > 1 || shift > 63 {
            return Err(at);
        }
        value += group << shift;
        next += 1;
        if byte < 128 {
            let needless = byte == 0 && shift > 0;
            if needless || value < low || value > high {
                return Err(at);
            }
            return Ok((value, next));
        }
        shift += 7;
    }
}

fn read(bytes: &[u8]) -> Result<Vec<Row>, usize> {
    let (_, at) = field(bytes, 0, 1, 1)?;
    let (count, mut at) = field(bytes, at, 0, u64::MAX)?;
    let mut rows = Vec::new();
    let mut last = 0;
    let mut least = 0;
    for _ in 0..count {
        let (distance, after) = field(bytes, at, least, (1 << 62) - 1 - last)?;
        let (count, after) = field(bytes, after, 1, 1 << 48)?;
        last += distance;
        rows.push(Row { offset: 4 * last, count });
        least = 1;
        at = after;
    }
    if at == bytes.len() { Ok(rows) } else { Err(at) }
}

fn main() {
    let mut args = std::env::args().skip(1);
    let count: u32 = args.next().expect("ROWS").parse().expect("ROWS");
    let rounds: u32 = args.next().expect("ROUNDS").parse().expect("ROUNDS");
    let rows = made(count);
    let bytes = write(&rows);
    let again = read(&bytes).expect("a profile");
    let sum = again.iter().fold(0u64, |sum, row| sum.wrapping_add(row.count));
    println!("rows {} bytes {} sum {}", again.len(), bytes.len(), sum);
    let mut best = (u128::MAX, u128::MAX);
    for _ in 0..rounds {
        let start = Instant::now();
        let bytes = write(&rows);
        best.0 = best.0.min(start.elapsed().as_micros());
        let start = Instant::now();
        let again = read(&bytes).expect("a profile");
        best.1 = best.1.min(start.elapsed().as_micros());
        assert_eq!(again.len(), rows.len());
    }
    println!("write {} read {}", best.0, best.1);
}
