//! The plain Rust program that `driver.sh` compares with. It takes the same samples turn by turn, by ordinary loops: a sample is
//! held until its mark is due, counted in a table of four-way buckets, and what the table gives out is written to one of two
//! buffers, which the other half empties; where both are out the sample is lost, and the loss is kept.
//! The arguments are SAMPLES and ROUNDS.

use std::time::Instant;

#[derive(Clone, Copy, PartialEq, Eq)]
struct Key {
    pc: u64,
    pid: u32,
    event: u8,
}

#[derive(Clone, Copy)]
struct Marked {
    key: Key,
    mark: u64,
}

#[derive(Clone, Copy)]
struct Entry {
    key: Key,
    count: u32,
}

#[allow(dead_code)]
struct Loss {
    index: u64,
    event: u8,
    word0: u64,
    word1: u64,
}

const BUCKETS: usize = 4_096;
const BUFFER: usize = 8_192;
const EVERY: usize = 8_192;

fn draw(state: &mut u64) -> u64 {
    *state = state.wrapping_mul(6_364_136_223_846_793_005).wrapping_add(1_442_695_040_888_963_407);
    *state >> 33
}

fn sample(state: &mut u64) -> Marked {
    let _processor = draw(state);
    let pid = 1 + (draw(state) % 8) as u32;
    let kind = draw(state) % 16;
    let place = draw(state);
    let pc = match kind {
        0..=1 => 0xffff_fc00_0000_0000 + 4 * (place % 1024),
        2..=7 => 0x3ff_8000_0000 + 4 * (place % 512),
        8..=14 => 0x1_2000_0000 + 4 * (place % 256),
        _ => 0x5_0000_0000 + 4 * (place % 64),
    };
    let event = match draw(state) % 8 {
        5 => 1,
        6 => 2,
        7 => 3,
        _ => 0,
    };
    Marked { key: Key { pc, pid, event }, mark: 0 }
}

/// The turns of one lane, and both halves of its side: a word for each buffer, even where the buffer is the lane's.
struct Lane {
    samples: Vec<Marked>,
    at: usize,
    bell: u64,
    table: Vec<[Entry; 4]>,
    used: Vec<u8>,
    victim: usize,
    buffers: [Vec<Entry>; 2],
    words: [u64; 2],
    active: Option<usize>,
    next: usize,
    kept: Vec<Entry>,
    losses: Vec<Loss>,
    drained: u64,
    folded: u64,
    placed: u64,
    evicted: u64,
}

impl Lane {
    fn new(count: usize) -> Lane {
        let entry = Entry { key: Key { pc: 0, pid: 0, event: 0 }, count: 0 };
        let mut state = 1;
        Lane {
            samples: (0..count).map(|_| sample(&mut state)).collect(),
            at: 0,
            bell: 0,
            table: vec![[entry; 4]; BUCKETS],
            used: vec![0; BUCKETS],
            victim: 0,
            buffers: [Vec::with_capacity(BUFFER), Vec::with_capacity(BUFFER)],
            words: [0; 2],
            active: None,
            next: 0,
            kept: Vec::with_capacity(count + 1),
            losses: Vec::with_capacity(count),
            drained: 0,
            folded: 0,
            placed: 0,
            evicted: 0,
        }
    }

    fn bucket(&self, key: Key) -> usize {
        let mixed = (key.pc / 4).wrapping_add(7 * u64::from(key.pid)).wrapping_add(u64::from(key.event));
        mixed as usize & (self.table.len() - 1)
    }

    /// Whether adding the key would give an entry out.
    fn needs_write(&self, key: Key) -> bool {
        let b = self.bucket(key);
        let row = &self.table[b][..self.used[b] as usize];
        match row.iter().find(|entry| entry.key == key) {
            Some(entry) => entry.count >= 65_535,
            None => row.len() == 4,
        }
    }

    fn add(&mut self, key: Key) -> Option<Entry> {
        let b = self.bucket(key);
        let used = self.used[b] as usize;
        let row = &mut self.table[b];
        for entry in &mut row[..used] {
            if entry.key == key {
                if entry.count < 65_535 {
                    entry.count += 1;
                    self.folded += 1;
                    return None;
                }
                let out = *entry;
                entry.count = 1;
                return Some(out);
            }
        }
        if used < 4 {
            row[used] = Entry { key, count: 1 };
            self.used[b] += 1;
            self.placed += 1;
            return None;
        }
        let out = row[self.victim];
        row[self.victim] = Entry { key, count: 1 };
        self.victim = (self.victim + 1) % 4;
        self.evicted += 1;
        Some(out)
    }

    /// The buffer that is active, or one that came back.
    fn find_buffer(&mut self) -> Option<usize> {
        if self.active.is_none() {
            let first = self.next;
            self.active = [first, 1 - first].into_iter().find(|&b| self.words[b] % 2 == 0);
        }
        self.active
    }

    /// One turn; whether the sample was taken.
    fn turn(&mut self) -> bool {
        let Some(&Marked { key, mark }) = self.samples.get(self.at) else { return false };
        if self.bell / 2 < mark {
            return false;
        }
        if self.active.is_none() && self.needs_write(key) && self.find_buffer().is_none() {
            let loss = Loss { index: self.at as u64, event: key.event, word0: self.words[0], word1: self.words[1] };
            self.losses.push(loss);
            self.at += 1;
            return false;
        }
        self.at += 1;
        if let Some(out) = self.add(key) {
            let b = self.active.expect("a buffer is active where an entry is given out");
            self.buffers[b].push(out);
            if self.buffers[b].len() == BUFFER {
                self.kept.extend_from_slice(&self.buffers[b]);
                self.words[b] += 1;
                self.next = 1 - b;
                self.active = None;
            }
        }
        true
    }

    /// The other half: empties a buffer that was handed over, and gives it back.
    fn drain(&mut self, b: usize) {
        if self.words[b] % 2 == 1 {
            self.buffers[b].clear();
            self.words[b] += 1;
            self.drained += 1;
        }
    }

    fn take(&mut self, count: usize) {
        for i in 0..count {
            self.turn();
            if i % EVERY == 0 {
                self.drain(0);
                self.drain(1);
            }
        }
    }
}

fn main() {
    let mut args = std::env::args().skip(1);
    let count: usize = args.next().expect("SAMPLES").parse().expect("SAMPLES");
    let rounds: u32 = args.next().expect("ROUNDS").parse().expect("ROUNDS");
    let mut lane = Lane::new(count);
    lane.take(count);
    let lost = lane.losses.len();
    println!("samples {count} folded {} placed {} evicted {} lost {lost} drained {}", lane.folded, lane.placed, lane.evicted, lane.drained);
    let mut least = u128::MAX;
    for _ in 0..rounds {
        let mut lane = Lane::new(count);
        let start = Instant::now();
        lane.take(count);
        least = least.min(start.elapsed().as_micros());
        assert!(lane.kept.len() >= lane.drained as usize * BUFFER);
    }
    println!("least {least} us");
}
