//! What is measured. A side is prepared from a snapshot, which is not timed, and then runs the row's operations.

use crate::file::direct::{Rust, Saved};
use crate::ours::Ours;

const PAGES: usize = 1024;
const SEED: u32 = 1;
/// Bytes of the file of 1,000 pages, and of its records.
const LONG: usize = 1000 * 224;
const RECORD: usize = 50;

#[derive(Clone, Copy, PartialEq, Eq)]
pub enum Row {
    Seek,
    Read16,
    Read224,
    Read10000,
    Append16,
    Append10000,
    Mount,
    Truncate,
    Search,
}

impl Row {
    pub const ALL: [Row; 9] = [
        Row::Seek,
        Row::Read16,
        Row::Read224,
        Row::Read10000,
        Row::Append16,
        Row::Append10000,
        Row::Mount,
        Row::Truncate,
        Row::Search,
    ];

    pub fn word(self) -> &'static str {
        ["seek", "read16", "read224", "read10000", "append16", "append10000", "mount", "truncate", "search"][self as usize]
    }

    pub fn name(self) -> &'static str {
        [
            "seek of a random number, 1,000 pages",
            "read of 16 bytes at a random number",
            "read of 224 bytes at a random number",
            "read of 10,000 bytes at a random number",
            "append of 16 bytes and commit",
            "append of 10,000 bytes and commit",
            "mount of 1,024 pages, 1,022 of them full",
            "truncate by 500 of 1,000 pages",
            "search to its end, 1,000 pages",
        ][self as usize]
    }

    /// Operations of a repeat.
    fn count(self) -> usize {
        [4096, 4096, 4096, 256, 64, 7, 4, 1, 512][self as usize]
    }
}

/// Numbers from a fixed seed.
pub struct Random(u64);

impl Random {
    fn below(&mut self, n: usize) -> usize {
        self.0 ^= self.0 << 13;
        self.0 ^= self.0 >> 7;
        self.0 ^= self.0 << 17;
        (self.0 >> 11) as usize % n
    }
}

fn bytes(n: usize) -> Vec<u8> {
    let mut r = Random(88172645463325252);
    (0..n).map(|_| r.below(256) as u8).collect()
}

enum Who {
    Rust(Rust, Saved, Vec<u8>),
    Ours(Ours, Ours),
}

pub struct Side {
    who: Who,
    data: Vec<u8>,
    out: Vec<u8>,
    /// A sum over the answers.
    sum: u64,
}

/// What a row is measured on: the files' lengths and their records.
fn files(row: Row) -> Vec<(u8, usize, usize)> {
    match row {
        Row::Append16 | Row::Append10000 => vec![(3, 100, 100)],
        // one page is metadata, and a write leaves one page free
        Row::Mount => (0..8).map(|f| (f, if f == 7 { 126 * 224 } else { 128 * 224 }, 224)).collect(),
        _ => vec![(3, LONG, RECORD)],
    }
}

impl Side {
    pub fn rust(row: Row) -> Self {
        let data = bytes(LONG);
        let mut rust = Rust::new(PAGES, SEED);
        for (file, n, record) in files(row) {
            rust.fill(file, &data[..n], record);
        }
        let (saved, image) = (rust.save(), rust.image().to_vec());
        Self { who: Who::Rust(rust, saved, image), data, out: vec![0; 10_000], sum: 0 }
    }

    pub fn ours(row: Row) -> Self {
        let data = bytes(LONG);
        let mut ours = Ours::new(PAGES, SEED);
        for (file, n, record) in files(row) {
            ours.fill(file, &data[..n], record);
        }
        Self { who: Who::Ours(ours.clone(), ours), data, out: vec![0; 10_000], sum: 0 }
    }

    pub fn prepare(&mut self, _: Row) {
        self.sum = 0;
        match &mut self.who {
            Who::Rust(rust, saved, image) => rust.restore(saved, image),
            Who::Ours(ours, saved) => ours.restore(saved),
        }
    }

    /// Image, map and answers after a run.
    pub fn outcome(&self) -> (&[u8], &[u8], &[u8], u64) {
        match &self.who {
            Who::Rust(rust, ..) => (rust.image(), rust.map(), &self.out, self.sum),
            Who::Ours(ours, _) => (&ours.image, &ours.map, &self.out, self.sum),
        }
    }

    /// Gives the count of operations.
    pub fn run(&mut self, row: Row) -> usize {
        let mut r = Random(0x2545_f491_4f6c_dd1d);
        for _ in 0..row.count() {
            match row {
                Row::Seek => self.seek(r.below(LONG) as u32),
                Row::Read16 => self.read(&mut r, 16),
                Row::Read224 => self.read(&mut r, 224),
                Row::Read10000 => self.read(&mut r, 10_000),
                Row::Append16 => self.append(16),
                Row::Append10000 => self.append(10_000),
                Row::Mount => self.mount(),
                Row::Truncate => self.truncate(),
                Row::Search => self.search(r.below(LONG) as u32),
            }
        }
        row.count()
    }

    fn seek(&mut self, seq: u32) {
        self.sum += match &mut self.who {
            Who::Rust(rust, ..) => rust.locate(3, seq),
            Who::Ours(ours, _) => ours.locate(3, seq),
        } as u64;
    }

    fn read(&mut self, r: &mut Random, n: usize) {
        let seq = r.below(LONG - n) as u32;
        match &mut self.who {
            Who::Rust(rust, ..) => rust.read(3, seq, &mut self.out[..n]),
            Who::Ours(ours, _) => ours.read(3, seq, &mut self.out[..n]),
        }
        self.sum += self.out[0] as u64;
    }

    fn append(&mut self, n: usize) {
        match &mut self.who {
            Who::Rust(rust, ..) => rust.append(3, &self.data[..n]),
            Who::Ours(ours, _) => ours.append(3, &self.data[..n]),
        }
    }

    fn mount(&mut self) {
        match &mut self.who {
            Who::Rust(rust, ..) => rust.mount(),
            Who::Ours(ours, _) => ours.mount(),
        }
    }

    fn truncate(&mut self) {
        match &mut self.who {
            Who::Rust(rust, ..) => rust.truncate(3, LONG / 2),
            Who::Ours(ours, _) => ours.truncate(3, LONG / 2),
        }
    }

    fn search(&mut self, target: u32) {
        let (found, offers) = match &mut self.who {
            Who::Rust(rust, ..) => rust.search(3, target),
            Who::Ours(ours, _) => ours.search(3, target),
        };
        self.sum += found as u64 + offers as u64;
    }
}
