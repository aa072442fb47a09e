//! Random scripts by a seed. The generator runs the oracle's own world beside it, so that it can aim;
//! its output depends on nothing but the two numbers.

mod actions;
mod damage;
mod foreign;

use std::io::Write;

use crate::file::reach::{self, Record};
use crate::world::World;

/// splitmix64: small, and the same everywhere.
pub struct Rng(u64);

impl Rng {
    fn next(&mut self) -> u64 {
        self.0 = self.0.wrapping_add(0x9e37_79b9_7f4a_7c15);
        let mut z = self.0;
        z = (z ^ (z >> 30)).wrapping_mul(0xbf58_476d_1ce4_e5b9);
        z = (z ^ (z >> 27)).wrapping_mul(0x94d0_49bb_1331_11eb);
        z ^ (z >> 31)
    }

    pub fn below(&mut self, n: usize) -> usize {
        (self.next() % n.max(1) as u64) as usize
    }

    pub fn chance(&mut self, of_hundred: usize) -> bool {
        self.below(100) < of_hundred
    }

    pub fn pick<T: Copy>(&mut self, from: &[T]) -> T {
        from[self.below(from.len())]
    }
}

/// What a script is mostly about.
#[derive(Clone, Copy, PartialEq, Eq)]
pub enum Kind {
    Ordinary,
    Tiny,
    Records,
    Damage,
    Foreign,
    Limit,
    Map,
}

const KINDS: [(Kind, usize); 7] = [
    (Kind::Ordinary, 20),
    (Kind::Tiny, 10),
    (Kind::Records, 18),
    (Kind::Damage, 20),
    (Kind::Foreign, 20),
    (Kind::Limit, 8),
    (Kind::Map, 4),
];

pub struct Script {
    rng: Rng,
    world: World,
    out: String,
    lines: usize,
    kind: Kind,
    /// Pages of the image that is lent when nothing wrong is lent.
    pages: usize,
}

impl Script {
    fn new(seed: u64) -> Self {
        let mut rng = Rng(seed);
        let mut at = rng.below(KINDS.iter().map(|k| k.1).sum());
        let mut kind = Kind::Ordinary;
        for (k, weight) in KINDS {
            if at < weight {
                kind = k;
                break;
            }
            at -= weight;
        }
        Self { rng, world: World::new(), out: String::new(), lines: 0, kind, pages: 8 }
    }

    /// One line, run at once. A refusal is followed by a look at everything.
    fn say(&mut self, line: &str) -> String {
        let answer = self.quiet(line);
        if answer.starts_with("refused") {
            for what in ["show state", "show table", "show map", "show image"] {
                self.quiet(what);
            }
        }
        answer
    }

    fn quiet(&mut self, line: &str) -> String {
        self.out.push_str(line);
        self.out.push('\n');
        self.lines += 1;
        self.world.line(line.as_bytes()).unwrap_or_default()
    }

    fn lend(&mut self) {
        let pages = self.pages;
        self.quiet(&format!("lend {} {pages}", 256 * pages));
    }

    fn record(&self, file: u8) -> Record {
        reach::record(&self.world.m, file.min(7))
    }

    fn free(&self) -> usize {
        match self.world.mounted {
            Some(_) => reach::map(&self.world.m).free_pages(),
            None => 0,
        }
    }

    /// Mostly a file that holds something, sometimes none or one that is no file.
    fn file(&mut self) -> u8 {
        let used: Vec<u8> = (0..8).filter(|&f| self.record(f).page != u16::MAX).collect();
        match self.rng.below(100) {
            0..=1 => self.rng.pick(&[8, 255]),
            2..=24 => self.rng.pick(&[0, 7, 3]),
            25..=34 => self.rng.below(8) as u8,
            _ if used.is_empty() => self.rng.pick(&[0, 1, 7]),
            _ => self.rng.pick(&used),
        }
    }

    fn write(mut self, number: usize) -> String {
        self.quiet(&format!("# script {number}"));
        self.pages = match self.kind {
            Kind::Tiny => self.rng.pick(&[4, 4, 5, 6, 7]),
            Kind::Records => self.rng.pick(&[32, 64, 128, 256, 1024]),
            Kind::Ordinary => self.rng.pick(&[6, 8, 8, 12, 16, 31, 64, 200, 1023, 1024]),
            _ => self.rng.pick(&[4, 6, 8, 10, 16, 24, 40]),
        };
        self.quiet("blank");
        self.lend();
        let seed = match self.rng.below(4) {
            0 => self.rng.pick(&[0, 1, 3, u32::MAX]),
            _ => self.rng.next() as u32,
        };
        self.quiet(&format!("new {seed}"));
        match self.kind {
            Kind::Foreign | Kind::Limit => self.foreign(),
            _ => {
                if self.rng.chance(5) {
                    self.some_action();
                }
                self.say("format");
            }
        }
        if self.kind == Kind::Records || (self.kind == Kind::Damage && self.rng.chance(30)) {
            self.many_records();
        }
        let most = self.lines + 40 + self.rng.below(60);
        while self.lines < most {
            self.some_action();
        }
        for what in ["show state", "show table", "show map", "show image"] {
            self.quiet(what);
        }
        self.out
    }
}

/// N scripts of a seed.
pub fn scripts(count: usize, seed: u64, mut output: impl Write) -> std::io::Result<()> {
    for i in 0..count {
        // each script has a start of its own, so that one of many can be found again
        let start = Rng(seed ^ (i as u64).wrapping_mul(0xd134_2543_de82_ef95)).next();
        output.write_all(Script::new(start).write(i).as_bytes())?;
    }
    output.flush()
}
