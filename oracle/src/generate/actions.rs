//! The steps of a script: writing, transactions, reading, searching, wrong sizes and bad lines.

use super::{Kind, Script};
use crate::config::LIMIT;
use crate::file::reach;

/// Lengths at the edges of a page.
const LENGTHS: [u32; 14] = [0, 1, 2, 10, 100, 223, 224, 225, 447, 448, 449, 671, 672, 1000];

const BAD_LINES: [&str; 58] = [
    "",
    "# a word aside",
    " ",
    "nothing",
    "format ",
    " format",
    "format now",
    "mount 1",
    "locate 0",
    "locate 0 0 0",
    "skip 0 0",
    "search",
    "search 0 0",
    "left 1",
    "right right",
    "open",
    "open 256",
    "open 00",
    "open -1",
    "read 0 0",
    "read 0 0 20001",
    "read  0 0 1",
    "write 0",
    "write 0g",
    "write AB",
    "write ",
    "fill 20001 0",
    "fill 1",
    "end 1",
    "finish 1",
    "discard 0",
    "truncate 0",
    "truncate 0 x",
    "rename 0",
    "rename 0 1 2",
    "flags 0 256",
    "flags 0",
    "commit 0",
    "new",
    "new 1 2",
    "blank 0",
    "poke 262656 00",
    "poke 262655 0000",
    "poke 0",
    "pokemap 1026 00",
    "lend 262657 8",
    "lend 2048 1027",
    "lend 2048",
    "seed 4294967296",
    "seed",
    "mtz 1 02",
    "mtz 1",
    "index 1",
    "spanseq 12345678901 0",
    "spanseq 1",
    "show",
    "show page 65536",
    "show tables",
];

impl Script {
    pub(super) fn some_action(&mut self) {
        if self.world.mounted.is_none() && self.rng.chance(35) {
            self.say("format");
        }
        // an open transaction is in the way of much: it mostly ends soon
        if self.world.transaction() && self.world.writer.is_none() && self.rng.chance(35) {
            self.say("commit");
        }
        let file = self.file();
        match self.rng.below(100) {
            0..=21 => self.write_session(file),
            22..=28 => self.truncate(file),
            29..=31 => self.rename(file),
            32..=34 => self.flags(file),
            35..=44 => self.commits(),
            45..=56 => self.reads(file),
            57..=61 => self.locates(file),
            62..=72 => self.searches(file),
            73..=75 => {
                let again = self.rng.chance(75);
                self.say(if again { "mount" } else { "format" });
            }
            76..=77 => self.wrong_sizes(),
            78 => self.bad_line(),
            79..=80 => self.helpers(),
            81..=84 => self.stray(),
            85..=89 => self.look(),
            90..=94 => match self.kind {
                Kind::Damage | Kind::Foreign | Kind::Limit => self.damage(),
                Kind::Map => self.poke_map(),
                Kind::Tiny => self.truncate(file),
                Kind::Records | Kind::Ordinary => self.searches(file),
            },
            _ => match self.kind {
                Kind::Damage => self.damage(),
                Kind::Foreign if self.rng.chance(30) => self.foreign(),
                Kind::Records | Kind::Ordinary if self.free() > 190 => self.big_file(file),
                Kind::Records => self.searches(file),
                _ => self.write_session(file),
            },
        }
    }

    fn look(&mut self) {
        match self.rng.below(6) {
            0 => self.quiet("show table"),
            1 => self.quiet("show map"),
            2 => self.quiet("show image"),
            3 => {
                let meta = reach::numbers(&self.world.m).meta;
                let page = if self.rng.chance(50) { meta as usize } else { self.rng.below(self.pages + 1) };
                self.quiet(&format!("show page {page}"))
            }
            _ => self.quiet("show state"),
        };
    }

    fn length(&mut self) -> u32 {
        // around what is free, now and then: one page short, and exactly enough
        let room = 224 * self.free().min(80) as u32;
        match self.rng.below(10) {
            0..=5 => self.rng.pick(&LENGTHS),
            6 => self.rng.below(2500) as u32,
            7 if room > 0 => room.saturating_sub(self.rng.pick(&[0, 1, 223, 224, 225, 448])),
            _ => 1 + self.rng.below(60) as u32,
        }
    }

    fn piece(&mut self) {
        let len = self.length().min(20_000);
        let start = self.rng.below(300);
        if len <= 8 {
            let hex: String = (0..len).map(|i| format!("{:02x}", (start as u32 + i) & 0xff)).collect();
            self.say(if len == 0 { "write".to_string() } else { format!("write {hex}") }.as_str());
        } else {
            self.say(&format!("fill {len} {start}"));
        }
    }

    fn write_session(&mut self, file: u8) {
        if self.say(&format!("open {file}")) != "ok" {
            if self.rng.chance(30) {
                let end = self.rng.pick(&["finish", "discard", "commit"]);
                self.say(end);
            }
            return;
        }
        if self.rng.chance(15) {
            self.quiet("show state");
        }
        let records = self.kind == Kind::Records || self.rng.chance(25);
        let pieces = if records { 3 + self.rng.below(12) } else { self.rng.below(5) };
        let long = self.rng.chance(40);
        for _ in 0..pieces {
            if records {
                let len = if long && self.rng.chance(50) { 200 + self.rng.below(900) } else { 1 + self.rng.below(90) };
                let start = self.rng.below(251);
                self.say(&format!("fill {len} {start}"));
                self.say("end");
            } else {
                self.piece();
                if self.rng.chance(50) {
                    self.say("end");
                }
            }
            if self.rng.chance(6) {
                self.stray();
            }
        }
        if self.rng.chance(20) {
            self.quiet("show state");
        }
        let harmed = matches!(self.kind, Kind::Damage | Kind::Foreign) && self.rng.chance(15);
        if harmed {
            self.damage_data();
        }
        match self.rng.below(if harmed { 40 } else { 20 }) {
            20.. => {
                self.say("discard");
            }
            0..=15 => {
                self.say("finish");
                if self.rng.chance(60) {
                    self.say("commit");
                }
            }
            16..=18 => {
                self.say("discard");
                self.quiet("show map");
            }
            _ => {}
        }
    }

    /// A file of many records, short and long, then a search or two.
    pub(super) fn many_records(&mut self) {
        let file = self.rng.pick(&[0, 3, 7]);
        self.say(&format!("open {file}"));
        let (count, short) = (6 + self.rng.below(24), self.rng.pick(&[30, 100, 224, 250]));
        for _ in 0..count {
            let len = if self.rng.chance(12) { 224 + self.rng.below(700) } else { 1 + self.rng.below(short) };
            let start = self.rng.below(251);
            self.say(&format!("fill {len} {start}"));
            self.say("end");
        }
        self.say("finish");
        self.say("commit");
        self.searches(file);
        self.searches(file);
    }

    /// Long enough for the widest spans.
    fn big_file(&mut self, file: u8) {
        if self.say(&format!("open {file}")) != "ok" {
            return;
        }
        let records = 3 + self.rng.below(5);
        for _ in 0..records {
            let len = self.rng.pick(&[300, 2_000, 7_000, 20_000]) - self.rng.below(299);
            let start = self.rng.below(251);
            self.say(&format!("fill {len} {start}"));
            if self.rng.chance(70) {
                self.say("end");
            }
        }
        self.say("finish");
        self.say("commit");
        self.locates(file);
        self.searches(file);
    }

    fn truncate(&mut self, file: u8) {
        let r = self.record(file);
        let whole = r.last - r.first;
        let bytes = match self.rng.below(10) {
            0 => whole,
            1 => whole.saturating_sub(1),
            2 => whole.saturating_add(1),
            3 => r.length,
            4 => self.rng.below(whole as usize + 1) as u32,
            5 => u32::MAX,
            _ => self.rng.pick(&LENGTHS),
        };
        self.say(&format!("truncate {file} {bytes}"));
        self.quiet("show map");
        if self.rng.chance(50) {
            self.say("commit");
        }
    }

    fn rename(&mut self, file: u8) {
        let other = if self.rng.chance(20) { file } else { self.file() };
        self.say(&format!("rename {file} {other}"));
        if self.rng.chance(50) {
            self.say("commit");
        }
    }

    fn flags(&mut self, file: u8) {
        let old = self.record(file).flags;
        let flags = if self.rng.chance(25) { old } else { self.rng.below(256) as u8 };
        self.say(&format!("flags {file} {flags}"));
        if self.rng.chance(50) {
            self.say("commit");
        }
    }

    /// Some at once fill the log, and the metadata page moves.
    fn commits(&mut self) {
        if self.world.writer.is_some() && self.rng.chance(80) {
            self.say("finish");
        }
        let times = match self.rng.below(100) {
            0..=3 => 22,
            4..=20 => 2 + self.rng.below(8),
            _ => 1,
        };
        for _ in 0..times {
            self.say("commit");
        }
        if self.rng.chance(30) {
            self.quiet("show state");
        }
        if self.rng.chance(15) {
            let meta = reach::numbers(&self.world.m).meta;
            self.quiet(&format!("show page {meta}"));
        }
    }

    /// A number at an edge of the file or of one of its pages.
    fn number(&mut self, file: u8) -> u32 {
        let r = self.record(file);
        let inside = r.first + self.rng.below((r.last - r.first) as usize) as u32;
        let edge = match self.rng.below(8) {
            0 => r.first,
            1 => r.last,
            2 => r.seq,
            3 => inside / 224 * 224,
            4 => inside & !0xff,
            5 => self.rng.pick(&[0, 1, 255, 256, 257, 512, 1024, 2048, LIMIT, u32::MAX]),
            _ => return inside,
        };
        match self.rng.below(4) {
            0 => edge.saturating_sub(1),
            1 => edge.saturating_add(1),
            _ => edge,
        }
    }

    fn reads(&mut self, file: u8) {
        for _ in 0..1 + self.rng.below(3) {
            let seq = self.number(file);
            let left = self.record(file).last.saturating_sub(seq);
            let len = match self.rng.below(6) {
                0 => left.min(1000),
                1 => left.saturating_add(1).min(20_000),
                2 => self.rng.below(left as usize + 1).min(1500) as u32,
                3 => left.saturating_sub(1).min(700),
                _ => self.rng.pick(&LENGTHS),
            };
            let word = if self.rng.chance(60) { "read" } else { "skip" };
            self.say(&format!("{word} {file} {seq} {len}"));
        }
    }

    fn locates(&mut self, file: u8) {
        for _ in 0..1 + self.rng.below(4) {
            let seq = self.number(file);
            self.say(&format!("locate {file} {seq}"));
        }
    }

    /// A search to its end, by one of several patterns of answers.
    fn searches(&mut self, file: u8) {
        let pattern = self.rng.below(6);
        let target = self.number(file);
        let mut answer = self.say(&format!("search {file}"));
        let mut step = 0;
        while let Some(offer) = answer.strip_prefix("offer ").map(|n| n.parse::<u32>().unwrap_or(0)) {
            if step > 30 {
                return;
            }
            if self.rng.chance(10) {
                self.quiet("show state");
            }
            if self.rng.chance(5) {
                self.say(&format!("read {file} {offer} 1"));
            }
            if self.rng.chance(2) {
                return;
            }
            if matches!(self.kind, Kind::Damage | Kind::Foreign) && self.rng.chance(12) {
                self.damage_data();
            }
            let right = match pattern {
                0 => false,
                1 => true,
                2 => step % 2 == 0,
                3 => self.rng.chance(50),
                _ => offer <= target,
            };
            answer = self.say(if right { "right" } else { "left" });
            step += 1;
        }
        if self.rng.chance(10) {
            self.say(if step % 2 == 0 { "left" } else { "right" });
        }
    }

    /// A call out of place.
    fn stray(&mut self) {
        let file = self.file();
        let seq = self.number(file);
        let line = match self.rng.below(15) {
            0 => "finish".to_string(),
            1 => "discard".to_string(),
            2 => "end".to_string(),
            3 => "write 00".to_string(),
            4 => "write".to_string(),
            5 => "left".to_string(),
            6 => "right".to_string(),
            7 => format!("read {file} {seq} 1"),
            8 => format!("skip {file} {seq} 0"),
            9 => format!("truncate {file} 0"),
            10 => format!("rename {file} 8"),
            11 => format!("open {file}"),
            12 => format!("search {file}"),
            13 => "fill 1 0".to_string(),
            _ => "commit".to_string(),
        };
        self.say(&line);
    }

    fn wrong_sizes(&mut self) {
        let n = self.pages;
        let (image, map) = self.rng.pick(&[
            (256 * n - 1, n),
            (256 * n + 1, n),
            (256 * n, n + 1),
            (256 * n, n - 1),
            (256 * (n + 1), n + 1),
            (256 * (n - 1), n - 1),
            (768, 3),
            (1024, 4),
            (262_400, 1025),
            (262_144, 1024),
            (0, 0),
        ]);
        self.quiet(&format!("lend {image} {map}"));
        for _ in 0..1 + self.rng.below(3) {
            let line = self.rng.pick(&[
                "mount",
                "format",
                "commit",
                "open 0",
                "write",
                "write 00",
                "fill 3 0",
                "end",
                "finish",
                "discard",
                "left",
                "right",
                "read 0 0 0",
                "read 8 0 1",
                "skip 0 0 1",
                "locate 0 0",
                "search 0",
                "truncate 0 0",
                "truncate 0 1",
                "rename 0 1",
                "flags 0 1",
            ]);
            // a format of the wrong size drops everything: now and then only
            if line != "format" || self.rng.chance(20) {
                self.say(line);
            }
        }
        if self.world.mounted != Some(n) && self.world.lent_pages().is_some() && self.rng.chance(50) {
            self.pages = self.world.lent_pages().unwrap_or(n);
        }
        self.lend();
    }

    fn bad_line(&mut self) {
        let line = self.rng.pick(&BAD_LINES);
        self.quiet(line);
    }

    fn helpers(&mut self) {
        for _ in 0..1 + self.rng.below(4) {
            let bits = self.rng.below(33);
            let wide = |n: u64| (n >> (32 + bits).min(63)) as u32;
            let (a, b) = (wide(self.rng.next()), wide(self.rng.next()));
            let near = a.wrapping_add(self.rng.below(600) as u32);
            let b = if self.rng.chance(50) { near } else { b };
            let a = if self.rng.chance(8) { self.rng.pick(&[0, 1, b, u32::MAX]) } else { a };
            let i = self.rng.below(10);
            match self.rng.below(4) {
                0 => self.say(&format!("mtz {a} {b}")),
                1 => self.say(&format!("index {a} {b}")),
                2 => self.say(&format!("spanseq {a} {i}")),
                _ => self.say(&format!("seed {a}")),
            };
        }
    }

    fn poke_map(&mut self) {
        let at = self.rng.below(self.pages + 2);
        let byte = self.rng.pick(&["00", "00", "01", "02", "03", "ff"]);
        self.quiet(&format!("pokemap {at} {byte}"));
        self.quiet("show map");
    }
}
