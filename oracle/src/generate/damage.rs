//! Damage to an image that stands: one field of one page, then mostly a mount.

use super::Script;
use crate::config::{LIMIT, LOG_AT, PAGE_SIZE};
use crate::file::reach;

impl Script {
    pub(super) fn damage(&mut self) {
        for _ in 0..1 + self.rng.below(2) {
            if self.rng.chance(45) {
                self.damage_metadata();
            } else {
                self.damage_data();
            }
        }
        match self.rng.below(10) {
            0..=5 => {
                let refused = self.say("mount") != "ok";
                if refused && self.rng.chance(60) {
                    self.repair();
                }
            }
            6 => {
                self.say("commit");
            }
            _ => {}
        }
    }

    /// After a refused mount: something that can be mounted again.
    fn repair(&mut self) {
        if self.rng.chance(50) {
            self.say("format");
        } else {
            self.foreign();
        }
    }

    /// A page of some file, near its end; any page where there is none.
    fn some_page(&mut self) -> usize {
        if let Some(writer) = &self.world.writer {
            let stored = reach::stored(&self.world.m, writer);
            let pages = reach::steps_back(&mut self.world.m, writer, stored).unwrap_or_default();
            if !pages.is_empty() && self.rng.chance(60) {
                return pages[self.rng.below(pages.len())].index();
            }
        }
        let used: Vec<u8> = (0..8).filter(|&f| self.record(f).page != u16::MAX).collect();
        if used.is_empty() || self.rng.chance(10) {
            return self.rng.below(self.pages);
        }
        let file = self.rng.pick(&used);
        let first = self.record(file).first;
        let mounted = self.world.mounted.is_some() && self.world.check_mounted().is_ok();
        let pages = if mounted { reach::walk(&mut self.world.m, file, first) } else { None };
        match pages {
            Some(pages) if !pages.is_empty() => {
                let i = self.rng.below(pages.len());
                pages[i].index()
            }
            _ => self.record(file).page as usize,
        }
    }

    fn some_seq(&mut self) -> u32 {
        let file = self.file();
        let r = self.record(file);
        let around = self.rng.pick(&[r.first, r.last, r.seq, 0, 224, 448, LIMIT, LIMIT - 224, u32::MAX]);
        match self.rng.below(4) {
            0 => around.wrapping_add(1 + self.rng.below(300) as u32),
            1 => around.wrapping_sub(1 + self.rng.below(300) as u32),
            _ => around,
        }
    }

    fn poke(&mut self, page: usize, at: usize, bytes: &[u8]) {
        let hex: String = bytes.iter().map(|b| format!("{b:02x}")).collect();
        self.quiet(&format!("poke {} {hex}", page * PAGE_SIZE + at));
    }

    pub(super) fn damage_data(&mut self) {
        let page = self.some_page();
        match self.rng.below(14) {
            0 => self.poke(page, 0, &[0x5c]),
            1..=3 => {
                let seq = self.some_seq();
                self.poke(page, 4, &seq.to_le_bytes());
            }
            4..=7 => {
                let link = if self.rng.chance(60) { 0 } else { self.rng.below(9) };
                let to = match self.rng.below(6) {
                    0..=1 => u16::MAX,
                    2 => self.pages as u16,
                    3 => page as u16,
                    _ => self.some_page() as u16,
                };
                self.poke(page, 8 + 2 * link, &to.to_le_bytes());
            }
            8..=9 => {
                let odd = self.rng.below(300) as u16;
                let boundary = self.rng.pick(&[u16::MAX, 0, 1, 10, 223, 224, 225, 65_534, odd]);
                self.poke(page, 26, &boundary.to_le_bytes());
            }
            10..=11 => {
                let odd = self.rng.below(226) as u16;
                let length = self.rng.pick(&[0, 1, 223, 224, 225, odd]);
                let mut bytes = length.to_le_bytes().to_vec();
                bytes.extend((u16::MAX - length).to_le_bytes());
                self.poke(page, 28, &bytes);
            }
            12 => self.poke(page, 30, &[0x55]),
            _ => {
                let at = 32 + self.rng.below(224);
                self.poke(page, at, &[0xa5, 0x5a][..1 + (at < 255) as usize]);
            }
        }
    }

    fn damage_metadata(&mut self) {
        let n = reach::numbers(&self.world.m);
        let page = if self.rng.chance(85) { n.meta as usize } else { self.rng.below(self.pages) };
        match self.rng.below(12) {
            0 => self.poke(page, 0, &[0xdf]),
            1..=2 => {
                let pages = self.pages as u32;
                let used = pages.saturating_sub(1 + self.rng.below(4) as u32);
                let count = self.rng.pick(&[0, 1, pages - 1, pages, pages + 1, used, u32::MAX]);
                self.poke(page, 4, &count.to_le_bytes());
            }
            3..=4 => {
                let seq = self.rng.pick(&[0, 1, n.seq, n.seq.wrapping_add(1), u32::MAX - 1, u32::MAX]);
                self.poke(page, 8, &seq.to_le_bytes());
            }
            5..=8 => self.damage_log(page),
            9 => {
                // another metadata page
                let mut bytes = 0x1d81_bcdeu32.to_le_bytes().to_vec();
                bytes.extend((self.pages as u32).to_le_bytes());
                let seq = self.rng.pick(&[0, 1, n.seq, n.seq.wrapping_add(1)]);
                bytes.extend(seq.to_le_bytes());
                let other = self.rng.below(self.pages);
                self.poke(other, 0, &bytes);
            }
            10 => {
                let at = 200 + self.rng.below(56);
                self.poke(page, at, &[0x00]);
            }
            _ => {
                let at = LOG_AT + self.rng.below(PAGE_SIZE - LOG_AT);
                let byte = self.rng.below(256) as u8;
                self.poke(page, at, &[byte]);
            }
        }
    }

    /// One batch more, behind the log or on its first batch, whole or not.
    fn damage_log(&mut self, page: usize) {
        let at = self.log_end(page);
        if at + 12 <= PAGE_SIZE && self.rng.chance(20) {
            // a page on two chains, where it reads
            let mut bytes = vec![1, 0, 0xfe, 0xff, self.rng.pick(&[2, 4, 5]), 0];
            bytes.extend((self.some_page() as u16).to_le_bytes());
            bytes.extend([0; 4]);
            return self.poke(page, at, &bytes);
        }
        let count: u16 = self.rng.pick(&[0, 1, 1, 1, 2, 8, 9, u16::MAX]);
        let mut bytes = count.to_le_bytes().to_vec();
        bytes.extend((u16::MAX - count).to_le_bytes());
        if self.rng.chance(10) {
            bytes[2] ^= 1;
        }
        for _ in 0..count.min(3) {
            let file = self.rng.pick(&[0, 1, 3, 7, 8, 255]);
            let odd = self.some_page() as u16;
            let last = self.rng.pick(&[u16::MAX, self.pages as u16, page as u16, odd, odd]);
            let known = self.record(file).first;
            let seq = self.some_seq();
            let first = self.rng.pick(&[0, 0, 0, known, known, seq]);
            bytes.extend([file, self.rng.below(4) as u8]);
            bytes.extend(last.to_le_bytes());
            bytes.extend(first.to_le_bytes());
        }
        let room = PAGE_SIZE.saturating_sub(at);
        bytes.truncate(room);
        if !bytes.is_empty() {
            self.poke(page, at, &bytes);
        }
    }

    fn log_end(&self, page: usize) -> usize {
        let Some(bytes) = self.world.lent_image().get(page * PAGE_SIZE..(page + 1) * PAGE_SIZE) else {
            return LOG_AT;
        };
        let mut at = LOG_AT;
        while at + 4 <= PAGE_SIZE && bytes[at..at + 4] != [0xff; 4] {
            let count = u16::from_le_bytes([bytes[at], bytes[at + 1]]) as usize;
            if !(1..=8).contains(&count) {
                break;
            }
            at += 4 + 8 * count;
        }
        at.min(PAGE_SIZE - 4)
    }
}
