//! Images that nobody of ours wrote: pages of any length, gaps, old entries, numbers near the limit.

use super::{Kind, Script};
use crate::config::{LIMIT, PAGE_SIZE};
use crate::file::reach;

struct Page {
    id: u16,
    seq: u32,
    links: [u16; 9],
    boundary: u16,
    length: u16,
}

impl Page {
    fn bytes(&self) -> Vec<u8> {
        let mut bytes = 0x7fcb_f35du32.to_le_bytes().to_vec();
        bytes.extend(self.seq.to_le_bytes());
        for link in self.links {
            bytes.extend(link.to_le_bytes());
        }
        bytes.extend(self.boundary.to_le_bytes());
        bytes.extend(self.length.to_le_bytes());
        bytes.extend((u16::MAX - self.length).to_le_bytes());
        bytes
    }
}

impl Script {
    /// A whole image by pokes, then a mount.
    pub(super) fn foreign(&mut self) {
        let pages = self.pages;
        self.quiet("blank");
        let count = if self.rng.chance(75) { pages } else { 1 + self.rng.below(pages) };
        let mut ids: Vec<u16> = (0..count as u16).collect();
        for i in (1..ids.len()).rev() {
            ids.swap(i, self.rng.below(i + 1));
        }
        let meta = ids.pop().unwrap_or(0);
        // a few pages stay free, mostly
        let spare = if self.rng.chance(80) { self.rng.below(ids.len().min(5) + 1) } else { 0 };
        ids.truncate(ids.len() - spare.min(ids.len()));

        let mut entries: Vec<[u8; 8]> = Vec::new();
        for _ in 0..1 + self.rng.below(3) {
            let file = self.rng.pick(&[0, 1, 3, 7]);
            if self.rng.chance(10) {
                // an entry that may be replaced, of a file without pages
                entries.push([file, self.rng.below(3) as u8, 0xff, 0xff, 0, 0, 0, 0]);
            }
            let chain = self.chain(&mut ids);
            let (Some(last), Some(oldest)) = (chain.last(), chain.first()) else { continue };
            // mostly in the oldest page, sometimes later, seldom before it
            let from = if self.rng.chance(75) { oldest } else { &chain[self.rng.below(chain.len())] };
            let first = match self.rng.below(12) {
                0 => from.seq.saturating_sub(1),
                1..=6 => from.seq,
                _ => from.seq.saturating_add(self.rng.below(from.length as usize) as u32),
            };
            let mut entry = [file, self.rng.below(4) as u8, 0, 0, 0, 0, 0, 0];
            entry[2..4].copy_from_slice(&last.id.to_le_bytes());
            entry[4..].copy_from_slice(&first.to_le_bytes());
            entries.push(entry);
            for page in &chain {
                self.put_page(page);
            }
        }
        self.put_metadata(meta, count, &entries);
        if self.rng.chance(12) {
            self.damage();
            return;
        }
        if self.say("mount") != "ok" && self.rng.chance(70) {
            self.say("format");
        }
        self.quiet("show table");
    }

    fn base(&mut self) -> u32 {
        if self.kind == Kind::Limit || self.rng.chance(5) {
            return LIMIT - self.rng.below(1800) as u32;
        }
        match self.rng.below(5) {
            0..=1 => 0,
            2 => 224 * self.rng.below(200) as u32,
            3 => self.rng.below(70_000) as u32,
            _ => self.rng.below(LIMIT as usize - 5000) as u32,
        }
    }

    /// Pages from the oldest, linked as document 01 says; lengths, gaps and boundaries are anything.
    fn chain(&mut self, ids: &mut Vec<u16>) -> Vec<Page> {
        let base = self.base();
        let (full, gaps, named) = (self.rng.chance(60), self.rng.chance(15), self.rng.below(100));
        let mut chain: Vec<Page> = Vec::new();
        for _ in 0..1 + self.rng.below(9) {
            let Some(id) = ids.pop() else { break };
            let mut length = if full { 224 } else { 1 + self.rng.below(224) as u16 };
            let (mut seq, mut links) = (base, [u16::MAX; 9]);
            if let Some(before) = chain.last() {
                let gap = if gaps { self.rng.below(20) as u32 } else { 0 };
                let next = before.seq as u64 + before.length as u64 + gap as u64;
                if next >= LIMIT as u64 {
                    break;
                }
                seq = next as u32;
                links = before.links;
                let top = reach::index(before.seq, seq);
                links[..=top].fill(before.id);
            }
            // now and then right up to the limit, or one past it
            let left = LIMIT - seq;
            if left < length as u32 && self.rng.chance(90) {
                length = (left as u16 + self.rng.pick(&[0, 0, 0, 1])).max(1);
            }
            let boundary = match self.rng.below(100) {
                n if n < named => self.rng.below(length as usize) as u16,
                n if n > 95 => self.rng.pick(&[length, 223, 224, 300, length.saturating_add(1)]),
                _ => u16::MAX,
            };
            chain.push(Page { id, seq, links, boundary, length });
        }
        // links that mount does not look at, or where its walk ends
        if !chain.is_empty() && self.rng.chance(30) {
            let at = self.rng.below(chain.len());
            let link = if self.rng.chance(25) { 0 } else { 1 + self.rng.below(8) };
            let other = chain[self.rng.below(chain.len())].id;
            let outside = self.pages as u16;
            chain[at].links[link] = if link == 0 { u16::MAX } else { self.rng.pick(&[u16::MAX, outside, other]) };
        }
        if let Some(last) = chain.last_mut() {
            if self.rng.chance(40) {
                last.length = 1 + self.rng.below(last.length as usize) as u16;
            }
        }
        chain
    }

    fn put_page(&mut self, page: &Page) {
        let mut bytes = page.bytes();
        if self.rng.chance(40) {
            let start = self.rng.below(251);
            bytes.extend((0..page.length as usize).map(|i| ((start + i) % 251) as u8));
        }
        let hex: String = bytes.iter().map(|b| format!("{b:02x}")).collect();
        self.quiet(&format!("poke {} {hex}", page.id as usize * PAGE_SIZE));
    }

    fn put_metadata(&mut self, page: u16, count: usize, entries: &[[u8; 8]]) {
        let seq = match self.rng.below(10) {
            0 => u32::MAX,
            1 => u32::MAX - 1,
            2 => self.rng.next() as u32 | 1,
            _ => 1 + self.rng.below(3) as u32,
        };
        let mut bytes = 0x1d81_bcdeu32.to_le_bytes().to_vec();
        bytes.extend((count as u32).to_le_bytes());
        bytes.extend(seq.to_le_bytes());
        let together = self.rng.chance(50);
        let size = if together { entries.len().clamp(1, 8) } else { 1 };
        for batch in entries.chunks(size) {
            let n = batch.len() as u16;
            bytes.extend(n.to_le_bytes());
            bytes.extend((u16::MAX - n).to_le_bytes());
            batch.iter().for_each(|e| bytes.extend(e));
        }
        let hex: String = bytes.iter().map(|b| format!("{b:02x}")).collect();
        self.quiet(&format!("poke {} {hex}", page as usize * PAGE_SIZE));
        if seq > 1 && self.rng.chance(20) {
            // an older one, which does not win
            let other = self.rng.below(self.pages);
            if other != page as usize {
                let mut old = bytes[..12].to_vec();
                old[8..].copy_from_slice(&(seq - 1).to_le_bytes());
                let hex: String = old.iter().map(|b| format!("{b:02x}")).collect();
                self.quiet(&format!("poke {} {hex}", other * PAGE_SIZE));
            }
        }
    }
}
