//! The page map of document 01, leaf 4: a lent byte for each page, and a cursor.

use crate::errors::CorruptedError;
use crate::types::PageID;

pub const FREE: u8 = 0;
pub const USED: u8 = 1;
pub const HELD: u8 = 2;
pub const OUTSIDE: u8 = 3;

#[derive(Clone)]
pub struct Allocator {
    /// The map buffer of a script. Only its first `lent` bytes are the map.
    pub bytes: Vec<u8>,
    pub lent: usize,
    pub page_count: usize,
    pub cursor: usize,
    /// True where a freed page is held until commit, as document 01 has it; the Rust frees at once
    /// (docs/DIFFERENCES.md, 3).
    pub holds: bool,
}

impl Allocator {
    pub const SIZE: usize = 1_026;

    pub fn new() -> Self {
        Self { bytes: vec![FREE; Self::SIZE], lent: 0, page_count: 0, cursor: 0, holds: true }
    }

    pub fn lent(&self) -> &[u8] {
        &self.bytes[..self.lent]
    }

    pub fn reset(&mut self, page_count: usize, random_seed: u32) {
        self.page_count = page_count;
        self.cursor = random_seed as usize % page_count;
        let map = &mut self.bytes[..self.lent];
        map[..page_count].fill(FREE);
        map[page_count..].fill(OUTSIDE);
    }

    pub fn allocate(&mut self) -> PageID {
        self.try_allocate().unwrap()
    }

    pub fn try_allocate(&mut self) -> Option<PageID> {
        let upward = self.cursor..self.page_count;
        let id = upward.chain(0..self.cursor).find(|&i| self.bytes[i] == FREE)?;
        self.bytes[id] = USED;
        self.cursor = if id + 1 == self.page_count { 0 } else { id + 1 };
        PageID::from_raw(id as u16)
    }

    pub fn mark_used(&mut self, page_id: PageID) -> Result<(), CorruptedError> {
        let byte = &mut self.bytes[page_id.index()];
        if *byte != FREE {
            crate::hits::name("map: page twice");
            return Err(CorruptedError);
        }
        *byte = USED;
        Ok(())
    }

    pub fn free(&mut self, page_id: PageID) -> Result<(), CorruptedError> {
        let byte = &mut self.bytes[page_id.index()];
        if self.holds {
            // whatever stood there: docs/DIFFERENCES.md, 18
            *byte = HELD;
            return Ok(());
        }
        if *byte != USED {
            return Err(CorruptedError);
        }
        *byte = FREE;
        Ok(())
    }

    /// Commit is done: what was held is free.
    pub fn release(&mut self) {
        let map = &mut self.bytes[..self.lent];
        map.iter_mut().filter(|b| **b == HELD).for_each(|b| *b = FREE);
    }

    pub fn used_pages(&self) -> usize {
        self.page_count - self.free_pages()
    }

    pub fn free_pages(&self) -> usize {
        self.bytes[..self.page_count].iter().filter(|b| **b == FREE).count()
    }

    pub fn page_count(&self) -> usize {
        self.page_count
    }
}
