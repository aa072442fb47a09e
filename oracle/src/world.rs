//! The world of a script, and what every call of document 01 checks first.

use crate::config::{FILE_COUNT, MAX_PAGES, MIN_PAGES, PAGE_SIZE};
use crate::file::reach::{self, Manager, Search};
use crate::file::{FileManager, FileWriter};
use crate::flash::Image;

/// Document 01's refusal numbers.
#[derive(Clone, Copy, PartialEq, Eq, Debug)]
pub enum Refusal {
    BadSize = 1,
    NotMounted = 2,
    Busy = 3,
    BadFile = 4,
    Damaged = 5,
    Eof = 6,
    Short = 7,
    NoRoom = 8,
    SeqEnd = 9,
    NoSearch = 10,
    Gone = 11,
    Range = 12,
}

pub type Answer<T> = Result<T, Refusal>;

pub struct World {
    /// Image, map, table, metadata page, seed and the transaction's mark.
    pub m: Manager,
    /// The image's pages while mounted.
    pub mounted: Option<usize>,
    pub writer: Option<FileWriter>,
    /// The search whose position is on offer.
    pub search: Option<Search>,
}

impl World {
    pub fn new() -> Self {
        let mut m = FileManager::new(Image::new(), 1);
        reach::set_transaction(&mut m, false);
        Self { m, mounted: None, writer: None, search: None }
    }

    /// A fresh table and state; image and map stay.
    pub fn renew(&mut self, seed: u32) {
        reach::renew(&mut self.m, seed);
        self.mounted = None;
        self.drop_open();
    }

    /// For running the Rust beside document 01.
    pub fn copy(&self) -> Self {
        Self { m: reach::copy(&self.m), mounted: self.mounted, writer: self.writer.clone(), search: self.search }
    }

    pub fn drop_open(&mut self) {
        self.writer = None;
        self.search = None;
        reach::set_transaction(&mut self.m, false);
    }

    pub fn lent_image(&self) -> &[u8] {
        let image = self.m.flash();
        &image.bytes[..image.lent]
    }

    pub fn lent_map(&self) -> &[u8] {
        reach::map(&self.m).lent()
    }

    pub fn transaction(&self) -> bool {
        reach::numbers(&self.m).transaction
    }

    /// The pages of what is lent, where it is an image with its map.
    pub fn lent_pages(&self) -> Option<usize> {
        let bytes = self.m.flash().lent;
        let pages = bytes / PAGE_SIZE;
        let fits = bytes == PAGE_SIZE * pages && (MIN_PAGES..=MAX_PAGES).contains(&pages);
        (fits && reach::map(&self.m).lent == pages).then_some(pages)
    }

    /// Checks 1 and 2.
    pub fn check_mounted(&self) -> Answer<()> {
        let Some(pages) = self.lent_pages() else {
            return Err(Refusal::BadSize);
        };
        match self.mounted {
            None => Err(Refusal::NotMounted),
            Some(n) if n != pages => Err(Refusal::BadSize),
            Some(_) => Ok(()),
        }
    }

    /// Checks 1 to 3 of what reads; the text asserts: docs/DIFFERENCES.md, 16.
    pub fn check_reading(&self) -> Answer<()> {
        self.check_mounted()?;
        if self.transaction() {
            return Err(Refusal::Busy);
        }
        Ok(())
    }

    /// Checks 1 to 3 of what changes files. A writer is in the way, an open transaction is not:
    /// docs/DIFFERENCES.md, 16 and 1.
    pub fn check_changing(&self) -> Answer<()> {
        self.check_mounted()?;
        if self.writer.is_some() {
            return Err(Refusal::Busy);
        }
        Ok(())
    }

    /// Check 4: docs/DIFFERENCES.md, 17.
    pub fn check_file(file: u8) -> Answer<()> {
        if file as usize >= FILE_COUNT {
            return Err(Refusal::BadFile);
        }
        Ok(())
    }

    /// Checks 11 and 6; gives how many bytes remain.
    pub fn check_number(&self, file: u8, seq: u32) -> Answer<u32> {
        let r = reach::record(&self.m, file);
        if seq < r.first {
            return Err(Refusal::Gone);
        }
        if seq >= r.last {
            return Err(Refusal::Eof);
        }
        Ok(r.last - seq)
    }

    /// A transaction is open now: no position stays on offer.
    pub fn opened_transaction(&mut self) {
        reach::set_transaction(&mut self.m, true);
        self.search = None;
    }
}
