//! The Rust, called with nothing between: each function is one call of its own FileManager, reader, writer or searcher.

use super::*;
use crate::flash::Image;
use std::future::Future;
use std::pin::pin;
use std::task::{Context, Poll, Waker};

/// The page layer never waits, so one poll is enough.
#[inline(always)]
fn wait<T>(f: impl Future<Output = T>) -> T {
    match pin!(f).poll(&mut Context::from_waker(Waker::noop())) {
        Poll::Ready(t) => t,
        Poll::Pending => unreachable!("the page layer is synchronous"),
    }
}

pub struct Rust {
    m: FileManager<Image>,
}

/// All but the image, for doing a call again.
pub struct Saved {
    files: [FileState; FILE_COUNT],
    meta_page_id: PageID,
    meta_seq: Seq,
    dirty: bool,
    random: u32,
    alloc: Allocator,
}

impl Rust {
    pub fn new(pages: usize, seed: u32) -> Self {
        let image = Image { bytes: vec![0xff; pages * PAGE_SIZE], headers: 0 };
        let mut m = FileManager::new(image, seed);
        m.alloc.lent = pages;
        wait(m.format()).unwrap();
        Self { m }
    }

    pub fn image(&self) -> &[u8] {
        &self.m.flash.bytes
    }

    pub fn map(&self) -> &[u8] {
        self.m.alloc.lent()
    }

    pub fn save(&self) -> Saved {
        let m = &self.m;
        Saved {
            files: m.files,
            meta_page_id: m.meta_page_id,
            meta_seq: m.meta_seq,
            dirty: m.dirty,
            random: m.random,
            alloc: m.alloc.clone(),
        }
    }

    pub fn restore(&mut self, s: &Saved, image: &[u8]) {
        let m = &mut self.m;
        m.files = s.files;
        m.meta_page_id = s.meta_page_id;
        m.meta_seq = s.meta_seq;
        m.dirty = s.dirty;
        m.random = s.random;
        m.alloc.clone_from(&s.alloc);
        m.flash.bytes.copy_from_slice(image);
    }

    #[inline(never)]
    pub fn mount(&mut self) {
        wait(self.m.mount(&mut PageReader::new())).unwrap();
    }

    #[inline(never)]
    pub fn locate(&mut self, file: u8, seq: u32) -> u16 {
        wait(self.m.get_file_page(file, Seq(seq))).unwrap().unwrap().page_id.index() as u16
    }

    #[inline(never)]
    pub fn read(&mut self, file: u8, seq: u32, out: &mut [u8]) {
        let mut r = PageReader::new();
        let mut reader = FileReader::new(&mut self.m, &mut r, file);
        wait(reader.seek_seq(&mut self.m, Seq(seq))).unwrap();
        wait(reader.read(&mut self.m, out)).unwrap();
    }

    /// Open, write, end the record, finish and commit.
    #[inline(never)]
    pub fn append(&mut self, file: u8, bytes: &[u8]) {
        let mut r = PageReader::new();
        let mut w = wait(FileWriter::new(&mut self.m, &mut r, file)).unwrap();
        wait(w.write(&mut self.m, bytes)).unwrap();
        w.record_end();
        wait(w.commit(&mut Transaction { m: &mut self.m })).unwrap();
        self.commit();
    }

    /// One writer for many records.
    pub fn fill(&mut self, file: u8, bytes: &[u8], record: usize) {
        let mut r = PageReader::new();
        let mut w = wait(FileWriter::new(&mut self.m, &mut r, file)).unwrap();
        for part in bytes.chunks(record) {
            wait(w.write(&mut self.m, part)).unwrap();
            w.record_end();
        }
        wait(w.commit(&mut Transaction { m: &mut self.m })).unwrap();
        self.commit();
    }

    /// The Rust's commit; then what was held is free, as document 01 has it.
    fn commit(&mut self) {
        wait(Transaction { m: &mut self.m }.commit()).unwrap();
        self.m.alloc.release();
    }

    #[inline(never)]
    pub fn truncate(&mut self, file: u8, bytes: usize) {
        wait(Transaction { m: &mut self.m }.truncate(file, bytes)).unwrap();
    }

    /// Searches the last record that starts at or before a number; gives its start and the offers on the way.
    #[inline(never)]
    pub fn search(&mut self, file: u8, target: u32) -> (u32, u32) {
        let mut r = PageReader::new();
        let mut s = FileSearcher::new(FileReader::new(&mut self.m, &mut r, file));
        let mut offers = 0;
        let mut on = wait(s.start(&mut self.m)).unwrap();
        while on {
            offers += 1;
            let dir = if s.curr_mid.0 <= target { SeekDirection::Right } else { SeekDirection::Left };
            on = wait(s.seek(&mut self.m, dir)).unwrap();
        }
        (s.result.0, offers)
    }
}
