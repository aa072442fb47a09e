//! The lent image, and document 01's two stores: erase one page, program one run over erased bytes.

use crate::config::PAGE_SIZE;
pub use crate::types::PageID;

pub trait Flash {
    type Error: core::fmt::Debug;

    fn page_count(&self) -> usize;
    async fn erase(&mut self, page_id: PageID) -> Result<(), Self::Error>;

    /// Ours: the bytes of a page as they stand; none where the page is outside the image.
    fn page(&self, page_id: PageID) -> Option<&[u8]>;
    /// Ours: both stores, without waiting.
    fn wipe(&mut self, page_id: PageID);
    fn program(&mut self, page_id: PageID, offset: usize, run: &[u8]);
    /// Ours: a header was read.
    fn count_header(&mut self);
}

/// The image buffer of a script. Only its first `lent` bytes are the image.
#[derive(Clone)]
pub struct Image {
    pub bytes: Vec<u8>,
    pub lent: usize,
    /// Headers read since somebody set it to 0.
    pub headers: u32,
    /// Pages as they were before each store since the last `begin`, for taking a call back.
    journal: Vec<(usize, Vec<u8>)>,
}

impl Image {
    pub const SIZE: usize = 262_656;

    pub fn new() -> Self {
        Self { bytes: vec![0xff; Self::SIZE], lent: 0, headers: 0, journal: Vec::new() }
    }

    /// No image at all.
    pub fn nothing() -> Self {
        Self { bytes: Vec::new(), lent: 0, headers: 0, journal: Vec::new() }
    }

    pub fn begin(&mut self) {
        self.journal.clear();
    }

    pub fn take_back(&mut self) {
        while let Some((at, old)) = self.journal.pop() {
            self.bytes[at..at + old.len()].copy_from_slice(&old);
        }
    }

    fn remember(&mut self, page_id: PageID) -> usize {
        let at = page_id.index() * PAGE_SIZE;
        self.journal.push((at, self.bytes[at..at + PAGE_SIZE].to_vec()));
        at
    }
}

impl Flash for Image {
    type Error = core::convert::Infallible;

    fn page_count(&self) -> usize {
        self.lent / PAGE_SIZE
    }

    async fn erase(&mut self, page_id: PageID) -> Result<(), Self::Error> {
        self.wipe(page_id);
        Ok(())
    }

    fn page(&self, page_id: PageID) -> Option<&[u8]> {
        let at = page_id.index() * PAGE_SIZE;
        self.bytes[..self.lent].get(at..at + PAGE_SIZE)
    }

    fn wipe(&mut self, page_id: PageID) {
        let at = self.remember(page_id);
        self.bytes[at..at + PAGE_SIZE].fill(0xff);
    }

    fn program(&mut self, page_id: PageID, offset: usize, run: &[u8]) {
        let at = self.remember(page_id) + offset;
        let place = &mut self.bytes[at..at + run.len()];
        assert!(place.iter().all(|&x| x == 0xff), "a run is programmed over erased bytes only");
        place.copy_from_slice(run);
    }

    fn count_header(&mut self) {
        self.headers += 1;
    }
}
