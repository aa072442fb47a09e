//! The oracle's image and its two stores, without its journal and without its check that a run goes over erased bytes.

use crate::config::PAGE_SIZE;
pub use crate::types::PageID;

pub trait Flash {
    type Error: core::fmt::Debug;

    fn page_count(&self) -> usize;
    async fn erase(&mut self, page_id: PageID) -> Result<(), Self::Error>;
    fn page(&self, page_id: PageID) -> Option<&[u8]>;
    fn wipe(&mut self, page_id: PageID);
    fn program(&mut self, page_id: PageID, offset: usize, run: &[u8]);
    fn count_header(&mut self);
}

pub struct Image {
    pub bytes: Vec<u8>,
    /// Headers read since somebody set it to 0.
    pub headers: u32,
}

impl Flash for Image {
    type Error = core::convert::Infallible;

    fn page_count(&self) -> usize {
        self.bytes.len() / PAGE_SIZE
    }

    async fn erase(&mut self, page_id: PageID) -> Result<(), Self::Error> {
        self.wipe(page_id);
        Ok(())
    }

    fn page(&self, page_id: PageID) -> Option<&[u8]> {
        let at = page_id.index() * PAGE_SIZE;
        self.bytes.get(at..at + PAGE_SIZE)
    }

    fn wipe(&mut self, page_id: PageID) {
        let at = page_id.index() * PAGE_SIZE;
        self.bytes[at..at + PAGE_SIZE].fill(0xff);
    }

    fn program(&mut self, page_id: PageID, offset: usize, run: &[u8]) {
        let at = page_id.index() * PAGE_SIZE + offset;
        self.bytes[at..at + run.len()].copy_from_slice(run);
    }

    fn count_header(&mut self) {
        self.headers += 1;
    }
}
