//! The page layer, built to document 01's layout: data pages with one payload, metadata pages with a log.

use core::marker::PhantomData;
use core::mem::size_of;

use crate::config::{LOG_AT, PAGE_SIZE, PAYLOAD, PAYLOAD_AT};
use crate::errors::{CorruptedError, Error};
use crate::flash::Flash;
use crate::hits;
use crate::types::PageID;

/// Named by the text for the size of what stands before its own header: the magic.
pub struct PageHeader;
impl PageHeader {
    pub const SIZE: usize = 4;
}

/// Named by the text for the size of a pair: of a data page's length, or of a batch's count.
pub struct ChunkHeader;
impl ChunkHeader {
    pub const SIZE: usize = 4;
}

pub(crate) const MAX_CHUNK_SIZE: usize = PAYLOAD;
const ENTRY: usize = 8;

#[derive(Clone, Copy, PartialEq, Eq, Debug)]
pub enum ReadError<E> {
    Flash(E),
    Eof,
    Corrupted,
}

impl<E> From<Error<E>> for ReadError<E> {
    fn from(err: Error<E>) -> Self {
        match err {
            Error::Flash(e) => Self::Flash(e),
            Error::Corrupted => Self::Corrupted,
        }
    }
}

/// A header of the layer above.
///
/// # Safety
///
/// The type is repr(C), has no gaps, and takes any bytes.
pub unsafe trait Header: Sized {
    const MAGIC: u32;
}

/// The header of a metadata page is 8 bytes after its magic, that of a data page 24.
fn is_data<H: Header>() -> bool {
    PageHeader::SIZE + size_of::<H>() != LOG_AT
}

fn u16_at(bytes: &[u8], at: usize) -> u16 {
    u16::from_le_bytes([bytes[at], bytes[at + 1]])
}

/// A count or length, where the number behind it is 65535 minus it.
fn pair_at(bytes: &[u8], at: usize) -> Option<usize> {
    let n = u16_at(bytes, at);
    (u16_at(bytes, at + 2) == u16::MAX - n).then_some(n as usize)
}

fn pair(n: usize) -> [u8; 4] {
    let [a, b] = (n as u16).to_le_bytes();
    [a, b, !a, !b]
}

/// The header in a page's bytes, and a data page's length (0 for a metadata page).
fn header_in<H: Header>(bytes: &[u8]) -> Option<(H, usize)> {
    if bytes[..PageHeader::SIZE] != H::MAGIC.to_le_bytes() {
        return None;
    }
    let length = if is_data::<H>() {
        pair_at(bytes, PageHeader::SIZE + size_of::<H>()).filter(|n| (1..=PAYLOAD).contains(n))?
    } else {
        0
    };
    let own = &bytes[PageHeader::SIZE..PageHeader::SIZE + size_of::<H>()];
    // the type takes any bytes, and there are as many as it has
    let header = unsafe { own.as_ptr().cast::<H>().read_unaligned() };
    Some((header, length))
}

/// The bytes that stand before a page's payload or log.
pub fn header_bytes<H: Header>(header: H, length: usize) -> Vec<u8> {
    let mut bytes = H::MAGIC.to_le_bytes().to_vec();
    let mut own = vec![0; size_of::<H>()];
    unsafe { own.as_mut_ptr().cast::<H>().write_unaligned(header) };
    bytes.append(&mut own);
    if is_data::<H>() {
        bytes.extend(pair(length));
    }
    bytes
}

pub async fn read_header<F: Flash, H: Header>(flash: &mut F, page_id: PageID) -> Result<H, Error<F::Error>> {
    flash.count_header();
    let found = flash.page(page_id).and_then(header_in::<H>);
    found.map(|(header, _)| header).ok_or(Error::Corrupted)
}

/// One batch of a metadata page's log, or its end.
enum Batch {
    Entries(usize),
    End,
}

fn batch_at(page: &[u8], at: usize) -> Result<Batch, CorruptedError> {
    if at + 4 > PAGE_SIZE || page[at..at + 4] == [0xff; 4] {
        return Ok(Batch::End);
    }
    let Some(count) = pair_at(page, at) else {
        hits::name("log: pair disagrees");
        return Err(CorruptedError);
    };
    if !(1..=8).contains(&count) {
        hits::name(if count == 0 { "log: count 0" } else { "log: count above 8" });
        return Err(CorruptedError);
    }
    if at + 4 + ENTRY * count > PAGE_SIZE {
        hits::name("log: past the page");
        return Err(CorruptedError);
    }
    Ok(Batch::Entries(count))
}

/// Where the log of a metadata page ends.
fn log_end(page: &[u8]) -> Result<usize, CorruptedError> {
    let mut at = LOG_AT;
    while let Batch::Entries(count) = batch_at(page, at)? {
        at += 4 + ENTRY * count;
    }
    Ok(at)
}

/// What commit asks of a metadata page beforehand: would `entries` more fit behind its log, over erased bytes?
pub fn log_takes(page: &[u8], entries: usize) -> Result<bool, CorruptedError> {
    let end = log_end(page)?;
    Ok(end + 4 + ENTRY * entries <= PAGE_SIZE && page[end..].iter().all(|&x| x == 0xff))
}

#[derive(Clone)]
pub struct DehydratedPageReader;

pub struct PageReader {
    page_id: PageID,
    is_data: bool,
    /// The run being read, from and to; a batch's entries or a payload.
    at: usize,
    to: usize,
    /// Where set, opening this page goes by these header bytes instead of the image's:
    /// docs/DIFFERENCES.md, 13.
    record: Option<(PageID, Vec<u8>)>,
}

impl PageReader {
    pub const fn new() -> Self {
        Self { page_id: PageID::zero(), is_data: false, at: 0, to: 0, record: None }
    }

    pub const fn by_record(page_id: PageID, header: Vec<u8>) -> Self {
        Self { page_id: PageID::zero(), is_data: false, at: 0, to: 0, record: Some((page_id, header)) }
    }

    // Readers are not kept over calls: a reader is a file and a number.
    pub fn dehydrate(&self) -> DehydratedPageReader {
        DehydratedPageReader
    }

    pub async fn rehydrate_from<F: Flash>(
        &mut self,
        _flash: &mut F,
        _dehydrated: &DehydratedPageReader,
    ) -> Result<(), Error<F::Error>> {
        Err(Error::Corrupted)
    }

    pub async fn open<F: Flash, H: Header>(&mut self, flash: &mut F, page_id: PageID) -> Result<H, Error<F::Error>> {
        let header = match &self.record {
            Some((own, bytes)) if *own == page_id => header_in::<H>(bytes),
            _ => flash.page(page_id).and_then(header_in::<H>),
        };
        let (header, length) = header.ok_or_else(|| {
            hits::name("page: opened unreadable");
            Error::Corrupted
        })?;
        self.page_id = page_id;
        self.is_data = is_data::<H>();
        self.at = if self.is_data { PAYLOAD_AT } else { LOG_AT };
        self.to = self.at + length;
        Ok(header)
    }

    pub fn page_id(&self) -> PageID {
        self.page_id
    }

    /// At most to the end of the payload or batch.
    pub async fn read<F: Flash>(&mut self, flash: &mut F, data: &mut [u8]) -> Result<usize, Error<F::Error>> {
        if self.is_at_eof(flash).await? {
            return Ok(0);
        }
        let n = data.len().min(self.to - self.at);
        let page = flash.page(self.page_id).ok_or(Error::Corrupted)?;
        data[..n].copy_from_slice(&page[self.at..self.at + n]);
        self.at += n;
        Ok(n)
    }

    pub async fn skip<F: Flash>(&mut self, _flash: &mut F, len: usize) -> Result<usize, Error<F::Error>> {
        let n = len.min(self.to - self.at);
        self.at += n;
        Ok(n)
    }

    pub async fn is_at_eof<F: Flash>(&mut self, flash: &mut F) -> Result<bool, Error<F::Error>> {
        if self.at == self.to && !self.is_data {
            let page = flash.page(self.page_id).ok_or(Error::Corrupted)?;
            if let Batch::Entries(count) = batch_at(page, self.at)? {
                self.at += 4;
                self.to = self.at + ENTRY * count;
            }
        }
        Ok(self.at == self.to)
    }
}

/// Stages a page's payload, or a batch's entries, and stores it in document 01's order.
#[derive(Clone)]
pub struct PageWriter<H: Header> {
    header: PhantomData<H>,
    page_id: PageID,
    staged: Vec<u8>,
    /// Where a batch goes on a metadata page.
    at: usize,
    /// How many more bytes may come.
    room: usize,
    /// An appended batch is stored by `commit`, a whole page by `write_header`.
    append: bool,
}

impl<H: Header> PageWriter<H> {
    pub fn new() -> Self {
        let room = if is_data::<H>() { PAYLOAD } else { PAGE_SIZE - LOG_AT - 4 };
        Self { header: PhantomData, page_id: PageID::zero(), staged: Vec::new(), at: LOG_AT, room, append: false }
    }

    pub async fn open<F: Flash>(&mut self, _flash: &mut F, page_id: PageID) {
        *self = Self::new();
        self.page_id = page_id;
    }

    pub async fn open_append<F: Flash>(&mut self, flash: &mut F, page_id: PageID) -> Result<(), Error<F::Error>> {
        let page = flash.page(page_id).ok_or(Error::Corrupted)?;
        let end = log_end(page)?;
        let erased = page[end..].iter().all(|&x| x == 0xff);
        *self = Self::new();
        self.page_id = page_id;
        self.at = end;
        self.append = true;
        self.room = if erased { (PAGE_SIZE - end).saturating_sub(4) } else { 0 };
        Ok(())
    }

    #[allow(clippy::len_without_is_empty)]
    pub fn len(&self) -> usize {
        self.staged.len()
    }

    pub fn page_id(&self) -> PageID {
        self.page_id
    }

    /// Takes what fits. Nothing is stored yet.
    pub async fn write<F: Flash>(&mut self, _flash: &mut F, data: &[u8]) -> Result<usize, Error<F::Error>> {
        let n = data.len().min(self.room);
        self.staged.extend_from_slice(&data[..n]);
        self.room -= n;
        Ok(n)
    }

    fn store_batch<F: Flash>(&self, flash: &mut F) {
        if !self.staged.is_empty() {
            flash.program(self.page_id, self.at + 4, &self.staged);
            flash.program(self.page_id, self.at, &pair(self.staged.len() / ENTRY));
        }
    }

    /// Erase, payload or batch, and the header last.
    pub async fn write_header<F: Flash>(&mut self, flash: &mut F, header: H) -> Result<(), F::Error> {
        flash.wipe(self.page_id);
        if is_data::<H>() {
            flash.program(self.page_id, PAYLOAD_AT, &self.staged);
        } else {
            self.store_batch(flash);
        }
        flash.program(self.page_id, 0, &header_bytes(header, self.staged.len()));
        Ok(())
    }

    pub async fn commit<F: Flash>(&mut self, flash: &mut F) -> Result<(), Error<F::Error>> {
        if self.append {
            self.store_batch(flash);
        }
        Ok(())
    }
}
