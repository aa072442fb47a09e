//! What the driver needs of the text's private parts. Nothing is decided here: the calls run the text,
//! and say whether it answered, refused or panicked.

use super::*;
use crate::alloc::Allocator;
use crate::flash::Image;
use crate::text::{run, wait, Ran};

pub type Manager = FileManager<Image>;

// ---- table and state ----

/// A file's record, as the protocol shows it.
#[derive(Clone, Copy, PartialEq, Eq, Debug)]
pub struct Record {
    pub first: u32,
    pub last: u32,
    pub flags: u8,
    pub dirty: bool,
    pub page: u16,
    pub seq: u32,
    pub length: u32,
    pub boundary: u16,
    pub links: [u16; SKIPLIST_LEN],
}

pub fn record(m: &Manager, file: u8) -> Record {
    let f = &m.files[file as usize];
    let mut r = Record {
        first: f.first_seq.0,
        last: f.last_seq.0,
        flags: f.flags,
        dirty: f.dirty,
        page: u16::MAX,
        seq: 0,
        length: 0,
        boundary: 0,
        links: [0; SKIPLIST_LEN],
    };
    if let Some(pp) = f.last_page {
        r.page = OptionPageID::from(pp.page_id).into_raw();
        r.seq = pp.header.seq.0;
        r.length = f.last_seq.0 - pp.header.seq.0;
        r.boundary = pp.header.record_boundary;
        r.links = pp.header.skiplist.map(|l| l.into_raw());
    }
    r
}

pub struct Numbers {
    pub count: usize,
    pub meta: u16,
    pub seq: u32,
    pub cursor: usize,
    pub seed: u32,
    pub transaction: bool,
}

pub fn numbers(m: &Manager) -> Numbers {
    Numbers {
        count: m.alloc.page_count,
        meta: m.meta_page_id.index() as u16,
        seq: m.meta_seq.0,
        cursor: m.alloc.cursor,
        seed: m.random,
        transaction: m.dirty,
    }
}

pub fn set_transaction(m: &mut Manager, open: bool) {
    m.dirty = open;
}

pub fn map(m: &Manager) -> &Allocator {
    &m.alloc
}

pub fn map_mut(m: &mut Manager) -> &mut Allocator {
    &mut m.alloc
}

pub fn meta_page(m: &Manager) -> PageID {
    m.meta_page_id
}

/// All but the image, for taking a call back.
pub struct Saved {
    files: [FileState; FILE_COUNT],
    meta_page_id: PageID,
    meta_seq: Seq,
    dirty: bool,
    random: u32,
    alloc: Allocator,
}

pub fn save(m: &mut Manager) -> Saved {
    m.flash.begin();
    Saved {
        files: m.files,
        meta_page_id: m.meta_page_id,
        meta_seq: m.meta_seq,
        dirty: m.dirty,
        random: m.random,
        alloc: m.alloc.clone(),
    }
}

/// Everything as it was at `save`, the image too.
pub fn restore(m: &mut Manager, saved: Saved) {
    m.flash.take_back();
    m.files = saved.files;
    m.meta_page_id = saved.meta_page_id;
    m.meta_seq = saved.meta_seq;
    m.dirty = saved.dirty;
    m.random = saved.random;
    m.alloc = saved.alloc;
}

pub fn copy(m: &Manager) -> Manager {
    FileManager {
        flash: m.flash.clone(),
        files: m.files,
        meta_page_id: m.meta_page_id,
        meta_seq: m.meta_seq,
        dirty: m.dirty,
        alloc: m.alloc.clone(),
        random: m.random,
    }
}

/// A fresh table and state over the same image and map.
pub fn renew(m: &mut Manager, seed: u32) {
    let flash = std::mem::replace(&mut m.flash, Image::nothing());
    let alloc = std::mem::replace(&mut m.alloc, Allocator::new());
    *m = FileManager::new(flash, seed);
    m.alloc.bytes = alloc.bytes;
    m.alloc.lent = alloc.lent;
    m.alloc.holds = alloc.holds;
    m.dirty = false;
}

// ---- helpers ----

pub fn trailing_zeros(a: u32, b: u32) -> u32 {
    max_trailing_zeros_between(a, b)
}

pub fn index(a: u32, b: u32) -> usize {
    skiplist_index(Seq(a), Seq(b))
}

pub fn span_seq(current: u32, index: usize) -> u32 {
    skiplist_seq(Seq(current), index).0
}

pub fn seed_step(seed: u32) -> u32 {
    FileManager::new(Image::nothing(), seed).random()
}

// ---- format, mount, reading ----

pub fn format(m: &mut Manager) -> Ran<()> {
    run(|| wait(m.format()).map_err(|_| ()))
}

pub fn mount(m: &mut Manager) -> Ran<()> {
    run(|| wait(m.mount(&mut PageReader::new())).map_err(|_| ()))
}

/// The page that holds a number; none where the file does not.
pub fn locate(m: &mut Manager, file: u8, seq: u32) -> Ran<Option<PageID>> {
    run(|| wait(m.get_file_page(file, Seq(seq))).map(|p| p.map(|pp| pp.page_id)).map_err(|_| ()))
}

/// What a reader answers, the text's end of file included.
#[derive(Clone, Copy, PartialEq, Eq, Debug)]
pub enum Stop {
    Eof,
    Damaged,
}

fn stop<E>(e: ReadError<E>) -> Stop {
    match e {
        ReadError::Eof => Stop::Eof,
        _ => Stop::Damaged,
    }
}

/// A reader that stands on a number, and reads.
pub fn read(m: &mut Manager, file: u8, seq: u32, data: &mut [u8]) -> Ran<Result<(), Stop>> {
    run(|| {
        let mut r = PageReader::new();
        let mut reader = FileReader::new(m, &mut r, file);
        if !data.is_empty() {
            wait(reader.seek_seq(m, Seq(seq))).map_err(|_| ())?;
        }
        Ok(wait(reader.read(m, data)).map_err(stop))
    })
}

/// A reader lands on a number: at or past the end it opens nothing, else it opens the page.
pub fn land(m: &mut Manager, file: u8, seq: u32) -> Ran<()> {
    run(|| {
        let mut r = PageReader::new();
        let mut reader = FileReader::new(m, &mut r, file);
        wait(reader.seek_seq(m, Seq(seq))).map_err(|_| ())
    })
}

/// The text's own skip, from a reader that has opened its page.
pub fn skip(m: &mut Manager, file: u8, seq: u32, len: usize) -> Ran<Result<u32, Stop>> {
    run(|| {
        if len == 0 {
            return Ok(Ok(seq));
        }
        let mut r = PageReader::new();
        let mut reader = FileReader::new(m, &mut r, file);
        wait(reader.seek_seq(m, Seq(seq))).map_err(|_| ())?;
        Ok(wait(reader.skip(m, len)).map_err(stop).map(|_| reader.curr_seq(m).0))
    })
}

// ---- search ----

#[derive(Clone, Copy, PartialEq, Eq, Debug)]
pub struct Search {
    file: FileID,
    result: Seq,
    left: Seq,
    right: Seq,
    right_skiplist: [OptionPageID; SKIPLIST_LEN],
    curr_low: Seq,
    curr_mid: Seq,
    curr_high: Seq,
    curr_page: OptionPageID,
    curr_skiplist: [OptionPageID; SKIPLIST_LEN],
}

impl Search {
    fn of(s: &FileSearcher) -> Self {
        Self {
            file: s.r.file_id,
            result: s.result,
            left: s.left,
            right: s.right,
            right_skiplist: s.right_skiplist,
            curr_low: s.curr_low,
            curr_mid: s.curr_mid,
            curr_high: s.curr_high,
            curr_page: s.curr_page,
            curr_skiplist: s.curr_skiplist,
        }
    }

    fn searcher<'a>(&self, m: &mut Manager, r: &'a mut PageReader) -> FileSearcher<'a> {
        let mut s = FileSearcher::new(FileReader::new(m, r, self.file));
        s.result = self.result;
        s.left = self.left;
        s.right = self.right;
        s.right_skiplist = self.right_skiplist;
        s.curr_low = self.curr_low;
        s.curr_mid = self.curr_mid;
        s.curr_high = self.curr_high;
        s.curr_page = self.curr_page;
        s.curr_skiplist = self.curr_skiplist;
        s
    }

    pub fn file(&self) -> u8 {
        self.file
    }

    /// Where left stands when an answer has been taken in.
    pub fn left_after(&self, dir: SeekDirection) -> u32 {
        match dir {
            SeekDirection::Left => self.left.0,
            SeekDirection::Right => self.curr_high.0.saturating_add(1),
        }
    }

    /// Counts the turns that really_seek took from `left` to this search; the text does not tell them.
    pub fn count_turns(&self, left: u32, offered: bool) {
        let (mut left, right) = (Seq(left), self.right);
        let mut i = 0;
        match left.0.saturating_add(1) < right.0 {
            true => i = skiplist_index(Seq(left.0 + 1), right),
            false => crate::hits::name("search: left + 1 is not below right"),
        }
        for i in (0..=i).rev() {
            if right <= left {
                crate::hits::name("search: right is not above left");
            } else if self.right_skiplist[i].is_none() {
                crate::hits::name("search: a link of none");
            } else if skiplist_seq(right, i) < left {
                crate::hits::name("search: a level below left");
            } else if offered && left == self.left {
                return;
            } else {
                left = Seq(skiplist_seq(right, i).0 + 1);
            }
        }
    }

    /// Left, right, result and the number on offer.
    pub fn shown(&self) -> [u32; 4] {
        [self.left.0, self.right.0, self.result.0, self.curr_mid.0]
    }

    pub fn result(&self) -> u32 {
        self.result.0
    }

    pub fn offer(&self) -> u32 {
        self.curr_mid.0
    }
}

/// True: a position is on offer. False: the end.
pub fn search_start(m: &mut Manager, file: u8) -> (Search, Ran<bool>) {
    let mut r = PageReader::new();
    let mut s = FileSearcher::new(FileReader::new(m, &mut r, file));
    let ran = run(|| wait(s.start(m)).map_err(|_| ()));
    (Search::of(&s), ran)
}

pub fn search_seek(m: &mut Manager, from: &Search, dir: SeekDirection) -> (Search, Ran<bool>) {
    let mut r = PageReader::new();
    let mut s = from.searcher(m, &mut r);
    let ran = run(|| wait(s.seek(m, dir)).map_err(|_| ()));
    (Search::of(&s), ran)
}

// A file with no last page is what makes the text's end of a search open nothing.
fn unopened<T>(m: &mut Manager, file: u8, f: impl FnOnce(&mut Manager) -> T) -> T {
    let last = m.files[file as usize].last_page.take();
    let t = f(m);
    m.files[file as usize].last_page = last;
    t
}

/// The same search, where its end opens no page. `after` is what a start that did not answer left.
pub fn search_start_unopened(m: &mut Manager, after: &Search) -> (Search, Ran<bool>) {
    let from = Search { left: m.files[after.file as usize].first_seq, ..*after };
    unopened(m, after.file, |m| {
        let mut r = PageReader::new();
        let mut s = from.searcher(m, &mut r);
        let ran = run(|| wait(s.really_seek(m)).map_err(|_| ()));
        (Search::of(&s), ran)
    })
}

pub fn search_seek_unopened(m: &mut Manager, from: &Search, dir: SeekDirection) -> (Search, Ran<bool>) {
    unopened(m, from.file, |m| search_seek(m, from, dir))
}

// ---- writing ----

impl Clone for FileWriter {
    fn clone(&self) -> Self {
        Self {
            file_id: self.file_id,
            last_page: self.last_page,
            seq: self.seq,
            writer: self.writer.clone(),
            rewritten_last_page_id: self.rewritten_last_page_id,
            at_record_boundary: self.at_record_boundary,
            record_boundary: self.record_boundary,
        }
    }
}

/// The open writer, as the protocol shows it, and the number after its last byte.
pub struct Writing {
    pub file: u8,
    pub seq: u32,
    pub staged: u16,
    pub previous: u16,
    pub copied: u16,
    pub boundary: u16,
    pub ended: bool,
    pub end: u64,
}

pub fn writing(w: &FileWriter) -> Writing {
    let id = |p: Option<PageID>| OptionPageID::from(p).into_raw();
    Writing {
        file: w.file_id,
        seq: w.seq.0,
        staged: id(w.writer.as_ref().map(|w| w.page_id())),
        previous: id(w.last_page.map(|p| p.page_id)),
        copied: id(w.rewritten_last_page_id),
        boundary: w.record_boundary.unwrap_or(u16::MAX),
        ended: w.at_record_boundary,
        end: w.seq.0 as u64 + w.writer.as_ref().map_or(0, |w| w.len()) as u64,
    }
}

/// Opens a writer. Where `by_record`, the last page is taken as its record has it, not as its header on the image.
pub fn open(m: &mut Manager, file: u8, by_record: bool) -> Ran<FileWriter> {
    run(|| {
        let f = m.files[file as usize];
        let mut r = match f.last_page {
            Some(pp) if by_record => {
                let length = f.last_seq.sub(pp.header.seq);
                PageReader::by_record(pp.page_id, page::header_bytes(pp.header, length))
            }
            _ => PageReader::new(),
        };
        wait(FileWriter::new(m, &mut r, file)).map_err(|_| ())
    })
}

pub fn write(m: &mut Manager, w: &mut FileWriter, data: &[u8]) -> Ran<()> {
    run(|| wait(w.write(m, data)).map_err(|_| ()))
}

pub fn record_end(w: &mut FileWriter) -> Ran<()> {
    run(|| {
        w.record_end();
        Ok(())
    })
}

pub fn finish(m: &mut Manager, w: &mut FileWriter) -> Ran<()> {
    run(|| wait(w.commit(&mut Transaction { m })).map_err(|_| ()))
}

pub fn discard(m: &mut Manager, w: &mut FileWriter) -> Ran<()> {
    run(|| wait(w.discard(m)).map_err(|_| ()))
}

/// How many pages this writer has stored: they are full, and begin at the copied page's number, or behind the file.
pub fn stored(m: &Manager, w: &FileWriter) -> usize {
    let f = &m.files[w.file_id as usize];
    let start = match (w.rewritten_last_page_id, f.last_page) {
        (Some(_), Some(pp)) => pp.header.seq,
        _ => f.last_seq,
    };
    w.seq.sub(start) / PAGE_MAX_PAYLOAD_SIZE
}

/// The last `count` pages before the staged one, by steps back; none where a step cannot be made.
pub fn steps_back(m: &mut Manager, w: &FileWriter, count: usize) -> Option<Vec<PageID>> {
    let mut pages = Vec::new();
    let mut p = w.last_page;
    while pages.len() < count {
        let pp = p?;
        pages.push(pp.page_id);
        if pages.len() < count {
            p = wait(pp.prev(m, Seq::ZERO)).ok()?;
        }
    }
    Some(pages)
}

// ---- transactions ----

pub fn flags(m: &mut Manager, file: u8, flags: u8) -> Ran<()> {
    run(|| wait(Transaction { m }.set_flags(file, flags)).map_err(|_| ()))
}

pub fn rename(m: &mut Manager, from: u8, to: u8) -> Ran<()> {
    run(|| wait(Transaction { m }.rename(from, to)).map_err(|_| ()))
}

pub fn truncate(m: &mut Manager, file: u8, bytes: usize) -> Ran<()> {
    run(|| wait(Transaction { m }.truncate(file, bytes)).map_err(|_| ()))
}

/// The pages from the last one back to the one of `limit`, as mount walks; none where a step is bad.
pub fn walk(m: &mut Manager, file: u8, limit: u32) -> Option<Vec<PageID>> {
    let mut pages = Vec::new();
    let mut p = m.files[file as usize].last_page;
    while let Some(pp) = p {
        pages.push(pp.page_id);
        p = wait(pp.prev(m, Seq(limit))).ok()?;
    }
    Some(pages)
}

/// Truncation by document 01's walk, where the text's own way to the page does not agree with it.
pub fn truncate_by_walk(m: &mut Manager, file: u8, first: u32, held: &[PageID]) {
    m.dirty = true;
    for &page in held {
        let _ = m.alloc.free(page);
    }
    let f = &mut m.files[file as usize];
    if first == f.last_seq.0 {
        *f = FileState::EMPTY;
    } else {
        f.first_seq = Seq(first);
    }
    f.dirty = true;
}

pub fn commit(m: &mut Manager) -> Ran<()> {
    run(|| wait(Transaction { m }.commit()).map_err(|_| ()))
}

/// What the text asserts before a reader, a writer or a transaction.
pub fn clean(m: &mut Manager) -> Ran<()> {
    run(|| {
        m.transaction();
        Ok(())
    })
}
