//! The calls of document 01. The driver makes the checks, in document 01's order, and lets the text do the
//! rest; where document 01 overrules the text, a comment names the section of docs/DIFFERENCES.md.

use crate::alloc;
use crate::config::{FILE_COUNT, LIMIT, NONE, PAYLOAD, SKIPLIST_LEN};
use crate::file::reach::{self, Search};
use crate::file::SeekDirection;
use crate::flash::Flash;
use crate::hits;
use crate::text::Ran;
use crate::world::{Answer, Refusal, World};

/// What a search answers: a position on offer, or the end on its result.
#[derive(Clone, Copy, PartialEq, Eq, Debug)]
pub enum Found {
    Offer(u32),
    End(u32),
}

/// The text did what the checks rule out. The self-check fails where this is ever counted.
fn unexpected<T>(ran: Ran<T>, what: &str) -> Answer<T> {
    ran.done().ok_or_else(|| {
        hits::name(&format!("unexpected: {what}"));
        Refusal::Damaged
    })
}

// ---- helpers: Range is document 01's, docs/DIFFERENCES.md, 17 ----

pub fn trailing_zeros(a: u32, b: u32) -> Answer<u32> {
    if a >= b {
        return Err(Refusal::Range);
    }
    Ok(reach::trailing_zeros(a, b))
}

pub fn index(a: u32, b: u32) -> Answer<u32> {
    if a >= b {
        return Err(Refusal::Range);
    }
    Ok(reach::index(a, b) as u32)
}

pub fn span_seq(current: u32, index: u32) -> Answer<u32> {
    if current == 0 || index as usize >= SKIPLIST_LEN {
        return Err(Refusal::Range);
    }
    Ok(reach::span_seq(current, index as usize))
}

pub fn seed_step(seed: u32) -> u32 {
    reach::seed_step(seed)
}

impl World {
    // ---- format and mount ----

    pub fn format(&mut self) -> Answer<()> {
        let pages = self.lent_pages().ok_or(Refusal::BadSize)?;
        unexpected(reach::format(&mut self.m), "format")?;
        self.mounted = Some(pages);
        self.drop_open();
        Ok(())
    }

    pub fn mount(&mut self) -> Answer<()> {
        let pages = self.lent_pages().ok_or(Refusal::BadSize)?;
        let saved = reach::save(&mut self.m);
        let mut ran = reach::mount(&mut self.m);
        // the text takes last_seq 4,294,967,295: docs/DIFFERENCES.md, 8
        let over = |f| reach::record(&self.m, f).last > LIMIT;
        if ran == Ran::Done(()) && (0..FILE_COUNT as u8).any(over) {
            hits::name("mount: past the limit");
            ran = Ran::Corrupted;
        }
        if ran == Ran::Done(()) {
            self.mounted = Some(pages);
            self.drop_open();
            return Ok(());
        }
        if ran == Ran::Panicked {
            hits::name("unexpected: mount");
        }
        // table and seed stay, the map is zero: docs/DIFFERENCES.md, 9
        reach::restore(&mut self.m, saved);
        let map = reach::map_mut(&mut self.m);
        let lent = map.lent;
        map.bytes[..lent].fill(alloc::FREE);
        self.mounted = None;
        self.drop_open();
        Err(Refusal::Damaged)
    }

    // ---- reading ----

    /// The page, and how many headers were read on the way.
    pub fn locate(&mut self, file: u8, seq: u32) -> Answer<(u16, u32)> {
        self.check_reading()?;
        Self::check_file(file)?;
        self.check_number(file, seq)?;
        self.m.flash_mut().headers = 0;
        match reach::locate(&mut self.m, file, seq) {
            Ran::Done(Some(page)) => Ok((page.index() as u16, self.m.flash().headers)),
            Ran::Corrupted => Err(Refusal::Damaged),
            other => unexpected(other, "locate").and(Err(Refusal::Damaged)),
        }
    }

    /// Gone, Eof and Short are document 01's: docs/DIFFERENCES.md, 10.
    fn check_wanted(&self, file: u8, seq: u32, len: u32) -> Answer<()> {
        if self.check_number(file, seq)? < len {
            return Err(Refusal::Short);
        }
        Ok(())
    }

    pub fn read(&mut self, file: u8, seq: u32, len: u32) -> Answer<Vec<u8>> {
        self.check_reading()?;
        Self::check_file(file)?;
        let mut data = vec![0; len as usize];
        if len == 0 {
            return Ok(data);
        }
        self.check_wanted(file, seq, len)?;
        match reach::read(&mut self.m, file, seq, &mut data) {
            Ran::Done(Ok(())) => Ok(data),
            Ran::Done(Err(_)) | Ran::Corrupted => Err(Refusal::Damaged),
            // the opened page starts above the number: docs/DIFFERENCES.md, 11
            Ran::Panicked => {
                hits::name("read: page starts above the number");
                Err(Refusal::Damaged)
            }
        }
    }

    pub fn skip(&mut self, file: u8, seq: u32, len: u32) -> Answer<u32> {
        self.check_reading()?;
        Self::check_file(file)?;
        if len == 0 {
            return Ok(seq);
        }
        self.check_wanted(file, seq, len)?;
        // the landing page is located and opened, also within the same page: docs/DIFFERENCES.md, 12
        match reach::land(&mut self.m, file, seq + len) {
            Ran::Done(()) => Ok(seq + len),
            Ran::Corrupted => Err(Refusal::Damaged),
            // docs/DIFFERENCES.md, 11
            Ran::Panicked => {
                hits::name("skip: page starts above the number");
                Err(Refusal::Damaged)
            }
        }
    }

    // ---- search ----

    pub fn search(&mut self, file: u8) -> Answer<Found> {
        self.check_reading()?;
        Self::check_file(file)?;
        let (mut search, mut ran) = reach::search_start(&mut self.m, file);
        if !matches!(ran, Ran::Done(_)) {
            // the end opens no page: docs/DIFFERENCES.md, 7
            (search, ran) = reach::search_start_unopened(&mut self.m, &search);
            if matches!(ran, Ran::Done(_)) {
                hits::name("search: the end's page does not open");
            }
        }
        self.found(search, reach::record(&self.m, file).first, ran)
    }

    pub fn seek(&mut self, dir: SeekDirection) -> Answer<Found> {
        self.check_reading()?;
        // after its end the text's searcher would go on: docs/DIFFERENCES.md, 7
        let from = self.search.ok_or(Refusal::NoSearch)?;
        let (mut search, mut ran) = reach::search_seek(&mut self.m, &from, dir);
        if !matches!(ran, Ran::Done(_)) {
            // docs/DIFFERENCES.md, 7
            (search, ran) = reach::search_seek_unopened(&mut self.m, &from, dir);
            if matches!(ran, Ran::Done(_)) {
                hits::name("search: the end's page does not open");
            }
        }
        self.found(search, from.left_after(dir), ran)
    }

    // A Damaged answer leaves the search as it was.
    fn found(&mut self, search: Search, left: u32, ran: Ran<bool>) -> Answer<Found> {
        if let (Ran::Done(offered), Some(_)) = (ran, self.page_of(search.file())) {
            search.count_turns(left, offered);
        }
        match ran {
            Ran::Done(true) => {
                self.search = Some(search);
                Ok(Found::Offer(search.offer()))
            }
            Ran::Done(false) => {
                self.search = None;
                Ok(Found::End(search.result()))
            }
            Ran::Corrupted => Err(Refusal::Damaged),
            Ran::Panicked => unexpected(ran, "search").and(Err(Refusal::Damaged)),
        }
    }

    fn page_of(&self, file: u8) -> Option<u16> {
        Some(reach::record(&self.m, file).page).filter(|p| *p != NONE)
    }

    // ---- writing ----

    pub fn open(&mut self, file: u8) -> Answer<()> {
        self.check_changing()?;
        Self::check_file(file)?;
        let r = reach::record(&self.m, file);
        let copies = r.page != NONE && r.length != PAYLOAD as u32;
        // one page stays free: docs/DIFFERENCES.md, 5
        if copies && reach::map(&self.m).free_pages() < 2 {
            return Err(Refusal::NoRoom);
        }
        let saved = reach::save(&mut self.m);
        // by the record, not the image's header: docs/DIFFERENCES.md, 13
        match reach::open(&mut self.m, file, true) {
            Ran::Done(w) => {
                self.writer = Some(w);
                Ok(())
            }
            ran => {
                // the step back failed after the allocation, which is taken back: docs/DIFFERENCES.md, 14
                reach::restore(&mut self.m, saved);
                match ran {
                    Ran::Panicked => unexpected(ran, "open").map(|_| ()),
                    _ => Err(Refusal::Damaged),
                }
            }
        }
    }

    pub fn write(&mut self, data: &[u8]) -> Answer<()> {
        self.check_mounted()?;
        if data.is_empty() {
            return Ok(());
        }
        let writer = self.writer.as_mut().ok_or(Refusal::NoSearch)?;
        // a write is whole or refused: docs/DIFFERENCES.md, 5 and 6
        if reach::writing(writer).end + data.len() as u64 > LIMIT as u64 {
            return Err(Refusal::SeqEnd);
        }
        let space = writer.space_left_on_current_page();
        let pages = data.len().saturating_sub(space).div_ceil(PAYLOAD);
        if pages > 0 && reach::map(&self.m).free_pages() < pages + 1 {
            return Err(Refusal::NoRoom);
        }
        unexpected(reach::write(&mut self.m, writer, data), "write")
    }

    pub fn record_end(&mut self) -> Answer<()> {
        self.check_mounted()?;
        let writer = self.writer.as_mut().ok_or(Refusal::NoSearch)?;
        unexpected(reach::record_end(writer), "end")
    }

    pub fn finish(&mut self) -> Answer<()> {
        self.check_mounted()?;
        let mut writer = self.writer.take().ok_or(Refusal::NoSearch)?;
        let staged = reach::writing(&writer).staged != NONE;
        unexpected(reach::finish(&mut self.m, &mut writer), "finish")?;
        if staged {
            self.opened_transaction();
        }
        Ok(())
    }

    pub fn discard(&mut self) -> Answer<()> {
        self.check_mounted()?;
        let writer = self.writer.as_ref().ok_or(Refusal::NoSearch)?;
        // exactly the pages of this writer, free at once: docs/DIFFERENCES.md, 2
        let count = reach::stored(&self.m, writer);
        let pages = reach::steps_back(&mut self.m, writer, count).ok_or(Refusal::Damaged)?;
        let staged = reach::writing(writer).staged;
        let map = reach::map_mut(&mut self.m);
        for page in pages {
            map.bytes[page.index()] = alloc::FREE;
        }
        if staged != NONE {
            map.bytes[staged as usize] = alloc::FREE;
        }
        self.writer = None;
        Ok(())
    }

    // ---- transactions ----

    pub fn truncate(&mut self, file: u8, bytes: u32) -> Answer<()> {
        self.check_changing()?;
        Self::check_file(file)?;
        if bytes == 0 {
            return Ok(());
        }
        let r = reach::record(&self.m, file);
        let first = r.first + bytes.min(r.last - r.first);
        // the walk is made before anything changes: docs/DIFFERENCES.md, 14
        let walked = reach::walk(&mut self.m, file, r.first).ok_or(Refusal::Damaged)?;
        let kept = match first == r.last {
            true => 0,
            false => reach::walk(&mut self.m, file, first).ok_or(Refusal::Damaged)?.len(),
        };
        let (reached, beyond) = walked.split_at(kept);
        let held: Vec<_> = beyond.iter().copied().filter(|p| !reached.contains(p)).collect();

        let saved = reach::save(&mut self.m);
        let mut wanted = reach::map(&self.m).bytes.clone();
        held.iter().for_each(|p| wanted[p.index()] = alloc::HELD);
        let ran = reach::truncate(&mut self.m, file, bytes as usize);
        if ran != Ran::Done(()) || reach::map(&self.m).bytes != wanted {
            // the text looks the page up by the skip list: docs/DIFFERENCES.md, 4
            hits::name("truncate: the skip list disagrees");
            reach::restore(&mut self.m, saved);
            reach::truncate_by_walk(&mut self.m, file, first, &held);
        }
        self.opened_transaction();
        Ok(())
    }

    pub fn rename(&mut self, from: u8, to: u8) -> Answer<()> {
        self.check_changing()?;
        Self::check_file(from)?;
        Self::check_file(to)?;
        unexpected(reach::rename(&mut self.m, from, to), "rename")?;
        self.opened_transaction();
        Ok(())
    }

    pub fn flags(&mut self, file: u8, flags: u8) -> Answer<()> {
        self.check_changing()?;
        Self::check_file(file)?;
        unexpected(reach::flags(&mut self.m, file, flags), "flags")?;
        self.opened_transaction();
        Ok(())
    }

    pub fn commit(&mut self) -> Answer<()> {
        self.check_changing()?;
        let dirty = |f: &u8| reach::record(&self.m, *f).dirty;
        let entries = (0..FILE_COUNT as u8).filter(dirty).count();
        // none dirty: the log is not looked at: docs/DIFFERENCES.md, 15
        if entries > 0 {
            let page = self.m.flash().page(reach::meta_page(&self.m)).ok_or(Refusal::Damaged)?;
            // docs/DIFFERENCES.md, 14
            let fits = crate::page::log_takes(page, entries).map_err(|_| Refusal::Damaged)?;
            // docs/DIFFERENCES.md, 6
            if !fits && reach::numbers(&self.m).seq == u32::MAX {
                return Err(Refusal::SeqEnd);
            }
            // docs/DIFFERENCES.md, 5
            if !fits && reach::map(&self.m).free_pages() == 0 {
                return Err(Refusal::NoRoom);
            }
            hits::name(if fits { "commit: appended" } else { "commit: moved" });
            unexpected(reach::commit(&mut self.m), "commit")?;
        }
        // what was held is free only now: docs/DIFFERENCES.md, 3
        reach::map_mut(&mut self.m).release();
        reach::set_transaction(&mut self.m, false);
        Ok(())
    }
}
