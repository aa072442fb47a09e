//! The proved calls of crates/export/out/libexport.a.

use crate::raw::*;

#[derive(Clone)]
pub struct Ours {
    pub image: Vec<u8>,
    pub map: Vec<u8>,
    table: Table,
    state: State,
}

macro_rules! call {
    ($self:ident . $name:ident ( $($arg:expr),* )) => {
        unsafe {
            $name($self.image.as_mut_ptr(), $self.image.len(), $self.map.as_mut_ptr(), $self.map.len(), $self.table, $self.state $(, $arg)*)
        }
    };
}

// A search changes the state in place, and its answers look at no table.
macro_rules! answer {
    ($self:ident . $name:ident ( $($arg:expr),* )) => {
        unsafe { $name($self.image.as_ptr(), $self.image.len(), $self.map.as_ptr(), $self.map.len() $(, $arg)*) }
    };
}

impl Ours {
    pub fn new(pages: usize, seed: u32) -> Self {
        let (table, state) = unsafe { (mv_empty_table(), mv_new_state(seed)) };
        let mut o = Self { image: vec![0xff; pages * 256], map: vec![0; pages], table, state };
        let r = call!(o.mv_format());
        o.took(r);
        o
    }

    pub fn restore(&mut self, s: &Ours) {
        self.image.copy_from_slice(&s.image);
        self.map.copy_from_slice(&s.map);
        self.table = s.table;
        self.state = s.state;
    }

    #[inline(always)]
    fn took(&mut self, r: Reply) {
        assert_eq!(r.code, 0);
        self.table = r.table;
        self.state = r.state;
    }

    #[inline(never)]
    pub fn mount(&mut self) {
        let r = call!(self.mv_mount());
        self.took(r);
    }

    #[inline(never)]
    pub fn locate(&mut self, file: u8, seq: u32) -> u16 {
        let r = call!(self.mv_locate(file, seq));
        assert_eq!(r.code, 0);
        r.page
    }

    #[inline(never)]
    pub fn read(&mut self, file: u8, seq: u32, out: &mut [u8]) {
        let r = call!(self.mv_read(file, seq, out.as_mut_ptr(), out.len()));
        assert_eq!(r.code, 0);
    }

    /// Open, write, end the record, finish and commit.
    #[inline(never)]
    pub fn append(&mut self, file: u8, bytes: &[u8]) {
        self.fill(file, bytes, bytes.len());
    }

    /// One writer for many records.
    pub fn fill(&mut self, file: u8, bytes: &[u8], record: usize) {
        let r = call!(self.mv_open(file));
        self.took(r);
        for part in bytes.chunks(record) {
            let r = call!(self.mv_write(part.as_ptr(), part.len()));
            self.took(r);
            let r = call!(self.mv_record_end());
            self.took(r);
        }
        let r = call!(self.mv_finish());
        self.took(r);
        let r = call!(self.mv_commit());
        self.took(r);
    }

    #[inline(never)]
    pub fn truncate(&mut self, file: u8, bytes: usize) {
        let r = call!(self.mv_truncate(file, bytes));
        self.took(r);
    }

    /// Searches the last record that starts at or before a number; gives its start and the offers on the way.
    #[inline(never)]
    pub fn search(&mut self, file: u8, target: u32) -> (u32, u32) {
        let mut r = answer!(self.mv_search(self.table, &mut self.state, file));
        let mut offers = 0;
        loop {
            assert_eq!(r.code, 0);
            if !r.offer {
                return (r.seq, offers);
            }
            offers += 1;
            r = answer!(self.mv_turn(&mut self.state, r.seq <= target));
        }
    }
}
