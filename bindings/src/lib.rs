//! Muitalvek from Rust: a file layer over an image of 256-byte pages. The calls are proved; this crate only passes slices on.

pub mod raw;
mod refusal;

pub use refusal::Refusal;

/// An image with its map, formatted or mounted. Table and state are the volume's own.
pub struct Volume<'a> {
    image: &'a mut [u8],
    map: &'a mut [u8],
    table: raw::Table,
    state: raw::State,
}

/// The page of a number, and how many headers were read on the way.
#[derive(Clone, Copy, PartialEq, Eq, Debug)]
pub struct Located {
    pub page: u16,
    pub headers: u32,
}

/// What a search answers: a position on offer, or its end on the result.
#[derive(Clone, Copy, PartialEq, Eq, Debug)]
pub enum Found {
    Offer(u32),
    End(u32),
}

// A call of the volume with these arguments after table and state.
macro_rules! call {
    ($self:ident . $name:ident ( $($arg:expr),* )) => {{
        let (image, map) = (&mut *$self.image, &mut *$self.map);
        // pointer and length of each slice are those of a slice that is borrowed for the whole call
        unsafe {
            raw::$name(image.as_mut_ptr(), image.len(), map.as_mut_ptr(), map.len(), $self.table, $self.state $(, $arg)*)
        }
    }};
}

// The same for calls that only read.
macro_rules! ask {
    ($self:ident . $name:ident ( $($arg:expr),* )) => {
        unsafe {
            raw::$name($self.image.as_ptr(), $self.image.len(), $self.map.as_ptr(), $self.map.len(), $self.table, $self.state $(, $arg)*)
        }
    };
}

// And for a search, which changes the state in place.
macro_rules! answer {
    ($self:ident . $name:ident ( $($arg:expr),* )) => {
        unsafe { raw::$name($self.image.as_ptr(), $self.image.len(), $self.map.as_ptr(), $self.map.len() $(, $arg)*) }
    };
}

impl<'a> Volume<'a> {
    fn unmounted(image: &'a mut [u8], map: &'a mut [u8], seed: u32) -> Self {
        let (table, state) = unsafe { (raw::mv_empty_table(), raw::mv_new_state(seed)) };
        Self { image, map, table, state }
    }

    /// Empties the image: 4 to 1,024 pages of 256 bytes, and a byte of map for each.
    pub fn format(image: &'a mut [u8], map: &'a mut [u8], seed: u32) -> Result<Self, Refusal> {
        let mut v = Self::unmounted(image, map, seed);
        let reply = call!(v.mv_format());
        v.took(reply)?;
        Ok(v)
    }

    /// Mounts an image as it is.
    pub fn mount(image: &'a mut [u8], map: &'a mut [u8], seed: u32) -> Result<Self, Refusal> {
        let mut v = Self::unmounted(image, map, seed);
        let reply = call!(v.mv_mount());
        v.took(reply)?;
        Ok(v)
    }

    fn took(&mut self, reply: raw::Reply) -> Result<(), Refusal> {
        self.table = reply.table;
        self.state = reply.state;
        Refusal::check(reply.code)
    }

    fn found(reply: raw::SearchReply) -> Result<Found, Refusal> {
        Refusal::check(reply.code)?;
        Ok(if reply.offer { Found::Offer(reply.seq) } else { Found::End(reply.seq) })
    }

    /// The page that holds a number of a file.
    pub fn locate(&self, file: u8, seq: u32) -> Result<Located, Refusal> {
        let r = ask!(self.mv_locate(file, seq));
        Refusal::check(r.code)?;
        Ok(Located { page: r.page, headers: r.headers })
    }

    /// Fills `out` with the bytes from a number on; gives the number behind them.
    pub fn read(&self, file: u8, seq: u32, out: &mut [u8]) -> Result<u32, Refusal> {
        let r = ask!(self.mv_read(file, seq, out.as_mut_ptr(), out.len()));
        Refusal::check(r.code).map(|_| r.seq)
    }

    /// The number `len` bytes behind another; where refused, the reader stays there.
    pub fn skip(&self, file: u8, seq: u32, len: usize) -> Result<u32, Refusal> {
        let r = ask!(self.mv_skip(file, seq, len));
        Refusal::check(r.code).map(|_| r.seq)
    }

    /// The number `offs` bytes behind the file's first one, where a new reader stands.
    pub fn seek(&self, file: u8, offs: usize) -> Result<u32, Refusal> {
        let r = ask!(self.mv_seek(file, offs));
        Refusal::check(r.code).map(|_| r.seq)
    }

    /// Starts a search for a record of a file.
    pub fn search(&mut self, file: u8) -> Result<Found, Refusal> {
        Self::found(answer!(self.mv_search(self.table, &mut self.state, file)))
    }

    /// What is searched lies left of the position on offer.
    pub fn left(&mut self) -> Result<Found, Refusal> {
        Self::found(answer!(self.mv_turn(&mut self.state, false)))
    }

    /// It lies there or right of it.
    pub fn right(&mut self) -> Result<Found, Refusal> {
        Self::found(answer!(self.mv_turn(&mut self.state, true)))
    }

    /// Opens a writer at a file's end.
    pub fn open(&mut self, file: u8) -> Result<(), Refusal> {
        let reply = call!(self.mv_open(file));
        self.took(reply)
    }

    /// Writes all bytes or none.
    pub fn write(&mut self, bytes: &[u8]) -> Result<(), Refusal> {
        let reply = call!(self.mv_write(bytes.as_ptr(), bytes.len()));
        self.took(reply)
    }

    /// Ends a record where the writer stands.
    pub fn record_end(&mut self) -> Result<(), Refusal> {
        let reply = call!(self.mv_record_end());
        self.took(reply)
    }

    /// Stores what is staged, closes the writer and opens a transaction.
    pub fn finish(&mut self) -> Result<(), Refusal> {
        let reply = call!(self.mv_finish());
        self.took(reply)
    }

    /// Closes the writer and gives its pages back.
    pub fn discard(&mut self) -> Result<(), Refusal> {
        let reply = call!(self.mv_discard());
        self.took(reply)
    }

    /// Takes bytes off a file's start.
    pub fn truncate(&mut self, file: u8, bytes: usize) -> Result<(), Refusal> {
        let reply = call!(self.mv_truncate(file, bytes));
        self.took(reply)
    }

    /// Swaps two files.
    pub fn rename(&mut self, from: u8, to: u8) -> Result<(), Refusal> {
        let reply = call!(self.mv_rename(from, to));
        self.took(reply)
    }

    /// Sets a file's flags; they stick only to a file that is not empty.
    pub fn flags(&mut self, file: u8, flags: u8) -> Result<(), Refusal> {
        let reply = call!(self.mv_flags(file, flags));
        self.took(reply)
    }

    /// Makes all changes since the last commit last, and ends the transaction.
    pub fn commit(&mut self) -> Result<(), Refusal> {
        let reply = call!(self.mv_commit());
        self.took(reply)
    }

    pub fn free_pages(&self) -> usize {
        unsafe { raw::mv_free_pages(self.map.as_ptr(), self.map.len(), self.state) }
    }

    pub fn used_pages(&self) -> usize {
        unsafe { raw::mv_used_pages(self.map.as_ptr(), self.map.len(), self.state) }
    }

    /// A file's record.
    pub fn file(&self, file: u8) -> Result<&raw::File, Refusal> {
        self.table.files.get(file as usize).ok_or(Refusal::BadFile)
    }
}
