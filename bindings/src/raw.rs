//! The C functions as they are: see include/muitalvek.h.

#[derive(Clone, Copy, Debug)]
#[repr(C)]
pub struct DataHeader {
    pub seq: u32,
    pub skiplist: [u16; 9],
    pub record_boundary: u16,
    pub length: u16,
}

/// Empty exactly if `last_page` is 65535; holds the numbers `first_seq` to `last_seq - 1`.
#[derive(Clone, Copy, Debug)]
#[repr(C)]
pub struct File {
    pub dirty: bool,
    pub last_page: u16,
    pub header: DataHeader,
    pub first_seq: u32,
    pub last_seq: u32,
    pub flags: u8,
}

#[derive(Clone, Copy, Debug)]
#[repr(C)]
pub struct Table {
    pub files: [File; 8],
}

#[derive(Clone, Copy, Debug)]
#[repr(C)]
pub struct Writer {
    pub active: bool,
    pub file: u8,
    pub seq: u32,
    pub page: u16,
    pub previous: u16,
    pub previous_header: DataHeader,
    pub copied: u16,
    pub boundary: u16,
    pub ended: bool,
    pub stored: u32,
    pub length: u16,
    pub staged: [u8; 224],
}

#[derive(Clone, Copy, Debug)]
#[repr(C)]
pub struct Search {
    pub active: bool,
    pub file: u8,
    pub left: u32,
    pub right: u32,
    pub right_links: [u16; 9],
    pub result: u32,
    pub low: u32,
    pub low_links: [u16; 9],
    pub mid: u32,
    pub high: u32,
}

#[derive(Clone, Copy, Debug)]
#[repr(C)]
pub struct State {
    pub mounted: bool,
    pub pages: u16,
    pub page_count: u16,
    pub meta_page: u16,
    pub meta_seq: u32,
    pub cursor: u16,
    pub seed: u32,
    pub transaction: bool,
    pub writer: Writer,
    pub search: Search,
}

#[repr(C)]
pub struct Reply {
    pub code: u32,
    pub table: Table,
    pub state: State,
}

#[repr(C)]
pub struct LocateReply {
    pub code: u32,
    pub page: u16,
    pub headers: u32,
}

#[repr(C)]
pub struct SeqReply {
    pub code: u32,
    pub seq: u32,
}

#[repr(C)]
pub struct SearchReply {
    pub code: u32,
    pub offer: bool,
    pub seq: u32,
}

#[rustfmt::skip]
#[link(name = "export", kind = "static")]
extern "C" {
    pub fn mv_new_state(seed: u32) -> State;
    pub fn mv_empty_table() -> Table;
    pub fn mv_format(image: *mut u8, image_len: usize, map: *mut u8, map_len: usize, table: Table, state: State) -> Reply;
    pub fn mv_mount(image: *const u8, image_len: usize, map: *mut u8, map_len: usize, table: Table, state: State) -> Reply;
    pub fn mv_locate(image: *const u8, image_len: usize, map: *const u8, map_len: usize, table: Table, state: State, file: u8, seq: u32) -> LocateReply;
    pub fn mv_read(image: *const u8, image_len: usize, map: *const u8, map_len: usize, table: Table, state: State, file: u8, seq: u32, out: *mut u8, out_len: usize) -> SeqReply;
    pub fn mv_skip(image: *const u8, image_len: usize, map: *const u8, map_len: usize, table: Table, state: State, file: u8, seq: u32, len: usize) -> SeqReply;
    pub fn mv_seek(image: *const u8, image_len: usize, map: *const u8, map_len: usize, table: Table, state: State, file: u8, offs: usize) -> SeqReply;
    pub fn mv_search(image: *const u8, image_len: usize, map: *const u8, map_len: usize, table: Table, state: *mut State, file: u8) -> SearchReply;
    pub fn mv_turn(image: *const u8, image_len: usize, map: *const u8, map_len: usize, state: *mut State, to_right: bool) -> SearchReply;
    pub fn mv_open(image: *const u8, image_len: usize, map: *mut u8, map_len: usize, table: Table, state: State, file: u8) -> Reply;
    pub fn mv_write(image: *mut u8, image_len: usize, map: *mut u8, map_len: usize, table: Table, state: State, bytes: *const u8, bytes_len: usize) -> Reply;
    pub fn mv_record_end(image: *const u8, image_len: usize, map: *const u8, map_len: usize, table: Table, state: State) -> Reply;
    pub fn mv_finish(image: *mut u8, image_len: usize, map: *mut u8, map_len: usize, table: Table, state: State) -> Reply;
    pub fn mv_discard(image: *const u8, image_len: usize, map: *mut u8, map_len: usize, table: Table, state: State) -> Reply;
    pub fn mv_truncate(image: *const u8, image_len: usize, map: *mut u8, map_len: usize, table: Table, state: State, file: u8, bytes: usize) -> Reply;
    pub fn mv_rename(image: *const u8, image_len: usize, map: *const u8, map_len: usize, table: Table, state: State, from: u8, to: u8) -> Reply;
    pub fn mv_flags(image: *const u8, image_len: usize, map: *const u8, map_len: usize, table: Table, state: State, file: u8, flags: u8) -> Reply;
    pub fn mv_commit(image: *mut u8, image_len: usize, map: *mut u8, map_len: usize, table: Table, state: State) -> Reply;
    pub fn mv_free_pages(map: *const u8, map_len: usize, state: State) -> usize;
    pub fn mv_used_pages(map: *const u8, map_len: usize, state: State) -> usize;
}
