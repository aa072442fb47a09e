//! The numbers of document 01, under the names that the text uses.

pub const PAGE_SIZE: usize = 256;
pub const FILE_COUNT: usize = 8;
pub const SKIPLIST_LEN: usize = 9;
pub const SKIPLIST_SHIFT: usize = 7;

/// Ours: bytes of payload on a data page, and where they begin.
pub const PAYLOAD: usize = 224;
pub const PAYLOAD_AT: usize = 32;
/// Ours: bytes of a metadata page's header; its log begins there.
pub const LOG_AT: usize = 12;
/// Ours: no number of a file passes this one.
pub const LIMIT: u32 = 4_294_967_294;
pub const MIN_PAGES: usize = 4;
pub const MAX_PAGES: usize = 1024;
/// Ours: the id or boundary that means none.
pub const NONE: u16 = u16::MAX;
