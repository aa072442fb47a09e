//! Why a call was refused.

use std::fmt;

/// In the numbers of the rules.
#[derive(Clone, Copy, PartialEq, Eq, Debug)]
pub enum Refusal {
    BadSize = 1,
    NotMounted = 2,
    Busy = 3,
    BadFile = 4,
    Damaged = 5,
    Eof = 6,
    Short = 7,
    NoRoom = 8,
    SeqEnd = 9,
    NoSearch = 10,
    Gone = 11,
    Range = 12,
}

impl Refusal {
    /// All of them, by number.
    const ALL: [Refusal; 12] = [
        Refusal::BadSize,
        Refusal::NotMounted,
        Refusal::Busy,
        Refusal::BadFile,
        Refusal::Damaged,
        Refusal::Eof,
        Refusal::Short,
        Refusal::NoRoom,
        Refusal::SeqEnd,
        Refusal::NoSearch,
        Refusal::Gone,
        Refusal::Range,
    ];

    pub fn number(self) -> u32 {
        self as u32
    }

    // The proved calls give no code above 12.
    pub(crate) fn check(code: u32) -> Result<(), Refusal> {
        match code {
            0 => Ok(()),
            n => Err(Self::ALL[n as usize - 1]),
        }
    }
}

impl fmt::Display for Refusal {
    fn fmt(&self, f: &mut fmt::Formatter<'_>) -> fmt::Result {
        f.write_str(match self {
            Refusal::BadSize => "image or map has no lawful length, or not the one that was mounted",
            Refusal::NotMounted => "nothing is formatted or mounted now",
            Refusal::Busy => "a transaction or a writer is in the way",
            Refusal::BadFile => "there is no such file: ids are 0 to 7",
            Refusal::Damaged => "the image is damaged",
            Refusal::Eof => "the position is at or past the file's end",
            Refusal::Short => "fewer bytes remain than were wanted",
            Refusal::NoRoom => "too few pages are free",
            Refusal::SeqEnd => "a sequence number would pass its limit",
            Refusal::NoSearch => "no position is on offer, or no writer is open",
            Refusal::Gone => "the position was truncated away",
            Refusal::Range => "an argument is out of range",
        })
    }
}

impl std::error::Error for Refusal {}
