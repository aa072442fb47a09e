//! The errors that the text names.

#[derive(Clone, Copy, PartialEq, Eq, Debug)]
pub enum Error<E> {
    Corrupted,
    Flash(E),
}

#[derive(Clone, Copy, PartialEq, Eq, Debug)]
pub enum FormatError<E> {
    Flash(E),
}

#[derive(Clone, Copy, PartialEq, Eq, Debug)]
pub struct CorruptedError;

impl<E> From<CorruptedError> for Error<E> {
    fn from(_: CorruptedError) -> Self {
        Self::Corrupted
    }
}

impl<E> From<CorruptedError> for crate::page::ReadError<E> {
    fn from(_: CorruptedError) -> Self {
        Self::Corrupted
    }
}

impl<E> From<CorruptedError> for crate::file::SearchSeekError<E> {
    fn from(_: CorruptedError) -> Self {
        Self::Corrupted
    }
}
