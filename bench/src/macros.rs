//! The macros that the ported text leans on, without the oracle's counters.

macro_rules! trace {
    ($($x:tt)*) => {};
}

macro_rules! debug {
    ($($x:tt)*) => {};
}

macro_rules! info {
    ($($x:tt)*) => {};
}

macro_rules! corrupted {
    () => {
        return Err(crate::errors::CorruptedError.into())
    };
}

macro_rules! check_corrupted {
    ($e:expr) => {
        match $e {
            Ok(x) => x,
            Err(_) => return Err(crate::errors::CorruptedError.into()),
        }
    };
}

// A plain record as the bytes it has in memory; its type is repr(C) without gaps.
macro_rules! impl_bytes {
    ($t:ident) => {
        impl $t {
            pub const SIZE: usize = core::mem::size_of::<Self>();

            pub fn to_bytes(self) -> [u8; Self::SIZE] {
                unsafe { core::mem::transmute(self) }
            }

            pub fn from_bytes(bytes: [u8; Self::SIZE]) -> Self {
                unsafe { core::mem::transmute(bytes) }
            }
        }
    };
}
