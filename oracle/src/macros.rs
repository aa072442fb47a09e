//! The macros that the ported text leans on. Each counts the line it stands on, so that the self-check
//! can say which branches of the text a list of scripts has reached.

macro_rules! trace {
    ($($x:tt)*) => {
        crate::hits::line(line!())
    };
}

macro_rules! debug {
    ($($x:tt)*) => {
        crate::hits::line(line!())
    };
}

macro_rules! info {
    ($($x:tt)*) => {
        crate::hits::line(line!())
    };
}

macro_rules! corrupted {
    () => {{
        crate::hits::line(line!());
        return Err(crate::errors::CorruptedError.into());
    }};
}

macro_rules! check_corrupted {
    ($e:expr) => {
        match $e {
            Ok(x) => x,
            Err(_) => {
                crate::hits::line(line!());
                return Err(crate::errors::CorruptedError.into());
            }
        }
    };
}

// A plain record as the bytes it has in memory; its type is repr(C) without gaps.
macro_rules! impl_bytes {
    ($t:ident) => {
        impl $t {
            pub const SIZE: usize = core::mem::size_of::<Self>();

            pub fn to_bytes(self) -> [u8; Self::SIZE] {
                unsafe { core::mem::transmute(self) }
            }

            pub fn from_bytes(bytes: [u8; Self::SIZE]) -> Self {
                unsafe { core::mem::transmute(bytes) }
            }
        }
    };
}
