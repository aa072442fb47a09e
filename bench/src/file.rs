//! The ported text itself, unchanged; `direct` is a child of this module and so reaches its private parts.
#![allow(unused, unexpected_cfgs, clippy::all)]

include!(concat!(env!("EKV_SRC"), "/src/file.rs"));

pub mod direct;
