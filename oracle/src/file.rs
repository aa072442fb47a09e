//! The ported text itself, unchanged. What stands in `reach` is a child of this module, so it reaches
//! the text's private parts without a change to it.
#![allow(unused, unexpected_cfgs, clippy::all)]

include!(concat!(env!("EKV_SRC"), "/src/file.rs"));

pub mod reach;
