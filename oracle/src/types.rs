//! Ids, unchanged.
#![allow(unused, unexpected_cfgs)]

include!(concat!(env!("EKV_SRC"), "/src/types/mod.rs"));
