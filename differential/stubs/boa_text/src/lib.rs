//! The original's string.rs, for its macro `js_string!`. A crate of its own, since a macro that a
//! build script lays out can be named by a path only from another crate.
#![allow(clippy::all)]

pub use boa_macros::js_str;

include!(concat!(env!("OUT_DIR"), "/string.rs"));
