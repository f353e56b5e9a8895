//! The two names that date/mod.rs takes from `boa_gc`.
pub use boa_derive::{Finalize, Trace};
