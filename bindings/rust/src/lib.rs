//! The date module of boa_engine 0.22.0, carried over and proved, for Rust.
//!
//! Times are `f64`: milliseconds since 1970-01-01 UTC, whole and within 8,640,000,000,000,000 of
//! zero, or NaN. A call gives its answer or a [`Refusal`]; nothing is allocated unless a `String`
//! is asked for, nothing is kept between calls, and no call panics. The thread's floating-point
//! environment is the one that Rust asks for; [`ffi`] says what of it counts.
//!
//! # Local times near a change of offset
//!
//! As in Boa, a local time is looked up in the list as if it were an instant. So within as many hours
//! of a change as the zone is off UTC (before it where local time is ahead of UTC, after it where it
//! is behind) [`read`], [`rewrite`], [`build_local`] and the local setters can take the offset of the
//! wrong side, and be an hour off, and [`to_string`] can write it as its suffix; docs/DIFFERENCES.md
//! says more. A text with `Z` or an offset, a date alone and the UTC calls are free of it.
//!
//! ```
//! use zovattha::{ZoneList, ZoneRecord, read, to_iso_string};
//!
//! // Sydney's clock goes back at 2025-04-05T16:00Z, which is 03:00 on the 6th.
//! let house = ZoneList::from_records(&[
//!     ZoneRecord { second: 1735603200, offset: 39600 },
//!     ZoneRecord { second: 1743868800, offset: 36000 },
//! ])?;
//! let evening = read(&house, "2025-04-05T20:15")?;
//! assert_eq!(to_iso_string(evening)?, "2025-04-05T10:15:00.000Z"); // the standard: 09:15Z
//! let evening = read(&house, "2025-04-05T20:15+11:00")?;
//! assert_eq!(to_iso_string(evening)?, "2025-04-05T09:15:00.000Z");
//! # Ok::<(), zovattha::Refusal>(())
//! ```
//!
//! # An example
//!
//! ```
//! use zovattha::{ZoneList, ZoneRecord};
//!
//! // Central European time of 2024, from its records; see also `ZoneList::from_tzif` and the tool `zonelist`.
//! let house = ZoneList::from_records(&[
//!     ZoneRecord { second: 1704067200, offset: 3600 },
//!     ZoneRecord { second: 1711846800, offset: 7200 },
//!     ZoneRecord { second: 1729990800, offset: 3600 },
//! ])?;
//! let start = zovattha::read(&house, "2024-06-01T20:15")?;
//! assert_eq!(zovattha::to_iso_string(start)?, "2024-06-01T18:15:00.000Z");
//! assert_eq!(zovattha::to_string(&house, start)?, "Sat Jun 01 2024 20:15:00 GMT+0200");
//! # Ok::<(), zovattha::Refusal>(())
//! ```

mod calls;
pub mod ffi;
mod fields;
mod refusal;
pub mod tzif;
mod zone;

pub use calls::*;
pub use fields::{Date, Fields, FullYear, Hours, Milliseconds, Minutes, Month, Record, Seconds};
pub use refusal::Refusal;
pub use zone::{ZoneList, ZoneRecord};
