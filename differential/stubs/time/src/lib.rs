//! What utils.rs and hooks.rs name of the crate `time`. Nothing of it is reached from `DateParser`,
//! and the zone list replaces the host's own hook: so no value of these types exists, and the two
//! further text forms of `parse_date`, which are outside the base, are refused here.

/// Says that this is a stub.
#[derive(Debug, Clone, Copy)]
pub struct NotHere;

/// A date with an offset: no value exists.
#[derive(Debug, Clone, Copy)]
pub enum OffsetDateTime {}

impl OffsetDateTime {
    pub fn parse<D>(_: &str, _: &D) -> Result<Self, NotHere> {
        Err(NotHere)
    }
    pub fn from_unix_timestamp(_: i64) -> Result<Self, NotHere> {
        Err(NotHere)
    }
    pub fn now_utc() -> Self {
        unimplemented!("the clock is no part of the oracle")
    }
    pub fn unix_timestamp(self) -> i64 {
        match self {}
    }
    pub fn millisecond(self) -> u16 {
        match self {}
    }
}

/// A date without an offset: no value exists.
#[derive(Debug, Clone, Copy)]
pub enum PrimitiveDateTime {}

impl PrimitiveDateTime {
    pub fn parse<D>(_: &str, _: &D) -> Result<Self, NotHere> {
        Err(NotHere)
    }
    pub fn assume_utc(self) -> OffsetDateTime {
        match self {}
    }
}

/// An offset: no value exists.
#[derive(Debug, Clone, Copy)]
pub enum UtcOffset {}

impl UtcOffset {
    pub fn local_offset_at(_: OffsetDateTime) -> Result<Self, NotHere> {
        Err(NotHere)
    }
    pub fn whole_seconds(self) -> i32 {
        match self {}
    }
}

pub mod macros {
    /// A format's description is dropped.
    #[macro_export]
    macro_rules! __format_description {
        ($s:literal) => {
            ()
        };
    }
    pub use __format_description as format_description;
}
