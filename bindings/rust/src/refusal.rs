//! Why a call was turned back.

use crate::ffi::Answer;
use std::fmt;

/// The refusals of document 01, each with its number. Where several faults are there, the first in
/// this order decides; a text is read from left to right, and there the first fault met does.
///
/// ```
/// use zovattha::{Refusal, ZoneList};
///
/// let refusal = zovattha::read(&ZoneList::utc(), "2023-13-01").unwrap_err();
/// assert_eq!(refusal, Refusal::TextField);
/// assert_eq!(refusal.number(), 7);
/// assert_eq!(refusal.to_string(), "refused (7): a field of the text is outside its bounds");
/// ```
#[derive(Clone, Copy, Debug, PartialEq, Eq, PartialOrd, Ord, Hash)]
#[repr(u32)]
pub enum Refusal {
    ZoneList = 1,
    TimeValue = 2,
    RecordLength = 3,
    RecordMap = 4,
    TextEnds = 5,
    TextByte = 6,
    TextField = 7,
    TextRest = 8,
    Instant = 9,
    NoTime = 10,
    Output = 11,
}

impl Refusal {
    /// Every refusal, in the order of its number.
    pub const ALL: [Self; 11] = [
        Self::ZoneList,
        Self::TimeValue,
        Self::RecordLength,
        Self::RecordMap,
        Self::TextEnds,
        Self::TextByte,
        Self::TextField,
        Self::TextRest,
        Self::Instant,
        Self::NoTime,
        Self::Output,
    ];

    /// The number in document 01 and in the C header.
    pub const fn number(self) -> u32 {
        self as u32
    }

    /// The refusal of a number.
    pub fn of_number(number: u32) -> Option<Self> {
        Self::ALL.into_iter().find(|refusal| refusal.number() == number)
    }

    /// The fault in plain words.
    pub const fn words(self) -> &'static str {
        match self {
            Self::ZoneList => {
                "the zone list has no or too many records, seconds that do not rise, or an offset of a day or more"
            }
            Self::TimeValue => "the time value is infinite, fractional or beyond the range",
            Self::RecordLength => "the field record is empty or not as long as its map says",
            Self::RecordMap => "the field record has a field that this call has not got",
            Self::TextEnds => "the text ends where a byte is needed",
            Self::TextByte => "the text has a byte that is not allowed there",
            Self::TextField => "a field of the text is outside its bounds",
            Self::TextRest => "the text goes on where it should end",
            Self::Instant => "the text's instant is outside the range",
            Self::NoTime => "NaN has no ISO text",
            Self::Output => "the output is shorter than the text",
        }
    }
}

impl fmt::Display for Refusal {
    fn fmt(&self, f: &mut fmt::Formatter<'_>) -> fmt::Result {
        write!(f, "refused ({}): {}", self.number(), self.words())
    }
}

impl std::error::Error for Refusal {}

impl Answer {
    /// The answer of a call that may be turned back.
    pub(crate) fn checked(self) -> Result<Self, Refusal> {
        match self.number {
            0 => Ok(self),
            number => Err(Refusal::of_number(number).expect("the archive's numbers are 0 to 11")),
        }
    }

    /// The time value.
    pub(crate) fn time(self) -> f64 {
        f64::from_bits(self.value)
    }
}
