//! A zone list from a TZif file of the tz database (RFC 9636), for a span of years.
//!
//! A unit is sealed when sold, so its list must hold all clock changes of the years it will run:
//! those that the file tells one by one, and those that follow from the rule in its footer.

mod file;
mod rule;

use crate::{Refusal, ZoneList, ZoneRecord};
use rule::Rule;
use std::fmt;
use std::ops::RangeInclusive;

/// A TZif file of version 2 or later: when the offset changes, and the rule for the years after.
#[derive(Clone, Debug, PartialEq, Eq)]
pub struct TzFile {
    /// The offset before the first change.
    first: i32,
    /// The second of each change, rising, and the offset from then on.
    changes: Vec<ZoneRecord>,
    /// What holds after the last change; nothing where the file does not say.
    rule: Option<Rule>,
}

/// Why a file or a span of years gives no zone list.
#[derive(Clone, Debug, PartialEq, Eq)]
pub enum TzifError {
    /// It does not begin as a TZif file.
    NotTzif,
    /// Version 1 has no years beyond 2037 and no rule for those to come.
    Version1,
    /// It ends before its own counts do, or a count or an index is out of bounds.
    Broken,
    /// Its times count leap seconds.
    LeapSeconds,
    /// Its footer is not a rule that this module knows.
    Footer(String),
    /// The span of years is empty, or too far from today for the calendar here.
    Years(RangeInclusive<i64>),
    /// The file says nothing of the span's end: it has no rule after its last change.
    NoRule,
    /// Its rule gives another offset at the last change than the change itself.
    Contradiction,
    /// The list is refused: more than 1,024 records, or an offset of a day or more.
    List { records: usize },
}

impl fmt::Display for TzifError {
    fn fmt(&self, f: &mut fmt::Formatter<'_>) -> fmt::Result {
        match self {
            Self::NotTzif => f.write_str("this is not a TZif file"),
            Self::Version1 => f.write_str("version 1 of TZif has no rule for the years to come"),
            Self::Broken => f.write_str("the TZif file is cut off or broken"),
            Self::LeapSeconds => {
                f.write_str("the TZif file counts leap seconds, time values do not")
            }
            Self::Footer(rule) => {
                write!(f, "the TZif file ends in a rule that is not understood: {rule:?}")
            }
            Self::Years(years) => {
                write!(f, "no years to cover from {} to {}", years.start(), years.end())
            }
            Self::NoRule => f.write_str("the TZif file has no rule for the end of these years"),
            Self::Contradiction => f.write_str("the TZif file's rule contradicts its last change"),
            Self::List { records } => {
                write!(
                    f,
                    "a zone list has 1 to 1,024 records within a day of UTC, not {records} such"
                )
            }
        }
    }
}

impl std::error::Error for TzifError {}

const SECONDS_PER_DAY: i64 = 86_400;

/// Years far beyond a unit's life, and well within the arithmetic here.
const YEARS: RangeInclusive<i64> = -200_000..=200_000;

impl TzFile {
    /// The file's contents.
    ///
    /// # Errors
    /// Where they are no TZif file of version 2 or later, or count leap seconds.
    pub fn of_bytes(bytes: &[u8]) -> Result<Self, TzifError> {
        file::parse(bytes)
    }

    /// The zone list that agrees with the file at every instant of these years, and a day around
    /// them. Its first record stands where that stretch begins; changes that keep the offset (as
    /// those of a zone's name) are left out.
    ///
    /// ```no_run
    /// use zovattha::ZoneList;
    ///
    /// let file = std::fs::read("/usr/share/zoneinfo/Europe/Vienna")?;
    /// let house = ZoneList::from_tzif(&file, 2020..=2045)?;
    /// # Ok::<(), Box<dyn std::error::Error>>(())
    /// ```
    ///
    /// # Errors
    /// Where the span is empty, the file says nothing of its end, or the list breaks its rule.
    pub fn zone_list(&self, years: RangeInclusive<i64>) -> Result<ZoneList, TzifError> {
        let (from, to) = (*years.start(), *years.end());
        if from > to || !YEARS.contains(&from) || !YEARS.contains(&to) {
            return Err(TzifError::Years(years));
        }
        let start = (rule::day_of_year_start(from) - 1) * SECONDS_PER_DAY;
        let end = (rule::day_of_year_start(to + 1) + 1) * SECONDS_PER_DAY;
        let records = self.records(start, end)?;
        ZoneList::from_records(&records).map_err(|refusal| {
            debug_assert_eq!(refusal, Refusal::ZoneList);
            TzifError::List { records: records.len() }
        })
    }

    /// The offset at `start`, then each change after it and not after `end`.
    fn records(&self, start: i64, end: i64) -> Result<Vec<ZoneRecord>, TzifError> {
        let told = self.changes.last().map_or(i64::MIN, |last| last.second);
        let ruled = match &self.rule {
            _ if end <= told => Vec::new(),
            Some(rule) => rule.changes(start.max(told), end),
            None => return Err(TzifError::NoRule),
        };
        if let (Some(last), Some(ruled)) = (self.changes.last(), ruled.first())
            && last.second == ruled.second
            && last.offset != ruled.offset
        {
            return Err(TzifError::Contradiction);
        }
        let mut records = vec![ZoneRecord { second: start, offset: self.first }];
        let changes = self.changes.iter().copied().chain(ruled);
        for change in changes.filter(|change| change.second <= end) {
            let last = records.last_mut().expect("one at least");
            if change.second <= start {
                last.offset = change.offset;
            } else if change.offset != last.offset {
                records.push(change);
            }
        }
        Ok(records)
    }
}

#[cfg(test)]
mod tests;
