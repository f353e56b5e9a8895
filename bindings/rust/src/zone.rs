//! The zone list: which offset from UTC holds from which second on.

use crate::tzif::{TzFile, TzifError};
use crate::{Refusal, ffi};
use std::ops::RangeInclusive;

/// From this second on (since 1970-01-01 UTC) local time is UTC and `offset` seconds.
#[derive(Clone, Copy, Debug, PartialEq, Eq, Hash)]
pub struct ZoneRecord {
    pub second: i64,
    pub offset: i32,
}

/// How many bytes a record is: its second and its offset, low byte first.
const RECORD_BYTES: usize = 12;

/// A zone list that the proved code accepted: 1 to 1,024 records, seconds strictly rising, offsets
/// within 86,399 s. So no call of this crate is ever turned back for its list.
///
/// ```
/// use zovattha::{ZoneList, ZoneRecord};
///
/// let house = ZoneList::from_records(&[
///     ZoneRecord { second: 0, offset: 3600 },
///     ZoneRecord { second: 1711846800, offset: 7200 },
/// ])?;
/// assert_eq!(ZoneList::from_bytes(house.as_bytes())?, house);
/// assert!(ZoneList::from_records(&[]).is_err());
/// # Ok::<(), zovattha::Refusal>(())
/// ```
#[derive(Clone, Debug, PartialEq, Eq, Hash)]
pub struct ZoneList(Box<[u8]>);

impl ZoneList {
    /// The list of one record that is UTC throughout.
    pub fn utc() -> Self {
        Self([0; RECORD_BYTES].into())
    }

    /// A list of records.
    ///
    /// # Errors
    /// [`Refusal::ZoneList`] where the rule is broken.
    pub fn from_records(records: &[ZoneRecord]) -> Result<Self, Refusal> {
        Self::judged(records.iter().flat_map(|record| record.to_bytes()).collect())
    }

    /// A list as the C functions take it: 12 bytes a record.
    ///
    /// # Errors
    /// [`Refusal::ZoneList`] where the rule is broken.
    pub fn from_bytes(bytes: &[u8]) -> Result<Self, Refusal> {
        Self::judged(bytes.into())
    }

    /// The list of a TZif file of the tz database for a span of years: see [`TzFile`].
    ///
    /// # Errors
    /// Where the bytes are no such file, or the file has no list for these years.
    pub fn from_tzif(file: &[u8], years: RangeInclusive<i64>) -> Result<Self, TzifError> {
        TzFile::of_bytes(file)?.zone_list(years)
    }

    /// The proved code judges: with an empty text, reading is turned back for the list, or for the
    /// text if the list is good.
    fn judged(bytes: Box<[u8]>) -> Result<Self, Refusal> {
        let empty: &[u8] = &[];
        let answer =
            unsafe { ffi::zovattha_read(bytes.as_ptr(), bytes.len(), empty.as_ptr(), empty.len()) };
        match answer.checked() {
            Err(Refusal::TextEnds) => Ok(Self(bytes)),
            Err(refusal) => Err(refusal),
            Ok(_) => unreachable!("the empty text denotes nothing"),
        }
    }

    /// The list as the C functions take it.
    pub fn as_bytes(&self) -> &[u8] {
        &self.0
    }

    /// The records, first to last.
    pub fn records(&self) -> impl ExactSizeIterator<Item = ZoneRecord> + '_ {
        self.0.chunks_exact(RECORD_BYTES).map(ZoneRecord::of_bytes)
    }
}

impl ZoneRecord {
    fn to_bytes(self) -> [u8; RECORD_BYTES] {
        let mut bytes = [0; RECORD_BYTES];
        bytes[..8].copy_from_slice(&self.second.to_le_bytes());
        bytes[8..].copy_from_slice(&self.offset.to_le_bytes());
        bytes
    }

    fn of_bytes(bytes: &[u8]) -> Self {
        let (second, offset) = bytes.split_at(8);
        Self {
            second: i64::from_le_bytes(second.try_into().expect("8 bytes")),
            offset: i32::from_le_bytes(offset.try_into().expect("4 bytes")),
        }
    }
}

#[cfg(test)]
mod tests {
    use super::*;

    fn record(second: i64, offset: i32) -> ZoneRecord {
        ZoneRecord { second, offset }
    }

    fn is_refused(records: &[ZoneRecord]) -> bool {
        ZoneList::from_records(records) == Err(Refusal::ZoneList)
    }

    #[test]
    fn bytes_are_low_byte_first() {
        let list = ZoneList::from_records(&[record(-2, 0x0001_0203)]).unwrap();
        assert_eq!(list.as_bytes(), [254, 255, 255, 255, 255, 255, 255, 255, 3, 2, 1, 0]);
    }

    #[test]
    fn records_come_back() {
        let records = [record(i64::MIN, -86399), record(0, 0), record(i64::MAX, 86399)];
        let list = ZoneList::from_records(&records).unwrap();
        assert!(list.records().eq(records));
        assert_eq!(list.records().len(), 3);
    }

    #[test]
    fn the_rule_is_kept() {
        let rising: Vec<_> = (0..1025).map(|second| record(second, 0)).collect();
        assert!(ZoneList::from_records(&rising[..1024]).is_ok());
        assert!(is_refused(&rising));
        assert!(is_refused(&[]));
        assert!(is_refused(&[record(0, 86400)]));
        assert!(is_refused(&[record(0, -86400)]));
        assert!(is_refused(&[record(5, 0), record(5, 1)]));
        assert!(is_refused(&[record(5, 0), record(4, 0)]));
        assert_eq!(ZoneList::from_bytes(&[0; 13]), Err(Refusal::ZoneList));
    }
}
