//! The file's blocks. A version 1 block comes first, with 32-bit times, and is skipped; then the same
//! again with 64-bit times; then the footer, a rule between two newlines.

use super::rule::Rule;
use super::{TzFile, TzifError, ZoneRecord};

const HEADER_BYTES: usize = 44;
const TYPE_BYTES: usize = 6;

/// A block's header: its six counts.
struct Header {
    version: u8,
    is_ut: usize,
    is_std: usize,
    leap: usize,
    times: usize,
    types: usize,
    chars: usize,
}

impl Header {
    fn of(bytes: &[u8]) -> Result<Self, TzifError> {
        let header = bytes.get(..HEADER_BYTES).ok_or(TzifError::NotTzif)?;
        if &header[..4] != b"TZif" {
            return Err(TzifError::NotTzif);
        }
        let count = |at: usize| {
            let bytes = header[at..at + 4].try_into().expect("4 bytes");
            usize::try_from(u32::from_be_bytes(bytes)).expect("32 bits fit")
        };
        Ok(Self {
            version: header[4],
            is_ut: count(20),
            is_std: count(24),
            leap: count(28),
            times: count(32),
            types: count(36),
            chars: count(40),
        })
    }

    /// How many bytes follow the header, where a time has so many.
    fn body_bytes(&self, time: usize) -> usize {
        self.times * (time + 1)
            + self.types * TYPE_BYTES
            + self.chars
            + self.leap * (time + 4)
            + self.is_std
            + self.is_ut
    }
}

/// A run of bytes from the front.
fn take<'a>(bytes: &mut &'a [u8], count: usize) -> Result<&'a [u8], TzifError> {
    let (front, rest) = bytes.split_at_checked(count).ok_or(TzifError::Broken)?;
    *bytes = rest;
    Ok(front)
}

pub(super) fn parse(mut bytes: &[u8]) -> Result<TzFile, TzifError> {
    let first = Header::of(bytes)?;
    if first.version < b'2' {
        return Err(TzifError::Version1);
    }
    take(&mut bytes, HEADER_BYTES + first.body_bytes(4))?;
    let header = Header::of(bytes).map_err(|_| TzifError::Broken)?;
    take(&mut bytes, HEADER_BYTES)?;
    if header.leap != 0 {
        return Err(TzifError::LeapSeconds);
    }
    let mut body = take(&mut bytes, header.body_bytes(8))?;
    let (first, changes) = changes(&mut body, &header)?;
    Ok(TzFile { first, changes, rule: footer(bytes)? })
}

/// The first type's offset, and the changes. A change's type names its offset.
fn changes(body: &mut &[u8], header: &Header) -> Result<(i32, Vec<ZoneRecord>), TzifError> {
    let times = take(body, header.times * 8)?;
    let kinds = take(body, header.times)?;
    let types = take(body, header.types * TYPE_BYTES)?;
    let offset = |kind: usize| {
        let bytes = types.get(kind * TYPE_BYTES..kind * TYPE_BYTES + 4).ok_or(TzifError::Broken)?;
        Ok(i32::from_be_bytes(bytes.try_into().expect("4 bytes")))
    };
    let changes = times.chunks_exact(8).zip(kinds).map(|(time, kind)| {
        let second = i64::from_be_bytes(time.try_into().expect("8 bytes"));
        Ok(ZoneRecord { second, offset: offset(usize::from(*kind))? })
    });
    let changes = changes.collect::<Result<Vec<_>, _>>()?;
    if !changes.is_sorted_by(|one, next| one.second < next.second) {
        return Err(TzifError::Broken);
    }
    Ok((offset(0)?, changes))
}

/// The rule after the last change; an empty footer is none.
fn footer(bytes: &[u8]) -> Result<Option<Rule>, TzifError> {
    let text = bytes.strip_prefix(b"\n").ok_or(TzifError::Broken)?;
    let end = text.iter().position(|byte| *byte == b'\n').ok_or(TzifError::Broken)?;
    let text = &text[..end];
    if text.is_empty() {
        return Ok(None);
    }
    let fault = || TzifError::Footer(String::from_utf8_lossy(text).into_owned());
    Rule::parse(text).map(Some).ok_or_else(fault)
}
