//! Document 01's refusal table, read from the paper, with what the change requests of 02 made of it:
//! each fault with its number, first one first; and what an absent field of a record stands for.
//! Nothing here was taken from the proved code or from the original.

/// A record of a zone list: a second and the offset, in seconds, from it on.
pub type Record = (i64, i32);

/// "It has 1 to 1,024 records, seconds strictly rising, offsets within ±86,399 s"; "a record is
/// 12 bytes, second then offset, low byte first". Any fault is 1.
pub fn zone_list(bytes: &[u8]) -> Result<Vec<Record>, u32> {
    if bytes.is_empty() || !bytes.len().is_multiple_of(12) || bytes.len() / 12 > 1024 {
        return Err(1);
    }
    let mut list: Vec<Record> = Vec::with_capacity(bytes.len() / 12);
    for r in bytes.chunks_exact(12) {
        let second = i64::from_le_bytes(r[..8].try_into().unwrap());
        let offset = i32::from_le_bytes(r[8..].try_into().unwrap());
        let rises = list.last().is_none_or(|last| last.0 < second);
        if !rises || !(-86_399..=86_399).contains(&offset) {
            return Err(1);
        }
        list.push((second, offset));
    }
    Ok(list)
}

/// "A time value is NaN or a whole number in the range (-0 counts as 0)"; anything else is 2.
/// `None` is NaN.
pub fn time_value(bits: u64) -> Result<Option<i64>, u32> {
    let t = f64::from_bits(bits);
    if t.is_nan() {
        return Ok(None);
    }
    let in_range = (-8.64e15..=8.64e15).contains(&t);
    // In the range every whole number is an i64, and the cast keeps it.
    if in_range && (t as i64) as f64 == t { Ok(Some(t as i64)) } else { Err(2) }
}

/// The fields of a record by bit: given or absent.
pub type Fields = [Option<f64>; 7];

/// A field record for a call that has `bits` fields. "Empty, or not 1 + 8 × ones" is 3, "a bit
/// this call hasn't got" is 4.
pub fn field_record(bytes: &[u8], bits: usize) -> Result<Fields, u32> {
    let Some((&map, rest)) = bytes.split_first() else {
        return Err(3);
    };
    if rest.len() != 8 * map.count_ones() as usize {
        return Err(3);
    }
    if map >> bits != 0 {
        return Err(4);
    }
    let mut given = rest.chunks_exact(8);
    let mut fields = [None; 7];
    for (bit, field) in fields.iter_mut().enumerate() {
        if map >> bit & 1 == 1 {
            let eight = given.next().unwrap().try_into().unwrap();
            *field = Some(f64::from_bits(u64::from_le_bytes(eight)));
        }
    }
    Ok(fields)
}

/// The builder's parts: year, month (January is 0), date, hour, minute, second and millisecond, an
/// absent one by its default. "Absent: in the builder month 0, date 1, others 0, but year NaN."
pub fn builder_parts(fields: &Fields) -> [f64; 7] {
    put(fields, [f64::NAN, 0.0, 1.0, 0.0, 0.0, 0.0, 0.0], 0)
}

/// What a setter makes of the date's present parts, in the same order; its first field is the part
/// at `first`. "In a setter every absent field keeps its present value, the first too, which parts
/// from the Rust."
pub fn setter_parts(fields: &Fields, present: [f64; 7], first: usize) -> [f64; 7] {
    put(fields, present, first)
}

/// The given fields in their places among the parts; an absent one leaves what is there.
fn put(fields: &Fields, mut parts: [f64; 7], first: usize) -> [f64; 7] {
    for (part, given) in parts[first..].iter_mut().zip(fields) {
        *part = given.unwrap_or(*part);
    }
    parts
}

/// What follows a time.
#[derive(Clone, Copy, Debug, PartialEq, Eq)]
pub enum Zone {
    /// "Date alone is UTC", and so is `Z`.
    Utc,
    /// "A time without zone is local."
    Local,
    /// Minutes ahead of UTC.
    Ahead(i64),
}

/// The fields of a text, absent ones filled in.
#[derive(Clone, Copy, Debug, PartialEq, Eq)]
pub struct Form {
    pub year: i64,
    pub month: i64,
    pub day: i64,
    pub hour: i64,
    pub minute: i64,
    pub second: i64,
    pub millisecond: i64,
    /// How many decimals were written: none to three.
    pub decimals: usize,
    pub zone: Zone,
}

impl Form {
    /// One or two decimals. "The Rust refuses the short forms."
    pub fn is_short(&self) -> bool {
        matches!(self.decimals, 1 | 2)
    }
}

/// The one reading from left to right, "where the first fault decides", then the rows below it.
pub fn text(bytes: &[u8]) -> Result<Form, u32> {
    let mut at = Reading { rest: bytes };
    let form = at.form()?;
    let smaller = form.minute != 0 || form.second != 0 || form.millisecond != 0;
    if form.hour == 24 && smaller { Err(7) } else { Ok(form) }
}

/// What is still to be read.
struct Reading<'a> {
    rest: &'a [u8],
}

impl Reading<'_> {
    fn ended(&self) -> bool {
        self.rest.is_empty()
    }

    /// A byte is needed here: none is 5.
    fn byte(&mut self) -> Result<u8, u32> {
        let (&byte, rest) = self.rest.split_first().ok_or(5u32)?;
        self.rest = rest;
        Ok(byte)
    }

    /// This very byte is needed: another is 6.
    fn mark(&mut self, wanted: u8) -> Result<(), u32> {
        if self.byte()? == wanted { Ok(()) } else { Err(6) }
    }

    /// The byte is taken if it is the next one.
    fn takes(&mut self, wanted: u8) -> bool {
        let next = self.rest.first() == Some(&wanted);
        if next {
            self.rest = &self.rest[1..];
        }
        next
    }

    /// All digits of a field first, then its bounds: outside them is 7.
    fn field(&mut self, digits: usize, low: i64, high: i64) -> Result<i64, u32> {
        let mut value = 0;
        for _ in 0..digits {
            match self.byte()? {
                digit @ b'0'..=b'9' => value = 10 * value + i64::from(digit - b'0'),
                _ => return Err(6),
            }
        }
        if (low..=high).contains(&value) { Ok(value) } else { Err(7) }
    }

    /// "Four digits, or a sign and six; -000000 is refused, +000000 is year 0."
    fn year(&mut self) -> Result<i64, u32> {
        if self.takes(b'+') {
            self.field(6, 0, 999_999)
        } else if self.takes(b'-') {
            Ok(-self.field(6, 1, 999_999)?)
        } else {
            self.field(4, 0, 9999)
        }
    }

    /// The whole form, with nothing left over.
    fn form(&mut self) -> Result<Form, u32> {
        let (year, month, day, timed) = self.date()?;
        let clock = if timed { self.time()? } else { ([0; 4], 0) };
        let ([hour, minute, second, millisecond], decimals) = clock;
        let zone = if timed { self.zone()? } else { Zone::Utc };
        Ok(Form { year, month, day, hour, minute, second, millisecond, decimals, zone })
    }

    /// What stands after a field of the date; a `T` is taken.
    fn follows(&mut self) -> Follows {
        if self.ended() {
            Follows::End
        } else if self.takes(b'T') {
            Follows::Time
        } else {
            Follows::Other
        }
    }

    /// Year, month and day, and whether a time comes. A byte that is neither `T` nor `-` is 6
    /// after year and month; one other than `T` is 8 after a day.
    fn date(&mut self) -> Result<(i64, i64, i64, bool), u32> {
        let year = self.year()?;
        let mut given = [1, 1];
        for (field, high) in [(0, 12), (1, 31)] {
            match self.follows() {
                Follows::End => return Ok((year, given[0], given[1], false)),
                Follows::Time => return Ok((year, given[0], given[1], true)),
                Follows::Other => self.mark(b'-')?,
            }
            given[field] = self.field(2, 1, high)?;
        }
        match self.follows() {
            Follows::End => Ok((year, given[0], given[1], false)),
            Follows::Time => Ok((year, given[0], given[1], true)),
            Follows::Other => Err(8),
        }
    }

    /// "Hour 00 to 24, `:`, minute 00 to 59; optionally `:` and second 00 to 59; after a second
    /// optionally `.` and" decimals. Hour, minute, second and millisecond, and how many decimals.
    fn time(&mut self) -> Result<([i64; 4], usize), u32> {
        let hour = self.field(2, 0, 24)?;
        self.mark(b':')?;
        let minute = self.field(2, 0, 59)?;
        if !self.takes(b':') {
            return Ok(([hour, minute, 0, 0], 0));
        }
        let second = self.field(2, 0, 59)?;
        if !self.takes(b'.') {
            return Ok(([hour, minute, second, 0], 0));
        }
        let (millisecond, decimals) = self.decimals()?;
        Ok(([hour, minute, second, millisecond], decimals))
    }

    /// "After the point one to three digits are now read, as tenths, hundredths or thousandths."
    /// "A fourth digit is still 6, and no digit is 5 or 6." (02, change request 8.) Milliseconds,
    /// and how many digits; a fourth one is left, and is 6 where a zone is to begin.
    fn decimals(&mut self) -> Result<(i64, usize), u32> {
        let mut value = 100 * self.field(1, 0, 9)?;
        for (taken, worth) in [(1, 10), (2, 1)] {
            if !self.rest.first().is_some_and(u8::is_ascii_digit) {
                return Ok((value, taken));
            }
            value += worth * self.field(1, 0, 9)?;
        }
        Ok((value, 3))
    }

    /// "After any time, optionally `Z`, or a sign and offset hour 00 to 23, then optionally `:`
    /// and minute 00 to 59." Any byte after `Z` or the minute is 8, a wrong one elsewhere 6.
    fn zone(&mut self) -> Result<Zone, u32> {
        if self.ended() {
            return Ok(Zone::Local);
        }
        let sign = match self.byte()? {
            b'Z' => return self.nothing_more(Zone::Utc),
            b'+' => 1,
            b'-' => -1,
            _ => return Err(6),
        };
        let hour = self.field(2, 0, 23)?;
        if self.ended() {
            return Ok(Zone::Ahead(sign * 60 * hour));
        }
        self.mark(b':')?;
        let minute = self.field(2, 0, 59)?;
        self.nothing_more(Zone::Ahead(sign * (60 * hour + minute)))
    }

    fn nothing_more(&self, zone: Zone) -> Result<Zone, u32> {
        if self.ended() { Ok(zone) } else { Err(8) }
    }
}

/// What stands after a field of the date.
enum Follows {
    End,
    Time,
    Other,
}
