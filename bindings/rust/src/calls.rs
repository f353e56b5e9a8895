//! The calls: reading, rewriting, writing, and the fields.

use crate::ffi::{self, Answer};
use crate::fields::{Date, Fields, FullYear, Hours, Milliseconds, Minutes, Month, Seconds};
use crate::{Refusal, ZoneList};

/// The last time of the range; the first is its negative.
pub const LAST_TIME: f64 = 8_640_000_000_000_000.0;

/// An output of this many bytes takes every text.
pub const LONGEST_TEXT: usize = 36;

/// The instant that a text denotes. A date alone is UTC; a time without zone is local by the list, and
/// can be an hour off [near a change of offset](crate#local-times-near-a-change-of-offset). A second may
/// have one to three decimals: `.5` and `.500` are half a second.
///
/// ```
/// use zovattha::{Refusal, ZoneList, read};
///
/// let utc = ZoneList::utc();
/// assert_eq!(read(&utc, "2024-02-29T12:00:00Z"), Ok(1709208000000.0));
/// assert_eq!(read(&utc, "2024-02-29T12:00:00.5Z"), Ok(1709208000500.0));
/// assert_eq!(read(&utc, "2023-12-31T24:00:01Z"), Err(Refusal::TextField));
/// assert_eq!(read(&utc, b"\xFF"), Err(Refusal::TextByte));
/// ```
///
/// # Errors
/// [`Refusal::TextEnds`], [`TextByte`](Refusal::TextByte), [`TextField`](Refusal::TextField),
/// [`TextRest`](Refusal::TextRest), [`Instant`](Refusal::Instant).
pub fn read(zone: &ZoneList, text: impl AsRef<[u8]>) -> Result<f64, Refusal> {
    let (zone, text) = (zone.as_bytes(), text.as_ref());
    let answer =
        unsafe { ffi::zovattha_read(zone.as_ptr(), zone.len(), text.as_ptr(), text.len()) };
    answer.checked().map(Answer::time)
}

/// Reads a text and writes its instant's ISO text into `out`: the instant and the text.
///
/// ```
/// let mut out = [0; 27];
/// let zone = zovattha::ZoneList::utc();
/// let rewritten = zovattha::rewrite_into(&zone, "2023-02-31", &mut out)?;
/// assert_eq!(rewritten, (1677801600000.0, "2023-03-03T00:00:00.000Z"));
/// # Ok::<(), zovattha::Refusal>(())
/// ```
///
/// # Errors
/// Those of [`read`], then [`Refusal::Output`].
pub fn rewrite_into<'a>(
    zone: &ZoneList,
    text: impl AsRef<[u8]>,
    out: &'a mut [u8],
) -> Result<(f64, &'a str), Refusal> {
    let (zone, text) = (zone.as_bytes(), text.as_ref());
    let (z, zn, t, tn) = (zone.as_ptr(), zone.len(), text.as_ptr(), text.len());
    let answer = unsafe { ffi::zovattha_rewrite(z, zn, t, tn, out.as_mut_ptr(), out.len()) };
    let answer = answer.checked()?;
    Ok((answer.time(), written(out, answer)))
}

/// Reads a text and writes its instant's ISO text. Two texts are rewritten alike exactly when they
/// denote one instant.
///
/// ```
/// let zone = zovattha::ZoneList::utc();
/// let rewrite = |text| zovattha::rewrite(&zone, text);
/// assert_eq!(rewrite("2024-06-01T20:15+02:00"), rewrite("2024-06-01T18:15:00.000Z"));
/// assert_eq!(rewrite("2024-06-01T18:15:00.5Z").unwrap(), "2024-06-01T18:15:00.500Z");
/// ```
///
/// # Errors
/// Those of [`read`].
pub fn rewrite(zone: &ZoneList, text: impl AsRef<[u8]>) -> Result<String, Refusal> {
    let mut out = [0; LONGEST_TEXT];
    rewrite_into(zone, text, &mut out).map(|(_, text)| text.to_string())
}

/// The ISO text, written into `out`: 24 or 27 bytes.
///
/// # Errors
/// [`Refusal::TimeValue`], [`NoTime`](Refusal::NoTime), [`Output`](Refusal::Output).
pub fn write_iso_string(time: f64, out: &mut [u8]) -> Result<&str, Refusal> {
    let (time, o, on) = (time.to_bits(), out.as_mut_ptr(), out.len());
    let answer = unsafe { ffi::zovattha_to_iso_string(time, o, on) };
    answer.checked().map(|answer| written(out, answer))
}

/// The ISO text.
///
/// ```
/// use zovattha::{Refusal, to_iso_string};
///
/// assert_eq!(to_iso_string(-62167219200001.0).unwrap(), "-000001-12-31T23:59:59.999Z");
/// assert_eq!(to_iso_string(f64::NAN), Err(Refusal::NoTime));
/// ```
///
/// Of two times in the years 0000 to 9999 the earlier has the smaller text, byte by byte, as `str` compares, and equal times have
/// equal text. Years with a sign are not in that order.
///
/// ```
/// let text = |time| zovattha::to_iso_string(time).unwrap();
/// assert!(text(-1.0) < text(0.0)); // 1969-12-31T23:59:59.999Z and 1970-01-01T00:00:00.000Z
/// assert!(text(-62230291200000.0) > text(-62198755200000.0)); // the first of year -2 and of year -1
/// ```
///
/// # Errors
/// [`Refusal::TimeValue`], [`NoTime`](Refusal::NoTime).
pub fn to_iso_string(time: f64) -> Result<String, Refusal> {
    write_iso_string(time, &mut [0; LONGEST_TEXT]).map(str::to_string)
}

/// The UTC text, written into `out`: 29 to 32 bytes, or `Invalid Date` for NaN.
///
/// # Errors
/// [`Refusal::TimeValue`], [`Output`](Refusal::Output).
pub fn write_utc_string(time: f64, out: &mut [u8]) -> Result<&str, Refusal> {
    let (time, o, on) = (time.to_bits(), out.as_mut_ptr(), out.len());
    let answer = unsafe { ffi::zovattha_to_utc_string(time, o, on) };
    answer.checked().map(|answer| written(out, answer))
}

/// The UTC text.
///
/// ```
/// use zovattha::to_utc_string;
///
/// assert_eq!(to_utc_string(0.0).unwrap(), "Thu, 01 Jan 1970 00:00:00 GMT");
/// assert_eq!(to_utc_string(f64::NAN).unwrap(), "Invalid Date");
/// ```
///
/// # Errors
/// [`Refusal::TimeValue`].
pub fn to_utc_string(time: f64) -> Result<String, Refusal> {
    write_utc_string(time, &mut [0; LONGEST_TEXT]).map(str::to_string)
}

/// The local text, written into `out`: 33 to 36 bytes, or `Invalid Date` for NaN.
///
/// # Errors
/// [`Refusal::TimeValue`], [`Output`](Refusal::Output).
pub fn write_string<'a>(zone: &ZoneList, time: f64, out: &'a mut [u8]) -> Result<&'a str, Refusal> {
    let (zone, time) = (zone.as_bytes(), time.to_bits());
    let (o, on) = (out.as_mut_ptr(), out.len());
    let answer = unsafe { ffi::zovattha_to_string(zone.as_ptr(), zone.len(), time, o, on) };
    answer.checked().map(|answer| written(out, answer))
}

/// The local text. Its suffix is the offset that the list gives at the local time, as in Boa, and not
/// always the clock's [near a change of offset](crate#local-times-near-a-change-of-offset).
///
/// ```
/// let zone = zovattha::ZoneList::utc();
/// assert_eq!(zovattha::to_string(&zone, 0.0).unwrap(), "Thu Jan 01 1970 00:00:00 GMT+0000");
/// ```
///
/// # Errors
/// [`Refusal::TimeValue`].
pub fn to_string(zone: &ZoneList, time: f64) -> Result<String, Refusal> {
    write_string(zone, time, &mut [0; LONGEST_TEXT]).map(str::to_string)
}

/// The text that a successful call left in its output.
fn written(out: &[u8], answer: Answer) -> &str {
    str::from_utf8(&out[..answer.length]).expect("the writers write ASCII")
}

// ---- the builder and the setters

/// A call that has no refusal left: its record is whole and its list was accepted.
fn built(answer: Answer) -> f64 {
    answer.checked().expect("a record made by name is never turned back").time()
}

/// The time of fields in UTC; NaN where it is outside the range or a field is not finite.
///
/// ```
/// use zovattha::{Fields, build_utc};
///
/// let leap_day = Fields::new().year(2024).month(1).date(29).hour(12);
/// assert_eq!(build_utc(&leap_day), 1709208000000.0);
/// assert!(build_utc(&Fields::new().month(1)).is_nan());
/// ```
pub fn build_utc(fields: &Fields) -> f64 {
    let record = fields.record();
    let record = record.as_bytes();
    built(unsafe { ffi::zovattha_build_utc(record.as_ptr(), record.len()) })
}

/// The time of local fields; NaN where it is outside the range or a field is not finite. It can be an
/// hour off [near a change of offset](crate#local-times-near-a-change-of-offset).
///
/// ```
/// use zovattha::{Fields, ZoneList, ZoneRecord, build_local};
///
/// let house = ZoneList::from_records(&[ZoneRecord { second: 0, offset: 3600 }])?;
/// assert_eq!(build_local(&house, &Fields::new().year(1970).hour(1)), 0.0);
/// # Ok::<(), zovattha::Refusal>(())
/// ```
pub fn build_local(zone: &ZoneList, fields: &Fields) -> f64 {
    let (zone, record) = (zone.as_bytes(), fields.record());
    let (z, zn, record) = (zone.as_ptr(), zone.len(), record.as_bytes());
    built(unsafe { ffi::zovattha_build_local(z, zn, record.as_ptr(), record.len()) })
}

/// A setter in UTC and by a list, over the same fields.
macro_rules! setters {
    ($($(#[$example:meta])* $fields:ident: $utc:ident $c_utc:ident, $local:ident $c_local:ident, $what:literal;)*) => {
        $(
        #[doc = concat!("The time with its UTC ", $what, " set; NaN where that is outside the range.")]
        /// A field that is not given keeps its present value; a first field that is NaN clears the date.
        ///
        /// # Errors
        /// [`Refusal::TimeValue`].
        pub fn $utc(time: f64, fields: &$fields) -> Result<f64, Refusal> {
            let record = fields.record();
            let record = record.as_bytes();
            let answer =
                unsafe { ffi::$c_utc(time.to_bits(), record.as_ptr(), record.len()) };
            answer.checked().map(Answer::time)
        }

        #[doc = concat!("The time with its local ", $what, " set; NaN where that is outside the range.")]
        /// A field that is not given keeps its present value; a first field that is NaN clears the date.
        /// The answer can be an hour off
        /// [near a change of offset](crate#local-times-near-a-change-of-offset).
        ///
        $(#[$example])*
        /// # Errors
        /// [`Refusal::TimeValue`].
        pub fn $local(zone: &ZoneList, time: f64, fields: &$fields) -> Result<f64, Refusal> {
            let (zone, record) = (zone.as_bytes(), fields.record());
            let (z, zn, record) = (zone.as_ptr(), zone.len(), record.as_bytes());
            let time = time.to_bits();
            let answer =
                unsafe { ffi::$c_local(z, zn, time, record.as_ptr(), record.len()) };
            answer.checked().map(Answer::time)
        }
        )*
    };
}
setters! {
    Milliseconds: set_utc_milliseconds zovattha_set_utc_milliseconds,
        set_milliseconds zovattha_set_milliseconds, "millisecond";
    Seconds: set_utc_seconds zovattha_set_utc_seconds,
        set_seconds zovattha_set_seconds, "second (and millisecond)";
    Minutes: set_utc_minutes zovattha_set_utc_minutes,
        set_minutes zovattha_set_minutes, "minute (and smaller fields)";
    /// ```
    /// use zovattha::{Hours, ZoneList, ZoneRecord, set_hours, to_iso_string};
    ///
    /// let house = ZoneList::from_records(&[ZoneRecord { second: 0, offset: 3600 }])?;
    /// let start = set_hours(&house, 1709208000000.0, &Hours::new().hour(20).minute(15))?;
    /// assert_eq!(to_iso_string(start)?, "2024-02-29T19:15:00.000Z");
    /// // The hour is not given, and remains.
    /// let later = set_hours(&house, start, &Hours::new().minute(45))?;
    /// assert_eq!(to_iso_string(later)?, "2024-02-29T19:45:00.000Z");
    /// // A NaN for the first field clears the date.
    /// assert!(set_hours(&house, start, &Hours::new().hour(f64::NAN))?.is_nan());
    /// # Ok::<(), zovattha::Refusal>(())
    /// ```
    ///
    Hours: set_utc_hours zovattha_set_utc_hours,
        set_hours zovattha_set_hours, "hour (and smaller fields)";
    Date: set_utc_date zovattha_set_utc_date,
        set_date zovattha_set_date, "day of the month";
    /// ```
    /// use zovattha::{Month, ZoneList, set_month, to_iso_string};
    ///
    /// // 31 January becomes 31 February, which is 2 March.
    /// let moved = set_month(&ZoneList::utc(), 1706659200000.0, &Month::new().month(1))?;
    /// assert_eq!(to_iso_string(moved)?, "2024-03-02T00:00:00.000Z");
    /// # Ok::<(), zovattha::Refusal>(())
    /// ```
    ///
    Month: set_utc_month zovattha_set_utc_month,
        set_month zovattha_set_month, "month (and day)";
    FullYear: set_utc_full_year zovattha_set_utc_full_year,
        set_full_year zovattha_set_full_year, "year (and month and day)";
}
