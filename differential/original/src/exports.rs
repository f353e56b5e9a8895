//! What the oracle exports. Every answer comes from the original's own text.

use crate::builtins::BuiltInConstructor;
use crate::builtins::date::{Date, utils::exports::read};
use crate::context::{Context, HostHooks};
use crate::object::NativeFn;
use crate::{JsObject, JsResult, JsStr, JsString, JsValue};
use std::rc::Rc;

/// The functions of date/utils.rs, under their own names.
pub use crate::builtins::date::utils::exports::{calendar, digits, local, make};

/// Document 01's zone list as a host hook: seconds rising, each with its offset in seconds.
#[derive(Clone, Debug)]
pub struct ZoneList(Rc<[(i64, i32)]>);

impl ZoneList {
    /// A list of at least one record.
    pub fn new(records: &[(i64, i32)]) -> Self {
        assert!(!records.is_empty(), "a zone list has a record");
        Self(records.into())
    }

    /// The hook's answer.
    pub fn offset_at(&self, second: i64) -> i32 {
        self.local_timezone_offset_seconds(second)
    }
}

impl HostHooks for ZoneList {
    /// The last record not after the second decides; before the first, the first does.
    fn local_timezone_offset_seconds(&self, second: i64) -> i32 {
        let mut decides = self.0[0].1;
        for (start, offset) in self.0.iter() {
            if *start <= second {
                decides = *offset;
            }
        }
        decides
    }
}

/// `DateParser::parse`; a text that is not ASCII goes to `parse_date`, which refuses it first.
pub fn parse(text: &[u8], zone: &ZoneList) -> Option<i64> {
    match std::str::from_utf8(text) {
        Ok(text) if text.is_ascii() => read::date_parser(text, zone),
        _ => read::parse_date(&JsString::from(JsStr::latin1(text)), zone),
    }
}

/// The seven setters of the base.
#[derive(Clone, Copy, Debug, PartialEq, Eq)]
pub enum Setter {
    Milliseconds,
    Seconds,
    Minutes,
    Hours,
    Date,
    Month,
    FullYear,
}

impl Setter {
    /// Its method, local or in UTC.
    pub fn method(self, local: bool) -> NativeFn {
        match (self, local) {
            (Self::Milliseconds, false) => Date::set_milliseconds::<false>,
            (Self::Milliseconds, true) => Date::set_milliseconds::<true>,
            (Self::Seconds, false) => Date::set_seconds::<false>,
            (Self::Seconds, true) => Date::set_seconds::<true>,
            (Self::Minutes, false) => Date::set_minutes::<false>,
            (Self::Minutes, true) => Date::set_minutes::<true>,
            (Self::Hours, false) => Date::set_hours::<false>,
            (Self::Hours, true) => Date::set_hours::<true>,
            (Self::Date, false) => Date::set_date::<false>,
            (Self::Date, true) => Date::set_date::<true>,
            (Self::Month, false) => Date::set_month::<false>,
            (Self::Month, true) => Date::set_month::<true>,
            (Self::FullYear, false) => Date::set_full_year::<false>,
            (Self::FullYear, true) => Date::set_full_year::<true>,
        }
    }
}

fn date_object(t: f64) -> JsValue {
    JsObject::of(Date::new(t)).into()
}

fn context(zone: &ZoneList) -> Context {
    Context::with_hooks(Rc::new(zone.clone()))
}

fn number(v: JsResult<JsValue>) -> f64 {
    v.expect("no error").as_number().expect("a number")
}

fn text(v: JsResult<JsValue>) -> Vec<u8> {
    bytes(&v.expect("no error").as_string().expect("a string"))
}

fn bytes(s: &JsString) -> Vec<u8> {
    s.to_std_string_lossy().into_bytes()
}

fn numbers(args: &[f64]) -> Vec<JsValue> {
    args.iter().map(|x| JsValue::from(*x)).collect()
}

/// A setter's method on a date that holds `t`, with its first arguments given; UTC where no list
/// is. The answer is what the method returns.
pub fn set(setter: Setter, zone: Option<&ZoneList>, t: f64, args: &[f64]) -> f64 {
    let args = &numbers(args);
    let this = &date_object(t);
    let utc = ZoneList::new(&[(0, 0)]);
    let c = &mut context(zone.unwrap_or(&utc));
    number(setter.method(zone.is_some())(this, args, c))
}

/// `Date.UTC` with the first arguments given.
pub fn build_utc(args: &[f64]) -> f64 {
    let c = &mut context(&ZoneList::new(&[(0, 0)]));
    number(Date::utc(&JsValue::undefined(), &numbers(args), c))
}

/// `new Date` with two arguments or more: the many-field constructor.
pub fn build_local(zone: &ZoneList, args: &[f64]) -> f64 {
    assert!(args.len() >= 2, "one argument is another constructor");
    let c = &mut context(zone);
    let date = Date::constructor(&JsValue::null(), &numbers(args), c).expect("no error");
    number(Date::value_of(&date, &[], c))
}

/// `toISOString`; `None` is its RangeError.
pub fn to_iso_string(t: f64) -> Option<Vec<u8>> {
    let c = &mut context(&ZoneList::new(&[(0, 0)]));
    let answer = Date::to_iso_string(&date_object(t), &[], c);
    answer.is_ok().then(|| text(answer))
}

/// `toUTCString`.
pub fn to_utc_string(t: f64) -> Vec<u8> {
    let c = &mut context(&ZoneList::new(&[(0, 0)]));
    text(Date::to_utc_string(&date_object(t), &[], c))
}

/// `toString`.
pub fn to_string(t: f64, zone: &ZoneList) -> Vec<u8> {
    text(Date::to_string(&date_object(t), &[], &mut context(zone)))
}
