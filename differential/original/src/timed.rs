//! For the benchmark: the original's own calls, with all that Boa keeps around them made beforehand
//! (the context with its host hook, the date object, the arguments as values).

use crate::builtins::date::{Date, utils::exports::read};
use crate::context::{Context, HostHooks};
use crate::exports::{local, make};
use crate::object::NativeFn;
use crate::{JsObject, JsString, JsValue};
use std::rc::Rc;

/// A zone list as a host would keep it: looked up by halving.
pub struct Halving(Vec<(i64, i32)>);

impl HostHooks for Halving {
    fn local_timezone_offset_seconds(&self, second: i64) -> i32 {
        let after = self.0.partition_point(|(start, _)| *start <= second);
        self.0[after.saturating_sub(1)].1
    }
}

/// A running engine: its hook, and the context that holds it.
pub struct Engine {
    hook: Rc<Halving>,
    context: Context,
}

fn number(value: &JsValue) -> f64 {
    value.as_number().expect("a number")
}

impl Engine {
    /// An engine with a zone list of at least one record.
    pub fn new(records: &[(i64, i32)]) -> Self {
        assert!(!records.is_empty(), "a zone list has a record");
        let hook = Rc::new(Halving(records.to_vec()));
        Self { context: Context::with_hooks(hook.clone()), hook }
    }

    /// `DateParser::parse`.
    pub fn read(&self, text: &str) -> Option<i64> {
        read::date_parser(text, &*self.hook)
    }

    /// A method's answer that is a text.
    fn text(&mut self, method: NativeFn, date: &JsValue) -> JsString {
        method(date, &[], &mut self.context).expect("no error").as_string().expect("a string")
    }

    pub fn to_iso_string(&mut self, date: &JsValue) -> JsString {
        self.text(Date::to_iso_string, date)
    }

    pub fn to_utc_string(&mut self, date: &JsValue) -> JsString {
        self.text(Date::to_utc_string, date)
    }

    /// The local text.
    pub fn to_string(&mut self, date: &JsValue) -> JsString {
        self.text(Date::to_string, date)
    }

    /// `Date.UTC`.
    pub fn build_utc(&mut self, args: &[JsValue]) -> f64 {
        number(&Date::utc(&JsValue::undefined(), args, &mut self.context).expect("no error"))
    }

    /// The arithmetic of the many-field constructor, without its object.
    pub fn build_local(&self, [y, m, dt, h, min, s, milli]: [f64; 7]) -> f64 {
        let day = make::make_day(make::make_full_year(y), m, dt);
        let final_date = make::make_date(day, make::make_time(h, min, s, milli));
        make::time_clip(local::utc_t(final_date, &*self.hook))
    }

    /// A setter's method: it changes the date and answers its new value.
    pub fn set(&mut self, method: NativeFn, date: &JsValue, args: &[JsValue]) -> f64 {
        number(&method(date, args, &mut self.context).expect("no error"))
    }
}

/// A date object.
pub fn date(time: f64) -> JsValue {
    JsObject::of(Date::new(time)).into()
}
