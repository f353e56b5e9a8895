//! Values: those that the date module takes and gives. Conversions to numbers stay in Boa; here a
//! number is already one.

mod integer;
use crate::{Context, JsObject, JsResult, JsString};
pub use integer::IntegerOrInfinity;

#[derive(Clone, Copy, Debug)]
pub enum PreferredType {
    String,
    Number,
    Default,
}

#[derive(Clone, Debug)]
pub enum JsValue {
    Undefined,
    Null,
    Number(f64),
    String(JsString),
    Object(JsObject),
}

impl JsValue {
    pub fn new<T: Into<Self>>(v: T) -> Self {
        v.into()
    }
    pub const fn null() -> Self {
        Self::Null
    }
    pub const fn undefined() -> Self {
        Self::Undefined
    }
    pub fn is_undefined(&self) -> bool {
        matches!(self, Self::Undefined)
    }
    pub fn as_object(&self) -> Option<JsObject> {
        if let Self::Object(o) = self { Some(o.clone()) } else { None }
    }
    pub fn as_string(&self) -> Option<JsString> {
        if let Self::String(o) = self { Some(o.clone()) } else { None }
    }
    pub fn as_number(&self) -> Option<f64> {
        if let Self::Number(o) = self { Some(*o) } else { None }
    }
    pub fn to_primitive(&self, _: &mut Context, _: PreferredType) -> JsResult<Self> {
        Ok(self.clone())
    }
    pub fn to_number(&self, _: &mut Context) -> JsResult<f64> {
        Ok(match self {
            Self::Number(x) => *x,
            Self::Null => 0.0,
            Self::Undefined => f64::NAN,
            _ => unimplemented!(),
        })
    }
    pub fn to_string(&self, _: &mut Context) -> JsResult<JsString> {
        match self {
            Self::String(s) => Ok(s.clone()),
            _ => unimplemented!(),
        }
    }
    pub fn to_object(&self, _: &mut Context) -> JsResult<JsObject> {
        Ok(self.as_object().unwrap())
    }
    pub fn call(&self, _: &Self, _: &[Self], _: &mut Context) -> JsResult<Self> {
        unimplemented!()
    }
}

/// Every number is an f64.
macro_rules! numbers {
    ($($t:ty),*) => {
        $(impl From<$t> for JsValue {
            fn from(x: $t) -> Self {
                Self::Number(x as f64)
            }
        })*
    };
}
numbers!(f64, i32, u8, u16, i64);

impl From<JsString> for JsValue {
    fn from(s: JsString) -> Self {
        Self::String(s)
    }
}

impl From<JsObject> for JsValue {
    fn from(s: JsObject) -> Self {
        Self::Object(s)
    }
}
