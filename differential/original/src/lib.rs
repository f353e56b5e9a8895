//! The oracle: the date module of boa_engine 0.22.0, its text unchanged, over small shims.
//!
//! build.rs finds the text and lays it out; `exports` is what the harness calls. The other modules
//! are the least of Boa over which that text compiles.
#![allow(dead_code, unused, unreachable_code, deprecated, clippy::all)]

pub mod exports;
pub mod timed;

pub mod builtins;
pub mod context;
pub mod error;
pub mod job;
pub mod object;
pub mod property;
pub mod realm;
pub mod symbol;
pub mod value;

pub use boa_macros::{JsData, js_str};
pub use boa_string::{JsStr, JsString};
pub use boa_text::{js_string, string};
pub use context::Context;
pub use error::{JsError, JsNativeError};
pub use object::JsObject;
pub use symbol::JsSymbol;
pub use value::JsValue;

pub type JsResult<T> = Result<T, JsError>;

/// A missing argument is `undefined`.
pub trait JsArgs {
    fn get_or_undefined(&self, i: usize) -> &JsValue;
}

impl JsArgs for [JsValue] {
    fn get_or_undefined(&self, i: usize) -> &JsValue {
        const UNDEFINED: &JsValue = &JsValue::Undefined;
        self.get(i).unwrap_or(UNDEFINED)
    }
}
