//! The names that the date module takes from `boa_macros`.
pub use boa_derive::{Finalize, JsData, Trace};

#[doc(hidden)]
pub use boa_string as __string;

/// A string literal as a `JsStr`. The date module's literals are all ASCII.
#[macro_export]
macro_rules! js_str {
    ($s:literal) => {
        const { $crate::__string::JsStr::latin1(<str>::as_bytes($s)) }
    };
}
