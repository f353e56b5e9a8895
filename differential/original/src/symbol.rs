//! The one symbol that date/mod.rs names.

#[derive(Clone, Debug)]
pub struct JsSymbol;

impl JsSymbol {
    pub fn to_primitive() -> Self {
        Self
    }
}
