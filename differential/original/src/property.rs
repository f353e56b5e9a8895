//! Attributes and keys of properties: named when the built-in is set up, never read.

#[derive(Clone, Copy)]
pub struct Attribute(u8);

impl Attribute {
    pub const WRITABLE: Self = Self(1);
    pub const NON_ENUMERABLE: Self = Self(0);
    pub const CONFIGURABLE: Self = Self(4);
    pub const READONLY: Self = Self(0);
}

impl std::ops::BitOr for Attribute {
    type Output = Self;
    fn bitor(self, o: Self) -> Self {
        Self(self.0 | o.0)
    }
}

pub enum PropertyKey {
    String(crate::JsString),
    Symbol(crate::JsSymbol),
}

impl From<crate::JsString> for PropertyKey {
    fn from(s: crate::JsString) -> Self {
        Self::String(s)
    }
}

impl From<crate::JsSymbol> for PropertyKey {
    fn from(s: crate::JsSymbol) -> Self {
        Self::Symbol(s)
    }
}
