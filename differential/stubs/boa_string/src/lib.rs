//! Just enough of boa_string: a latin1 or UTF-16 string, one allocation, counted.
use std::rc::Rc;

#[derive(Debug, Clone, Copy, PartialEq, Eq)]
pub enum JsStrVariant<'a> {
    Latin1(&'a [u8]),
    Utf16(&'a [u16]),
}

#[derive(Debug, Clone, Copy, PartialEq, Eq)]
pub struct JsStr<'a>(JsStrVariant<'a>);

impl<'a> JsStr<'a> {
    pub const fn latin1(v: &'a [u8]) -> Self {
        Self(JsStrVariant::Latin1(v))
    }
    pub const fn utf16(v: &'a [u16]) -> Self {
        Self(JsStrVariant::Utf16(v))
    }
    pub const fn variant(self) -> JsStrVariant<'a> {
        self.0
    }
    pub const fn len(&self) -> usize {
        match self.0 {
            JsStrVariant::Latin1(s) => s.len(),
            JsStrVariant::Utf16(s) => s.len(),
        }
    }
    pub const fn is_empty(&self) -> bool {
        self.len() == 0
    }
}

#[derive(Debug)]
pub struct StaticString(JsStr<'static>);

impl StaticString {
    pub const fn new(s: JsStr<'static>) -> Self {
        Self(s)
    }
}

#[derive(Debug, Clone)]
enum Inner {
    Static(&'static StaticString),
    Latin1(Rc<[u8]>),
    Utf16(Rc<[u16]>),
}

#[derive(Debug, Clone)]
pub struct JsString(Inner);

impl Default for JsString {
    fn default() -> Self {
        Self(Inner::Latin1(Rc::from(&[][..])))
    }
}

impl JsString {
    pub const fn from_static(s: &'static StaticString) -> Self {
        Self(Inner::Static(s))
    }
    pub fn as_str(&self) -> JsStr<'_> {
        match &self.0 {
            Inner::Static(s) => s.0,
            Inner::Latin1(s) => JsStr::latin1(s),
            Inner::Utf16(s) => JsStr::utf16(s),
        }
    }
    pub fn concat(x: JsStr<'_>, y: JsStr<'_>) -> Self {
        Self::concat_array(&[x, y])
    }
    pub fn concat_array(parts: &[JsStr<'_>]) -> Self {
        let n: usize = parts.iter().map(JsStr::len).sum();
        let mut latin = true;
        for p in parts {
            if let JsStrVariant::Utf16(_) = p.variant() {
                latin = false
            }
        }
        if latin {
            let mut rc: Rc<[u8]> = std::iter::repeat_n(0u8, n).collect();
            let out = Rc::get_mut(&mut rc).unwrap();
            let mut at = 0;
            for p in parts {
                if let JsStrVariant::Latin1(s) = p.variant() {
                    out[at..at + s.len()].copy_from_slice(s);
                    at += s.len();
                }
            }
            return Self(Inner::Latin1(rc));
        }
        let mut v: Vec<u16> = Vec::with_capacity(n);
        for p in parts {
            match p.variant() {
                JsStrVariant::Latin1(s) => v.extend(s.iter().map(|b| u16::from(*b))),
                JsStrVariant::Utf16(s) => v.extend_from_slice(s),
            }
        }
        Self(Inner::Utf16(v.into()))
    }
    pub fn to_std_string_lossy(&self) -> String {
        match self.as_str().variant() {
            JsStrVariant::Latin1(s) => s.iter().map(|b| *b as char).collect(),
            JsStrVariant::Utf16(s) => String::from_utf16_lossy(s),
        }
    }
}

impl From<JsStr<'_>> for JsString {
    fn from(s: JsStr<'_>) -> Self {
        match s.variant() {
            JsStrVariant::Latin1(s) => Self(Inner::Latin1(s.into())),
            JsStrVariant::Utf16(s) => Self(Inner::Utf16(s.into())),
        }
    }
}

impl From<&str> for JsString {
    fn from(s: &str) -> Self {
        if s.is_ascii() {
            Self(Inner::Latin1(s.as_bytes().into()))
        } else {
            Self(Inner::Utf16(s.encode_utf16().collect::<Vec<_>>().into()))
        }
    }
}

impl<'a> From<&'a JsString> for JsStr<'a> {
    fn from(s: &'a JsString) -> Self {
        s.as_str()
    }
}

impl PartialEq for JsString {
    fn eq(&self, o: &Self) -> bool {
        self.to_std_string_lossy() == o.to_std_string_lossy()
    }
}

impl PartialEq<str> for JsString {
    fn eq(&self, o: &str) -> bool {
        self.to_std_string_lossy() == o
    }
}

impl PartialEq<&str> for JsString {
    fn eq(&self, o: &&str) -> bool {
        self.to_std_string_lossy() == *o
    }
}

pub struct StaticJsStrings;

impl StaticJsStrings {
    pub const DATE: JsString = {
        const S: StaticString = StaticString::new(JsStr::latin1(b"Date"));
        JsString::from_static(&S)
    };
}
