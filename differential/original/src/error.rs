//! Errors: a kind and a message.

#[derive(Debug, Clone, PartialEq)]
pub struct JsNativeError {
    pub kind: &'static str,
    pub message: String,
}

impl JsNativeError {
    pub fn typ() -> Self {
        Self { kind: "TypeError", message: String::new() }
    }
    pub fn range() -> Self {
        Self { kind: "RangeError", message: String::new() }
    }
    pub fn with_message(mut self, m: &str) -> Self {
        self.message = m.to_string();
        self
    }
}

#[derive(Debug, Clone, PartialEq)]
pub struct JsError(pub JsNativeError);

impl From<JsNativeError> for JsError {
    fn from(e: JsNativeError) -> Self {
        Self(e)
    }
}
