//! The callback record that hooks.rs names.

use crate::object::JsFunction;

pub struct JobCallback {
    callback: JsFunction,
}

impl JobCallback {
    pub fn new(callback: JsFunction, _: ()) -> Self {
        Self { callback }
    }
    pub fn callback(&self) -> &JsFunction {
        &self.callback
    }
}
