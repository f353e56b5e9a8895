//! The intrinsics that the constructor names: none holds anything.

use crate::JsObject;

pub struct StandardConstructor;

impl StandardConstructor {
    pub fn constructor(&self) -> JsObject {
        JsObject::of(())
    }
}

pub struct StandardConstructors {
    date: StandardConstructor,
}

impl StandardConstructors {
    pub fn date(&self) -> &StandardConstructor {
        &self.date
    }
}

pub struct Intrinsics {
    c: StandardConstructors,
}

impl Intrinsics {
    pub fn constructors(&self) -> &StandardConstructors {
        &self.c
    }
}
