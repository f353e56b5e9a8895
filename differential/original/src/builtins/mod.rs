//! What the date module names of Boa's built-ins. Nothing is registered anywhere.

include!(concat!(env!("OUT_DIR"), "/date.rs"));

use crate::{
    Context, JsObject, JsResult, JsString, JsValue,
    context::intrinsics::{Intrinsics, StandardConstructor, StandardConstructors},
    object::{JsFunction, NativeFn},
    property::{Attribute, PropertyKey},
    realm::Realm,
};

use std::marker::PhantomData;

pub mod promise {
    #[derive(Debug)]
    pub struct Promise;
    pub enum OperationType {
        Reject,
        Handle,
    }
}

pub use promise::Promise;

pub trait IntrinsicObject {
    fn init(realm: &Realm);
    fn get(intrinsics: &Intrinsics) -> JsObject;
}

pub trait BuiltInObject: IntrinsicObject {
    const NAME: JsString;
}

pub trait BuiltInConstructor: BuiltInObject {
    const CONSTRUCTOR_ARGUMENTS: usize;
    const PROTOTYPE_STORAGE_SLOTS: usize;
    const CONSTRUCTOR_STORAGE_SLOTS: usize;
    const STANDARD_CONSTRUCTOR: fn(&StandardConstructors) -> &StandardConstructor;
    fn constructor(
        new_target: &JsValue,
        args: &[JsValue],
        context: &mut Context,
    ) -> JsResult<JsValue>;
}

pub struct BuiltInBuilder;

impl BuiltInBuilder {
    pub fn callable(_: &Realm, f: NativeFn) -> Callable {
        Callable(f)
    }
    pub fn from_standard_constructor<T>(_: &Realm) -> Methods<T> {
        Methods(PhantomData)
    }
}

pub struct Callable(NativeFn);

impl Callable {
    pub fn name(self, _: JsString) -> Self {
        self
    }
    pub fn length(self, _: usize) -> Self {
        self
    }
    pub fn build(self) -> JsFunction {
        JsFunction(self.0)
    }
}

pub struct Methods<T>(PhantomData<T>);

impl<T> Methods<T> {
    pub fn method(self, _: NativeFn, _: JsString, _: usize) -> Self {
        self
    }
    pub fn static_method(self, _: NativeFn, _: JsString, _: usize) -> Self {
        self
    }
    pub fn property<K: Into<PropertyKey>, V>(self, _: K, _: V, _: Attribute) -> Self {
        self
    }
    pub fn build(self) {}
}
