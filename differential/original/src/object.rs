//! Objects: an object is its data and nothing else.

use crate::{Context, JsResult, JsString, JsValue, context::intrinsics::Intrinsics};
use std::{
    any::Any,
    cell::{Ref, RefCell, RefMut},
    marker::PhantomData,
    rc::Rc,
};

pub type NativeFn = fn(&JsValue, &[JsValue], &mut Context) -> JsResult<JsValue>;

#[derive(Debug)]
pub struct Erased;

pub struct Object<T> {
    data: T,
}

impl<T> Object<T> {
    pub fn data(&self) -> &T {
        &self.data
    }
    pub fn data_mut(&mut self) -> &mut T {
        &mut self.data
    }
}

/// An object is its data; nothing else is kept.
pub struct JsObject<T = Erased> {
    cell: Rc<dyn Any>,
    p: PhantomData<T>,
}

impl<T> Clone for JsObject<T> {
    fn clone(&self) -> Self {
        Self { cell: self.cell.clone(), p: PhantomData }
    }
}

impl<T> std::fmt::Debug for JsObject<T> {
    fn fmt(&self, f: &mut std::fmt::Formatter<'_>) -> std::fmt::Result {
        f.write_str("object")
    }
}

impl<T: 'static> JsObject<T> {
    pub fn borrow(&self) -> Ref<'_, Object<T>> {
        self.cell.downcast_ref::<RefCell<Object<T>>>().unwrap().borrow()
    }
    pub fn borrow_mut(&self) -> RefMut<'_, Object<T>> {
        self.cell.downcast_ref::<RefCell<Object<T>>>().unwrap().borrow_mut()
    }
}

impl JsObject {
    pub fn of<T: 'static>(data: T) -> Self {
        Self { cell: Rc::new(RefCell::new(Object { data })), p: PhantomData }
    }
    pub fn from_proto_and_data_with_shared_shape<T: 'static>(_: &(), _: JsObject, data: T) -> Self {
        Self::of(data)
    }
    pub fn with_object_proto(_: &Intrinsics) -> Self {
        Self::of(())
    }
    pub fn downcast<T: 'static>(self) -> Result<JsObject<T>, Self> {
        if self.cell.is::<RefCell<Object<T>>>() {
            Ok(JsObject { cell: self.cell, p: PhantomData })
        } else {
            Err(self)
        }
    }
    pub fn downcast_ref<T: 'static>(&self) -> Option<Ref<'_, T>> {
        self.cell.downcast_ref::<RefCell<Object<T>>>().map(|c| Ref::map(c.borrow(), |o| &o.data))
    }
    pub fn get(&self, _: JsString, _: &mut Context) -> JsResult<JsValue> {
        unimplemented!()
    }
    pub fn ordinary_to_primitive(
        &self,
        _: &mut Context,
        _: crate::value::PreferredType,
    ) -> JsResult<JsValue> {
        unimplemented!()
    }
}

#[derive(Clone)]
pub struct JsFunction(pub NativeFn);

impl JsFunction {
    pub fn call(&self, this: &JsValue, args: &[JsValue], c: &mut Context) -> JsResult<JsValue> {
        (self.0)(this, args, c)
    }
}

pub mod internal_methods {
    use crate::{
        Context, JsObject, JsResult, JsValue,
        context::intrinsics::{StandardConstructor, StandardConstructors},
    };
    pub fn get_prototype_from_constructor(
        _: &JsValue,
        _: fn(&StandardConstructors) -> &StandardConstructor,
        _: &mut Context,
    ) -> JsResult<JsObject> {
        Ok(JsObject::of(()))
    }
}
