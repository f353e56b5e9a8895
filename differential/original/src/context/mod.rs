//! The context: the host hooks, through which a zone list reaches the original.

pub mod hooks;
pub mod intrinsics;
pub use hooks::{DefaultHooks, HostHooks};
use std::rc::Rc;

/// The clock stays in Boa.
pub struct Clock;

impl Clock {
    pub fn system_time_millis(&self) -> i64 {
        unimplemented!("the clock is no part of the oracle")
    }
}

pub struct Context {
    hooks: Rc<dyn HostHooks>,
    clock: Clock,
}

impl Context {
    pub fn with_hooks(hooks: Rc<dyn HostHooks>) -> Self {
        Self { hooks, clock: Clock }
    }
    pub fn host_hooks(&self) -> Rc<dyn HostHooks> {
        self.hooks.clone()
    }
    pub fn clock(&self) -> &Clock {
        &self.clock
    }
    pub fn root_shape(&self) -> &'static () {
        &()
    }
}
