//! The families of cases, one concept a file. A later piece adds its file and its line here.

use crate::run::Run;

mod build;
mod calendar;
mod cancel;
mod decimals;
mod differences;
mod digits;
mod facts;
mod floats;
mod local;
mod make;
mod marked;
mod read;
mod rewrite;
mod set;
mod write;
mod zone;

/// A family: its name and what it tries.
#[derive(Clone, Copy)]
pub struct Family {
    pub name: &'static str,
    pub run: fn(&mut Run),
}

/// Every family; those that take longest come first, so that the last ones are short.
pub fn all() -> Vec<Family> {
    [
        read::FAMILIES,
        facts::FAMILIES,
        rewrite::FAMILIES,
        decimals::FAMILIES,
        set::FAMILIES,
        build::FAMILIES,
        cancel::FAMILIES,
        write::FAMILIES,
        zone::FAMILIES,
        calendar::FAMILIES,
        make::FAMILIES,
        local::FAMILIES,
        floats::FAMILIES,
        digits::FAMILIES,
        marked::FAMILIES,
        differences::FAMILIES,
    ]
    .concat()
}
