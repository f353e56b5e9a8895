//! The proved archive, in this process: every slice lent between guard bytes that must stay.

use crate::case::Case;
use crate::ffi::Answer;
use crate::outcome::Outcome;
use original::exports::Setter;

/// What a function of an archive gives, or nothing where build.rs did not find its symbol.
macro_rules! if_linked {
    ($name:ident, $then:expr) => {{
        #[cfg($name)]
        {
            Some($then)
        }
        #[cfg(not($name))]
        {
            None
        }
    }};
}
pub(crate) use if_linked;

/// What a subject answered, and which lent byte it spoiled, if any.
#[derive(Clone, Debug)]
pub struct Answered {
    pub outcome: Outcome,
    pub spoiled: Option<String>,
}

/// Something whose answers are held to the expected ones.
pub trait Subject: Sync {
    /// The answer to a case, or nothing where the subject has no such function.
    fn answer(&self, case: &Case) -> Option<Answered>;
}

/// No archive at all: the oracle alone is exercised.
pub struct Nothing;

impl Subject for Nothing {
    fn answer(&self, _: &Case) -> Option<Answered> {
        None
    }
}

/// The functions linked from the archives.
pub struct Library;

impl Subject for Library {
    /// Where a slice is empty the call is made with a null pointer too, and must answer the same.
    fn answer(&self, case: &Case) -> Option<Answered> {
        let answered = call(case, false)?;
        if case.lends_nothing() && answered.spoiled.is_none() {
            let with_null = call(case, true)?;
            if with_null.outcome != answered.outcome {
                let spoiled = Some("a null pointer with length 0 is answered differently".into());
                return Some(Answered { spoiled, ..with_null });
            }
        }
        Some(answered)
    }
}

/// Guard bytes on each side of a lent slice; an odd number, so that slices are seldom aligned.
const GUARD: usize = 17;
const GUARD_BYTE: u8 = 0xA5;

/// A slice between guard bytes.
struct Lent {
    name: &'static str,
    buffer: Vec<u8>,
    null: bool,
}

impl Lent {
    fn new(name: &'static str, bytes: &[u8], null: bool) -> Self {
        let mut buffer = vec![GUARD_BYTE; bytes.len() + 2 * GUARD];
        buffer[GUARD..GUARD + bytes.len()].copy_from_slice(bytes);
        Self { name, buffer, null: null && bytes.is_empty() }
    }

    fn length(&self) -> usize {
        self.buffer.len() - 2 * GUARD
    }

    fn pointer(&self) -> *const u8 {
        if self.null { std::ptr::null() } else { self.buffer[GUARD..].as_ptr() }
    }

    fn pointer_mut(&mut self) -> *mut u8 {
        if self.null { std::ptr::null_mut() } else { self.buffer[GUARD..].as_mut_ptr() }
    }

    fn bytes(&self) -> &[u8] {
        &self.buffer[GUARD..GUARD + self.length()]
    }

    /// A guard byte that changed.
    fn guards(&self) -> Option<String> {
        let (before, rest) = self.buffer.split_at(GUARD);
        let after = &rest[self.length()..];
        let whole = before.iter().chain(after).all(|b| *b == GUARD_BYTE);
        (!whole).then(|| format!("a byte beside the {} was written", self.name))
    }

    /// A byte of an input that changed, or a guard byte.
    fn unread(&self, before: &[u8]) -> Option<String> {
        if self.bytes() == before {
            return self.guards();
        }
        Some(format!("the {} was written", self.name))
    }
}

/// The one call, by the C function of the case.
fn call(case: &Case, null: bool) -> Option<Answered> {
    let zone = Lent::new("zone list", case.zone(), null);
    let input = Lent::new("text or record", case.input(), null);
    let mut out = Lent::new("output", case.out(), null);
    let answer = unsafe { raw_call(case, &zone, &input, &mut out)? };
    let spoiled =
        zone.unread(case.zone()).or_else(|| input.unread(case.input())).or_else(|| out.guards());
    let Answer { number, value, length } = answer;
    let outcome = Outcome { number, value, length, out: out.bytes().to_vec() };
    Some(Answered { outcome, spoiled })
}

/// A row for each C function: the case that asks for it, and the call, by the names given first for
/// the pointers and lengths of zone list, text or record, and output.
macro_rules! functions {
    ($lent:tt $($case:pat => $name:ident $args:tt;)*) => {
        /// # Safety
        /// The lent slices are whole and the archives' functions have the types they are declared by.
        #[allow(unused_variables, reason = "an archive may lack the function that takes them")]
        unsafe fn raw_call(
            case: &Case,
            zone: &Lent,
            input: &Lent,
            out: &mut Lent,
        ) -> Option<Answer> {
            let (list, text) = ((zone.pointer(), zone.length()), (input.pointer(), input.length()));
            let $lent = (list.0, list.1, text.0, text.1, out.pointer_mut(), out.length());
            match *case {
                $($case => if_linked!($name, unsafe { crate::ffi::$name $args }),)*
                Case::Export { export, args, .. } => {
                    let value = unsafe { export.linked?(list, args) };
                    Some(Answer { number: 0, value, length: 0 })
                }
            }
        }

        /// Every C function, and whether it is linked.
        pub fn all() -> Vec<(&'static str, bool)> {
            vec![$((stringify!($name), cfg!($name))),*]
        }
    };
}

functions! {
    (z, zn, i, n, o, on)
    Case::Read { .. } => zovattha_read(z, zn, i, n);
    Case::Rewrite { .. } => zovattha_rewrite(z, zn, i, n, o, on);
    Case::ToIsoString { time, .. } => zovattha_to_iso_string(time, o, on);
    Case::ToUtcString { time, .. } => zovattha_to_utc_string(time, o, on);
    Case::ToString { time, .. } => zovattha_to_string(z, zn, time, o, on);
    Case::BuildUtc { .. } => zovattha_build_utc(i, n);
    Case::BuildLocal { .. } => zovattha_build_local(z, zn, i, n);
    Case::SetUtc { setter: Setter::Milliseconds, time, .. } => zovattha_set_utc_milliseconds(time, i, n);
    Case::SetUtc { setter: Setter::Seconds, time, .. } => zovattha_set_utc_seconds(time, i, n);
    Case::SetUtc { setter: Setter::Minutes, time, .. } => zovattha_set_utc_minutes(time, i, n);
    Case::SetUtc { setter: Setter::Hours, time, .. } => zovattha_set_utc_hours(time, i, n);
    Case::SetUtc { setter: Setter::Date, time, .. } => zovattha_set_utc_date(time, i, n);
    Case::SetUtc { setter: Setter::Month, time, .. } => zovattha_set_utc_month(time, i, n);
    Case::SetUtc { setter: Setter::FullYear, time, .. } => zovattha_set_utc_full_year(time, i, n);
    Case::Set { setter: Setter::Milliseconds, time, .. } => zovattha_set_milliseconds(z, zn, time, i, n);
    Case::Set { setter: Setter::Seconds, time, .. } => zovattha_set_seconds(z, zn, time, i, n);
    Case::Set { setter: Setter::Minutes, time, .. } => zovattha_set_minutes(z, zn, time, i, n);
    Case::Set { setter: Setter::Hours, time, .. } => zovattha_set_hours(z, zn, time, i, n);
    Case::Set { setter: Setter::Date, time, .. } => zovattha_set_date(z, zn, time, i, n);
    Case::Set { setter: Setter::Month, time, .. } => zovattha_set_month(z, zn, time, i, n);
    Case::Set { setter: Setter::FullYear, time, .. } => zovattha_set_full_year(z, zn, time, i, n);
}
