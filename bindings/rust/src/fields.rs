//! Field records by name: which fields a call is given, and what they are.
//!
//! A field that is not given stands for document 01's default: in the builder month 0 (January),
//! date 1 and otherwise 0, but a year that is not given makes the answer NaN; in a setter every field
//! that is not given keeps its present value, the first too. A setter's first field that is given as
//! NaN clears the date.

/// Where the fields of a record begin: after one byte of bit map.
const MAP_BYTES: usize = 1;
/// The longest record: the builder's, with all seven fields.
const LONGEST: usize = MAP_BYTES + 7 * 8;

/// A record as the C functions take it: a bit map, then 8 bytes for each field that is given.
#[derive(Clone, Copy, Debug)]
pub struct Record {
    bytes: [u8; LONGEST],
    length: usize,
}

impl Record {
    /// The record of a call's fields, in the order of their bits.
    fn of(fields: &[Option<f64>]) -> Self {
        let mut record = Self { bytes: [0; LONGEST], length: MAP_BYTES };
        for (bit, field) in fields.iter().enumerate() {
            if let Some(value) = field {
                record.bytes[0] |= 1 << bit;
                let end = record.length + 8;
                record.bytes[record.length..end].copy_from_slice(&value.to_bits().to_le_bytes());
                record.length = end;
            }
        }
        record
    }

    pub fn as_bytes(&self) -> &[u8] {
        &self.bytes[..self.length]
    }
}

/// A call's fields: each is given by its name, as any number that an f64 holds.
macro_rules! fields {
    ($($(#[$about:meta])* $name:ident { $($field:ident),* })*) => {
        $($(#[$about])*
        #[derive(Clone, Copy, Debug, Default, PartialEq)]
        pub struct $name { $($field: Option<f64>),* }

        impl $name {
            /// No field given: in a setter each keeps its present value; in the builder each has its
            /// default, and without a year the answer is NaN.
            pub const fn new() -> Self {
                Self { $($field: None),* }
            }

            $(
            #[doc = concat!("The same with the ", stringify!($field), " given.")]
            #[must_use]
            pub fn $field(mut self, value: impl Into<f64>) -> Self {
                self.$field = Some(value.into());
                self
            }
            )*

            /// The record as the C functions take it.
            pub fn record(&self) -> Record {
                Record::of(&[$(self.$field),*])
            }
        })*
    };
}

fields! {
    /// The builder's fields: year (0 to 99 are 1900 to 1999), month (January is 0), date, hour,
    /// minute, second, millisecond.
    Fields { year, month, date, hour, minute, second, millisecond }
    /// What [`set_milliseconds`](crate::set_milliseconds) is given.
    Milliseconds { millisecond }
    /// What [`set_seconds`](crate::set_seconds) is given.
    Seconds { second, millisecond }
    /// What [`set_minutes`](crate::set_minutes) is given.
    Minutes { minute, second, millisecond }
    /// What [`set_hours`](crate::set_hours) is given.
    Hours { hour, minute, second, millisecond }
    /// What [`set_date`](crate::set_date) is given: a day of the month.
    Date { date }
    /// What [`set_month`](crate::set_month) is given: a month, January 0, and a day of it.
    Month { month, date }
    /// What [`set_full_year`](crate::set_full_year) is given. The year stands for
    /// itself. A time that is NaN counts as 0, so that there a year that is not given is 1970.
    FullYear { year, month, date }
}

#[cfg(test)]
mod tests {
    use super::*;

    #[test]
    fn a_record_is_its_map_and_its_fields() {
        assert_eq!(Fields::new().record().as_bytes(), [0]);
        let record = Fields::new().millisecond(1).year(-2.5).record();
        let expected = [&[0x41][..], &(-2.5_f64).to_le_bytes(), &1.0_f64.to_le_bytes()].concat();
        assert_eq!(record.as_bytes(), expected);
    }

    #[test]
    fn a_setters_first_argument_is_bit_0() {
        assert_eq!(Hours::new().hour(20).record().as_bytes()[0], 0b0001);
        assert_eq!(Hours::new().millisecond(0).record().as_bytes()[0], 0b1000);
        assert_eq!(FullYear::new().year(2024).date(1).record().as_bytes()[0], 0b101);
        assert_eq!(Date::new().date(1).record().as_bytes().len(), 9);
    }

    #[test]
    fn the_longest_record_fits() {
        let all = Fields::new().year(1).month(2).date(3).hour(4).minute(5).second(6).millisecond(7);
        assert_eq!(all.record().as_bytes().len(), LONGEST);
    }
}
