//! The two traits that value/integer.rs names in a bound of a function the date module never calls.

/// A plain conversion to `T`.
pub trait AsPrimitive<T: 'static + Copy>: 'static + Copy {
    fn as_(self) -> T;
}

/// A conversion from `i64` that may fail.
pub trait FromPrimitive: Sized {
    fn from_i64(n: i64) -> Option<Self>;
}
