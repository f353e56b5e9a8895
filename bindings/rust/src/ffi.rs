//! include/zovattha.h in Rust: the C functions as they are. The rest of this crate calls them with
//! slices, so that nothing below is left to a caller; they are public for those who hold zone lists
//! and field records as bytes of their own. The differential run declares them by this file too.
//!
//! Every function takes any bits and any bytes. What a caller keeps: a pointer lent with a length is
//! good for that many bytes, and `out` overlaps no other run. A zone list is 12 bytes a record: a
//! second (`i64`), then an offset in seconds (`i32`), low byte first.
//!
//! The thread's floating-point environment is the caller's too: exceptions are masked, and for the
//! builder and the setters the rounding mode is the default, to nearest. Denormals-are-zero and
//! flush-to-zero change no answer of any function, and a rounding mode none of the reader, of
//! rewriting or of a writer; tests/c/environment.c tests both.

/// An answer: 0 or the number of the refusal, the bits of a time value, how many bytes were written.
#[repr(C)]
#[derive(Clone, Copy, Debug, PartialEq, Eq)]
pub struct Answer {
    pub number: u32,
    pub value: u64,
    pub length: usize,
}

unsafe extern "C" {
    pub fn zovattha_read(
        zone: *const u8,
        zone_len: usize,
        text: *const u8,
        text_len: usize,
    ) -> Answer;
    pub fn zovattha_rewrite(
        zone: *const u8,
        zone_len: usize,
        text: *const u8,
        text_len: usize,
        out: *mut u8,
        out_len: usize,
    ) -> Answer;
    pub fn zovattha_to_iso_string(time: u64, out: *mut u8, out_len: usize) -> Answer;
    pub fn zovattha_to_utc_string(time: u64, out: *mut u8, out_len: usize) -> Answer;
    pub fn zovattha_to_string(
        zone: *const u8,
        zone_len: usize,
        time: u64,
        out: *mut u8,
        out_len: usize,
    ) -> Answer;
    pub fn zovattha_build_utc(record: *const u8, record_len: usize) -> Answer;
    pub fn zovattha_build_local(
        zone: *const u8,
        zone_len: usize,
        record: *const u8,
        record_len: usize,
    ) -> Answer;
}

/// A setter in UTC and the same by a zone list.
macro_rules! setters {
    ($(pub fn $utc:ident(time, record);
       pub fn $local:ident(zone, time, record);)*) => {
        unsafe extern "C" {
            $(pub fn $utc(time: u64, record: *const u8, record_len: usize) -> Answer;
            pub fn $local(
                zone: *const u8,
                zone_len: usize,
                time: u64,
                record: *const u8,
                record_len: usize,
            ) -> Answer;)*
        }
    };
}
setters! {
    pub fn zovattha_set_utc_milliseconds(time, record);
    pub fn zovattha_set_milliseconds(zone, time, record);
    pub fn zovattha_set_utc_seconds(time, record);
    pub fn zovattha_set_seconds(zone, time, record);
    pub fn zovattha_set_utc_minutes(time, record);
    pub fn zovattha_set_minutes(zone, time, record);
    pub fn zovattha_set_utc_hours(time, record);
    pub fn zovattha_set_hours(zone, time, record);
    pub fn zovattha_set_utc_date(time, record);
    pub fn zovattha_set_date(zone, time, record);
    pub fn zovattha_set_utc_month(time, record);
    pub fn zovattha_set_month(zone, time, record);
    pub fn zovattha_set_utc_full_year(time, record);
    pub fn zovattha_set_full_year(zone, time, record);
}
