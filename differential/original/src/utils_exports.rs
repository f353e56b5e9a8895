// Stands below the unchanged text of date/utils.rs: its functions made public, under their own names.

pub mod exports {
    use crate::builtins::date::utils;
    use crate::{JsString, context::HostHooks};

    /// For each row a function that hands its arguments to the original's own.
    macro_rules! exports {
        ($from:path: $($name:ident($($arg:ident: $type:ty),*) -> $out:ty;)*) => {
            $(pub fn $name($($arg: $type),*) -> $out {
                use $from as from;
                from::$name($($arg),*)
            })*
        };
    }

    /// For each row the digits that the original writes into an array lent to it.
    macro_rules! pads {
        ($($name:ident($type:ty) -> $width:literal;)*) => {
            $(pub fn $name(t: $type) -> [u8; $width] {
                let mut output = [0; $width];
                utils::$name(t, &mut output);
                output
            })*
        };
    }

    /// The readers.
    pub mod read {
        use super::*;
        /// `DateParser::parse` of a text.
        pub fn date_parser(text: &str, hooks: &dyn HostHooks) -> Option<i64> {
            utils::DateParser::new(text, hooks).parse()
        }
        exports! { utils:
            parse_date(date: &JsString, hooks: &dyn HostHooks) -> Option<i64>;
        }
    }

    /// The calendar.
    pub mod calendar {
        use super::*;
        exports! { utils:
            day(t: f64) -> f64;
            time_within_day(t: f64) -> f64;
            days_in_year(y: f64) -> u16;
            day_from_year(y: f64) -> f64;
            time_from_year(y: f64) -> f64;
            year_from_time(t: f64) -> i32;
            day_within_year(t: f64) -> u16;
            in_leap_year(t: f64) -> u16;
            month_from_time(t: f64) -> u8;
            date_from_time(t: f64) -> u8;
            week_day(t: f64) -> u8;
            hour_from_time(t: f64) -> u8;
            min_from_time(t: f64) -> u8;
            sec_from_time(t: f64) -> u8;
            ms_from_time(t: f64) -> u16;
        }
    }

    /// The makers.
    pub mod make {
        use super::*;
        exports! { utils:
            make_time(hour: f64, min: f64, sec: f64, ms: f64) -> f64;
            make_day(year: f64, month: f64, date: f64) -> f64;
            make_date(day: f64, time: f64) -> f64;
            make_full_year(year: f64) -> f64;
            time_clip(time: f64) -> f64;
        }
    }

    /// Local time and back, and the parts of the local text.
    pub mod local {
        use super::*;
        exports! { utils:
            local_timezone_offset_seconds(t: f64, hooks: &dyn HostHooks) -> i32;
            local_time(t: f64, hooks: &dyn HostHooks) -> f64;
            utc_t(t: f64, hooks: &dyn HostHooks) -> f64;
            date_string(t: f64) -> JsString;
            time_string(t: f64) -> JsString;
            time_zone_string(t: f64, hooks: &dyn HostHooks) -> JsString;
            to_date_string_t(t: f64, hooks: &dyn HostHooks) -> JsString;
        }
    }

    /// Digits in and out.
    pub mod digits {
        use super::*;
        exports! { utils::fast_atoi:
            process_4(val: u32, len: usize) -> u32;
            process_8(val: u64, len: usize) -> u64;
        }
        pads! {
            pad_two(u8) -> 2;
            pad_three(u16) -> 3;
            pad_four(u32) -> 4;
            pad_five(u32) -> 5;
            pad_six(u32) -> 6;
        }
    }
}
