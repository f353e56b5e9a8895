//! How a script engine calls the proved code in place of its own date functions. The engine keeps its
//! objects, its conversion to numbers and its clock; a date is a number, and each function below is
//! one call.
//!
//! The script is
//!
//! ```js
//! const cue = new Date("2024-06-01T20:15");
//! cue.setHours(21, 30);
//! print(cue.toString(), cue.toISOString());
//! ```

use zovattha::{Hours, Refusal, ZoneList, ZoneRecord};

/// The engine's date object.
struct Date {
    value: f64,
}

/// What a script throws.
#[derive(Debug, PartialEq)]
struct RangeError(String);

/// What the engine lends to every call: the house's zone list.
struct Realm {
    zone: ZoneList,
}

impl Realm {
    /// `new Date(text)`: a text that is turned back makes an invalid date.
    fn parse(&self, text: &str) -> Date {
        Date { value: zovattha::read(&self.zone, text).unwrap_or(f64::NAN) }
    }

    /// `date.setHours(hour, minute, second, ms)`, with as many arguments as the script gives. Called
    /// without any, it makes the date invalid, as the standard has it: the hour is then given as NaN,
    /// since a field that is not given keeps its value.
    fn set_hours(&self, date: &mut Date, arguments: &[f64]) -> f64 {
        let set: [fn(Hours, f64) -> Hours; 4] =
            [Hours::hour, Hours::minute, Hours::second, Hours::millisecond];
        let arguments = if arguments.is_empty() { &[f64::NAN] } else { arguments };
        let given = set.iter().zip(arguments);
        let hours = given.fold(Hours::new(), |hours, (set, argument)| set(hours, *argument));
        let value = zovattha::set_hours(&self.zone, date.value, &hours);
        date.value = value.expect("a date's value is a time value");
        date.value
    }

    /// A cue record of the house, not a script: its minute alone, and the hour remains.
    fn set_minute_of_cue(&self, date: &mut Date, minute: f64) {
        let value = zovattha::set_hours(&self.zone, date.value, &Hours::new().minute(minute));
        date.value = value.expect("a date's value is a time value");
    }

    /// `date.toString()`.
    fn to_string(&self, date: &Date) -> String {
        zovattha::to_string(&self.zone, date.value).expect("a date's value is a time value")
    }

    /// `date.toISOString()`: the one writer that an invalid date makes throw.
    fn to_iso_string(date: &Date) -> Result<String, RangeError> {
        zovattha::to_iso_string(date.value)
            .map_err(|refusal: Refusal| RangeError(refusal.to_string()))
    }
}

fn main() {
    let zone = ZoneList::from_records(&[
        ZoneRecord { second: 1_704_067_200, offset: 3600 },
        ZoneRecord { second: 1_711_846_800, offset: 7200 },
        ZoneRecord { second: 1_729_990_800, offset: 3600 },
    ]);
    let realm = Realm { zone: zone.expect("a good list") };

    let mut cue = realm.parse("2024-06-01T20:15");
    realm.set_hours(&mut cue, &[21.0, 30.0]);
    println!("{} {}", realm.to_string(&cue), Realm::to_iso_string(&cue).unwrap());
    assert_eq!(realm.to_string(&cue), "Sat Jun 01 2024 21:30:00 GMT+0200");
    assert_eq!(Realm::to_iso_string(&cue).unwrap(), "2024-06-01T19:30:00.000Z");

    realm.set_minute_of_cue(&mut cue, 45.0);
    assert_eq!(realm.to_string(&cue), "Sat Jun 01 2024 21:45:00 GMT+0200");

    let mut missed = realm.parse("tonight");
    assert!(realm.set_hours(&mut missed, &[21.0]).is_nan());
    assert_eq!(realm.to_string(&missed), "Invalid Date");
    println!("{}", Realm::to_iso_string(&missed).unwrap_err().0);
    assert!(realm.set_hours(&mut cue, &[]).is_nan());
}
