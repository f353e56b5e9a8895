//! The rule in a TZif file's footer: a POSIX TZ string, with the hours -167 to 167 of RFC 9636.

use crate::ZoneRecord;

/// Standard time, and summer time where there is one. Offsets are seconds east of UTC.
#[derive(Clone, Debug, PartialEq, Eq)]
pub(super) struct Rule {
    standard: i32,
    summer: Option<Summer>,
}

/// Summer time: its offset, and when it starts and ends in each year.
#[derive(Clone, Debug, PartialEq, Eq)]
struct Summer {
    offset: i32,
    start: Moment,
    end: Moment,
}

/// A day of a year and a second from that day's midnight, by the clock that holds before it.
#[derive(Clone, Debug, PartialEq, Eq)]
struct Moment {
    day: Day,
    second: i64,
}

#[derive(Clone, Debug, PartialEq, Eq)]
enum Day {
    /// `Jn`: 1 to 365, 29 February never counted.
    Julian(i64),
    /// `n`: 0 to 365, 29 February counted.
    Counted(i64),
    /// `Mm.w.d`: the w-th weekday d (Sunday 0) of month m; week 5 is the last.
    Weekday { month: i64, week: i64, weekday: i64 },
}

fn is_leap(year: i64) -> bool {
    year % 4 == 0 && (year % 100 != 0 || year % 400 == 0)
}

/// The day number of 1 January, counted from 1970-01-01.
pub(super) fn day_of_year_start(year: i64) -> i64 {
    let before = year - 1;
    let leaps = before.div_euclid(4) - before.div_euclid(100) + before.div_euclid(400);
    365 * (year - 1970) + leaps - 477
}

fn month_length(year: i64, month: i64) -> i64 {
    match month {
        2 if is_leap(year) => 29,
        2 => 28,
        4 | 6 | 9 | 11 => 30,
        _ => 31,
    }
}

impl Day {
    /// The day number in a year.
    fn in_year(&self, year: i64) -> i64 {
        let january = day_of_year_start(year);
        match *self {
            Self::Julian(day) => january + day - 1 + i64::from(is_leap(year) && day >= 60),
            Self::Counted(day) => january + day,
            Self::Weekday { month, week, weekday } => {
                let first = january + (1..month).map(|m| month_length(year, m)).sum::<i64>();
                // 1970-01-01 was a Thursday.
                let ahead = (weekday - (first + 4)).rem_euclid(7);
                let weeks = if ahead + 7 * (week - 1) < month_length(year, month) {
                    week
                } else {
                    week - 1
                };
                first + ahead + 7 * (weeks - 1)
            }
        }
    }
}

impl Moment {
    /// The second in a year, where the clock before it is this far east.
    fn in_year(&self, year: i64, offset: i32) -> i64 {
        self.day.in_year(year) * 86_400 + self.second - i64::from(offset)
    }
}

impl Rule {
    /// The changes after one second and not after another, rising. The offset at the first second
    /// comes first, as a change there, so that what a file tells runs on into the rule.
    pub(super) fn changes(&self, after: i64, until: i64) -> Vec<ZoneRecord> {
        let Some(summer) = &self.summer else {
            return vec![ZoneRecord { second: after, offset: self.standard }];
        };
        let mut changes = Vec::new();
        for year in year_of(after) - 2..=year_of(until) + 2 {
            // Where one year's end meets the next one's start, summer time goes on: the start stands last.
            changes.push((summer.end.in_year(year, summer.offset), false));
            changes.push((summer.start.in_year(year, self.standard), true));
        }
        changes.sort_unstable();
        let offset = |is_summer| if is_summer { summer.offset } else { self.standard };
        let change = |(second, is_summer)| ZoneRecord { second, offset: offset(is_summer) };
        let mut records: Vec<ZoneRecord> = Vec::new();
        for next in changes.into_iter().map(change).filter(|change| change.second <= until) {
            if records.last().is_some_and(|last| last.second == next.second.max(after)) {
                records.pop();
            }
            records.push(ZoneRecord { second: next.second.max(after), ..next });
        }
        records
    }

    /// A rule as it is written; nothing where it is not understood.
    pub(super) fn parse(text: &[u8]) -> Option<Self> {
        let mut text = Text(text);
        text.name()?;
        let standard = -text.offset(24)?;
        if text.0.is_empty() {
            return Some(Self { standard, summer: None });
        }
        text.name()?;
        let offset =
            if text.0.first() == Some(&b',') { standard + 3600 } else { -text.offset(24)? };
        let start = text.moment()?;
        let end = text.moment()?;
        let summer = Some(Summer { offset, start, end });
        text.0.is_empty().then_some(Self { standard, summer })
    }
}

/// The year, give or take one, in which a second lies.
fn year_of(second: i64) -> i64 {
    1970 + second.div_euclid(31_556_952)
}

/// What is left to read of a rule.
struct Text<'a>(&'a [u8]);

impl Text<'_> {
    fn skip(&mut self, byte: u8) -> Option<()> {
        self.0 = self.0.strip_prefix(&[byte])?;
        Some(())
    }

    /// A name: three letters or more, or anything of letters, digits and signs in angle brackets.
    fn name(&mut self) -> Option<()> {
        let quoted = self.skip(b'<').is_some();
        let is_part = |byte: &u8| {
            byte.is_ascii_alphabetic() || quoted && (byte.is_ascii_digit() || b"+-".contains(byte))
        };
        let length = self.0.iter().take_while(|byte| is_part(byte)).count();
        self.0 = &self.0[length..];
        if quoted {
            self.skip(b'>')?;
        }
        (length >= 3).then_some(())
    }

    /// A number of one to three digits.
    fn number(&mut self, most: i64) -> Option<i64> {
        let length = self.0.iter().take_while(|byte| byte.is_ascii_digit()).count();
        let (digits, rest) = self.0.split_at(length);
        self.0 = rest;
        let number = digits.iter().fold(0, |sum, digit| 10 * sum + i64::from(digit - b'0'));
        ((1..=3).contains(&length) && number <= most).then_some(number)
    }

    /// Hours, and minutes and seconds where they are written, with a sign or none: in seconds.
    fn offset(&mut self, hours: i64) -> Option<i32> {
        let is_negative = self.skip(b'-').is_some();
        if !is_negative {
            self.skip(b'+');
        }
        let mut seconds = 3600 * self.number(hours)?;
        if self.skip(b':').is_some() {
            seconds += 60 * self.number(59)?;
            if self.skip(b':').is_some() {
                seconds += self.number(59)?;
            }
        }
        i32::try_from(if is_negative { -seconds } else { seconds }).ok()
    }

    /// `,day` and `/time` where it is written; 02:00:00 otherwise.
    fn moment(&mut self) -> Option<Moment> {
        self.skip(b',')?;
        let day = self.day()?;
        let second = if self.skip(b'/').is_some() { i64::from(self.offset(167)?) } else { 7200 };
        Some(Moment { day, second })
    }

    fn day(&mut self) -> Option<Day> {
        if self.skip(b'J').is_some() {
            return self.number(365).filter(|day| *day >= 1).map(Day::Julian);
        }
        if self.skip(b'M').is_none() {
            return self.number(365).map(Day::Counted);
        }
        let month = self.number(12).filter(|month| *month >= 1)?;
        self.skip(b'.')?;
        let week = self.number(5).filter(|week| *week >= 1)?;
        self.skip(b'.')?;
        let weekday = self.number(6)?;
        Some(Day::Weekday { month, week, weekday })
    }
}

#[cfg(test)]
mod tests {
    use super::*;

    fn changes(rule: &str, year: i64) -> Vec<(i64, i32)> {
        let from = day_of_year_start(year) * 86_400;
        let until = day_of_year_start(year + 1) * 86_400;
        let changes = Rule::parse(rule.as_bytes()).unwrap().changes(from, until);
        changes.into_iter().map(|change| (change.second, change.offset)).collect()
    }

    #[test]
    fn years_start_where_they_should() {
        assert_eq!(day_of_year_start(1970), 0);
        assert_eq!(day_of_year_start(2024), 19723);
        assert_eq!(day_of_year_start(2025), 20089);
        assert_eq!(day_of_year_start(2001), 11323);
        assert_eq!(day_of_year_start(0), -719528);
    }

    #[test]
    fn europe_changes_on_last_sundays() {
        let expected = [(1704067200, 3600), (1711846800, 7200), (1729990800, 3600)];
        assert_eq!(changes("CET-1CEST,M3.5.0,M10.5.0/3", 2024), expected);
    }

    #[test]
    fn the_south_has_summer_over_new_year() {
        let expected = [(1704067200, 39600), (1712415600, 37800), (1728142200, 39600)];
        assert_eq!(changes("<+1030>-10:30<+11>-11,M10.1.0,M4.1.0", 2024), expected);
    }

    #[test]
    fn julian_days_skip_29_february() {
        let march = |year| (day_of_year_start(year) + if is_leap(year) { 60 } else { 59 }) * 86_400;
        for year in [2023, 2024] {
            assert_eq!(changes("AAA0BBB,J60/0,J365/0", year)[1].0, march(year));
            assert_eq!(
                changes("AAA0BBB,59/0,364/0", year)[1].0,
                (day_of_year_start(year) + 59) * 86_400
            );
        }
    }

    #[test]
    fn summer_time_all_year_has_no_change() {
        let all = changes("EST5EDT,0/0,J365/25", 2024);
        assert!(all.iter().all(|(_, offset)| *offset == -14400), "{all:?}");
    }

    #[test]
    fn standard_time_alone_is_one_offset() {
        assert_eq!(changes("<-0330>3:30", 1970), [(0, -12600)]);
        assert_eq!(changes("IST-5:30", 1970), [(0, 19800)]);
    }

    #[test]
    fn other_texts_are_no_rules() {
        for text in [
            "",
            "CE-1",
            "CET",
            "CET-1CEST",
            "CET-1CEST,M3.5.0",
            "CET-25",
            "CET-1CEST,M13.5.0,M10.5.0",
            "CET-1CEST,M3.6.0,M10.5.0",
            "CET-1CEST,M3.5.7,M10.5.0",
            "CET-1CEST,J0,J365",
            "CET-1 ",
            "CET-1CEST,M3.5.0,M10.5.0/3x",
            "<CET-1",
            "CET-1:60",
            "CET-1CEST,366,J1",
        ] {
            assert_eq!(Rule::parse(text.as_bytes()), None, "{text}");
        }
    }
}
