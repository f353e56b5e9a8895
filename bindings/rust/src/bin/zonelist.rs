//! A house's zone list, made from the tz database and held against the printed poster.

use std::io::{self, Write};
use std::path::PathBuf;
use std::process::ExitCode;
use std::{env, fs};
use zovattha::{Refusal, ZoneList, ZoneRecord};

const USAGE: &str = "\
zonelist make ZONE FROM TO > LIST   the list of a zone for the years FROM to TO. ZONE is a name of the tz database,
                                    as Europe/Vienna ($TZDIR, else /usr/share/zoneinfo), or a TZif file
zonelist show LIST                  the records of a list, with the local time from which each holds
zonelist week LIST START...         for each start, as 2024-03-28T20:15, the same local time on seven days: the day,
                                    what the unit reads it as, and what it writes in local time. A line ends in !!
                                    where the two clocks differ: the clock is put forward or back within so many hours
                                    as the zone is off UTC";

type Fault = Box<dyn std::error::Error>;

fn main() -> ExitCode {
    let words: Vec<String> = env::args().skip(1).collect();
    let words: Vec<&str> = words.iter().map(String::as_str).collect();
    let done = match words[..] {
        ["make", zone, from, to] => make(zone, from, to),
        ["show", list] => show(list),
        ["week", list, ref starts @ ..] if !starts.is_empty() => week(list, starts),
        _ => Err(USAGE.into()),
    };
    match done.and_then(|output| put(&output)) {
        Ok(()) => ExitCode::SUCCESS,
        Err(fault) => {
            eprintln!("{fault}");
            ExitCode::FAILURE
        }
    }
}

/// To standard output, all of it: what is left in its buffer at the end is lost without a word.
fn put(output: &[u8]) -> Result<(), Fault> {
    let mut stdout = io::stdout().lock();
    let done = stdout.write_all(output).and_then(|()| stdout.flush());
    Ok(done.map_err(|error| format!("standard output: {error}"))?)
}

fn make(zone: &str, from: &str, to: &str) -> Result<Vec<u8>, Fault> {
    let year = |text: &str| text.parse::<i64>().map_err(|_| format!("not a year: {text}"));
    let years = year(from)?..=year(to)?;
    let file = [PathBuf::from(zone), zoneinfo().join(zone)].into_iter().find(|path| path.is_file());
    let file = file.ok_or_else(|| format!("no such zone or file: {zone}"))?;
    let list = ZoneList::from_tzif(&fs::read(file)?, years)?;
    Ok(list.as_bytes().into())
}

fn zoneinfo() -> PathBuf {
    env::var_os("TZDIR").map_or_else(|| "/usr/share/zoneinfo".into(), PathBuf::from)
}

fn list_of(file: &str) -> Result<ZoneList, Fault> {
    let bytes = fs::read(file).map_err(|error| format!("{file}: {error}"))?;
    Ok(ZoneList::from_bytes(&bytes).map_err(|refusal| format!("{file}: {refusal}"))?)
}

fn show(list: &str) -> Result<Vec<u8>, Fault> {
    let mut out = Vec::new();
    for record in list_of(list)?.records() {
        // A record alone, as a list of its own, writes by its own offset.
        let alone = ZoneList::from_records(&[record])?;
        #[expect(clippy::cast_precision_loss, reason = "beyond the range it is refused")]
        let from = record.second as f64 * 1000.0;
        let local =
            zovattha::to_string(&alone, from).unwrap_or_else(|_| "outside the range".into());
        writeln!(out, "{:>12} {:>6}  {local}", record.second, record.offset)?;
    }
    Ok(out)
}

const MS_PER_DAY: f64 = 86_400_000.0;

/// How a local text reads without its suffix: `Thu Mar 28 2024 20:15:00`.
fn clock(local: &str) -> &str {
    local.split_once(" GMT").map_or(local, |(clock, _)| clock)
}

fn week(list: &str, starts: &[&str]) -> Result<Vec<u8>, Fault> {
    let list = list_of(list)?;
    let mut out = Vec::new();
    for start in starts {
        let first = clock_of(start).map_err(|fault| format!("{start}: {fault}"))?;
        for day in 0..7 {
            writeln!(out, "{}", line(&list, first + f64::from(day) * MS_PER_DAY)?)?;
        }
    }
    Ok(out)
}

/// The time that a start's clock would show in UTC. A start that names a zone of its own, or a date
/// alone, is no local time: the list would have no say in it.
fn clock_of(start: &str) -> Result<f64, Fault> {
    let utc = zovattha::read(&ZoneList::utc(), start)?;
    let hour_ahead = ZoneList::from_records(&[ZoneRecord { second: 0, offset: 3600 }])?;
    let ahead = zovattha::read(&hour_ahead, start);
    if ahead == Ok(utc) {
        return Err("a start is a local time, as 2024-03-28T20:15".into());
    }
    Ok(utc)
}

/// A day's line: what the poster says, the instant that the unit reads, the local time that it writes.
fn line(list: &ZoneList, shown: f64) -> Result<String, Refusal> {
    let poster = zovattha::to_iso_string(shown)?;
    let poster = poster.trim_end_matches('Z');
    let instant = zovattha::read(list, poster)?;
    let local = zovattha::to_string(list, instant)?;
    let asked = zovattha::to_string(&ZoneList::utc(), shown)?;
    let mark = if clock(&asked) == clock(&local) { "" } else { " !!" };
    Ok(format!("{poster}  {}  {local}{mark}", zovattha::to_iso_string(instant)?))
}
