//! What is timed, row by row.

use crate::inputs::{self, INPUTS};
use crate::timing::{self, Pair};
use original::JsValue;
use original::exports::Setter;
use original::timed::{self, Engine};
use std::hint::black_box;
use zovattha::ffi::{self, Answer};
use zovattha::{ZoneList, ZoneRecord};

/// The lists' lengths.
const LISTS: [usize; 3] = [1, 200, 1024];

/// What the original does.
#[derive(Clone, Copy, PartialEq, Eq)]
pub enum Group {
    Read,
    Rewrite,
    Iso,
    Utc,
    Local,
    Build,
    Set,
}

impl Group {
    pub const ALL: [Self; 7] =
        [Self::Read, Self::Rewrite, Self::Iso, Self::Utc, Self::Local, Self::Build, Self::Set];

    pub fn name(self) -> &'static str {
        match self {
            Self::Read => "read",
            Self::Rewrite => "rewrite",
            Self::Iso => "ISO text",
            Self::Utc => "UTC text",
            Self::Local => "local text",
            Self::Build => "builder",
            Self::Set => "setters",
        }
    }

    /// How much of the original's time may be taken, the judging of the list aside: a local call by
    /// a list of many records has more room.
    pub fn bar(self, many_records: bool) -> f64 {
        match self {
            Self::Rewrite => 1.0,
            _ if many_records => 0.7,
            Self::Iso | Self::Utc | Self::Local => 0.1,
            Self::Read | Self::Build | Self::Set => 0.6,
        }
    }
}

/// A row: the records of its zone list, both sides in nanoseconds, and how much of ours is the
/// judging of the list.
pub struct Row {
    pub group: Group,
    pub name: String,
    pub records: Option<usize>,
    pub ours: f64,
    pub theirs: f64,
    pub judging: f64,
}

impl Row {
    pub fn ratio(&self) -> f64 {
        self.ours / self.theirs
    }

    /// Whether its list has more than one record.
    pub fn many_records(&self) -> bool {
        self.records.is_some_and(|records| records > 1)
    }

    pub fn misses(&self) -> bool {
        self.ratio_unjudged() > self.group.bar(self.many_records())
    }

    /// The ratio without the judging of the list, which the original does not do.
    pub fn ratio_unjudged(&self) -> f64 {
        (self.ours - self.judging) / self.theirs
    }
}

/// Nanoseconds of a list's judging, by the function that has it compiled in: each has its own copy, and these differ.
#[derive(Clone, Copy)]
pub struct Judged {
    read: f64,
    local: f64,
    build: f64,
    set: f64,
}

impl Judged {
    pub fn each(self) -> [f64; 4] {
        [self.read, self.local, self.build, self.set]
    }

    fn of(self, group: Group) -> f64 {
        match group {
            Group::Read | Group::Rewrite => self.read,
            Group::Iso | Group::Utc | Group::Local => self.local,
            Group::Build => self.build,
            Group::Set => self.set,
        }
    }

    fn with(self, other: Self, join: impl Fn(f64, f64) -> f64) -> Self {
        Self {
            read: join(self.read, other.read),
            local: join(self.local, other.local),
            build: join(self.build, other.build),
            set: join(self.set, other.set),
        }
    }
}

/// Everything measured in one run.
pub struct Run {
    pub rows: Vec<Row>,
    /// Records of the list, and nanoseconds to judge it; while passes go on, with the call around it.
    pub judging: Vec<(usize, Judged)>,
    /// The calls around the judging.
    unlisted: Judged,
    /// The ISO writer where its output is cleared first, and where a `String` is made.
    pub cleared: f64,
    pub string: f64,
    /// Lines a second of the program `datecheck`, where it is built.
    pub datecheck: Option<f64>,
    /// What V8 took, where node is at hand.
    pub v8: Option<Vec<(String, String)>>,
}

/// How often all rows are gone through: a stretch in which the machine is slow then spoils no row.
const PASSES: usize = 5;

pub fn run() -> Run {
    let mut run = pass();
    for _ in 1..PASSES {
        run.keep_best(&pass());
    }
    for (_, cost) in &mut run.judging {
        *cost = cost.with(run.unlisted, |listed, unlisted| listed - unlisted);
    }
    for row in &mut run.rows {
        let judging = run.judging.iter().find(|(records, _)| Some(*records) == row.records);
        row.judging = judging.map_or(0.0, |(_, cost)| cost.of(row.group));
    }
    run.datecheck = datecheck();
    run.v8 = crate::v8::run();
    run
}

impl Run {
    fn keep_best(&mut self, other: &Self) {
        for (row, again) in self.rows.iter_mut().zip(&other.rows) {
            row.ours = row.ours.min(again.ours);
            row.theirs = row.theirs.min(again.theirs);
        }
        for (judging, again) in self.judging.iter_mut().zip(&other.judging) {
            judging.1 = judging.1.with(again.1, f64::min);
        }
        self.unlisted = self.unlisted.with(other.unlisted, f64::min);
        self.cleared = self.cleared.min(other.cleared);
        self.string = self.string.min(other.string);
    }
}

/// All rows once.
fn pass() -> Run {
    let zones = LISTS.map(Zone::new);
    let judging = zones.iter().map(|zone| (zone.records, refused(&zone.list))).collect();
    let unlisted = refused_unlisted();
    let mut rows = Vec::new();
    reading(&mut rows, &zones);
    rewriting(&mut rows, &zones);
    writing(&mut rows, &zones);
    building(&mut rows, &zones);
    setting(&mut rows, &zones);
    let times = inputs::times_of_today();
    let cleared = timing::one(INPUTS, |i| {
        let mut out = black_box([0; 40]);
        black_box(iso(times[i], &mut out));
    });
    let string = timing::one(INPUTS, |i| {
        black_box(zovattha::to_iso_string(times[i])).ok();
    });
    Run { rows, judging, unlisted, cleared, string, datecheck: None, v8: None }
}

/// A zone list on both sides.
struct Zone {
    records: usize,
    list: ZoneList,
    pairs: Vec<(i64, i32)>,
}

impl Zone {
    fn new(records: usize) -> Self {
        let pairs = inputs::zone(records);
        let record =
            |(second, offset): &(i64, i32)| ZoneRecord { second: *second, offset: *offset };
        let list = ZoneList::from_records(&pairs.iter().map(record).collect::<Vec<_>>());
        Self { records, list: list.expect("a good list"), pairs }
    }

    fn engine(&self) -> Engine {
        Engine::new(&self.pairs)
    }

    /// Where the list is named in a row.
    fn name(&self) -> String {
        match self.records {
            1 => "1 record".into(),
            n => format!("{n} records"),
        }
    }
}

fn row(group: Group, name: String, zone: Option<&Zone>, pair: Pair) -> Row {
    let records = zone.map(|zone| zone.records);
    Row { group, name, records, ours: pair.ours, theirs: pair.theirs, judging: 0.0 }
}

/// A refused call is subtracted from others, and one that is too long would flatter them: so more rounds than elsewhere.
fn refusing(mut call: impl FnMut() -> Answer) -> f64 {
    let mut call = |_| {
        black_box(call());
    };
    (0..4).map(|_| timing::one(INPUTS, &mut call)).fold(f64::INFINITY, f64::min)
}

/// Each call is turned back once the list is judged, and before anything else is done: an empty text, an infinite time, an
/// empty record.
fn refused(list: &ZoneList) -> Judged {
    let mut out = [0; 40];
    Judged {
        read: refusing(|| read(list, black_box(""))),
        local: refusing(|| local(list, black_box(f64::INFINITY), &mut out)),
        build: refusing(|| build_local(list, black_box(&[]))),
        set: refusing(|| set_hours(list, black_box(f64::INFINITY))),
    }
}

/// The same where there is no list, so that they are turned back at once. Reading has no such call: the least of the others.
fn refused_unlisted() -> Judged {
    let mut out = [0; 40];
    let local = refusing(|| utc(black_box(f64::INFINITY), &mut out));
    let build = refusing(|| build_utc(black_box(&[])));
    let set = refusing(|| set_utc_hours(black_box(f64::INFINITY)));
    Judged { read: local.min(build).min(set), local, build, set }
}

// ---- the archive's functions on slices

fn read(zone: &ZoneList, text: &str) -> Answer {
    let (z, t) = (zone.as_bytes(), text.as_bytes());
    unsafe { ffi::zovattha_read(z.as_ptr(), z.len(), t.as_ptr(), t.len()) }
}

fn rewrite(zone: &ZoneList, text: &str, out: &mut [u8]) -> Answer {
    let (z, t, n) = (zone.as_bytes(), text.as_bytes(), out.len());
    unsafe { ffi::zovattha_rewrite(z.as_ptr(), z.len(), t.as_ptr(), t.len(), out.as_mut_ptr(), n) }
}

fn iso(time: f64, out: &mut [u8]) -> Answer {
    unsafe { ffi::zovattha_to_iso_string(time.to_bits(), out.as_mut_ptr(), out.len()) }
}

fn utc(time: f64, out: &mut [u8]) -> Answer {
    unsafe { ffi::zovattha_to_utc_string(time.to_bits(), out.as_mut_ptr(), out.len()) }
}

fn local(zone: &ZoneList, time: f64, out: &mut [u8]) -> Answer {
    let (z, time, n) = (zone.as_bytes(), time.to_bits(), out.len());
    unsafe { ffi::zovattha_to_string(z.as_ptr(), z.len(), time, out.as_mut_ptr(), n) }
}

fn build_utc(record: &[u8]) -> Answer {
    unsafe { ffi::zovattha_build_utc(record.as_ptr(), record.len()) }
}

fn build_local(zone: &ZoneList, record: &[u8]) -> Answer {
    let z = zone.as_bytes();
    unsafe { ffi::zovattha_build_local(z.as_ptr(), z.len(), record.as_ptr(), record.len()) }
}

/// One field, the hour; only the time is of interest here.
const HOUR: [u8; 9] = [1, 0, 0, 0, 0, 0, 0, 0, 0];

fn set_hours(zone: &ZoneList, time: f64) -> Answer {
    let (z, time) = (zone.as_bytes(), time.to_bits());
    unsafe { ffi::zovattha_set_hours(z.as_ptr(), z.len(), time, HOUR.as_ptr(), HOUR.len()) }
}

fn set_utc_hours(time: f64) -> Answer {
    unsafe { ffi::zovattha_set_utc_hours(time.to_bits(), HOUR.as_ptr(), HOUR.len()) }
}

/// Both sides gave this time.
fn same_time(what: &str, answer: Answer, theirs: f64) {
    let ours = f64::from_bits(answer.value);
    assert!(
        answer.number == 0 && ours == theirs,
        "{what}: {answer:?} ({ours}), the original {theirs}"
    );
}

/// Both sides gave this text.
fn same_text(answer: Answer, out: &[u8], theirs: &str) {
    assert!(
        answer.number == 0 && &out[..answer.length] == theirs.as_bytes(),
        "{theirs}: {answer:?}"
    );
}

// ---- rows

fn read_row(name: String, zone: &Zone, texts: &[String]) -> Row {
    let engine = zone.engine();
    for text in texts {
        let theirs = engine.read(text).expect("an accepted text");
        same_time(text, read(&zone.list, text), theirs as f64);
    }
    let pair = timing::both(
        INPUTS,
        |i| {
            black_box(read(&zone.list, &texts[i]));
        },
        |i| {
            black_box(engine.read(&texts[i]));
        },
    );
    row(Group::Read, name, Some(zone), pair)
}

fn reading(rows: &mut Vec<Row>, zones: &[Zone]) {
    for (kind, like) in inputs::KINDS {
        rows.push(read_row(format!("`{like}`"), &zones[0], &inputs::texts(kind)));
    }
    for zone in zones {
        rows.push(read_row(format!("all kinds, {}", zone.name()), zone, &inputs::mixed_texts()));
    }
}

fn rewriting(rows: &mut Vec<Row>, zones: &[Zone]) {
    let texts = inputs::mixed_texts();
    for zone in zones {
        let mut engine = zone.engine();
        let times = texts.iter().map(|text| engine.read(text).expect("an accepted text"));
        let dates: Vec<_> = times.map(|time| timed::date(time as f64)).collect();
        let mut out = [0; 40];
        for (text, date) in texts.iter().zip(&dates) {
            let answer = rewrite(&zone.list, text, &mut out);
            same_text(answer, &out, &engine.to_iso_string(date).to_std_string_lossy());
        }
        let pair = timing::both(
            INPUTS,
            |i| {
                black_box(rewrite(&zone.list, &texts[i], &mut out));
            },
            |i| {
                black_box(engine.read(&texts[i]));
                black_box(engine.to_iso_string(&dates[i]));
            },
        );
        rows.push(row(Group::Rewrite, format!("all kinds, {}", zone.name()), Some(zone), pair));
    }
}

fn writing(rows: &mut Vec<Row>, zones: &[Zone]) {
    let sets =
        [("1970 to 2099", inputs::times_of_today()), ("whole range", inputs::times_of_the_range())];
    for (group, ours, theirs) in [
        (
            Group::Iso,
            iso as fn(f64, &mut [u8]) -> Answer,
            Engine::to_iso_string as fn(&mut Engine, &JsValue) -> _,
        ),
        (Group::Utc, utc, Engine::to_utc_string),
    ] {
        for (name, times) in &sets {
            let pair = write_pair(&zones[0], times, ours, theirs);
            rows.push(row(group, (*name).to_string(), None, pair));
        }
    }
    for zone in zones {
        for (name, times) in &sets {
            let ours = |time: f64, out: &mut [u8]| local(&zone.list, time, out);
            let pair = write_pair(zone, times, ours, Engine::to_string);
            rows.push(row(Group::Local, format!("{name}, {}", zone.name()), Some(zone), pair));
        }
    }
}

fn write_pair(
    zone: &Zone,
    times: &[f64],
    ours: impl Fn(f64, &mut [u8]) -> Answer,
    theirs: impl Fn(&mut Engine, &JsValue) -> original::JsString,
) -> Pair {
    let mut engine = zone.engine();
    let dates: Vec<_> = times.iter().map(|time| timed::date(*time)).collect();
    let mut out = [0; 40];
    for (time, date) in times.iter().zip(&dates) {
        let answer = ours(*time, &mut out);
        same_text(answer, &out, &theirs(&mut engine, date).to_std_string_lossy());
    }
    timing::both(
        INPUTS,
        |i| {
            black_box(ours(times[i], &mut out));
        },
        |i| {
            black_box(theirs(&mut engine, &dates[i]));
        },
    )
}

/// A field record of the first arguments.
fn record(args: &[f64]) -> Vec<u8> {
    let map = u8::try_from((1_u32 << args.len()) - 1).expect("seven fields at most");
    [map].into_iter().chain(args.iter().flat_map(|arg| arg.to_le_bytes())).collect()
}

fn values(args: &[f64]) -> Vec<JsValue> {
    args.iter().map(|arg| JsValue::from(*arg)).collect()
}

fn building(rows: &mut Vec<Row>, zones: &[Zone]) {
    let fields = inputs::fields();
    for given in [3, 7] {
        let records: Vec<_> = fields.iter().map(|fields| record(&fields[..given])).collect();
        let args: Vec<_> = fields.iter().map(|fields| values(&fields[..given])).collect();
        let mut engine = zones[0].engine();
        for (record, args) in records.iter().zip(&args) {
            same_time("build", build_utc(record), engine.build_utc(args));
        }
        let pair = timing::both(
            INPUTS,
            |i| {
                black_box(build_utc(&records[i]));
            },
            |i| {
                black_box(engine.build_utc(&args[i]));
            },
        );
        rows.push(row(Group::Build, format!("UTC, {given} fields"), None, pair));
    }
    let records: Vec<_> = fields.iter().map(|fields| record(fields)).collect();
    for zone in zones {
        let engine = zone.engine();
        for (record, fields) in records.iter().zip(&fields) {
            same_time("build", build_local(&zone.list, record), engine.build_local(*fields));
        }
        let pair = timing::both(
            INPUTS,
            |i| {
                black_box(build_local(&zone.list, &records[i]));
            },
            |i| {
                black_box(engine.build_local(black_box(fields[i])));
            },
        );
        rows.push(row(Group::Build, format!("local, 7 fields, {}", zone.name()), Some(zone), pair));
    }
}

type SetUtc = unsafe extern "C" fn(u64, *const u8, usize) -> Answer;
type SetLocal = unsafe extern "C" fn(*const u8, usize, u64, *const u8, usize) -> Answer;

/// A setter on both sides, and which of the builder's fields it takes.
struct Both {
    name: &'static str,
    setter: Setter,
    utc: SetUtc,
    local: SetLocal,
    fields: std::ops::Range<usize>,
}

fn setters() -> [Both; 7] {
    macro_rules! both {
        ($name:literal, $setter:ident, $utc:ident, $local:ident, $fields:expr) => {
            Both {
                name: $name,
                setter: Setter::$setter,
                utc: ffi::$utc,
                local: ffi::$local,
                fields: $fields,
            }
        };
    }
    [
        both!(
            "milliseconds",
            Milliseconds,
            zovattha_set_utc_milliseconds,
            zovattha_set_milliseconds,
            6..7
        ),
        both!("seconds", Seconds, zovattha_set_utc_seconds, zovattha_set_seconds, 5..7),
        both!("minutes", Minutes, zovattha_set_utc_minutes, zovattha_set_minutes, 4..7),
        both!("hours", Hours, zovattha_set_utc_hours, zovattha_set_hours, 3..7),
        both!("date", Date, zovattha_set_utc_date, zovattha_set_date, 2..3),
        both!("month", Month, zovattha_set_utc_month, zovattha_set_month, 1..3),
        both!("full year", FullYear, zovattha_set_utc_full_year, zovattha_set_full_year, 0..3),
    ]
}

fn setting(rows: &mut Vec<Row>, zones: &[Zone]) {
    for both in &setters() {
        let (name, all) = (both.name, both.fields.len());
        let counts = if all == 1 { vec![1] } else { vec![1, all] };
        for given in counts {
            let given_name = if given == 1 { "1 field".into() } else { format!("{given} fields") };
            let pair = set_pair(both, None, given);
            rows.push(row(Group::Set, format!("{name}, UTC, {given_name}"), None, pair));
        }
        for zone in zones {
            let pair = set_pair(both, Some(zone), 1);
            let name = format!("{name}, local, 1 field, {}", zone.name());
            rows.push(row(Group::Set, name, Some(zone), pair));
        }
    }
}

/// A setter given its first fields. The original's changes its date, so each date is set until it
/// stays: then every call on either side starts from the same time and does the same again.
fn set_pair(both: &Both, zone: Option<&Zone>, given: usize) -> Pair {
    let utc = Zone::new(1);
    let mut engine = zone.unwrap_or(&utc).engine();
    let method = both.setter.method(zone.is_some());
    let start = both.fields.start;
    let args: Vec<_> = inputs::fields().iter().map(|f| f[start..start + given].to_vec()).collect();
    let values: Vec<_> = args.iter().map(|args| values(args)).collect();
    let records: Vec<_> = args.iter().map(|args| record(args)).collect();
    let dates: Vec<_> = inputs::times_of_today().into_iter().map(timed::date).collect();
    let mut times = Vec::new();
    for (date, values) in dates.iter().zip(&values) {
        let set = (0..4).map(|_| engine.set(method, date, values)).last();
        times.push(set.expect("four times"));
    }
    let ours = |i: usize| {
        let (time, record) = (f64::to_bits(times[i]), records[i].as_slice());
        match zone {
            None => unsafe { (both.utc)(time, record.as_ptr(), record.len()) },
            Some(zone) => {
                let z = zone.list.as_bytes();
                unsafe { (both.local)(z.as_ptr(), z.len(), time, record.as_ptr(), record.len()) }
            }
        }
    };
    for i in 0..INPUTS {
        let theirs = engine.set(method, &dates[i], &values[i]);
        assert!(theirs == times[i], "{}: the date does not stay", both.name);
        same_time(both.name, ours(i), theirs);
    }
    timing::both(
        INPUTS,
        |i| {
            black_box(ours(i));
        },
        |i| {
            black_box(engine.set(method, &dates[i], &values[i]));
        },
    )
}

// ---- the program

/// Lines a second, the best of five runs over 200,000 lines.
fn datecheck() -> Option<f64> {
    use std::io::Write;
    use std::process::{Command, Stdio};
    const LINES: usize = 200_000;
    let program = std::path::Path::new("target/bin/datecheck");
    if !program.is_file() {
        return None;
    }
    let texts = inputs::mixed_texts();
    let input: String = (0..LINES).flat_map(|i| [texts[i % INPUTS].as_str(), "\n"]).collect();
    let run = || {
        let start = std::time::Instant::now();
        let mut child = Command::new(program)
            .stdin(Stdio::piped())
            .stdout(Stdio::piped())
            .spawn()
            .expect("datecheck runs");
        let mut stdin = child.stdin.take().expect("its input");
        let output = std::thread::scope(|scope| {
            scope.spawn(|| {
                stdin.write_all(input.as_bytes()).expect("it reads its input");
                drop(stdin);
            });
            child.wait_with_output().expect("it ends")
        });
        let lines = output.stdout.iter().filter(|byte| **byte == b'\n').count();
        assert!(lines == LINES, "datecheck answered {lines} of {LINES} lines");
        LINES as f64 / start.elapsed().as_secs_f64()
    };
    Some((0..5).map(|_| run()).fold(0.0, f64::max))
}
