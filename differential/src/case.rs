//! A case: one call with everything lent to it, and the line of text that stands for it.
//!
//! A line is a tag of four bytes and then fields, one space before each: 64-bit values as sixteen
//! hexadecimal digits, byte strings as hexadecimal of even length, `-` for none.

use crate::hex;
use crate::lower::{EXPORTS, Export, export};
use original::exports::Setter;

/// One call.
#[derive(Clone, Copy)]
pub enum Case<'a> {
    Read { zone: &'a [u8], text: &'a [u8] },
    Rewrite { zone: &'a [u8], text: &'a [u8], out: &'a [u8] },
    ToIsoString { time: u64, out: &'a [u8] },
    ToUtcString { time: u64, out: &'a [u8] },
    ToString { zone: &'a [u8], time: u64, out: &'a [u8] },
    BuildUtc { record: &'a [u8] },
    BuildLocal { zone: &'a [u8], record: &'a [u8] },
    SetUtc { setter: Setter, time: u64, record: &'a [u8] },
    Set { setter: Setter, zone: &'a [u8], time: u64, record: &'a [u8] },
    Export { export: &'static Export, zone: &'a [u8], args: [u64; 4] },
}

/// The setters with the tags of their UTC and local calls and the number of their arguments.
pub const SETTERS: [(Setter, &str, &str, usize); 7] = [
    (Setter::Milliseconds, "UMIL", "LMIL", 1),
    (Setter::Seconds, "USEC", "LSEC", 2),
    (Setter::Minutes, "UMIN", "LMIN", 3),
    (Setter::Hours, "UHOU", "LHOU", 4),
    (Setter::Date, "UDAT", "LDAT", 1),
    (Setter::Month, "UMON", "LMON", 2),
    (Setter::FullYear, "UFYR", "LFYR", 3),
];

/// The row of a setter.
pub fn setter_row(setter: Setter) -> &'static (Setter, &'static str, &'static str, usize) {
    SETTERS.iter().find(|row| row.0 == setter).unwrap()
}

impl<'a> Case<'a> {
    pub fn tag(&self) -> &'static str {
        match self {
            Case::Read { .. } => "READ",
            Case::Rewrite { .. } => "REWR",
            Case::ToIsoString { .. } => "WISO",
            Case::ToUtcString { .. } => "WUTC",
            Case::ToString { .. } => "WLOC",
            Case::BuildUtc { .. } => "BUTC",
            Case::BuildLocal { .. } => "BLOC",
            Case::SetUtc { setter, .. } => setter_row(*setter).1,
            Case::Set { setter, .. } => setter_row(*setter).2,
            Case::Export { export, .. } => export.tag,
        }
    }

    /// The zone list lent, or nothing.
    pub fn zone(&self) -> &'a [u8] {
        match *self {
            Case::Read { zone, .. }
            | Case::Rewrite { zone, .. }
            | Case::ToString { zone, .. }
            | Case::BuildLocal { zone, .. }
            | Case::Set { zone, .. }
            | Case::Export { zone, .. } => zone,
            _ => &[],
        }
    }

    /// The text or record lent, or nothing.
    pub fn input(&self) -> &'a [u8] {
        match *self {
            Case::Read { text, .. } | Case::Rewrite { text, .. } => text,
            Case::BuildUtc { record }
            | Case::BuildLocal { record, .. }
            | Case::SetUtc { record, .. }
            | Case::Set { record, .. } => record,
            _ => &[],
        }
    }

    /// The output lent, or nothing.
    pub fn out(&self) -> &'a [u8] {
        match *self {
            Case::Rewrite { out, .. }
            | Case::ToIsoString { out, .. }
            | Case::ToUtcString { out, .. }
            | Case::ToString { out, .. } => out,
            _ => &[],
        }
    }

    /// A slice that the call takes has length 0.
    pub fn lends_nothing(&self) -> bool {
        match *self {
            Case::Read { zone, text } => zone.is_empty() || text.is_empty(),
            Case::Rewrite { zone, text, out } => {
                zone.is_empty() || text.is_empty() || out.is_empty()
            }
            Case::ToIsoString { out, .. } | Case::ToUtcString { out, .. } => out.is_empty(),
            Case::ToString { zone, out, .. } => zone.is_empty() || out.is_empty(),
            Case::BuildUtc { record } | Case::SetUtc { record, .. } => record.is_empty(),
            Case::BuildLocal { zone, record } | Case::Set { zone, record, .. } => {
                zone.is_empty() || record.is_empty()
            }
            Case::Export { .. } => false,
        }
    }

    /// The fields of the line, in the order of the C function's arguments.
    fn fields(&self) -> Vec<String> {
        let bytes = hex::of_bytes;
        let word = |w: u64| format!("{w:016x}");
        match *self {
            Case::Read { zone, text } => vec![bytes(zone), bytes(text)],
            Case::Rewrite { zone, text, out } => vec![bytes(zone), bytes(text), bytes(out)],
            Case::ToIsoString { time, out } | Case::ToUtcString { time, out } => {
                vec![word(time), bytes(out)]
            }
            Case::ToString { zone, time, out } => vec![bytes(zone), word(time), bytes(out)],
            Case::BuildUtc { record } => vec![bytes(record)],
            Case::BuildLocal { zone, record } => vec![bytes(zone), bytes(record)],
            Case::SetUtc { time, record, .. } => vec![word(time), bytes(record)],
            Case::Set { zone, time, record, .. } => vec![bytes(zone), word(time), bytes(record)],
            Case::Export { export, zone, args } => {
                let list = export.listed.then(|| bytes(zone));
                list.into_iter().chain(args[..export.words].iter().map(|w| word(*w))).collect()
            }
        }
    }

    pub fn line(&self) -> String {
        format!("{} {}", self.tag(), self.fields().join(" "))
    }
}

/// For a reader's eyes: what the line of a case holds.
impl Case<'_> {
    pub fn plainly(&self) -> String {
        let mut words = vec![self.tag().to_string()];
        if !self.zone().is_empty() {
            words.push(format!("list {}", list_plainly(self.zone())));
        }
        match *self {
            Case::Read { text, .. } | Case::Rewrite { text, .. } => {
                words.push(format!("text \"{}\"", text.escape_ascii()));
            }
            Case::ToIsoString { time, .. }
            | Case::ToUtcString { time, .. }
            | Case::ToString { time, .. }
            | Case::SetUtc { time, .. }
            | Case::Set { time, .. } => words.push(format!("time {:?}", f64::from_bits(time))),
            Case::Export { export, args, .. } => {
                let floats = args[..export.words].iter().map(|w| f64::from_bits(*w));
                words.push(format!("floats {:?}", floats.collect::<Vec<_>>()));
            }
            Case::BuildUtc { .. } | Case::BuildLocal { .. } => {}
        }
        if let Some((map, rest)) = self.input().split_first().filter(|_| self.takes_record()) {
            let fields = rest.chunks_exact(8).map(|f| f64::from_le_bytes(f.try_into().unwrap()));
            words.push(format!("map {map:07b} fields {:?}", fields.collect::<Vec<_>>()));
        }
        words.push(format!("output of {}", self.out().len()));
        words.join(", ")
    }

    fn takes_record(&self) -> bool {
        !matches!(self, Case::Read { .. } | Case::Rewrite { .. })
    }
}

/// The first records of a list.
fn list_plainly(zone: &[u8]) -> String {
    let record = |r: &[u8]| {
        let second = i64::from_le_bytes(r[..8].try_into().unwrap());
        let offset = i32::from_le_bytes(r[8..].try_into().unwrap());
        format!("({second}, {offset})")
    };
    let first: String = zone.chunks_exact(12).take(6).map(record).collect();
    format!("{first} of {} bytes", zone.len())
}

/// A line read back: the tag and the fields' bytes (a 64-bit value high byte first).
pub struct Line {
    tag: String,
    fields: Vec<Vec<u8>>,
}

impl Line {
    pub fn parse(line: &str) -> Result<Self, String> {
        let mut words = line.split(' ');
        let tag = words.next().unwrap_or_default().to_string();
        let fields = words.map(hex::bytes).collect::<Result<_, _>>()?;
        Ok(Self { tag, fields })
    }

    fn bytes(&self, i: usize) -> Result<&[u8], String> {
        Ok(self.fields.get(i).ok_or(format!("field {i} is missing"))?)
    }

    fn word(&self, i: usize) -> Result<u64, String> {
        let eight = self.bytes(i)?.try_into().map_err(|_| format!("field {i} is not a word"))?;
        Ok(u64::from_be_bytes(eight))
    }

    pub fn case(&self) -> Result<Case<'_>, String> {
        Ok(match self.tag.as_str() {
            "READ" => Case::Read { zone: self.bytes(0)?, text: self.bytes(1)? },
            "REWR" => {
                Case::Rewrite { zone: self.bytes(0)?, text: self.bytes(1)?, out: self.bytes(2)? }
            }
            "WISO" => Case::ToIsoString { time: self.word(0)?, out: self.bytes(1)? },
            "WUTC" => Case::ToUtcString { time: self.word(0)?, out: self.bytes(1)? },
            "WLOC" => {
                Case::ToString { zone: self.bytes(0)?, time: self.word(1)?, out: self.bytes(2)? }
            }
            "BUTC" => Case::BuildUtc { record: self.bytes(0)? },
            "BLOC" => Case::BuildLocal { zone: self.bytes(0)?, record: self.bytes(1)? },
            tag => self.setter_or_export(tag)?,
        })
    }

    fn setter_or_export(&self, tag: &str) -> Result<Case<'_>, String> {
        for (setter, utc, local, _) in SETTERS {
            if tag == utc {
                let (time, record) = (self.word(0)?, self.bytes(1)?);
                return Ok(Case::SetUtc { setter, time, record });
            }
            if tag == local {
                let (zone, time, record) = (self.bytes(0)?, self.word(1)?, self.bytes(2)?);
                return Ok(Case::Set { setter, zone, time, record });
            }
        }
        let export = export(tag).ok_or(format!("no such tag: {tag}"))?;
        let zone = if export.listed { self.bytes(0)? } else { &[] };
        let mut args = [0; 4];
        for (i, arg) in args[..export.words].iter_mut().enumerate() {
            *arg = self.word(i + usize::from(export.listed))?;
        }
        Ok(Case::Export { export, zone, args })
    }
}

/// Every tag there is.
pub fn tags() -> Vec<&'static str> {
    let calls = ["READ", "REWR", "WISO", "WUTC", "WLOC", "BUTC", "BLOC"];
    let setters = SETTERS.iter().flat_map(|row| [row.1, row.2]);
    calls.into_iter().chain(setters).chain(EXPORTS.iter().map(|d| d.tag)).collect()
}
