//! What a call leaves behind, whole: its answer and the final bytes of the output lent to it.

use crate::hex;

/// The bits of every NaN that is handed out.
pub const NAN: u64 = 0x7FF8_0000_0000_0000;

/// An answer with the output at exit.
#[derive(Clone, Debug, PartialEq, Eq)]
pub struct Outcome {
    pub number: u32,
    pub value: u64,
    pub length: usize,
    pub out: Vec<u8>,
}

impl Outcome {
    /// Turned back: the number, NaN, length 0, the output as it was.
    pub fn refused(number: u32, out: &[u8]) -> Self {
        Self { number, value: NAN, length: 0, out: out.to_vec() }
    }

    /// A value and no text.
    pub fn value(value: u64) -> Self {
        Self { number: 0, value, length: 0, out: Vec::new() }
    }

    /// A time value and no text; every NaN has the one pattern.
    pub fn time(t: f64) -> Self {
        Self::value(bits(t))
    }

    /// A text in the output's first bytes, or 11 where it does not fit.
    pub fn text(t: f64, text: &[u8], out: &[u8]) -> Self {
        if out.len() < text.len() {
            return Self::refused(11, out);
        }
        let mut after = out.to_vec();
        after[..text.len()].copy_from_slice(text);
        Self { number: 0, value: bits(t), length: text.len(), out: after }
    }

    /// The line of a stored answer: number, value, length, output.
    pub fn line(&self) -> String {
        let out = hex::of_bytes(&self.out);
        format!("{:02x} {:016x} {:04x} {out}", self.number, self.value, self.length)
    }
}

/// The bits of a time value as they are handed out: one NaN; the sign of zero is kept.
pub fn bits(t: f64) -> u64 {
    if t.is_nan() { NAN } else { t.to_bits() }
}
