//! Hexadecimal, as the lines of cases and answers have it: lower case, `-` for no byte at all.

/// Bytes as pairs of digits.
pub fn of_bytes(bytes: &[u8]) -> String {
    if bytes.is_empty() {
        return "-".into();
    }
    bytes.iter().map(|b| format!("{b:02x}")).collect()
}

/// The bytes that the digits stand for.
pub fn bytes(digits: &str) -> Result<Vec<u8>, String> {
    if digits == "-" {
        return Ok(Vec::new());
    }
    if !digits.len().is_multiple_of(2) || !digits.is_ascii() {
        return Err(format!("not hexadecimal of even length: {digits}"));
    }
    (0..digits.len() / 2)
        .map(|i| u8::from_str_radix(&digits[2 * i..2 * i + 2], 16).map_err(|e| e.to_string()))
        .collect()
}
