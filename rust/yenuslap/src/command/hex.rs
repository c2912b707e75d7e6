//! Bytes in hexadecimal.

use super::words::quoted;

/// Bytes one blank apart, for the eye.
pub fn spaced(bytes: &[u8]) -> String {
    let bytes: Vec<String> = bytes.iter().map(|byte| format!("{byte:02x}")).collect();
    bytes.join(" ")
}

/// Bytes without a blank, as the sheet has them.
pub fn joined(bytes: &[u8]) -> String {
    bytes.iter().map(|byte| format!("{byte:02x}")).collect()
}

/// The bytes that a text spells, two digits each, or what is wrong with it.
pub fn parse(text: &str) -> Result<Vec<u8>, String> {
    if let Some((at, sign)) = odd_sign(text) {
        let (column, found) = (at + 1, quoted(&sign.to_string()));
        return Err(format!(
            "column {column}: expected a hexadecimal digit, found {found}"
        ));
    }
    if !text.len().is_multiple_of(2) {
        return Err("expected two hexadecimal digits a byte, found an odd number".to_string());
    }
    // Each character is one ASCII digit, so pairs of digits are pairs of bytes.
    let digits: Vec<u32> = text.chars().filter_map(|sign| sign.to_digit(16)).collect();
    Ok(digits
        .chunks_exact(2)
        .map(|pair| (pair[0] * 16 + pair[1]) as u8)
        .collect())
}

/// The first character that is no hexadecimal digit, and its place.
fn odd_sign(text: &str) -> Option<(usize, char)> {
    text.chars()
        .enumerate()
        .find(|(_, sign)| !sign.is_ascii_hexdigit())
}
