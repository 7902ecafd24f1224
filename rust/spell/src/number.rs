//! Numbers in a text: decimal, or hex after `0x`. Bytes are two hex digits.

/// Reads a number from 0 to `most`, decimal or hex after `0x`.
pub fn number(word: &str, most: u64) -> Result<u64, String> {
    number_between(word, 0, most)
}

/// Reads a number from `least` to `most`, decimal or hex after `0x`.
pub fn number_between(word: &str, least: u64, most: u64) -> Result<u64, String> {
    digits(word)
        .filter(|value| (least..=most).contains(value))
        .ok_or_else(|| format!("expected a number from {least} to {most}, found `{word}`"))
}

fn digits(word: &str) -> Option<u64> {
    match word.strip_prefix("0x") {
        Some(hex) => plain(hex, 16),
        None => plain(word, 10),
    }
}

/// Digits alone: the library would also take a plus sign.
fn plain(word: &str, radix: u32) -> Option<u64> {
    if word.chars().all(|c| c.is_digit(radix)) {
        u64::from_str_radix(word, radix).ok()
    } else {
        None
    }
}

/// Reads a byte written as exactly two hex digits.
pub fn byte(word: &str) -> Result<u8, String> {
    if word.len() == 2 {
        if let Some(value) = plain(word, 16) {
            return Ok(value as u8);
        }
    }
    Err(format!("expected a byte as two hex digits, found `{word}`"))
}

/// The bytes as two hex digits each, with blanks between.
pub fn hex_bytes(bytes: &[u8]) -> String {
    let words: Vec<String> = bytes.iter().map(|byte| format!("{byte:02X}")).collect();
    words.join(" ")
}
