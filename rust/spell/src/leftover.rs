//! The bytes of a field that belong to no structure, as fill, count and
//! bytes lines. Zero bytes need no line.

use crate::number::hex_bytes;
use std::ops::Range;

/// A shorter stretch is left to bytes lines.
const LEAST_STRETCH: usize = 8;
/// A bytes line is no longer.
const LONGEST_BYTES: usize = 16;
/// So many zero bytes end a bytes line.
const ZEROS_BETWEEN: usize = 4;
/// The modulus said when a stretch shows none and holds nothing above it.
const USUAL_MODULUS: usize = 251;

/// A line: the first byte it places, its first word and what follows the
/// address.
pub struct Leftover {
    pub at: usize,
    pub word: &'static str,
    pub values: String,
}

/// The lines for what is not covered, by address.
pub fn leftovers(bytes: &[u8], covered: &[bool]) -> Vec<Leftover> {
    let mut lines = Vec::new();
    for gap in gaps(covered) {
        add_gap(&mut lines, gap.start, &bytes[gap]);
    }
    lines
}

/// The longest stretches not covered.
fn gaps(covered: &[bool]) -> Vec<Range<usize>> {
    let mut gaps: Vec<Range<usize>> = Vec::new();
    for at in (0..covered.len()).filter(|&at| !covered[at]) {
        match gaps.last_mut() {
            Some(gap) if gap.end == at => gap.end += 1,
            _ => gaps.push(at..at + 1),
        }
    }
    gaps
}

fn add_gap(lines: &mut Vec<Leftover>, start: usize, gap: &[u8]) {
    let mut at = 0;
    while at < gap.len() {
        let rest = &gap[at..];
        let (length, line) = match stretch(rest) {
            Some((length, word, values)) => (length, Some((word, values))),
            None if rest[0] == 0 => (1, None),
            None => {
                let length = bytes_length(rest);
                (length, Some(("bytes", hex_bytes(&rest[..length]))))
            }
        };
        if let Some((word, values)) = line {
            let at = start + at;
            lines.push(Leftover { at, word, values });
        }
        at += length;
    }
}

/// The fill or count line that begins here, if one is long enough. The two
/// never both have two bytes, so there is nothing to choose.
fn stretch(bytes: &[u8]) -> Option<(usize, &'static str, String)> {
    let first = bytes[0];
    if first != 0 {
        let filled = equal_bytes(bytes);
        if filled >= LEAST_STRETCH {
            return Some((filled, "fill", format!("{filled} {first:02X}")));
        }
    }
    let (counted, modulus) = counted_bytes(bytes);
    let values = || format!("{counted} {first} {modulus}");
    (counted >= LEAST_STRETCH).then(|| (counted, "count", values()))
}

/// How many bytes from here on are equal to the first.
pub fn equal_bytes(bytes: &[u8]) -> usize {
    bytes.iter().take_while(|&&byte| byte == bytes[0]).count()
}

/// How many bytes from here on each follow the one before, and the modulus.
fn counted_bytes(bytes: &[u8]) -> (usize, usize) {
    let mut modulus = None;
    let mut length = 1;
    while length < bytes.len() {
        let before = usize::from(bytes[length - 1]);
        let this = usize::from(bytes[length]);
        if wraps(&bytes[length..]) && before > 0 && modulus.unwrap_or(before + 1) == before + 1 {
            modulus = Some(before + 1);
        } else if this != before + 1 || modulus == Some(this) {
            break;
        }
        length += 1;
    }
    let last = bytes[length - 1];
    (length, modulus.unwrap_or_else(|| unseen_modulus(last)))
}

/// A 0 continues a count only if a 1 follows: otherwise a count before zero
/// bytes would take one of them.
fn wraps(bytes: &[u8]) -> bool {
    bytes.starts_with(&[0, 1])
}

fn unseen_modulus(last: u8) -> usize {
    if usize::from(last) < USUAL_MODULUS {
        USUAL_MODULUS
    } else {
        256
    }
}

/// The length of the bytes line that begins here, its last byte not zero.
fn bytes_length(bytes: &[u8]) -> usize {
    let most = bytes.len().min(LONGEST_BYTES);
    let ends = |&at: &usize| stretch(&bytes[at..]).is_some() || zeros(&bytes[at..]);
    let end = (1..most).find(ends).unwrap_or(most);
    let last = bytes[..end].iter().rposition(|&byte| byte != 0);
    last.map_or(1, |last| last + 1)
}

fn zeros(bytes: &[u8]) -> bool {
    bytes.starts_with(&[0; ZEROS_BETWEEN])
}
