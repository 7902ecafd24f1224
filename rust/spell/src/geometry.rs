//! As much of a UIB's geometry as it takes to find the marks of an image.

use std::ops::Range;

/// Where the marks of an image stand by this UIB; none if the UIB is outside
/// the limits of document 01. In 64 bits, for the greatest drive needs 38.
pub fn marks(uib: &[u8]) -> Option<Range<u64>> {
    let cylinders = word(uib, 12);
    let sectors_a_track = u64::from(uib[4]);
    let bytes_a_sector = word(uib, 6);
    let heads = drive_heads(uib)?;
    let within = (1..=4096).contains(&cylinders)
        && sectors_a_track >= 1
        && (64..=4096).contains(&bytes_a_sector)
        && bytes_a_sector.is_multiple_of(2);
    let sectors = cylinders * heads * sectors_a_track;
    let start = sectors * bytes_a_sector;
    within.then_some(start..start + sectors)
}

fn word(uib: &[u8], at: usize) -> u64 {
    u64::from(u16::from_be_bytes([uib[at], uib[at + 1]]))
}

/// H, the greater end of the volumes present.
fn drive_heads(uib: &[u8]) -> Option<u64> {
    let first = volume(uib[0], uib[1]);
    let second = volume(uib[2], uib[3]);
    if first.is_empty() || first.end > 64 {
        return None;
    }
    if second.is_empty() {
        return Some(first.end);
    }
    let apart = first.end <= second.start || second.end <= first.start;
    (second.end <= 64 && apart).then_some(first.end.max(second.end))
}

fn volume(start: u8, heads: u8) -> Range<u64> {
    let start = u64::from(start);
    start..start + u64::from(heads)
}
