//! The session file: fields of a tag byte, a two-byte big-endian length and
//! as many bytes, until the file ends or a field is unsound.

/// The greatest length of a field.
pub const LONGEST_FIELD: usize = 16_384;

/// The most raw bytes that one word of a text says: as long as a damaged
/// header can claim its field to be.
pub const MOST_REPEAT: usize = 65_535;

pub const HOST_TAG: u8 = 0x01;
/// Tag of unit 0's image; unit 1's is the next number.
pub const IMAGE_TAG: u8 = 0x02;
pub const RUN_TAG: u8 = 0x04;

const HEADER: usize = 3;
const RUN_LENGTH: usize = 5;

/// One sound field.
pub enum Field<'a> {
    Host(&'a [u8]),
    Image { unit: usize, bytes: &'a [u8] },
    Run { address: u32, allowance: u8 },
}

/// The sound fields of a file, and what stands from the first unsound one on.
/// The session program refuses there, so nothing after it counts as a field.
pub fn split(file: &[u8]) -> (Vec<Field<'_>>, &[u8]) {
    let mut fields = Vec::new();
    let mut rest = file;
    while let Some((field, after)) = first_field(rest) {
        fields.push(field);
        rest = after;
    }
    (fields, rest)
}

/// The field at the start of `file` and what follows it; none if it is unsound.
fn first_field(file: &[u8]) -> Option<(Field<'_>, &[u8])> {
    let (tag, length) = header(file)?;
    let end = HEADER + length;
    if length > LONGEST_FIELD || file.len() < end {
        return None;
    }
    Some((named_field(tag, &file[HEADER..end])?, &file[end..]))
}

fn header(file: &[u8]) -> Option<(u8, usize)> {
    match *file {
        [tag, high, low, ..] => Some((tag, usize::from(u16::from_be_bytes([high, low])))),
        _ => None,
    }
}

fn named_field(tag: u8, bytes: &[u8]) -> Option<Field<'_>> {
    match tag {
        HOST_TAG => Some(Field::Host(bytes)),
        0x02 | 0x03 => Some(Field::Image {
            unit: usize::from(tag - IMAGE_TAG),
            bytes,
        }),
        RUN_TAG => run_field(bytes),
        _ => None,
    }
}

fn run_field(bytes: &[u8]) -> Option<Field<'_>> {
    match *bytes {
        [a, b, c, d, allowance] => Some(Field::Run {
            address: u32::from_be_bytes([a, b, c, d]),
            allowance,
        }),
        _ => None,
    }
}

/// Adds a field of at most [`LONGEST_FIELD`] bytes to a file.
pub fn append_field(file: &mut Vec<u8>, tag: u8, bytes: &[u8]) {
    debug_assert!(bytes.len() <= LONGEST_FIELD);
    file.push(tag);
    file.extend((bytes.len() as u16).to_be_bytes());
    file.extend(bytes);
}

/// Adds a run to a file.
pub fn append_run(file: &mut Vec<u8>, address: u32, allowance: u8) {
    let mut bytes = [0; RUN_LENGTH];
    bytes[..4].copy_from_slice(&address.to_be_bytes());
    bytes[4] = allowance;
    append_field(file, RUN_TAG, &bytes);
}
