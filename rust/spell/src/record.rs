//! The byte places of the block and the UIB, each with its name in a text.

use crate::number::number;

pub const BLOCK_LENGTH: usize = 28;
pub const UIB_LENGTH: usize = 18;
pub const ELEMENT_LENGTH: usize = 8;

/// Option bits that decide how a block is written or walked.
pub const UNIT_OPTION: u8 = 0x80;
pub const LINK_OPTION: u8 = 0x20;
const LOGICAL_OPTION: u8 = 0x10;

/// The command whose block names a bad track and its spare.
const REMAP: u8 = 0x85;

/// The options, bit 7 down.
const OPTION_NAMES: [&str; 8] = ["UN", "VO", "LK", "XL", "RV", "DE", "IE", "EC"];

/// How a value is written. The reader takes decimal and hex in either case.
#[derive(Clone, Copy, PartialEq)]
enum Form {
    Decimal,
    Hex,
    /// Two hex digits, as document 01 names the commands.
    Command,
    /// Names joined by plus signs.
    Options,
}

/// One or more neighbouring big-endian values under one name.
#[derive(Clone, Copy)]
pub struct Part {
    name: &'static str,
    at: usize,
    width: usize,
    values: usize,
    form: Form,
}

const fn part(name: &'static str, at: usize, width: usize, form: Form) -> Part {
    Part {
        name,
        at,
        width,
        values: 1,
        form,
    }
}

const fn decimal(name: &'static str, at: usize, width: usize) -> Part {
    part(name, at, width, Form::Decimal)
}

const fn hex(name: &'static str, at: usize, width: usize) -> Part {
    part(name, at, width, Form::Hex)
}

/// A volume: start head and heads.
const fn volume(name: &'static str, at: usize) -> Part {
    Part {
        values: 2,
        ..decimal(name, at, 1)
    }
}

const BLOCK_HEAD: [Part; 4] = [
    part("command", 0, 1, Form::Command),
    part("options", 1, 1, Form::Options),
    hex("status", 2, 1),
    hex("error", 3, 1),
];

const LOGICAL_ADDRESS: [Part; 1] = [decimal("logical", 4, 4)];

const PHYSICAL_ADDRESS: [Part; 3] = [
    decimal("cylinder", 4, 2),
    decimal("head", 6, 1),
    decimal("sector", 7, 1),
];

/// Words 4 to 6 of an 85: the spare, and what nobody looks at.
const SPARE: [Part; 4] = [
    decimal("spare-cylinder", 8, 2),
    decimal("spare-head", 10, 1),
    decimal("spare-sector", 11, 1),
    hex("fill", 12, 2),
];

const BLOCK_TAIL: [Part; 11] = [
    hex("type", 14, 1),
    hex("modifier", 15, 1),
    decimal("level", 16, 1),
    hex("vector", 17, 1),
    hex("unused", 18, 1),
    hex("error-vector", 19, 1),
    hex("link", 20, 4),
    hex("link-type", 24, 1),
    hex("link-modifier", 25, 1),
    decimal("skew", 26, 1),
    decimal("elements", 27, 1),
];

const UIB_PARTS: [Part; 14] = [
    volume("volume0", 0),
    volume("volume1", 2),
    decimal("sectors", 4, 1),
    decimal("skew", 5, 1),
    decimal("bytes", 6, 2),
    decimal("gap1", 8, 1),
    decimal("gap2", 9, 1),
    decimal("interleave", 10, 1),
    decimal("retries", 11, 1),
    decimal("cylinders", 12, 2),
    hex("attributes", 14, 1),
    hex("extended", 15, 1),
    decimal("change-level", 16, 1),
    hex("change-vector", 17, 1),
];

/// The parts of a block, in byte order: XL decides how words 2 and 3 are
/// named, the command what words 5 and 6 are the address of. An 85 names two
/// tracks, whatever XL says.
fn block_parts(command: u8, options: u8) -> Vec<Part> {
    let mut parts = BLOCK_HEAD.to_vec();
    if command == REMAP {
        parts.extend(PHYSICAL_ADDRESS);
        parts.extend(SPARE);
    } else {
        if options & LOGICAL_OPTION != 0 {
            parts.extend(LOGICAL_ADDRESS);
        } else {
            parts.extend(PHYSICAL_ADDRESS);
        }
        parts.push(decimal("count", 8, 2));
        parts.push(hex(buffer_name(command), 10, 4));
    }
    parts.extend(BLOCK_TAIL);
    parts
}

fn buffer_name(command: u8) -> &'static str {
    match command {
        0x87 => "uib",
        0xA1 | 0xA2 => "list",
        _ => "buffer",
    }
}

/// The words of a block line after its address.
pub fn say_block(bytes: &[u8]) -> String {
    say(&block_parts(bytes[0], bytes[1]), bytes)
}

/// The words of a uib line after its address.
pub fn say_uib(bytes: &[u8]) -> String {
    say(&UIB_PARTS, bytes)
}

/// The block that these words say.
pub fn hear_block(words: &[&str]) -> Result<Vec<u8>, String> {
    let command = early_value(&BLOCK_HEAD[0], words)?;
    let options = early_value(&BLOCK_HEAD[1], words)?;
    hear(&block_parts(command, options), words, BLOCK_LENGTH)
}

/// The UIB that these words say.
pub fn hear_uib(words: &[&str]) -> Result<Vec<u8>, String> {
    hear(&UIB_PARTS, words, UIB_LENGTH)
}

/// The value of a one-byte part that decides which names the others have.
fn early_value(part: &Part, words: &[&str]) -> Result<u8, String> {
    let said = words.chunks(2).find(|pair| pair[0] == part.name);
    match said {
        Some([_, word]) => hear_value(part, word).map(|value| value as u8),
        _ => Ok(0),
    }
}

/// Zero is not said, but a block always says its command.
fn say(parts: &[Part], bytes: &[u8]) -> String {
    let mut text = String::new();
    for part in parts {
        let values: Vec<u64> = (0..part.values).map(|i| value(part, i, bytes)).collect();
        if part.form == Form::Command || values.iter().any(|&value| value != 0) {
            text += " ";
            text += part.name;
            for value in values {
                text += " ";
                text += &say_value(part, value);
            }
        }
    }
    text
}

fn value(part: &Part, index: usize, bytes: &[u8]) -> u64 {
    let at = part.at + index * part.width;
    let places = &bytes[at..at + part.width];
    places
        .iter()
        .fold(0, |sum, &byte| sum << 8 | u64::from(byte))
}

fn say_value(part: &Part, value: u64) -> String {
    match part.form {
        Form::Decimal => value.to_string(),
        Form::Hex if part.width == 1 => say_code(value as u8),
        Form::Hex => say_address(value as u32),
        Form::Command => format!("{value:02X}"),
        Form::Options => say_options(value as u8),
    }
}

/// An address, in four digits where they are enough, else in eight.
pub fn say_address(address: u32) -> String {
    let digits = if address > 0xFFFF { 8 } else { 4 };
    format!("0x{address:0digits$X}")
}

/// A byte that is a code more than a number.
pub fn say_code(value: u8) -> String {
    format!("0x{value:02X}")
}

fn say_options(options: u8) -> String {
    let set = |bit: &usize| options & (0x80 >> bit) != 0;
    let names: Vec<&str> = (0..8).filter(set).map(|bit| OPTION_NAMES[bit]).collect();
    names.join("+")
}

fn hear(parts: &[Part], words: &[&str], length: usize) -> Result<Vec<u8>, String> {
    let mut bytes = vec![0; length];
    let mut said = vec![false; parts.len()];
    let mut rest = words;
    while let Some((name, after)) = rest.split_first() {
        let index = find(parts, name)?;
        if std::mem::replace(&mut said[index], true) {
            return Err(format!("`{name}` is said twice"));
        }
        rest = hear_part(&parts[index], after, &mut bytes)?;
    }
    Ok(bytes)
}

fn find(parts: &[Part], name: &str) -> Result<usize, String> {
    let index = parts.iter().position(|part| part.name == name);
    index.ok_or_else(|| {
        let names: Vec<&str> = parts.iter().map(|part| part.name).collect();
        format!("expected one of {}, found `{name}`", names.join(", "))
    })
}

/// Stores a part's values and hands back the words after them.
fn hear_part<'w, 't>(
    part: &Part,
    words: &'w [&'t str],
    bytes: &mut [u8],
) -> Result<&'w [&'t str], String> {
    if words.len() < part.values {
        return Err(format!(
            "expected {} value(s) after `{}`",
            part.values, part.name
        ));
    }
    let (values, rest) = words.split_at(part.values);
    let places = bytes[part.at..].chunks_mut(part.width);
    for (place, word) in places.zip(values) {
        let value = hear_value(part, word).map_err(|e| format!("{}: {e}", part.name))?;
        place.copy_from_slice(&value.to_be_bytes()[8 - part.width..]);
    }
    Ok(rest)
}

fn hear_value(part: &Part, word: &str) -> Result<u64, String> {
    let most = (1 << (8 * part.width)) - 1;
    match part.form {
        Form::Command => hear_command(word),
        Form::Options if !word.starts_with(|c: char| c.is_ascii_digit()) => hear_options(word),
        _ => number(word, most),
    }
}

fn hear_command(word: &str) -> Result<u64, String> {
    let digits = word.strip_prefix("0x").unwrap_or(word);
    crate::number::byte(digits).map(u64::from)
}

fn hear_options(word: &str) -> Result<u64, String> {
    let mut options = 0;
    for name in word.split('+') {
        let bit = OPTION_NAMES.iter().position(|option| *option == name);
        let bit = bit.ok_or_else(|| {
            let names = OPTION_NAMES.join(", ");
            format!("expected names out of {names} joined by +, found `{name}`")
        })?;
        options |= 0x80 >> bit;
    }
    Ok(options)
}
