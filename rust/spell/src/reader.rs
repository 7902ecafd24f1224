//! From a text to the session file that it says.

use crate::number::{byte, number, number_between};
use crate::record::{hear_block, hear_uib};
use crate::session::{append_field, append_run, HOST_TAG, IMAGE_TAG, LONGEST_FIELD, MOST_REPEAT};
use std::fmt;

/// What is wrong with a text, and in which line, counted from 1.
#[derive(Debug, PartialEq)]
pub struct TextError {
    pub line: usize,
    pub message: String,
}

impl fmt::Display for TextError {
    fn fmt(&self, f: &mut fmt::Formatter) -> fmt::Result {
        write!(f, "line {}: {}", self.line, self.message)
    }
}

type Said<T> = Result<T, String>;

const FIELD_LINES: &str = "host, image, run or raw";
const PLACING_LINES: &str = "block, uib, list, marks, bytes, fill or count";

/// Bytes and where in the field they go.
struct Piece {
    at: u64,
    bytes: Vec<u8>,
}

/// The field that the next placing lines speak of.
struct Open {
    tag: u8,
    bytes: Vec<u8>,
    /// The line that placed each byte; 0 for none.
    placed_by: Vec<usize>,
}

#[derive(Default)]
struct Reader {
    file: Vec<u8>,
    open: Option<Open>,
}

/// The session file of a text.
pub fn to_session(text: &str) -> Result<Vec<u8>, TextError> {
    let mut reader = Reader::default();
    for (index, line) in text.lines().enumerate() {
        let line_number = index + 1;
        reader
            .line(line_number, line)
            .map_err(|message| TextError {
                line: line_number,
                message,
            })?;
    }
    reader.close();
    Ok(reader.file)
}

/// The line without its comment and the blanks at its end.
pub fn without_comment(line: &str) -> &str {
    let said = line.split('#').next().unwrap_or("");
    said.trim_end()
}

impl Reader {
    fn line(&mut self, line_number: usize, line: &str) -> Said<()> {
        let words: Vec<&str> = without_comment(line).split_ascii_whitespace().collect();
        match words.split_first() {
            None => Ok(()),
            Some((&first, rest)) => self.words(line_number, first, rest),
        }
    }

    fn words(&mut self, line_number: usize, first: &str, rest: &[&str]) -> Said<()> {
        match first {
            "host" => self.host(rest),
            "image" => self.image(rest),
            "run" => self.run(rest),
            "raw" => self.raw(rest),
            _ => self.placing_line(line_number, first, rest),
        }
    }

    fn host(&mut self, words: &[&str]) -> Said<()> {
        let [length] = exactly(words, "host LENGTH")?;
        self.begin(HOST_TAG, field_length(length)?);
        Ok(())
    }

    fn image(&mut self, words: &[&str]) -> Said<()> {
        let [unit, length] = exactly(words, "image UNIT LENGTH")?;
        let unit = number(unit, 1)? as u8;
        self.begin(IMAGE_TAG + unit, field_length(length)?);
        Ok(())
    }

    fn run(&mut self, words: &[&str]) -> Said<()> {
        let [address, allowance] = exactly(words, "run ADDRESS ALLOWANCE")?;
        let address = number(address, u32::MAX.into())? as u32;
        let allowance = number(allowance, u8::MAX.into())? as u8;
        self.close();
        append_run(&mut self.file, address, allowance);
        Ok(())
    }

    fn raw(&mut self, words: &[&str]) -> Said<()> {
        at_least_one(words, "raw HH HH ..")?;
        self.close();
        for word in words {
            self.file.extend(raw_bytes(word)?);
        }
        Ok(())
    }

    fn begin(&mut self, tag: u8, length: usize) {
        self.close();
        self.open = Some(Open {
            tag,
            bytes: vec![0; length],
            placed_by: vec![0; length],
        });
    }

    fn close(&mut self) {
        if let Some(open) = self.open.take() {
            append_field(&mut self.file, open.tag, &open.bytes);
        }
    }

    fn placing_line(&mut self, line_number: usize, first: &str, rest: &[&str]) -> Said<()> {
        let pieces = pieces(first, rest)?;
        let Some(open) = &mut self.open else {
            return Err(format!("`{first}` needs a host or image line before it"));
        };
        if first == "marks" && open.tag == HOST_TAG {
            return Err("marks belong to an image, not to host memory".to_string());
        }
        pieces
            .iter()
            .try_for_each(|piece| open.place(line_number, piece))
    }
}

impl Open {
    /// Nothing is placed past the field's end or over what another line, or
    /// this one, has placed.
    fn place(&mut self, line_number: usize, piece: &Piece) -> Said<()> {
        let length = self.bytes.len() as u64;
        let end = piece.at + piece.bytes.len() as u64;
        if end > length {
            return Err(format!(
                "reaches to byte {} of a field of {length} bytes",
                end - 1
            ));
        }
        for (at, &byte) in (piece.at as usize..).zip(&piece.bytes) {
            if self.placed_by[at] != 0 {
                let by = self.placed_by[at];
                return Err(format!(
                    "byte {at} (0x{at:04X}) is already placed by line {by}"
                ));
            }
            self.placed_by[at] = line_number;
            self.bytes[at] = byte;
        }
        Ok(())
    }
}

fn field_length(word: &str) -> Said<usize> {
    Ok(number(word, LONGEST_FIELD as u64)? as usize)
}

fn exactly<'t, const N: usize>(words: &[&'t str], form: &str) -> Said<[&'t str; N]> {
    words.try_into().map_err(|_| expected(form))
}

fn expected(form: &str) -> String {
    format!("expected `{form}`")
}

fn at_least_one(words: &[&str], form: &str) -> Said<()> {
    if words.is_empty() {
        Err(expected(form))
    } else {
        Ok(())
    }
}

/// `HH`, or `N*HH` for N times that byte.
fn raw_bytes(word: &str) -> Said<Vec<u8>> {
    match word.split_once('*') {
        None => Ok(vec![byte(word)?]),
        Some((times, value)) => {
            let times = number_between(times, 1, MOST_REPEAT as u64)?;
            Ok(vec![byte(value)?; times as usize])
        }
    }
}

const BLOCK: &str = "block AT NAME VALUE ..";
const UIB: &str = "uib AT NAME VALUE ..";
const LIST: &str = "list AT COUNT@ADDRESS ..";
const MARKS: &str = "marks AT PLACE=VALUE ..";
const BYTES: &str = "bytes AT HH HH ..";
const FILL: &str = "fill AT LENGTH HH";
const COUNT: &str = "count AT LENGTH FIRST MODULUS";

fn placing_form(first: &str) -> Said<&'static str> {
    match first {
        "block" => Ok(BLOCK),
        "uib" => Ok(UIB),
        "list" => Ok(LIST),
        "marks" => Ok(MARKS),
        "bytes" => Ok(BYTES),
        "fill" => Ok(FILL),
        "count" => Ok(COUNT),
        _ => Err(format!(
            "expected {FIELD_LINES}, or within a field {PLACING_LINES}, found `{first}`"
        )),
    }
}

/// What a placing line puts into its field.
fn pieces(first: &str, rest: &[&str]) -> Said<Vec<Piece>> {
    let form = placing_form(first)?;
    let (at, words) = rest.split_first().ok_or_else(|| expected(form))?;
    let at = number(at, LONGEST_FIELD as u64)?;
    let bytes = match first {
        "marks" => return marks(at, words),
        "block" => hear_block(words)?,
        "uib" => hear_uib(words)?,
        "list" => list(words)?,
        "fill" => fill(words)?,
        "count" => count(words)?,
        _ => bytes(words)?,
    };
    Ok(vec![Piece { at, bytes }])
}

fn list(words: &[&str]) -> Said<Vec<u8>> {
    at_least_one(words, LIST)?;
    let mut bytes = Vec::new();
    for word in words {
        bytes.extend(element(word)?);
    }
    Ok(bytes)
}

fn element(word: &str) -> Said<[u8; 8]> {
    let form = || format!("expected COUNT@ADDRESS or COUNT@ADDRESS/TYPE/MODIFIER, found `{word}`");
    let (count, rest) = word.split_once('@').ok_or_else(form)?;
    let parts: Vec<&str> = rest.split('/').collect();
    let (address, kind, modifier) = match parts[..] {
        [address] => (address, "0", "0"),
        [address, kind, modifier] => (address, kind, modifier),
        _ => return Err(form()),
    };
    let mut bytes = [0; 8];
    bytes[..2].copy_from_slice(&(number(count, u16::MAX.into())? as u16).to_be_bytes());
    bytes[2..6].copy_from_slice(&(number(address, u32::MAX.into())? as u32).to_be_bytes());
    bytes[6] = number(kind, 255)? as u8;
    bytes[7] = number(modifier, 255)? as u8;
    Ok(bytes)
}

fn bytes(words: &[&str]) -> Said<Vec<u8>> {
    at_least_one(words, BYTES)?;
    words.iter().map(|word| byte(word)).collect()
}

fn fill(words: &[&str]) -> Said<Vec<u8>> {
    let [length, value] = exactly(words, FILL)?;
    Ok(vec![byte(value)?; stretch_length(length)?])
}

fn count(words: &[&str]) -> Said<Vec<u8>> {
    let [length, first, modulus] = exactly(words, COUNT)?;
    let modulus = number_between(modulus, 1, 256)? as usize;
    let first = number(first, modulus as u64 - 1)? as usize;
    let length = stretch_length(length)?;
    Ok((first..first + length)
        .map(|n| (n % modulus) as u8)
        .collect())
}

fn stretch_length(word: &str) -> Said<usize> {
    Ok(number_between(word, 1, LONGEST_FIELD as u64)? as usize)
}

fn marks(at: u64, words: &[&str]) -> Said<Vec<Piece>> {
    at_least_one(words, MARKS)?;
    words.iter().map(|word| mark(at, word)).collect()
}

fn mark(at: u64, word: &str) -> Said<Piece> {
    let (place, value) = word
        .split_once('=')
        .ok_or_else(|| format!("expected PLACE=VALUE, found `{word}`"))?;
    Ok(Piece {
        at: at + number(place, LONGEST_FIELD as u64)?,
        bytes: vec![number(value, 255)? as u8],
    })
}
