//! From a session file to its text, in the canonical form.

use crate::geometry;
use crate::leftover::{equal_bytes, leftovers};
use crate::record::{say_address, say_block, say_code, say_uib, ELEMENT_LENGTH};
use crate::session::{split, Field, MOST_REPEAT};
use crate::walk::{address, structures, uibs, Kind, Structure};
use std::ops::Range;

/// Elements of a list line, pairs of a marks line.
const ITEMS_A_LINE: usize = 8;
const RAW_WORDS_A_LINE: usize = 16;
/// So many equal raw bytes are said as one word.
const LEAST_REPEAT: usize = 8;

/// A line inside a field, and the first byte it places.
struct Line {
    at: usize,
    text: String,
}

/// A run with the host memory it starts from, and where it stands among the
/// fields.
struct Run<'a> {
    index: usize,
    host: &'a [u8],
    address: u32,
}

/// The text of a session file. Every file has one.
pub fn to_text(file: &[u8]) -> String {
    let (fields, rest) = split(file);
    let runs = runs(&fields);
    let mut text = String::new();
    for (index, field) in fields.iter().enumerate() {
        match *field {
            Field::Host(bytes) => {
                let runs = runs_of_host(&fields, index);
                let head = format!("host {}", bytes.len());
                add_field(&mut text, &head, host_lines(bytes, &runs));
            }
            Field::Image { unit, bytes } => {
                let marks = marks_of_image(&fields, &runs, index, unit, bytes.len());
                let head = format!("image {unit} {}", bytes.len());
                add_field(&mut text, &head, image_lines(bytes, marks));
            }
            Field::Run { address, allowance } => {
                text += &format!("run {} {allowance}\n", say_address(address));
            }
        }
    }
    add_raw(&mut text, rest);
    text
}

fn add_field(text: &mut String, head: &str, mut lines: Vec<Line>) {
    lines.sort_by_key(|line| line.at);
    *text += head;
    *text += "\n";
    for line in lines {
        *text += "  ";
        *text += &line.text;
        *text += "\n";
    }
}

/// The addresses of the runs between this host field and the next.
fn runs_of_host(fields: &[Field], index: usize) -> Vec<u32> {
    let mut runs = Vec::new();
    for field in &fields[index + 1..] {
        match *field {
            Field::Host(_) => break,
            Field::Run { address, .. } => runs.push(address),
            Field::Image { .. } => {}
        }
    }
    runs
}

fn runs<'a>(fields: &[Field<'a>]) -> Vec<Run<'a>> {
    let mut host: &[u8] = &[];
    let mut runs = Vec::new();
    for (index, field) in fields.iter().enumerate() {
        match *field {
            Field::Host(bytes) => host = bytes,
            Field::Run { address, .. } => runs.push(Run {
                index,
                host,
                address,
            }),
            Field::Image { .. } => {}
        }
    }
    runs
}

fn host_lines(host: &[u8], runs: &[u32]) -> Vec<Line> {
    let mut covered = vec![false; host.len()];
    let mut lines = Vec::new();
    for structure in structures(host, runs) {
        covered[structure.place.clone()].fill(true);
        add_structure(&mut lines, host, &structure);
    }
    for left in leftovers(host, &covered) {
        let text = format!("{} {} {}", left.word, host_place(left.at), left.values);
        lines.push(Line { at: left.at, text });
    }
    lines
}

/// Places in host memory are written in hex, like the addresses in blocks.
fn host_place(at: usize) -> String {
    say_address(at as u32)
}

fn add_structure(lines: &mut Vec<Line>, host: &[u8], structure: &Structure) {
    let at = structure.place.start;
    let bytes = &host[structure.place.clone()];
    let text = match structure.kind {
        Kind::Block => format!("block {}{}", host_place(at), say_block(bytes)),
        Kind::Uib => format!("uib {}{}", host_place(at), say_uib(bytes)),
        Kind::List => return add_list(lines, at, bytes),
    };
    lines.push(Line { at, text });
}

fn add_list(lines: &mut Vec<Line>, start: usize, bytes: &[u8]) {
    let line_length = ITEMS_A_LINE * ELEMENT_LENGTH;
    for (index, chunk) in bytes.chunks(line_length).enumerate() {
        let at = start + index * line_length;
        let elements: Vec<String> = chunk.chunks(ELEMENT_LENGTH).map(say_element).collect();
        let text = format!("list {} {}", host_place(at), elements.join(" "));
        lines.push(Line { at, text });
    }
}

fn say_element(bytes: &[u8]) -> String {
    let count = u16::from_be_bytes([bytes[0], bytes[1]]);
    let text = format!("{count}@{}", say_address(address(bytes, 2)));
    match (bytes[6], bytes[7]) {
        (0, 0) => text,
        (kind, modifier) => format!("{text}/{}/{}", say_code(kind), say_code(modifier)),
    }
}

/// The marks of an image by the first UIB that reaches into it: of the runs
/// up to the unit's next image in their order, else of the runs before this
/// image from the last back, for a unit record outlives an image.
fn marks_of_image(
    fields: &[Field],
    runs: &[Run],
    index: usize,
    unit: usize,
    length: usize,
) -> Option<Range<usize>> {
    let end = next_image(fields, index, unit);
    let later = runs.iter().filter(|run| (index..end).contains(&run.index));
    let later = later.flat_map(|run| uibs(run.host, run.address, unit));
    let earlier = runs.iter().rev().filter(|run| run.index < index);
    let earlier = earlier.flat_map(|run| uibs(run.host, run.address, unit).into_iter().rev());
    later
        .chain(earlier)
        .find_map(|uib| marks_inside(uib, length))
}

fn next_image(fields: &[Field], index: usize, of: usize) -> usize {
    let again = |field: &Field| matches!(field, Field::Image { unit, .. } if *unit == of);
    let next = fields[index + 1..].iter().position(again);
    next.map_or(fields.len(), |next| index + 1 + next)
}

/// The part of the marks that an image of this length has, if it has one.
fn marks_inside(uib: &[u8], length: usize) -> Option<Range<usize>> {
    let marks = geometry::marks(uib)?;
    let start = usize::try_from(marks.start).ok()?;
    let end = usize::try_from(marks.end).ok()?.min(length);
    (start < end).then_some(start..end)
}

fn image_lines(image: &[u8], marks: Option<Range<usize>>) -> Vec<Line> {
    let mut covered = vec![false; image.len()];
    let mut lines = Vec::new();
    if let Some(marks) = marks {
        covered[marks.clone()].fill(true);
        add_marks(&mut lines, image, marks);
    }
    for left in leftovers(image, &covered) {
        let text = format!("{} {} {}", left.word, left.at, left.values);
        lines.push(Line { at: left.at, text });
    }
    lines
}

fn add_marks(lines: &mut Vec<Line>, image: &[u8], marks: Range<usize>) {
    let start = marks.start;
    let marked: Vec<usize> = marks.filter(|&at| image[at] != 0).collect();
    for chunk in marked.chunks(ITEMS_A_LINE) {
        let say = |&at: &usize| format!("{}={}", at - start, image[at]);
        let pairs: Vec<String> = chunk.iter().map(say).collect();
        let text = format!("marks {start} {}", pairs.join(" "));
        lines.push(Line { at: chunk[0], text });
    }
}

fn add_raw(text: &mut String, rest: &[u8]) {
    for words in raw_words(rest).chunks(RAW_WORDS_A_LINE) {
        *text += &format!("raw {}\n", words.join(" "));
    }
}

fn raw_words(rest: &[u8]) -> Vec<String> {
    let mut words = Vec::new();
    let mut at = 0;
    while at < rest.len() {
        let near = &rest[at..rest.len().min(at + MOST_REPEAT)];
        let (repeat, byte) = (equal_bytes(near), near[0]);
        if repeat >= LEAST_REPEAT {
            words.push(format!("{repeat}*{byte:02X}"));
            at += repeat;
        } else {
            words.push(format!("{byte:02X}"));
            at += 1;
        }
    }
    words
}
