//! Whether a text is in the canonical form.

use crate::reader::{to_session, without_comment, TextError};
use crate::writer::to_text;
use std::fmt;

/// The first line in which a text and its canonical form differ.
#[derive(Debug, PartialEq)]
pub struct Difference {
    /// Counted from 1; past the last if the text ends too early.
    pub line: usize,
    pub expected: String,
    pub found: String,
}

impl fmt::Display for Difference {
    fn fmt(&self, f: &mut fmt::Formatter) -> fmt::Result {
        let (line, expected, found) = (self.line, &self.expected, &self.found);
        write!(f, "line {line}: expected `{expected}`, found `{found}`")
    }
}

/// Compares a text, its comments and blank lines aside, with what its session
/// file is written as.
pub fn check(text: &str) -> Result<Option<Difference>, TextError> {
    let canonical = to_text(&to_session(text)?);
    let mut lines = text
        .lines()
        .map(without_comment)
        .enumerate()
        .filter(|(_, line)| !line.is_empty());
    let mut expected = canonical.lines();
    loop {
        match (lines.next(), expected.next()) {
            (None, None) => return Ok(None),
            (Some((_, found)), Some(expected)) if found == expected => {}
            (found, expected) => return Ok(Some(difference(text, found, expected))),
        }
    }
}

fn difference(text: &str, found: Option<(usize, &str)>, expected: Option<&str>) -> Difference {
    let past_the_end = (text.lines().count(), "the end of the text");
    let (index, found) = found.unwrap_or(past_the_end);
    Difference {
        line: index + 1,
        expected: expected.unwrap_or("the end of the text").to_string(),
        found: found.to_string(),
    }
}
