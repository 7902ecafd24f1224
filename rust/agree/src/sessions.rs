//! Whole sessions: the session program, run as it is, against the model's session. The worlds make
//! the fields, several worlds to a session, and some sessions end in a field that is refused.

use crate::draw::Draw;
use crate::worlds::{world, Theme};
use std::io::Write;
use std::process::{Command, Stdio};
use std::sync::atomic::{AtomicU64, Ordering};
use std::sync::Mutex;

/// A length over this is refused, so no image of such a length is handed over.
const MOST: usize = 16_384;

fn field(session: &mut Vec<u8>, tag: u8, bytes: &[u8]) {
    session.push(tag);
    session.extend_from_slice(&(bytes.len() as u16).to_be_bytes());
    session.extend_from_slice(bytes);
}

fn run(session: &mut Vec<u8>, first: u32, allowance: u32) {
    let mut bytes = first.to_be_bytes().to_vec();
    bytes.push(allowance as u8);
    field(session, 4, &bytes);
}

/// The fields of one world; a field that cannot be said is left out, and what was there before stays.
fn fields(session: &mut Vec<u8>, draw: &mut Draw, theme: Theme, seed: u64, index: u64) {
    let case = world(theme, seed, index);
    for (tag, bytes) in [(1, &case.host), (2, &case.images[0]), (3, &case.images[1])] {
        if bytes.len() <= MOST && !draw.one_in(12) {
            field(session, tag, bytes);
        }
    }
    for _ in 0..draw.between(1, 2) {
        run(session, case.first, case.allowance);
    }
}

/// How a session ends: mostly as it stands, else in each way that is refused.
fn end(session: &mut Vec<u8>, draw: &mut Draw) {
    match draw.below(10) {
        0 => session.truncate(session.len() - draw.between(1, 7) as usize),
        1 => session.push(draw.pick(&[0, 5, 255])),
        2 => field(session, draw.pick(&[0, 5, 128]), &[0; 3]),
        3 => session.extend_from_slice(&[draw.pick(&[1, 2, 3]), 0x40, 0x01]),
        4 => field(session, 4, &[0; 4]),
        5 => field(session, 4, &[0; 6]),
        _ => {}
    }
}

/// The session with an index; with tables its stream is another.
pub fn session(theme: Theme, seed: u64, index: u64) -> Vec<u8> {
    let stream = if theme.tables() {
        0x5e55_7ab1
    } else {
        0x5e55_1011
    };
    let mut draw = Draw::of(seed ^ stream, index);
    let mut session = Vec::new();
    for k in 0..draw.between(1, 4) {
        fields(&mut session, &mut draw, theme, seed, 4 * index + k);
    }
    end(&mut session, &mut draw);
    session
}

/// What the program prints for an input.
fn printed(command: &[String], input: &[u8]) -> Result<Vec<u8>, String> {
    let (program, words) = command.split_first().ok_or("no program to run")?;
    let mut child = Command::new(program)
        .args(words)
        .stdin(Stdio::piped())
        .stdout(Stdio::piped())
        .spawn()
        .map_err(|error| format!("{}: {}", program, error))?;
    let mut stdin = child.stdin.take().expect("it was asked for");
    let bytes = input.to_vec();
    // The program may end before it has read everything, and then nobody reads the rest.
    let writer = std::thread::spawn(move || drop(stdin.write_all(&bytes)));
    let output = child
        .wait_with_output()
        .map_err(|error| error.to_string())?;
    writer.join().expect("writing does not panic");
    Ok(output.stdout)
}

/// What came of all sessions: the lines printed, the refusals among them, and the first session that
/// differs.
#[derive(Default)]
pub struct Heard {
    pub lines: u64,
    pub refused: u64,
    pub differs: Option<(u64, String)>,
}

fn hear(heard: &Mutex<Heard>, command: &[String], input: &[u8], index: u64) {
    let expected = model::session(input);
    let difference = match printed(command, input) {
        Ok(lines) if lines == expected => None,
        Ok(lines) => Some(format!(
            "expected:\n{}printed:\n{}",
            String::from_utf8_lossy(&expected),
            String::from_utf8_lossy(&lines)
        )),
        Err(error) => Some(error),
    };
    let mut heard = heard.lock().expect("no thread panics with it");
    heard.lines += expected.iter().filter(|byte| **byte == b'\n').count() as u64;
    let last = expected.split(|byte| *byte == b'\n').rev().nth(1);
    heard.refused += u64::from(last.is_some_and(|line| line.starts_with(b"session refused")));
    if let Some(difference) = difference {
        let first = heard
            .differs
            .as_ref()
            .is_none_or(|(found, _)| index < *found);
        if first {
            heard.differs = Some((index, difference));
        }
    }
}

/// So many sessions, over all threads.
pub fn play(command: &[String], theme: Theme, seed: u64, sessions: u64, threads: usize) -> Heard {
    let next = AtomicU64::new(0);
    let heard = Mutex::new(Heard::default());
    std::thread::scope(|scope| {
        for _ in 0..threads {
            scope.spawn(|| loop {
                let index = next.fetch_add(1, Ordering::Relaxed);
                if index >= sessions {
                    break;
                }
                hear(&heard, command, &session(theme, seed, index), index);
            });
        }
    });
    heard.into_inner().expect("no thread panics with it")
}
