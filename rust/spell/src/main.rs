//! `spell`: a readable text into a session file, and back.
//!
//! Exit status: 0 done; 1 `check` found a text that is not in the canonical
//! form; 2 an error in a text, a file or the command line.

use std::fs;
use std::io::{self, Read, Write};
use std::process::ExitCode;

const USAGE: &str = "usage: spell to-session TEXT OUT
       spell to-text SESSION OUT
       spell check TEXT...
       spell --help
A file named - is standard input or output.";

fn main() -> ExitCode {
    let arguments: Vec<String> = std::env::args().skip(1).collect();
    let words: Vec<&str> = arguments.iter().map(String::as_str).collect();
    let outcome = match words[..] {
        ["to-session", text, out] => to_session(text, out),
        ["to-text", session, out] => to_text(session, out),
        ["check", ref texts @ ..] if !texts.is_empty() => check_all(texts),
        ["--help" | "-h"] => help(),
        _ => Err(USAGE.to_string()),
    };
    outcome.unwrap_or_else(|message| {
        eprintln!("{message}");
        ExitCode::from(2)
    })
}

fn to_session(text: &str, out: &str) -> Result<ExitCode, String> {
    let file = spell::to_session(&read_text(text)?).map_err(|e| format!("{text}: {e}"))?;
    write_file(out, &file)?;
    Ok(ExitCode::SUCCESS)
}

fn to_text(session: &str, out: &str) -> Result<ExitCode, String> {
    write_file(out, spell::to_text(&read_file(session)?).as_bytes())?;
    Ok(ExitCode::SUCCESS)
}

/// Every text is looked at, also after one that is not canonical.
fn check_all(texts: &[&str]) -> Result<ExitCode, String> {
    let mut status = ExitCode::SUCCESS;
    for text in texts {
        let difference = spell::check(&read_text(text)?).map_err(|e| format!("{text}: {e}"))?;
        if let Some(difference) = difference {
            println!("{text}: not canonical, {difference}");
            status = ExitCode::from(1);
        }
    }
    Ok(status)
}

/// To standard output, since it was asked for: what a wrong call is told goes to standard error.
fn help() -> Result<ExitCode, String> {
    write_file("-", format!("{USAGE}\n").as_bytes())?;
    Ok(ExitCode::SUCCESS)
}

fn read_text(name: &str) -> Result<String, String> {
    let bytes = read_file(name)?;
    String::from_utf8(bytes).map_err(|error| {
        let good = &error.as_bytes()[..error.utf8_error().valid_up_to()];
        let line = 1 + good.iter().filter(|&&byte| byte == b'\n').count();
        format!("{name}: line {line}: expected text in UTF-8")
    })
}

fn read_file(name: &str) -> Result<Vec<u8>, String> {
    let mut bytes = Vec::new();
    let read = match name {
        "-" => io::stdin().read_to_end(&mut bytes).map(|_| bytes),
        _ => fs::read(name),
    };
    read.map_err(|error| format!("{name}: {error}"))
}

fn write_file(name: &str, bytes: &[u8]) -> Result<(), String> {
    let written = match name {
        "-" => write_out(bytes),
        _ => fs::write(name, bytes),
    };
    written.map_err(|error| format!("{name}: {error}"))
}

/// Flushed here, where an error can still be told.
fn write_out(bytes: &[u8]) -> io::Result<()> {
    let mut out = io::stdout().lock();
    out.write_all(bytes)?;
    out.flush()
}
