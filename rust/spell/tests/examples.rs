//! The examples: canonical texts, both round trips, and expected lines that
//! fit the text's runs.

use spell::{check, to_session, to_text};
use std::fs;
use std::path::{Path, PathBuf};

fn examples() -> Vec<PathBuf> {
    let folder = Path::new(env!("CARGO_MANIFEST_DIR")).join("../../examples");
    let entries = fs::read_dir(folder).expect("the examples folder");
    let paths = entries.map(|entry| entry.expect("an entry").path());
    let mut folders: Vec<PathBuf> = paths
        .filter(|path| path.join("session.txt").is_file())
        .collect();
    folders.sort();
    assert!(!folders.is_empty());
    folders
}

fn read(folder: &Path, name: &str) -> String {
    let path = folder.join(name);
    fs::read_to_string(&path).unwrap_or_else(|error| panic!("{}: {error}", path.display()))
}

#[test]
fn texts_are_canonical() {
    for folder in examples() {
        let difference = check(&read(&folder, "session.txt"));
        assert_eq!(difference, Ok(None), "{}", folder.display());
    }
}

#[test]
fn texts_and_files_come_back() {
    for folder in examples() {
        let text = read(&folder, "session.txt");
        let file = to_session(&text).expect("a sound text");
        let said: Vec<&str> = text
            .lines()
            .map(|line| line.split('#').next().unwrap_or("").trim_end())
            .filter(|line| !line.is_empty())
            .collect();
        let back = to_text(&file);
        assert_eq!(back.lines().collect::<Vec<_>>(), said);
        assert_eq!(to_session(&back), Ok(file));
    }
}

#[test]
fn texts_open_with_what_they_show() {
    for folder in examples() {
        let text = read(&folder, "session.txt");
        let comments = text.lines().take_while(|line| line.starts_with("# "));
        assert!(comments.count() >= 2, "{}", folder.display());
    }
}

/// The values of a line of this form, where `_` stands for a value.
fn values<'a>(line: &'a str, form: &str) -> Option<Vec<&'a str>> {
    let words: Vec<&str> = line.split(' ').collect();
    let form: Vec<&str> = form.split(' ').collect();
    let same = |(word, form): (&&str, &&str)| *form == "_" || word == form;
    if words.len() != form.len() || !words.iter().zip(&form).all(same) {
        return None;
    }
    let values = words.iter().zip(&form).filter(|(_, form)| **form == "_");
    Some(values.map(|(word, _)| *word).collect())
}

/// One line for each run, then one for each block that it says it ran.
fn runs_told(expected: &str, folder: &Path) -> usize {
    let mut lines = expected.lines().peekable();
    let mut runs = 0;
    while let Some(run) = lines.next_if(|line| line.starts_with("run ")) {
        let run = values(run, "run answer _ blocks _ sectors _").expect(run);
        for block in 1..=run[1].parse::<usize>().expect("a number") {
            let line = lines.next().expect("a block line");
            let form = format!("block {block} status _ error _ level _ vector _ travel _");
            assert!(
                values(line, &form).is_some(),
                "{}: {line}",
                folder.display()
            );
        }
        runs += 1;
    }
    let rest: Vec<&str> = lines.collect();
    match rest[..] {
        [] => {}
        [last] => assert!(last.starts_with("session refused at byte ")),
        _ => panic!("{}: {rest:?}", folder.display()),
    }
    runs
}

#[test]
fn expected_lines_fit_the_runs() {
    for folder in examples() {
        let text = read(&folder, "session.txt");
        let runs = text.lines().filter(|line| line.starts_with("run "));
        let told = runs_told(&read(&folder, "expected"), &folder);
        assert_eq!(told, runs.count(), "{}", folder.display());
    }
}

/// A canonical text has raw lines exactly where the program refuses.
#[test]
fn refusals_stand_where_raw_bytes_begin() {
    for folder in examples() {
        let text = read(&folder, "session.txt");
        let sound: Vec<&str> = text.lines().filter(|l| !l.starts_with("raw ")).collect();
        let sound_length = to_session(&sound.join("\n")).expect("a sound text").len();
        let expected = read(&folder, "expected");
        let refusal = expected.lines().find(|line| line.starts_with("session "));
        let raw = text.lines().any(|line| line.starts_with("raw "));
        let told = raw.then(|| format!("session refused at byte {sound_length}"));
        assert_eq!(refusal, told.as_deref(), "{}", folder.display());
    }
}
