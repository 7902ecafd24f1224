//! The tool as it is called: files, standard input and output, exit status.

use std::io::Write;
use std::process::{Command, Output, Stdio};

const TEXT: &str = "host 28\n  block 0x0000 command 86\nrun 0x0000 1\n";

fn spell(arguments: &[&str], input: &[u8]) -> Output {
    let mut child = Command::new(env!("CARGO_BIN_EXE_spell"))
        .args(arguments)
        .stdin(Stdio::piped())
        .stdout(Stdio::piped())
        .stderr(Stdio::piped())
        .spawn()
        .expect("the tool starts");
    let mut stdin = child.stdin.take().expect("its input");
    // A call that fails early may not read its input.
    let _ = stdin.write_all(input);
    drop(stdin);
    child.wait_with_output().expect("the tool ends")
}

#[test]
fn there_and_back() {
    let file = spell(&["to-session", "-", "-"], TEXT.as_bytes());
    assert_eq!(file.status.code(), Some(0));
    assert_eq!(file.stdout.len(), 3 + 28 + 8);
    let text = spell(&["to-text", "-", "-"], &file.stdout);
    assert_eq!(text.status.code(), Some(0));
    assert_eq!(text.stdout, TEXT.as_bytes());
}

#[test]
fn check_tells_by_its_status() {
    assert_eq!(
        spell(&["check", "-"], TEXT.as_bytes()).status.code(),
        Some(0)
    );
    let other = spell(&["check", "-"], b"host 0x1C\n");
    assert_eq!(other.status.code(), Some(1));
    let told = "-: not canonical, line 1: expected `host 28`, found `host 0x1C`\n";
    assert_eq!(String::from_utf8_lossy(&other.stdout), told);
}

#[test]
fn errors_have_status_2() {
    let text = spell(&["to-session", "-", "-"], b"host 28\nblok 0");
    assert_eq!(text.status.code(), Some(2));
    assert!(text.stdout.is_empty());
    assert!(String::from_utf8_lossy(&text.stderr).starts_with("-: line 2: expected host"));
    let latin = spell(&["check", "-"], b"host 28\n# \xE9\n");
    assert_eq!(latin.status.code(), Some(2));
    assert!(String::from_utf8_lossy(&latin.stderr).starts_with("-: line 2: expected text in UTF-8"));
    assert_eq!(spell(&["check"], b"").status.code(), Some(2));
    assert_eq!(
        spell(&["to-text", "no/such/file", "-"], b"").status.code(),
        Some(2)
    );
}

/// Help that was asked for is output, and a wrong call an error with the same words.
#[test]
fn help_is_no_error() {
    let help = spell(&["--help"], b"");
    assert_eq!(help.status.code(), Some(0));
    assert!(String::from_utf8_lossy(&help.stdout).starts_with("usage: spell to-session TEXT OUT\n"));
    assert!(help.stderr.is_empty());
    assert_eq!(spell(&["-h"], b"").stdout, help.stdout);
    for wrong in [&[][..], &["--help", "check"], &["help"]] {
        let wrong = spell(wrong, b"");
        assert_eq!(wrong.status.code(), Some(2));
        assert!(wrong.stdout.is_empty());
        assert_eq!(wrong.stderr, help.stdout);
    }
}
