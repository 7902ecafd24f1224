//! What texts say, how else they may say it, and how their errors are told.

use spell::{check, to_session, to_text};

fn bytes(text: &str) -> Vec<u8> {
    to_session(text).unwrap_or_else(|error| panic!("{error}\n{text}"))
}

fn error(text: &str) -> String {
    match to_session(text) {
        Ok(file) => panic!("taken as {file:?}\n{text}"),
        Err(error) => error.to_string(),
    }
}

#[test]
fn every_byte_of_a_block_has_a_name() {
    let file = bytes(
        "host 28\nblock 0 command A1 options UN+VO+LK+XL+RV+DE+IE+EC status 0x03 error 0x04 \
         logical 0x05060708 count 0x090A list 0x0B0C0D0E type 0x0F modifier 0x10 level 0x11 \
         vector 0x12 unused 0x13 error-vector 0x14 link 0x15161718 link-type 0x19 \
         link-modifier 0x1A skew 0x1B elements 0x1C",
    );
    let mut expected = vec![1, 0, 28, 0xA1, 0xFF];
    expected.extend(3..=28);
    assert_eq!(file, expected);
}

#[test]
fn physical_addresses_have_three_names() {
    let file =
        bytes("host 28\nblock 0 command 81 cylinder 0x0102 head 3 sector 4 buffer 0x0A0B0C0D");
    assert_eq!(file[3..11], [0x81, 0, 0, 0, 1, 2, 3, 4]);
    assert_eq!(file[13..17], [10, 11, 12, 13]);
}

/// XL or not: both tracks of an 85 are physical.
#[test]
fn an_85_names_two_tracks() {
    for options in ["XL", "VO"] {
        let text = format!(
            "host 28\n  block 0x0000 command 85 options {options} cylinder 258 head 3 sector 4 \
             spare-cylinder 1286 spare-head 7 spare-sector 8 fill 0x090A\nrun 0x0000 1"
        );
        assert_eq!(bytes(&text)[7..17], [1, 2, 3, 4, 5, 6, 7, 8, 9, 10]);
        assert_eq!(check(&text), Ok(None));
    }
    assert!(error("host 28\nblock 0 command 85 count 2").starts_with("line 2: expected one of"));
    assert!(error("host 28\nblock 0 command 81 fill 2").starts_with("line 2: expected one of"));
}

#[test]
fn the_buffer_is_named_by_the_command() {
    for (command, name) in [
        ("87", "uib"),
        ("A1", "list"),
        ("A2", "list"),
        ("8C", "buffer"),
    ] {
        let text =
            format!("host 28\n  block 0x0000 command {command} {name} 0x01020304\nrun 0x0000 1");
        assert_eq!(bytes(&text)[13..17], [1, 2, 3, 4]);
        assert_eq!(check(&text), Ok(None));
    }
    assert!(error("host 28\nblock 0 command 87 buffer 2").starts_with("line 2: expected one of"));
}

#[test]
fn every_byte_of_a_uib_has_a_name() {
    let file = bytes(
        "host 18\nuib 0 volume0 1 2 volume1 3 4 sectors 5 skew 6 bytes 0x0708 gap1 9 gap2 10 \
         interleave 11 retries 12 cylinders 0x0D0E attributes 15 extended 16 change-level 17 \
         change-vector 18",
    );
    let expected: Vec<u8> = (1..=18).collect();
    assert_eq!(file[3..], expected);
}

#[test]
fn the_small_drive_is_the_uib_of_the_paper() {
    let file = bytes(
        "host 18\nuib 0 volume0 0 2 volume1 2 1 sectors 4 bytes 64 gap1 16 gap2 32 interleave 1 \
         retries 3 cylinders 10 attributes 0x04 change-level 1 change-vector 0xFF",
    );
    let uib = [
        0, 2, 2, 1, 4, 0, 0, 0x40, 0x10, 0x20, 1, 3, 0, 0x0A, 4, 0, 1, 0xFF,
    ];
    assert_eq!(file[3..], uib);
}

#[test]
fn lists_marks_and_stretches() {
    assert_eq!(
        bytes("host 17\nlist 1 16@0x0100 0x200@514/2/0x0D")[4..],
        [0, 16, 0, 0, 1, 0, 0, 0, 2, 0, 0, 0, 2, 2, 2, 13]
    );
    assert_eq!(
        bytes("image 1 6\nmarks 2 0=1 3=255"),
        [3, 0, 6, 0, 0, 1, 0, 0, 255]
    );
    assert_eq!(
        bytes("image 0 6\ncount 1 5 3 5"),
        [2, 0, 6, 0, 3, 4, 0, 1, 2]
    );
    assert_eq!(bytes("host 4\nfill 1 2 aB"), [1, 0, 4, 0, 0xAB, 0xAB, 0]);
    assert_eq!(bytes("host 4\nbytes 1 aB 07"), [1, 0, 4, 0, 0xAB, 7, 0]);
}

#[test]
fn runs_and_raw_bytes() {
    assert_eq!(
        bytes("run 0xFFFFFFFE 65"),
        [4, 0, 5, 255, 255, 255, 254, 65]
    );
    assert_eq!(bytes("raw 05 00 3*FF\nrun 0 1")[..5], [5, 0, 255, 255, 255]);
    assert_eq!(bytes(""), []);
    assert_eq!(bytes("# nothing\n\n   # at all\n"), []);
}

#[test]
fn other_spellings_are_taken_but_not_canonical() {
    let canonical = "host 64\n  block 0x0000 command 86 options LK+IE level 3 link 0x0020\n  \
                     block 0x0020 command 86\nrun 0x0000 2\n";
    let other = "host 0x40\nblock 0 link 32 options IE+LK level 0x3 command 0x86 count 0\n\
                 bytes 32 86\nrun 0 0x02";
    assert_eq!(bytes(other), bytes(canonical));
    assert_eq!(to_text(&bytes(other)), canonical);
    assert_eq!(check(canonical), Ok(None));
    let difference = check(other).expect("a sound text").expect("a difference");
    assert_eq!(
        (difference.line, difference.found.as_str()),
        (1, "host 0x40")
    );
}

#[test]
fn an_odd_address_displaces_nothing() {
    let text = "host 60\n  bytes 0x0000 12\n  block 0x0002 command 86\n\
                run 0x0001 1\nrun 0x0002 1\n";
    assert_eq!(to_text(&bytes(text)), text);
    let odd = "host 60\n  block 0x0001 command 86\nrun 0x0001 1\n";
    assert_eq!(to_text(&bytes(odd)), odd);
}

#[test]
fn a_text_that_ends_too_early_differs_past_its_last_line() {
    let difference = check("host 8\n").expect("a sound text");
    assert_eq!(difference, None);
    let difference = check("host 28\nrun 0x0000 1\n").expect("a sound text");
    assert_eq!(
        difference.expect("a difference").expected,
        "  block 0x0000 command 00"
    );
}

#[test]
fn errors_are_told_by_line() {
    let cases = [
        (
            "\n# x\nhots 12",
            "line 3: expected host, image, run or raw, or within",
        ),
        ("host", "line 1: expected `host LENGTH`"),
        ("host 16385", "line 1: expected a number from 0 to 16384"),
        ("image 2 5", "line 1: expected a number from 0 to 1"),
        ("run 0", "line 1: expected `run ADDRESS ALLOWANCE`"),
        ("run 0 256", "line 1: expected a number from 0 to 255"),
        ("run -1 2", "line 1: expected a number from 0 to 4294967295"),
        ("raw", "line 1: expected `raw HH HH ..`"),
        ("raw 5", "line 1: expected a byte as two hex digits"),
        ("raw 0*00", "line 1: expected a number from 1 to 65535"),
        (
            "bytes 0 00",
            "line 1: `bytes` needs a host or image line before it",
        ),
        (
            "host 4\nrun 0 1\nbytes 0 00",
            "line 3: `bytes` needs a host or image line",
        ),
        ("host 4\nmarks 0 1=1", "line 2: marks belong to an image"),
        ("image 0 4\nmarks 0 1", "line 2: expected PLACE=VALUE"),
        ("host 4\nbytes 0", "line 2: expected `bytes AT HH HH ..`"),
        (
            "host 4\nbytes 0 123",
            "line 2: expected a byte as two hex digits",
        ),
        (
            "host 4\nfill 0 0 00",
            "line 2: expected a number from 1 to 16384",
        ),
        (
            "host 4\ncount 0 4 5 5",
            "line 2: expected a number from 0 to 4",
        ),
        (
            "host 4\ncount 0 4 0 257",
            "line 2: expected a number from 1 to 256",
        ),
        ("host 8\nlist 0 12", "line 2: expected COUNT@ADDRESS"),
        ("host 8\nlist 0 12@5/6", "line 2: expected COUNT@ADDRESS"),
        (
            "host 28\nblock 0 command 1",
            "line 2: expected a byte as two hex digits",
        ),
        (
            "host 28\nblock 0 options XL+NO",
            "line 2: expected names out of UN, VO",
        ),
        (
            "host 28\nblock 0 logical 1",
            "line 2: expected one of command, options",
        ),
        (
            "host 28\nblock 0 options XL head 1",
            "line 2: expected one of command, options",
        ),
        (
            "host 28\nblock 0 count 1 count 2",
            "line 2: `count` is said twice",
        ),
        (
            "host 28\nblock 0 count",
            "line 2: expected 1 value(s) after `count`",
        ),
        (
            "host 28\nblock 0 level 256",
            "line 2: level: expected a number from 0 to 255",
        ),
        (
            "host 18\nuib 0 volume0 1",
            "line 2: expected 2 value(s) after `volume0`",
        ),
    ];
    for (text, start) in cases {
        let told = error(text);
        assert!(told.starts_with(start), "{text}\n{told}");
    }
}

#[test]
fn nothing_reaches_past_its_field() {
    let told = "line 2: reaches to byte 28 of a field of 28 bytes";
    assert_eq!(error("host 28\nblock 1 command 86"), told);
    assert_eq!(
        error("host 4\nbytes 4 00"),
        "line 2: reaches to byte 4 of a field of 4 bytes"
    );
    assert_eq!(
        error("image 0 4\nmarks 2 1=1 2=0"),
        "line 2: reaches to byte 4 of a field of 4 bytes"
    );
}

#[test]
fn nothing_is_placed_twice() {
    let told = "line 4: byte 27 (0x001B) is already placed by line 2";
    assert_eq!(error("host 28\nblock 0 command 86\n\nbytes 27 00"), told);
    let told = "line 2: byte 3 (0x0003) is already placed by line 2";
    assert_eq!(error("image 1 9\nmarks 1 2=1 2=1"), told);
}
