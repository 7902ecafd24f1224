//! The session program.

mod common;
use common::*;
use model::{session, Block};

fn field(tag: u8, bytes: &[u8]) -> Vec<u8> {
    let mut field = vec![tag, (bytes.len() / 256) as u8, (bytes.len() % 256) as u8];
    field.extend_from_slice(bytes);
    field
}

fn a_run(first: u32, allowance: u8) -> Vec<u8> {
    let mut bytes = first.to_be_bytes().to_vec();
    bytes.push(allowance);
    field(4, &bytes)
}

fn printed(fields: &[Vec<u8>]) -> String {
    String::from_utf8(session(&fields.concat())).unwrap()
}

/// Initialize at 0 linked to the two-sector read at 28; the UIB at 56.
fn example_host() -> Vec<u8> {
    let mut host = vec![0; 300];
    let initialize = Block {
        buffer_address: 56,
        linked_block_address: 28,
        ..block(0x87, LK)
    };
    let read = Block {
        interrupt_level: 3,
        normal_vector: 0x40,
        error_vector: 0x41,
        ..logical(0x81, IE, 7, 2, 100)
    };
    put(&mut host, 0, &initialize.bytes());
    put(&mut host, 28, &read.bytes());
    put(&mut host, 56, &SMALL_UIB);
    host
}

const EXAMPLE: &str = "\
run answer 0 blocks 2 sectors 2
block 1 status 80 error 00 level 00 vector 00 travel 0
block 2 status 80 error 00 level 03 vector 40 travel 1
";

#[test]
fn the_example_prints_exactly() {
    assert_eq!(
        printed(&[field(1, &example_host()), field(2, &image()), a_run(0, 64)]),
        EXAMPLE
    );
    // The order of the fields before the run is free, and a repeated one replaces the earlier.
    let fields = [
        field(2, &[1, 2, 3]),
        field(1, &[]),
        field(2, &image()),
        field(1, &example_host()),
        a_run(0, 2),
    ];
    assert_eq!(printed(&fields), EXAMPLE);
}

#[test]
fn what_a_run_leaves_is_there_for_the_next() {
    let fields = [
        field(1, &example_host()),
        a_run(28, 1),
        field(2, &image()),
        a_run(0, 1),
        a_run(28, 1),
        field(1, &block(0x89, 0).bytes()),
        a_run(0, 1),
        a_run(0, 0),
        a_run(1, 1),
    ];
    assert_eq!(
        printed(&fields),
        "\
run answer 4 blocks 1 sectors 0
block 1 status 82 error 40 level 03 vector 41 travel 0
run answer 6 blocks 1 sectors 0
block 1 status 80 error 00 level 00 vector 00 travel 0
run answer 0 blocks 1 sectors 2
block 1 status 80 error 00 level 03 vector 40 travel 1
run answer 0 blocks 1 sectors 0
block 1 status 80 error 00 level 00 vector 00 travel -1
run answer 2 blocks 0 sectors 0
run answer 3 blocks 0 sectors 0
"
    );
}

#[test]
fn unit_1_has_tag_3() {
    let mut host = example_host();
    host[1] |= UN;
    host[29] |= UN;
    assert_eq!(
        printed(&[field(1, &host), field(3, &image()), a_run(0, 2)]),
        EXAMPLE
    );
}

#[test]
fn nothing_prints_nothing() {
    assert_eq!(printed(&[]), "");
    assert_eq!(printed(&[field(1, &[]), field(2, &[]), field(3, &[])]), "");
}

#[test]
fn refusals() {
    let start = [field(1, &example_host()), field(2, &image()), a_run(0, 64)];
    let place = start.concat().len();
    let refused = format!("{}session refused at byte {}\n", EXAMPLE, place);
    let bad: [&[u8]; 13] = [
        &[0x01],
        &[0x01, 0x00],
        &[0x01, 0x00, 0x01],
        &[0x00, 0x00, 0x00],
        &[0x05, 0x00, 0x00],
        &[0xff],
        &[0x04, 0x00, 0x05, 0, 0, 0, 0],
        &[0x04, 0x00, 0x04, 0, 0, 0, 0],
        &[0x04, 0x00, 0x06, 0, 0, 0, 0, 1, 1],
        &[0x04, 0x00, 0x00],
        &[0x01, 0x40, 0x01],
        &[0x02, 0xff, 0xff],
        &[0x05, 0x00, 0x00, 0x04, 0x00, 0x05, 0, 0, 0, 0, 1],
    ];
    for bytes in bad {
        let mut fields = start.to_vec();
        fields.push(bytes.to_vec());
        assert_eq!(printed(&fields), refused);
    }
    assert_eq!(printed(&[vec![0x04]]), "session refused at byte 0\n");
    // A length of 16,384 is taken, one more is not, though its bytes are there.
    assert_eq!(
        printed(&[field(1, &[0; 16_384]), a_run(1, 1)]),
        "run answer 3 blocks 0 sectors 0\n"
    );
    assert_eq!(
        printed(&[field(1, &[0; 16_385]), a_run(1, 1)]),
        "session refused at byte 0\n"
    );
}
