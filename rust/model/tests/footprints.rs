//! The units that a chain names and the host bytes that it reads and writes, on chains laid out by
//! hand, and what two chains have in common.

mod common;
use common::*;
use model::*;

/// A set of bytes as the ranges that it is made of, first and end.
fn ranges(bytes: &[bool]) -> Vec<(usize, usize)> {
    let mut ranges: Vec<(usize, usize)> = Vec::new();
    for (at, _) in bytes.iter().enumerate().filter(|(_, in_it)| **in_it) {
        match ranges.last_mut() {
            Some((_, end)) if *end == at => *end += 1,
            _ => ranges.push((at, at + 1)),
        }
    }
    ranges
}

/// The footprint of a chain followed alone, on a copy of the world, and how it ended.
fn followed(world: &World, first: u32, allowance: u32) -> (Footprint, Outcome) {
    let mut world = world.clone();
    let (outcome, trace) = run_traced(&mut world, first, allowance);
    (trace.footprint(&world.host), outcome)
}

/// The one block at 0 gets an answer, and its chain reads and writes just this.
fn touches(world: &World, answer: u8, read: &[(usize, usize)], written: &[(usize, usize)]) {
    let (footprint, outcome) = followed(world, 0, 1);
    assert_eq!(outcome.failed, answer);
    assert_eq!(ranges(&footprint.read), read);
    assert_eq!(ranges(&footprint.written), written);
}

/// A world with one block at 0.
fn with(host_bytes: usize, block: &Block) -> World {
    let mut w = world(host_bytes);
    put_block(&mut w, 0, block);
    w
}

fn listed(command: u8, count: u16, list: u32, elements: u8) -> Block {
    Block {
        element_count: elements,
        ..logical(command, 0, 0, count, list)
    }
}

fn initialize(uib: u32) -> Block {
    Block {
        buffer_address: uib,
        ..block(0x87, 0)
    }
}

/// What any block reads and writes that is fetched at 0.
const OWN_READ: (usize, usize) = (0, 28);
const WORD_1: (usize, usize) = (2, 4);

#[test]
fn each_command() {
    touches(&with(28, &block(0x86, 0)), 0, &[OWN_READ], &[(2, 16)]);
    touches(&with(28, &block(0x89, 0)), 0, &[OWN_READ], &[WORD_1]);
    let seek = logical(0x8a, 0, 9, 5, 100);
    touches(&with(28, &seek), 0, &[OWN_READ], &[WORD_1]);
    let read = logical(0x81, 0, 0, 2, 100);
    touches(&with(300, &read), 0, &[OWN_READ], &[WORD_1, (100, 228)]);
    let write = logical(0x82, 0, 0, 2, 100);
    touches(&with(300, &write), 0, &[OWN_READ, (100, 228)], &[WORD_1]);
    // 8C takes one sector's bytes, whatever the count says.
    let format = physical(0x8c, 0, (3, 2, 0), 7, 100);
    let formatted = [WORD_1, (7, 10)];
    touches(&with(300, &format), 0, &[OWN_READ, (100, 164)], &formatted);
    // One that is refused reports nothing.
    let outside = physical(0x8c, 0, (3, 3, 0), 7, 100);
    touches(&with(300, &outside), 16, &[OWN_READ], &[WORD_1]);
    let mut w = with(300, &initialize(100));
    put(&mut w.host, 100, &SMALL_UIB);
    touches(&w, 0, &[OWN_READ, (100, 118)], &[WORD_1]);
}

#[test]
fn lists_and_their_elements() {
    let mut w = with(600, &listed(0xa2, 1, 100, 2));
    put_element(&mut w, 100, 40, 200);
    put_element(&mut w, 108, 24, 300);
    let gathered = [OWN_READ, (100, 116), (200, 240), (300, 324)];
    touches(&w, 0, &gathered, &[WORD_1]);
    put_block(&mut w, 0, &listed(0xa1, 1, 100, 2));
    let scattered = [WORD_1, (200, 240), (300, 324)];
    touches(&w, 0, &[OWN_READ, (100, 116)], &scattered);
}

#[test]
fn a_byte_stored_with_the_number_it_already_had_is_written() {
    let mut w = with(300, &logical(0x81, 0, 0, 1, 100));
    put(&mut w.host, 100, &image()[0..64]);
    put(&mut w.host, 2, &[0x80, 0x00]);
    touches(&w, 0, &[OWN_READ], &[WORD_1, (100, 164)]);
    let before = w.host.clone();
    run(&mut w, 0, 1);
    assert_eq!(w.host, before);
}

#[test]
fn data_of_a_refused_block_is_not_touched() {
    for command in [0x81, 0x82] {
        // 14, 15, 16 and 19: the data lie in host memory but for the last.
        let none = logical(command, 0, 0, 0, 100);
        touches(&with(300, &none), 15, &[OWN_READ], &[WORD_1]);
        let outside = logical(command, 0, 79, 2, 100);
        touches(&with(300, &outside), 16, &[OWN_READ], &[WORD_1]);
        let odd = logical(command, 0, 0, 1, 101);
        touches(&with(300, &odd), 19, &[OWN_READ], &[WORD_1]);
        let mut w = with(300, &logical(command, VO, 0, 1, 100));
        w.records[0].geometry.volumes[1].heads = 0;
        touches(&w, 14, &[OWN_READ], &[WORD_1]);
    }
    let unlisted = logical(0x83, 0, 0, 1, 100);
    touches(&with(300, &unlisted), 10, &[OWN_READ], &[WORD_1]);
}

#[test]
fn unmoved_rest_of_a_stopped_read_is_not_written() {
    let mut w = with(400, &logical(0x81, 0, 0, 4, 100));
    w.images[0][7680 + 2] = 1;
    touches(&w, 20, &[OWN_READ], &[WORD_1, (100, 228)]);
    w.images[0][7680] = 1;
    touches(&w, 20, &[OWN_READ], &[WORD_1]);
    // With DE all of it is moved.
    put_block(&mut w, 0, &logical(0x81, DE, 0, 4, 100));
    touches(&w, 0, &[OWN_READ], &[WORD_1, (100, 356)]);
}

#[test]
fn scatter_that_stops_inside_an_element() {
    let mut w = with(600, &listed(0xa1, 2, 100, 2));
    put_element(&mut w, 100, 60, 200);
    put_element(&mut w, 108, 68, 300);
    w.images[0][7680 + 1] = 1;
    let moved = [WORD_1, (200, 260), (300, 304)];
    touches(&w, 20, &[OWN_READ, (100, 116)], &moved);
}

#[test]
fn list_of_65_is_not_read() {
    let mut w = with(2000, &listed(0xa1, 65, 100, 64));
    for k in 0..65 {
        put_element(&mut w, 100 + 8 * k, 64, 1000);
    }
    // 64 elements are read, though they sum to a sector too few.
    touches(&w, 18, &[OWN_READ, (100, 612)], &[WORD_1]);
    for elements in [65, 0] {
        put_block(&mut w, 0, &listed(0xa1, 65, 100, elements));
        touches(&w, 18, &[OWN_READ], &[WORD_1]);
    }
}

#[test]
fn list_read_though_it_is_refused() {
    let mut w = with(600, &listed(0xa2, 1, 100, 2));
    put_element(&mut w, 100, 40, 200);
    put_element(&mut w, 108, 26, 300);
    let own_and_list = [OWN_READ, (100, 116)];
    touches(&w, 18, &own_and_list, &[WORD_1]);
    // A byte count 0 stops no one from having read the next element.
    put_element(&mut w, 100, 0, 200);
    touches(&w, 18, &own_and_list, &[WORD_1]);
    // 19: the sum is right, the last range is not in memory.
    put_element(&mut w, 100, 40, 200);
    put_element(&mut w, 108, 24, 590);
    touches(&w, 19, &own_and_list, &[WORD_1]);
}

#[test]
fn list_not_read_where_it_is_misplaced_or_an_earlier_check_fails() {
    let list = |count, at| with(600, &listed(0xa2, count, at, 2));
    touches(&list(1, 101), 18, &[OWN_READ], &[WORD_1]);
    touches(&list(1, 586), 18, &[OWN_READ], &[WORD_1]);
    touches(&list(0, 100), 15, &[OWN_READ], &[WORD_1]);
    touches(&list(81, 100), 16, &[OWN_READ], &[WORD_1]);
    let mut w = list(1, 100);
    w.images[0].truncate(7799);
    touches(&w, 17, &[OWN_READ], &[WORD_1]);
    w.records[0].initialized = false;
    touches(&w, 11, &[OWN_READ], &[WORD_1]);
}

#[test]
fn uib_read_where_13_refuses_it_and_not_where_12_does() {
    // 0xee everywhere is outside the limits.
    let read = [OWN_READ, (100, 118)];
    touches(&with(118, &initialize(100)), 13, &read, &[WORD_1]);
    touches(&with(117, &initialize(100)), 12, &[OWN_READ], &[WORD_1]);
    touches(&with(200, &initialize(101)), 12, &[OWN_READ], &[WORD_1]);
}

#[test]
fn units_named_by_any_block_that_is_fetched() {
    let units = |w: &World| followed(w, 0, 2).0.units;
    assert_eq!(units(&with(28, &block(0x89, 0))), [true, false]);
    // A handshake has nothing to do with its unit, a refused block got nowhere: both name one.
    assert_eq!(units(&with(28, &block(0x86, UN))), [false, true]);
    assert_eq!(units(&with(28, &block(0x89, UN))), [false, true]);
    assert_eq!(units(&with(28, &block(0x83, UN))), [false, true]);
    let mut w = with(
        56,
        &Block {
            linked_block_address: 28,
            ..block(0x89, LK)
        },
    );
    put_block(&mut w, 28, &block(0x86, UN));
    assert_eq!(units(&w), [true, true]);
    // The allowance ends before the second block.
    assert_eq!(followed(&w, 0, 1).0.units, [true, false]);
    // Nor is it fetched after a block that failed.
    w.host[0] = 0x83;
    assert_eq!(units(&w), [true, false]);
}

#[test]
fn chain_that_reads_its_next_block_from_the_drive() {
    let first = Block {
        linked_block_address: 128,
        ..logical(0x81, LK, 0, 1, 100)
    };
    let mut w = with(400, &first);
    let second = logical(0x82, UN, 0, 1, 300);
    put(&mut w.images[0], 28, &second.bytes());
    // What stands at 128 before the run names another unit and other data.
    put_block(&mut w, 128, &logical(0x81, 0, 0, 1, 200));
    w.records[1] = ready();
    w.images[1] = image();
    let (footprint, outcome) = followed(&w, 0, 2);
    assert_eq!((outcome.answer, outcome.blocks), (0, 2));
    assert_eq!(footprint.units, [true, true]);
    assert_eq!(ranges(&footprint.read), [OWN_READ, (128, 156), (300, 364)]);
    assert_eq!(ranges(&footprint.written), [WORD_1, (100, 164)]);
}

#[test]
fn refused_run_touches_nothing() {
    let mut w = with(100, &block(0x86, 0));
    for (first, allowance, answer) in [(0, 0, 2), (0, 65, 2), (1, 1, 3), (74, 1, 3)] {
        let (footprint, outcome) = followed(&w, first, allowance);
        assert_eq!(outcome.answer, answer);
        assert_eq!(footprint.units, [false, false]);
        assert_eq!(ranges(&footprint.read), []);
        assert_eq!(ranges(&footprint.written), []);
    }
    w.events.truncate(511);
    assert_eq!(followed(&w, 0, 1).1.answer, 1);
    assert_eq!(ranges(&followed(&w, 0, 1).0.read), []);
}

/// What the chains at 0 and at 28 have in common, one block each, on units 0 and 1.
fn in_common(one: &Block, other: &Block) -> Common {
    let mut w = with(600, one);
    put_block(&mut w, 28, other);
    w.records[1] = ready();
    w.images[1] = image();
    let [one, other] = [0, 28].map(|first| followed(&w, first, 1).0);
    let common = one.common(&other);
    assert_eq!(other.common(&one), common);
    common
}

const NOTHING: Common = Common {
    unit: false,
    written_and_read: false,
    written_by_both: false,
};

#[test]
fn adjacent_buffers_have_nothing_in_common() {
    for (one, other) in [(0x81, 0x81), (0x81, 0x82), (0x82, 0x81), (0x82, 0x82)] {
        let at = |address| {
            let one = logical(one, 0, 0, 2, 100);
            in_common(&one, &logical(other, UN, 0, 1, address))
        };
        assert_eq!(at(228), NOTHING);
        // one word less
        let reads = (one == 0x82) as u8 + (other == 0x82) as u8;
        let shared = Common {
            written_by_both: reads == 0,
            written_and_read: reads == 1,
            ..NOTHING
        };
        assert_eq!(at(226), shared);
        assert_eq!(at(226).nothing(), reads == 2);
    }
}

#[test]
fn rest_of_a_block_that_the_other_reads() {
    // The data begin in the other's block, after what is written there or on its last word.
    let write = |from| logical(0x82, UN, 0, 1, from);
    let shared = Common {
        written_and_read: true,
        ..NOTHING
    };
    assert_eq!(in_common(&block(0x86, 0), &write(16)), NOTHING);
    assert_eq!(in_common(&block(0x86, 0), &write(14)), shared);
    assert_eq!(in_common(&block(0x89, 0), &write(4)), NOTHING);
    assert_eq!(in_common(&block(0x89, 0), &write(2)), shared);
}

#[test]
fn unit_in_common() {
    let shared = Common {
        unit: true,
        ..NOTHING
    };
    assert_eq!(in_common(&block(0x86, 0), &block(0x89, 0)), shared);
    assert_eq!(in_common(&block(0x86, 0), &block(0x89, UN)), NOTHING);
}

/// A block refused by 24 reads its 28 bytes: no UIB, no list and no data.
#[test]
fn held_by_the_other() {
    let blocks = [
        initialize(100),
        listed(0xa1, 1, 100, 1),
        listed(0xa2, 1, 100, 1),
        logical(0x82, 0, 0, 2, 100),
        logical(0x81, 0, 0, 2, 100),
        physical(0x8c, 0, (3, 2, 0), 7, 100),
        remap(0, (1, 0), (9, 2)),
    ];
    for block in blocks {
        let mut w = with(300, &block);
        put(&mut w.host, 100, &SMALL_UIB);
        w.records[0].holder = Holder::Second;
        touches(&w, 24, &[OWN_READ], &[WORD_1]);
        let (footprint, _) = followed(&w, 0, 1);
        assert_eq!(footprint.units, [true, false]);
    }
}

/// A drive is the same one for both controllers; a memory is one controller's.
#[test]
fn two_controllers_have_drives_in_common() {
    let mut w = with(300, &logical(0x81, 0, 0, 2, 100));
    let (one, _) = followed(&w, 0, 1);
    w.controller = Controller::Second;
    let (other, _) = followed(&w, 0, 1);
    let common = one.common(&other);
    assert!(common.unit && !common.written_and_read && !common.written_by_both);
    put_block(&mut w, 0, &block(0x89, UN));
    w.records[1] = ready();
    let (other, _) = followed(&w, 0, 1);
    assert!(one.common(&other).nothing());
    w.controller = Controller::First;
    let (other, _) = followed(&w, 0, 1);
    let common = one.common(&other);
    assert!(!common.unit && common.written_and_read && common.written_by_both);
}
