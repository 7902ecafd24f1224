//! The order of tracks on the small drive: C = 10, S = 4, volume 0 heads 0 and 1, volume 1 head 2. The place
//! of cylinder c, head h, sector s is 12c + 4h + s in both orders. Unless a case says otherwise the drive is
//! by cylinder: logical 0 to 39 of volume 0 go along head 0, logical 40 to 79 along head 1.

use super::*;

const ORDER: usize = 16;
const BY_CYLINDER: u8 = 0x01;

/// The small drive by cylinder, and a block at 0.
fn ordered(host_len: usize, b: &Block) -> Case {
    let mut case = with_block(host_len, b);
    case.records[0][ORDER] = BY_CYLINDER;
    case
}

fn physical(command: u8, at: (u16, u8, u8), count: u16, buffer: u32) -> Block {
    Block {
        cylinder: at.0,
        head: at.1,
        sector: at.2,
        sector_count: count,
        buffer_address: buffer,
        ..block(command, 0)
    }
}

pub fn all(sheet: &mut Sheet) {
    numbers(sheet);
    ends_of_tracks(sheet);
    whole_volumes(sheet);
    physical_starts(sheet);
    last_sectors(sheet);
    seeks(sheet);
    marks_and_lists(sheet);
    bad_tracks(sheet);
    tracks_and_places(sheet);
    no_orders(sheet);
    initializes(sheet);
    records_stored(sheet);
}

fn numbers(sheet: &mut Sheet) {
    let places = [
        ("by cylinder logical 0 is place 0", 0, 0, 0, 0),
        ("3 is 3", 0, 3, 3, 0),
        ("4 is 12", 0, 4, 12, 1),
        ("39 is 111", 0, 39, 111, 9),
        ("40 is 4", 0, 40, 4, 0),
        ("44 is 16", 0, 44, 16, 1),
        ("79 is 115", 0, 79, 115, 9),
        ("volume 1 logical 0 is place 8", VO, 0, 8, 0),
        ("volume 1 logical 39 is place 119", VO, 39, 119, 9),
    ];
    for (name, volume, n, place, cylinder) in places {
        let case = ordered(200, &logical(0x81, volume, n, 1, 100));
        let mut want = unchanged(&case, 0, 0, 1, 1);
        want.moved(0, place * 64, 100, 64);
        want.records[0][15] = cylinder;
        want.ended(1, 0, 0x80, 0x00, cylinder as i32);
        sheet.expect(name, &case, &want);
    }
    let read = |n, count| ordered(300, &logical(0x81, 0, n, count, 100));
    sheet.refused("by cylinder logical 80: answer 16", &read(80, 1), 16);
    sheet.refused("by cylinder count 2 from 79 is 16", &read(79, 2), 16);
}

/// Two sectors, the second on the track after.
fn ends_of_tracks(sheet: &mut Sheet) {
    let ends = [
        (
            "81 at a track's end goes to the next cylinder",
            3,
            [3, 12],
            1,
        ),
        ("81 at a head's end goes to cylinder 0", 39, [111, 4], 0),
        ("81 at a track's end of head 1", 43, [7, 16], 1),
    ];
    for (name, n, places, cylinder) in ends {
        let mut case = ordered(300, &logical(0x81, 0, n, 2, 100));
        case.records[0][15] = 5;
        let mut want = unchanged(&case, 0, 0, 1, 2);
        want.moved(0, places[0] * 64, 100, 64);
        want.moved(0, places[1] * 64, 164, 64);
        want.records[0][15] = cylinder;
        want.ended(1, 0, 0x80, 0x00, cylinder as i32 - 5);
        sheet.expect(name, &case, &want);
        case.host[0] = 0x82;
        put(&mut case.host, 100, &[0x11; 64]);
        put(&mut case.host, 164, &[0x22; 64]);
        let mut want = unchanged(&case, 0, 0, 1, 2);
        put(&mut want.images[0], places[0] * 64, &[0x11; 64]);
        put(&mut want.images[0], places[1] * 64, &[0x22; 64]);
        want.records[0][15] = cylinder;
        want.ended(1, 0, 0x80, 0x00, cylinder as i32 - 5);
        sheet.expect("82 at the same end", &case, &want);
    }
}

/// All of volume 0 in one read: head 0 from the first cylinder to the last, and then head 1.
fn whole_volumes(sheet: &mut Sheet) {
    let case = ordered(100 + 81 * 64, &logical(0x81, 0, 0, 80, 100));
    let mut want = unchanged(&case, 0, 0, 1, 80);
    let mut to = 100;
    for head in 0..2 {
        for cylinder in 0..10 {
            want.moved(0, (12 * cylinder + 4 * head) * 64, to, 256);
            to += 256;
        }
    }
    want.records[0][15] = 9;
    want.ended(1, 0, 0x80, 0x00, 9);
    sheet.expect("by cylinder count 80 from 0 passes", &case, &want);
    let more = ordered(100 + 81 * 64, &logical(0x81, 0, 0, 81, 100));
    sheet.refused("by cylinder 81 is 16", &more, 16);
}

fn physical_starts(sheet: &mut Sheet) {
    // The same address by head goes on with head 0 of cylinder 1, place 12.
    for (order, name, next) in [
        (
            BY_CYLINDER,
            "two from 0/1/3 by cylinder: places 7 and 16",
            16,
        ),
        (0x00, "two from 0/1/3 by head: places 7 and 12", 12),
    ] {
        let mut case = with_block(300, &physical(0x81, (0, 1, 3), 2, 100));
        case.records[0][ORDER] = order;
        let mut want = unchanged(&case, 0, 0, 1, 2);
        want.moved(0, 7 * 64, 100, 64);
        want.moved(0, next * 64, 164, 64);
        want.records[0][15] = 1;
        want.ended(1, 0, 0x80, 0x00, 1);
        sheet.expect(name, &case, &want);
    }
    // Cylinder, head and sector are judged one by one.
    for at in [(10, 0, 0), (0, 2, 0), (0, 0, 4), (9, 1, 4)] {
        let case = ordered(300, &physical(0x81, at, 1, 100));
        sheet.refused("a part outside by cylinder: 16", &case, 16);
    }
}

/// From cylinder 0, head 1, sector 0 there are 40 sectors by cylinder and 76 by head.
fn last_sectors(sheet: &mut Sheet) {
    let read = |order, count| {
        let mut case = with_block(100 + 77 * 64, &physical(0x81, (0, 1, 0), count, 100));
        case.records[0][ORDER] = order;
        case
    };
    let case = read(BY_CYLINDER, 40);
    let mut want = unchanged(&case, 0, 0, 1, 40);
    for cylinder in 0..10 {
        want.moved(0, (12 * cylinder + 4) * 64, 100 + cylinder * 256, 256);
    }
    want.records[0][15] = 9;
    want.ended(1, 0, 0x80, 0x00, 9);
    sheet.expect("40 from 0/1/0 by cylinder pass", &case, &want);
    sheet.refused("41 are 16", &read(BY_CYLINDER, 41), 16);
    sheet.refused("76 are 16 by cylinder", &read(BY_CYLINDER, 76), 16);

    let case = read(0x00, 76);
    let mut want = unchanged(&case, 0, 0, 1, 76);
    want.moved(0, 256, 100, 256);
    for cylinder in 1..10 {
        let to = 100 + 256 + (cylinder - 1) * 512;
        want.moved(0, 12 * cylinder * 64, to, 512);
    }
    want.records[0][15] = 9;
    want.ended(1, 0, 0x80, 0x00, 9);
    sheet.expect("76 from 0/1/0 by head pass", &case, &want);
    sheet.refused("77 are 16", &read(0x00, 77), 16);

    // From the last cylinder of head 0 it is the other way round: 44 by cylinder and 8 by head.
    let from = |order, count| {
        let mut case = with_block(28, &physical(0x82, (9, 0, 0), count, 1));
        case.records[0][ORDER] = order;
        case
    };
    // The data lie at an odd address, which 19 finds where 16 does not come before it.
    sheet.refused(
        "44 from 9/0/0 by cylinder pass 16",
        &from(BY_CYLINDER, 44),
        19,
    );
    sheet.refused("45 are 16", &from(BY_CYLINDER, 45), 16);
    sheet.refused("8 from 9/0/0 by head pass 16", &from(0x00, 8), 19);
    sheet.refused("9 are 16", &from(0x00, 9), 16);
}

fn seeks(sheet: &mut Sheet) {
    for (n, cylinder) in [(3, 0), (4, 1), (39, 9), (40, 0), (44, 1), (79, 9)] {
        let case = ordered(28, &logical(0x8a, 0, n, 0, 1));
        let mut want = unchanged(&case, 0, 0, 1, 0);
        want.records[0][15] = cylinder;
        want.ended(1, 0, 0x80, 0x00, cylinder as i32);
        sheet.expect("8A by cylinder", &case, &want);
    }
    let case = ordered(28, &physical(0x8a, (7, 1, 2), 0, 1));
    let mut want = unchanged(&case, 0, 0, 1, 0);
    want.records[0][15] = 7;
    want.ended(1, 0, 0x80, 0x00, 7);
    sheet.expect("8A to a physical address by cylinder", &case, &want);
    sheet.refused("8A of 80", &ordered(28, &logical(0x8a, 0, 80, 0, 1)), 16);
}

fn marks_and_lists(sheet: &mut Sheet) {
    // Logical 4 is unreadable, which is place 12.
    let mut case = ordered(300, &logical(0x81, 0, 3, 2, 100));
    case.images[0][MARKS + 12] = 1;
    let mut want = unchanged(&case, 4, 20, 1, 1);
    want.moved(0, 192, 100, 64);
    want.records[0][15] = 1;
    want.ended(1, 0, 0x82, 0x13, 1);
    sheet.expect("a read stops behind a track's end", &case, &want);
    // Place 4 is another track's.
    case.images[0][MARKS + 12] = 0;
    case.images[0][MARKS + 4] = 1;
    let mut want = unchanged(&case, 0, 0, 1, 2);
    want.moved(0, 192, 100, 64);
    want.moved(0, 768, 164, 64);
    want.records[0][15] = 1;
    want.ended(1, 0, 0x80, 0x00, 1);
    sheet.expect("and not at the place that is next by head", &case, &want);

    let mut case = ordered(500, &listed(0xa1, 39, 2, 100, 2));
    element(&mut case.host, 100, 96, 200);
    element(&mut case.host, 108, 32, 300);
    let mut want = unchanged(&case, 0, 0, 1, 2);
    want.moved(0, 111 * 64, 200, 64);
    want.moved(0, 256, 264, 32);
    want.moved(0, 288, 300, 32);
    want.ended(1, 0, 0x80, 0x00, 0);
    sheet.expect("A1 from head 0 to head 1", &case, &want);
}

/// Cylinder 1, head 0 is bad, logical 4 to 7 by cylinder, and cylinder 9, head 2 serves it, places 116 to
/// 119.
fn bad_tracks(sheet: &mut Sheet) {
    const PAIR: [u8; 10] = [0x00, 0x01, 0x00, 0x01, 0x00, 0x00, 0x00, 0x09, 0x02, 0x00];
    let spared = |b: &Block| {
        let mut case = ordered(600, b);
        put(&mut case.records[0], 18, &PAIR);
        case
    };
    let case = spared(&logical(0x81, 0, 3, 6, 100));
    let mut want = unchanged(&case, 0, 0, 1, 6);
    want.moved(0, 3 * 64, 100, 64);
    want.moved(0, 116 * 64, 164, 256);
    want.moved(0, 24 * 64, 420, 64);
    want.records[0][15] = 2;
    want.ended(1, 0, 0x80, 0x00, 2);
    sheet.expect("81 by cylinder over a bad track", &case, &want);

    for (n, cylinder) in [(3, 0), (4, 9), (7, 9), (8, 2)] {
        let case = spared(&logical(0x8a, 0, n, 0, 1));
        let mut want = unchanged(&case, 0, 0, 1, 0);
        want.records[0][15] = cylinder;
        want.ended(1, 0, 0x80, 0x00, cylinder as i32);
        sheet.expect("8A by cylinder to a spare", &case, &want);
    }
    let mut case = ordered(600, &block(0x85, 0));
    put(
        &mut case.host,
        4,
        &[0x00, 0x01, 0x00, 0x77, 0x00, 0x09, 0x02],
    );
    let mut want = unchanged(&case, 0, 0, 1, 0);
    put(&mut want.records[0], 18, &PAIR);
    want.ended(1, 0, 0x80, 0x00, 0);
    sheet.expect("85 names tracks whatever the order", &case, &want);
}

/// 8C names a track, and an inspection a place.
fn tracks_and_places(sheet: &mut Sheet) {
    let mut case = ordered(200, &physical(0x8c, (2, 1, 0), 0, 100));
    case.inspections = vec![Inspection {
        unit: 0,
        place: 12,
        image_lens: None,
    }];
    let mut want = unchanged(&case, 0, 0, 1, 4);
    put(&mut want.images[0], 28 * 64, &[0xee; 256]);
    put(&mut want.host, 7, &[3, 0x00, 4]);
    want.records[0][15] = 2;
    want.ended(1, 0, 0x80, 0x00, 2);
    want.parts = vec![Part {
        unit: 0,
        at: 768,
        bytes: 64,
    }];
    sheet.expect("8C and an inspection by cylinder", &case, &want);
}

/// A number that is no order's: the unit counts as not initialized, and its record is handed back as it came.
fn no_orders(sheet: &mut Sheet) {
    for number in [0x02, 0x03, 0x80, 0x81, 0xff] {
        let mut case = with_block(200, &logical(0x81, 0, 0, 1, 100));
        case.records[0][ORDER] = number;
        sheet.refused("an order over 01: 11", &case, 11);
        case.host[0] = 0x86;
        let mut want = unchanged(&case, 0, 0, 1, 0);
        put(
            &mut want.host,
            4,
            &[
                0x32, 0x00, 0x01, 0x03, 0x00, 0x00, 0x06, 0x11, 0x07, 0xc3, 0, 0,
            ],
        );
        want.ended(1, 0, 0x80, 0x00, 0);
        sheet.expect("86 leaves such a record alone", &case, &want);
    }
}

/// The bit 04 of the attributes and no other.
fn initializes(sheet: &mut Sheet) {
    let asked = Block {
        buffer_address: 40,
        ..block(0x87, 0)
    };
    let attributes = [
        (0x00, BY_CYLINDER),
        (0x02, BY_CYLINDER),
        (0x08, BY_CYLINDER),
        (0xfb, BY_CYLINDER),
        (0x04, 0x00),
        (0x05, 0x00),
        (0xff, 0x00),
    ];
    for (byte, order) in attributes {
        for before in [0x00, 0x01, 0x02] {
            let mut case = with_block(100, &asked);
            put(&mut case.host, 40, &SMALL_UIB);
            case.host[54] = byte;
            case.records[0][15] = 6;
            case.records[0][ORDER] = before;
            let mut want = unchanged(&case, 0, 0, 1, 0);
            want.initialized(0);
            want.records[0][ORDER] = order;
            want.ended(1, 0, 0x80, 0x00, 0);
            sheet.expect("87 stores the order of its UIB", &case, &want);
            // No cylinders: 13, and the order is what it was.
            put(&mut case.host, 52, &[0x00, 0x00]);
            sheet.refused("87 that is refused does not", &case, 13);
        }
    }
    // The next block of the chain goes by it: logical 3 and 4 are places 3 and 12.
    let mut case = with_block(
        300,
        &Block {
            linked_block_address: 64,
            ..Block {
                options: LK,
                ..asked
            }
        },
    );
    put(&mut case.host, 40, &SMALL_UIB);
    case.host[54] = 0x00;
    put(&mut case.host, 64, &logical(0x81, 0, 3, 2, 100).bytes());
    let mut want = unchanged(&case, 0, 0, 2, 2);
    want.moved(0, 192, 100, 64);
    want.moved(0, 768, 164, 64);
    want.initialized(0);
    want.records[0][ORDER] = BY_CYLINDER;
    want.records[0][15] = 1;
    want.ended(1, 0, 0x80, 0x00, 0);
    want.ended(2, 64, 0x80, 0x00, 1);
    sheet.expect("87 linked to a read by cylinder", &case, &want);
}

/// What is stored anew keeps the order.
fn records_stored(sheet: &mut Sheet) {
    let mut case = ordered(28, &block(0x89, RV));
    case.records[0][15] = 8;
    let mut want = unchanged(&case, 0, 0, 1, 0);
    put(&mut want.records[0], 14, &[0x00, 0x00, 0x01, 0x01]);
    want.ended(1, 0, 0x80, 0x00, -8);
    sheet.expect("89 with RV on a drive by cylinder", &case, &want);
}
