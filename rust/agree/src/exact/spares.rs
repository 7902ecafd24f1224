//! Bad tracks and their spares on the small drive. The first sector of the track on cylinder c and
//! head h is place 12c + 4h. Unless a case says otherwise cylinder 1, head 0 is bad, places 12 to 15 or
//! logical 8 to 11 of volume 0, and cylinder 9, head 2 serves it, places 116 to 119, bytes 7,424 to 7,679.

use super::*;

/// A cylinder and a head over the whole drive.
type Track = (u16, u8);

const BAD: Track = (1, 0);
const SPARE: Track = (9, 2);
const SPARE_AT: usize = 7424;

/// An 85. What it does not look at is 77.
fn remap(options: u8, bad: Track, spare: Track) -> Block {
    Block {
        cylinder: bad.0,
        head: bad.1,
        sector: 0x77,
        sector_count: spare.0,
        buffer_address: u32::from_be_bytes([spare.1, 0x77, 0x77, 0x77]),
        ..block(0x85, options)
    }
}

/// A track as it stands in a record.
fn track_bytes(track: Track) -> [u8; 4] {
    let [upper, lower] = track.0.to_be_bytes();
    [upper, lower, track.1, 0x00]
}

/// Puts a pair in a record, k from 0, and says that there are k + 1.
fn put_pair(record: &mut RecordBytes, k: usize, bad: Track, spare: Track) {
    put(record, 18, &[0x00, k as u8 + 1]);
    put(record, 20 + 8 * k, &track_bytes(bad));
    put(record, 24 + 8 * k, &track_bytes(spare));
}

/// The small drive with the one pair, and a block at 0.
fn spared(host_len: usize, b: &Block) -> Case {
    let mut case = with_block(host_len, b);
    put_pair(&mut case.records[0], 0, BAD, SPARE);
    case
}

/// The k-th track of a drive with three heads.
fn nth(k: usize) -> Track {
    ((k / 3) as u16, (k % 3) as u8)
}

/// A drive of 22 cylinders, 66 tracks, with so many pairs: tracks 0 and 1, 2 and 3, and so on.
fn long(pairs: usize, b: &Block) -> Case {
    let mut case = with_block(200, b);
    case.records[0][5] = 22;
    case.images[0] = image(264, 64);
    for k in 0..pairs {
        put_pair(&mut case.records[0], k, nth(2 * k), nth(2 * k + 1));
    }
    case
}

fn own(place: u64) -> Inspection {
    Inspection {
        unit: 0,
        place,
        image_lens: None,
    }
}

fn sector(at: u64) -> Part {
    Part {
        unit: 0,
        at,
        bytes: 64,
    }
}

const NOTHING: Part = Part {
    unit: 0,
    at: 0,
    bytes: 0,
};

pub fn all(sheet: &mut Sheet) {
    pairs_added(sheet);
    refusals(sheet);
    full_tables(sheet);
    writes_and_reads(sheet);
    spans(sheet);
    marks_of_spares(sheet);
    tracks_named(sheet);
    lists(sheet);
    volumes(sheet);
    chains(sheet);
    cleared(sheet);
    cleared_along_a_chain(sheet);
    tables_that_are_bad(sheet);
}

/// The pair is stored at the end and its number before it; nothing else of the record, the image or
/// memory but word 1 and the entry.
fn pairs_added(sheet: &mut Sheet) {
    let mut case = with_block(100, &remap(0, BAD, SPARE));
    case.records[0][15] = 5;
    let mut want = unchanged(&case, 0, 0, 1, 0);
    want.ended(1, 0, 0x80, 0x00, 0);
    put(
        &mut want.records[0],
        18,
        &[0x00, 0x01, 0x00, 0x01, 0x00, 0x00, 0x00, 0x09, 0x02, 0x00],
    );
    sheet.expect("85: the first pair in the record's bytes", &case, &want);

    // Without an image, with VO and XL: none of them is asked for.
    let mut case = spared(100, &remap(VO | XL, (9, 1), (0, 2)));
    case.images[0].clear();
    case.records[0][15] = 5;
    let mut want = unchanged(&case, 0, 0, 1, 0);
    want.ended(1, 0, 0x80, 0x00, 0);
    put(&mut want.records[0], 18, &[0x00, 0x02]);
    put(
        &mut want.records[0],
        28,
        &[0x00, 0x09, 0x01, 0x00, 0x00, 0x00, 0x02, 0x00],
    );
    sheet.expect("85: the second pair after the first", &case, &want);

    let case = long(31, &remap(0, (20, 2), (21, 0)));
    let mut want = unchanged(&case, 0, 0, 1, 0);
    want.ended(1, 0, 0x80, 0x00, 0);
    put(&mut want.records[0], 18, &[0x00, 0x20]);
    put(
        &mut want.records[0],
        268,
        &[0x00, 0x14, 0x02, 0x00, 0x00, 0x15, 0x00, 0x00],
    );
    sheet.expect("85: pair 32 ends with the record", &case, &want);
}

fn refusals(sheet: &mut Sheet) {
    let mut case = with_block(100, &remap(0, (10, 0), (10, 0)));
    case.records[0][1] = 0x00;
    sheet.refused("85: 11 before 16", &case, 11);
    let off = [
        ("85: bad cylinder C", (10, 0), SPARE),
        ("85: bad head H", (0, 3), SPARE),
        ("85: spare cylinder C", BAD, (10, 0)),
        ("85: spare head H", BAD, (0, 3)),
        ("85: 16 before 22 for equal tracks", (10, 0), (10, 0)),
        ("85: 16 before 22 for a track in the table", BAD, (9, 3)),
    ];
    for (name, bad, spare) in off {
        sheet.refused(name, &spared(100, &remap(0, bad, spare)), 16);
    }
    let taken = [
        ("85: equal tracks: 22", (5, 1), (5, 1)),
        ("85: a bad track that is bad: 22", BAD, (5, 1)),
        ("85: a bad track that is a spare: 22", SPARE, (5, 1)),
        ("85: a spare that is bad: 22", (5, 1), BAD),
        ("85: a spare that is a spare: 22", (5, 1), SPARE),
        ("85: the same pair again: 22", BAD, SPARE),
    ];
    for (name, bad, spare) in taken {
        sheet.refused(name, &spared(100, &remap(0, bad, spare)), 22);
    }
}

fn full_tables(sheet: &mut Sheet) {
    let asked = |bad, spare| long(32, &remap(0, bad, spare));
    sheet.refused("85 with 32 pairs: 23", &asked((21, 1), (21, 2)), 23);
    sheet.refused("22 before 23", &asked((21, 1), (21, 1)), 22);
    sheet.refused("22 for a track of pair 32", &asked((21, 1), (21, 0)), 22);
    sheet.refused("16 before 23", &asked((21, 1), (22, 0)), 16);
    // The last pair serves as the first does: tracks 62 and 63, cylinder 20 head 2 and 21 head 0.
    let seek = Block {
        cylinder: 20,
        ..block(0x8a, VO)
    };
    let case = long(32, &seek);
    let mut want = unchanged(&case, 0, 0, 1, 0);
    want.records[0][15] = 21;
    want.ended(1, 0, 0x80, 0x00, 21);
    sheet.expect("8A by pair 32", &case, &want);
}

fn writes_and_reads(sheet: &mut Sheet) {
    let mut case = spared(400, &logical(0x82, 0, 8, 4, 100));
    case.records[0][15] = 4;
    // Inspected afterwards: at the bad place the old bytes are lent, at the spare's the new ones.
    case.inspections = vec![own(12), own(116)];
    let mut want = unchanged(&case, 0, 0, 1, 4);
    put(&mut want.images[0], SPARE_AT, &[0xee; 256]);
    want.records[0][15] = 9;
    want.ended(1, 0, 0x80, 0x00, 5);
    want.parts = vec![sector(768), sector(7424)];
    sheet.expect("82 on a bad track goes to its spare", &case, &want);

    let case = spared(400, &logical(0x81, 0, 9, 3, 100));
    let mut want = unchanged(&case, 0, 0, 1, 3);
    want.moved(0, SPARE_AT + 64, 100, 192);
    want.records[0][15] = 9;
    want.ended(1, 0, 0x80, 0x00, 9);
    sheet.expect("81 on a bad track comes from its spare", &case, &want);

    // Volume 1 has the spare as its logical 36 to 39.
    let case = spared(400, &logical(0x81, VO, 37, 3, 100));
    let mut want = unchanged(&case, 0, 0, 1, 3);
    want.moved(0, SPARE_AT + 64, 100, 192);
    want.records[0][15] = 9;
    want.ended(1, 0, 0x80, 0x00, 9);
    sheet.expect("81 that names the spare", &case, &want);
}

fn spans(sheet: &mut Sheet) {
    // Two sectors before the bad track, its four, and two after.
    let case = spared(700, &logical(0x81, 0, 6, 8, 100));
    let mut want = unchanged(&case, 0, 0, 1, 8);
    want.moved(0, 384, 100, 128);
    want.moved(0, SPARE_AT, 228, 256);
    want.moved(0, 16 * 64, 484, 128);
    want.records[0][15] = 1;
    want.ended(1, 0, 0x80, 0x00, 1);
    sheet.expect("81 over a bad track: each sector by itself", &case, &want);

    // The two heads of volume 0 on cylinder 0, one the other's spare: what comes last stands.
    for (bad, spare, name) in [
        ((0, 0), (0, 1), "82 over a bad track and then its spare"),
        ((0, 1), (0, 0), "82 over a spare and then its bad track"),
    ] {
        let mut case = with_block(700, &logical(0x82, 0, 0, 8, 100));
        put_pair(&mut case.records[0], 0, bad, spare);
        put(&mut case.host, 100, &[0x11; 256]);
        put(&mut case.host, 356, &[0x22; 256]);
        let mut want = unchanged(&case, 0, 0, 1, 8);
        let at = 256 * spare.1 as usize;
        put(&mut want.images[0], at, &[0x22; 256]);
        want.ended(1, 0, 0x80, 0x00, 0);
        sheet.expect(name, &case, &want);
        case.host[0] = 0x81;
        let mut want = unchanged(&case, 0, 0, 1, 8);
        want.moved(0, at, 100, 256);
        want.moved(0, at, 356, 256);
        want.ended(1, 0, 0x80, 0x00, 0);
        sheet.expect("81 over both: the spare twice", &case, &want);
    }
}

fn marks_of_spares(sheet: &mut Sheet) {
    let mut case = spared(400, &logical(0x81, 0, 8, 4, 100));
    case.images[0][MARKS + 12..MARKS + 16].fill(1);
    let mut want = unchanged(&case, 0, 0, 1, 4);
    want.moved(0, SPARE_AT, 100, 256);
    want.records[0][15] = 9;
    want.ended(1, 0, 0x80, 0x00, 9);
    sheet.expect("marks of a bad track are not heeded", &case, &want);

    case.images[0][MARKS + 118] = 1;
    let mut want = unchanged(&case, 4, 20, 1, 2);
    want.moved(0, SPARE_AT, 100, 128);
    want.records[0][15] = 9;
    want.ended(1, 0, 0x82, 0x13, 9);
    sheet.expect("a mark of the spare stops a read", &case, &want);
}

/// 8C, 8A and 89.
fn tracks_named(sheet: &mut Sheet) {
    let format = |at: Track| Block {
        cylinder: at.0,
        head: at.1,
        buffer_address: 100,
        ..block(0x8c, 0)
    };
    let mut case = spared(200, &format(BAD));
    case.records[0][15] = 2;
    let mut want = unchanged(&case, 0, 0, 1, 4);
    put(&mut want.images[0], SPARE_AT, &[0xee; 256]);
    want.records[0][15] = 9;
    want.ended(1, 0, 0x80, 0x00, 7);
    put(&mut want.host, 7, &[3, 0x00, 4]);
    sheet.expect("8C on a bad track fills the spare", &case, &want);
    put(&mut case.host, 4, &[0, 9, 2]);
    put(&mut want.host, 4, &[0, 9, 2]);
    sheet.expect("8C that names the spare", &case, &want);

    let seek = |n| logical(0x8a, 0, n, 0, 1);
    for (n, cylinder) in [(7, 0), (8, 9), (11, 9), (12, 1)] {
        let case = spared(28, &seek(n));
        let mut want = unchanged(&case, 0, 0, 1, 0);
        want.records[0][15] = cylinder;
        want.ended(1, 0, 0x80, 0x00, cylinder as i32);
        sheet.expect("8A goes to the spare's cylinder", &case, &want);
    }
    // Cylinder 0, head 0 is bad: 89 goes to cylinder 0 all the same.
    let mut case = with_block(28, &block(0x89, 0));
    put_pair(&mut case.records[0], 0, (0, 0), (7, 0));
    case.records[0][15] = 7;
    let mut want = unchanged(&case, 0, 0, 1, 0);
    want.records[0][15] = 0;
    want.ended(1, 0, 0x80, 0x00, -7);
    sheet.expect("89 names no track", &case, &want);
}

/// An element that ends within a sector of the spare.
fn lists(sheet: &mut Sheet) {
    for command in [0xa1, 0xa2] {
        let mut case = spared(500, &listed(command, 7, 2, 100, 3));
        element(&mut case.host, 100, 62, 200);
        element(&mut case.host, 108, 34, 300);
        element(&mut case.host, 116, 32, 400);
        let mut want = unchanged(&case, 0, 0, 1, 2);
        if command == 0xa1 {
            want.moved(0, 448, 200, 62);
            want.moved(0, 510, 300, 2);
            want.moved(0, SPARE_AT, 302, 32);
            want.moved(0, SPARE_AT + 32, 400, 32);
        } else {
            put(&mut want.images[0], 448, &[0xee; 64]);
            put(&mut want.images[0], SPARE_AT, &[0xee; 64]);
        }
        want.records[0][15] = 9;
        want.ended(1, 0, 0x80, 0x00, 9);
        sheet.expect("A1 and A2 from a good track on to a bad one", &case, &want);
    }
}

/// Heads 0 and 1 are volume 0's, head 3 is volume 1's, head 2 is nobody's. Check 16 goes by the
/// address that is named.
fn volumes(sheet: &mut Sheet) {
    let drive = |b: &Block| {
        let mut case = with_block(200, b);
        case.records[0][12] = 3;
        case.images[0] = image(160, 64);
        put_pair(&mut case.records[0], 0, (0, 0), (5, 2));
        put_pair(&mut case.records[0], 1, (0, 1), (6, 3));
        case
    };
    // Places go by 16 a cylinder and 4 a head.
    for (n, place, cylinder) in [(1, 89, 5), (5, 109, 6)] {
        let case = drive(&logical(0x81, 0, n, 1, 100));
        let mut want = unchanged(&case, 0, 0, 1, 1);
        want.moved(0, place * 64, 100, 64);
        want.records[0][15] = cylinder;
        want.ended(1, 0, 0x80, 0x00, cylinder as i32);
        sheet.expect("spare in no volume, and in the other", &case, &want);
    }
    let named = Block {
        cylinder: 5,
        head: 2,
        sector_count: 1,
        buffer_address: 100,
        ..block(0x81, 0)
    };
    sheet.refused(
        "a spare of no volume cannot be read by name",
        &drive(&named),
        16,
    );
}

/// A block with a link.
fn link(b: Block, to: u32) -> Block {
    Block {
        options: b.options | LK,
        linked_block_address: to,
        ..b
    }
}

/// 85 linked to a seek, to a write and to a read: the pair holds for the block after it.
fn chains(sheet: &mut Sheet) {
    let mut case = with_block(400, &link(logical(0x8a, 0, 8, 0, 0), 32));
    let blocks = [
        (32, link(remap(0, BAD, SPARE), 64)),
        (64, link(logical(0x8a, 0, 8, 0, 0), 96)),
        (96, link(logical(0x82, 0, 8, 1, 200), 128)),
        (128, logical(0x81, VO, 36, 1, 300)),
    ];
    for (at, b) in &blocks {
        put(&mut case.host, *at, &b.bytes());
    }
    put(&mut case.host, 200, &[0x31; 64]);
    case.inspections = vec![own(12), own(116)];
    let mut want = unchanged(&case, 0, 0, 5, 2);
    for (k, at, travel) in [(1, 0, 1), (2, 32, 0), (3, 64, 8), (4, 96, 0), (5, 128, 0)] {
        want.ended(k, at, 0x80, 0x00, travel);
    }
    put(&mut want.images[0], SPARE_AT, &[0x31; 64]);
    put(&mut want.host, 300, &[0x31; 64]);
    want.records[0][15] = 9;
    put_pair(&mut want.records[0], 0, BAD, SPARE);
    want.parts = vec![sector(768), sector(7424)];
    sheet.expect("85 holds from the next block on", &case, &want);
}

fn cleared(sheet: &mut Sheet) {
    let asked = Block {
        buffer_address: 40,
        linked_block_address: 64,
        ..block(0x87, LK)
    };
    let mut case = spared(200, &asked);
    put(&mut case.host, 40, &SMALL_UIB);
    put(&mut case.host, 64, &logical(0x8a, 0, 8, 0, 0).bytes());
    let mut want = unchanged(&case, 0, 0, 2, 0);
    // The number, the bytes of the pair, and the 5A after it.
    want.cleared(0);
    want.records[0][15] = 1;
    want.ended(1, 0, 0x80, 0x00, 0);
    want.ended(2, 64, 0x80, 0x00, 1);
    sheet.expect("87 clears the table", &case, &want);
    case.host[52] = 0xff;
    let mut want = unchanged(&case, 4, 13, 1, 0);
    want.ended(1, 0, 0x82, 0x51, 0);
    sheet.expect("87 that is refused does not", &case, &want);

    // The drive that it was, heads on cylinder 0 and no pairs: what stands in the room is all that is
    // another, in one byte of it too.
    let again = Block {
        buffer_address: 40,
        ..block(0x87, 0)
    };
    let mut case = with_block(100, &again);
    put(&mut case.host, 40, &SMALL_UIB);
    let mut want = unchanged(&case, 0, 0, 1, 0);
    want.cleared(0);
    want.ended(1, 0, 0x80, 0x00, 0);
    sheet.expect("87 of the same drive clears the room", &case, &want);
    for at in [20, 147, 275] {
        case.records[0][20..].fill(0x00);
        case.records[0][at] = 0x01;
        sheet.expect("and a byte of it", &case, &want);
    }

    // A record that says more pairs than have room.
    let mut case = long(32, &again);
    put(&mut case.host, 40, &SMALL_UIB);
    put(&mut case.records[0], 18, &[0xff, 0xff]);
    let mut want = unchanged(&case, 0, 0, 1, 0);
    want.initialized(0);
    want.ended(1, 0, 0x80, 0x00, 0);
    sheet.expect("87 clears a table of 32 pairs that says more", &case, &want);
}

/// 85s before an 87 of the same chain and after it: those before are gone, in the bytes too.
fn cleared_along_a_chain(sheet: &mut Sheet) {
    let initialize = Block {
        buffer_address: 40,
        ..block(0x87, 0)
    };
    let blocks = [
        (64, link(remap(0, (2, 0), (8, 2)), 96)),
        (96, link(initialize, 128)),
        (128, remap(0, (3, 1), (7, 0))),
    ];
    let mut case = with_block(200, &link(remap(0, BAD, SPARE), 64));
    put(&mut case.host, 40, &SMALL_UIB);
    for (at, b) in &blocks {
        put(&mut case.host, *at, &b.bytes());
    }
    for allowance in 1..=4 {
        case.allowance = allowance as u32;
        let answer = if allowance == 4 { 0 } else { 6 };
        let mut want = unchanged(&case, answer, 0, allowance as u32, 0);
        for (k, at) in [0, 64, 96, 128].into_iter().take(allowance).enumerate() {
            want.ended(k + 1, at, 0x80, 0x00, 0);
        }
        let record = &mut want.records[0];
        match allowance {
            1 => put_pair(record, 0, BAD, SPARE),
            2 => {
                put_pair(record, 0, BAD, SPARE);
                put_pair(record, 1, (2, 0), (8, 2));
            }
            3 => want.cleared(0),
            _ => {
                want.cleared(0);
                put_pair(&mut want.records[0], 0, (3, 1), (7, 0));
            }
        }
        sheet.expect("85, 85, 87 and 85 in one chain", &case, &want);
    }
}

/// "A record handed in with over 32 pairs, a track outside the drive, or one track twice in the table,
/// counts as not initialized." Inspection sees nothing of such a unit either.
fn tables_that_are_bad(sheet: &mut Sheet) {
    let two = |k: usize, bytes: &[u8]| {
        let mut case = spared(100, &block(0x89, 0));
        put_pair(&mut case.records[0], 1, (2, 0), (8, 2));
        put(&mut case.records[0], k, bytes);
        case
    };
    let bad = [
        ("a bad cylinder of C", two(20, &[0x00, 0x0a])),
        ("a bad head of H", two(22, &[0x03])),
        ("a spare cylinder of C", two(32, &[0x00, 0x0a])),
        ("a spare head of H", two(34, &[0x03])),
        ("a last byte of a bad track", two(31, &[0x01])),
        ("a last byte of a spare", two(27, &[0x80])),
        ("a bad track twice", two(28, &track_bytes(BAD))),
        ("a spare twice", two(32, &track_bytes(SPARE))),
        ("a spare that is bad", two(32, &track_bytes(BAD))),
        ("a bad track that is a spare", two(28, &track_bytes(SPARE))),
        ("a pair of one track", two(32, &track_bytes((2, 0)))),
        ("order 02", two(16, &[0x02])),
        ("holder 03", two(17, &[0x03])),
        ("version 1", two(0, &[0x01, 0x01, 0x00, 0x10])),
    ];
    for (name, mut case) in bad {
        case.inspections = vec![own(12)];
        let mut want = unchanged(&case, 4, 11, 1, 0);
        want.ended(1, 0, 0x82, 0x40, 0);
        want.parts = vec![NOTHING];
        sheet.expect(name, &case, &want);
    }
    // The same track past the pairs that count is not judged. It stays as it came: nothing but an 87
    // clears it.
    let mut case = two(18, &[0x00, 0x01]);
    put(&mut case.records[0], 28, &track_bytes(BAD));
    case.records[0][15] = 3;
    let mut want = unchanged(&case, 0, 0, 1, 0);
    want.records[0][15] = 0;
    want.ended(1, 0, 0x80, 0x00, -3);
    sheet.expect("pairs that do not count are not judged", &case, &want);

    for pairs in [[0x00, 0x21], [0x01, 0x00], [0xff, 0xff]] {
        let mut case = long(32, &block(0x89, 0));
        put(&mut case.records[0], 18, &pairs);
        sheet.refused("over 32 pairs: 11, and as it came", &case, 11);
    }
}
