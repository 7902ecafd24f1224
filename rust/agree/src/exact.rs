//! Exact cases, worked out by hand: the paper's examples, by their lines, and the edges of numbers
//! and memories. Each is run on both sides. What a case expects is the world it hands in with the
//! changes that it names, so that every other byte has to stay.

mod holders;
mod orders;
mod spares;

use crate::case::{record_bytes, Case, Inspection, RecordBytes, PAIRS_AT, RECORD_LEN, TABLE_AT};
use crate::sides::{model_side, Left, Opponent};
use model::{Block, Controller, Geometry, Holder, Order, Outcome, Part, Record, Table, Volume};

const UN: u8 = 0x80;
const VO: u8 = 0x40;
const LK: u8 = 0x20;
const XL: u8 = 0x10;
const RV: u8 = 0x08;
const DE: u8 = 0x04;
const IE: u8 = 0x02;

/// The error byte of each block answer from 10 on, as docs/ERROR-BYTES.md has them; 21 is no answer.
const ERRORS: [u8; 15] = [
    0x14, 0x40, 0x62, 0x51, 0x21, 0xff, 0x16, 0xff, 0xff, 0x62, 0x13, 0xff, 0xff, 0xff, 0x2e,
];

const SMALL_UIB: [u8; 18] = [
    0x00, 0x02, 0x02, 0x01, 0x04, 0x00, 0x00, 0x40, 0x10, 0x20, 0x01, 0x03, 0x00, 0x0a, 0x04, 0x00,
    0x01, 0xff,
];

const TABLE_11: [u8; 18] = [
    0x00, 0x0a, 0x00, 0x00, 0x40, 0x00, 0x02, 0x00, 0x10, 0x20, 0x01, 0x03, 0x02, 0x84, 0x05, 0x00,
    0x01, 0xff,
];

/// Where the marks of the small drive begin.
const MARKS: usize = 7680;

/// The record of the small drive with its heads on cylinder 0, and no pairs.
const SMALL_RECORD: RecordBytes = opening([
    0x02, 0x01, 0x01, 0x14, 0x00, 0x0a, 0x00, 0x04, 0x00, 0x40, 0x00, 0x02, 0x02, 0x01, 0x00, 0x00,
    0x00, 0x00, 0x00, 0x00,
]);

/// A record that opens with these bytes; what has room for pairs is 5A, so that it is seen where an 87
/// clears it and where it comes back as it came.
const fn opening(open: [u8; 20]) -> RecordBytes {
    let mut bytes = [0x5a; RECORD_LEN];
    let mut k = 0;
    while k < 20 {
        bytes[k] = open[k];
        k += 1;
    }
    bytes
}

fn block(command: u8, options: u8) -> Block {
    let bytes = [0; 28];
    Block {
        command,
        options,
        ..Block::read(&bytes, 0).expect("28 bytes at 0")
    }
}

fn logical(command: u8, options: u8, n: u32, count: u16, buffer: u32) -> Block {
    let [c0, c1, head, sector] = n.to_be_bytes();
    Block {
        cylinder: u16::from_be_bytes([c0, c1]),
        head,
        sector,
        sector_count: count,
        buffer_address: buffer,
        ..block(command, options | XL)
    }
}

fn listed(command: u8, n: u32, count: u16, list: u32, elements: u8) -> Block {
    Block {
        element_count: elements,
        ..logical(command, 0, n, count, list)
    }
}

fn put(memory: &mut [u8], at: usize, bytes: &[u8]) {
    memory[at..at + bytes.len()].copy_from_slice(bytes);
}

fn element(host: &mut [u8], at: usize, bytes: u16, address: u32) {
    put(host, at, &bytes.to_be_bytes());
    put(host, at + 2, &address.to_be_bytes());
}

/// An image in which neighbouring bytes and sectors differ, all marks good.
fn image(sectors: usize, b: usize) -> Vec<u8> {
    let mut image: Vec<u8> = (0..sectors * b)
        .map(|k| (k * 7 + k / b * 13) as u8)
        .collect();
    image.resize(sectors * (b + 1), 0);
    image
}

/// The small drive as unit 0 with its heads on cylinder 0; unit 1 is not initialized. The first controller
/// runs.
fn small(host_len: usize) -> Case {
    Case {
        controller: Controller::First,
        host: vec![0xee; host_len],
        images: [image(120, 64), Vec::new()],
        events: vec![0xdd; 520],
        records: [SMALL_RECORD, [0; RECORD_LEN]],
        first: 0,
        allowance: 64,
        inspections: Vec::new(),
    }
}

fn with_block(host_len: usize, b: &Block) -> Case {
    let mut case = small(host_len);
    put(&mut case.host, 0, &b.bytes());
    case
}

/// What a case leaves if nothing is changed in it.
fn unchanged(case: &Case, answer: u8, failed: u8, blocks: u32, sectors: u32) -> Left {
    Left {
        outcome: Outcome {
            answer,
            failed,
            blocks,
            sectors,
        },
        host: case.host.clone(),
        images: case.images.clone(),
        events: case.events.clone(),
        records: case.records,
        parts: Vec::new(),
        told: Vec::new(),
        outside: None,
    }
}

impl Left {
    /// The status word and the entry of the k-th block, k from 1, without interrupt.
    fn ended(&mut self, k: usize, at: usize, status: u8, error: u8, travel: i32) {
        put(&mut self.host, at + 2, &[status, error]);
        put(&mut self.events, 8 * (k - 1), &[status, error, 0, 0]);
        put(&mut self.events, 8 * (k - 1) + 4, &travel.to_be_bytes());
    }

    /// What an 87 with the small drive's UIB stores.
    fn initialized(&mut self, unit: usize) {
        put(&mut self.records[unit], 0, &SMALL_RECORD[..TABLE_AT]);
        self.cleared(unit);
    }

    /// What any 87 that succeeds makes of the table: no pair counts, and all of its room is 00.
    fn cleared(&mut self, unit: usize) {
        self.records[unit][PAIRS_AT..].fill(0x00);
    }

    /// Bytes of an image that stand in host memory afterwards.
    fn moved(&mut self, unit: usize, from: usize, to: usize, len: usize) {
        let bytes = self.images[unit][from..from + len].to_vec();
        put(&mut self.host, to, &bytes);
    }
}

/// The cases run so far, and what was wrong.
pub struct Sheet {
    pub opponent: Opponent,
    pub cases: u32,
    pub wrong: Vec<String>,
}

impl Sheet {
    fn expect(&mut self, name: &str, case: &Case, want: &Left) {
        self.cases += 1;
        let (model, _) = model_side(case);
        let library = self.opponent.run(case);
        for (side, got) in [("library", library), ("model", model)] {
            if let Some(what) = differs(&got, want) {
                self.wrong.push(format!("{}: {}: {}", name, side, what));
            }
        }
    }

    /// One block at address 0 that is refused before transfer.
    fn refused(&mut self, name: &str, case: &Case, answer: u8) {
        let mut want = unchanged(case, 4, answer, 1, 0);
        want.ended(1, 0, 0x82, ERRORS[answer as usize - 10], 0);
        self.expect(name, case, &want);
    }

    /// A run that is refused.
    fn not_run(&mut self, name: &str, case: &Case, answer: u8) {
        self.expect(name, case, &unchanged(case, answer, 0, 0, 0));
    }
}

fn differs(got: &Left, want: &Left) -> Option<String> {
    if got.outcome != want.outcome {
        return Some(format!("{:?} and not {:?}", got.outcome, want.outcome));
    }
    if got.records != want.records {
        return Some(format!(
            "records {:02x?} and not {:02x?}",
            got.records, want.records
        ));
    }
    if got.parts != want.parts {
        return Some(format!("parts {:?} and not {:?}", got.parts, want.parts));
    }
    let buffers = [
        ("host memory", &got.host, &want.host),
        ("image 0", &got.images[0], &want.images[0]),
        ("image 1", &got.images[1], &want.images[1]),
        ("events", &got.events, &want.events),
    ];
    for (name, got, want) in buffers {
        let first = got
            .iter()
            .zip(want.iter())
            .position(|(one, other)| one != other);
        if let Some(at) = first {
            return Some(format!(
                "{} byte {:#x} is {:02x} and not {:02x}",
                name, at, got[at], want[at]
            ));
        }
    }
    got.outside
        .map(|buffer| format!("bytes next to {} changed", buffer))
}

/// All of them.
pub fn run(opponent: Opponent) -> Sheet {
    let mut sheet = Sheet {
        opponent,
        cases: 0,
        wrong: Vec::new(),
    };
    places(&mut sheet);
    edges_of_a_volume(&mut sheet);
    images_and_lists(&mut sheet);
    two_sector_read(&mut sheet);
    own_word_1(&mut sheet);
    links(&mut sheet);
    handshake(&mut sheet);
    session(&mut sheet);
    initialize(&mut sheet);
    marks(&mut sheet);
    format(&mut sheet);
    six_elements(&mut sheet);
    order_of_answers(&mut sheet);
    sums_past_32_bits(&mut sheet);
    records(&mut sheet);
    inspections(&mut sheet);
    spares::all(&mut sheet);
    holders::all(&mut sheet);
    orders::all(&mut sheet);
    sheet
}

fn places(sheet: &mut Sheet) {
    let places = [
        ("volume 0 logical 0 is place 0", 0, 0, 0, 0),
        ("7 is 7", 0, 7, 7, 0),
        ("8 is 12", 0, 8, 12, 1),
        ("79 is 115", 0, 79, 115, 9),
        ("volume 1 logical 0 is place 8, byte 512", VO, 0, 8, 0),
    ];
    for (name, volume, n, place, cylinder) in places {
        let case = with_block(200, &logical(0x81, volume, n, 1, 100));
        let mut want = unchanged(&case, 0, 0, 1, 1);
        want.moved(0, place * 64, 100, 64);
        want.records[0][15] = cylinder;
        want.ended(1, 0, 0x80, 0x00, cylinder as i32);
        sheet.expect(name, &case, &want);
    }
}

fn edges_of_a_volume(sheet: &mut Sheet) {
    let read = |n, count| with_block(100 + 81 * 64, &logical(0x81, 0, n, count, 100));
    sheet.refused("volume 0 logical 80: answer 16", &read(80, 1), 16);
    let case = read(0, 80);
    let mut want = unchanged(&case, 0, 0, 1, 80);
    for n in 0..80 {
        // eight sectors of each twelve are volume 0's
        want.moved(0, (n / 8 * 12 + n % 8) * 64, 100 + n * 64, 64);
    }
    want.records[0][15] = 9;
    want.ended(1, 0, 0x80, 0x00, 9);
    sheet.expect("count 80 from 0 passes", &case, &want);
    sheet.refused("81 is 16", &read(0, 81), 16);
    sheet.refused("count 2 from 79 is 16", &read(79, 2), 16);
}

fn images_and_lists(sheet: &mut Sheet) {
    let mut case = with_block(200, &logical(0x82, 0, 0, 1, 100));
    let mut want = unchanged(&case, 0, 0, 1, 1);
    put(&mut want.images[0], 0, &[0xee; 64]);
    want.ended(1, 0, 0x80, 0x00, 0);
    sheet.expect("image of 7,800 bytes passes", &case, &want);
    case.images[0].truncate(7799);
    sheet.refused("image of 7,799 bytes: 17", &case, 17);

    let mut case = with_block(1000, &listed(0xa1, 0, 2, 100, 64));
    for k in 0..64 {
        element(&mut case.host, 100 + 8 * k, 2, 700 + 2 * k as u32);
    }
    let mut want = unchanged(&case, 0, 0, 1, 2);
    want.moved(0, 0, 700, 128);
    want.ended(1, 0, 0x80, 0x00, 0);
    sheet.expect("list of 64 elements passes", &case, &want);

    // The bytes of these 65 sum to count × B as well.
    let mut case = with_block(1200, &listed(0xa1, 0, 3, 100, 65));
    element(&mut case.host, 100, 64, 700);
    for k in 1..65 {
        element(&mut case.host, 100 + 8 * k, 2, 762 + 2 * k as u32);
    }
    sheet.refused("65 is 18", &case, 18);
}

fn two_sector_read(sheet: &mut Sheet) {
    let mut case = with_block(300, &logical(0x81, 0, 7, 2, 100));
    let whole = |case: &Case| {
        let mut want = unchanged(case, 0, 0, 1, 2);
        want.moved(0, 448, 100, 64);
        want.moved(0, 768, 164, 64);
        want.records[0][15] = 1;
        want.ended(1, 0, 0x80, 0x00, 1);
        want
    };
    sheet.expect("read of 2 from logical 7", &case, &whole(&case));

    // One sector, and the heads are on the cylinder of the one that stopped it.
    case.images[0][MARKS + 12] = 1;
    let mut want = unchanged(&case, 4, 20, 1, 1);
    want.moved(0, 448, 100, 64);
    want.records[0][15] = 1;
    want.ended(1, 0, 0x82, 0x13, 1);
    sheet.expect("read of 2 where place 12 is unreadable", &case, &want);

    case.host[1] |= DE;
    sheet.expect(
        "read of 2 where place 12 is unreadable, with DE",
        &case,
        &whole(&case),
    );
}

fn own_word_1(sheet: &mut Sheet) {
    let mut case = with_block(100, &logical(0x82, 0, 5, 1, 0));
    put(&mut case.host, 2, &[0x12, 0x34]);
    let mut want = unchanged(&case, 0, 0, 1, 1);
    put(&mut want.images[0], 320, &case.host[..64]);
    put(&mut want.images[0], 322, &[0x81, 0x00]);
    want.ended(1, 0, 0x80, 0x00, 0);
    sheet.expect("82 whose buffer covers its own word 1", &case, &want);
}

fn links(sheet: &mut Sheet) {
    // A restore from cylinder 5: the first of the three has that way to go.
    let mut case = with_block(28, &block(0x89, LK));
    case.records[0][15] = 5;
    case.allowance = 3;
    let mut want = unchanged(&case, 6, 0, 3, 0);
    want.records[0] = SMALL_RECORD;
    for (k, travel) in [(1, -5), (2, 0), (3, 0)] {
        want.ended(k, 0, 0x80, 0x00, travel);
    }
    sheet.expect("block linked to itself, allowance 3", &case, &want);

    let mut case = with_block(
        56,
        &Block {
            linked_block_address: 28,
            ..block(0x83, LK)
        },
    );
    put(&mut case.host, 28, &block(0x89, 0).bytes());
    sheet.refused("a failed block's link isn't followed", &case, 10);
}

fn handshake(sheet: &mut Sheet) {
    let mut case = with_block(28, &block(0x86, 0));
    let mut want = unchanged(&case, 0, 0, 1, 0);
    want.ended(1, 0, 0x80, 0x00, 0);
    let identity = [
        0x32, 0x00, 0x01, 0x03, 0x00, 0x00, 0x06, 0x11, 0x07, 0xc3, 0x00, 0x00,
    ];
    put(&mut want.host, 4, &identity);
    sheet.expect(
        "host memory of 28 bytes holding one handshake passes",
        &case,
        &want,
    );
    case.host.truncate(27);
    sheet.not_run("27 bytes gives 3", &case, 3);
}

/// Initialize at 0 linked to the two-sector read at 28, the UIB at 56.
fn session(sheet: &mut Sheet) {
    let mut case = with_block(
        300,
        &Block {
            buffer_address: 56,
            linked_block_address: 28,
            interrupt_level: 9,
            ..block(0x87, LK)
        },
    );
    let read = Block {
        interrupt_level: 3,
        normal_vector: 0x40,
        error_vector: 0x41,
        ..logical(0x81, IE, 7, 2, 100)
    };
    put(&mut case.host, 28, &read.bytes());
    put(&mut case.host, 56, &SMALL_UIB);
    case.records[0] = [0; RECORD_LEN];
    let mut want = unchanged(&case, 0, 0, 2, 2);
    want.moved(0, 448, 100, 64);
    want.moved(0, 768, 164, 64);
    want.initialized(0);
    want.records[0][15] = 1;
    want.ended(1, 0, 0x80, 0x00, 0);
    want.ended(2, 28, 0x80, 0x00, 1);
    put(&mut want.events, 10, &[0x03, 0x40]);
    sheet.expect("the session's initialize linked to its read", &case, &want);

    // The same with place 12 unreadable: one sector, the error vector, and the heads there.
    case.images[0][MARKS + 12] = 0x40;
    let mut want = unchanged(&case, 4, 20, 2, 1);
    want.moved(0, 448, 100, 64);
    want.initialized(0);
    want.records[0][15] = 1;
    want.ended(1, 0, 0x80, 0x00, 0);
    want.ended(2, 28, 0x82, 0x13, 1);
    put(&mut want.events, 10, &[0x03, 0x41]);
    sheet.expect("the same where place 12 is unreadable", &case, &want);
}

fn initialize(sheet: &mut Sheet) {
    let asked = Block {
        buffer_address: 40,
        ..block(0x87, UN)
    };
    let mut case = with_block(58, &asked);
    put(&mut case.host, 40, &TABLE_11);
    let mut want = unchanged(&case, 0, 0, 1, 0);
    let open = [
        0x02, 0x01, 0x01, 0x14, 0x02, 0x84, 0x00, 0x40, 0x02, 0x00, 0x00, 0x0a, 0x00, 0x00, 0x00,
        0x00, 0x00, 0x00, 0x00, 0x00,
    ];
    put(&mut want.records[1], 0, &open);
    want.ended(1, 0, 0x80, 0x00, 0);
    sheet.expect("Table 11", &case, &want);
    case.host.truncate(57);
    sheet.refused("UIB not wholly in host memory: 12", &case, 12);

    let limits: [(&str, usize, &[u8], bool); 12] = [
        ("C 0", 12, &[0x00, 0x00], false),
        ("C 4,096", 12, &[0x10, 0x00], true),
        ("C 4,097", 12, &[0x10, 0x01], false),
        ("S 0", 4, &[0x00], false),
        ("S 255", 4, &[0xff], true),
        ("B 62", 6, &[0x00, 0x3e], false),
        ("B 65", 6, &[0x00, 0x41], false),
        ("B 4,096", 6, &[0x10, 0x00], true),
        ("B 4,098", 6, &[0x10, 0x02], false),
        ("start head plus heads 64", 2, &[0x3f, 0x01], true),
        ("start head plus heads 65", 2, &[0x3f, 0x02], false),
        ("two volumes that share a head", 2, &[0x01, 0x01], false),
    ];
    for (name, at, bytes, passes) in limits {
        let mut case = with_block(60, &asked);
        put(&mut case.host, 40, &SMALL_UIB);
        put(&mut case.host, 40 + at, bytes);
        if !passes {
            sheet.refused(name, &case, 13);
            continue;
        }
        let uib: [u8; 18] = case.host[40..58].try_into().expect("18 bytes");
        let mut want = unchanged(&case, 0, 0, 1, 0);
        let record = record_bytes(&Record {
            initialized: true,
            geometry: Geometry::from_uib(&uib),
            cylinder: 0,
            table: Table::NONE,
            holder: Holder::Nobody,
        });
        want.records[1] = record;
        want.ended(1, 0, 0x80, 0x00, 0);
        sheet.expect(name, &case, &want);
    }
}

fn marks(sheet: &mut Sheet) {
    for (mark, options) in [(1, 0), (0x80, 0), (0xff, 0), (1, DE)] {
        let mut case = with_block(300, &logical(0x81, options, 0, 3, 100));
        case.images[0][MARKS + 1] = mark;
        let stops = options & DE == 0;
        let sectors = if stops { 1 } else { 3 };
        let mut want = if stops {
            unchanged(&case, 4, 20, 1, 1)
        } else {
            unchanged(&case, 0, 0, 1, 3)
        };
        want.moved(0, 0, 100, 64 * sectors);
        if stops {
            want.ended(1, 0, 0x82, 0x13, 0);
        } else {
            want.ended(1, 0, 0x80, 0x00, 0);
        }
        sheet.expect(
            "at a non-zero mark they stop, or, with DE, move it",
            &case,
            &want,
        );
    }
}

fn format(sheet: &mut Sheet) {
    // Head 2 is volume 1's; VO, XL, sector and count say otherwise and are ignored.
    let mut case = with_block(
        200,
        &Block {
            cylinder: 3,
            head: 2,
            sector: 200,
            buffer_address: 100,
            ..block(0x8c, XL)
        },
    );
    case.images[0][MARKS + 44] = 7;
    let mut want = unchanged(&case, 0, 0, 1, 4);
    put(&mut want.images[0], 44 * 64, &[0xee; 4 * 64]);
    want.records[0][15] = 3;
    want.ended(1, 0, 0x80, 0x00, 3);
    put(&mut want.host, 7, &[3, 0x00, 4]);
    sheet.expect(
        "8C writes every sector of the named track and counts S",
        &case,
        &want,
    );
    case.host[6] = 3;
    sheet.refused("8C: head H is outside the drive", &case, 16);
    case.host[6] = 2;
    case.host[13] += 1;
    sheet.refused("8C that is refused reports nothing", &case, 19);
    format_over_its_own_block(sheet);
    format_under_the_next_block(sheet);
}

/// The data are taken after 81 00 is stored and before the words that are reported.
fn format_over_its_own_block(sheet: &mut Sheet) {
    let case = with_block(
        64,
        &Block {
            sector: 200,
            sector_count: 0x1234,
            ..block(0x8c, 0)
        },
    );
    let mut want = unchanged(&case, 0, 0, 1, 4);
    let mut data = case.host.clone();
    put(&mut data, 2, &[0x81, 0x00]);
    for sector in 0..4 {
        put(&mut want.images[0], 64 * sector, &data);
    }
    want.ended(1, 0, 0x80, 0x00, 0);
    put(&mut want.host, 7, &[3, 0x00, 4]);
    sheet.expect("8C whose buffer covers its own words 1 to 4", &case, &want);
}

/// The next block begins 10 bytes before the 8C, so that the last sector formatted is its normal vector:
/// it is read as the 8C leaves it.
fn format_under_the_next_block(sheet: &mut Sheet) {
    let mut case = with_block(
        200,
        &Block {
            linked_block_address: 18,
            ..block(0x8c, LK)
        },
    );
    case.host.copy_within(0..28, 28);
    put(&mut case.host, 28 + 7, &[0x55, 0x55, 0x55]);
    put(&mut case.host, 28 + 10, &100u32.to_be_bytes());
    put(&mut case.host, 18, &[0x89, IE]);
    case.first = 28;
    let mut want = unchanged(&case, 0, 0, 2, 4);
    put(&mut want.images[0], 0, &[0xee; 4 * 64]);
    want.ended(1, 28, 0x80, 0x00, 0);
    put(&mut want.host, 28 + 7, &[3, 0x00, 4]);
    want.ended(2, 18, 0x80, 0x00, 0);
    put(&mut want.events, 10, &[0x00, 3]);
    sheet.expect("8C that reports into the next block", &case, &want);
}

/// The list of source document 001: 16 and 512 bytes in turn over three sectors of 528.
fn six_elements(sheet: &mut Sheet) {
    let mut case = with_block(2000, &listed(0xa1, 0, 3, 100, 6));
    case.records[0][8..10].copy_from_slice(&528u16.to_be_bytes());
    case.images[0] = image(120, 528);
    let mut want = unchanged(&case, 0, 0, 1, 3);
    for k in 0..3 {
        element(&mut case.host, 100 + 16 * k, 16, 200 + 16 * k as u32);
        element(&mut case.host, 108 + 16 * k, 512, 300 + 512 * k as u32);
    }
    want.host = case.host.clone();
    for k in 0..3 {
        want.moved(0, 528 * k, 200 + 16 * k, 16);
        want.moved(0, 528 * k + 16, 300 + 512 * k, 512);
    }
    want.ended(1, 0, 0x80, 0x00, 0);
    sheet.expect("six elements over three sectors of 528 bytes", &case, &want);
}

fn order_of_answers(sheet: &mut Sheet) {
    let mut case = with_block(
        28,
        &Block {
            linked_block_address: 1,
            ..block(0x86, LK)
        },
    );
    case.first = 1;
    case.allowance = 0;
    case.events.truncate(511);
    sheet.not_run("event buffer under 512 bytes: 1, before 2", &case, 1);
    case.events.push(0xdd);
    sheet.not_run("allowance 0: 2, before 3", &case, 2);
    case.allowance = 65;
    sheet.not_run("allowance over 64: 2", &case, 2);
    case.allowance = 64;
    sheet.not_run("first block odd: 3", &case, 3);
    case.first = 0;
    for (allowance, answer, name) in [(1, 6, "6 before 5"), (2, 5, "linked address odd: 5")] {
        case.allowance = allowance;
        let mut want = unchanged(&case, answer, 0, 1, 0);
        want.ended(1, 0, 0x80, 0x00, 0);
        let identity = [
            0x32, 0x00, 0x01, 0x03, 0x00, 0x00, 0x06, 0x11, 0x07, 0xc3, 0x00, 0x00,
        ];
        put(&mut want.host, 4, &identity);
        sheet.expect(name, &case, &want);
    }
}

/// "Adding address and length in 32 bits": each sum would come round to a place that is there.
fn sums_past_32_bits(sheet: &mut Sheet) {
    for first in [0xffff_ffe4, 0xffff_fffe] {
        let mut case = small(300);
        case.first = first;
        sheet.not_run("first block that would end past 2^32: 3", &case, 3);
        let mut case = with_block(
            300,
            &Block {
                linked_block_address: first,
                ..block(0x89, LK)
            },
        );
        case.allowance = 2;
        let mut want = unchanged(&case, 5, 0, 1, 0);
        want.ended(1, 0, 0x80, 0x00, 0);
        sheet.expect("linked block that would end past 2^32: 5", &case, &want);
    }
    for address in [0xffff_ffee, 0xffff_fffe] {
        let uib = Block {
            buffer_address: address,
            ..block(0x87, 0)
        };
        sheet.refused(
            "UIB that would end past 2^32: 12",
            &with_block(300, &uib),
            12,
        );
    }
    for address in [0xffff_fff8, 0xffff_fffe] {
        let list = listed(0xa1, 0, 1, address, 1);
        sheet.refused(
            "list that would end past 2^32: 18",
            &with_block(300, &list),
            18,
        );
    }
    for address in [0xffff_ffc0, 0xffff_fffe] {
        for command in [0x81, 0x82, 0x8c] {
            let data = logical(command, 0, 0, 1, address);
            sheet.refused(
                "data that would end past 2^32: 19",
                &with_block(300, &data),
                19,
            );
        }
        let mut case = with_block(300, &listed(0xa2, 0, 1, 100, 1));
        element(&mut case.host, 100, 64, address);
        sheet.refused("element that would end past 2^32: 19", &case, 19);
    }
    for (n, count) in [(0xffff_ffff, 1), (0xffff_ffff, 2), (0xffff_0002, 0xffff)] {
        let read = logical(0x81, 0, n, count, 100);
        sheet.refused(
            "number plus count past 2^32: 16",
            &with_block(300, &read),
            16,
        );
    }
    let mut case = with_block(300, &listed(0xa1, 0, 1, 100, 2));
    element(&mut case.host, 100, 0xfffe, 120);
    element(&mut case.host, 108, 66, 120);
    sheet.refused("byte counts whose sum is right in 16 bits: 18", &case, 18);
}

/// "A record handed in with a geometry outside the limits, or a cylinder of C or more, counts as
/// not initialized; unless an 87 succeeds it is handed back as it came."
fn records(sheet: &mut Sheet) {
    let mut outside = SMALL_RECORD;
    outside[6] = 0x01;
    let mut far = SMALL_RECORD;
    far[15] = 10;
    for record in [[0; RECORD_LEN], [0xff; RECORD_LEN], outside, far] {
        let mut case = with_block(100, &block(0x89, 0));
        case.records[0] = record;
        sheet.refused("a record outside the limits: 11, and as it came", &case, 11);
        put(
            &mut case.host,
            0,
            &Block {
                buffer_address: 40,
                ..block(0x87, 0)
            }
            .bytes(),
        );
        put(&mut case.host, 40, &SMALL_UIB);
        let mut want = unchanged(&case, 0, 0, 1, 0);
        want.initialized(0);
        want.ended(1, 0, 0x80, 0x00, 0);
        sheet.expect("unless an 87 succeeds", &case, &want);
    }
    let mut case = with_block(100, &block(0x89, 0));
    case.records[0][15] = 9;
    let mut want = unchanged(&case, 0, 0, 1, 0);
    want.records[0] = SMALL_RECORD;
    want.ended(1, 0, 0x80, 0x00, -9);
    sheet.expect("89 goes to cylinder 0: travel -9", &case, &want);
}

fn inspections(sheet: &mut Sheet) {
    let nothing = Part {
        unit: 0,
        at: 0,
        bytes: 0,
    };
    let sector = |unit, at| Part {
        unit,
        at,
        bytes: 64,
    };
    let own = |unit, place| Inspection {
        unit,
        place,
        image_lens: None,
    };
    let mut case = with_block(28, &block(0x86, 0));
    case.allowance = 0;
    case.records[1] = SMALL_RECORD;
    case.images[1] = image(120, 64);
    case.inspections = vec![
        own(0, 8),
        own(1, 8),
        own(1, 119),
        own(1, 120),
        own(0, u64::MAX),
        own(2, 8),
        own(u32::MAX, 8),
        Inspection {
            image_lens: Some([7799, 7800]),
            ..own(0, 8)
        },
        Inspection {
            image_lens: Some([7799, 7800]),
            ..own(1, 8)
        },
    ];
    let mut want = unchanged(&case, 2, 0, 0, 0);
    want.parts = vec![
        sector(0, 512),
        sector(1, 512),
        sector(1, 7616),
        nothing,
        nothing,
        nothing,
        nothing,
        nothing,
        sector(1, 512),
    ];
    sheet.expect(
        "inspection: the sector as that part of the right image",
        &case,
        &want,
    );

    case.records[1] = [0; RECORD_LEN];
    case.inspections = vec![own(0, 12), own(1, 12)];
    let mut want = unchanged(&case, 2, 0, 0, 0);
    want.parts = vec![sector(0, 768), nothing];
    sheet.expect("inspection of a unit not initialized", &case, &want);

    // The largest drive there is, as numbers alone.
    let most = Geometry {
        cylinders: 4096,
        sectors_a_track: 255,
        bytes_a_sector: 4096,
        volumes: [
            Volume {
                start_head: 0,
                heads: 64,
            },
            Volume {
                start_head: 9,
                heads: 0,
            },
        ],
        order: Order::ByHead,
    };
    case.records[0] = record_bytes(&Record {
        initialized: true,
        geometry: most,
        cylinder: 4095,
        table: Table::NONE,
        holder: Holder::Nobody,
    });
    let lens = |len| Inspection {
        image_lens: Some([len, 0]),
        ..own(0, 66_846_719)
    };
    case.inspections = vec![lens(273_871_011_840), lens(273_871_011_839)];
    let mut want = unchanged(&case, 2, 0, 0, 0);
    want.parts = vec![
        Part {
            unit: 0,
            at: 273_804_161_024,
            bytes: 4096,
        },
        nothing,
    ];
    sheet.expect(
        "inspection of the last sector of the largest drive",
        &case,
        &want,
    );
}
