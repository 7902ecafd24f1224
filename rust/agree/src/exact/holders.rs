//! Two controllers on the small drive: who is refused by 24 and who is not, and byte 17 of the record
//! afterwards, with every other byte as it was.

use super::*;

const BOTH: [Controller; 2] = Controller::BOTH;

/// The number in byte 17 for a controller.
fn number(controller: Controller) -> u8 {
    controller as u8 + 1
}

fn other(controller: Controller) -> u8 {
    number(controller.other())
}

/// A run by a controller of the block at 0, on the small drive with that number for its holder. A UIB
/// stands at 200, and a list of one element at 240.
fn held(controller: Controller, holder: u8, b: &Block) -> Case {
    let mut case = with_block(400, b);
    case.controller = controller;
    case.records[0][17] = holder;
    put(&mut case.host, 200, &SMALL_UIB);
    element(&mut case.host, 240, 64, 300);
    case
}

fn initialize(options: u8) -> Block {
    Block {
        buffer_address: 200,
        ..block(0x87, options)
    }
}

fn remap(options: u8) -> Block {
    Block {
        cylinder: 1,
        sector_count: 9,
        buffer_address: 0x0200_0000,
        ..block(0x85, options)
    }
}

/// A block of each command that is asked for the holder; each ends 80 where it is let through.
fn each(options: u8) -> [Block; 9] {
    let list = |command| Block {
        options: options | XL,
        ..listed(command, 0, 1, 240, 1)
    };
    let format = Block {
        buffer_address: 100,
        ..block(0x8c, options)
    };
    [
        logical(0x81, options, 0, 1, 100),
        logical(0x82, options, 0, 1, 100),
        remap(options),
        initialize(options),
        block(0x89, options),
        logical(0x8a, options, 0, 0, 0),
        format,
        list(0xa1),
        list(0xa2),
    ]
}

pub fn all(sheet: &mut Sheet) {
    the_other_is_refused(sheet);
    handshakes(sheet);
    not_initialized(sheet);
    checks_after_24(sheet);
    taken_and_given_up(sheet);
    each_command_takes(sheet);
    failed_blocks(sheet);
    numbers_that_are_no_holder(sheet);
    other_layouts(sheet);
    the_other_unit(sheet);
    chains(sheet);
    inspected(sheet);
}

/// 24 for every command but 86, with RV and without; 10 for what is no command.
fn the_other_is_refused(sheet: &mut Sheet) {
    for controller in BOTH {
        for options in [0, RV] {
            for b in each(options) {
                let name = format!("{:02X} on a drive of the other: 24", b.command);
                sheet.refused(&name, &held(controller, other(controller), &b), 24);
            }
            for command in [0x00, 0x83, 0x9f, 0xff] {
                let case = held(controller, other(controller), &block(command, options));
                sheet.refused("no command, on a drive of the other: 10", &case, 10);
            }
        }
    }
    // with IE the entry has the level and the error vector
    let told = Block {
        interrupt_level: 5,
        normal_vector: 0x50,
        error_vector: 0x51,
        ..block(0x89, IE)
    };
    let case = held(Controller::Second, 1, &told);
    let mut want = unchanged(&case, 4, 24, 1, 0);
    want.ended(1, 0, 0x82, 0x2e, 0);
    put(&mut want.events, 2, &[5, 0x51]);
    sheet.expect("24 with IE: the error vector", &case, &want);
}

/// 86 is let through, and leaves whoever holds the drive, or nobody.
fn handshakes(sheet: &mut Sheet) {
    let identity = [
        0x32, 0x00, 0x01, 0x03, 0x00, 0x00, 0x06, 0x11, 0x07, 0xc3, 0x00, 0x00,
    ];
    for controller in BOTH {
        for holder in [0, 1, 2, 3] {
            for options in [0, RV] {
                let case = held(controller, holder, &block(0x86, options));
                let mut want = unchanged(&case, 0, 0, 1, 0);
                want.ended(1, 0, 0x80, 0x00, 0);
                put(&mut want.host, 4, &identity);
                sheet.expect("86 asks no holder and changes none", &case, &want);
            }
        }
    }
}

/// A record that counts as not initialized for another reason has its holder still: 24 before 11, for an
/// 87 too.
fn not_initialized(sheet: &mut Sheet) {
    let spoil: [(&str, usize, &[u8]); 6] = [
        ("flag 00", 1, &[0x00]),
        ("flag FF", 1, &[0xff]),
        ("S 256", 6, &[0x01, 0x00]),
        ("cylinder C", 15, &[10]),
        ("order 02", 16, &[0x02]),
        ("33 pairs", 18, &[0x00, 0x21]),
    ];
    for (name, at, bytes) in spoil {
        for controller in BOTH {
            for b in [block(0x89, RV), initialize(RV), remap(0)] {
                let mut case = held(controller, other(controller), &b);
                put(&mut case.records[0], at, bytes);
                sheet.refused(&format!("24 before 11: {}", name), &case, 24);
            }
            let mut case = held(controller, number(controller), &block(0x89, RV));
            put(&mut case.records[0], at, bytes);
            sheet.refused(&format!("11 for the holder: {}", name), &case, 11);
        }
    }
}

/// What would be refused by a later check is refused by 24; for the holder it is the later one.
fn checks_after_24(sheet: &mut Sheet) {
    let uib = |at| Block {
        buffer_address: at,
        ..block(0x87, RV)
    };
    let later = [
        (12, uib(0xffff_ffff)),
        (13, uib(100)),
        (15, logical(0x81, RV, 0, 0, 100)),
        (16, logical(0x81, RV, 80, 1, 100)),
        (18, listed(0xa1, 0, 1, 240, 65)),
        (19, logical(0x82, RV, 0, 1, 101)),
        (
            22,
            Block {
                sector_count: 1,
                buffer_address: 0,
                ..remap(RV)
            },
        ),
    ];
    for (answer, b) in later {
        let name = format!("24 before {}", answer);
        sheet.refused(&name, &held(Controller::First, 2, &b), 24);
        let name = format!("{} for the holder", answer);
        sheet.refused(&name, &held(Controller::First, 1, &b), answer);
    }
    for (answer, options) in [(14, VO), (17, 0)] {
        for (holder, answer) in [(2, 24), (1, answer)] {
            let mut case = held(
                Controller::First,
                holder,
                &logical(0x82, options, 0, 1, 100),
            );
            case.records[0][13] = 0;
            case.images[0].truncate(100);
            sheet.refused("14 and 17 come after 24", &case, answer);
        }
    }
}

/// A restore from cylinder 0: byte 17 is all that can change.
fn taken_and_given_up(sheet: &mut Sheet) {
    for controller in BOTH {
        let own = number(controller);
        for (name, before, options, after) in [
            ("a free drive with RV: taken", 0, RV, own),
            ("its own drive with RV: kept", own, RV, own),
            ("its own drive without RV: given up", own, 0, 0),
            ("a free drive without RV: left free", 0, 0, 0),
        ] {
            let case = held(controller, before, &block(0x89, options));
            let mut want = unchanged(&case, 0, 0, 1, 0);
            want.ended(1, 0, 0x80, 0x00, 0);
            want.records[0][17] = after;
            sheet.expect(name, &case, &want);
        }
    }
}

/// Every command but 86 takes a free drive with RV, and gives up its own without. What else it does is
/// another matter, so that only the outcome and the two records are looked at.
fn each_command_takes(sheet: &mut Sheet) {
    for controller in BOTH {
        for (before, options, after) in [(0, RV, number(controller)), (number(controller), 0, 0)] {
            for b in each(options) {
                let case = held(controller, before, &b);
                let name = format!("{:02X}, holder {:02X} to {:02X}", b.command, before, after);
                sheet.leaves_holders(&name, &case, [after, 0]);
            }
        }
    }
}

impl Sheet {
    /// A case that ends with answer 0, on both sides, and the holders that it leaves.
    fn leaves_holders(&mut self, name: &str, case: &Case, holders: [u8; 2]) {
        self.cases += 1;
        let (model, _) = model_side(case);
        let library = self.opponent.run(case);
        for (side, got) in [("library", library), ("model", model)] {
            let left = got.records.map(|record| record[17]);
            if (got.outcome.answer, left) != (0, holders) {
                self.wrong.push(format!(
                    "{}: {}: {:?} and holders {:02x?}",
                    name, side, got.outcome, left
                ));
            }
        }
    }
}

/// A block that fails leaves the holder, refused or stopped by a mark.
fn failed_blocks(sheet: &mut Sheet) {
    for controller in BOTH {
        for holder in [0, number(controller)] {
            for options in [0, RV] {
                let outside = logical(0x81, options, 80, 1, 100);
                let case = held(controller, holder, &outside);
                sheet.refused("16 leaves the holder", &case, 16);
                let case = held(controller, holder, &block(0x83, options));
                sheet.refused("10 leaves the holder", &case, 10);
                let mut uib = held(controller, holder, &initialize(options));
                uib.host[200 + 13] = 0;
                sheet.refused("13 leaves the holder", &uib, 13);

                // Logical 7 is moved and logical 8, on cylinder 1, is marked.
                let mut case = held(controller, holder, &logical(0x81, options, 7, 2, 100));
                case.images[0][MARKS + 12] = 1;
                let mut want = unchanged(&case, 4, 20, 1, 1);
                want.moved(0, 448, 100, 64);
                want.records[0][15] = 1;
                want.ended(1, 0, 0x82, 0x13, 1);
                sheet.expect("20 leaves the holder, and moves the heads", &case, &want);
            }
        }
    }
}

/// Over 02 it is nobody's: 11 for either controller, and an 87 of either mends it.
fn numbers_that_are_no_holder(sheet: &mut Sheet) {
    for controller in BOTH {
        for holder in [0x03, 0x04, 0x10, 0x80, 0x81, 0x82, 0xff] {
            let case = held(controller, holder, &block(0x89, RV));
            sheet.refused("a holder over 02: 11, and as it came", &case, 11);
            for (options, after) in [(0, 0), (RV, number(controller))] {
                let mut case = held(controller, holder, &initialize(options));
                case.records[0][15] = 4;
                let mut want = unchanged(&case, 0, 0, 1, 0);
                want.initialized(0);
                want.records[0][17] = after;
                want.ended(1, 0, 0x80, 0x00, 0);
                sheet.expect("a holder over 02: an 87 mends it", &case, &want);
            }
        }
    }
}

/// Another version or another length: byte 17 is no holder, whatever stands there.
fn other_layouts(sheet: &mut Sheet) {
    let openings: [[u8; 4]; 7] = [
        [0x01, 0x01, 0x01, 0x14],
        [0x03, 0x01, 0x01, 0x14],
        [0x82, 0x01, 0x01, 0x14],
        [0x02, 0x01, 0x00, 0x14],
        [0x02, 0x01, 0x01, 0x13],
        [0x02, 0x01, 0x01, 0x15],
        [0x01, 0x01, 0x00, 0x10],
    ];
    for opening in openings {
        for controller in BOTH {
            for holder in [1, 2] {
                let mut case = held(controller, holder, &block(0x89, RV));
                put(&mut case.records[0], 0, &opening);
                sheet.refused("another layout: 11 and no holder", &case, 11);
                for (options, after) in [(0, 0), (RV, number(controller))] {
                    put(&mut case.host, 0, &initialize(options).bytes());
                    let mut want = unchanged(&case, 0, 0, 1, 0);
                    want.initialized(0);
                    want.records[0][17] = after;
                    want.ended(1, 0, 0x80, 0x00, 0);
                    sheet.expect("another layout: an 87 of either mends it", &case, &want);
                }
            }
        }
    }
    for bytes in [[0x00; RECORD_LEN], [0xff; RECORD_LEN]] {
        let mut case = held(Controller::Second, 0, &block(0x89, 0));
        case.records[0] = bytes;
        sheet.refused("zeros and erased flash: 11", &case, 11);
    }
}

/// A block has a say in the holder of its own unit alone.
fn the_other_unit(sheet: &mut Sheet) {
    for (unit, un) in [(0, 0), (1, UN)] {
        for holder in [0, 1, 2] {
            let mut case = held(Controller::First, 0, &block(0x89, un | RV));
            case.records = [SMALL_RECORD; 2];
            case.records[1 - unit][17] = holder;
            let mut want = unchanged(&case, 0, 0, 1, 0);
            want.ended(1, 0, 0x80, 0x00, 0);
            want.records[unit][17] = 1;
            sheet.expect("the other unit keeps its holder", &case, &want);
        }
        let mut case = held(Controller::First, 0, &block(0x89, un));
        case.records = [SMALL_RECORD; 2];
        case.records[unit][17] = 2;
        sheet.refused("24 on one unit", &case, 24);
        case.records[unit][17] = 0;
        case.records[1 - unit][17] = 2;
        let mut want = unchanged(&case, 0, 0, 1, 0);
        want.ended(1, 0, 0x80, 0x00, 0);
        sheet.expect("and not on the other", &case, &want);
    }
}

/// A chain takes a drive, shakes hands, and gives it up, and comes then to a drive of the other's.
fn chains(sheet: &mut Sheet) {
    let link = |b: Block, to: u32| Block {
        options: b.options | LK,
        linked_block_address: to,
        ..b
    };
    let mut case = held(Controller::Second, 0, &link(block(0x89, RV), 32));
    put(&mut case.host, 32, &link(remap(RV), 64).bytes());
    put(&mut case.host, 64, &link(block(0x89, 0), 96).bytes());
    put(&mut case.host, 96, &block(0x89, UN).bytes());
    case.records[1] = SMALL_RECORD;
    case.records[1][17] = 1;
    for (allowance, holder) in [(1, 2), (2, 2), (3, 0)] {
        case.allowance = allowance;
        let mut want = unchanged(&case, 6, 0, allowance, 0);
        for k in 1..=allowance as usize {
            want.ended(k, 32 * (k - 1), 0x80, 0x00, 0);
        }
        want.records[0][17] = holder;
        if allowance > 1 {
            let pair = [0x00, 0x01, 0x00, 0x01, 0x00, 0x00, 0x00, 0x09, 0x02, 0x00];
            put(&mut want.records[0], 18, &pair);
        }
        sheet.expect("along a chain", &case, &want);
    }
    case.allowance = 64;
    let mut want = unchanged(&case, 4, 24, 4, 0);
    for k in 1..=3 {
        want.ended(k, 32 * (k - 1), 0x80, 0x00, 0);
    }
    want.ended(4, 96, 0x82, 0x2e, 0);
    put(
        &mut want.records[0],
        18,
        &[0x00, 0x01, 0x00, 0x01, 0x00, 0x00, 0x00, 0x09, 0x02, 0x00],
    );
    sheet.expect("a chain that comes to a held drive: 24", &case, &want);
}

/// An inspection finds its sector whoever holds the drive; none where byte 17 is no holder.
fn inspected(sheet: &mut Sheet) {
    for (holder, bytes) in [(0, 64), (1, 64), (2, 64), (3, 0)] {
        let mut case = held(Controller::Second, holder, &block(0x86, 0));
        case.allowance = 0;
        case.inspections = vec![Inspection {
            unit: 0,
            place: 12,
            image_lens: None,
        }];
        let mut want = unchanged(&case, 2, 0, 0, 0);
        want.parts = vec![Part {
            unit: 0,
            at: 12 * bytes,
            bytes,
        }];
        sheet.expect("inspection asks no holder", &case, &want);
    }
}
