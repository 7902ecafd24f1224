//! What a set of worlds has walked into, counted from the model's traces.

use crate::case::{counting_end, record_in, Case, RecordBytes, HOLDER_AT, ORDER_AT};
use crate::sides::Left;
use crate::standing::KINDS;
use crate::steps;
use crate::worlds::{TableWay, Theme, Way};
use model::{Holder, Order, Outcome, Pair, Record, Table, Taken, Trace, Track, Visit};
use model::{CHECKS, COMMANDS, STOPS};
use std::collections::BTreeMap;

/// How often each thing has to have occurred.
pub const LEAST: u64 = 100;

/// What a block can walk into, and whether it did.
type Trap = (&'static str, fn(&Visit) -> bool);

/// The lists were read, the blocks ran: an accepted block ends 80, or where it is stopped.
fn accepted(visit: &Visit) -> bool {
    visit.answer == 0 || STOPS.contains(&visit.answer)
}

const TRAPS: [Trap; 15] = [
    ("list under its own status word, accepted", |v| {
        v.list_under_own_status && accepted(v)
    }),
    ("UIB under its own status word", |v| v.uib_under_own_status),
    ("stopped inside an element", |v| v.stopped_inside_element),
    ("crossed a cylinder", |v| v.crossed_cylinder),
    ("on volume 1", |v| v.on_volume_1),
    ("later block overwritten with other bytes", |v| {
        v.overwritten_with_other_bytes
    }),
    ("such a block, ended 80", |v| {
        v.overwritten_with_other_bytes && v.answer == 0
    }),
    ("such a block, moved sectors", |v| {
        v.overwritten_with_other_bytes && v.sectors > 0
    }),
    ("8C on a head of no volume", |v| v.on_no_volume),
    ("unreadable sector moved, DE", |v| v.moved_unreadable),
    ("data took the block's own word 1", |v| v.took_own_status),
    ("data stored over the block's own word 1", |v| {
        v.stored_over_own_status
    }),
    ("data stored over the block's own list", |v| {
        v.stored_over_own_list
    }),
    ("elements that overlap", |v| v.elements_overlap),
    ("read stopped with sectors moved", |v| {
        v.answer == 20 && v.sectors > 0
    }),
];

/// What a block can walk into where there are tables.
const TABLE_TRAPS: [Trap; 33] = [
    ("81 on a spare", |v| v.command == 0x81 && v.landing.on_spare),
    ("82 on a spare", |v| v.command == 0x82 && v.landing.on_spare),
    ("8A on a spare", |v| v.command == 0x8a && v.landing.on_spare),
    ("8C on a spare", |v| v.command == 0x8c && v.landing.on_spare),
    ("A1 on a spare", |v| v.command == 0xa1 && v.landing.on_spare),
    ("A2 on a spare", |v| v.command == 0xa2 && v.landing.on_spare),
    ("spare in the other volume", |v| v.landing.in_other_volume),
    ("spare in no volume", |v| v.landing.in_no_volume),
    ("span in part on a spare", |v| v.landing.in_part),
    ("read over a bad track and its spare", |v| {
        matches!(v.command, 0x81 | 0xa1) && v.landing.with_its_spare
    }),
    ("write over a bad track and its spare", |v| {
        matches!(v.command, 0x82 | 0xa2) && v.landing.with_its_spare
    }),
    ("spare named directly", |v| v.landing.spare_named),
    ("8C that names a spare", |v| {
        v.command == 0x8c && v.landing.spare_named
    }),
    ("heads on the spare's cylinder, another", |v| {
        v.landing.heads_elsewhere
    }),
    ("mark of a bad track passed", |v| v.landing.bad_mark_passed),
    ("read stopped on a spare", |v| v.landing.stopped_on_spare),
    ("landed by pair 32", |v| v.landing.by_pair == Some(31)),
    ("block overwritten, then on a spare", |v| {
        v.overwritten_with_other_bytes && v.landing.on_spare
    }),
    ("11 for an 85", |v| v.command == 0x85 && v.answer == 11),
    ("16 for an 85", |v| v.command == 0x85 && v.answer == 16),
    ("16 for an 85, with 32 pairs", |v| {
        v.command == 0x85 && v.answer == 16 && v.landing.pairs == 32
    }),
    ("22 for equal tracks", |v| v.taken == Some(Taken::Equal)),
    ("22 for a bad track that is bad", |v| {
        v.taken == Some(Taken::BadIsBad)
    }),
    ("22 for a bad track that is a spare", |v| {
        v.taken == Some(Taken::BadIsSpare)
    }),
    ("22 for a spare that is bad", |v| {
        v.taken == Some(Taken::SpareIsBad)
    }),
    ("22 for a spare that is a spare", |v| {
        v.taken == Some(Taken::SpareIsSpare)
    }),
    ("22 with 32 pairs", |v| {
        v.answer == 22 && v.landing.pairs == 32
    }),
    ("first pair added", |v| added(v) && v.landing.pairs == 0),
    ("pair 32 added", |v| added(v) && v.landing.pairs == 31),
    ("table cleared by 87", |v| {
        v.command == 0x87 && v.answer == 0 && v.landing.pairs > 0
    }),
    ("bad table cleared by 87", |v| {
        v.command == 0x87 && v.answer == 0 && v.landing.pairs > 32
    }),
    ("87 refused with a table", |v| {
        v.command == 0x87 && v.answer != 0 && v.landing.pairs > 0
    }),
    ("89 with a table", |v| {
        v.command == 0x89 && v.answer == 0 && v.landing.pairs > 0
    }),
];

fn by_cylinder(visit: &Visit) -> bool {
    visit.course.order == Order::ByCylinder
}

fn transfer(visit: &Visit) -> bool {
    matches!(visit.command, 0x81 | 0x82 | 0xa1 | 0xa2)
}

/// What a block can walk into where drives are by cylinder.
const ORDER_TRAPS: [Trap; 26] = [
    ("81 by cylinder, ended 80", |v| ended_on(v, 0x81)),
    ("82 by cylinder, ended 80", |v| ended_on(v, 0x82)),
    ("8A by cylinder, ended 80", |v| ended_on(v, 0x8a)),
    ("such a seek by number", |v| {
        ended_on(v, 0x8a) && !v.course.physical
    }),
    ("8C by cylinder, ended 80", |v| ended_on(v, 0x8c)),
    ("A1 by cylinder, ended 80", |v| ended_on(v, 0xa1)),
    ("A2 by cylinder, ended 80", |v| ended_on(v, 0xa2)),
    ("85 by cylinder, ended 80", |v| ended_on(v, 0x85)),
    ("to the next cylinder at a track's end", |v| {
        by_cylinder(v) && v.course.next_cylinder
    }),
    ("the same from a physical start", |v| {
        by_cylinder(v) && v.course.next_cylinder && v.course.physical
    }),
    ("the same with a list", |v| {
        by_cylinder(v) && v.course.next_cylinder && matches!(v.command, 0xa1 | 0xa2)
    }),
    ("the same on volume 1", |v| {
        by_cylinder(v) && v.course.next_cylinder && v.on_volume_1
    }),
    ("from cylinder C - 1 to the next head's 0", |v| {
        by_cylinder(v) && v.course.next_head
    }),
    ("such a way from a physical start", |v| {
        by_cylinder(v) && v.course.next_head && v.course.physical
    }),
    ("over more than one cylinder in one transfer", |v| {
        by_cylinder(v) && v.course.cylinders > 1
    }),
    ("read stopped after a track's end", |v| {
        by_cylinder(v) && v.course.next_cylinder && v.answer == 20
    }),
    ("bad track on the way by cylinder", |v| {
        by_cylinder(v) && transfer(v) && v.landing.on_spare
    }),
    ("a way by cylinder in part on a spare", |v| {
        by_cylinder(v) && transfer(v) && v.landing.in_part
    }),
    ("seek by cylinder to a spare", |v| {
        ended_on(v, 0x8a) && v.landing.on_spare
    }),
    ("16 for the last sector by cylinder alone", |v| {
        by_cylinder(v) && v.course.outside_alone
    }),
    ("16 for the last sector by head alone", |v| {
        !by_cylinder(v) && v.course.outside_alone
    }),
    ("block overwritten, then by cylinder", |v| {
        v.overwritten_with_other_bytes && by_cylinder(v) && v.sectors > 0
    }),
    ("87 that makes by cylinder of by head", |v| {
        !by_cylinder(v) && v.course.changed
    }),
    ("87 that makes by head of by cylinder", |v| {
        by_cylinder(v) && v.course.changed
    }),
    ("87 refused on a drive by cylinder", |v| {
        by_cylinder(v) && v.command == 0x87 && v.answer != 0
    }),
    ("crossed a cylinder by head", |v| {
        !by_cylinder(v) && v.crossed_cylinder
    }),
];

fn ended_on(visit: &Visit, command: u8) -> bool {
    by_cylinder(visit) && visit.command == command && visit.answer == 0
}

fn added(visit: &Visit) -> bool {
    visit.command == 0x85 && visit.answer == 0
}

/// The answers that worlds without tables do not give; 24 is asked where two controllers run in turn.
const OTHER_ANSWERS: [u8; 3] = [22, 23, 24];

pub struct Coverage {
    theme: Theme,
    worlds: u64,
    blocks: u64,
    answers: [u64; 7],
    /// Block answers by number; those that ended 80 at 0.
    block_answers: BTreeMap<u8, u64>,
    /// Blocks that ended 80, by command.
    ended: [u64; COMMANDS.len()],
    traps: [u64; TRAPS.len()],
    /// A block run more than once.
    loops: u64,
    /// 11 for a record outside in one way alone.
    ways: [u64; Way::ALL.len()],
    /// 11 for a record whose opening does not say that it is initialized.
    opening: u64,
    /// Inspections that found a sector, and that found none.
    found: [u64; 2],
    /// What was told of sectors by a record alone.
    told: [u64; KINDS.len()],
    table_traps: [u64; TABLE_TRAPS.len()],
    order_traps: [u64; ORDER_TRAPS.len()],
    /// 11 for a record that its table alone spoils.
    table_ways: [u64; TableWay::ALL.len()],
    /// A block on a spare that an 85 of the same chain named.
    own_pairs: u64,
    /// Inspections of a bad track's place and of a spare's, found there.
    found_bad: u64,
    found_spare: u64,
    /// Inspections of nothing, for the table alone.
    found_no_table: u64,
    /// Inspections that found a sector of a drive by cylinder.
    found_by_cylinder: u64,
    /// Records that came with bytes after the pairs that count, and were stored anew.
    tails: u64,
    /// Worlds in which an 87 cleared such bytes.
    cleared: u64,
    /// The chains that were made of steps too.
    pub steps: steps::Tally,
}

impl Coverage {
    pub fn new(theme: Theme) -> Coverage {
        Coverage {
            theme,
            worlds: 0,
            blocks: 0,
            answers: [0; 7],
            block_answers: BTreeMap::new(),
            ended: [0; COMMANDS.len()],
            traps: [0; TRAPS.len()],
            loops: 0,
            ways: [0; Way::ALL.len()],
            opening: 0,
            found: [0; 2],
            told: [0; KINDS.len()],
            table_traps: [0; TABLE_TRAPS.len()],
            order_traps: [0; ORDER_TRAPS.len()],
            table_ways: [0; TableWay::ALL.len()],
            own_pairs: 0,
            found_bad: 0,
            found_spare: 0,
            found_no_table: 0,
            found_by_cylinder: 0,
            tails: 0,
            cleared: 0,
            steps: steps::Tally::default(),
        }
    }

    pub fn add(&mut self, case: &Case, outcome: &Outcome, trace: &Trace, left: &Left) {
        let found: Vec<bool> = left.parts.iter().map(|part| part.bytes > 0).collect();
        self.worlds += 1;
        self.blocks += trace.blocks.len() as u64;
        self.answers[outcome.answer as usize] += 1;
        for visit in &trace.blocks {
            self.visit(visit);
        }
        self.loops += runs_a_block_again(trace) as u64;
        self.records(case, trace);
        for found in &found {
            self.found[*found as usize] += 1;
        }
        for (k, (_, kind)) in KINDS.iter().enumerate() {
            self.told[k] += left.told.iter().filter(|told| kind(told)).count() as u64;
        }
        if self.theme.tables() {
            self.tables(case, trace, left, &found);
        }
    }

    /// What had to do with the tables of both units.
    fn tables(&mut self, case: &Case, trace: &Trace, left: &Left, found: &[bool]) {
        self.own_pairs += lands_on_own_pair(trace) as u64;
        for (unit, bytes) in case.records.iter().enumerate() {
            let stored = bytes != &left.records[unit];
            self.tails += (stored && bytes[260..].iter().any(|byte| *byte != 0)) as u64;
        }
        let cleared = |unit| clears(trace, unit, &case.records[unit], &left.records[unit]);
        self.cleared += (cleared(0) || cleared(1)) as u64;
        let records = left.records.map(|bytes| record_in(&bytes));
        for (asked, found) in case.inspections.iter().zip(found) {
            let Some(record) = records.get(asked.unit as usize) else {
                continue;
            };
            let without = Record {
                table: Table::NONE,
                ..*record
            };
            let spoiled = !record.counts_as_initialized() && without.counts_as_initialized();
            self.found_no_table += spoiled as u64;
            let stands = |is: fn(&Pair) -> Track| {
                let mut pairs = record.table.pairs().iter();
                *found && pairs.any(|pair| has_place(record, is(pair), asked.place))
            };
            self.found_bad += stands(|pair| pair.bad) as u64;
            self.found_spare += stands(|pair| pair.spare) as u64;
            let by_cylinder = record.geometry.order == Order::ByCylinder;
            self.found_by_cylinder += (*found && by_cylinder) as u64;
        }
    }

    fn visit(&mut self, visit: &Visit) {
        *self.block_answers.entry(visit.answer).or_default() += 1;
        if visit.answer == 0 {
            for (k, command) in COMMANDS.iter().enumerate() {
                self.ended[k] += (visit.command == *command) as u64;
            }
        }
        for (k, (_, trap)) in TRAPS.iter().enumerate() {
            self.traps[k] += trap(visit) as u64;
        }
        for (k, (_, trap)) in TABLE_TRAPS.iter().enumerate() {
            self.table_traps[k] += trap(visit) as u64;
        }
        for (k, (_, trap)) in ORDER_TRAPS.iter().enumerate() {
            self.order_traps[k] += trap(visit) as u64;
        }
    }

    /// Which records, handed in so, made a block get 11.
    fn records(&mut self, case: &Case, trace: &Trace) {
        for (unit, bytes) in case.records.iter().enumerate() {
            let refused = |v: &Visit| v.answer == 11 && v.unit as usize == unit;
            if !trace.blocks.iter().any(refused) {
                continue;
            }
            let record = record_in(bytes);
            if !record.initialized {
                self.opening += 1;
            }
            for (k, way) in Way::ALL.iter().enumerate() {
                self.ways[k] += outside(&record, *way) as u64;
            }
            if let [alone] = table_ways(bytes)[..] {
                self.table_ways[alone as usize] += 1;
            }
        }
    }

    pub fn join(&mut self, other: &Coverage) {
        self.worlds += other.worlds;
        self.blocks += other.blocks;
        self.loops += other.loops;
        self.opening += other.opening;
        add_all(&mut self.answers, &other.answers);
        for (answer, count) in &other.block_answers {
            *self.block_answers.entry(*answer).or_default() += count;
        }
        add_all(&mut self.ended, &other.ended);
        add_all(&mut self.traps, &other.traps);
        add_all(&mut self.ways, &other.ways);
        add_all(&mut self.found, &other.found);
        add_all(&mut self.told, &other.told);
        add_all(&mut self.table_traps, &other.table_traps);
        add_all(&mut self.order_traps, &other.order_traps);
        add_all(&mut self.table_ways, &other.table_ways);
        self.own_pairs += other.own_pairs;
        self.found_bad += other.found_bad;
        self.found_spare += other.found_spare;
        self.found_no_table += other.found_no_table;
        self.found_by_cylinder += other.found_by_cylinder;
        self.tails += other.tails;
        self.cleared += other.cleared;
        self.steps.join(&other.steps);
    }

    pub fn blocks(&self) -> u64 {
        self.blocks
    }

    /// Each thing that has to occur, with how often it did.
    fn things(&self) -> Vec<(String, u64)> {
        match self.theme {
            Theme::Plain => self.plain_things(),
            Theme::Orders => self.things_of_orders(),
            _ => self.things_of_tables(),
        }
    }

    fn plain_things(&self) -> Vec<(String, u64)> {
        let mut things = Vec::new();
        for (number, count) in self.answers.iter().enumerate() {
            things.push((format!("run answer {}", number), *count));
        }
        let answers = CHECKS.iter().chain(&STOPS);
        for number in answers.filter(|number| !OTHER_ANSWERS.contains(number)) {
            things.push((format!("block answer {}", number), self.answered(number)));
        }
        for (command, count) in COMMANDS.iter().zip(self.ended) {
            if *command != 0x85 {
                things.push((format!("{:02X} ended 80", command), count));
            }
        }
        for ((name, _), count) in TRAPS.iter().zip(self.traps) {
            things.push((name.to_string(), count));
        }
        things.push(("a block run again".to_string(), self.loops));
        for (way, count) in Way::ALL.iter().zip(self.ways) {
            things.push((format!("11 for {} alone", way.says()), count));
        }
        things.push(("11 for the record's opening".to_string(), self.opening));
        things.push(("inspection of a sector".to_string(), self.found[1]));
        things.push(("inspection of nothing".to_string(), self.found[0]));
        for ((name, _), count) in KINDS.iter().zip(self.told) {
            things.push((name.to_string(), count));
        }
        things
    }

    fn things_of_tables(&self) -> Vec<(String, u64)> {
        let mut things = Vec::new();
        for number in [11, 13, 16, 17, 19, 20, 22, 23] {
            things.push((format!("block answer {}", number), self.answered(&number)));
        }
        for (command, count) in COMMANDS.iter().zip(self.ended) {
            things.push((format!("{:02X} ended 80", command), count));
        }
        for ((name, _), count) in TABLE_TRAPS.iter().zip(self.table_traps) {
            things.push((name.to_string(), count));
        }
        let own = "landed by a pair of the same chain";
        things.push((own.to_string(), self.own_pairs));
        for (way, count) in TableWay::ALL.iter().zip(self.table_ways) {
            things.push((format!("11 for {} alone", way.says()), count));
        }
        let tails = "stored anew, with other bytes after the pairs";
        for (name, count) in [
            (tails, self.tails),
            ("bytes after the pairs cleared by 87", self.cleared),
            ("inspection of a bad track's place", self.found_bad),
            ("inspection of a spare's place", self.found_spare),
            ("inspection of nothing, for the table", self.found_no_table),
        ] {
            things.push((name.to_string(), count));
        }
        things
    }

    fn things_of_orders(&self) -> Vec<(String, u64)> {
        let mut things = Vec::new();
        for number in [11, 13, 16, 17, 19, 20] {
            things.push((format!("block answer {}", number), self.answered(&number)));
        }
        for ((name, _), count) in ORDER_TRAPS.iter().zip(self.order_traps) {
            things.push((name.to_string(), count));
        }
        let no_order = format!("11 for {} alone", TableWay::Order.says());
        things.push((no_order, self.table_ways[TableWay::Order as usize]));
        things.push(("inspection by cylinder".to_string(), self.found_by_cylinder));
        things
    }

    /// The counts, two things a line.
    pub fn table(&self) -> String {
        table(&self.things())
    }

    fn answered(&self, number: &u8) -> u64 {
        self.block_answers.get(number).copied().unwrap_or(0)
    }

    /// What occurred too seldom, and what is no answer at all.
    pub fn missing(&self) -> Vec<String> {
        let mut missing = too_seldom(&self.things());
        for number in self.block_answers.keys() {
            if *number != 0 && !CHECKS.contains(number) && !STOPS.contains(number) {
                missing.push(format!("the model gave answer {}", number));
            }
        }
        missing
    }
}

/// Things with their counts, two a line.
pub fn table(things: &[(String, u64)]) -> String {
    let cells: Vec<String> = things
        .iter()
        .map(|(name, count)| format!("{:<44}{:>9}", name, count))
        .collect();
    let half = cells.len().div_ceil(2);
    let (left, right) = cells.split_at(half);
    let mut table = String::new();
    for (k, cell) in left.iter().enumerate() {
        let other = right.get(k).map_or("", |cell| cell.as_str());
        table.push_str(format!("{}    {}", cell, other).trim_end());
        table.push('\n');
    }
    table
}

/// Those of them that did not occur often enough.
pub fn too_seldom(things: &[(String, u64)]) -> Vec<String> {
    let seldom = things.iter().filter(|(_, count)| *count < LEAST);
    seldom
        .map(|(name, count)| format!("{}: {} times, and {} are asked", name, count, LEAST))
        .collect()
}

pub fn add_all(counts: &mut [u64], others: &[u64]) {
    for (count, other) in counts.iter_mut().zip(others) {
        *count += other;
    }
}

fn runs_a_block_again(trace: &Trace) -> bool {
    let mut places: Vec<u32> = trace.blocks.iter().map(|visit| visit.at).collect();
    places.sort_unstable();
    places.windows(2).any(|two| two[0] == two[1])
}

/// Whether a block landed by a pair that an 85 before it in the chain had added.
fn lands_on_own_pair(trace: &Trace) -> bool {
    let blocks = &trace.blocks;
    blocks.iter().enumerate().any(|(k, visit)| {
        // the pair was the last of its table when it was added, and no 87 came between
        let mut earlier = blocks[..k].iter().rev().filter(|v| v.unit == visit.unit);
        let mut since = earlier.by_ref().take_while(|v| v.command != 0x87);
        visit
            .landing
            .by_pair
            .is_some_and(|by| since.any(|v| added(v) && v.landing.pairs as usize == by))
    })
}

/// Whether an 87 of a unit succeeded whose record came with other bytes than 00 after the pairs that
/// count, and left 00 there.
fn clears(trace: &Trace, unit: usize, came: &RecordBytes, left: &RecordBytes) -> bool {
    let mut blocks = trace.blocks.iter();
    let initialized = blocks.any(|v| v.command == 0x87 && v.answer == 0 && v.unit as usize == unit);
    let from = counting_end(record_in(came).table.count());
    let mut bytes = came[from..].iter().zip(&left[from..]);
    initialized && bytes.any(|(came, left)| *came != 0 && *left == 0)
}

/// Whether a place is one of a track's.
fn has_place(record: &Record, track: Track, place: u64) -> bool {
    let s = record.geometry.sectors_a_track as u64;
    let number = track.cylinder as u64 * record.geometry.drive_heads() + track.head as u64;
    s > 0 && place / s == number
}

/// In which ways a record is bad that would be good without a table, with order and holder 0.
fn table_ways(bytes: &RecordBytes) -> Vec<TableWay> {
    let [order, holder] = [bytes[ORDER_AT], bytes[HOLDER_AT]];
    let mut mended = *bytes;
    mended[ORDER_AT..=HOLDER_AT].fill(0);
    let record = record_in(&mended);
    let free = Record {
        table: Table::NONE,
        ..record
    };
    if !free.counts_as_initialized() {
        return Vec::new();
    }
    let (count, pairs) = (record.table.count(), record.table.pairs());
    let tracks: Vec<Track> = pairs.iter().flat_map(|p| [p.bad, p.spare]).collect();
    let equal = pairs.iter().filter(|pair| pair.bad == pair.spare).count();
    let bad = doubles(pairs.iter().map(|pair| pair.bad));
    let spare = doubles(pairs.iter().map(|pair| pair.spare));
    let all = doubles(tracks.iter().copied());
    let any = |is: &dyn Fn(&Track) -> bool| tracks.iter().any(is);
    let so = |way: &TableWay| match way {
        TableWay::ManyPairs => count == 33,
        TableWay::FarTooMany => count > 33,
        TableWay::CylinderOff => any(&|track| track.cylinder >= record.geometry.cylinders),
        TableWay::HeadOff => any(&|track| track.head as u64 >= record.geometry.drive_heads()),
        TableWay::LastByte => any(&|track| track.last != 0),
        TableWay::PairEqual => equal > 0,
        TableWay::BadTwice => bad > 0,
        TableWay::SpareTwice => spare > 0,
        TableWay::BadAndSpare => all > bad + spare + equal,
        TableWay::Order => !Order::is_one(order),
        TableWay::Holder => !Holder::is_one(holder),
    };
    TableWay::ALL.into_iter().filter(so).collect()
}

/// How many pairs of places of a row have the same track.
fn doubles(tracks: impl Iterator<Item = Track>) -> usize {
    let tracks: Vec<Track> = tracks.collect();
    let twice = |k: usize| tracks[k + 1..].iter().filter(|t| **t == tracks[k]).count();
    (0..tracks.len()).map(twice).sum()
}

/// Whether a record would be good but for this: the way makes it bad, and mending it would do.
fn outside(record: &Record, way: Way) -> bool {
    if !record.initialized || record.counts_as_initialized() {
        return false;
    }
    let mut mended = *record;
    let g = &mut mended.geometry;
    let bad = match way {
        Way::NoCylinders => std::mem::replace(&mut g.cylinders, 4096) == 0,
        Way::ManyCylinders => std::mem::replace(&mut g.cylinders, 4096) > 4096,
        Way::NoSectors => std::mem::replace(&mut g.sectors_a_track, 1) == 0,
        Way::ManySectors => std::mem::replace(&mut g.sectors_a_track, 1) > 255,
        Way::BytesOdd => std::mem::replace(&mut g.bytes_a_sector, 64) % 2 == 1,
        Way::BytesFew => std::mem::replace(&mut g.bytes_a_sector, 64) < 64,
        Way::BytesMany => std::mem::replace(&mut g.bytes_a_sector, 64) > 4096,
        Way::NoHeads => {
            let none = g.volumes[0].heads == 0;
            // A head that volume 1 does not have.
            g.volumes[0].start_head = if g.volumes[1].has_head(0) { 63 } else { 0 };
            g.volumes[0].heads = 1;
            none
        }
        Way::End0 => {
            let far = g.volumes[0].present() && g.volumes[0].end() > 64;
            g.volumes[0].start_head = if g.volumes[1].has_head(0) { 63 } else { 0 };
            g.volumes[0].heads = 1;
            far
        }
        Way::End1 => {
            let far = g.volumes[1].present() && g.volumes[1].end() > 64;
            g.volumes[1].heads = 0;
            far
        }
        Way::HeadShared => {
            let shared = (0..64).any(|h| g.volumes[0].has_head(h) && g.volumes[1].has_head(h));
            g.volumes[1].heads = 0;
            shared
        }
        Way::CylinderOfC => {
            let at_c = mended.cylinder == g.cylinders;
            mended.cylinder = 0;
            at_c
        }
        Way::CylinderFar => {
            let past_c = mended.cylinder > g.cylinders;
            mended.cylinder = 0;
            past_c
        }
    };
    bad && mended.counts_as_initialized()
}
