//! What contests have walked into, counted from the model's traces: who was refused, who took a drive,
//! who gave it up, and who left it as it was.

use crate::case::{record_in, Case, RecordBytes, HOLDER_AT};
use crate::coverage::{add_all, table, too_seldom};
use crate::sides::Left;
use model::{Controller, Holder, Record, Trace, Visit, COMMANDS};

const RV: u8 = 0x08;

fn reserves(v: &Visit) -> bool {
    v.options & RV != 0
}

fn free(v: &Visit) -> bool {
    v.holder == Holder::Nobody
}

fn own(v: &Visit) -> bool {
    v.holder == v.controller.as_holder()
}

fn others(v: &Visit) -> bool {
    v.holder == v.controller.other().as_holder()
}

fn ended(v: &Visit) -> bool {
    v.answer == 0
}

fn took(v: &Visit) -> bool {
    free(v) && v.held_after != Holder::Nobody
}

fn gave_up(v: &Visit) -> bool {
    own(v) && v.held_after == Holder::Nobody
}

/// Refused before transfer, by another answer than 24.
fn refused(v: &Visit) -> bool {
    !matches!(v.answer, 0 | 20 | 24)
}

/// What a block can walk into, and whether it did.
type Trap = (&'static str, fn(&Visit) -> bool);

const TRAPS: [Trap; 24] = [
    ("24 for the first controller", |v| {
        v.answer == 24 && v.controller == Controller::First
    }),
    ("24 for the second controller", |v| {
        v.answer == 24 && v.controller == Controller::Second
    }),
    ("24 on unit 0", |v| v.answer == 24 && v.unit == 0),
    ("24 on unit 1", |v| v.answer == 24 && v.unit == 1),
    ("24 with RV", |v| v.answer == 24 && reserves(v)),
    ("24 where 11 comes next", |v| {
        v.held_and_not_ready && v.command != 0x87
    }),
    ("24 for an 87 of a unit not initialized", |v| {
        v.held_and_not_ready && v.command == 0x87
    }),
    ("10 on a drive of the other", |v| {
        v.answer == 10 && others(v)
    }),
    ("86 on a drive of the other", |v| {
        v.command == 0x86 && others(v)
    }),
    ("86 with RV on a free drive", |v| {
        v.command == 0x86 && free(v) && reserves(v)
    }),
    ("86 without RV on its own drive", |v| {
        v.command == 0x86 && own(v) && !reserves(v)
    }),
    ("drive kept", |v| {
        ended(v) && own(v) && v.held_after == v.holder && v.command != 0x86
    }),
    ("free drive left free", |v| {
        ended(v) && free(v) && !took(v) && v.command != 0x86
    }),
    ("refused with RV on a free drive", |v| {
        refused(v) && free(v) && reserves(v)
    }),
    ("refused without RV on its own drive", |v| {
        refused(v) && own(v) && !reserves(v)
    }),
    ("87 refused without RV on its own drive", |v| {
        refused(v) && own(v) && !reserves(v) && v.command == 0x87
    }),
    ("20 with RV on a free drive", |v| {
        v.answer == 20 && free(v) && reserves(v)
    }),
    ("20 without RV on its own drive", |v| {
        v.answer == 20 && own(v) && !reserves(v)
    }),
    ("11 on its own drive", |v| v.answer == 11 && own(v)),
    ("87 on its own drive", |v| {
        ended(v) && own(v) && v.command == 0x87
    }),
    ("taken by the first controller", |v| {
        took(v) && v.controller == Controller::First
    }),
    ("taken by the second controller", |v| {
        took(v) && v.controller == Controller::Second
    }),
    ("taken with a table", |v| took(v) && v.landing.pairs > 0),
    ("taken by a block on a spare", |v| {
        took(v) && v.landing.on_spare
    }),
];

/// What a record can be, as it was handed to the first block for its unit, and what came of it.
type RecordTrap = (&'static str, fn(&RecordBytes, &Visit) -> bool);

/// The record with another byte 17.
fn with_holder(bytes: &RecordBytes, number: u8) -> Record {
    let mut other = *bytes;
    other[HOLDER_AT] = number;
    record_in(&other)
}

/// Good but for a number in byte 17 that is no holder.
fn no_holder(bytes: &RecordBytes) -> bool {
    bytes[HOLDER_AT] > 2 && with_holder(bytes, 0).counts_as_initialized()
}

/// Byte 17 says the other controller.
fn says_other(bytes: &RecordBytes, v: &Visit) -> bool {
    bytes[HOLDER_AT] == v.controller.other().as_holder().number()
}

fn other_version(bytes: &RecordBytes) -> bool {
    bytes[0] != 0x02 && bytes[2..4] == [0x01, 0x14]
}

fn other_length(bytes: &RecordBytes) -> bool {
    bytes[0] == 0x02 && bytes[2..4] != [0x01, 0x14]
}

const RECORD_TRAPS: [RecordTrap; 11] = [
    ("11 for holder 3 alone", |b, v| {
        no_holder(b) && b[HOLDER_AT] == 3 && v.answer == 11
    }),
    ("11 for a holder over 3 alone", |b, v| {
        no_holder(b) && b[HOLDER_AT] > 3 && v.answer == 11
    }),
    ("holder over 2 mended by the first's 87", |b, v| {
        let mended = no_holder(b) && v.command == 0x87 && ended(v);
        mended && v.controller == Controller::First
    }),
    ("holder over 2 mended by the second's 87", |b, v| {
        let mended = no_holder(b) && v.command == 0x87 && ended(v);
        mended && v.controller == Controller::Second
    }),
    ("holder over 2 mended and taken", |b, v| {
        no_holder(b) && took(v)
    }),
    ("24 though the flag is not 01", |b, v| {
        b[1] != 0x01 && v.answer == 24
    }),
    ("11 in another version, the other in byte 17", |b, v| {
        other_version(b) && says_other(b, v) && v.answer == 11
    }),
    ("11 in another length, the other in byte 17", |b, v| {
        other_length(b) && says_other(b, v) && v.answer == 11
    }),
    ("87 over another version with the other in it", |b, v| {
        other_version(b) && says_other(b, v) && v.command == 0x87 && ended(v)
    }),
    ("87 over another length with the other in it", |b, v| {
        other_length(b) && says_other(b, v) && v.command == 0x87 && ended(v)
    }),
    ("refused, a holder over 2 left as it came", |b, v| {
        b[HOLDER_AT] > 2 && v.answer != 0
    }),
];

/// What became of a drive last in a contest.
#[derive(Clone, Copy, PartialEq, Eq)]
enum Last {
    Nothing,
    TakenBy(Controller),
    GivenUpBy(Controller),
    Released,
}

/// How the two drives went in the contest so far.
pub struct Story([Last; 2]);

impl Story {
    pub fn new() -> Story {
        Story([Last::Nothing; 2])
    }

    pub fn released(&mut self, unit: usize) {
        self.0[unit] = Last::Released;
    }
}

/// What follows on what, from run to run and along a chain.
const SEQUENCES: [&str; 6] = [
    "24 on a drive that the other took",
    "taken after the other gave it up",
    "taken after it was released",
    "taken and given up in one chain",
    "given up and taken in one chain",
    "inspection of a sector on a held drive",
];

#[derive(Default)]
pub struct Holding {
    runs: [u64; 2],
    blocks: u64,
    /// By command.
    held: [u64; COMMANDS.len()],
    taken: [u64; COMMANDS.len()],
    given_up: [u64; COMMANDS.len()],
    traps: [u64; TRAPS.len()],
    record_traps: [u64; RECORD_TRAPS.len()],
    sequences: [u64; SEQUENCES.len()],
}

impl Holding {
    /// Counts a run.
    pub fn add(&mut self, story: &mut Story, case: &Case, trace: &Trace, left: &Left) {
        self.runs[case.controller as usize] += 1;
        self.blocks += trace.blocks.len() as u64;
        for visit in &trace.blocks {
            self.visit(visit);
            self.follows(story, visit);
        }
        for (unit, bytes) in case.records.iter().enumerate() {
            let mut visits = trace.blocks.iter();
            if let Some(first) = visits.find(|visit| visit.unit as usize == unit) {
                for (k, (_, trap)) in RECORD_TRAPS.iter().enumerate() {
                    self.record_traps[k] += trap(bytes, first) as u64;
                }
            }
        }
        self.in_one_chain(trace);
        for (asked, part) in case.inspections.iter().zip(&left.parts) {
            let record = left.records.get(asked.unit as usize).map(record_in);
            let held = record.is_some_and(|record| record.holder != Holder::Nobody);
            self.sequences[5] += (held && part.bytes > 0) as u64;
        }
    }

    fn visit(&mut self, visit: &Visit) {
        for (k, command) in COMMANDS.iter().enumerate() {
            let this = visit.command == *command;
            self.held[k] += (this && visit.answer == 24) as u64;
            self.taken[k] += (this && took(visit)) as u64;
            self.given_up[k] += (this && gave_up(visit)) as u64;
        }
        for (k, (_, trap)) in TRAPS.iter().enumerate() {
            self.traps[k] += trap(visit) as u64;
        }
    }

    /// What a block came to, after what became of its drive last.
    fn follows(&mut self, story: &mut Story, visit: &Visit) {
        let last = &mut story.0[visit.unit as usize];
        let other = visit.controller.other();
        let after_the_other = *last == Last::TakenBy(other);
        self.sequences[0] += (visit.answer == 24 && after_the_other) as u64;
        self.sequences[1] += (took(visit) && *last == Last::GivenUpBy(other)) as u64;
        self.sequences[2] += (took(visit) && *last == Last::Released) as u64;
        if took(visit) {
            *last = Last::TakenBy(visit.controller);
        } else if gave_up(visit) {
            *last = Last::GivenUpBy(visit.controller);
        }
    }

    fn in_one_chain(&mut self, trace: &Trace) {
        let then = |one: fn(&Visit) -> bool, other: fn(&Visit) -> bool| {
            (0..2).any(|unit| {
                let mut visits = trace.blocks.iter().filter(|visit| visit.unit == unit);
                visits.any(one) && visits.any(other)
            })
        };
        self.sequences[3] += then(took, gave_up) as u64;
        self.sequences[4] += then(gave_up, took) as u64;
    }

    pub fn join(&mut self, other: &Holding) {
        self.blocks += other.blocks;
        add_all(&mut self.runs, &other.runs);
        add_all(&mut self.held, &other.held);
        add_all(&mut self.taken, &other.taken);
        add_all(&mut self.given_up, &other.given_up);
        add_all(&mut self.traps, &other.traps);
        add_all(&mut self.record_traps, &other.record_traps);
        add_all(&mut self.sequences, &other.sequences);
    }

    pub fn runs(&self) -> u64 {
        self.runs.iter().sum()
    }

    pub fn blocks(&self) -> u64 {
        self.blocks
    }

    /// Each thing that has to occur, with how often it did.
    fn things(&self) -> Vec<(String, u64)> {
        let mut things = vec![
            ("runs of the first controller".to_string(), self.runs[0]),
            ("runs of the second controller".to_string(), self.runs[1]),
        ];
        let by_command = [
            ("24 for", &self.held),
            ("taken by", &self.taken),
            ("given up by", &self.given_up),
        ];
        for (what, counts) in by_command {
            for (command, count) in COMMANDS.iter().zip(counts) {
                if *command != 0x86 {
                    things.push((format!("{} {:02X}", what, command), *count));
                }
            }
        }
        let traps = TRAPS.iter().map(|(name, _)| name).zip(self.traps);
        let records = RECORD_TRAPS.iter().map(|(name, _)| name);
        let records = records.zip(self.record_traps);
        let sequences = SEQUENCES.iter().zip(self.sequences);
        for (name, count) in traps.chain(records).chain(sequences) {
            things.push((name.to_string(), count));
        }
        things
    }

    pub fn table(&self) -> String {
        table(&self.things())
    }

    /// What occurred too seldom.
    pub fn missing(&self) -> Vec<String> {
        too_seldom(&self.things())
    }
}
