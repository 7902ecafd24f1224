//! Where sectors stand by a record alone: what is asked of the records that a run leaves, beside its
//! inspections, and what the model answers.

use crate::case::{record_in, Case, RecordBytes};
use model::{Address, Found, Record, Track};

/// The codes for a unit that is not initialized, and for a sector that it has not.
pub const NOT_INITIALIZED: u32 = 0x1f7;
pub const NOT_THERE: u32 = 0x1f8;

#[derive(Clone, Copy, Debug, PartialEq, Eq)]
pub enum Asked {
    /// How long the image has to be.
    Need,
    Of {
        volume: u32,
        number: u64,
    },
    At {
        cylinder: u16,
        head: u16,
        sector: u16,
    },
}

/// Its place, its first byte and its mark; or the image's length; or a code.
pub type Answer = Result<Vec<u64>, u32>;

#[derive(Debug, PartialEq, Eq)]
pub struct Told {
    pub unit: usize,
    pub asked: Asked,
    pub answer: Answer,
}

type Kind = (&'static str, fn(&Told) -> bool);

/// What is counted of them.
pub const KINDS: [Kind; 5] = [
    ("length of an image told", |told| {
        told.asked == Asked::Need && told.answer.is_ok()
    }),
    ("sector told by its number", |told| {
        matches!(told.asked, Asked::Of { .. }) && told.answer.is_ok()
    }),
    ("sector told by its address", |told| {
        matches!(told.asked, Asked::At { .. }) && told.answer.is_ok()
    }),
    ("told that there is no such sector", |told| {
        told.answer == Err(NOT_THERE)
    }),
    ("told that a unit is not initialized", |told| {
        told.answer == Err(NOT_INITIALIZED)
    }),
];

/// Each inspection's place is asked for as a number of both volumes and by its address, and so are
/// neighbours, of the unit that it names or, where there is no such unit, of one that there is. The
/// questions go by the bytes alone, so that both sides have the same.
pub fn ask(
    case: &Case,
    records: &[RecordBytes; 2],
    answers: impl Fn(&RecordBytes, Asked) -> Answer,
) -> Vec<Told> {
    let mut told = Vec::new();
    for inspection in &case.inspections {
        let unit = inspection.unit as usize % 2;
        for asked in questions(&records[unit], inspection.unit, inspection.place) {
            let answer = answers(&records[unit], asked);
            told.push(Told {
                unit,
                asked,
                answer,
            });
        }
    }
    told
}

fn questions(bytes: &RecordBytes, unit: u32, place: u64) -> [Asked; 7] {
    let word = |at: usize| bytes[at] as u64 * 256 + bytes[at + 1] as u64;
    let (cylinders, sectors) = (word(4), word(6));
    let end = |at: usize| match bytes[at + 1] {
        0 => 0,
        heads => bytes[at] as u64 + heads as u64,
    };
    let heads = end(10).max(end(12)).max(1);
    let inside = |volume: usize| Asked::Of {
        volume: volume as u32,
        // now and then the first number that the volume has not
        number: place % (cylinders * bytes[11 + 2 * volume] as u64 * sectors + 1),
    };
    let track = place / sectors.max(1);
    let (cylinder, head) = ((track / heads) as u16, (track % heads) as u16);
    let sector = (place % sectors.max(1)) as u16;
    let at = |head, sector| Asked::At {
        cylinder,
        head,
        sector,
    };
    [
        Asked::Need,
        Asked::Of {
            volume: unit,
            number: place,
        },
        inside(0),
        inside(1),
        at(head, sector),
        at(head + 1, sector),
        at(head, sector + 1),
    ]
}

/// What the model answers.
pub fn answer(bytes: &RecordBytes, asked: Asked) -> Answer {
    let record = record_in(bytes);
    if !record.counts_as_initialized() {
        return Err(NOT_INITIALIZED);
    }
    let found = match asked {
        Asked::Need => return Ok(vec![record.geometry.need()]),
        Asked::Of { volume, number } => u8::try_from(volume)
            .ok()
            .and_then(|volume| record.find(volume, number)),
        Asked::At {
            cylinder,
            head,
            sector,
        } => on_the_drive(&record, cylinder, head, sector),
    };
    let found = found.ok_or(NOT_THERE)?;
    let first = found.place * record.geometry.bytes_a_sector as u64;
    let mark = record.geometry.marks_at() + found.marked;
    Ok(vec![found.place, first, mark])
}

/// The sector of an address, which the drive has to have whatever serves its track.
fn on_the_drive(record: &Record, cylinder: u16, head: u16, sector: u16) -> Option<Found> {
    record.geometry.drive_place(Address {
        cylinder: cylinder as u64,
        head: head as u64,
        sector: sector as u64,
    })?;
    record.find_on_track(Track::new(cylinder, head as u8), sector as u64)
}
